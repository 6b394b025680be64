//! What a round puts to the seven calls: a sheet drawn from its seed, damage of it, and runs over it.
use crate::calls;
use crate::compare::Comparison;
use crate::generate::*;
use crate::reference::judge::{NO, REFUSED};
use crate::reference::model::*;
use crate::reference::{self, reader};
use crate::runs;

/// The oven of the paper.
pub const OVEN: &str = "format=1
actions=2
variables=1
variable=0,1
automata=2
sync=1
locations=2
init=all 0
inv=all 0
init=any 0
inv=eq v0 0
edges=1
edge=0,1,1,all 0
sync=1
locations=1
init=all 0
inv=all 0
edges=2
edge=0,1,0,eq n0 0
edge=0,2,0,eq n0 1
compose=par a0 a1
";

/// One sheet and what belongs to it.
pub fn round(comparison: &mut Comparison, seed: u64) {
    comparison.again = format!("--seed {seed} --calls 1");
    let mut random = Random::new(seed);
    let drawn = sheet(&mut random);
    let text = text_of(&drawn);
    damaged_reads(comparison, &mut random, &text);
    for _ in 0..6 {
        let faulty = faulty_sheet(&mut random, &drawn);
        comparison.read(&text_of(&faulty), &vec![0; TABLE_WORDS]);
    }
    let table = vec![0xDEAD_BEEF; table_length(&mut random)];
    comparison.read(&text, &table);
    let (answer, table) = comparison.read(&text, &vec![7; TABLE_WORDS]);
    let Ok(model) = reader::read(&text, TABLE_WORDS) else {
        return;
    };
    comparison.law("the reference opens its own table", reference_opens(&model), || String::from_utf8_lossy(&text).into());
    if answer != 0 {
        return;
    }
    let out = written(comparison, &mut random, &table, false);
    comparison.law("writing after reading gives the text", out.as_deref() == Some(&text), || String::from_utf8_lossy(&text).into());
    comparison.size(&table);
    judged(comparison, &mut random, &model, &table);
    runs::lists(comparison, &mut random, &model, &table);
    damaged_tables(comparison, &mut random, &model, &table);
    faulty_tables(comparison, &mut random, &model);
    in_other_formats(comparison, &mut random, &model, &table);
    let merged_text = written(comparison, &mut random, &table, true);
    let merged_table = merged_text.map(|text| merged_read(comparison, &text));
    for _ in 0..2 {
        runs::run(comparison, &mut random, &model, &table, merged_table.as_deref());
    }
}

/// Every small damage of the oven, each word of its table, and what stands alone.
pub fn fixed(comparison: &mut Comparison) {
    comparison.again = "--fixed".to_string();
    let mut random = Random::new(0);
    let empty = vec![0; TABLE_WORDS];
    for text in every_damage(OVEN.as_bytes()) {
        comparison.read(&text, &empty);
    }
    let (_, table) = comparison.read(OVEN.as_bytes(), &empty);
    let model = reader::read(OVEN.as_bytes(), TABLE_WORDS).expect("the oven is accepted");
    each_word(comparison, &mut random, &model, &table, 0..60);
    each_word(comparison, &mut random, &model, &table, TABLE_WORDS - 2..TABLE_WORDS);
    for length in [0, 1, 2, 100, 8_191, 8_192, 16_382, 16_383, 16_384, 16_385, 17_000] {
        let mut lent = table.clone();
        lent.resize(length, 5);
        on_any_table(comparison, &mut random, &model, &lent);
        comparison.read(OVEN.as_bytes(), &lent);
        comparison.read(b"", &lent);
        comparison.read(&vec![b'x'; TEXT_BYTES + 1], &lent);
    }
    runs::oven_lists(comparison, &mut random, &model, &table);
    cold_oven(comparison, &mut random, &empty);
    telling_oven(comparison, &mut random, &model, &empty);
    owning_oven(comparison, &mut random, &model, &empty);
    long_texts(comparison, &empty);
    long_compositions(comparison, &empty);
    pairs_of_words(comparison, &empty);
    lines_with_many_faults(comparison, &empty);
    starts_with_many_faults(comparison, &empty);
    lists_with_many_faults(comparison, &empty);
    owners_with_many_faults(comparison, &empty);
    large_values(comparison, &empty);
    longest_texts(comparison, &mut random, &empty);
}

/// Tables with one of these words changed.
fn each_word(comparison: &mut Comparison, random: &mut Random, model: &Model, table: &[u32], places: std::ops::Range<usize>) {
    for at in places {
        let near = [0, table[at].wrapping_add(1), table[at].wrapping_sub(1), random.draw() as u32];
        for word in near.into_iter().chain(WORDS.iter().copied()) {
            let mut damaged = table.to_vec();
            damaged[at] = word;
            on_any_table(comparison, random, model, &damaged);
        }
    }
}

/// The oven with start conditions: every small damage of its composition, in the text and in the table.
fn cold_oven(comparison: &mut Comparison, random: &mut Random, empty: &[u32]) {
    let head = OVEN.trim_end_matches("compose=par a0 a1\n").as_bytes();
    let line = b"compose=ini eq v0 0 par a0 syn 2 ini le v0 1 a1\n";
    for damaged in every_damage(line) {
        comparison.read(&[head, &damaged].concat(), empty);
    }
    let text = [head, line].concat();
    let (_, table) = comparison.read(&text, empty);
    let model = reader::read(&text, TABLE_WORDS).expect("it is accepted");
    each_word(comparison, random, &model, &table, 46..72);
}

/// The oven whose edges say what they write: every small damage of its text, and the words that have its format and its size.
fn telling_oven(comparison: &mut Comparison, random: &mut Random, oven: &Model, empty: &[u32]) {
    let model = Model { format: 2, ..oven.clone() };
    let text = text_of(&model);
    for damaged in every_damage(&text) {
        comparison.read(&damaged, empty);
    }
    let (_, table) = comparison.read(&text, empty);
    each_word(comparison, random, &model, &table, 0..4);
    in_other_formats(comparison, random, &model, &table);
}

/// The oven with a probe, in format 3: every small damage of its text, the words that have its format, its size and its
/// owners, and every environment step.
fn owning_oven(comparison: &mut Comparison, random: &mut Random, oven: &Model, empty: &[u32]) {
    let mut model = in_format(oven, OWNERS_FORMAT).expect("the steam alone writes the valve");
    model.ranges.push((0, 2));
    model.owners.push(None);
    let text = text_of(&model);
    for damaged in every_damage(&text) {
        comparison.read(&damaged, empty);
    }
    let (_, table) = comparison.read(&text, empty);
    each_word(comparison, random, &model, &table, 0..11);
    for (k, word) in (0..2).flat_map(|k| (0..19).map(move |word| (k, word))) {
        let mut damaged = table.clone();
        damaged[owner_place(k)] = word;
        on_any_table(comparison, random, &model, &damaged);
    }
    in_other_formats(comparison, random, &model, &table);
    let (answer, merged_text) = comparison.merge(&table, &vec![0; TEXT_BYTES]);
    let merged = merged_read(comparison, merged_text.get(..calls::length(answer)).unwrap_or(&[]));
    runs::every_environment_step(comparison, &model, &table, &merged);
}

/// Texts at the limit of bytes, and lines that nest as deep as a text can.
fn long_texts(comparison: &mut Comparison, table: &[u32]) {
    for length in [TEXT_BYTES - 1, TEXT_BYTES, TEXT_BYTES + 1] {
        comparison.read(&vec![b'\n'; length], table);
        let mut text = OVEN.as_bytes().to_vec();
        text.resize(length, b' ');
        comparison.read(&text, table);
    }
    let head = "format=1\nactions=1\nvariables=0\nautomata=1\nsync=\nlocations=1\ninit=";
    for (word, last) in [
        ("not ", "all 0"),
        ("imp all 0 ", "all 0"),
        ("all 512 ", ""),
        ("eq if ", ""),
        ("add ", "1"),
        ("all 1 ", "any 0"),
        ("par ", ""),
    ] {
        let text = format!("{head}{}{last}\n", word.repeat(60_000 / word.len()));
        comparison.read(text.as_bytes(), table);
    }
}

/// Compositions that nest as deep as a text can, and start conditions that do.
fn long_compositions(comparison: &mut Comparison, table: &[u32]) {
    for (first, word, last) in [
        ("", "syn 1 ", "a0"),
        ("", "par ", "a0"),
        ("", "syn ", ""),
        ("", "par a0 ", "a0"),
        ("", "syn 0 ", "a0"),
        ("", "ini all 0 ", "a0"),
        ("", "par ini all 0 ", "a0"),
        ("", "ini ", "all 0 a0"),
        ("", "ini all 512 ", "a0"),
        ("", "ini eq if ", "a0"),
        ("ini ", "not ", "all 0 a0"),
        ("ini ", "all 1 ", "all 0 a0"),
        ("ini eq ", "add 0 ", "0 0 a0"),
        ("ini ", "eq if ", "a0"),
    ] {
        let compose = format!("{first}{}{last}", word.repeat(60_000 / word.len()));
        comparison.read(&small_sheet("all 0", "0,1,0,all 0", &compose), table);
    }
}

/// A sheet with these for its init, its edge and its composition; A is 2, V is 1, N is 1.
fn small_sheet(init: &str, edge: &str, compose: &str) -> Vec<u8> {
    let head = "format=1\nactions=2\nvariables=1\nvariable=0,1\nautomata=1\nsync=\nlocations=1";
    format!("{head}\ninit={init}\ninv=all 0\nedges=1\nedge={edge}\ncompose={compose}\n").into_bytes()
}

/// A sheet whose one edge has this update and this list; V is 2.
fn telling_sheet(format: u32, update: &str, list: &str) -> Vec<u8> {
    let head = format!("format={format}\nactions=1\nvariables=2\nvariable=0,1\nvariable=0,1\nautomata=1\nsync=\nlocations=1");
    format!("{head}\ninit=all 0\ninv=all 0\nedges=1\nedge=0,1,0,{update}\nwrites={list}\ncompose=a0\n").into_bytes()
}

/// Each two words after each other, in a predicate, in a composition and behind `ini`.
fn pairs_of_words(comparison: &mut Comparison, table: &[u32]) {
    for first in TOKENS {
        for second in TOKENS {
            let pair = format!("{first} {second}");
            comparison.read(&small_sheet(&pair, "0,1,0,all 0", "a0"), table);
            comparison.read(&small_sheet("all 0", "0,1,0,all 0", &format!("{pair} a0")), table);
            comparison.read(&small_sheet("all 0", "0,1,0,all 0", &format!("ini {pair} a0")), table);
        }
    }
}

/// Lines that break two rows or more: the smallest counts.
fn lines_with_many_faults(comparison: &mut Comparison, table: &[u32]) {
    let huge = "le sub -1 mul mul 536870912 536870912 16 0";
    let deep = format!("{}all 0", "not ".repeat(24));
    let large = format!("all 512 {}", "all 7 all 0 all 0 all 0 all 0 all 0 all 0 all 0 ".repeat(512)).trim_end().to_string();
    let faults = ["foo", "eq v0", "eq 1000000001 0", "eq v1 0", "eq n0 0", "eq n1 0", huge, &deep, &large, "all 0"];
    for first in faults {
        for second in faults {
            let both = format!("all 2 {first} {second}");
            comparison.read(&small_sheet(&both, "0,1,0,all 0", "a0"), table);
            for edge in ["0,1,0", "1,1,0", "0,3,0", "0,1,1", "32,1,0", "0,64,0"] {
                comparison.read(&small_sheet("all 0", &format!("{edge},{both}"), "a0"), table);
            }
        }
    }
    let tall = "syn 1 ".repeat(64);
    for front in ["", "syn 2,1 ", "syn 0 ", "syn 3 ", "syn 64 ", "par ", &tall] {
        for back in ["a0", "a1", "a16", "a0 a0", "a0 a1", "par a0 a0", "foo", "syn 2,2 a0", "syn", "syn a0 a0"] {
            comparison.read(&small_sheet("all 0", "0,1,0,all 0", &format!("{front}{back}")), table);
            comparison.read(&small_sheet("all 0", "0,1,0,all 0", &format!("{tall}{front}{back}")), table);
        }
    }
}

/// Compositions with two start conditions: the smallest row of both counts, and it comes before those of the tree.
fn starts_with_many_faults(comparison: &mut Comparison, table: &[u32]) {
    let deep = format!("{}all 0", "not ".repeat(24));
    // 4,092 nodes: the init, the inv, the edge and one node more make 4,096.
    let large =
        format!("all 8{}{}", format!(" all 511{}", " all 0".repeat(511)).repeat(7), format!(" all 506{}", " all 0".repeat(506)));
    let starts: Vec<&str> = STARTS.iter().copied().chain([deep.as_str(), large.as_str()]).collect();
    let tall = "syn 1 ".repeat(63);
    for first in &starts {
        for second in &starts {
            for (front, middle, back) in
                [("", " ", " a0"), ("", " syn 1 ", " a1"), ("par ", " a0 ", ""), ("a0 ", " ", ""), (&tall, " ", " a0")]
            {
                let compose = format!("{front}ini {first}{middle}ini {second}{back}");
                comparison.read(&small_sheet("all 0", "0,1,0,all 0", &compose), table);
            }
        }
    }
}

/// Lists behind edges that write what they say, or less, or more, or are faulty themselves; and lists as long as a text.
fn lists_with_many_faults(comparison: &mut Comparison, table: &[u32]) {
    let updates = [
        "all 0",
        "eq n0 1",
        "le v0 n1",
        "all 2 eq n1 0 le n0 1",
        "eq v0 if le n1 0 0 1",
        "imp any 0 eq n0 1",
        "eq n2 0",
        "eq n48 0",
        "eq n0",
    ];
    for update in updates {
        for first in LISTS {
            comparison.read(&telling_sheet(1, update, first), table);
            comparison.read(&telling_sheet(2, update, first), table);
            for second in LISTS {
                comparison.read(&telling_sheet(2, update, &format!("{first},{second}")), table);
            }
        }
    }
    for item in ["0,", "1,", "0,1,", "47,", "48,", ",", "0", "1"] {
        let long = item.repeat(60_000 / item.len());
        comparison.read(&telling_sheet(2, "eq n0 1", &long), table);
        comparison.read(&telling_sheet(2, "eq n0 1", long.trim_end_matches(',')), table);
    }
}

/// A sheet with these two owners and this line for its automata, which are two; the edge of the second has this update
/// and this list. V is 2.
fn owned_sheet(owners: [&str; 2], automata: &str, update: &str, list: &str) -> Vec<u8> {
    let [first, second] = owners;
    let variables = format!("variables=2\nvariable=0,1\nowner={first}\nvariable=0,1\nowner={second}");
    let automaton = "sync=\nlocations=1\ninit=all 0\ninv=all 0";
    let edge = format!("edges=1\nedge=0,1,0,{update}\nwrites={list}");
    format!("format=3\nactions=1\n{variables}\n{automata}\n{automaton}\nedges=0\n{automaton}\n{edge}\ncompose=par a0 a1\n")
        .into_bytes()
}

/// Owners that are there, or not, or faulty; before automata of every number; and before edges that write what they
/// own, or not.
fn owners_with_many_faults(comparison: &mut Comparison, table: &[u32]) {
    for first in OWNERS {
        for second in OWNERS {
            comparison.read(&owned_sheet([first, second], "automata=2", "eq n1 1", "1"), table);
        }
        for automata in ["0", "1", "2", "3", "15", "16", "17", "", "02", "1,2", "x", "2\r"] {
            comparison.read(&owned_sheet(["none", first], &format!("automata={automata}"), "all 0", ""), table);
        }
    }
    for owners in [["none", "1"], ["0", "1"], ["1", "1"], ["1", "0"], ["1", "none"], ["2", "1"], ["1", "2"]] {
        for update in ["all 0", "eq n0 1", "le v0 n1", "all 2 eq n1 0 le n0 1", "eq v0 if le n1 v0 v1 1", "imp any 0 eq n0 1"] {
            for list in ["", "0", "1", "0,1", "1,0", "0,0", "1,2", "2", "48", "0,"] {
                comparison.read(&owned_sheet(owners, "automata=2", update, list), table);
            }
        }
    }
}

/// A sheet with one edge by action 1; v0 is -10^9 to 10^9, v1 is 0 to 1.
fn large_sheet(update: &str) -> Vec<u8> {
    let head = "format=1\nactions=1\nvariables=2\nvariable=-1000000000,1000000000\nvariable=0,1\nautomata=1\nsync=";
    format!("{head}\nlocations=1\ninit=all 0\ninv=all 0\nedges=1\nedge=0,1,0,{update}\ncompose=a0\n").into_bytes()
}

/// Large expressions, each two of them under each word that takes two: which of them row 10 refuses, and what the judge
/// says to those that are compared.
fn large_values(comparison: &mut Comparison, table: &[u32]) {
    for first in LARGE {
        for second in LARGE {
            for word in ["add", "sub", "mul", "if le v0 n0"] {
                comparison.read(&large_sheet(&format!("le {word} {first} {second} 0")), table);
            }
            for word in ["eq", "le"] {
                let (_, table) = comparison.read(&large_sheet(&format!("{word} {first} {second}")), table);
                large_steps(comparison, &table);
            }
        }
    }
}

fn large_steps(comparison: &mut Comparison, table: &[u32]) {
    for (k, value) in [1_000_000_000, -1_000_000_000, 65_536, 1, 0].into_iter().enumerate() {
        let v1 = k as i32 % 2;
        let from = State { phase: 1, locations: vec![0], values: vec![value, v1] };
        for new in [value, -value] {
            let proposed = Proposed { action: Some(1), locations: vec![0], values: vec![new, v1] };
            comparison.judge(table, &from, &proposed);
        }
    }
}

/// Sheets whose texts are about as long as there are: with the longest numbers and lists, and as many as there can be.
fn longest_texts(comparison: &mut Comparison, random: &mut Random, empty: &[u32]) {
    for format in 1..=HIGHEST_FORMAT as u32 {
        let model = long_sheet(format);
        let text = text_of(&model);
        let (answer, table) = comparison.read(&text, empty);
        comparison.law("a text can be so long", answer == 0, || format!("format {format}, {} bytes", text.len()));
        on_any_table(comparison, random, &model, &table);
        for length in [text.len(), TEXT_BYTES, TEXT_BYTES + 1] {
            let mut longer = text.clone();
            longer.resize(length, b' ');
            comparison.read(&longer, empty);
        }
    }
}

/// 48 variables, 13 automata, 512 edges, 4,096 nodes, and 64 in the tree.
fn long_sheet(format: u32) -> Model {
    let number = || Expression::Number(LEAST_NUMBER as i32);
    let asked = || Predicate::Eq(number(), number());
    let sync: ActionSet = (1..=HIGHEST_ACTION as u32).collect();
    let automaton = |k: usize| Automaton {
        sync: sync.clone(),
        locations: (0..32).map(|_| Location { init: asked(), invariant: asked() }).collect(),
        edges: (0..39 + (k < 5) as usize).map(|_| Edge { from: 31, action: 63, to: 31, update: asked() }).collect(),
    };
    let mut automata: Vec<Automaton> = (0..13).map(automaton).collect();
    automata[0].locations[0].init = Predicate::All((0..22).map(|_| asked()).collect());
    let beside = |tree, k| Composition::Par(Box::new(tree), Box::new(Composition::Leaf(k)));
    let leaves = (1..13).fold(Composition::Leaf(0), beside);
    let composition = (0..39).fold(leaves, |tree, _| Composition::Syn(sync.clone(), Box::new(tree)));
    let least = (LEAST_NUMBER as i32, LEAST_NUMBER as i32);
    let ranges = vec![least; VARIABLES as usize];
    let owners = vec![None; ranges.len()];
    Model { format, actions: HIGHEST_ACTION as u32, ranges, owners, automata, composition }
}

/// The sheet in each other format that has it.
fn in_other_formats(comparison: &mut Comparison, random: &mut Random, model: &Model, table: &[u32]) {
    for format in (1..=HIGHEST_FORMAT as u32).filter(|format| *format != model.format) {
        if let Some(other) = in_format(model, format) {
            in_other_format(comparison, random, model, table, &other);
        }
    }
}

/// Its table has other words for the format and the owners alone. All that comes of it is alike, but that the
/// environment does not move what belongs to an automaton.
fn in_other_format(comparison: &mut Comparison, random: &mut Random, model: &Model, table: &[u32], other: &Model) {
    let lower = other.format < model.format;
    let text = if lower { lowered(&text_of(model), other.format) } else { text_of(other) };
    let shown = || String::from_utf8_lossy(&text).into_owned();
    let (answer, other_table) = comparison.read(&text, &vec![0; TABLE_WORDS]);
    let same = answer == 0 && other_table[0] == other.format && plain_words(&other_table) == plain_words(table);
    comparison.law("the formats have one table but for format and owners", same, shown);
    let merged = [table, &other_table].map(|table| {
        let (answer, out) = comparison.merge(table, &vec![0; TEXT_BYTES]);
        (calls::row(answer), calls::edges(answer), lowered(out.get(..calls::length(answer)).unwrap_or(&[]), 1))
    });
    comparison.law("the formats merge alike", merged[0] == merged[1], shown);
    for _ in 0..4 {
        let from = state(random, model);
        let proposed = proposal(random, model, &from);
        let answers = [table, &other_table].map(|table| comparison.judge(table, &from, &proposed));
        let [owning, free] = if lower { answers } else { [answers[1], answers[0]] };
        let owned = proposed.action.is_none() && moves(&from, &proposed, model.owned() | other.owned());
        let expected = if owned && free < REFUSED { NO } else { free };
        comparison.law("the formats are judged alike", owning == expected, || format!("{from:?} {proposed:?}"));
    }
}

/// Whether a proposal moves one of these variables.
fn moves(from: &State, proposed: &Proposed, variables: u64) -> bool {
    let pairs = from.values.iter().zip(&proposed.values).enumerate();
    pairs.filter(|(_, (old, new))| old != new).any(|(k, _)| variables >> k & 1 == 1)
}

/// A text without the lines that a lower format does not have.
fn lowered(text: &[u8], format: u32) -> Vec<u8> {
    let has_lists = |line: &&[u8]| format >= LISTS_FORMAT || !line.starts_with(b"writes=");
    let has_owners = |line: &&[u8]| format >= OWNERS_FORMAT || !line.starts_with(b"owner=");
    let first = format!("format={format}").into_bytes();
    let mut lines: Vec<&[u8]> = text.split(|byte| *byte == b'\n').filter(has_lists).filter(has_owners).collect();
    lines[0] = &first;
    lines.join(&b'\n')
}

/// A table's words, those for the format and the owners as in format 1.
fn plain_words(table: &[u32]) -> Vec<u32> {
    let mut words = table.to_vec();
    words[0] = 1;
    (0..table[2].min(VARIABLES as u32) as usize).for_each(|k| words[owner_place(k)] = 0);
    words
}

fn damaged_reads(comparison: &mut Comparison, random: &mut Random, text: &[u8]) {
    // Fewer of the long texts, so that no round takes long.
    let count = if text.len() > 4_000 { 12 } else { 60 };
    for _ in 0..count {
        let damaged = damaged_text(random, text);
        let (answer, table) = comparison.read(&damaged, &vec![0; TABLE_WORDS]);
        if answer == 0 {
            read_back(comparison, &table, &damaged);
        }
    }
}

/// Reader and writer are inverse.
fn read_back(comparison: &mut Comparison, table: &[u32], text: &[u8]) {
    let (answer, out) = comparison.write(table, &vec![1; text.len()]);
    let same = answer == text.len() as u64 && out == text;
    comparison.law("writing after reading gives the text", same, || String::from_utf8_lossy(text).into());
}

/// Writer or merger on buffers around the length of their text; the text, if there is one.
fn written(comparison: &mut Comparison, random: &mut Random, table: &[u32], merged: bool) -> Option<Vec<u8>> {
    let mut put = |length: usize| {
        let out = vec![0xEE; length];
        if merged {
            comparison.merge(table, &out)
        } else {
            comparison.write(table, &out)
        }
    };
    let (answer, out) = put(TEXT_BYTES);
    put(0);
    if calls::row(answer) != 0 {
        return None;
    }
    let length = calls::length(answer);
    for other in [length, length - 1, length + 1, random.below(length), length + random.below(1_000)] {
        put(other);
    }
    out.get(..length).map(<[u8]>::to_vec)
}

/// The merged text is always accepted: its table.
fn merged_read(comparison: &mut Comparison, text: &[u8]) -> Vec<u32> {
    let (answer, table) = comparison.read(text, &vec![3; TABLE_WORDS + 5]);
    comparison.law("the merged text is accepted", answer == 0, || String::from_utf8_lossy(text).into());
    table
}

/// Proposals from many states, also those that the rows refuse.
fn judged(comparison: &mut Comparison, random: &mut Random, model: &Model, table: &[u32]) {
    for _ in 0..25 {
        let from = state(random, model);
        let proposed = proposal(random, model, &from);
        comparison.judge(table, &from, &proposed);
        let (from, proposed) = faulty(random, model, &from, &proposed);
        comparison.judge(table, &from, &proposed);
    }
}

fn damaged_tables(comparison: &mut Comparison, random: &mut Random, model: &Model, table: &[u32]) {
    for _ in 0..10 {
        let mut damaged = damaged_table(random, table);
        if random.percent(15) {
            damaged.resize(table_length(random), 9);
        }
        on_any_table(comparison, random, model, &damaged);
    }
}

/// Tables that are well made, of sheets that are not.
fn faulty_tables(comparison: &mut Comparison, random: &mut Random, model: &Model) {
    for _ in 0..3 {
        let faulty = faulty_sheet(random, model);
        if faulty.automata.iter().all(|automaton| automaton.sync.iter().all(|action| *action < 64)) {
            on_any_table(comparison, random, model, &reference::table(&faulty));
        }
    }
}

/// All calls on a table that may be bad; proposals fit the model that it was made from.
fn on_any_table(comparison: &mut Comparison, random: &mut Random, model: &Model, table: &[u32]) {
    let (answer, out) = comparison.write(table, &vec![0; TEXT_BYTES]);
    comparison.merge(table, &vec![0; TEXT_BYTES]);
    comparison.size(table);
    for _ in 0..2 {
        let from = state(random, model);
        let proposed = proposal(random, model, &from);
        comparison.judge(table, &from, &proposed);
    }
    runs::list_on_any_table(comparison, random, model, table);
    // A table that is not refused has a text, and that text has this table.
    if calls::row(answer) == 0 {
        let (answer, again) = comparison.read(&out[..calls::length(answer)], &vec![1; TABLE_WORDS]);
        comparison
            .law("reading after writing gives the table", answer == 0 && again == table[..TABLE_WORDS], || format!("{table:?}"));
    }
}

/// The reference by itself: a fault of it would else look like the library's.
fn reference_opens(model: &Model) -> bool {
    reference::open(&reference::table(model)).as_ref() == Ok(model)
}
