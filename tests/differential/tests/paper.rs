//! The reference on the cases that the paper states itself, and the harness on calls that are wrong.
use differential::calls::{self, Lent, Reference, Sheets};
use differential::cases::owners::{PROBE_OVEN, PROBE_OVEN_MERGED};
use differential::compare::Comparison;
use differential::generate::{self, Random};
use differential::reference::judge::{environment_of, step_of, Proposal, NO, REFUSED, YES};
use differential::reference::merge::{count_all, definition_4, distinct, moves, once, Takers};
use differential::reference::model::{Expression, Model, Predicate, EDGES, SPAN, TABLE_WORDS, TEXT_BYTES};
use differential::reference::run::{List, ENVIRONMENT};
use differential::reference::{self, table};
use differential::rounds::{self, OVEN};
use differential::vectors::program;
use differential::watch::Watch;
use std::collections::BTreeSet;
use std::time::Duration;

fn table_of(text: &str) -> Vec<u32> {
    let mut table = vec![0; TABLE_WORDS];
    assert_eq!(Reference.read(text.as_bytes(), &mut table), 0);
    table
}

/// The answer to a step on a sheet of two automata and one variable.
fn step(text: &str, phase: u32, from: ([u32; 2], i32), action: u32, to: ([u32; 2], i32)) -> u32 {
    let proposal = Proposal { phase, locations: &from.0, values: &[from.1], new_locations: &to.0, new_values: &[to.1] };
    Reference.step(&table_of(text), &proposal, action)
}

fn environment(text: &str, phase: u32, from: ([u32; 2], i32), value: i32) -> u32 {
    let proposal = Proposal { phase, locations: &from.0, values: &[from.1], new_locations: &from.0, new_values: &[value] };
    Reference.environment(&table_of(text), &proposal)
}

#[test]
fn on_that_oven() {
    assert_eq!(step(OVEN, 0, ([0, 0], 1), 1, ([1, 0], 0)), 2);
    assert_eq!(step(OVEN, 0, ([0, 0], 0), 2, ([0, 0], 1)), 1);
    assert_eq!(step(OVEN, 1, ([1, 0], 0), 2, ([1, 0], 1)), 0);
    assert_eq!(step(OVEN, 0, ([1, 0], 0), 2, ([1, 0], 0)), 0);
    assert_eq!(environment(OVEN, 1, ([1, 0], 0), 0), 1);
    assert_eq!(environment(OVEN, 1, ([1, 0], 0), 1), 0);
    assert_eq!(step(OVEN, 1, ([0, 0], 1), 1, ([1, 0], 1)), 0);
    assert_eq!(step(OVEN, 1, ([0, 0], 1), 0, ([0, 0], 1)), 0);
    let unshared = OVEN.replacen("sync=1", "sync=", 1);
    assert_eq!(step(&unshared, 0, ([0, 0], 0), 1, ([1, 0], 0)), 0);
}

/// The oven with another composition.
fn composed(compose: &str) -> String {
    OVEN.replace("par a0 a1", compose)
}

#[test]
fn a_start_condition_is_asked_in_phase_0() {
    let cold = composed("ini eq v0 0 par a0 a1");
    assert_eq!(step(&cold, 0, ([0, 0], 1), 1, ([1, 0], 0)), 0);
    assert_eq!(step(&cold, 1, ([0, 0], 1), 1, ([1, 0], 0)), 2);
    assert_eq!(step(&cold, 0, ([0, 0], 0), 2, ([0, 0], 1)), 1);
    assert_eq!(environment(&cold, 0, ([0, 0], 0), 1), 1);
    assert_eq!(environment(&cold, 0, ([0, 0], 1), 0), 0);
    assert_eq!(environment(&cold, 1, ([0, 0], 1), 0), 1);
    // Over the door alone, which is still.
    assert_eq!(step(&composed("par ini eq v0 0 a0 a1"), 0, ([0, 0], 1), 2, ([0, 0], 1)), 0);
}

#[test]
fn the_merged_init_has_the_start_conditions_behind_its_implications() {
    let text = composed("ini le v0 1 par ini eq v0 0 syn 2 ini le 0 v0 a0 ini not eq v0 1 a1");
    let merged = String::from_utf8(program(&Reference, text.as_bytes())).expect("a text");
    let implications = "imp eq v1 0 all 0 imp eq v1 1 any 0 imp eq v2 0 all 0";
    let init = format!("init=all 7 {implications} le v0 1 eq v0 0 le 0 v0 not eq v0 1\n");
    assert!(merged.contains(&init), "{merged}");
    let plain = String::from_utf8(program(&Reference, composed("par syn 2 a0 a1").as_bytes())).expect("a text");
    assert_eq!(merged.replace(&init, &format!("init=all 3 {implications}\n")), plain);
}

#[test]
fn start_conditions_stand_behind_the_tree_in_the_table() {
    let table = table_of(&composed("ini eq v0 0 par a0 ini all 0 a1"));
    let end = [5, 1, 0, 0, 0, 2, 1, 0, 0, 3, 2, 3, 4, 7, 3_147_483_648, 1, 0];
    // The oven's composition begins at word 48.
    assert_eq!(table[48..48 + end.len()], end);
    assert!(table[48 + end.len()..].iter().all(|word| *word == 0));
    let refused = |at: usize, word: u32| {
        let mut damaged = table.clone();
        damaged[at] = word;
        reference::open(&damaged) == Err(19)
    };
    // An `ini` too many or too few, in the tree or behind it; a new value; an action for an `ini`.
    assert!(refused(58, 1) && refused(58, 3) && refused(55, 2) && refused(61, 8) && refused(50, 2));
}

/// The row that a small sheet with this init and this composition gets; 0: it is accepted.
fn row_of(init: &str, compose: &str) -> u32 {
    let head = "format=1\nactions=2\nvariables=1\nvariable=0,1\nautomata=1\nsync=\nlocations=1";
    let text = format!("{head}\ninit={init}\ninv=all 0\nedges=0\ncompose={compose}\n");
    calls::row(Reference.read(text.as_bytes(), &mut vec![0; TABLE_WORDS]))
}

/// Behind `ini` stand the words that an init could have; what is left is the tree.
#[test]
fn a_start_condition_ends_where_its_words_are_complete() {
    let words = ["all", "any", "0", "1", "2", "not", "imp", "eq", "le", "if", "add", "v0", "all 0", "any 1", "eq v0 0", "le"];
    let (mut whole, mut more, mut none) = (0, 0, 0);
    let mut random = Random::new(1);
    for _ in 0..20_000 {
        let drawn: Vec<&str> = (0..1 + random.below(6)).map(|_| random.pick(&words)).collect();
        let line = drawn.join(" ");
        let tokens: Vec<&str> = line.split(' ').collect();
        let sound = (1..=tokens.len()).find(|length| row_of(&tokens[..*length].join(" "), "a0") == 0);
        let expected = match sound {
            Some(length) if length == tokens.len() => 0,
            Some(_) => 13,
            None => 6,
        };
        assert_eq!(row_of("all 0", &format!("ini {line} a0")), expected, "{line}");
        whole += (expected == 0) as usize;
        more += (expected == 13) as usize;
        none += (expected == 6) as usize;
    }
    assert!(whole > 400 && more > 2_000 && none > 10_000, "{whole} {more} {none}");
}

/// The oven whose edges say what they write.
const TELLING: &str = "format=2
actions=2
variables=1
variable=0,1
automata=2
sync=1
locations=2
init=all 0
inv=all 0
init=any 0
inv=eq v0 0
edges=1
edge=0,1,1,all 0
writes=
sync=1
locations=1
init=all 0
inv=all 0
edges=2
edge=0,1,0,eq n0 0
writes=0
edge=0,2,0,eq n0 1
writes=0
compose=par a0 a1
";

#[test]
fn merged_edges_say_what_they_write() {
    let merged = String::from_utf8(program(&Reference, TELLING.as_bytes())).expect("a text");
    let end = "edges=2
edge=0,1,0,all 6 all 0 eq n0 0 eq v1 0 eq n1 1 eq v2 0 eq n2 0
writes=0,1,2
edge=0,2,0,all 3 eq n0 1 eq v2 0 eq n2 0
writes=0,2
compose=a0
";
    assert!(merged.starts_with("format=2\n") && merged.ends_with(end), "{merged}");
    let plain = merged.replace("format=2", "format=1").replace("writes=0,1,2\n", "").replace("writes=0,2\n", "");
    assert_eq!(plain.as_bytes(), program(&Reference, OVEN.as_bytes()));
}

#[test]
fn what_an_edge_writes_has_no_word_in_the_table() {
    let (mut told, plain) = (table_of(TELLING), table_of(OVEN));
    assert_eq!((told[0], plain[0]), (2, 1));
    assert_eq!(told[1..], plain[1..]);
    // In format 3 the valve, which the steam writes, would be nobody's.
    for other in [0, 3, 4, u32::MAX] {
        told[0] = other;
        assert_eq!(reference::open(&told), Err(19));
    }
}

#[test]
fn the_rows_of_a_list_come_after_those_of_its_edge() {
    let refusal = |edge: &str, list: &str| {
        let text = TELLING.replace("edge=0,1,0,eq n0 0\nwrites=0\n", &format!("edge={edge}\nwrites={list}\n"));
        let answer = Reference.read(text.as_bytes(), &mut vec![0; TABLE_WORDS]);
        (calls::row(answer), calls::line(answer))
    };
    let sound = "0,1,0,eq n0 0";
    assert_eq!(refusal(sound, "0"), (0, 0));
    for (list, row) in [("", 44), ("1", 7), ("0,47", 7), ("0,0", 5), ("47,1", 5), ("48", 3), ("0,", 3), (",0", 3), ("1,0,48", 3)] {
        assert_eq!(refusal(sound, list), (row, 21), "{list}");
    }
    for (edge, row) in [("0,1,0", 2), ("0,1,0,eq n99 0", 3), ("0,1,0,eq n0", 6), ("0,1,0,eq n1 0", 7), ("0,3,0,eq n0 0", 12)] {
        assert_eq!(refusal(edge, "48"), (row, 20), "{edge}");
    }
}

/// In the text alone: behind each edge stand the numbers of its words `nK`, each once and rising.
#[test]
fn a_list_has_the_new_values_of_the_edge_s_words() {
    let (mut empty, mut some) = (0, 0);
    for seed in 0..400 {
        let drawn = generate::sheet(&mut Random::new(seed));
        let model = generate::in_format(&drawn, 2).expect("nobody owns anything");
        let text = String::from_utf8(generate::text_of(&model)).expect("a text");
        let lines: Vec<&str> = text.lines().collect();
        for pair in lines.windows(2).filter(|pair| pair[0].starts_with("edge=")) {
            let words = pair[0].split([' ', ',']);
            let new: BTreeSet<u32> = words.filter_map(|word| word.strip_prefix('n')?.parse().ok()).collect();
            let list: Vec<String> = new.iter().map(u32::to_string).collect();
            assert_eq!(pair[1], format!("writes={}", list.join(",")), "{}", pair[0]);
            empty += new.is_empty() as usize;
            some += (new.len() > 1) as usize;
        }
    }
    assert!(empty > 1_000 && some > 500, "{empty} {some}");
}

#[test]
fn a_merged_sheet_owns_its_pointers() {
    assert_eq!(program(&Reference, PROBE_OVEN.as_bytes()), PROBE_OVEN_MERGED.as_bytes());
    // Of the plain oven it is its merged text with lists and owners.
    let owning = TELLING.replacen("format=2", "format=3", 1).replacen("variable=0,1\n", "variable=0,1\nowner=1\n", 1);
    let merged = String::from_utf8(program(&Reference, owning.as_bytes())).expect("a text");
    assert_eq!(merged.matches("owner=0\n").count(), 3);
    let told = merged.replacen("format=3", "format=2", 1).replace("owner=0\n", "");
    assert_eq!(told.as_bytes(), program(&Reference, TELLING.as_bytes()));
}

#[test]
fn an_owner_has_a_word_in_the_table() {
    let table = table_of(PROBE_OVEN);
    assert_eq!(table[..10], [3, 2, 2, 1_000_000_000, 1_000_000_001, 2, 1_000_000_000, 1_000_000_003, 0, 2]);
    let refused = |changes: &[(usize, u32)]| {
        let mut damaged = table.clone();
        changes.iter().for_each(|(at, word)| damaged[*at] = *word);
        reference::open(&damaged) == Err(19)
    };
    // The steam writes the valve: nobody else's it can be. The probe could be anybody's who is there.
    assert!([0, 1, 3, 16, 17, u32::MAX].iter().all(|word| refused(&[(5, *word)])));
    assert!([1, 2].iter().all(|word| !refused(&[(8, *word)])) && [3, 16, 17].iter().all(|word| refused(&[(8, *word)])));
    // Formats without owners have no such word.
    assert!([1, 2].iter().all(|format| refused(&[(0, *format)]) && !refused(&[(0, *format), (5, 0)])));
    assert!([1, 2].iter().all(|format| refused(&[(0, *format), (5, 0), (8, 1)])));
}

#[test]
fn the_rows_of_owners_come_in_order() {
    let refusal = |from: &str, to: &str| {
        assert!(PROBE_OVEN.contains(from));
        let answer = Reference.read(PROBE_OVEN.replacen(from, to, 1).as_bytes(), &mut vec![0; TABLE_WORDS]);
        (calls::row(answer), calls::line(answer))
    };
    assert_eq!(refusal("owner=1\nvariable=0,3", "owner=16\nvariable=3,0"), (3, 5));
    assert_eq!(refusal("variable=0,1\nowner=1", "variable=1,0\nowner=16"), (4, 4));
    assert_eq!(refusal("owner=1\nvariable=0,3\nowner=none", "owner=2\nvariable=0,3\nowner=None"), (3, 7));
    assert_eq!(refusal("owner=none\nautomata=2", "owner=2\nautomata=17"), (3, 8));
    assert_eq!(refusal("owner=none\nautomata=2", "owner=2\nautomata=2,"), (2, 8));
    assert_eq!(refusal("owner=none\nautomata=2\nsync=1", "owner=2\nautomata=2\nsync=0"), (50, 8));
    assert_eq!(refusal("owner=1", "owner=0"), (51, 24));
    assert_eq!(refusal("edge=0,1,0,eq n0 0\nwrites=0", "edge=0,1,0,eq n1 0\nwrites=0"), (44, 24));
    assert_eq!(refusal("edge=0,1,0,eq n0 0\nwrites=0", "edge=0,1,0,eq n1 0\nwrites=1"), (51, 24));
}

#[test]
fn the_environment_moves_probes_alone() {
    let plain: String = PROBE_OVEN.lines().filter(|line| !line.starts_with("owner=")).map(|line| format!("{line}\n")).collect();
    let texts = [PROBE_OVEN.to_string(), plain.replacen("format=3", "format=2", 1)];
    let answers = |phase: u32, locations: [u32; 2], values: [i32; 2], new_values: [i32; 2]| {
        let proposal =
            Proposal { phase, locations: &locations, values: &values, new_locations: &locations, new_values: &new_values };
        texts.clone().map(|text| Reference.environment(&table_of(&text), &proposal))
    };
    assert_eq!(answers(1, [0, 0], [0, 0], [0, 3]), [YES, YES]);
    assert_eq!(answers(1, [0, 0], [0, 0], [1, 0]), [NO, YES]);
    assert_eq!(answers(0, [0, 0], [1, 2], [0, 3]), [NO, YES]);
    assert_eq!(answers(1, [1, 0], [0, 0], [0, 3]), [NO, NO]);
    assert_eq!(answers(0, [1, 0], [0, 0], [0, 1]), [NO, NO]);
    assert_eq!(answers(1, [0, 0], [0, 0], [2, 0]), [REFUSED + 23; 2]);
}

/// Drawn sheets of format 3, and how many of them there are.
fn owning_sheets(seeds: u64) -> (Vec<Model>, usize) {
    let drawn: Vec<Model> =
        (0..seeds).map(|seed| generate::sheet(&mut Random::new(seed))).filter(|model| model.format == 3).collect();
    let count = drawn.len();
    (drawn.into_iter().filter(|model| reference::open(&table(model)).is_ok()).collect(), count)
}

/// In the text alone: what a list names has the list's automaton for its owner. Most drawn sheets are so.
#[test]
fn a_list_has_what_its_automaton_owns() {
    let (models, drawn) = owning_sheets(1_500);
    let (mut some, mut owned, mut free) = (0, 0, 0);
    for model in &models {
        let text = String::from_utf8(generate::text_of(model)).expect("a text");
        let owners: Vec<&str> = text.lines().filter_map(|line| line.strip_prefix("owner=")).collect();
        let mut automaton = 0;
        for line in text.lines() {
            automaton += line.starts_with("sync=") as usize;
            let list = line.strip_prefix("writes=").unwrap_or("").split(',').filter(|k| !k.is_empty());
            let owners_of_list: Vec<&str> = list.map(|k| owners[k.parse::<usize>().expect("a number")]).collect();
            assert!(owners_of_list.iter().all(|owner| *owner == (automaton - 1).to_string()), "{line}");
            some += !owners_of_list.is_empty() as usize;
        }
        owned += owners.iter().filter(|owner| **owner != "none").count();
        free += owners.iter().filter(|owner| **owner == "none").count();
    }
    assert!(3 * drawn > 1_200 && 10 * models.len() > 8 * drawn, "{} of {drawn}", models.len());
    assert!(some > 1_000 && owned > 1_000 && free > 1_000, "{some} {owned} {free}");
}

/// Owners decide some of the drawn environment steps, and some that change a variable are answered with yes all the
/// same.
#[test]
fn drawn_environment_steps_need_owners() {
    let (mut kept, mut moved) = (0, 0);
    for (seed, model) in owning_sheets(600).0.iter().enumerate() {
        let random = &mut Random::new(seed as u64);
        let free = generate::in_format(model, 2).expect("nobody owns anything");
        for _ in 0..30 {
            let state = generate::state(random, model);
            let proposed = generate::proposal(random, model, &state);
            if proposed.action.is_some() || proposed.values == state.values {
                continue;
            }
            let [here, there] = [model, &free].map(|model| environment_of(model, &proposed.from(&state)));
            kept += (here == NO && there == YES) as usize;
            moved += (here == YES) as usize;
        }
    }
    assert!(kept > 100 && moved > 100, "{kept} {moved}");
}

/// A list on the oven from location 0 of both and value 0, and what is then in the place of six answers and of the state at the end.
fn run(phase: u32, actions: &[u32], new_locations: &[u32], new_values: &[i32]) -> (u32, [u32; 6], [u32; 2], [i32; 1]) {
    let (mut answers, mut locations, mut values) = ([9; 6], [9; 2], [9; 1]);
    let list = List { phase, locations: &[0, 0], values: &[0], actions, new_locations, new_values };
    let lent = Lent { answers: &mut answers, locations: &mut locations, values: &mut values };
    (Reference.run(&table_of(OVEN), &list, lent), answers, locations, values)
}

#[test]
fn only_a_yes_moves_a_run() {
    let answers = run(0, &[2, 1, ENVIRONMENT, ENVIRONMENT, 3], &[0, 0, 1, 0, 7, 7, 7, 7, 1, 0], &[1, 0, 1, 0, 0]);
    assert_eq!(answers, (1, [1, 2, 0, 1, 124, 9], [1, 0], [0]));
    assert_eq!(run(0, &[1, 1], &[2, 0, 1, 0], &[0, 0]), (1, [122, 2, 9, 9, 9, 9], [1, 0], [0]));
    assert_eq!(run(0, &[1], &[2, 0], &[0]), (0, [122, 9, 9, 9, 9, 9], [0, 0], [0]));
    assert_eq!(run(1, &[], &[], &[]), (1, [9; 6], [0, 0], [0]));
    assert_eq!(run(1, &[1; 7], &[0; 14], &[0; 7]), (202, [9; 6], [9; 2], [9]));
    assert_eq!(run(1, &[1; 7], &[0; 14], &[0; 8]), (201, [9; 6], [9; 2], [9]));
    assert_eq!(run(2, &[1; 7], &[0; 14], &[0; 8]), (120, [9; 6], [9; 2], [9]));
}

#[test]
fn the_table_has_the_stated_words() {
    let table = table_of(OVEN);
    assert_eq!(table[..7], [1, 2, 1, 1_000_000_000, 1_000_000_001, 0, 2]);
    assert_eq!(table[7..29], [2, 0, 2, 1, 0, 1, 0, 1, 1, 3, 4, 7, 3_147_483_648, 1, 0, 1, 1, 1, 0, 2, 0, 1]);
    assert_eq!((table.len(), table.iter().rposition(|word| *word != 0)), (16_384, Some(16_384 - 16_332 - 1)));
}

#[test]
fn bounds_and_numbers_have_their_words() {
    let text = OVEN.replace("variable=0,1", "variable=-1000000000,1000000000");
    let table = table_of(&text.replace("inv=eq v0 0", "inv=le -1000000000 1000000000"));
    assert_eq!(table[3..5], [0, 2_000_000_000]);
    assert_eq!(table[16..20], [3, 5, 2_147_483_648, 4_147_483_648]);
    let refused = |at: usize, word: u32| {
        let mut damaged = table.clone();
        damaged[at] = word;
        reference::open(&damaged) == Err(19)
    };
    assert!(refused(4, 2_000_000_001) && refused(3, 2_000_000_001) && refused(3, u32::MAX));
    assert!(refused(18, 2_147_483_647) && refused(19, 4_147_483_649) && refused(19, u32::MAX));
    // Of kind 6, which numbers had before, and where a number is no predicate.
    assert!(refused(19, 6) && refused(19, 524_294) && refused(19, 2_147_483_638) && refused(17, 2_147_483_648));
    assert!(!refused(18, 3_147_483_648) && !refused(4, 0));
    assert_eq!(reference::open(&table[1..]), Err(18));
}

/// Each end is inside, and so is all between; one more is outside.
#[test]
fn the_span_has_both_its_ends() {
    use Expression::*;
    let two = |word: fn(Box<Expression>, Box<Expression>) -> Expression, x: &Expression, y: &Expression| {
        word(Box::new(x.clone()), Box::new(y.clone()))
    };
    let numbers = [-1, 1, 1 << 29, 16].map(Number);
    let [minus, one, large, sixteen] = &numbers;
    let top = two(Mul, &two(Mul, large, large), sixteen);
    let bottom = two(Mul, minus, &top);
    assert_eq!(top.interval(&[]), Some((SPAN, SPAN)));
    assert_eq!(bottom.interval(&[]), Some((-SPAN, -SPAN)));
    assert_eq!(two(Sub, &top, &top).interval(&[]), Some((0, 0)));
    let past = [two(Add, &top, one), two(Sub, &bottom, one), two(Add, &top, &top), two(Sub, &bottom, &top)];
    for past in past.into_iter().chain([two(Mul, &top, &top), two(Mul, &top, &bottom)]) {
        assert_eq!(past.interval(&[]), None, "{past:?}");
        assert_eq!(two(Mul, &Number(0), &past).interval(&[]), None, "{past:?}");
    }
    // The paper's example, and a range that is just narrow enough.
    let cube = two(Mul, &two(Mul, &Old(0), &Old(0)), &Old(0));
    assert_eq!(cube.interval(&[(0, 2_000_000)]), None);
    assert_eq!(cube.interval(&[(0, 1_664_510)]), Some((0, 4_611_680_653_431_851_000)));
    assert_eq!(cube.interval(&[(0, 1_664_511)]), None);
}

#[test]
fn a_middle_row_beats_a_later_one() {
    let refusal = |line: usize, text: &str| {
        let mut lines: Vec<&str> = OVEN.lines().collect();
        lines[line - 1] = text;
        let answer = Reference.read((lines.join("\n") + "\n").as_bytes(), &mut vec![0; TABLE_WORDS]);
        (calls::row(answer), calls::line(answer))
    };
    assert_eq!(refusal(4, "variable=1000000001,9"), (3, 4));
    assert_eq!(refusal(8, "init=foo 1000000001"), (3, 8));
    assert_eq!(refusal(8, "init=eq v9"), (6, 8));
    assert_eq!(refusal(8, "init=eq n9 0"), (7, 8));
    assert_eq!(refusal(13, "edge=0,3,0,eq v0"), (6, 13));
    assert_eq!(refusal(21, "compose=par a1 syn 2,1 a0"), (5, 21));
    let deep = "not ".repeat(24) + "all 0";
    let large = format!("all 9{}", format!(" all 500{}", " all 0".repeat(500)).repeat(9));
    let huge = "le mul mul 1000000000 1000000000 5 0";
    let faults = ["eq v0 1000000001", "syn 2,1", "eq v0", "eq v1 0", "eq n0 0", &deep, huge, &large];
    let rows = [3, 5, 6, 7, 8, 9, 10, 11];
    for (i, first) in faults.iter().enumerate() {
        for (j, second) in faults.iter().enumerate() {
            // With a word between them, the first takes none of the second's.
            let line = format!("compose=ini {first} a0 ini {second}");
            assert_eq!(refusal(21, &line), (rows[i.min(j)], 21), "{line}");
        }
        assert_eq!(refusal(21, &format!("compose=par a1 ini all 0 ini {first}")), (rows[i], 21));
    }
    assert_eq!(refusal(21, "compose=par a1 ini all 0"), (13, 21));
    assert_eq!(refusal(21, "compose=par a1 ini all 0 a0"), (14, 21));
}

/// Whether a predicate is true of old and new values.
type Holds = fn(&Predicate, &[i32], &[i32]) -> bool;

/// Whether these takers allow the step: each takes its edge, all others are still, and who changes a variable mentions it.
fn allows(model: &Model, proposal: &Proposal, takers: &Takers, holds: Holds) -> bool {
    let (old, new) = (proposal.values, proposal.new_values);
    let mentioned = takers.iter().fold(0, |all, (_, edge)| all | edge.update.mentions_new());
    let framed = (0..old.len()).all(|k| old[k] == new[k] || mentioned >> k & 1 == 1);
    let automaton_allows = |i: usize| {
        let locations = &model.automata[i].locations;
        let (from, to) = (proposal.locations[i] as usize, proposal.new_locations[i] as usize);
        let moves = match takers.iter().find(|(k, _)| *k == i) {
            Some((_, edge)) => edge.from == from && edge.to == to && holds(&edge.update, old, new),
            None => from == to,
        };
        let started = proposal.phase == 1 || holds(&locations[from].init, old, old);
        moves && started && holds(&locations[from].invariant, old, old) && holds(&locations[to].invariant, new, new)
    };
    let started = proposal.phase == 1 || model.composition.starts().iter().all(|p| holds(p, old, old));
    framed && started && (0..model.automata.len()).all(automaton_allows)
}

/// Whether some takers do.
fn some_allow(model: &Model, proposal: &Proposal, action: u32, holds: Holds) -> bool {
    moves(model, &model.composition, action).iter().any(|takers| allows(model, proposal, takers, holds))
}

/// Drawn steps on drawn sheets, those without too many merged edges.
fn each_step(mut visit: impl FnMut(&Model, &Proposal, u32)) {
    for seed in 0..400 {
        let random = &mut Random::new(seed);
        let model = generate::sheet(random);
        if reference::open(&table(&model)).is_err() || count_all(&model) > EDGES as u128 {
            continue;
        }
        for _ in 0..30 {
            let state = generate::state(random, &model);
            let proposed = generate::proposal(random, &model, &state);
            let Some(action) = proposed.action else { continue };
            visit(&model, &proposed.from(&state), action);
        }
    }
}

/// The search of the reference's judge against a trial of every merged edge.
#[test]
fn the_search_finds_what_there_is() {
    let mut tried = 0;
    each_step(|model, proposal, action| {
        let answer = step_of(model, proposal, action);
        let expected = some_allow(model, proposal, action, Predicate::holds);
        assert!(answer < REFUSED && (answer > 0) == expected, "{model:?} {proposal:?} {action}");
        tried += 1;
    });
    assert!(tried > 2_000, "{tried}");
}

/// The truth of a predicate where each part of an expression is made narrower.
fn narrow(p: &Predicate, old: &[i32], new: &[i32], cut: fn(i128) -> i128) -> bool {
    use Predicate::*;
    let holds = |p: &Predicate| narrow(p, old, new, cut);
    let value = |x: &Expression| narrow_value(x, old, new, cut);
    match p {
        All(operands) => operands.iter().all(holds),
        Any(operands) => operands.iter().any(holds),
        Not(p) => !holds(p),
        Imp(p, q) => !holds(p) || holds(q),
        Eq(x, y) => value(x) == value(y),
        Le(x, y) => value(x) <= value(y),
    }
}

fn narrow_value(x: &Expression, old: &[i32], new: &[i32], cut: fn(i128) -> i128) -> i128 {
    use Expression::*;
    let value = |x: &Expression| narrow_value(x, old, new, cut);
    match x {
        Add(x, y) => cut(value(x) + value(y)),
        Sub(x, y) => cut(value(x) - value(y)),
        Mul(x, y) => cut(value(x) * value(y)),
        If(p, x, y) => value(if narrow(p, old, new, cut) { x } else { y }),
        leaf => leaf.value(old, new),
    }
}

/// Values that wrap at 32 bits, stop at their ends, or are rounded: drawn steps tell each of them from the right ones.
#[test]
fn drawn_steps_need_wide_values() {
    let narrower: [Holds; 3] = [
        |p, old, new| narrow(p, old, new, |n| n as i32 as i128),
        |p, old, new| narrow(p, old, new, |n| n.clamp(i32::MIN as i128, i32::MAX as i128)),
        |p, old, new| narrow(p, old, new, |n| n as f64 as i128),
    ];
    let mut told = [0; 3];
    each_step(|model, proposal, action| {
        let right = some_allow(model, proposal, action, Predicate::holds);
        for (told, holds) in told.iter_mut().zip(narrower) {
            *told += (some_allow(model, proposal, action, holds) != right) as usize;
        }
    });
    assert!(told.iter().all(|told| *told > 10), "{told:?}");
}

/// To drop an automaton's equal edges before merging is to drop the equal merged edges from the list of all.
#[test]
fn equal_edges_are_dropped_before_or_after() {
    let (mut tried, mut shorter) = (0, 0);
    for seed in 0..2_000 {
        let model = generate::sheet(&mut Random::new(seed));
        if reference::open(&table(&model)).is_err() || count_all(&model) > 4 * EDGES as u128 {
            continue;
        }
        let all = definition_4(&model);
        let left = once(&all.automata[0].edges);
        assert_eq!(definition_4(&distinct(&model)).automata[0].edges, left, "seed {seed}");
        tried += 1;
        shorter += (left.len() < all.edges()) as usize;
    }
    assert!(tried > 1_000 && shorter > 100, "{tried} {shorter}");
}

/// How a `Sheets` can be wrong, in an answer or beside it.
enum Wrong {
    Answer,
    Table,
    Buffer,
    Mark,
    Rest,
    Still,
    End,
    Size,
    Start,
    List,
    Format,
    Owner,
    Unowned,
    Pointer,
}

/// The table with start conditions that always hold.
fn unstarted(table: &[u32]) -> Vec<u32> {
    let Ok(mut model) = reference::open(table) else {
        return table.to_vec();
    };
    model.composition.starts_mut().into_iter().for_each(|p| *p = Predicate::All(Vec::new()));
    reference::table(&model)
}

impl Sheets for Wrong {
    fn read(&self, text: &[u8], table: &mut [u32]) -> u64 {
        let answer = Reference.read(text, table);
        if matches!(self, Wrong::Table) && answer != 0 && !table.is_empty() {
            table[0] ^= 1;
        }
        match (self, calls::row(answer)) {
            // What an edge writes is not compared with what it says, or with what its automaton owns.
            (Wrong::List, 44) | (Wrong::Owner, 51) => return 0,
            _ => {}
        }
        answer + (matches!(self, Wrong::Answer) && text.len() == 100) as u64
    }

    fn write(&self, table: &[u32], out: &mut [u8]) -> u64 {
        let answer = Reference.write(table, out);
        if matches!(self, Wrong::Buffer) && calls::row(answer) == 0 && calls::length(answer) < out.len() {
            out[calls::length(answer)] = 0;
        }
        answer
    }

    fn merge(&self, table: &[u32], out: &mut [u8]) -> u64 {
        let mut table = table.to_vec();
        // The merged text has no lists.
        if matches!(self, Wrong::Format) && table.first() == Some(&2) {
            table[0] = 1;
        }
        let answer = Reference.merge(&table, out);
        // The last pointer belongs to an automaton that is not there.
        if matches!(self, Wrong::Pointer) && calls::row(answer) == 0 && table[0] == 3 {
            let owner = out.windows(7).rposition(|line| line == b"owner=0").expect("a pointer's");
            out[owner + 6] = b'1';
        }
        answer
    }

    fn step(&self, table: &[u32], proposal: &Proposal, action: u32) -> u32 {
        let answer = Reference.step(table, proposal, action);
        match self {
            Wrong::Mark if answer == 1 => 2,
            // Start conditions are not asked.
            Wrong::Start if answer == 0 => Reference.step(&unstarted(table), proposal, action),
            _ => answer,
        }
    }

    fn environment(&self, table: &[u32], proposal: &Proposal) -> u32 {
        match (self, reference::open(table)) {
            // The environment moves what is an automaton's.
            (Wrong::Unowned, Ok(model)) => environment_of(&generate::in_format(&model, 1).expect("nobody owns anything"), proposal),
            _ => Reference.environment(table, proposal),
        }
    }

    fn run(&self, table: &[u32], list: &List, lent: Lent) -> u32 {
        let Lent { answers, locations, values } = lent;
        let answer = Reference.run(table, list, Lent { answers, locations, values });
        let count = list.actions.len();
        match self {
            Wrong::Rest if answer < REFUSED && count < answers.len() => answers[count] = 0,
            // The state at the end is that of the beginning.
            Wrong::End if answer < REFUSED => values[..list.values.len()].copy_from_slice(list.values),
            // The last proposal is judged from where the run began.
            Wrong::Still if answer < REFUSED && count > 0 => {
                let (n, v) = (list.new_locations.len() / count, list.new_values.len() / count);
                let last = List {
                    actions: &list.actions[count - 1..],
                    new_locations: &list.new_locations[n * (count - 1)..],
                    new_values: &list.new_values[v * (count - 1)..],
                    ..*list
                };
                let lent = Lent { answers: &mut answers[count - 1..], locations: &mut [0; 16], values: &mut [0; 48] };
                Reference.run(table, &last, lent);
            }
            _ => {}
        }
        answer
    }

    fn size(&self, table: &[u32]) -> u64 {
        let answer = Reference.size(table);
        if matches!(self, Wrong::Size) && calls::row(answer) == 0 {
            answer & !0xFF_0000
        } else {
            answer
        }
    }
}

/// What the comparison asks beside the answers holds of the reference itself; so it is not the laws that are wrong.
#[test]
fn the_reference_keeps_the_laws() {
    let mut comparison = Comparison::new(&Reference);
    rounds::fixed(&mut comparison);
    (1..60).for_each(|seed| rounds::round(&mut comparison, seed));
    assert_eq!(comparison.failed, 0);
    assert_eq!(comparison.rows_not_met(), []);
}

#[test]
fn wrong_calls_are_noticed() {
    use Wrong::*;
    for wrong in [Answer, Table, Buffer, Mark, Rest, Still, End, Size, Start, List, Format, Owner, Unowned, Pointer] {
        let mut comparison = Comparison::new(&wrong);
        comparison.quiet = true;
        rounds::fixed(&mut comparison);
        let mut seeds = 1..20;
        while let Some(seed) = seeds.next().filter(|_| comparison.failed == 0) {
            rounds::round(&mut comparison, seed);
        }
        assert!(comparison.failed > 0);
    }
}

#[test]
fn rows_that_were_not_met_are_named() {
    let mut comparison = Comparison::new(&Reference);
    comparison.read(OVEN.as_bytes(), &vec![0; TABLE_WORDS]);
    comparison.read(b"", &vec![0; TABLE_WORDS]);
    let missed = comparison.rows_not_met();
    assert!(!missed.contains(&("read", 2)) && missed.contains(&("read", 3)) && missed.contains(&("merge", 34)));
    // 20 rows of the reader, 3, 7, 7, 6, 9 and 2 of the others; one was met.
    assert_eq!(missed.len(), 53);
}

#[test]
fn a_call_that_does_not_come_back_is_noticed() {
    let (tell, told) = std::sync::mpsc::channel();
    let watch = Watch::new(Duration::from_millis(40), move |name| tell.send(name.to_string()).expect("the test waits"));
    assert_eq!(watch.during("quick".to_string(), || 7), 7);
    std::thread::sleep(Duration::from_millis(200));
    assert!(told.try_recv().is_err());
    watch.during("slow".to_string(), || std::thread::sleep(Duration::from_millis(400)));
    assert_eq!(told.try_recv().as_deref(), Ok("slow"));
}

#[test]
fn a_buffer_is_long_enough_or_refused() {
    let table = table_of(OVEN);
    let answer = Reference.merge(&table, &mut vec![0; TEXT_BYTES]);
    assert_eq!((calls::row(answer), calls::edges(answer), calls::length(answer)), (0, 2, 354));
    assert_eq!(Reference.merge(&table, &mut [0; 354]), answer);
    assert_eq!(calls::row(Reference.merge(&table, &mut [0; 353])), 35);
}
