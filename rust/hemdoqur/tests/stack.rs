//! The stack that include/hemdoqur.h gives each function is enough, on sheets that are as deep and as large as there are.
use hemdoqur::*;
use std::collections::BTreeSet;
use std::thread::Builder;

const HEADER: &str = include_str!("../../../include/hemdoqur.h");

/// The bytes that the header gives a function.
fn stack(function: &str) -> usize {
    let name = format!("#define SHEET_STACK_{function} ");
    HEADER.lines().find_map(|line| line.strip_prefix(&name)?.parse().ok()).expect("the header gives the stack")
}

/// How far down the stack is looked at.
const DEPTH: usize = 1024 * 1024;
const PAINT: u8 = 0xa5;

/// The place of a local of this function, which its caller's next call has too.
#[inline(never)]
fn here() -> *mut u8 {
    let mut local = 0u8;
    std::hint::black_box(&mut local as *mut u8)
}

/// Paints the stack below. A frame that is longer than the page behind a stack's end can step over that page, so that a thread
/// with a small stack would not show it.
#[inline(never)]
fn paint(top: *mut u8) {
    for i in 1024..DEPTH {
        unsafe { top.sub(i).write_volatile(PAINT) };
    }
}

/// How much of what was painted is so no more.
#[inline(never)]
fn used(top: *mut u8) -> usize {
    (1024..DEPTH).rev().find(|&i| unsafe { top.sub(i).read_volatile() } != PAINT).unwrap_or(0)
}

/// Calls in a thread, and asks how much stack they used.
fn within(function: &str, calls: impl FnOnce() + Send + 'static) {
    let measured = move || {
        let top = here();
        paint(top);
        calls();
        used(top)
    };
    let thread = Builder::new().stack_size(2 * DEPTH).spawn(measured).expect("a thread");
    let bytes = thread.join().expect("no call fails");
    println!("{function}: {bytes} bytes");
    assert!(bytes > 2048, "nothing was measured");
    assert!(bytes <= stack(function), "{function}: {bytes} bytes, and the header gives {}", stack(function));
}

const HEAD: &str = "format=1\nactions=63\nvariables=1\nvariable=0,1\nautomata=16\n";

/// Sixteen automata, each with these predicates and two edges by action 1, which all take together.
fn sixteen(predicate: &str, update: &str, compose: &str) -> String {
    let edges = format!("edge=0,1,0,{update}\nedge=0,1,0,eq n0 v0\n");
    let automaton = format!("sync=1\nlocations=1\ninit={predicate}\ninv={predicate}\nedges=2\n{edges}");
    format!("{HEAD}{}compose={compose}\n", automaton.repeat(16))
}

/// Compositions of 64 nodes: a chain to the left, and one to the right.
fn deep_trees() -> [String; 2] {
    let leaves: Vec<String> = (0..16).map(|k| format!("a{k}")).collect();
    let left = format!("{}{}{}", "syn 1 ".repeat(33), "par ".repeat(15), leaves.join(" "));
    let right: String = leaves[..15].iter().map(|leaf| format!("par {leaf} ")).collect();
    [left, format!("{}{right}a15", "syn 1 ".repeat(33))]
}

/// Predicates of depth 24, each nested in another way.
fn deep_predicates() -> Vec<String> {
    vec![
        format!("{}all 0", "not ".repeat(23)),
        format!("{}all 0", "imp all 0 ".repeat(23)),
        format!("{}all 0", "all 1 ".repeat(23)),
        format!("{}any 0", "any 1 ".repeat(23)),
        format!("eq {}v0 0", "add v0 ".repeat(22)),
        format!("eq {}v0 0", "sub 1000000000 ".repeat(22)),
        format!("eq {}mul 1000000000 -1000000000 0", "mul v0 ".repeat(21)),
        format!("eq {}v0 0", "if any 0 v0 ".repeat(22)),
        format!("{}eq v0 0{}", "eq if ".repeat(11), " 0 v0 0".repeat(11)),
    ]
}

/// One automaton with 408 edges, 104 of them twice: merged it has 4,092 nodes, and one edge more would break row 34.
fn most_merged_edges() -> String {
    let edges: String = (0..512).map(|i| format!("edge=0,1,0,eq 0 {}\n", i % 408)).collect();
    format!(
        "format=1\nactions=1\nvariables=0\nautomata=1\nsync=\nlocations=1\ninit=all 0\ninv=all 0\nedges=512\n{edges}compose=a0\n"
    )
}

/// One automaton under 63 `syn`, the deepest tree that there is, with a predicate that is as deep as can be merged.
fn deepest_tree() -> String {
    let deep = format!("{}eq v0 0{}", "eq if ".repeat(10), " 0 v0 0".repeat(10));
    let automaton = format!("sync=\nlocations=1\ninit={deep}\ninv={deep}\nedges=1\nedge=0,1,0,not {deep}\n");
    format!("format=1\nactions=1\nvariables=1\nvariable=0,1\nautomata=1\n{automaton}compose={}a0\n", "syn 1 ".repeat(63))
}

/// One automaton under 63 `ini`; the innermost has this predicate.
fn deepest_start(predicate: &str) -> String {
    let automaton = "sync=\nlocations=1\ninit=all 0\ninv=all 0\nedges=1\nedge=0,1,0,all 0\n";
    let compose = format!("{}ini {predicate} a0", "ini all 0 ".repeat(62));
    format!("format=1\nactions=1\nvariables=1\nvariable=0,1\nautomata=1\n{automaton}compose={compose}\n")
}

/// Sixteen automata with three variables each, which must all choose before the step judge has an answer.
fn deepest_search(compose: &str) -> String {
    let automaton = |k: usize| {
        let [a, b, c] = [3 * k, 3 * k + 1, 3 * k + 2];
        let edges = format!("edge=0,1,0,le n{a} add n{b} n{c}\nedge=0,1,0,eq n{a} n{b}\n");
        format!("sync=1\nlocations=1\ninit=all 0\ninv=all 0\nedges=2\n{edges}")
    };
    let automata: String = (0..16).map(automaton).collect();
    format!("format=1\nactions=1\nvariables=48\n{}automata=16\n{automata}compose={compose}\n", "variable=0,1\n".repeat(48))
}

/// The same in format 3: three variables belong to each automaton.
fn owning_search(compose: &str) -> String {
    let owned = |k: usize| format!("variable=0,1\nowner={}\n", k / 3);
    let variables: String = (0..48).map(owned).collect();
    let text = telling(&deepest_search(compose)).replacen("format=2", "format=3", 1);
    text.replacen(&"variable=0,1\n".repeat(48), &variables, 1)
}

/// Edges that write as many variables as a sheet can have that is merged.
fn most_written() -> String {
    let mentions: String = (0..47).map(|k| format!(" le n{k} 1")).collect();
    let edges: String = (0..20).map(|i| format!("edge=0,1,0,all 48 eq 0 {i}{mentions}\n")).collect();
    let automaton = format!("sync=\nlocations=1\ninit=all 0\ninv=all 0\nedges=20\n{edges}");
    format!("format=1\nactions=1\nvariables=47\n{}automata=1\n{automaton}compose=a0\n", "variable=0,1\n".repeat(47))
}

/// The sheet in format 2: behind each edge the variables whose new value it mentions.
fn telling(text: &str) -> String {
    let lines = text.replacen("format=1", "format=2", 1);
    let told = |line: &str| match line.strip_prefix("edge=") {
        Some(edge) => {
            let new: BTreeSet<u32> = edge.split(' ').filter_map(|word| word.strip_prefix('n')?.parse().ok()).collect();
            let list: Vec<String> = new.iter().map(u32::to_string).collect();
            format!("{line}\nwrites={}\n", list.join(","))
        }
        None => format!("{line}\n"),
    };
    lines.lines().map(told).collect()
}

/// The sheet of one automaton in format 3: each variable belongs to it.
fn owning(text: &str) -> String {
    let owned = |line: &str| format!("{line}\n{}", if line.starts_with("variable=") { "owner=0\n" } else { "" });
    telling(text).replacen("format=2", "format=3", 1).lines().map(owned).collect()
}

fn good_texts() -> Vec<String> {
    let [left, right] = deep_trees();
    let mut texts = vec![sixteen("all 0", "all 0", &left), sixteen("all 0", "all 0", &right), most_merged_edges(), deepest_tree()];
    texts.extend(deep_predicates().iter().map(|predicate| sixteen(predicate, predicate, &left)));
    texts.extend(deep_predicates().iter().map(|predicate| sixteen("all 0", &predicate.replace("v0", "n0"), &right)));
    texts.extend(deep_predicates().iter().map(|predicate| deepest_start(predicate)));
    // As deep as can be merged.
    texts.push(deepest_start(&format!("not {}eq v0 0{}", "eq if ".repeat(10), " 0 v0 0".repeat(10))));
    texts.push(most_written());
    let in_format_2: Vec<String> = texts.iter().map(|text| telling(text)).collect();
    let in_format_3: Vec<String> = texts.iter().filter(|text| text.contains("automata=1\n")).map(|text| owning(text)).collect();
    texts.extend(in_format_2);
    texts.extend(in_format_3);
    texts.extend(deep_trees().iter().map(|tree| owning_search(tree)));
    texts
}

/// Lines that nest as deep as a text can, and lists as long as one.
fn bad_texts() -> Vec<String> {
    let words = ["not ", "imp all 0 ", "all 512 ", "eq if ", "eq add "];
    let nested = |word: &str| word.repeat(60_000 / word.len()) + "all 0";
    let starts = ["ini ", "ini all 0 ", "ini not ", "par ini all 512 "];
    let inits = words.iter().map(|word| format!("{HEAD}sync=\nlocations=1\ninit={}\n", nested(word)));
    let deep = words.iter().map(|word| deepest_start(&nested(word)));
    let lists = ["0,", "1,2,", "47,", ",", "1"].map(|item| format!("\nwrites={}", item.repeat(60_000 / item.len())));
    let long = lists.iter().map(|list| telling(&deepest_tree()).replace("\nwrites=", list));
    inits.chain(deep).chain(starts.iter().map(|word| deepest_start(&nested(word)))).chain(long).collect()
}

fn table_of(text: &str) -> Vec<u32> {
    let mut table = vec![0; TABLE_WORDS];
    assert_eq!(read(text.as_bytes(), &mut table), Ok(()), "{text}");
    table
}

fn tables() -> Vec<Vec<u32>> {
    good_texts().iter().map(|text| table_of(text)).collect()
}

/// A state of each table.
fn lists(table: &[u32]) -> (Vec<u32>, Vec<i32>) {
    let size = size(table).expect("a good table");
    (vec![0; size.automata], vec![0; size.variables])
}

#[test]
fn reading() {
    let (good, bad) = (good_texts(), bad_texts());
    let mut table = vec![0; TABLE_WORDS];
    within("READ", move || {
        assert!(good.iter().all(|text| read(text.as_bytes(), &mut table).is_ok()));
        assert!(bad.iter().all(|text| read(text.as_bytes(), &mut table).is_err()));
    });
}

#[test]
fn writing() {
    let tables = tables();
    let mut out = vec![0; TEXT_BYTES];
    within("WRITE", move || assert!(tables.iter().all(|table| write(table, &mut out).is_ok())));
}

#[test]
fn merging() {
    let mut out = vec![0; TEXT_BYTES];
    assert_eq!(merge(&table_of(&most_merged_edges()), &mut out).map(|merged| merged.edges), Ok(408));
    let tables = tables();
    within("MERGE", move || {
        let merged = tables.iter().filter(|table| merge(table, &mut out).is_ok()).count();
        assert_eq!(merged, 12, "in each format: 408 edges, the deepest tree, the last start, 47 variables; others are too large");
    });
}

#[test]
fn sizes() {
    let tables = tables();
    within("SIZE", move || assert!(tables.iter().all(|table| size(table).is_ok())));
}

#[test]
fn steps() {
    let cases: Vec<_> = tables().into_iter().map(|table| (lists(&table), table)).collect();
    within("STEP", move || {
        for ((locations, values), table) in &cases {
            let from = State { phase: 0, locations, values };
            assert!(step(table, &from, 1, locations, values).is_ok());
        }
    });
}

#[test]
fn searches() {
    let tables: Vec<_> = deep_trees().iter().map(|tree| table_of(&deepest_search(tree))).collect();
    within("STEP", move || {
        let from = State { phase: 0, locations: &[0; 16], values: &[0; 48] };
        for table in &tables {
            assert_eq!(step(table, &from, 1, &[0; 16], &[1; 48]), Ok(Some(true)));
        }
    });
}

#[test]
fn searches_in_runs() {
    let tables: Vec<_> = deep_trees().iter().map(|tree| table_of(&deepest_search(tree))).collect();
    within("RUN", move || {
        let from = State { phase: 0, locations: &[0; 16], values: &[0; 48] };
        let list = Proposals { actions: &[1], locations: &[0; 16], values: &[1; 48] };
        for table in &tables {
            let room = Room { answers: &mut [0; 1], locations: &mut [0; 16], values: &mut [0; 48] };
            assert!(run(table, &from, &list, room).is_ok());
        }
    });
}

#[test]
fn environment_steps() {
    let cases: Vec<_> = tables().into_iter().map(|table| (lists(&table), table)).collect();
    within("ENVIRONMENT", move || {
        for ((locations, values), table) in &cases {
            assert!(environment(table, &State { phase: 0, locations, values }, values).is_ok());
        }
    });
}

#[test]
fn runs() {
    let cases: Vec<_> = tables().into_iter().map(|table| (lists(&table), table)).collect();
    within("RUN", move || {
        for ((locations, values), table) in &cases {
            let from = State { phase: 0, locations, values };
            let (new_locations, new_values) = (locations.repeat(2), values.repeat(2));
            let list = Proposals { actions: &[1, ENVIRONMENT], locations: &new_locations, values: &new_values };
            let (mut locations, mut values) = (locations.clone(), values.clone());
            let room = Room { answers: &mut [0; 2], locations: &mut locations, values: &mut values };
            assert!(run(table, &from, &list, room).is_ok());
        }
    });
}
