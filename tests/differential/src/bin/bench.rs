//! Times of the six calls beside the reference, in one run, as Markdown tables. Tables and buffers are not cleared between calls;
//! a ratio is the library's time over the reference's.
use differential::calls::{self, Library, Reference, Sheets};
use differential::generate::{in_format, is_yes};
use differential::reference::model::{TABLE_WORDS, TEXT_BYTES};
use differential::reference::run::{List, ENVIRONMENT};
use differential::reference::{self, judge::Proposal};
use differential::rounds::OVEN;
use std::fmt::Write;
use std::hint::black_box;
use std::time::{Duration, Instant};

/// How long one measurement lasts, and how many there are. The best is taken, for others use the machine too.
const LASTS: Duration = Duration::from_millis(4);
const MEASUREMENTS: usize = 100;
/// How many proposals a list has: steps and changes from outside in turn.
const LISTED: usize = 64;

/// Nanoseconds of one call, in one measurement.
fn time(mut call: impl FnMut()) -> f64 {
    let start = Instant::now();
    let mut count = 0;
    while start.elapsed() < LASTS {
        call();
        count += 1;
    }
    start.elapsed().as_nanos() as f64 / count as f64
}

/// A call on a subject: the nanoseconds of one measurement.
type Measure = fn(&Subject, &dyn Sheets) -> f64;

/// For each sheet the best time of the library and of the reference, measured in turn, so that a busy moment of the machine meets
/// them all.
fn best(subjects: &[Subject], measure: Measure) -> Vec<[f64; 2]> {
    let mut best = vec![[f64::INFINITY; 2]; subjects.len()];
    for _ in 0..MEASUREMENTS {
        for (subject, [library, reference]) in subjects.iter().zip(&mut best) {
            *library = library.min(measure(subject, &Library));
            *reference = reference.min(measure(subject, &Reference));
        }
    }
    best
}

/// A sheet to measure, with a proposal that is answered with yes, and one that can be repeated.
struct Subject {
    name: String,
    text: String,
    table: Vec<u32>,
    locations: Vec<u32>,
    values: Vec<i32>,
    new_values: Vec<i32>,
    new_locations: Vec<u32>,
    action: u32,
    repeated: (u32, Vec<i32>),
}

impl Subject {
    fn new(name: &str, text: String) -> Subject {
        let mut table = vec![0; TABLE_WORDS];
        let answer = Reference.read(text.as_bytes(), &mut table);
        assert_eq!(answer, 0, "{name}: row {}, line {}", calls::row(answer), calls::line(answer));
        let size = Reference.size(&table);
        let (variables, automata) = ((size >> 8 & 0xFF) as usize, (size & 0xFF) as usize);
        Subject {
            name: name.to_string(),
            text,
            table,
            locations: vec![0; automata],
            values: vec![0; variables],
            new_values: vec![0; variables],
            new_locations: vec![0; automata],
            action: 1,
            repeated: (1, vec![0; variables]),
        }
    }

    fn proposal(&self) -> Proposal<'_> {
        Proposal {
            phase: 0,
            locations: &self.locations,
            values: &self.values,
            new_locations: &self.new_locations,
            new_values: &self.new_values,
        }
    }

    fn read(&self, sheets: &dyn Sheets) -> f64 {
        let mut table = vec![0; TABLE_WORDS];
        time(|| {
            black_box(sheets.read(self.text.as_bytes(), &mut table));
        })
    }

    fn write(&self, sheets: &dyn Sheets) -> f64 {
        let mut out = vec![0; TEXT_BYTES];
        time(|| {
            black_box(sheets.write(&self.table, &mut out));
        })
    }

    fn merge(&self, sheets: &dyn Sheets) -> f64 {
        let mut out = vec![0; TEXT_BYTES];
        time(|| {
            black_box(sheets.merge(&self.table, &mut out));
        })
    }

    fn step(&self, sheets: &dyn Sheets) -> f64 {
        time(|| {
            black_box(sheets.step(&self.table, &self.proposal(), self.action));
        })
    }

    fn environment(&self, sheets: &dyn Sheets) -> f64 {
        time(|| {
            black_box(sheets.environment(&self.table, &self.proposal()));
        })
    }

    /// Nanoseconds of one proposal in a list; each is answered with yes and leads back to where the list begins.
    fn run(&self, sheets: &dyn Sheets) -> f64 {
        let (action, values) = &self.repeated;
        let actions = [*action, ENVIRONMENT].repeat(LISTED / 2);
        let new_locations = self.locations.repeat(LISTED);
        let new_values = values.repeat(LISTED);
        let list = List {
            phase: 1,
            locations: &self.locations,
            values,
            actions: &actions,
            new_locations: &new_locations,
            new_values: &new_values,
        };
        let mut answers = [0; LISTED];
        let (mut end_locations, mut end_values) = (self.locations.clone(), values.clone());
        let whole = time(|| {
            let lent = calls::Lent { answers: &mut answers, locations: &mut end_locations, values: &mut end_values };
            black_box(sheets.run(&self.table, &list, lent));
        });
        assert!(answers.iter().all(|answer| is_yes(*answer)), "{}: {answers:?}", self.name);
        whole / LISTED as f64
    }

    /// What each call answers, so that a table of times says what was timed.
    fn answers(&self) -> [String; 6] {
        let merged = Reference.merge(&self.table, &mut vec![0; TEXT_BYTES]);
        let row = calls::row(merged);
        let merge = if row == 0 {
            format!("{} edges, {} bytes", calls::edges(merged), calls::length(merged))
        } else {
            format!("refused {row}")
        };
        let judge = |answer: u32| if answer == 0 { "no" } else { "yes" }.to_string();
        [
            format!("{} bytes", self.text.len()),
            format!("{} bytes", self.text.len()),
            merge,
            judge(Reference.step(&self.table, &self.proposal(), self.action)),
            judge(Reference.environment(&self.table, &self.proposal())),
            format!("each of {LISTED}, yes"),
        ]
    }
}

/// A sheet with so many automata, of which the first few share action 1; the other actions are taken alone.
fn chain(automata: usize, locations: usize, edges: usize, variables: usize, shared: usize) -> String {
    let mut text = format!("format=1\nactions=63\nvariables={variables}\n");
    text.push_str(&"variable=-9,9\n".repeat(variables));
    writeln!(text, "automata={automata}").unwrap();
    for k in 0..automata {
        writeln!(text, "sync={}\nlocations={locations}", if k < shared { "1" } else { "" }).unwrap();
        for _ in 0..locations {
            text.push_str("init=all 0\ninv=le v0 9\n");
        }
        writeln!(text, "edges={edges}").unwrap();
        for e in 0..edges {
            let action = if k < shared && e == 0 { 1 } else { 2 + (k * edges + e) % 60 };
            writeln!(text, "edge={},{action},{},eq n{} v{}", e % locations, (e / 2) % locations, k % variables, e % variables)
                .unwrap();
        }
    }
    let leaves: Vec<String> = (0..automata).map(|k| format!("a{k}")).collect();
    writeln!(text, "compose={}{}", "par ".repeat(automata - 1), leaves.join(" ")).unwrap();
    text
}

/// A sheet with 16 automata, 512 edges, 4,096 nodes, 48 variables and a tree of 64 nodes.
fn at_the_limits() -> String {
    let mut text = "format=1\nactions=63\nvariables=48\n".to_string();
    text.push_str(&"variable=-32768,32767\n".repeat(48));
    text.push_str("automata=16\n");
    // 16 * (32 * 2 + 32 * 6) = 4,096 nodes.
    for k in 0..16 {
        text.push_str("sync=1\nlocations=32\n");
        text.push_str(&"init=all 0\ninv=all 0\n".repeat(32));
        text.push_str("edges=32\n");
        for e in 0..32 {
            let action = if e == 0 { 1 } else { 2 + (k * 32 + e) % 62 };
            writeln!(text, "edge={e},{action},{},all 1 le n{k} add v{} 32767", e % 2, k + 32).unwrap();
        }
    }
    // 31 nodes of leaves and `par`, and 33 `syn`.
    let leaves: Vec<String> = (0..16).map(|k| format!("a{k}")).collect();
    writeln!(text, "compose={}{}{}", "syn 1 ".repeat(33), "par ".repeat(15), leaves.join(" ")).unwrap();
    text
}

fn subjects() -> Vec<Subject> {
    let mut oven = Subject::new("oven", OVEN.to_string());
    oven.new_locations = vec![1, 0];
    oven.repeated = (2, vec![1]);
    vec![
        oven,
        Subject::new("middle", chain(4, 6, 12, 6, 2)),
        Subject::new("merger's limits", chain(16, 4, 20, 32, 3)),
        Subject::new("limits", at_the_limits()),
    ]
}

const CALLS: [(&str, Measure); 6] = [
    ("read", Subject::read),
    ("write", Subject::write),
    ("merge", Subject::merge),
    ("step", Subject::step),
    ("environment", Subject::environment),
    ("run", Subject::run),
];

/// MB/s of the text, for reading and writing.
fn speed(subject: &Subject, call: usize, nanoseconds: f64) -> String {
    match CALLS[call].0 {
        "read" | "write" => format!("{:.1}", subject.text.len() as f64 * 1e3 / nanoseconds),
        _ => String::new(),
    }
}

fn calls_table(subjects: &[Subject]) {
    println!("| call | sheet | what | library, ns | reference, ns | ratio | library, MB/s | reference, MB/s |");
    println!("|---|---|---|---:|---:|---:|---:|---:|");
    for (call, (name, measure)) in CALLS.into_iter().enumerate() {
        for (subject, [library, reference]) in subjects.iter().zip(best(subjects, measure)) {
            println!(
                "| {name} | {} | {} | {library:.0} | {reference:.0} | {:.2} | {} | {} |",
                subject.name,
                subject.answers()[call],
                library / reference,
                speed(subject, call, library),
                speed(subject, call, reference)
            );
        }
    }
}

/// Times of each call on sheets that grow; a factor is the time over that of the first sheet.
fn growth(title: &str, subjects: &[Subject]) {
    println!("\n## {title}\n");
    println!("| call | sheet | what | library, ns | factor | reference, ns | factor | ratio |");
    println!("|---|---|---|---:|---:|---:|---:|---:|");
    for (call, (name, measure)) in CALLS.into_iter().enumerate() {
        let times = best(subjects, measure);
        for (subject, [library, reference]) in subjects.iter().zip(&times) {
            println!(
                "| {name} | {} | {} | {library:.0} | {:.1} | {reference:.0} | {:.1} | {:.2} |",
                subject.name,
                subject.answers()[call],
                library / times[0][0],
                reference / times[0][1],
                library / reference
            );
        }
    }
}

/// The same two automata with more and more locations and edges.
fn sizes() -> Vec<Subject> {
    [1, 2, 4, 8].map(|times| Subject::new(&format!("size {times}"), chain(2, 4 * times, 32 * times, 6, 2))).into()
}

fn automata() -> Vec<Subject> {
    [1, 2, 4, 8, 16].map(|count| Subject::new(&format!("automata: {count}"), chain(count, 4, 12, 6, 2))).into()
}

/// One automaton with 512 edges of seven nodes; the two numbers of each are given.
fn edges_of(name: &str, numbers: fn(i32) -> (i32, i32)) -> Subject {
    let mut text =
        "format=1\nactions=1\nvariables=0\nautomata=1\nsync=\nlocations=1\ninit=all 0\ninv=all 0\nedges=512\n".to_string();
    for (a, b) in (0..512).map(numbers) {
        writeln!(text, "edge=0,1,0,all 2 eq 0 0 eq {a} {b}").unwrap();
    }
    Subject::new(name, text + "compose=a0\n")
}

/// Sheets by what looking for equal edges costs. The library's hash of an edge is a sum in which a word counts 31 times as
/// much as the one after it.
fn equal_edges() -> Vec<Subject> {
    vec![
        edges_of("512 equal edges", |_| (0, 0)),
        edges_of("256 edges twice", |i| (i % 256, 0)),
        edges_of("512 different edges", |i| (i, 0)),
        edges_of("512 different edges of one hash", |i| (i, -31 * i)),
    ]
}

fn merging(title: &str, subjects: &[Subject]) {
    println!("\n## {title}\n");
    println!("| sheet | what | library, ns | reference, ns | ratio |");
    println!("|---|---|---:|---:|---:|");
    for (subject, [library, reference]) in subjects.iter().zip(best(subjects, Subject::merge)) {
        println!("| {} | {} | {library:.0} | {reference:.0} | {:.2} |", subject.name, subject.answers()[2], library / reference);
    }
}

/// The same sheet in a later format: with a list behind each edge, and in format 3 each variable with the automaton
/// that writes it.
fn later(subject: &Subject, format: u32) -> Subject {
    let model = reference::open(&subject.table).expect("a good table");
    let later = in_format(&model, format).expect("no variable is written by two");
    Subject::new(&subject.name, String::from_utf8(reference::write(&later)).unwrap())
}

/// What a later format costs in these calls: a factor is the time over that of the same sheet in format 1.
fn formats(format: u32, subjects: &[Subject], calls: &[&str]) {
    println!("\n## Format {format}\n");
    println!("| call | sheet | what | library, ns | factor | reference, ns | factor | ratio |");
    println!("|---|---|---|---:|---:|---:|---:|---:|");
    let later_ones: Vec<Subject> = subjects.iter().map(|subject| later(subject, format)).collect();
    for (call, (name, measure)) in CALLS.into_iter().enumerate().filter(|(_, (name, _))| calls.contains(name)) {
        let (before, after) = (best(subjects, measure), best(&later_ones, measure));
        for ((subject, before), [library, reference]) in later_ones.iter().zip(before).zip(after) {
            println!(
                "| {name} | {} | {} | {library:.0} | {:.2} | {reference:.0} | {:.2} | {:.2} |",
                subject.name,
                subject.answers()[call],
                library / before[0],
                reference / before[1],
                library / reference
            );
        }
    }
}

fn main() {
    println!("## Calls\n");
    calls_table(&subjects());
    formats(2, &subjects(), &["read", "write", "merge"]);
    formats(3, &subjects(), &["read", "write", "merge", "environment"]);
    growth("Growth with the text", &sizes());
    growth("Growth with the automata", &automata());
    merging("Merging equal edges of seven nodes", &equal_edges());
}
