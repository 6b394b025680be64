//! `make_vectors FOLDER` writes the repository's vectors into a folder; `make_vectors --check FOLDER` asks if it has them.
//!
//! The texts and proposals of `cases` have answers made by hand, with which the reference must agree. The others are
//! drawn from seeds, and their answers are the reference's. Nothing here looks at the library.
use differential::calls::{Reference, Sheets};
use differential::cases;
use differential::generate::*;
use differential::reference::judge::YES;
use differential::reference::model::{Model, TABLE_WORDS};
use differential::reference::reader;
use differential::vectors::{answer_of, fail, files_in, judged, program, refused};
use std::collections::BTreeMap;
use std::fs;
use std::path::Path;

/// How many sheets and damaged texts are drawn.
const SHEETS: usize = 16;
const DAMAGED: usize = 16;
/// How long a drawn text may be; its answer three times that.
const BYTES: usize = 1_500;
/// How many proposals are put to a drawn sheet.
const PROPOSALS: usize = 16;

/// Each file's content by its name.
type Files = BTreeMap<String, Vec<u8>>;

fn main() {
    let arguments: Vec<String> = std::env::args().skip(1).collect();
    let words: Vec<&str> = arguments.iter().map(String::as_str).collect();
    let failed = match words[..] {
        ["--check", folder] => check(Path::new(folder), &files()),
        [folder] => write(Path::new(folder), &files()),
        _ => panic!("usage: make_vectors [--check] FOLDER"),
    };
    std::process::exit((failed > 0) as i32);
}

fn files() -> Files {
    let mut files = Files::new();
    let mut judge = String::new();
    for case in cases::all() {
        put(&mut files, &case.name, &case.text, answer_by_hand(&case));
    }
    for (name, lines) in cases::judged() {
        judge += &judged_by_hand(&files, name, lines);
    }
    let sheets = drawn_sheets();
    for (seed, model) in &sheets {
        let (name, text) = (format!("sheet{seed}"), text_of(model));
        put(&mut files, &name, &text, program(&Reference, &text));
        judge += &drawn_proposals(&name, *seed, model);
    }
    for (k, (seed, model)) in sheets.iter().cycle().take(DAMAGED).enumerate() {
        let text = damaged_text(&mut Random::new(1_000 + seed + k as u64), &text_of(model));
        put(&mut files, &format!("damaged{k}"), &text, program(&Reference, &text));
    }
    files.insert("judge.txt".to_string(), judge.into_bytes());
    files
}

fn put(files: &mut Files, name: &str, text: &[u8], answer: Vec<u8>) {
    let twice = files.insert(format!("{name}.in"), text.to_vec()).is_some();
    assert!(!twice, "two vectors are named {name}");
    files.insert(format!("{name}.out"), answer);
}

/// What the program writes, which must be what the case says by hand.
fn answer_by_hand(case: &cases::Case) -> Vec<u8> {
    let answer = program(&Reference, &case.text);
    let good = match case.refusal {
        Some((row, line)) => answer == refused(row, line),
        None => !answer.starts_with(b"refused"),
    };
    if !good {
        let said = String::from_utf8_lossy(&answer);
        fail(&format!("{} is {:?} by hand, and the reference says {said}", case.name, case.refusal));
    }
    answer
}

fn judged_by_hand(files: &Files, name: &str, lines: &[&str]) -> String {
    let mut table = vec![0; TABLE_WORDS];
    assert_eq!(Reference.read(&files[&format!("{name}.in")], &mut table), 0, "{name} is accepted");
    for line in lines {
        let said = judged(&Reference, &table, line);
        if said != answer_of(line) {
            fail(&format!("on {name}, {line}, the reference says {said}"));
        }
    }
    format!("sheet {name}.in\n{}\n", lines.join("\n"))
}

/// Short sheets that the reader accepts, with their seeds. One that row 34 refuses is none: its merged text would be
/// long, and the definitions list it.
fn drawn_sheets() -> Vec<(u64, Model)> {
    let drawn = (1..).map(|seed| (seed, sheet(&mut Random::new(seed))));
    let short = |(_, model): &(u64, Model)| {
        let text = text_of(model);
        if text.len() > BYTES || reader::read(&text, TABLE_WORDS).is_err() {
            return false;
        }
        let answer = program(&Reference, &text);
        answer.len() <= 3 * BYTES && answer != refused(34, 0)
    };
    drawn.filter(short).take(SHEETS).collect()
}

/// A run over a sheet, some of its proposals faulty.
fn drawn_proposals(name: &str, seed: u64, model: &Model) -> String {
    let mut random = Random::new(2_000 + seed);
    let mut table = vec![0; TABLE_WORDS];
    Reference.read(&text_of(model), &mut table);
    let mut here = state(&mut random, model);
    let mut lines = format!("sheet {name}.in\n");
    for _ in 0..PROPOSALS {
        let good = proposal(&mut random, model, &here);
        let bad = random.percent(15).then(|| faulty(&mut random, model, &here, &good));
        let (from, proposed) = bad.unwrap_or((here.clone(), good));
        let line = written(&from, &proposed);
        let answer = judged(&Reference, &table, &line);
        lines += &format!("{line}{answer}\n");
        if answer.starts_with("yes") {
            here = moved(from, &proposed, YES);
        }
    }
    lines
}

/// A proposal as a line of judge.txt, without its answer.
fn written(from: &State, proposed: &Proposed) -> String {
    let state = format!("{}|{}|{}", from.phase, list(&from.locations), list(&from.values));
    match proposed.action {
        Some(action) => format!("step {state}|{action}|{}|{}|", list(&proposed.locations), list(&proposed.values)),
        None => format!("env {state}|{}|", list(&proposed.values)),
    }
}

fn list<T: ToString>(items: &[T]) -> String {
    items.iter().map(T::to_string).collect::<Vec<_>>().join(",")
}

fn write(folder: &Path, files: &Files) -> usize {
    fs::create_dir_all(folder).expect("the folder can be made");
    for (name, content) in files {
        fs::write(folder.join(name), content).expect("a vector can be written");
    }
    println!("{} files in {}", files.len(), folder.display());
    0
}

/// Whether the folder holds these files and no other texts.
fn check(folder: &Path, files: &Files) -> usize {
    println!("are the vectors of {} those that are made?", folder.display());
    let more = files_in(folder)
        .into_iter()
        .filter(|name| name != "README.md" && !files.contains_key(name))
        .map(|name| format!("{name} is not made"));
    let differs = |(name, content): (&String, &Vec<u8>)| {
        let same = fs::read(folder.join(name)).is_ok_and(|found| found == *content);
        (!same).then(|| format!("{name} is another, or is not there"))
    };
    let problems: Vec<String> = files.iter().filter_map(differs).chain(more).collect();
    problems.iter().for_each(|problem| println!("FAILED {problem}"));
    println!("{} passed, {} failed", files.len() - problems.len().min(files.len()), problems.len());
    problems.len()
}
