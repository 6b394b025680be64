//! `vectors [--reference] FOLDER`: each `NAME.in` as the program would read it, against `NAME.out`; then the proposals
//! of judge.txt. They are put to the library, or to the reference.
use differential::calls::{Library, Reference, Sheets};
use differential::reference::model::TABLE_WORDS;
use differential::vectors::{answer_of, fail, files_in, judged, program};
use differential::watch::Watch;
use std::collections::BTreeSet;
use std::fs;
use std::path::Path;

/// How many passed and failed.
#[derive(Default)]
struct Tally {
    passed: usize,
    failed: usize,
}

impl Tally {
    fn note(&mut self, name: &str, expected: &[u8], got: &[u8]) {
        if expected == got {
            self.passed += 1;
            return;
        }
        self.failed += 1;
        println!("FAILED {name}\n  expected {}\n  got      {}", shown(expected), shown(got));
    }
}

fn shown(bytes: &[u8]) -> String {
    let text = String::from_utf8_lossy(bytes);
    let start: String = text.chars().take(200).collect();
    if start.len() < text.len() {
        format!("{start:?} .. ({} bytes)", bytes.len())
    } else {
        format!("{start:?}")
    }
}

fn main() {
    let arguments: Vec<String> = std::env::args().skip(1).collect();
    let words: Vec<&str> = arguments.iter().map(String::as_str).collect();
    let (sheets, tried, folder): (&dyn Sheets, &str, &str) = match words[..] {
        ["--reference", folder] => (&Reference, "reference", folder),
        [folder] => (&Library, "library", folder),
        _ => panic!("usage: vectors [--reference] FOLDER"),
    };
    println!("vectors of {folder} through the {tried}");
    let tally = put_to(sheets, Path::new(folder));
    println!("{} passed, {} failed", tally.passed, tally.failed);
    std::process::exit((tally.failed > 0) as i32);
}

fn put_to(sheets: &dyn Sheets, folder: &Path) -> Tally {
    let (mut tally, watch) = (Tally::default(), Watch::ending());
    for name in names(folder) {
        let text = fs::read(folder.join(format!("{name}.in"))).expect("a text can be read");
        let expected = fs::read(folder.join(format!("{name}.out"))).expect("an answer can be read");
        let got = watch.during(name.clone(), || program(sheets, &text));
        tally.note(&name, &expected, &got);
    }
    judge_file(sheets, folder, &mut tally, &watch);
    tally
}

/// The names of the texts. There are some, and each has its answer and no other has.
fn names(folder: &Path) -> Vec<String> {
    let files = files_in(folder);
    let of_kind = |kind: &'static str| files.iter().filter_map(move |file| Some(file.strip_suffix(kind)?.to_string()));
    let (texts, answers): (BTreeSet<_>, BTreeSet<_>) = (of_kind(".in").collect(), of_kind(".out").collect());
    if let Some(name) = texts.symmetric_difference(&answers).next() {
        fail(&format!("{name} has no text or no answer in {}", folder.display()));
    }
    if texts.is_empty() {
        fail(&format!("{} has no text", folder.display()));
    }
    texts.into_iter().collect()
}

/// The proposals of judge.txt; a folder has some.
fn judge_file(sheets: &dyn Sheets, folder: &Path, tally: &mut Tally, watch: &Watch) {
    let lines = fs::read_to_string(folder.join("judge.txt")).unwrap_or_default();
    if lines.lines().count() < 2 {
        fail(&format!("{} has no judge.txt with a proposal", folder.display()));
    }
    let mut table = Vec::new();
    for (number, line) in lines.lines().enumerate() {
        if let Some(sheet) = line.strip_prefix("sheet ") {
            let text = fs::read(folder.join(sheet)).expect("the sheet of judge.txt");
            table = vec![0; TABLE_WORDS];
            assert_eq!(sheets.read(&text, &mut table), 0, "{sheet} is accepted");
            continue;
        }
        let name = format!("judge.txt, line {}: {line}", number + 1);
        let got = watch.during(name.clone(), || judged(sheets, &table, line));
        tally.note(&name, answer_of(line).as_bytes(), got.as_bytes());
    }
}
