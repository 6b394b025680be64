// The step judge's search: `check` compares it with every move tried one by one, `bench` times it on sheets made to be hard.
mod families;
mod sheets;

use families::{choices, crossing, dead, equal, even, nested, odd, parts, random, small, split, uneven, Random};
use sheets::{brute_force, judge, Sheet, Step};
use std::time::Instant;

struct Tally {
    passed: u32,
    failed: u32,
    yes: u32,
    no: u32,
}

impl Tally {
    fn expect(&mut self, name: &str, answer: u32, expected: u32) {
        if answer == 0 { self.no += 1 } else { self.yes += 1 }
        if answer == expected {
            self.passed += 1;
        } else {
            self.failed += 1;
            println!("FAILED: {name}: {answer}, and not {expected}");
        }
    }

    fn compare(&mut self, name: &str, sheet: &Sheet, step: &Step, sure: bool) {
        self.expect(name, judge(&sheet.read(sure), step), brute_force(sheet, step));
    }
}

/// All variables change, or all but the last few.
fn but_last(sheet: &Sheet, few: usize) -> Step {
    let mut step = Step::all(sheet);
    let last = step.changed.len() - few;
    step.changed[last..].fill(false);
    step
}

fn check_small(tally: &mut Tally) {
    let mut r = Random::new(1);
    for i in 0..4000 {
        let (sheet, step) = small(&mut r);
        tally.compare(&format!("small sheet {i}"), &sheet, &step, true);
    }
}

fn check_families(tally: &mut Tally) {
    for seed in 1..=8 {
        for k in 2..=4 {
            for edges in 2..=7 {
                let name = format!("{k} automata, {edges} edges, seed {seed}");
                for few in 0..3 {
                    let sheet = random(k, edges, 3, 3 * k, seed);
                    tally.compare(&format!("random, {name}, {few} kept"), &sheet, &but_last(&sheet, few), true);
                    let sheet = random(k, edges, 2, 2 * k, seed);
                    tally.compare(&format!("random pairs, {name}, {few} kept"), &sheet, &but_last(&sheet, few), true);
                }
                let sheet = split(k, edges, seed);
                tally.compare(&format!("split, {name}"), &sheet, &Step::all(&sheet), true);
                let sheet = odd(k + 1, edges.min(4), (k + 1) | 1, seed);
                tally.compare(&format!("odd, {name}"), &sheet, &Step::all(&sheet), true);
                let sheet = uneven(k, edges, (1, 1), k + 1, k - 1, seed);
                tally.compare(&format!("uneven, {name}"), &sheet, &Step::all(&sheet), true);
                tally.compare(&format!("uneven, {name}, 2 kept"), &sheet, &but_last(&sheet, 2), true);
            }
        }
    }
}

/// Six or seven automata with 48 edges and more, so that the bounds are asked before the search; still few enough to try every
/// move. With one variable less than there is room for, or with as many as there is room for, both answers come up.
fn check_bounds(tally: &mut Tally) {
    for seed in 1..=6 {
        for few in 0..4 {
            let mut compare = |name: &str, sheet: &Sheet| {
                tally.compare(&format!("{name}, seed {seed}, {few} kept"), sheet, &but_last(sheet, few), true);
            };
            compare("six, pairs", &random(6, 8, 2, 12, seed));
            compare("six, threes", &random(6, 8, 3, 15, seed));
            compare("six, two odd parts", &odd(6, 8, 7, seed));
            compare("six, three parts", &parts(6, 8, 2, &[3, 3, 5], seed));
            compare("six, uneven", &uneven(6, 8, (1, 1), 7, 5, seed));
            compare("seven, uneven", &uneven(7, 7, (1, 2), 8, 9, seed));
        }
    }
}

/// Sheets too large for every move to be tried, whose answers are plain.
fn check_large(tally: &mut Tally) {
    for k in [1, 3, 15] {
        let sheet = dead(k, 32);
        tally.expect(&format!("dead, {k} automata"), judge(&sheet.read(false), &Step::all(&sheet)), 0);
    }
    let sheet = equal(16, 32, 1);
    tally.expect("equal edges, what they mention", judge(&sheet.read(false), &Step::all(&sheet)), 2);
    let sheet = equal(16, 32, 2);
    tally.expect("equal edges, one variable more", judge(&sheet.read(false), &Step::all(&sheet)), 0);
    tally.expect("equal edges, that one kept", judge(&sheet.read(false), &but_last(&sheet, 1)), 2);
    let sheet = nested(16, 32, 3);
    tally.expect("nested edges", judge(&sheet.read(false), &Step::all(&sheet)), 2);
    for k in [7, 13, 16] {
        let sheet = odd(k, 32, k | 1, 7);
        tally.expect(&format!("odd, {k} automata"), judge(&sheet.read(false), &Step::all(&sheet)), 0);
        let sheet = uneven(k, 32, (1, 2), k + 1, 2 * k - 1, 7);
        tally.expect(&format!("uneven, {k} automata"), judge(&sheet.read(false), &Step::all(&sheet)), 0);
        let sheet = split(k, 32, 7);
        tally.expect(&format!("split, {k} automata"), judge(&sheet.read(false), &Step::all(&sheet)), 0);
    }
}

fn check() -> bool {
    let mut tally = Tally { passed: 0, failed: 0, yes: 0, no: 0 };
    check_small(&mut tally);
    check_families(&mut tally);
    check_bounds(&mut tally);
    check_large(&mut tally);
    // both answers were given often, so that neither of them alone would pass
    println!("{} yes, {} no", tally.yes, tally.no);
    tally.failed += (tally.yes < 500 || tally.no < 500) as u32;
    println!("{} passed, {} failed", tally.passed, tally.failed);
    tally.failed == 0
}

/// The longest of some calls, each on a sheet of its own seed.
fn row(name: &str, seeds: u64, sheet: impl Fn(u64) -> Sheet) {
    let (mut longest, mut answers) = (0.0f64, String::new());
    for seed in 1..=seeds {
        let sheet = sheet(seed);
        let (table, step) = (sheet.read(false), Step::all(&sheet));
        let began = Instant::now();
        answers += if judge(&table, &step) == 0 { "-" } else { "+" };
        longest = longest.max(began.elapsed().as_secs_f64());
    }
    println!("| {name} | {answers} | {:.3} |", longest * 1000.0);
}

fn bench() {
    println!("| sheets | answers | longest, ms |\n|---|---|---:|");
    for edges in [8, 12, 16, 20, 32] {
        row(&format!("16 automata, {edges} edges of 3 in 48"), 8, |s| random(16, edges, 3, 48, s));
    }
    row("12 automata, 40 edges of 4 in 48", 8, |s| random(12, 40, 4, 48, s));
    row("12 automata, 42 edges of 4 in 48", 8, |s| random(12, 42, 4, 48, s));
    row("12 automata, 20 edges of 4 in 46", 8, |s| random(12, 20, 4, 46, s));
    row("10 automata, 44 edges of 5 in 48", 8, |s| random(10, 44, 5, 48, s));
    row("8 automata, 45 edges of 6 in 48", 8, |s| random(8, 45, 6, 48, s));
    row("8 automata, 45 edges of 6 in 46", 8, |s| random(8, 45, 6, 46, s));
    row("16 automata, 32 edges of 2 in 32", 8, |s| random(16, 32, 2, 32, s));
    row("16 automata, 8 edges of 2 in 32", 8, |s| random(16, 8, 2, 32, s));
    for k in [10, 13, 16] {
        row(&format!("{k} automata, 32 edges of 3 in {}", 3 * k), 8, |s| random(k, 32, 3, 3 * k, s));
    }
    for k in [7, 10, 13, 16] {
        row(&format!("split: {k} automata, 32 edges of 3 in {}", 3 * k), 8, |s| split(k, 32, s));
    }
    for k in [7, 8, 9, 15] {
        row(&format!("dead: {k} automata, 32 edges of 3, and one without"), 1, |_| dead(k, 32));
    }
    row("equal: 16 automata, 32 edges of 1", 1, |_| equal(16, 32, 1));
    row("equal, one variable more", 1, |_| equal(16, 32, 2));
    row("nested: 16 automata, 32 edges of up to 3", 1, |_| nested(16, 32, 3));
    for k in [4, 8, 10, 13, 16] {
        row(&format!("odd: {k} automata, 32 edges of 2 in {}, in two odd parts", 2 * k), 8, |s| odd(k, 32, k | 1, s));
    }
    row("16 automata, 32 edges of 2 in 31, in three odd parts", 8, |s| parts(16, 32, 2, &[11, 11, 9], s));
    row("16 automata, 32 edges of 3 in 48, in parts of 25 and 23", 8, |s| parts(16, 32, 3, &[25, 23], s));
    for k in [8, 10, 13, 16] {
        row(&format!("uneven: {k} automata, 32 edges of 1 in {} and 1 in {}", k + 1, k - 1), 8, |s| {
            uneven(k, 32, (1, 1), k + 1, k - 1, s)
        });
    }
    row("uneven: 16 automata, 32 edges of 1 in 17 and 2 in 31", 8, |s| uneven(16, 32, (1, 2), 17, 31, s));
    row("uneven: 16 automata, 32 edges of 2 in 33 and 1 in 15", 8, |s| uneven(16, 32, (2, 1), 33, 15, s));
    for k in [8, 9, 10] {
        row(&format!("even: {k} automata, 32 edges of 2 or none in {} and the rest of 3 in {}", odd_half(k), 3 * k - odd_half(k)), 4, |s| {
            even(k, 32, odd_half(k), s)
        });
    }
    row("choices: 8 times one of 2 automata, 16 edges of 4 in 32", 4, |s| choices(8, 2, 16, 4, 32, s));
    for k in [7, 8] {
        row(&format!("crossing: {k} automata, 32 edges of 2 in {}, four odd parts, joined by the first", 2 * k), 4, |s| crossing(k, 32, s));
    }
}

fn odd_half(k: usize) -> usize {
    (3 * k / 2) | 1
}

fn main() {
    match std::env::args().nth(1).as_deref() {
        Some("check") => std::process::exit(!check() as i32),
        Some("bench") => bench(),
        _ => std::process::exit(2),
    }
}
