//! `differential [--seed N] [--calls N] [--fixed] [--soak] [--trace] [--every-row]`: compares the library with the reference, call by call.
//!
//! Round R of seed S is the first round of seed S + R, so `--seed S+R --calls 1` makes it again, without the fixed part.
//! `--fixed` makes the fixed part alone. `--soak` goes on with later seeds until a difference is found; `--trace` names each
//! round before it begins; `--every-row` counts a row of the paper that was never met as a failure.
use differential::calls::Library;
use differential::compare::Comparison;
use differential::rounds;
use std::time::Instant;

struct Options {
    seed: u64,
    calls: u64,
    fixed: bool,
    soak: bool,
    trace: bool,
    every_row: bool,
}

fn options() -> Result<Options, String> {
    let mut options = Options { seed: 1, calls: 100_000, fixed: false, soak: false, trace: false, every_row: false };
    let mut words = std::env::args().skip(1);
    while let Some(word) = words.next() {
        let mut number = || words.next().and_then(|n| n.parse().ok()).ok_or(format!("{word} wants a number"));
        match word.as_str() {
            "--seed" => options.seed = number()?,
            "--calls" => options.calls = number()?,
            "--fixed" => options.fixed = true,
            "--soak" => options.soak = true,
            "--trace" => options.trace = true,
            "--every-row" => options.every_row = true,
            _ => {
                let usage = "differential [--seed N] [--calls N] [--fixed] [--soak] [--trace] [--every-row]";
                return Err(format!("unknown: {word}\nusage: {usage}"));
            }
        }
    }
    Ok(options)
}

fn main() {
    let options = options().unwrap_or_else(|message| {
        eprintln!("{message}");
        std::process::exit(2);
    });
    println!("the library beside the reference, from seed {}", options.seed);
    let start = Instant::now();
    let mut comparison = Comparison::new(&Library);
    if options.fixed || options.calls > 1 {
        rounds::fixed(&mut comparison);
    }
    if !options.fixed {
        compare(&mut comparison, &options, start);
    }
    comparison.summary();
    let missed = if options.every_row { comparison.rows_not_met() } else { Vec::new() };
    missed.iter().for_each(|(call, row)| println!("FAILED: {call} never met row {row}"));
    println!("{:.1} s", start.elapsed().as_secs_f64());
    let failed = comparison.failed + missed.len() as u64;
    println!("{} passed, {failed} failed", comparison.calls - comparison.failed);
    std::process::exit((failed > 0) as i32);
}

fn compare(comparison: &mut Comparison, options: &Options, start: Instant) {
    let mut done = 0;
    loop {
        let seed = options.seed.wrapping_add(done);
        if options.trace {
            eprintln!("round {seed}");
        }
        rounds::round(comparison, seed);
        done += 1;
        if options.soak {
            if done % 1_000 == 0 {
                println!("{done} rounds, {} calls, {:.0} s", comparison.calls, start.elapsed().as_secs_f64());
            }
            if comparison.failed > 0 {
                return;
            }
        } else if comparison.calls >= options.calls {
            return;
        }
    }
}
