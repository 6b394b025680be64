//! One call, put to what is tried and to the reference: answers and all lent memory must be the same.
use crate::calls::{self, Reference, Sheets};
use crate::generate::{is_yes, Listed, Proposed, State};
use crate::lent::Lent;
use crate::reference::judge::{Proposal, REFUSED};
use crate::reference::run::List;
use crate::watch::Watch;
use std::ops::RangeInclusive;
use std::time::{Duration, Instant};

const CALLS: [&str; 7] = ["read", "write", "merge", "step", "environment", "run", "size"];

/// The paper's rows that each of them can be refused by. A list's own three faults are counted as 101 to 103.
const ROWS: [&[RangeInclusive<u32>]; CALLS.len()] = [
    &[1..=16, 18..=18, 44..=44, 50..=51],
    &[18..=19, 35..=35],
    &[18..=19, 31..=35],
    &[18..=24],
    &[18..=23],
    &[18..=23, 101..=103],
    &[18..=19],
];

pub struct Comparison<'a> {
    tried: &'a dyn Sheets,
    /// Notices calls that do not come back.
    pub watch: Watch,
    pub calls: u64,
    pub failed: u64,
    /// The options that make the present calls again.
    pub again: String,
    /// Differences are counted and not printed.
    pub quiet: bool,
    /// How many of each call there were, the longest time that one took, and how many were answered with no row.
    pub counts: [u64; CALLS.len()],
    pub slowest: [Duration; CALLS.len()],
    pub good: [u64; CALLS.len()],
    pub rows: std::collections::BTreeMap<(&'static str, u32), u64>,
    /// How many runs were compared with merged ones, how many proposals the judges answered with yes, and how many answers lists had.
    pub runs: u64,
    pub yes: u64,
    pub listed: u64,
    margin: usize,
}

impl<'a> Comparison<'a> {
    pub fn new(tried: &'a dyn Sheets) -> Comparison<'a> {
        Comparison {
            tried,
            watch: Watch::ending(),
            calls: 0,
            failed: 0,
            again: String::new(),
            quiet: false,
            counts: [0; CALLS.len()],
            slowest: [Duration::ZERO; CALLS.len()],
            good: [0; CALLS.len()],
            rows: Default::default(),
            runs: 0,
            yes: 0,
            listed: 0,
            margin: 3,
        }
    }

    /// The reader's answer, and the table after it.
    pub fn read(&mut self, text: &[u8], table: &[u32]) -> (u64, Vec<u32>) {
        let lent_text = Lent::new(text, self.next_margin());
        let mut lent = Lent::new(table, self.margin);
        let mut expected_table = table.to_vec();
        let tried = self.tried;
        let got = self.timed(0, || tried.read(lent_text.part(), lent.part_mut()));
        let expected = Reference.read(text, &mut expected_table);
        self.row(0, calls::row(expected));
        let found = differs(&got, &expected).or(lent.difference(&expected_table)).or(lent_text.difference(text));
        self.note(0, found, || format!("table of {} words, text:\n{}", table.len(), String::from_utf8_lossy(text)));
        (got, lent.part().to_vec())
    }

    /// The writer's answer, and the buffer after it.
    pub fn write(&mut self, table: &[u32], out: &[u8]) -> (u64, Vec<u8>) {
        self.spell(1, table, out)
    }

    /// The merger's answer, and the buffer after it.
    pub fn merge(&mut self, table: &[u32], out: &[u8]) -> (u64, Vec<u8>) {
        self.spell(2, table, out)
    }

    fn spell(&mut self, call: usize, table: &[u32], out: &[u8]) -> (u64, Vec<u8>) {
        let lent_table = Lent::new(table, self.next_margin());
        let mut lent = Lent::new(out, self.margin);
        let mut expected_out = out.to_vec();
        let put = |sheets: &dyn Sheets, table: &[u32], out: &mut [u8]| {
            if call == 1 {
                sheets.write(table, out)
            } else {
                sheets.merge(table, out)
            }
        };
        let tried = self.tried;
        let got = self.timed(call, || put(tried, lent_table.part(), lent.part_mut()));
        let expected = put(&Reference, table, &mut expected_out);
        self.row(call, calls::row(expected));
        let found = differs(&got, &expected).or(lent.difference(&expected_out)).or(lent_table.difference(table));
        self.note(call, found, || format!("buffer of {} bytes, {}", out.len(), shown(table)));
        (got, lent.part().to_vec())
    }

    /// A judge's answer.
    pub fn judge(&mut self, table: &[u32], state: &State, proposed: &Proposed) -> u32 {
        let margin = self.next_margin();
        let lent_table = Lent::new(table, margin);
        let lists = [Lent::new(&state.locations, margin), Lent::new(&proposed.locations, margin)];
        let values = [Lent::new(&state.values, margin), Lent::new(&proposed.values, margin)];
        let call = if proposed.action.is_some() { 3 } else { 4 };
        let lent = Proposal {
            phase: state.phase,
            locations: lists[0].part(),
            values: values[0].part(),
            new_locations: lists[1].part(),
            new_values: values[1].part(),
        };
        let tried = self.tried;
        let got = self.timed(call, || put(tried, lent_table.part(), &lent, proposed.action));
        let expected = put(&Reference, table, &proposed.from(state), proposed.action);
        self.row(call, expected.saturating_sub(REFUSED));
        self.yes += is_yes(expected) as u64;
        let found = differs(&(got as u64), &(expected as u64))
            .or(lent_table.difference(table))
            .or(lists[0].difference(&state.locations))
            .or(lists[1].difference(&proposed.locations))
            .or(values[0].difference(&state.values))
            .or(values[1].difference(&proposed.values));
        self.note(call, found, || format!("{state:?} {proposed:?}, {}", shown(table)));
        got
    }

    /// The numbers of a table.
    pub fn size(&mut self, table: &[u32]) -> u64 {
        let lent_table = Lent::new(table, self.next_margin());
        let tried = self.tried;
        let got = self.timed(6, || tried.size(lent_table.part()));
        let expected = Reference.size(table);
        self.row(6, calls::row(expected));
        self.note(6, differs(&got, &expected).or(lent_table.difference(table)), || shown(table));
        got
    }

    /// A run's answer, and the answers and the state after it.
    pub fn run(&mut self, table: &[u32], state: &State, listed: &Listed, answers: &[u32]) -> (u32, Vec<u32>, State) {
        self.run_into(table, state, listed, answers, [state.locations.len(), state.values.len()])
    }

    /// The same with so much room for the locations and the values at the end.
    pub fn run_into(
        &mut self,
        table: &[u32],
        state: &State,
        listed: &Listed,
        answers: &[u32],
        room: [usize; 2],
    ) -> (u32, Vec<u32>, State) {
        let margin = self.next_margin();
        let words = [table, &state.locations, &listed.actions, &listed.locations];
        let values = [&state.values, &listed.values];
        let lent_words = words.map(|list| Lent::new(list, margin));
        let lent_values = values.map(|list| Lent::new(list, margin));
        let mut lent = Lent::new(answers, margin);
        let (mut expected_locations, mut expected_values) = (vec![0xAAAA_AAAA; room[0]], vec![0x5555_5555; room[1]]);
        let (mut ends, mut end_values) = (Lent::new(&expected_locations, margin), Lent::new(&expected_values, margin));
        let list = List {
            phase: state.phase,
            locations: lent_words[1].part(),
            values: lent_values[0].part(),
            actions: lent_words[2].part(),
            new_locations: lent_words[3].part(),
            new_values: lent_values[1].part(),
        };
        let tried = self.tried;
        let memory = calls::Lent { answers: lent.part_mut(), locations: ends.part_mut(), values: end_values.part_mut() };
        let got = self.timed(5, || tried.run(lent_words[0].part(), &list, memory));
        let mut expected_answers = answers.to_vec();
        let memory =
            calls::Lent { answers: &mut expected_answers, locations: &mut expected_locations, values: &mut expected_values };
        let expected = Reference.run(table, &listed.from(state), memory);
        self.row(5, expected.saturating_sub(REFUSED));
        self.listed += if expected < REFUSED { listed.actions.len() as u64 } else { 0 };
        let found = differs(&(got as u64), &(expected as u64))
            .or(lent.difference(&expected_answers))
            .or(ends.difference(&expected_locations))
            .or(end_values.difference(&expected_values))
            .or(lent_words.iter().zip(words).find_map(|(lent, list)| lent.difference(list)))
            .or(lent_values.iter().zip(values).find_map(|(lent, list)| lent.difference(list)));
        self.note(5, found, || format!("{state:?} {listed:?}, room for {} and {room:?}, {}", answers.len(), shown(table)));
        let end = State { phase: got, locations: ends.part().to_vec(), values: end_values.part().to_vec() };
        (got, lent.part().to_vec(), end)
    }

    /// A law that must hold of the tried answers themselves.
    pub fn law(&mut self, name: &str, holds: bool, input: impl FnOnce() -> String) {
        self.calls += 1;
        if !holds {
            self.report(name, "the law does not hold", input());
        }
    }

    fn next_margin(&mut self) -> usize {
        // Another margin at each call, so that bytes come at every alignment.
        self.margin = 1 + (self.margin + 1) % 16;
        self.margin
    }

    fn timed<T>(&mut self, call: usize, run: impl FnOnce() -> T) -> T {
        let start = Instant::now();
        let answer = self.watch.during(format!("{} ({})", CALLS[call], self.again), run);
        self.slowest[call] = self.slowest[call].max(start.elapsed());
        answer
    }

    /// The rows of the paper that no call has met, with the call that could have.
    pub fn rows_not_met(&self) -> Vec<(&'static str, u32)> {
        let due = CALLS.iter().zip(ROWS).flat_map(|(call, rows)| rows.iter().cloned().flatten().map(move |row| (*call, row)));
        due.filter(|row| !self.rows.contains_key(row)).collect()
    }

    fn row(&mut self, call: usize, row: u32) {
        self.counts[call] += 1;
        self.good[call] += (row == 0) as u64;
        *self.rows.entry((CALLS[call], row)).or_default() += 1;
    }

    fn note(&mut self, call: usize, found: Option<String>, input: impl FnOnce() -> String) {
        self.calls += 1;
        if let Some(what) = found {
            self.report(CALLS[call], &what, input());
        }
    }

    fn report(&mut self, name: &str, what: &str, input: String) {
        self.failed += 1;
        if self.quiet {
            return;
        }
        if self.failed > 1 {
            if self.failed < 20 {
                println!("also {name} ({}): {what}", self.again);
            }
            return;
        }
        println!("FIRST DIFFERENCE, call {}: {name}: {what}", self.calls);
        println!("  again: differential {}", self.again);
        let path = std::env::temp_dir().join(format!("differential-{}.txt", std::process::id()));
        match std::fs::write(&path, format!("{name}: {what}\n{input}\n")) {
            Ok(()) => println!("  input: {}", path.display()),
            Err(_) => println!("  input: {input}"),
        }
    }

    pub fn summary(&self) {
        for (call, name) in CALLS.iter().enumerate() {
            let rows = self.rows.iter().filter(|((of, row), _)| of == name && *row != 0);
            let rows: Vec<String> = rows.map(|((_, row), count)| format!("{row}:{count}")).collect();
            println!(
                "{name}: {} calls, {} with no row, slowest {:?}; rows {}",
                self.counts[call],
                self.good[call],
                self.slowest[call],
                rows.join(" ")
            );
        }
        println!("runs beside merged ones: {}, proposals answered yes: {}, answers in lists: {}", self.runs, self.yes, self.listed);
    }
}

fn put(sheets: &dyn Sheets, table: &[u32], proposal: &Proposal, action: Option<u32>) -> u32 {
    match action {
        Some(action) => sheets.step(table, proposal, action),
        None => sheets.environment(table, proposal),
    }
}

fn differs(got: &u64, expected: &u64) -> Option<String> {
    (got != expected).then(|| {
        let parts = |answer: &u64| format!("{answer} (row {}, low part {})", answer >> 32, *answer as u32);
        format!("answered {}, and the reference {}", parts(got), parts(expected))
    })
}

/// A table for a report: its words without the zeros behind them.
fn shown(table: &[u32]) -> String {
    let used = table.iter().rposition(|word| *word != 0).map_or(0, |last| last + 1);
    format!("table of {} words: {:?} and zeros", table.len(), &table[..used])
}
