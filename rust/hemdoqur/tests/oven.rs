//! The paper's oven through the library.
use hemdoqur::*;

const OVEN: &[u8] = include_bytes!("../../../sheets/oven.txt");
const MERGED: &[u8] = include_bytes!("../../../tests/sheets/oven.out");

fn table() -> Vec<u32> {
    let mut table = vec![0; TABLE_WORDS];
    assert_eq!(read(OVEN, &mut table), Ok(()));
    table
}

#[test]
fn a_refusal_has_row_and_line_and_writes_nothing() {
    let mut table = vec![7; TABLE_WORDS];
    assert_eq!(read(b"", &mut table), Err(Refusal { row: 2, line: 1 }));
    assert_eq!(read(b"format=4\n", &mut table), Err(Refusal { row: 3, line: 1 }));
    assert_eq!(read(b"format=3\n", &mut table), Err(Refusal { row: 2, line: 2 }));
    assert_eq!(read(&vec![b'\n'; TEXT_BYTES + 1], &mut table), Err(Refusal { row: 1, line: 0 }));
    assert_eq!(read(OVEN, &mut table[1..]), Err(Refusal { row: 18, line: 0 }));
    assert!(table.iter().all(|word| *word == 7));
}

#[test]
fn writing_gives_the_text_back() {
    let mut out = vec![0; OVEN.len()];
    assert_eq!(write(&table(), &mut out), Ok(OVEN.len()));
    assert_eq!(out, OVEN);
    assert_eq!(write(&table(), &mut out[1..]), Err(Refusal { row: 35, line: 0 }));
    assert_eq!(write(&[0; TABLE_WORDS], &mut out), Err(Refusal { row: 19, line: 0 }));
    assert_eq!(out, OVEN);
}

#[test]
fn merging_gives_the_paper_s_text() {
    let mut out = vec![0; TEXT_BYTES];
    assert_eq!(merge(&table(), &mut out), Ok(Merged { edges: 2, length: MERGED.len() }));
    assert_eq!(&out[..MERGED.len()], MERGED);
    assert_eq!(merge(&table(), &mut []), Err(Refusal { row: 35, line: 0 }));
}

#[test]
fn the_judges_on_that_oven() {
    let table = table();
    let start = |values| State { phase: 0, locations: &[0, 0], values };
    let running = State { phase: 1, locations: &[1, 0], values: &[0] };
    assert_eq!(step(&table, &start(&[1]), 1, &[1, 0], &[0]), Ok(Some(true)));
    assert_eq!(step(&table, &start(&[0]), 2, &[0, 0], &[1]), Ok(Some(false)));
    assert_eq!(step(&table, &running, 2, &[1, 0], &[1]), Ok(None));
    assert_eq!(environment(&table, &running, &[0]), Ok(true));
    assert_eq!(environment(&table, &running, &[1]), Ok(false));
    assert_eq!(step(&table, &running, 3, &[1, 0], &[0]), Err(Refusal { row: 24, line: 0 }));
    assert_eq!(environment(&table, &running, &[2]), Err(Refusal { row: 23, line: 0 }));
}

/// The oven of sheets/probes.txt: valve and lamp belong to its automata, the probes to nobody.
#[test]
fn only_probes_move_by_themselves() {
    let mut table = vec![0; TABLE_WORDS];
    let text = include_bytes!("../../../sheets/probes.txt");
    assert_eq!(read(text, &mut table), Ok(()));
    let from = State { phase: 1, locations: &[0, 0], values: &[1, 0, 200, 2] };
    assert_eq!(environment(&table, &from, &[1, 0, 210, 4]), Ok(true));
    assert_eq!(environment(&table, &from, &[0, 0, 200, 2]), Ok(false));
    assert_eq!(environment(&table, &from, &[1, 1, 200, 2]), Ok(false));
    assert_eq!(environment(&table, &from, &[2, 0, 200, 2]), Err(Refusal { row: 23, line: 0 }));
    assert_eq!(step(&table, &from, 1, &[1, 0], &[0, 1, 200, 2]), Ok(Some(true)));
    assert_eq!(step(&table, &from, 1, &[1, 0], &[0, 1, 199, 2]), Ok(None));
}

#[test]
fn an_owner_is_there_and_writes_alone() {
    let text = String::from_utf8_lossy(include_bytes!("../../../sheets/probes.txt"));
    let mut table = vec![7; TABLE_WORDS];
    let mut refusal = |from: &str, to: &str| read(text.replacen(from, to, 1).as_bytes(), &mut table).unwrap_err();
    assert_eq!(refusal("owner=none", "owner=2"), Refusal { row: 50, line: 12 });
    let foreign = refusal("owner=1", "owner=none").to_string();
    assert_eq!(foreign, "row 51, line 30: the edge writes a variable that does not belong to its automaton");
    assert!(table.iter().all(|word| *word == 7));
}

#[test]
fn a_run_on_that_oven() {
    let table = table();
    let from = State { phase: 0, locations: &[0, 0], values: &[0] };
    let list = Proposals {
        actions: &[2, ENVIRONMENT, 1, ENVIRONMENT, 2, 3],
        locations: &[0, 0, 9, 9, 1, 0, 9, 9, 1, 0, 1, 0],
        values: &[1, 1, 0, 1, 1, 0],
    };
    let (mut answers, mut locations, mut values) = ([7; 7], [7; 3], [7; 2]);
    let room = Room { answers: &mut answers, locations: &mut locations, values: &mut values };
    let ran = run(&table, &from, &list, room).expect("nothing is wrong with the list");
    let yes = |marked| Answer::Yes { marked };
    let expected = [yes(false), yes(false), yes(true), Answer::No, Answer::No, Answer::Refused { row: 24 }];
    assert!(ran.answers().eq(expected));
    assert_eq!(ran.end, State { phase: 1, locations: &[1, 0], values: &[0] });
    assert_eq!((answers[6], locations[2], values[1]), (7, 7, 7));
}

#[test]
fn a_list_that_is_refused_writes_nothing() {
    let table = table();
    let from = State { phase: 0, locations: &[0, 0], values: &[0] };
    let list = Proposals { actions: &[2, ENVIRONMENT], locations: &[0; 4], values: &[1; 2] };
    let refusal = |from: &State, list: &Proposals, room: [usize; 3]| {
        let (mut answers, mut locations, mut values) = ([7; 2], [7; 2], [7; 1]);
        let lent = Room { answers: &mut answers[..room[0]], locations: &mut locations[..room[1]], values: &mut values[..room[2]] };
        let refused = run(&table, from, list, lent).err();
        assert!(refused.is_none() || (answers, locations, values) == ([7; 2], [7; 2], [7; 1]));
        refused
    };
    let row = |row| Some(RunRefusal::Row(Refusal { row, line: 0 }));
    assert_eq!(refusal(&from, &list, [2, 2, 1]), None);
    assert_eq!(refusal(&from, &list, [2, 1, 1]), Some(RunRefusal::EndShort));
    assert_eq!(refusal(&from, &list, [2, 2, 0]), Some(RunRefusal::EndShort));
    assert_eq!(refusal(&from, &list, [1, 0, 0]), Some(RunRefusal::AnswersShort));
    assert_eq!(refusal(&from, &Proposals { values: &[1; 3], ..list }, [1, 0, 0]), Some(RunRefusal::Uneven));
    assert_eq!(refusal(&from, &Proposals { locations: &[0; 3], ..list }, [2, 2, 1]), Some(RunRefusal::Uneven));
    assert_eq!(refusal(&State { values: &[2], ..from }, &Proposals { values: &[], ..list }, [0, 0, 0]), row(23));
    assert_eq!(refusal(&State { locations: &[0, 1], ..from }, &list, [2, 2, 1]), row(22));
    assert_eq!(refusal(&State { locations: &[0], ..from }, &list, [2, 2, 1]), row(21));
    assert_eq!(refusal(&State { phase: 2, ..from }, &list, [2, 2, 1]), row(20));
}

#[test]
fn the_size_of_that_oven() {
    assert_eq!(size(&table()), Ok(Size { actions: 2, variables: 1, automata: 2 }));
    assert_eq!(size(&[0; TABLE_WORDS]), Err(Refusal { row: 19, line: 0 }));
    assert_eq!(size(&[]), Err(Refusal { row: 18, line: 0 }));
}

#[test]
fn a_refusal_is_an_error_with_a_sentence() {
    let mut table = vec![0; TABLE_WORDS];
    let refused: Box<dyn std::error::Error> = read(b"format=4\n", &mut table).unwrap_err().into();
    assert_eq!(refused.to_string(), "row 3, line 1: a number is misspelled or out of its range");
    assert_eq!(size(&table).unwrap_err().to_string(), "row 19: the table is not one that the reader makes");
    let short: Box<dyn std::error::Error> = RunRefusal::AnswersShort.into();
    assert_eq!(short.to_string(), "there are fewer places for answers than actions");
}
