//! Sheets in format 3: what the line behind a variable can be, where it is due, who may write, and the owners of merged
//! sheets.
use super::{case, plain, side_by_side, small, Case, Judged};
use crate::rounds::OVEN;

/// What the cases change: v0 belongs to the first automaton, v1 to the second, v2 to nobody. The second reads v2.
const OWNED: [&str; 25] = [
    "format=3",
    "actions=2",
    "variables=3",
    "variable=0,3",
    "owner=0",
    "variable=0,3",
    "owner=1",
    "variable=0,3",
    "owner=none",
    "automata=2",
    "sync=",
    "locations=1",
    "init=all 0",
    "inv=all 0",
    "edges=1",
    "edge=0,1,0,eq n0 1",
    "writes=0",
    "sync=",
    "locations=1",
    "init=all 0",
    "inv=all 0",
    "edges=1",
    "edge=0,2,0,eq n1 v2",
    "writes=1",
    "compose=par a0 a1",
];

/// A name, what stands in the place of v2's owner line, and the row that refuses the sheet there; 0: none does.
const LINES: &[(&str, &str, u32)] = &[
    ("owner_none", "owner=none", 0),
    ("owner_0", "owner=0", 0),
    ("owner_1", "owner=1", 0),
    // Row 2: another key, two fields, a byte that no line has.
    ("owner_2_key_alone", "owner", 2),
    ("owner_2_capital", "Owner=none", 2),
    ("owner_2_longer_key", "owners=none", 2),
    ("owner_2_space_in_key", "owner =none", 2),
    ("owner_2_empty_line", "", 2),
    ("owner_2_two_numbers", "owner=0,1", 2),
    ("owner_2_comma_last", "owner=none,", 2),
    ("owner_2_tab", "owner=\tnone", 2),
    ("owner_2_byte_127", "owner=0\x7f", 2),
    ("owner_2_faults_2_and_3", "owner=16\x1f", 2),
    ("owner_2_two_fields_and_3", "owner=16,0", 2),
    // Row 3: neither the word nor a number from 0 to 15.
    ("owner_3_number_16", "owner=16", 3),
    ("owner_3_many_digits", "owner=18446744073709551616", 3),
    ("owner_3_empty", "owner=", 3),
    ("owner_3_capital", "owner=None", 3),
    ("owner_3_space_last", "owner=none ", 3),
    ("owner_3_space_first", "owner= none", 3),
    ("owner_3_short_word", "owner=non", 3),
    ("owner_3_long_word", "owner=nones", 3),
    ("owner_3_two_zeros", "owner=00", 3),
    ("owner_3_leading_zero", "owner=01", 3),
    ("owner_3_minus_1", "owner=-1", 3),
    ("owner_3_number_and_space", "owner=1 ", 3),
];

/// A name, the update of the first automaton's edge, the list behind it, and the row that refuses the sheet there; 0:
/// none does.
type Writing = (&'static str, &'static str, &'static str, u32);

const WRITINGS: &[Writing] = &[
    // What belongs to another, or to nobody, may be read.
    ("own_reads_all", "all 2 le v1 v2 eq n0 sub v1 v2", "0", 0),
    ("own_reads_alone", "le v1 v2", "", 0),
    // Row 51: it is not written, wherever it is mentioned.
    ("own_51_another_s", "eq n1 1", "1", 51),
    ("own_51_nobody_s", "eq n2 1", "2", 51),
    ("own_51_one_of_two", "all 2 eq n0 1 eq n1 1", "0,1", 51),
    ("own_51_last_of_two", "all 2 eq n2 v2 eq n0 1", "0,2", 51),
    ("own_51_kept", "eq n1 v1", "1", 51),
    ("own_51_in_guard", "eq n0 if le n2 1 0 1", "0,2", 51),
    ("own_51_under_never", "imp any 0 eq n1 0", "1", 51),
    // The other rows of the line come first.
    ("own_faults_3_and_51", "eq n1 1", "1,48", 3),
    ("own_faults_5_and_51", "all 2 eq n1 1 eq n2 1", "2,1", 5),
    ("own_faults_7_and_51", "eq n1 1", "1,3", 7),
    ("own_faults_44_and_51", "eq n1 1", "", 44),
    ("own_faults_44_and_51_own_said", "eq n1 1", "0", 44),
    ("own_faults_44_and_51_more_said", "eq n0 1", "0,1", 44),
];

/// The oven with a probe that nobody owns, v1; the door is open up to 2 of it.
pub const PROBE_OVEN: &str = "format=3
actions=2
variables=2
variable=0,1
owner=1
variable=0,3
owner=none
automata=2
sync=1
locations=2
init=all 0
inv=all 0
init=any 0
inv=all 2 eq v0 0 le v1 2
edges=1
edge=0,1,1,all 0
writes=
sync=1
locations=1
init=all 0
inv=all 0
edges=2
edge=0,1,0,eq n0 0
writes=0
edge=0,2,0,all 2 le 1 v1 eq n0 1
writes=0
compose=par a0 a1
";

/// What comes of merging it. The pointers, v2 and v3, belong to the one automaton.
pub const PROBE_OVEN_MERGED: &str = "format=3
actions=2
variables=4
variable=0,1
owner=0
variable=0,3
owner=none
variable=0,1
owner=0
variable=0,0
owner=0
automata=1
sync=1
locations=1
init=all 3 imp eq v2 0 all 0 imp eq v2 1 any 0 imp eq v3 0 all 0
inv=all 3 imp eq v2 0 all 0 imp eq v2 1 all 2 eq v0 0 le v1 2 imp eq v3 0 all 0
edges=2
edge=0,1,0,all 6 all 0 eq n0 0 eq v2 0 eq n2 1 eq v3 0 eq n3 0
writes=0,2,3
edge=0,2,0,all 3 all 2 le 1 v1 eq n0 1 eq v3 0 eq n3 0
writes=0,3
compose=a0
";

/// Every case.
pub fn all() -> Vec<Case> {
    [lines(), lines_elsewhere(), owners_that_are_not_there(), writings(), larger_sheets(), merged_owners()]
        .into_iter()
        .flatten()
        .collect()
}

/// The sheet above with other lines in the place of some.
fn owned(changes: &[(usize, &str)]) -> String {
    let mut lines = OWNED;
    changes.iter().for_each(|(line, content)| lines[line - 1] = content);
    lines.join("\n") + "\n"
}

/// The same without these lines.
fn without(text: &str, key: &str) -> String {
    text.lines().filter(|line| !line.starts_with(key)).map(|line| format!("{line}\n")).collect()
}

/// What the line behind a variable can be.
fn lines() -> Vec<Case> {
    let of_line = |&(name, line, row): &(&str, &str, u32)| case(name, owned(&[(9, line)]), (row != 0).then_some((row, 9)));
    LINES.iter().map(of_line).collect()
}

/// Owners where none is due, and none where one is; what comes before them.
fn lines_elsewhere() -> Vec<Case> {
    let whole = owned(&[]);
    let up_to = |line: &str| whole[..whole.find(line).expect("it is there") + line.len()].to_string();
    let format_2 = whole.replace("format=3", "format=2");
    let format_1 = without(&whole, "writes=").replace("format=3", "format=1");
    let behind_all = without(&whole, "owner=").replace("automata=", "owner=0\nowner=1\nowner=none\nautomata=");
    let turned = [(4, "owner=0"), (5, "variable=0,3")];
    vec![
        case("format_3", small(&[(1, "format=3"), (4, "variable=0,1\nowner=0"), (11, "edge=0,1,0,eq n0 1\nwrites=0")]), None),
        case("format_3_lacks_its_owner", small(&[(1, "format=3")]), Some((2, 5))),
        case("format_3_lacks_its_list", small(&[(1, "format=3"), (4, "variable=0,1\nowner=0")]), Some((2, 13))),
        case("owners_first_lacks", whole.replacen("owner=0\n", "", 1), Some((2, 5))),
        case("owners_last_lacks", whole.replace("owner=none\n", ""), Some((2, 9))),
        case("owners_last_twice", whole.replace("owner=none\n", "owner=none\nowner=none\n"), Some((2, 10))),
        case("owners_before_their_variable", owned(&turned), Some((2, 4))),
        case("owners_behind_all_variables", behind_all, Some((2, 5))),
        case("owners_end_without_lf", up_to("owner=none"), Some((2, 9))),
        case("owners_end_behind_variable", up_to("owner=1\nvariable=0,3\n"), Some((2, 9))),
        case("format_2_with_owners", format_2.clone(), Some((2, 5))),
        case("format_2_without_owners", without(&format_2, "owner="), None),
        case("format_1_with_owners", format_1.clone(), Some((2, 5))),
        case("format_1_without_owners", without(&format_1, "owner="), None),
        // The variable's own line comes first, and so does a line before the one with the number of automata.
        case("owners_range_falls", owned(&[(8, "variable=3,0"), (9, "owner=16")]), Some((4, 8))),
        case("owners_range_first", owned(&[(5, "owner=9"), (8, "variable=3,0")]), Some((4, 8))),
    ]
}

/// Row 50, at the line that says how many automata there are, after the other rows of that line.
fn owners_that_are_not_there() -> Vec<Case> {
    let counted = |owner: &'static str, line: &'static str| owned(&[(5, owner), (10, line)]);
    vec![
        case("owner_50_number_2", owned(&[(9, "owner=2")]), Some((50, 10))),
        case("owner_50_number_15", owned(&[(9, "owner=15")]), Some((50, 10))),
        case("owner_50_first_of_three", owned(&[(5, "owner=2")]), Some((50, 10))),
        case("owner_50_one_automaton", owned(&[(10, "automata=1")]), Some((50, 10))),
        case("owner_50_faults_further_down", owned(&[(9, "owner=2"), (11, "sync=99"), (17, "writes=1")]), Some((50, 10))),
        case("owner_faults_3_then_50", owned(&[(5, "owner=15"), (9, "owner=16")]), Some((3, 9))),
        case("owner_faults_2_and_50", counted("owner=15", "Automata=2"), Some((2, 10))),
        case("owner_faults_2_and_50_two_fields", counted("owner=15", "automata=2,2"), Some((2, 10))),
        case("owner_faults_3_and_50_none_there", counted("owner=15", "automata=0"), Some((3, 10))),
        case("owner_faults_3_and_50_too_many", counted("owner=15", "automata=17"), Some((3, 10))),
    ]
}

/// Who may write what.
fn writings() -> Vec<Case> {
    let of_first = |&(name, update, list, row): &Writing| {
        let (edge, line) = (format!("edge=0,1,0,{update}"), format!("writes={list}"));
        case(name, owned(&[(16, &edge), (17, &line)]), (row != 0).then_some((row, 17)))
    };
    let foreign = owned(&[(16, "edge=0,1,0,eq n1 1"), (17, "writes=1")]);
    let nothing_written = owned(&[(17, "writes=\nedge=0,1,0,eq n1 0\nwrites=1"), (16, "edge=0,1,0,all 0"), (15, "edges=2")]);
    let more = [
        case("own_51_second_automaton", owned(&[(23, "edge=0,2,0,eq n0 v2"), (24, "writes=0")]), Some((51, 24))),
        case("own_51_second_edge", nothing_written, Some((51, 19))),
        case("own_51_owner_changed", owned(&[(5, "owner=1")]), Some((51, 17))),
        case("own_51_owner_gone", owned(&[(7, "owner=none")]), Some((51, 24))),
        case("own_edge_first_12", owned(&[(16, "edge=0,3,0,eq n1 1"), (17, "writes=1")]), Some((12, 16))),
        case("own_not_in_format_2", without(&foreign, "owner=").replace("format=3", "format=2"), None),
    ];
    WRITINGS.iter().map(of_first).chain(more).collect()
}

/// An edge by this action that writes this variable; and one that writes none.
fn writing(action: u32, k: usize) -> String {
    format!("0,{action},0,eq n{k} 1\nwrites={k}")
}

fn silent(action: u32) -> String {
    format!("0,{action},0,all 0\nwrites=")
}

/// A plain sheet in format 3, its variables with these owners.
fn owned_plain<T: ToString>(owners: &[T], edges: &[Vec<String>], compose: &str) -> String {
    let text = plain(0, "", edges, compose).replacen("format=1", "format=3", 1);
    let variables: String = owners.iter().map(|owner| format!("variable=0,1\nowner={}\n", owner.to_string())).collect();
    text.replacen("variables=0\n", &format!("variables={}\n{variables}", owners.len()), 1)
}

/// The most and the fewest variables and automata.
fn larger_sheets() -> Vec<Case> {
    let nobodys = |count: usize| owned_plain(&vec!["none"; count], &[vec![silent(1)]], "a0");
    let last = |automata: usize, owner: usize| {
        let mut edges = vec![vec![]; automata];
        edges[automata - 1] = vec![writing(1, 0)];
        owned_plain(&[owner], &edges, &side_by_side(automata))
    };
    vec![
        case("owners_0_of_0", nobodys(0), None),
        case("owners_behind_no_variables", nobodys(0).replace("automata=", "owner=none\nautomata="), Some((2, 4))),
        case("owners_47_variables", owned_plain(&[0; 47], &[vec![writing(1, 46)]], "a0"), None),
        case("owners_48_variables", owned_plain(&[0; 48], &[vec![writing(1, 47)]], "a0"), Some((31, 0))),
        case("owner_50_of_48", owned_plain(&[&[0; 47][..], &[1]].concat(), &[vec![]], "a0"), Some((50, 100))),
        case("own_51_of_48", nobodys(48).replace("all 0\nwrites=\n", "eq n47 0\nwrites=47\n"), Some((51, 107))),
        case("owner_15_of_16", last(16, 15), None),
        case("owner_50_number_15_of_15", last(15, 15), Some((50, 6))),
        case("owner_3_number_16_of_16", last(16, 16), Some((3, 5))),
        case("own_51_number_14_of_16", last(16, 14), Some((51, 88))),
    ]
}

/// The oven, each variable with its owner and each edge with what it writes.
fn owning_oven() -> String {
    let text = OVEN.replacen("format=1", "format=3", 1).replacen("variable=0,1\n", "variable=0,1\nowner=1\n", 1);
    let listed = |line: &str| match line.strip_prefix("edge=") {
        Some(edge) => format!("{line}\nwrites={}\n", if edge.contains("n0") { "0" } else { "" }),
        None => format!("{line}\n"),
    };
    text.lines().map(listed).collect()
}

/// Merged, what has an owner belongs to the one automaton, and so do the pointers.
fn merged_owners() -> Vec<Case> {
    let takers = [vec![writing(1, 2), silent(2)], vec![writing(2, 1)], vec![writing(1, 0), writing(1, 0)]];
    let asked = [(13, "init=le v2 1"), (14, "inv=le v2 2"), (25, "compose=ini eq v0 0 par a0 syn 2 a1")];
    vec![
        case("owners_oven", owning_oven(), None),
        case("owners_oven_of_the_door", owning_oven().replace("owner=1", "owner=0"), Some((51, 22))),
        case("owners_probe_oven", PROBE_OVEN.to_string(), None),
        case("owners_probe_oven_merged", PROBE_OVEN_MERGED.to_string(), None),
        case("owners_takers", owned_plain(&["2", "1", "0", "none"], &takers, "par syn 1 a0 par a1 syn 1 a2"), None),
        case("owners_asked", owned(&asked), None),
    ]
}

/// Proposals to some of them.
pub const JUDGED: &[Judged] = &[
    (
        "owner_none",
        &[
            // From outside, what nobody owns; not what an automaton owns, though an edge would write it.
            "env 1|0,0|0,0,0|0,0,3|yes",
            "env 1|0,0|0,0,0|1,0,0|no",
            "env 1|0,0|0,0,0|0,1,0|no",
            "env 1|0,0|0,0,0|0,1,3|no",
            "env 1|0,0|2,1,3|2,1,3|yes",
            "env 0|0,0|2,1,3|2,1,0|yes",
            "env 0|0,0|2,1,3|1,1,0|no",
            // The rows come first.
            "env 2|0,0|0,0,0|1,0,0|refused 20",
            "env 1|0,0|0,0,0|1,0|refused 21",
            "env 1|0,1|0,0,0|1,0,0|refused 22",
            "env 1|0,0|0,0,0|4,0,0|refused 23",
            "env 1|0,0|0,0,0|1,0,4|refused 23",
            // By an edge, what it writes; never what nobody owns.
            "step 1|0,0|0,0,2|1|0,0|1,0,2|yes False",
            "step 1|0,0|0,0,2|1|0,0|1,0,3|no",
            "step 1|0,0|0,0,2|1|0,0|1,2,2|no",
            "step 1|0,0|0,0,2|2|0,0|0,2,2|yes False",
            "step 1|0,0|0,0,2|2|0,0|0,2,1|no",
            "step 1|0,0|0,0,2|3|0,0|0,0,2|refused 24",
        ],
    ),
    // An owner that writes it nowhere holds it still all the same.
    ("owner_0", &["env 1|0,0|0,0,0|0,0,3|no", "env 1|0,0|0,0,0|0,0,0|yes", "step 1|0,0|0,0,2|1|0,0|1,0,3|no"]),
    // Without owners all may change.
    ("format_2_without_owners", &["env 1|0,0|0,0,0|3,2,1|yes"]),
    ("format_1_without_owners", &["env 0|0,0|0,0,0|1,0,0|yes"]),
    (
        "owners_asked",
        &[
            // init and the start condition before the first step; inv before each and after it.
            "env 0|0,0|0,0,1|0,0,2|yes",
            "env 0|0,0|0,0,2|0,0,1|no",
            "env 1|0,0|0,0,2|0,0,1|yes",
            "env 1|0,0|0,0,2|0,0,3|no",
            "env 1|0,0|0,0,3|0,0,2|no",
            "env 0|0,0|1,0,0|1,0,1|no",
            "env 1|0,0|1,0,0|1,0,1|yes",
            "step 0|0,0|0,0,1|2|0,0|0,1,1|yes True",
            "step 0|0,0|1,0,1|2|0,0|1,1,1|no",
        ],
    ),
    // The first and the third take together, and write each their own.
    (
        "owners_takers",
        &[
            "step 1|0,0,0|0,0,0,1|1|0,0,0|1,0,1,1|yes True",
            "step 1|0,0,0|0,0,0,1|1|0,0,0|1,0,1,0|no",
            "step 1|0,0,0|0,0,0,1|1|0,0,0|1,1,1,1|no",
            "env 1|0,0,0|0,0,0,1|0,0,0,0|yes",
            "env 1|0,0,0|0,0,0,1|0,0,1,0|no",
        ],
    ),
    (
        "owners_oven",
        &[
            "step 0|0,0|1|1|1,0|0|yes True",
            "step 0|0,0|0|2|0,0|1|yes False",
            "step 1|1,0|0|2|1,0|1|no",
            "env 1|0,0|0|0|yes",
            "env 1|0,0|0|1|no",
            "env 0|1,0|0|0|no",
        ],
    ),
    (
        "owners_probe_oven",
        &[
            "env 1|1,0|0,0|0,2|yes",
            "env 1|1,0|0,0|0,3|no",
            "env 1|0,0|0,0|0,3|yes",
            "env 1|0,0|1,0|0,0|no",
            "step 1|0,0|0,1|2|0,0|1,1|yes False",
            "step 1|0,0|0,0|2|0,0|1,1|no",
            "step 1|0,0|0,3|1|1,0|0,3|no",
        ],
    ),
    // The same merged: no word is needed on the pointers, which the environment cannot move.
    (
        "owners_probe_oven_merged",
        &[
            "env 1|0|0,0,1,0|0,2,1,0|yes",
            "env 1|0|0,0,1,0|0,3,1,0|no",
            "env 1|0|0,0,0,0|0,3,0,0|yes",
            "env 1|0|0,0,0,0|0,3,1,0|no",
            "env 1|0|0,0,0,0|0,0,1,0|no",
            "env 1|0|0,0,1,0|0,0,0,0|no",
            "env 1|0|1,0,0,0|0,0,0,0|no",
            "env 1|0|0,0,0,0|0,0,2,0|refused 23",
            "env 1|0|0,0,0,0|0,0,0,1|refused 23",
            "step 1|0|0,1,0,0|2|0|1,1,0,0|yes False",
            "step 1|0|1,1,0,0|1|0|0,1,1,0|yes True",
        ],
    ),
];
