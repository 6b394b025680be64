//! Sheets in format 2: what the list behind an edge can be, where it is due, and the lists of merged edges.
use super::{case, depth, plain, short, small, Case, Judged};
use crate::rounds::OVEN;

/// A name, the update of the telling sheet's second edge, the list behind it, and the row that refuses the sheet; 0: none does.
type Writing = (&'static str, &'static str, &'static str, u32);

/// Sound lists, and those that are refused at their own line. V is 4.
const LISTS: &[Writing] = &[
    // The variables whose new value the update mentions: none, the first, the last, all; in any order and as often as it likes.
    ("writes_nothing", "all 0", "", 0),
    ("writes_nothing_reads_2", "le v2 add v1 v1", "", 0),
    ("writes_0", "eq n0 1", "0", 0),
    ("writes_3", "le 1 n3", "3", 0),
    ("writes_0_and_3", "all 2 eq n3 v0 eq n0 v3", "0,3", 0),
    ("writes_all", "all 2 le add n3 n1 n2 eq n2 mul n1 n0", "0,1,2,3", 0),
    ("writes_a_difference", "le sub n2 n1 0", "1,2", 0),
    // Mentioned is mentioned: in a guard, in a guard's guard, in a case that is never taken, under what is never asked.
    ("writes_in_guard", "eq v0 if le n2 1 0 1", "2", 0),
    ("writes_in_guard_of_guard", "eq 0 if eq 0 if eq n1 0 0 1 0 1", "1", 0),
    ("writes_in_a_case", "le v0 if any 0 n3 n1", "1,3", 0),
    ("writes_under_never", "imp any 0 eq n3 0", "3", 0),
    ("writes_under_not", "any 2 all 0 not not eq n2 0", "2", 0),
    // Row 44: a list of other variables.
    ("list_44_nothing_said", "eq n1 0", "", 44),
    ("list_44_one_said", "all 0", "1", 44),
    ("list_44_one_lacks", "all 2 eq n1 0 eq n2 0", "1", 44),
    ("list_44_first_lacks", "all 2 eq n0 0 eq n2 0", "2", 44),
    ("list_44_one_more", "eq n2 0", "2,3", 44),
    ("list_44_another", "eq n2 0", "1", 44),
    ("list_44_old_value", "eq v1 0", "1", 44),
    ("list_44_guard_left_out", "eq n0 if le n2 1 0 1", "0", 44),
    ("list_44_never_left_out", "imp any 0 eq n3 0", "", 44),
    ("list_44_of_the_other_edge", "eq n0 1", "0,3", 44),
    // Row 3: how a number is spelled, and its range. A comma parts two numbers, and there must be two.
    ("list_3_number_48", "eq n0 1", "48", 3),
    ("list_3_then_48", "eq n0 1", "0,48", 3),
    ("list_3_many_digits", "eq n0 1", "100000000000000000000", 3),
    ("list_3_two_zeros", "eq n0 1", "00", 3),
    ("list_3_leading_zero", "eq n1 1", "01", 3),
    ("list_3_minus_zero", "eq n0 1", "-0", 3),
    ("list_3_minus_1", "eq n1 1", "-1", 3),
    ("list_3_letter", "eq n0 1", "n0", 3),
    ("list_3_word", "all 0", "all 0", 3),
    ("list_3_plus", "eq n0 1", "+0", 3),
    ("list_3_space_first", "eq n0 1", " 0", 3),
    ("list_3_space_last", "eq n0 1", "0 ", 3),
    ("list_3_space_alone", "all 0", " ", 3),
    ("list_3_equals_sign", "eq n0 1", "=0", 3),
    ("list_3_comma_alone", "all 0", ",", 3),
    ("list_3_comma_first", "eq n0 1", ",0", 3),
    ("list_3_comma_last", "eq n0 1", "0,", 3),
    ("list_3_two_commas", "all 2 eq n0 1 eq n1 1", "0,,1", 3),
    ("list_3_comma_and_space", "all 2 eq n0 1 eq n1 1", "0, 1", 3),
    ("list_3_semicolon", "all 2 eq n0 1 eq n1 1", "0;1", 3),
    // Row 5: it must rise; unlike an action, a variable may be 0.
    ("list_5_twice_0", "eq n0 1", "0,0", 5),
    ("list_5_falls", "all 2 eq n0 1 eq n1 1", "1,0", 5),
    ("list_5_falls_at_the_end", "all 3 eq n0 1 eq n1 1 eq n3 0", "0,3,1", 5),
    ("list_5_twice_3", "eq n3 1", "3,3", 5),
    // Row 7: V is 4.
    ("list_7_number_4", "all 0", "4", 7),
    ("list_7_number_47", "all 0", "47", 7),
    ("list_7_then_4", "all 2 eq n0 1 eq n3 0", "0,3,4", 7),
    // Several faults in the line: the smallest row.
    ("list_faults_3_and_5", "eq n0 1", "1,0,48", 3),
    ("list_faults_3_and_7", "eq n0 1", "4,x", 3),
    ("list_faults_3_and_44", "all 0", "0,", 3),
    ("list_faults_5_and_7", "eq n0 1", "47,0", 5),
    ("list_faults_5_and_7_twice", "all 0", "4,4", 5),
    ("list_faults_5_and_44", "all 0", "2,1", 5),
    ("list_faults_7_and_44", "eq n0 1", "1,4", 7),
];

/// Edges that are refused themselves, at their own line, whatever their list says.
const EDGES_FIRST: &[Writing] = &[
    ("edge_first_3", "eq n48 0", "48", 3),
    ("edge_first_6", "eq n0", "0,0", 6),
    ("edge_first_7", "eq n4 0", "4", 7),
    ("edge_first_10", "le mul mul 1000000000 1000000000 add n3 2 0", "3,2,99", 10),
];

/// Lines in the place of the second list, where row 2 refuses each of them.
const NO_LISTS: &[(&str, &str)] = &[
    ("list_2_key_alone", "writes"),
    ("list_2_capital", "Writes=0"),
    ("list_2_short_key", "write=0"),
    ("list_2_space_before", " writes=0"),
    ("list_2_space_in_key", "writes =0"),
    ("list_2_empty_line", ""),
    ("list_2_tab", "writes=\t0"),
    ("list_2_byte_13", "writes=0\r"),
    ("list_2_byte_127", "writes=0\x7f"),
    ("list_2_faults_2_and_3", "writes=48\x1f"),
    ("list_2_edge_again", "edge=0,2,0,eq n0 1"),
];

/// Every case.
pub fn all() -> Vec<Case> {
    [lists(), lists_elsewhere(), lists_of_larger_sheets(), merged_lists()].into_iter().flatten().collect()
}

/// The telling sheet, in format 2: its first edge writes v3; its second, at line 16, has this update and this line behind it.
fn telling(update: &str, list_line: &str) -> String {
    let head = format!("format=2\nactions=2\nvariables=4\n{}automata=1\n", "variable=0,3\n".repeat(4));
    let edges = format!("edges=2\nedge=0,1,0,eq n3 2\nwrites=3\nedge=0,2,0,{update}\n{list_line}\n");
    format!("{head}sync=\nlocations=1\ninit=all 0\ninv=all 0\n{edges}compose=a0\n")
}

/// What the line behind an edge can be.
fn lists() -> Vec<Case> {
    let telling_case = |&(name, update, list, row): &Writing, line: u32| {
        case(name, telling(update, &format!("writes={list}")), (row != 0).then_some((row, line)))
    };
    let at_list = LISTS.iter().map(|writing| telling_case(writing, 17));
    let at_edge = EDGES_FIRST.iter().map(|writing| telling_case(writing, 16));
    let no_lists = NO_LISTS.iter().map(|(name, line)| case(name, telling("eq n0 1", line), Some((2, 17))));
    at_list.chain(at_edge).chain(no_lists).collect()
}

/// Lists where none is due, and none where one is; edges that are refused before their lists are looked at.
fn lists_elsewhere() -> Vec<Case> {
    let whole = telling("eq n0 1", "writes=0");
    let with = |from: &str, to: &str| whole.replacen(from, to, 1);
    let up_to = |line: &str| whole[..whole.find(line).expect("it is there") + line.len()].to_string();
    let in_format_1 = with("format=2", "format=1");
    let first = "writes=3\n";
    let last = "edge=0,2,0,eq n0 1\nwrites=0\n";
    let refused_edge = |edge: &str| with("edge=0,2,0,eq n0 1\nwrites=0", &format!("edge={edge}\nwrites=9,x"));
    vec![
        case("format_2", small(&[(1, "format=2"), (11, "edge=0,1,0,eq n0 1\nwrites=0")]), None),
        case("format_2_lacks_its_list", small(&[(1, "format=2")]), Some((2, 12))),
        case("lists_first_lacks", with(first, ""), Some((2, 15))),
        case("lists_last_lacks", with("writes=0\n", ""), Some((2, 17))),
        case("lists_first_twice", with(first, "writes=3\nwrites=3\n"), Some((2, 16))),
        case("lists_last_twice", with("writes=0\n", "writes=0\nwrites=0\n"), Some((2, 18))),
        case("lists_first_is_the_last", with("writes=3", "writes=0"), Some((44, 15))),
        case("lists_before_their_edge", with(last, "writes=0\nedge=0,2,0,eq n0 1\n"), Some((2, 16))),
        case("lists_before_edges", with("edges=2\n", "writes=\nedges=2\n"), Some((2, 13))),
        case("lists_end_without_lf", up_to("writes=0"), Some((2, 17))),
        case("lists_end_behind_edge", up_to("edge=0,2,0,eq n0 1\n"), Some((2, 17))),
        case("format_1_with_lists", in_format_1.clone(), Some((2, 15))),
        case("format_1_with_last_list", in_format_1.replace(first, ""), Some((2, 16))),
        case("format_1_without_lists", in_format_1.replace(first, "").replace("writes=0\n", ""), None),
        case("edge_first_2", refused_edge("0,2,0,eq n0 1,0"), Some((2, 16))),
        case("edge_first_9", refused_edge(&format!("0,2,0,{}", depth(25))), Some((9, 16))),
        case("edge_first_12", refused_edge("0,3,0,eq n0 1"), Some((12, 16))),
    ]
}

/// An edge by this action with this update, and the list behind it.
fn told(action: u32, update: &str, list: &str) -> String {
    format!("0,{action},0,{update}\nwrites={list}")
}

/// A plain sheet in format 2, whose edges have their lists behind them.
fn telling_plain(variables: usize, edges: &[Vec<String>], compose: &str) -> String {
    plain(variables, "", edges, compose).replacen("format=1", "format=2", 1)
}

/// The most and the fewest variables, no edge, the most nodes and levels. A list has none of these.
fn lists_of_larger_sheets() -> Vec<Case> {
    let one = |variables: usize, update: &str, list: &str| telling_plain(variables, &[vec![told(1, update, list)]], "a0");
    let mention = |count: usize| format!("all {count}{}", (0..count).rev().map(|k| format!(" le n{k} 1")).collect::<String>());
    let numbers = |count: usize| (0..count).map(|k| k.to_string()).collect::<Vec<_>>().join(",");
    let empty = telling_plain(1, &[vec![]], "a0");
    let large = [format!("init={}", short(1_537)), format!("inv={}", short(1_537))];
    let full = |nodes: usize| {
        let edge = format!("edge={}", told(1, &short(nodes - 3_074), "0"));
        small(&[(1, "format=2"), (8, &large[0]), (9, &large[1]), (11, &edge)])
    };
    vec![
        case("writes_47_of_47", one(47, &mention(47), &numbers(47)), None),
        case("writes_48_of_48", one(48, &mention(48), &numbers(48)), Some((31, 0))),
        case("writes_46_of_47", one(47, &mention(47), &numbers(46)), Some((44, 58))),
        case("writes_47_of_48", one(48, "eq n47 0", "47"), Some((31, 0))),
        case("list_7_number_47_of_47", one(47, "all 0", "47"), Some((7, 58))),
        case("list_3_number_48_of_48", one(48, "all 0", "48"), Some((3, 59))),
        case("writes_0_of_0", one(0, "eq 0 0", ""), None),
        case("list_7_number_0_of_0", one(0, "eq 0 0", "0"), Some((7, 11))),
        case("lists_no_edges", empty.clone(), None),
        case("lists_behind_no_edges", empty.replace("edges=0\n", "edges=0\nwrites=\n"), Some((2, 11))),
        case("list_44_nodes_4096", full(4_096), Some((44, 12))),
        case("edge_first_11", full(4_097), Some((11, 11))),
        case("writes_depth_23", one(1, &depth(23), ""), None),
        case("writes_depth_24", one(1, &depth(24), ""), Some((33, 0))),
    ]
}

/// The paper's oven, each edge with what it writes.
fn telling_oven() -> String {
    let behind = |text: String, edge: &str, list: &str| text.replace(&format!("{edge}\n"), &format!("{edge}\nwrites={list}\n"));
    let edges = [("edge=0,1,1,all 0", ""), ("edge=0,1,0,eq n0 0", "0"), ("edge=0,2,0,eq n0 1", "0")];
    edges.iter().fold(OVEN.replacen("format=1", "format=2", 1), |text, (edge, list)| behind(text, edge, list))
}

/// A merged edge writes what its takers write, and their pointers.
fn merged_lists() -> Vec<Case> {
    let takers = [
        vec![told(1, "eq n2 0", "2"), told(2, "all 0", "")],
        vec![told(2, "le n1 v0", "1")],
        vec![told(1, "all 2 eq n2 v1 eq n0 1", "0,2")],
    ];
    let pasted = vec![told(1, "eq n0 1", "0"), told(1, "eq v0 1", ""), told(1, "eq n0 1", "0"), told(1, "eq n0 1", "0")];
    let oven = telling_oven();
    vec![
        case("lists_oven", oven.clone(), None),
        case("lists_oven_last_lacks", oven.replace("writes=0\ncompose", "compose"), Some((2, 23))),
        case("lists_oven_format_1", oven.replace("format=2", "format=1"), Some((2, 14))),
        case("lists_oven_starts_shut", oven.replace("compose=", "compose=ini eq v0 0 "), None),
        // The second automaton does not take 1: its pointer, v4, is not written then.
        case("lists_takers", telling_plain(3, &takers, "par syn 1 a0 par a1 syn 1 a2"), None),
        case("lists_pasted", telling_plain(1, &[pasted], "a0"), None),
    ]
}

/// Proposals to some of them.
pub const JUDGED: &[Judged] = &[
    (
        "lists_oven",
        &[
            // As without lists.
            "step 0|0,0|1|1|1,0|0|yes True",
            "step 0|0,0|0|2|0,0|1|yes False",
            "step 1|1,0|0|2|1,0|1|no",
            "step 0|1,0|0|2|1,0|0|no",
            "env 1|1,0|0|0|yes",
            "env 1|1,0|0|1|no",
            "step 1|0,0|1|1|1,0|1|no",
            "step 1|0,0|1|0|0,0|1|no",
            "step 2|0,0|0|1|1,0|0|refused 20",
            "step 0|0,0|0|1|1,0,0|0|refused 21",
            "step 0|2,0|0|1|1,0|0|refused 22",
            "env 1|0,0|0|2|refused 23",
            "step 0|0,0|0|3|1,0|0|refused 24",
        ],
    ),
    ("lists_oven_starts_shut", &["step 0|0,0|1|1|1,0|0|no", "step 0|0,0|0|2|0,0|1|yes False", "step 1|0,0|1|1|1,0|0|yes True"]),
    // What a list names may change, and no more; outside of edges all may.
    (
        "writes_nothing",
        &[
            "step 1|0|1,2,3,0|2|0|1,2,3,0|yes False",
            "step 1|0|1,2,3,0|2|0|1,2,3,1|no",
            "step 1|0|1,2,3,0|1|0|1,2,3,2|yes False",
            "env 1|0|1,2,3,0|3,2,1,3|yes",
        ],
    ),
    (
        "writes_in_guard",
        &[
            "step 1|0|0,0,0,0|2|0|0,0,1,0|yes False",
            "step 1|0|0,0,0,0|2|0|0,0,2,0|no",
            "step 1|0|1,0,0,0|2|0|1,0,3,0|yes False",
            "step 1|0|0,0,0,0|2|0|0,1,1,0|no",
        ],
    ),
    (
        "writes_under_never",
        &["step 1|0|0,0,0,0|2|0|0,0,0,3|yes False", "step 1|0|0,0,0,0|2|0|0,0,1,0|no", "step 1|0|0,0,0,0|1|0|0,0,0,3|no"],
    ),
    (
        "lists_takers",
        &[
            "step 1|0,0,0|0,0,1|1|0,0,0|1,0,0|yes True",
            "step 1|0,0,0|0,1,1|1|0,0,0|1,1,0|no",
            "step 1|0,0,0|0,0,1|1|0,0,0|1,1,0|no",
            "step 1|0,0,0|1,0,0|2|0,0,0|1,1,0|yes False",
            "step 1|0,0,0|0,0,0|2|0,0,0|0,1,0|no",
        ],
    ),
];
