//! Sheet texts made by hand, each with the answer that the paper gives it: every row of the reader and the merger, and
//! both sides of every limit. Names say what a text is about; where two differ in a number, a limit lies between them.
mod lists;
pub mod owners;
mod spans;

use crate::rounds::OVEN;

/// A text, and what must come of it.
pub struct Case {
    pub name: String,
    pub text: Vec<u8>,
    /// The row and the line that refuse it; none where it is merged.
    pub refusal: Option<(u32, u32)>,
}

/// What the cases change: the small sheet of docs/FORMAT.md, section 12. A is 2, v0 is 0 to 1.
const SMALL: [&str; 12] = [
    "format=1",
    "actions=2",
    "variables=1",
    "variable=0,1",
    "automata=1",
    "sync=",
    "locations=1",
    "init=all 0",
    "inv=all 0",
    "edges=1",
    "edge=0,1,0,eq n0 1",
    "compose=a0",
];

/// One line of the small sheet, another content for it, and the row that refuses the sheet at this line; 0: none does.
type Change = (&'static str, usize, &'static str, u32);

const CHANGES: &[Change] = &[
    // Row 2: another line is due, fields, bytes.
    ("key_missing", 6, "locations=1", 2),
    ("key_capital", 6, "Sync=", 2),
    ("key_space", 6, "sync =", 2),
    ("key_alone", 6, "sync", 2),
    ("line_empty", 6, "", 2),
    ("fields_1_of_2", 4, "variable=0", 2),
    ("fields_3_of_2", 4, "variable=0,1,", 2),
    ("fields_3_of_4", 11, "edge=0,1,0", 2),
    ("fields_5_of_4", 11, "edge=0,1,0,all 0,", 2),
    ("comma_in_predicate", 8, "init=eq 1,1", 2),
    ("byte_13", 1, "format=1\r", 2),
    ("byte_9", 8, "init=all\t0", 2),
    ("byte_31", 8, "init=all 0\x1f", 2),
    ("byte_127", 8, "init=all 0\x7f", 2),
    ("byte_126", 8, "init=~", 6),
    // Row 3: how a number is spelled, and its range.
    ("format_0", 1, "format=0", 3),
    ("format_4", 1, "format=4", 3),
    ("format_leading_zero", 1, "format=02", 3),
    ("format_space", 1, "format=2 ", 3),
    ("format_two_fields", 1, "format=1,2", 2),
    ("number_missing", 2, "actions=", 3),
    ("number_leading_zero", 2, "actions=02", 3),
    ("number_minus_zero", 4, "variable=-0,1", 3),
    ("number_minus_alone", 8, "init=eq - 1", 3),
    ("number_plus", 8, "init=eq +1 1", 6),
    ("number_and_letter", 8, "init=eq 1x 1", 3),
    ("number_and_space", 5, "automata=1 ", 3),
    ("actions_64", 2, "actions=64", 3),
    ("actions_minus_1", 2, "actions=-1", 3),
    ("variables_49", 3, "variables=49", 3),
    ("range_1000000000", 4, "variable=-1000000000,1000000000", 0),
    ("range_1000000001", 4, "variable=0,1000000001", 3),
    ("range_minus_1000000001", 4, "variable=-1000000001,1", 3),
    ("range_32768", 4, "variable=-32769,32768", 0),
    ("range_10_digits", 4, "variable=0,9999999999", 3),
    ("range_11_digits", 4, "variable=-10000000000,0", 3),
    ("range_2_to_32_and_1", 4, "variable=0,4294967297", 3),
    ("range_2_to_64_and_1", 4, "variable=0,18446744073709551617", 3),
    ("range_leading_zero", 4, "variable=0,0999999999", 3),
    ("automata_0", 5, "automata=0", 3),
    ("automata_17", 5, "automata=17", 3),
    ("locations_0", 7, "locations=0", 3),
    ("locations_33", 7, "locations=33", 3),
    ("edges_513", 10, "edges=513", 3),
    ("edge_location_31", 11, "edge=0,1,31,all 0", 12),
    ("edge_location_32", 11, "edge=32,1,0,all 0", 3),
    ("edge_action_63", 11, "edge=0,63,0,all 0", 12),
    ("edge_action_64", 11, "edge=0,64,0,all 0", 3),
    ("list_63", 6, "sync=63", 5),
    ("list_64", 6, "sync=64", 3),
    ("list_comma_last", 6, "sync=1,", 3),
    ("count_513", 8, "init=all 513", 3),
    ("count_minus_1", 8, "init=any -1", 3),
    ("expression_1000000000", 8, "init=le -1000000000 1000000000", 0),
    ("expression_1000000001", 8, "init=le 1000000001 1", 3),
    ("expression_minus_1000000001", 8, "init=le -1000000001 1", 3),
    ("expression_32768", 8, "init=le -32769 32768", 0),
    ("expression_10_digits", 8, "init=le -9999999999 1", 3),
    ("expression_11_digits", 8, "init=le 1 10000000000", 3),
    ("expression_2_to_32_and_1", 8, "init=eq 4294967297 1", 3),
    ("expression_2_to_64_and_1", 8, "init=eq 18446744073709551617 1", 3),
    ("expression_leading_zero", 8, "init=le 0999999999 1", 3),
    // What is no number of an expression keeps its range.
    ("actions_1000000000", 2, "actions=1000000000", 3),
    ("list_1000000000", 6, "sync=1000000000", 3),
    ("count_1000000000", 8, "init=all 1000000000", 3),
    ("variable_1000000000", 8, "init=eq v1000000000 0", 3),
    ("edge_location_1000000000", 11, "edge=0,1,1000000000,all 0", 3),
    ("leaf_1000000000", 12, "compose=a1000000000", 3),
    ("variable_47", 8, "init=eq v47 0", 7),
    ("variable_48", 8, "init=eq v48 0", 3),
    ("new_47", 11, "edge=0,1,0,eq n47 0", 7),
    ("new_48", 11, "edge=0,1,0,eq n48 0", 3),
    ("leaf_15", 12, "compose=a15", 14),
    ("leaf_16", 12, "compose=a16", 3),
    ("leaf_leading_zero", 12, "compose=a00", 3),
    // Row 4: a range.
    ("range_of_one", 4, "variable=1,1", 0),
    ("range_falls", 4, "variable=1,0", 4),
    ("range_of_one_at_the_end", 4, "variable=1000000000,1000000000", 0),
    ("range_of_one_at_the_beginning", 4, "variable=-1000000000,-1000000000", 0),
    ("range_falls_far", 4, "variable=1000000000,-1000000000", 4),
    // Row 5: a list of actions; A is 2.
    ("list_2", 6, "sync=1,2", 0),
    ("list_3", 6, "sync=3", 5),
    ("list_0", 6, "sync=0", 5),
    ("list_twice", 6, "sync=1,1", 5),
    ("list_falls", 6, "sync=2,1", 5),
    ("syn_list_2", 12, "compose=syn 1,2 a0", 0),
    ("syn_list_0", 12, "compose=syn 0 a0", 5),
    ("syn_list_3", 12, "compose=syn 3 a0", 5),
    // Row 6: a predicate's form.
    ("predicate_empty", 8, "init=", 6),
    ("predicate_short", 9, "inv=eq v0", 6),
    ("predicate_long", 9, "inv=all 0 all 0", 6),
    ("predicate_count_short", 8, "init=all 2 all 0", 6),
    ("predicate_two_spaces", 8, "init=eq  1 1", 6),
    ("predicate_space_last", 8, "init=eq 1 1 ", 6),
    ("predicate_unknown_word", 11, "edge=0,1,0,lt v0 1", 6),
    ("predicate_is_number", 8, "init=1", 6),
    // Rows 7 and 8: variables.
    ("variable_0", 8, "init=eq v0 0", 0),
    ("variable_1", 8, "init=eq v1 0", 7),
    ("new_1", 11, "edge=0,1,0,eq n1 0", 7),
    ("new_in_init", 8, "init=eq n0 0", 8),
    ("new_in_inv", 9, "inv=le n0 1", 8),
    // Row 12: an edge's places.
    ("edge_to_0", 11, "edge=0,0,0,all 0", 0),
    ("edge_from_1", 11, "edge=1,1,0,all 0", 12),
    ("edge_to_1", 11, "edge=0,1,1,all 0", 12),
    ("edge_action_2", 11, "edge=0,2,0,all 0", 0),
    ("edge_action_3", 11, "edge=0,3,0,all 0", 12),
    // Rows 13 and 14: the composition.
    ("compose_empty", 12, "compose=", 13),
    ("compose_short", 12, "compose=par a0", 13),
    ("compose_no_leaf", 12, "compose=syn 1", 13),
    ("compose_no_list", 12, "compose=syn a0 a0", 13),
    ("compose_space_last", 12, "compose=a0 ", 13),
    ("compose_leaf_1", 12, "compose=a1", 14),
    ("compose_leaf_twice", 12, "compose=par a0 a0", 14),
    // Several faults in a line: the smallest row.
    ("faults_3_and_4", 4, "variable=1000000001,9", 3),
    ("faults_3_and_6", 8, "init=foo 1000000001", 3),
    ("faults_5_and_14", 12, "compose=par a1 syn 2,1 a0", 5),
    ("faults_6_and_7", 8, "init=eq v9", 6),
    ("faults_6_and_12", 11, "edge=0,3,0,eq v0", 6),
    ("faults_7_and_8", 8, "init=eq n9 0", 7),
    // Start conditions that are sound: alone, one over the other, over and under a syn.
    ("ini_always", 12, "compose=ini all 0 a0", 0),
    ("ini_never", 12, "compose=ini any 0 a0", 0),
    ("ini_valve", 12, "compose=ini eq v0 0 a0", 0),
    ("ini_over_ini", 12, "compose=ini le v0 0 ini eq v0 1 a0", 0),
    ("ini_over_syn", 12, "compose=ini eq v0 0 syn 2 a0", 0),
    ("ini_under_syn", 12, "compose=syn 2 ini eq v0 0 a0", 0),
    ("ini_with_count", 12, "compose=ini all 2 le 0 v0 any 1 not eq v0 1 a0", 0),
    ("ini_with_if", 12, "compose=ini le if imp eq v0 0 any 0 sub v0 1 mul 2 v0 2 a0", 0),
    // Row 3 in a start condition, and in the tree behind one.
    ("ini_count_513", 12, "compose=ini any 513 a0", 3),
    ("ini_count_v600", 12, "compose=ini any v600 a0", 3),
    ("ini_number_1000000000", 12, "compose=ini le -1000000000 1000000000 a0", 0),
    ("ini_number_1000000001", 12, "compose=ini le v0 1000000001 a0", 3),
    ("ini_number_minus_1000000001", 12, "compose=ini le -1000000001 v0 a0", 3),
    ("ini_number_leading_zero", 12, "compose=ini eq v0 01 a0", 3),
    ("ini_number_with_comma", 12, "compose=ini le 1,2 0 a0", 3),
    ("ini_variable_48", 12, "compose=ini eq v48 0 a0", 3),
    ("ini_leaf_16", 12, "compose=ini any 0 a16", 3),
    ("ini_list_64", 12, "compose=ini all 0 syn 64 a0", 3),
    // Row 5: a list behind syn, wherever that stands.
    ("ini_list_falls", 12, "compose=ini all 0 syn 2,1 a0", 5),
    ("ini_list_in_predicate", 12, "compose=ini not syn 3 a0", 5),
    // Row 6: no predicate behind the word; the word where none can be.
    ("ini_alone", 12, "compose=ini", 6),
    ("ini_last", 12, "compose=a0 ini", 6),
    ("ini_and_leaf", 12, "compose=ini a0", 6),
    ("ini_and_number", 12, "compose=ini 1 a0", 6),
    ("ini_and_variable", 12, "compose=ini v0 a0", 6),
    ("ini_and_par", 12, "compose=ini par all 0 a0", 6),
    ("ini_and_ini", 12, "compose=ini ini all 0 a0", 6),
    ("ini_inside_ini", 12, "compose=ini not ini all 0 a0", 6),
    ("ini_short", 12, "compose=ini le v0 a0", 6),
    ("ini_count_short", 12, "compose=ini all 2 any 0 a0", 6),
    ("ini_count_v1", 12, "compose=ini all v1 a0", 6),
    ("ini_two_spaces", 12, "compose=ini  all 0 a0", 6),
    ("ini_in_init", 8, "init=ini all 0 all 0", 6),
    ("ini_in_inv", 9, "inv=ini all 0", 6),
    ("ini_in_edge", 11, "edge=0,1,0,ini eq n0 1", 6),
    // Rows 7, 8 and 10, also where the tree is ill-formed, and in the second of two.
    ("ini_variable_47", 12, "compose=ini eq v47 0 a0", 7),
    ("ini_variable_1", 12, "compose=ini le v1 0 a0", 7),
    ("ini_variable_1_no_tree", 12, "compose=ini le v1 0", 7),
    ("ini_new_1", 12, "compose=ini eq n1 0 a0", 7),
    ("ini_new_0", 12, "compose=ini eq n0 0 a0", 8),
    ("ini_new_0_in_guard", 12, "compose=ini le if eq n0 0 0 1 2 a0", 8),
    ("ini_new_0_second", 12, "compose=ini all 0 ini eq n0 0 a0", 8),
    ("ini_new_0_behind_tree", 12, "compose=a0 ini eq n0 0", 8),
    ("ini_interval_top", 12, "compose=ini le mul mul 536870912 536870912 16 v0 a0", 0),
    ("ini_interval_past_top", 12, "compose=ini le add mul mul 536870912 536870912 16 v0 v0 a0", 10),
    ("ini_interval_past_bottom", 12, "compose=ini le v0 sub mul mul 536870912 -536870912 16 v0 a0", 10),
    ("ini_interval_guard", 12, "compose=ini eq v0 if le mul mul 1000000000 1000000000 -5 0 0 1 a0", 10),
    ("ini_interval_no_leaf", 12, "compose=par ini le mul mul 1000000000 1000000000 5 0", 10),
    // Row 13: a sound predicate, and no tree.
    ("ini_no_tree", 12, "compose=ini all 0", 13),
    ("ini_no_list", 12, "compose=syn ini all 0 a0", 13),
    ("ini_behind_tree", 12, "compose=a0 ini all 0", 13),
    ("ini_two_predicates", 12, "compose=ini all 0 all 0 a0", 13),
    ("ini_two_trees", 12, "compose=ini all 0 a0 a0", 13),
    ("ini_two_spaces_behind", 12, "compose=ini all 0  a0", 13),
    ("ini_space_last", 12, "compose=ini all 0 a0 ", 13),
    ("ini_capital", 12, "compose=Ini all 0 a0", 13),
    ("ini_digit", 12, "compose=ini0 all 0 a0", 13),
    ("ini_leaf_1", 12, "compose=ini all 0 a1", 14),
    // The smallest row of the whole line, whichever predicate breaks it.
    ("ini_faults_3_and_6", 12, "compose=ini a0 ini eq v99 0 a0", 3),
    ("ini_faults_5_and_6", 12, "compose=ini syn 1,1 a0", 5),
    ("ini_faults_6_and_7", 12, "compose=ini eq v1 0 ini eq v0", 6),
    ("ini_faults_7_and_8", 12, "compose=par ini eq n0 0 a0 ini eq v1 0 a1", 7),
    ("ini_faults_8_and_10", 12, "compose=ini le mul mul 1000000000 1000000000 5 0 ini eq n0 0 a0", 8),
    ("ini_faults_13_and_14", 12, "compose=ini all 0 a1 ini all 0", 13),
];

/// Every case.
pub fn all() -> Vec<Case> {
    let mut cases: Vec<Case> = CHANGES.iter().map(changed).collect();
    cases.extend(ends());
    cases.extend(reader_limits());
    cases.extend(merger_limits());
    cases.extend(repeats());
    cases.extend(starts());
    cases.extend(starts_in_trees());
    cases.extend(lists::all());
    cases.extend(owners::all());
    cases.extend(spans::all());
    cases
}

/// Proposals made by hand, after the text that they are put to.
pub fn judged() -> Vec<Judged> {
    [JUDGED, lists::JUDGED, owners::JUDGED, spans::JUDGED].concat()
}

fn case(name: &str, text: String, refusal: Option<(u32, u32)>) -> Case {
    Case { name: name.to_string(), text: text.into_bytes(), refusal }
}

fn changed(&(name, line, content, row): &Change) -> Case {
    case(name, small(&[(line, content)]), (row != 0).then_some((row, line as u32)))
}

/// The small sheet with other lines in the place of some.
fn small(changes: &[(usize, &str)]) -> String {
    let mut lines = SMALL;
    changes.iter().for_each(|(line, content)| lines[line - 1] = content);
    lines.join("\n") + "\n"
}

/// Where a text ends, and how long it may be.
fn ends() -> Vec<Case> {
    let oven = |length: usize| OVEN.to_string() + &" ".repeat(length - OVEN.len());
    let whole = small(&[]);
    vec![
        case("empty", String::new(), Some((2, 1))),
        case("only_lf", "\n".to_string(), Some((2, 1))),
        case("last_lf_missing", whole.trim_end().to_string(), Some((2, 12))),
        case("last_line_missing", whole.replace("compose=a0\n", ""), Some((2, 12))),
        case("line_more", whole.clone() + "\n", Some((2, 13))),
        case("byte_more", whole + "x", Some((2, 13))),
        case("oven", OVEN.to_string(), None),
        case("bytes_65536", oven(65_536), Some((2, 22))),
        case("bytes_65537", oven(65_537), Some((1, 0))),
    ]
}

/// A predicate of so many nodes.
fn nodes(count: usize) -> String {
    let flat = |count: usize| format!("all {}{}", count - 1, " all 0".repeat(count - 1));
    if count <= 513 {
        return flat(count);
    }
    let mut parts = vec![513; (count - 1) / 513];
    parts.extend(((count - 1) % 513 > 0).then_some((count - 1) % 513));
    let parts: Vec<String> = parts.into_iter().map(flat).collect();
    format!("all {} {}", parts.len(), parts.join(" "))
}

/// A predicate of so many nodes, at most 1,537, in a short text.
fn short(nodes: usize) -> String {
    let (pairs, rest) = ((nodes - 1) / 3, (nodes - 1) % 3);
    format!("all {}{}{}", pairs + rest, " eq 0 0".repeat(pairs), " all 0".repeat(rest))
}

/// Three start conditions with so many nodes together, from 3,075 up; a tree is still lacking.
fn three_starts(nodes: usize) -> String {
    format!("ini {0} syn 1 ini {0} ini {1}", short(1_537), short(nodes - 3_074))
}

/// A predicate of this depth.
fn depth(depth: usize) -> String {
    "not ".repeat(depth - 1) + "all 0"
}

/// A sheet with A 2, so many variables, automata of one location with this set and their edges, and this composition.
fn plain(variables: usize, sync: &str, edges: &[Vec<String>], compose: &str) -> String {
    let mut text = format!("format=1\nactions=2\nvariables={variables}\n{}", "variable=0,1\n".repeat(variables));
    text += &format!("automata={}\n", edges.len());
    for edges in edges {
        text += &format!("sync={sync}\nlocations=1\ninit=all 0\ninv=all 0\nedges={}\n", edges.len());
        edges.iter().for_each(|edge| text += &format!("edge={edge}\n"));
    }
    text + &format!("compose={compose}\n")
}

/// The composition of so many automata, each beside the rest.
fn side_by_side(automata: usize) -> String {
    let last = automata - 1;
    (0..last).map(|k| format!("par a{k} ")).collect::<String>() + &format!("a{last}")
}

/// So many edges by this action, no two of them equal.
fn edges(count: usize, action: u32) -> Vec<String> {
    (0..count).map(|i| format!("0,{action},0,eq 0 {i}")).collect()
}

/// So many edges by action 1 whose updates have 95 nodes, so that a merged one has 102. No two of them are equal.
fn heavy(count: usize) -> Vec<String> {
    (0..count).map(|i| format!("0,1,0,all 92 eq 0 {i}{}", " all 0".repeat(91))).collect()
}

/// So many edges by this action, all equal.
fn pasted(count: usize, action: u32) -> Vec<String> {
    vec![format!("0,{action},0,all 0"); count]
}

/// Two automata that share 1 and 2. The first has edges by 1 alone, the second by 2 alone: no merged edge has them, and
/// what they hold can be as large as the reader lets it.
fn lost(first: Vec<String>, second: Vec<String>) -> String {
    plain(1, "1,2", &[first, second], "par a0 a1")
}

/// Both sides of what the reader counts.
fn reader_limits() -> Vec<Case> {
    let edge = |update: String| vec![format!("0,1,0,{update}")];
    let syn = |count: usize| small(&[(12, &format!("compose={}a0", "syn 1 ".repeat(count)))]);
    let locations = "init=all 0\ninv=all 0\n".repeat(31);
    vec![
        case("actions_63", small(&[(2, "actions=63"), (6, "sync=63"), (11, "edge=0,63,0,eq n0 1")]), None),
        case("automata_16", plain(0, "", &vec![edges(1, 1); 16], &side_by_side(16)), None),
        case("locations_32", small(&[(7, format!("locations=32\n{locations}").trim_end())]), None),
        case("count_512", small(&[(8, &format!("init=all 512{}", " all 0".repeat(512)))]), None),
        case("depth_24", lost(edge(depth(24)), vec![]), None),
        case("depth_25", lost(edge(depth(25)), vec![]), Some((9, 11))),
        case("depth_25_of_numbers", small(&[(8, &format!("init={}eq v0 0", "not ".repeat(23)))]), Some((9, 8))),
        case("nodes_4096", lost(edge(nodes(4_092)), vec![]), None),
        case("nodes_4097", lost(edge(nodes(4_093)), vec![]), Some((11, 15))),
        case("nodes_4097_by_its_line", lost(edge(nodes(4_095)), vec![]), Some((11, 11))),
        case("edges_512", lost(pasted(512, 1), vec![]), None),
        case("edges_300_and_212", lost(pasted(300, 1), pasted(212, 2)), None),
        case("edges_300_and_213", lost(pasted(300, 1), pasted(213, 2)), Some((15, 315))),
        case("tree_64", syn(63), None),
        case("tree_65", syn(64), Some((16, 12))),
        case("leaves_swapped", plain(1, "", &[edges(1, 1), edges(1, 2)], "par a1 a0"), Some((14, 18))),
    ]
}

/// Both sides of what the merger counts, and who takes part.
fn merger_limits() -> Vec<Case> {
    let shared = |left: usize, right: usize| plain(0, "1", &[edges(left, 1), edges(right, 1)], "par a0 a1");
    let alone = |count: usize| plain(1, "", &[heavy(count)], "a0");
    let variables = |count: usize, automata: usize| plain(count, "", &vec![vec![]; automata], &side_by_side(automata));
    let of_depth = |line: usize, key: &str, n: usize| small(&[(line, &format!("{key}{}", depth(n)))]);
    let init = |count: usize| plain(0, "", &[vec![]], "a0").replacen("init=all 0", &format!("init={}", nodes(count)), 1);
    let three = vec![edges(1, 1); 3];
    vec![
        case("variables_47_automata_1", variables(47, 1), None),
        case("variables_48_automata_1", variables(48, 1), Some((31, 0))),
        case("variables_39_automata_9", variables(39, 9), None),
        case("variables_40_automata_9", variables(40, 9), Some((31, 0))),
        case("merged_edges_40", alone(40), None),
        case("merged_edges_41", alone(41), Some((34, 0))),
        case("merged_edges_513", shared(19, 27), Some((32, 0))),
        case("merged_edges_529", shared(23, 23), Some((32, 0))),
        case("merged_edges_64", shared(8, 8), None),
        case("init_depth_22", of_depth(8, "init=", 22), None),
        case("init_depth_23", of_depth(8, "init=", 23), Some((33, 0))),
        case("inv_depth_22", of_depth(9, "inv=", 22), None),
        case("inv_depth_23", of_depth(9, "inv=", 23), Some((33, 0))),
        case("edge_depth_23", of_depth(11, "edge=0,1,0,", 23), None),
        case("edge_depth_24", of_depth(11, "edge=0,1,0,", 24), Some((33, 0))),
        case("merged_nodes_4096", init(4_085), None),
        case("merged_nodes_4097", init(4_086), Some((34, 0))),
        case("one_of_three", plain(0, "", &three, "par a0 par a1 a2"), None),
        case("syn_around_all", plain(0, "", &three, "syn 1 par a0 par a1 a2"), None),
        case("syn_around_first", plain(0, "", &three, "par syn 1 a0 par a1 a2"), None),
        case("syn_around_both_sides", plain(0, "", &three, "par syn 1 a0 syn 1 par a1 a2"), None),
        case("syn_around_each", plain(0, "", &three, "par syn 1 a0 par syn 1 a1 syn 1 a2"), None),
    ]
}

/// Equal edges stand once in the merged sheet, at the first one's place, and are counted once.
fn repeats() -> Vec<Case> {
    let shared = |left: usize, right: usize| plain(0, "1", &[pasted(left, 1), pasted(right, 1)], "par a0 a1");
    let of_7_nodes = |k: usize| format!("0,1,0,all 2 eq 0 {k} eq 0 0");
    let own = |lines: &[&str]| lines.iter().map(|line| line.to_string()).collect::<Vec<_>>();
    let two_places = |edges: &[&str]| {
        let one = plain(1, "", &[own(edges)], "a0");
        one.replace("locations=1\ninit=all 0\ninv=all 0\n", "locations=2\ninit=all 0\ninv=all 0\ninit=all 0\ninv=all 0\n")
    };
    let four = own(&["0,1,0,eq n0 1", "0,1,0,eq n0 0", "0,1,0,eq n0 1", "0,1,0,eq n0 0"]);
    vec![
        // Refused by 32 and by 34 as long as repeats counted.
        case("pasted_529", shared(23, 23), None),
        case("pasted_511", plain(1, "", &[pasted(511, 1)], "a0"), None),
        case("pasted_and_40", plain(1, "", &[[heavy(2), heavy(40)].concat()], "a0"), None),
        // Refused all the same for what is left.
        case("pasted_and_529", plain(0, "1", &[[edges(23, 1), edges(23, 1)].concat(), edges(23, 1)], "par a0 a1"), Some((32, 0))),
        // The first place; what differs in one part stays two, and so does what two automata have.
        case("first_place", plain(1, "", &[own(&["0,1,0,eq n0 1", "0,1,0,eq n0 0", "0,1,0,eq n0 1", "0,2,0,all 0"])], "a0"), None),
        case("differ_in_from", two_places(&["0,1,0,all 0", "1,1,0,all 0", "0,1,0,all 0"]), None),
        case("differ_in_action", two_places(&["0,1,0,all 0", "0,2,0,all 0", "0,1,0,all 0"]), None),
        case("differ_in_to", two_places(&["0,1,0,all 0", "0,1,1,all 0", "0,1,0,all 0"]), None),
        case("differ_in_update", two_places(&["0,1,0,all 0", "0,1,0,any 0", "0,1,0,all 0"]), None),
        case("differ_at_the_end", plain(0, "", &[vec![of_7_nodes(0), of_7_nodes(1), of_7_nodes(0)]], "a0"), None),
        case("equal_in_two_automata", plain(0, "", &[pasted(2, 1), pasted(2, 1)], "par a0 a1"), None),
        case("pasted_product", plain(1, "1", &[four.clone(), four], "par a0 a1"), None),
    ]
}

/// Both sides of what is counted of start conditions.
fn starts() -> Vec<Case> {
    let under = |compose: String| small(&[(12, &format!("compose={compose}"))]);
    let one = |p: String| under(format!("ini {p} a0"));
    let two = |p: String, q: String| under(format!("ini {p} syn 1 ini {q} a0"));
    let tree = |count: usize, leaf: &str| under("ini eq v0 0 ".repeat(count) + leaf);
    let mixed = |count: usize| under("syn 1 ini not any 0 ".repeat(count / 2) + &"syn 2 ".repeat(count % 2) + "a0");
    let large = |key: &str, nodes: usize| format!("{key}{}", short(nodes));
    let last = |edge: usize| {
        let lines = [large("init=", 1_537), large("inv=", 1_537), large("edge=0,1,0,", edge)];
        small(&[(8, &lines[0]), (9, &lines[1]), (11, &lines[2]), (12, "compose=ini all 0 a0")])
    };
    let merged = |nodes: usize| plain(0, "", &[vec![]], &format!("{} a0", three_starts(nodes)));
    vec![
        case("ini_count_512", one(short(1_537)), None),
        // In the merged init it stands one level further down.
        case("ini_depth_23", one(depth(23)), None),
        case("ini_depth_24", one(depth(24)), Some((33, 0))),
        case("ini_depth_25", one(depth(25)), Some((9, 12))),
        case("ini_depth_25_no_tree", under(format!("ini {}", depth(25))), Some((9, 12))),
        // The small sheet has 5 nodes besides. Merged, 4,096 are too many.
        case("ini_nodes_4096", under(three_starts(4_091) + " a0"), Some((34, 0))),
        case("ini_nodes_4097", under(three_starts(4_092) + " a0"), Some((11, 12))),
        case("ini_nodes_4096_no_tree", under(three_starts(4_091)), Some((13, 12))),
        case("ini_nodes_4097_no_tree", under(three_starts(4_092)), Some((11, 12))),
        case("ini_nodes_4096_by_one", last(1_021), Some((34, 0))),
        case("ini_nodes_4097_by_one", last(1_022), Some((11, 12))),
        case("ini_merged_nodes_4096", merged(4_084), None),
        case("ini_merged_nodes_4097", merged(4_085), Some((34, 0))),
        // An ini is one node of the tree, whatever its predicate has.
        case("ini_tree_64", tree(63, "a0"), None),
        case("ini_tree_65", tree(64, "a0"), Some((16, 12))),
        case("ini_tree_65_leaf_1", tree(64, "a1"), Some((14, 12))),
        case("ini_syn_tree_64", mixed(63), None),
        case("ini_syn_tree_65", mixed(64), Some((16, 12))),
        case("ini_faults_8_and_9", two(depth(25), "eq n0 0".to_string()), Some((8, 12))),
        case("ini_faults_9_and_10", two("le mul mul 1000000000 1000000000 5 0".to_string(), depth(25)), Some((9, 12))),
    ]
}

/// Where start conditions stand in a tree: their order in the merged init, what they share, whom they are asked of.
fn starts_in_trees() -> Vec<Case> {
    let three = vec![edges(1, 1); 3];
    let ordered = "ini le v0 4 par par ini le v0 0 syn 1 ini le v0 1 a0 a1 syn 2 ini le v0 2 ini le v0 3 a2";
    let two = [vec!["0,1,0,all 0".to_string()], vec!["0,2,0,eq n0 0".to_string()]];
    let most = small(&[(7, &format!("locations=32\n{}", "init=all 0\ninv=all 0\n".repeat(31)).trim_end())]);
    vec![
        case("ini_cold_oven", OVEN.replace("compose=", "compose=ini eq v0 0 "), None),
        case("ini_in_order", plain(1, "", &three, ordered), None),
        case("ini_leaves_swapped", plain(1, "", &two, "par ini all 0 a1 ini all 0 a0"), Some((14, 18))),
        case("ini_shares", plain(1, "", &[edges(2, 1), edges(2, 1)], "par ini all 0 syn 1 a0 syn 1 ini all 0 a1"), None),
        case("ini_beside", plain(1, "", &two, "par a0 ini eq v0 0 a1"), None),
        case("ini_twice", plain(1, "", &two, "ini le v0 0 par a0 ini not eq v0 0 a1"), None),
        case("ini_most_parts", most.replace("compose=", &format!("compose={}", "ini all 0 ".repeat(63))), None),
    ]
}

/// The name of a text, and proposals to it with their answers, written as in judge.txt.
pub type Judged = (&'static str, &'static [&'static str]);

const JUDGED: &[Judged] = &[
    (
        "oven",
        &[
            // The paper's own.
            "step 0|0,0|1|1|1,0|0|yes True",
            "step 0|0,0|0|2|0,0|1|yes False",
            "step 1|1,0|0|2|1,0|1|no",
            "step 0|1,0|0|2|1,0|0|no",
            "env 1|1,0|0|0|yes",
            "env 1|1,0|0|1|no",
            "step 1|0,0|1|1|1,0|1|no",
            "step 1|0,0|1|0|0,0|1|no",
            // init is asked at the start alone; inv before; no edge; the door alone; a value that no edge names.
            "step 1|1,0|0|2|1,0|0|no",
            "env 0|1,0|0|0|no",
            "env 1|1,0|1|0|no",
            "step 1|1,0|0|1|1,0|0|no",
            "step 1|0,0|0|1|0,0|0|no",
            "step 1|0,0|0|1|1,0|0|yes True",
            "env 0|0,0|0|1|yes",
            // Rows 20 to 24, and the smaller one of two.
            "step 2|0,0|0|1|1,0|0|refused 20",
            "env 2|0|9|9|refused 20",
            "step 0|0|0|1|1,0|0|refused 21",
            "step 0|0,0|0|1|1,0,0|0|refused 21",
            "step 0|0,0||1|1,0|0|refused 21",
            "env 0|0,0|0|0,0|refused 21",
            "step 0|2,0|0|1|1,0|0|refused 22",
            "step 0|0,0|0|1|1,1|2|refused 22",
            "step 0|0,0|-1|1|1,0|0|refused 23",
            "env 1|0,0|0|2|refused 23",
            "step 0|0,0|0|1|1,0|2|refused 23",
            "step 0|0,0|0|3|1,0|0|refused 24",
        ],
    ),
    ("syn_around_all", &["step 0|0,0,0||1|0,0,0||yes True", "step 0|0,0,0||0|0,0,0||no", "step 0|0,0,0||2|0,0,0||no"]),
    ("one_of_three", &["step 0|0,0,0||1|0,0,0||yes False"]),
    ("first_place", &["step 0|0|0|1|0|1|yes False", "step 1|0|1|1|0|0|yes False", "step 1|0|1|2|0|0|no"]),
    ("pasted_product", &["step 0|0,0|0|1|0,0|1|yes True", "step 0|0,0|0|1|0,0|0|yes True", "step 0|0,0|0|0|0,0|0|no"]),
    ("variable_0", &["step 0|0|1|1|0|1|no", "step 0|0|0|1|0|1|yes False", "step 1|0|1|1|0|1|yes False", "step 1|0|0|2|0|1|no"]),
    ("edge_to_0", &["step 1|0|0|0|0|0|yes False", "step 1|0|0|0|0|1|no", "env 1|0|0|1|yes"]),
    (
        "ini_cold_oven",
        &[
            // At the start the valve must be shut before the step; what it is afterwards is not asked.
            "step 0|0,0|0|2|0,0|1|yes False",
            "step 0|0,0|0|1|1,0|0|yes True",
            "step 0|0,0|1|1|1,0|0|no",
            "step 0|0,0|1|2|0,0|1|no",
            "env 0|0,0|0|1|yes",
            "env 0|0,0|1|0|no",
            // Running it plays no part.
            "step 1|0,0|1|1|1,0|0|yes True",
            "env 1|0,0|1|0|yes",
            // init is asked as ever, and the rows come first.
            "step 0|1,0|0|2|1,0|0|no",
            "step 2|0,0|1|1|1,0|0|refused 20",
            "step 0|0,0|1|1|1,0|0,0|refused 21",
            "step 0|0,0|1|1|2,0|0|refused 22",
            "step 0|0,0|2|1|1,0|0|refused 23",
            "step 0|0,0|1|3|1,0|0|refused 24",
            "env 0|0,0|1|2|refused 23",
        ],
    ),
    // Asked also where the other side takes.
    (
        "ini_beside",
        &[
            "step 0|0,0|0|1|0,0|0|yes False",
            "step 0|0,0|1|1|0,0|1|no",
            "step 0|0,0|1|2|0,0|0|no",
            "step 1|0,0|1|1|0,0|1|yes False",
            "env 0|0,0|1|1|no",
            "env 0|0,0|0|1|yes",
        ],
    ),
    // Each of them is asked: here one or the other fails, whatever the value.
    ("ini_twice", &["step 0|0,0|0|1|0,0|0|no", "step 0|0,0|1|1|0,0|1|no", "env 0|0,0|0|0|no", "step 1|0,0|0|1|0,0|0|yes False"]),
    ("ini_never", &["step 0|0|0|1|0|1|no", "env 0|0|0|0|no", "step 1|0|0|1|0|1|yes False", "env 1|0|0|0|yes"]),
    ("ini_always", &["step 0|0|0|1|0|1|yes False", "env 0|0|0|1|yes"]),
    ("ini_over_syn", &["step 0|0|0|1|0|1|yes False", "step 0|0|1|1|0|1|no", "step 1|0|1|1|0|1|yes False"]),
    ("ini_shares", &["step 0|0,0|0|1|0,0|0|yes True"]),
];
