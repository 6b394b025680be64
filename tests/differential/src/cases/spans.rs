//! Row 10: expressions at both ends of the span, -2^62 to 2^62, ends included; and values that 32 bits do not hold.
use super::{case, small, Case, Judged};

/// 2^62, once by powers of two and once by the digits of 4,611,686,018,427,387,904; and -2^62.
const TOP: &str = "mul mul 536870912 536870912 16";
const DIGITS: &str = "add mul 1000000000 add mul 4 1000000000 611686018 427387904";
const BOTTOM: &str = "mul mul 536870912 -536870912 16";
/// 2^31. The product of the next two is 2^62 + 1.
const HALF: &str = "add 1000000000 add 1000000000 147483648";
const BELOW_HALF: &str = "add 1000000000 add 1000000000 147418113";
const ABOVE_HALF: &str = "add 1000000000 add 1000000000 147549185";

/// Every case.
pub fn all() -> Vec<Case> {
    [ends(), beyond(), parts(), places(), ranges(), sheets()].into_iter().flatten().collect()
}

/// The small sheet, whose v0 is 0 to 1, with this expression in its init; row 10 refuses it or not.
fn of_init(name: &str, x: &str, kept: bool) -> Case {
    case(&format!("interval_{name}"), small(&[(8, &format!("init=le {x} 0"))]), (!kept).then_some((10, 8)))
}

/// Both sides of both ends, by each word that can reach them.
fn ends() -> Vec<Case> {
    let (t, b) = (TOP, BOTTOM);
    let negative = |x: &str| format!("sub 0 {x}");
    vec![
        of_init("top", t, true),
        of_init("top_in_digits", DIGITS, true),
        of_init("top_by_add", &format!("add 1 sub {t} 1"), true),
        of_init("top_by_sub", &format!("sub sub {t} 1 -1"), true),
        of_init("top_by_mul", &format!("mul {HALF} {HALF}"), true),
        of_init("top_by_mul_of_negatives", &format!("mul {0} {0}", negative(HALF)), true),
        of_init("past_top_by_add", &format!("add {t} 1"), false),
        of_init("past_top_by_sub", &format!("sub {t} -1"), false),
        of_init("past_top_by_mul", &format!("mul {BELOW_HALF} {ABOVE_HALF}"), false),
        of_init("past_top_in_digits", &format!("add {DIGITS} 1"), false),
        of_init("bottom", b, true),
        of_init("bottom_in_digits", &negative(DIGITS), true),
        of_init("bottom_by_add", &format!("add -1 add {b} 1"), true),
        of_init("bottom_by_sub", &format!("sub add {b} 1 1"), true),
        of_init("bottom_by_mul", &format!("mul {HALF} {}", negative(HALF)), true),
        of_init("past_bottom_by_add", &format!("add {b} -1"), false),
        of_init("past_bottom_by_sub", &format!("sub {b} 1"), false),
        of_init("past_bottom_by_mul", &format!("mul {} {ABOVE_HALF}", negative(BELOW_HALF)), false),
        of_init("past_bottom_in_digits", &format!("sub -1 {DIGITS}"), false),
        // A variable adds its range, at one end or at the other.
        of_init("top_less_v0", &format!("sub {t} v0"), true),
        of_init("top_and_v0", &format!("add {t} v0"), false),
        of_init("bottom_and_v0", &format!("add v0 {b}"), true),
        of_init("bottom_less_v0", &format!("sub {b} v0"), false),
        of_init("top_times_v0", &format!("mul {t} v0"), true),
        of_init("top_times_v0_and_1", &format!("mul {t} add v0 1"), false),
        // From end to end.
        of_init("both_ends", &format!("if eq v0 0 {t} {b}"), true),
        of_init("both_ends_turned", &format!("sub 0 if eq v0 0 {t} {b}"), true),
        of_init("both_ends_times_minus_1", &format!("mul -1 if eq v0 0 {b} {t}"), true),
        of_init("both_ends_and_1", &format!("add if eq v0 0 {t} {b} 1"), false),
        of_init("both_ends_less_1", &format!("sub if eq v0 0 {t} {b} 1"), false),
        of_init("both_ends_times_2", &format!("mul 2 if eq v0 0 {t} {b}"), false),
    ]
}

/// Far beyond, where 64 bits wrap or do not hold the number at all; and back at 0.
fn beyond() -> Vec<Case> {
    let (t, b) = (TOP, BOTTOM);
    let hull = format!("if eq v0 0 {t} {b}");
    vec![
        of_init("top_less_top", &format!("sub {t} {t}"), true),
        of_init("top_and_bottom", &format!("add {t} {b}"), true),
        of_init("top_times_0", &format!("mul {t} 0"), true),
        of_init("top_and_top", &format!("add {t} {t}"), false),
        of_init("bottom_and_bottom", &format!("add {b} {b}"), false),
        of_init("top_less_bottom", &format!("sub {t} {b}"), false),
        of_init("bottom_less_top", &format!("sub {b} {t}"), false),
        // Only one end is outside, by a sum, by a difference and by each corner of a product.
        of_init("up_to_twice_top", &format!("add mul {t} v0 mul v0 {t}"), false),
        of_init("up_to_top_less_bottom", &format!("sub mul {t} v0 mul v0 {b}"), false),
        of_init("down_to_twice_bottom", &format!("add mul {b} v0 mul v0 {b}"), false),
        of_init("down_to_bottom_less_top", &format!("sub mul {b} v0 mul v0 {t}"), false),
        of_init("corner_least_least", &format!("mul mul {b} v0 mul -2 v0"), false),
        of_init("corner_least_greatest", &format!("mul mul {b} v0 mul 2 v0"), false),
        of_init("corner_greatest_least", &format!("mul mul 2 v0 mul {b} v0"), false),
        of_init("corner_greatest_greatest", &format!("mul mul {t} v0 mul 2 v0"), false),
        of_init("top_times_2", &format!("mul {t} 2"), false),
        of_init("top_times_4", &format!("mul 4 {t}"), false),
        of_init("bottom_times_4", &format!("mul {b} 4"), false),
        of_init("wraps_to_0", "mul mul 65536 65536 mul 65536 65536", false),
        of_init("wraps_to_minus_1", "mul add mul 65536 65536 1 sub mul 65536 65536 1", false),
        of_init("top_squared", &format!("mul {t} {t}"), false),
        of_init("top_times_bottom", &format!("mul {t} {b}"), false),
        of_init("bottom_squared", &format!("mul {b} {b}"), false),
        of_init("corners", &format!("mul {hull} {hull}"), false),
        of_init("ends_less_ends", &format!("sub {hull} {hull}"), false),
        of_init("extremes_times_4", "mul mul 1000000000 -1000000000 4", true),
        of_init("extremes_times_5", "mul mul 1000000000 -1000000000 5", false),
        of_init("three_extremes", "mul 1000000000 mul 1000000000 1000000000", false),
    ]
}

/// Every part is asked, whatever becomes of it.
fn parts() -> Vec<Case> {
    let (t, b) = (TOP, BOTTOM);
    vec![
        of_init("part_past_top", &format!("sub add {t} 1 1"), false),
        of_init("part_past_bottom", &format!("add sub {b} 1 1"), false),
        of_init("part_times_0", &format!("mul 0 add {t} 1"), false),
        of_init("part_squared_times_0", &format!("mul mul {t} {t} 0"), false),
        of_init("part_less_itself", &format!("sub add {t} 1 add {t} 1"), false),
        of_init("case", &format!("if eq v0 0 0 add {t} 1"), false),
        of_init("other_case", &format!("if eq v0 0 sub {b} 1 0"), false),
        of_init("case_never_taken", &format!("if any 0 add {t} 1 0"), false),
        of_init("guard_top", &format!("if le {t} {b} 0 1"), true),
        of_init("guard", &format!("if le add {t} 1 0 0 1"), false),
        of_init("guard_right", &format!("if eq 0 sub {b} 1 0 1"), false),
        of_init("guard_of_guard", &format!("if eq 0 if not le 0 sub {b} 1 1 2 0 1"), false),
    ]
}

/// Wherever a predicate stands, and before or after other rows.
fn places() -> Vec<Case> {
    let past = format!("le add {TOP} 1 0");
    let one = |name: &str, line: usize, content: String, row: u32| {
        case(&format!("interval_{name}"), small(&[(line, &content)]), (row > 0).then_some((row, line as u32)))
    };
    vec![
        one("right_side", 8, format!("init=eq 0 sub {BOTTOM} 1"), 10),
        one("under_never", 8, format!("init=imp any 0 {past}"), 10),
        one("under_any", 8, format!("init=any 2 all 0 not {past}"), 10),
        one("inv_top", 9, format!("inv=le {TOP} {BOTTOM}"), 0),
        one("inv", 9, format!("inv={past}"), 10),
        one("new_top", 11, format!("edge=0,1,0,le sub {TOP} n0 0"), 0),
        one("new", 11, format!("edge=0,1,0,le add {TOP} n0 0"), 10),
        one("faults_3_and_10", 8, format!("init=le add {TOP} 1000000001 0"), 3),
        one("faults_6_and_10", 8, format!("init=le add {TOP} 1"), 6),
        one("faults_8_and_10", 8, format!("init=le add {TOP} n0 0"), 8),
        one("faults_10_and_12", 11, format!("edge=1,1,0,{past}"), 10),
    ]
}

/// What v0's range makes of a product.
fn ranges() -> Vec<Case> {
    let one = |name: &str, range: &str, x: &str, kept: bool| {
        let text = small(&[(4, &format!("variable={range}")), (8, &format!("init=le {x} 0"))]);
        case(&format!("range_{name}"), text, (!kept).then_some((10, 8)))
    };
    let (square, cube) = ("mul v0 v0", "mul mul v0 v0 v0");
    vec![
        // The paper's example, the one it had before, and the two numbers that the end lies between.
        one("cube_2000000", "0,2000000", cube, false),
        one("cube_1600000", "0,1600000", cube, true),
        one("cube_2000", "0,2000", cube, true),
        one("cube_1664510", "0,1664510", cube, true),
        one("cube_1664511", "0,1664511", cube, false),
        one("cube_minus_1664510", "-1664510,0", cube, true),
        one("cube_minus_1664511", "-1664511,0", cube, false),
        one("square_16", "-536870912,536870912", &format!("mul {square} 16"), true),
        one("square_16_past_top", "0,536870913", &format!("mul {square} 16"), false),
        one("square_minus_16_past_bottom", "-536870913,0", &format!("mul -16 {square}"), false),
        one("square_4", "-1000000000,1000000000", &format!("mul {square} 4"), true),
        one("square_5", "-1000000000,1000000000", &format!("mul {square} 5"), false),
        one("square_below_4", "-1000000000,-1", &format!("mul {square} -4"), true),
        one("square_below_5", "-1000000000,-1", &format!("mul -5 {square}"), false),
        one("turned", "-1000000000,1000000000", "sub sub 0 v0 v0", true),
        one("one_value_times_4", "1000000000,1000000000", "mul 4 mul v0 v0", true),
        one("one_value_times_5", "-1000000000,-1000000000", "mul 5 mul v0 v0", false),
    ]
}

/// A sheet with two wide variables v0 and v1, and v2, 0 to 1; the edges are by actions 1, 2 and so on.
fn wide(init: &str, inv: &str, updates: &[&str]) -> String {
    let count = updates.len();
    let ranges = "variable=-1000000000,1000000000\n".repeat(2);
    let edge = |(k, update): (usize, &&str)| format!("edge=0,{},0,{update}\n", k + 1);
    let edges: String = updates.iter().enumerate().map(edge).collect();
    let head = format!("format=1\nactions={count}\nvariables=3\n{ranges}variable=0,1\nautomata=1\nsync=\n");
    format!("{head}locations=1\ninit={init}\ninv={inv}\nedges={count}\n{edges}compose=a0\n")
}

/// Sheets for proposals whose answers hang on large values.
fn sheets() -> Vec<Case> {
    let products = [
        "eq mul v0 v1 mul 1000000000 999999999",
        "le mul v0 v1 mul -1000000000 1000000000",
        "all 2 eq mul n0 n1 mul v0 v1 not eq n0 v0",
        "eq n0 sub mul v1 1000000000 mul v1 999999999",
        "eq n2 if le mul v0 v0 mul v1 v1 1 0",
    ];
    let low_bits = [
        "eq v0 add v1 mul 65536 65536",
        "eq mul v0 65536 mul v1 65536",
        "le mul v0 v0 v1",
        "le mul v0 v1 -1",
        "le mul v0 65536 mul v1 65536",
    ];
    let high_bits = [
        "eq mul v0 4 mul v1 4",
        "le add mul v0 v0 1 mul v0 v0",
        "eq add mul mul v0 v0 4 n2 mul mul v0 v0 4",
        "le sub mul mul v0 v0 -4 n2 sub mul mul v0 v0 -4 1",
        "not le mul v0 v0 sub mul v1 v1 1",
        "le mul v0 v0 mul sub v0 1 add v0 1",
    ];
    let root = "if le v0 0 -536870912 536870912";
    let ends = [
        format!("eq mul mul {root} 536870912 mul v2 16 {TOP}"),
        format!("eq {DIGITS} {TOP}"),
        format!("eq n2 if le mul 16 mul {root} 536870912 {BOTTOM} 1 0"),
        format!("le {TOP} sub {TOP} n2"),
    ];
    let states = wide("le 0 mul v0 v1", "le mul v0 v1 mul 65536 65536", &["eq n0 v1\nwrites=0"]);
    let start = "compose=ini le mul v0 v1 mul 3 1000000000 ";
    vec![
        case("wide_products", wide("all 0", "all 0", &products), None),
        case("wide_low_bits", wide("all 0", "all 0", &low_bits), None),
        case("wide_high_bits", wide("all 0", "all 0", &high_bits), None),
        case("wide_ends", wide("all 0", "all 0", &ends.each_ref().map(String::as_str)), None),
        case("wide_states", states.replace("format=1", "format=2").replace("compose=", start), None),
    ]
}

/// Proposals to them.
pub const JUDGED: &[Judged] = &[
    (
        "wide_products",
        &[
            // 999,999,999,000,000,000, and neighbours of it.
            "step 1|0|1000000000,999999999,0|1|0|1000000000,999999999,0|yes False",
            "step 1|0|-999999999,-1000000000,0|1|0|-999999999,-1000000000,0|yes False",
            "step 1|0|1000000000,1000000000,0|1|0|1000000000,1000000000,0|no",
            "step 1|0|-1000000000,999999999,0|1|0|-1000000000,999999999,0|no",
            // At most -10^18, which two products are.
            "step 1|0|-1000000000,1000000000,0|2|0|-1000000000,1000000000,0|yes False",
            "step 1|0|1000000000,-1000000000,0|2|0|1000000000,-1000000000,0|yes False",
            "step 1|0|-1000000000,999999999,0|2|0|-1000000000,999999999,0|no",
            "step 1|0|-1000000000,-1000000000,0|2|0|-1000000000,-1000000000,0|no",
            // Other factors, the same product.
            "step 1|0|1000000000,999999999,0|3|0|999999999,1000000000,0|yes False",
            "step 1|0|1000000000,999999999,0|3|0|-1000000000,-999999999,0|yes False",
            "step 1|0|1000000000,999999999,0|3|0|999999999,999999999,0|no",
            "step 1|0|65536,65536,0|3|0|0,0,0|no",
            // What is left of two large products is v1.
            "step 1|0|0,1000000000,0|4|0|1000000000,1000000000,0|yes False",
            "step 1|0|5,-1000000000,0|4|0|-1000000000,-1000000000,0|yes False",
            "step 1|0|5,-1000000000,0|4|0|-999999999,-1000000000,0|no",
            // A guard compares squares.
            "step 1|0|1000000000,999999999,1|5|0|1000000000,999999999,0|yes False",
            "step 1|0|1000000000,999999999,0|5|0|1000000000,999999999,1|no",
            "step 1|0|999999999,-1000000000,0|5|0|999999999,-1000000000,1|yes False",
            "step 1|0|1000000000,-1000000000,1|5|0|1000000000,-1000000000,1|yes False",
            // A value is out of its range.
            "step 1|0|1000000001,0,0|5|0|0,0,0|refused 23",
            "step 1|0|0,0,0|4|0|-1000000001,0,0|refused 23",
            "env 1|0|0,0,0|0,2147483647,0|refused 23",
            "env 1|0|-2147483648,0,0|0,0,0|refused 23",
            "env 1|0|1000000000,-1000000000,0|-1000000000,1000000000,1|yes",
        ],
    ),
    // Numbers that differ, and have the same lowest 32 bits or another sign there.
    (
        "wide_low_bits",
        &[
            "step 1|0|7,7,0|1|0|7,7,0|no",
            "step 1|0|0,0,0|1|0|0,0,0|no",
            "step 1|0|65536,0,0|2|0|65536,0,0|no",
            "step 1|0|65537,1,0|2|0|65537,1,0|no",
            "step 1|0|-65536,65536,0|2|0|-65536,65536,0|no",
            "step 1|0|1000000000,1000000000,0|2|0|1000000000,1000000000,0|yes False",
            "step 1|0|65536,1,0|3|0|65536,1,0|no",
            "step 1|0|46341,1000000000,0|3|0|46341,1000000000,0|no",
            "step 1|0|31623,1000000000,0|3|0|31623,1000000000,0|no",
            "step 1|0|-31622,1000000000,0|3|0|-31622,1000000000,0|yes False",
            "step 1|0|65536,65536,0|4|0|65536,65536,0|no",
            "step 1|0|46341,46341,0|4|0|46341,46341,0|no",
            "step 1|0|1000000000,1000000000,0|4|0|1000000000,1000000000,0|no",
            "step 1|0|-65536,65536,0|4|0|-65536,65536,0|yes False",
            "step 1|0|-1000000000,1000000000,0|4|0|-1000000000,1000000000,0|yes False",
            "step 1|0|32768,0,0|5|0|32768,0,0|no",
            "step 1|0|0,32768,0|5|0|0,32768,0|yes False",
        ],
    ),
    // Numbers that differ in the last digit, where one that is cut off or rounded does not.
    (
        "wide_high_bits",
        &[
            "step 1|0|1000000000,999999999,0|1|0|1000000000,999999999,0|no",
            "step 1|0|-1000000000,-999999999,0|1|0|-1000000000,-999999999,0|no",
            "step 1|0|-1000000000,-1000000000,0|1|0|-1000000000,-1000000000,0|yes False",
            "step 1|0|1000000000,0,0|2|0|1000000000,0,0|no",
            "step 1|0|94906267,0,0|2|0|94906267,0,0|no",
            "step 1|0|1000000000,0,1|3|0|1000000000,0,0|yes False",
            "step 1|0|1000000000,0,0|3|0|1000000000,0,1|no",
            "step 1|0|-1000000000,0,0|4|0|-1000000000,0,1|yes False",
            "step 1|0|-1000000000,0,1|4|0|-1000000000,0,0|no",
            "step 1|0|-1000000000,1000000000,0|5|0|-1000000000,1000000000,0|yes False",
            "step 1|0|999999999,1000000000,0|5|0|999999999,1000000000,0|no",
            "step 1|0|1000000000,0,0|6|0|1000000000,0,0|no",
            "step 1|0|-94906267,0,0|6|0|-94906267,0,0|no",
        ],
    ),
    // 2^62 and -2^62 themselves.
    (
        "wide_ends",
        &[
            "step 1|0|1,0,1|1|0|1,0,1|yes False",
            "step 1|0|0,0,1|1|0|0,0,1|no",
            "step 1|0|1,0,0|1|0|1,0,0|no",
            "step 1|0|0,0,0|2|0|0,0,0|yes False",
            "step 1|0|0,0,0|3|0|0,0,1|yes False",
            "step 1|0|0,0,0|3|0|0,0,0|no",
            "step 1|0|1,0,1|3|0|1,0,0|yes False",
            "step 1|0|1,0,0|3|0|1,0,1|no",
            "step 1|0|0,0,1|4|0|0,0,0|yes False",
            "step 1|0|0,0,0|4|0|0,0,1|no",
        ],
    ),
    // A product in init, in inv and in a start condition: from 0 up, up to 2^32, up to 3,000,000,000.
    (
        "wide_states",
        &[
            "step 0|0|50000,60000,0|1|0|60000,60000,0|yes False",
            "step 0|0|50000,60001,0|1|0|60001,60001,0|no",
            "step 1|0|50000,60001,0|1|0|60001,60001,0|yes False",
            "step 0|0|-50000,60000,0|1|0|60000,60000,0|no",
            "step 1|0|-50000,60000,0|1|0|60000,60000,0|yes False",
            "step 1|0|65536,65536,0|1|0|65536,65536,0|yes False",
            "step 1|0|65537,65536,0|1|0|65536,65536,0|no",
            "step 1|0|0,70000,0|1|0|70000,70000,0|no",
            "env 0|0|50000,60000,0|1000000000,-1000000000,0|yes",
            "env 0|0|60000,60000,0|0,0,0|no",
            "env 1|0|0,0,0|65536,65536,1|yes",
            "env 1|0|0,0,0|65536,65537,0|no",
            "env 1|0|0,0,0|-1000000000,-1000000000,0|no",
        ],
    ),
];
