//! Damaged texts and tables.
use super::Random;
use crate::reference::model::{GREATEST_NUMBER, TABLE_WORDS};

/// Words, numbers and what is neither, for predicates and compositions.
pub const TOKENS: &[&str] = &[
    "all",
    "any",
    "not",
    "imp",
    "eq",
    "le",
    "add",
    "sub",
    "mul",
    "if",
    "par",
    "syn",
    "ini",
    "a0",
    "a1",
    "a15",
    "a16",
    "v0",
    "v1",
    "v47",
    "v48",
    "n0",
    "n1",
    "n48",
    "0",
    "1",
    "-1",
    "-0",
    "00",
    "01",
    "2,1",
    "1,2",
    "0,1",
    "1,",
    ",1",
    "63",
    "64",
    "512",
    "513",
    "1000000000",
    "1000000001",
    "-1000000000",
    "-1000000001",
    // 1 more than 2^32 and than 2^64.
    "4294967297",
    "18446744073709551617",
    "x",
    "",
    "-",
    "v",
    "n",
    "a",
    "v-1",
    "v01",
    "all 0",
    "any 0",
    "ini all 0",
    "+1",
    "1x",
];
const MOST: i64 = GREATEST_NUMBER;
const PAST: i64 = GREATEST_NUMBER + 1;
const NUMBERS: &[i64] =
    &[0, 1, 2, 3, 15, 16, 17, 31, 32, 33, 47, 48, 49, 63, 64, 65, 511, 512, 513, 4_096, -1, MOST, PAST, -MOST, -PAST];
/// Words at the limits of what a bound and a number have; and of kind 6, which no node has.
pub const WORDS: &[u32] = &[
    6,
    524_294,
    1_000_000_000,
    2_000_000_000,
    2_000_000_001,
    2_147_483_647,
    2_147_483_648,
    3_147_483_648,
    4_147_483_648,
    4_147_483_649,
    u32::MAX,
];
/// What can stand behind `ini`: good, ill-formed, with a fault, or nothing.
pub const STARTS: &[&str] = &[
    "all 0",
    "any 0",
    "eq v0 0",
    "all 2 le v0 1 not any 0",
    "le if eq v0 0 1 2 v0",
    "",
    "a0",
    "v0",
    "eq v0",
    "all 2 all 0",
    "all",
    "all v1",
    "all v600",
    "all 513",
    "ini all 0",
    "par",
    "syn 1",
    "syn 2,1",
    "eq v0 00",
    "eq v48 0",
    "eq v47 0",
    "eq n0 0",
    "eq n47 0",
    "eq 0 if eq n0 0 1 2",
    "le mul mul 536870912 536870912 16 0",
    "le sub -1 mul mul 536870912 536870912 16 0",
    "le if le mul mul 1000000000 1000000000 5 0 0 1 0",
];
/// Expressions with large values, or with values that a product makes large, for a sheet with two variables.
pub const LARGE: &[&str] = &[
    "0",
    "1",
    "-1",
    "1000000000",
    "-1000000000",
    "v0",
    "v1",
    "n0",
    "mul v0 n0",
    "mul 65536 65536",
    "mul 65536 v0",
    "mul mul v0 v0 4",
    "mul mul 536870912 536870912 8",
    "mul mul 536870912 536870912 16",
    "mul mul 536870912 -536870912 16",
    "mul v1 mul mul 536870912 536870912 16",
];
/// What can stand behind `writes=`, or between two commas of it.
pub const LISTS: &[&str] = &[
    "",
    "0",
    "1",
    "2",
    "3",
    "46",
    "47",
    "48",
    "0,1",
    "1,0",
    "0,0",
    "1,2",
    ",",
    "0,",
    ",1",
    "00",
    "01",
    "-0",
    "-1",
    "n0",
    "v1",
    "0 ",
    " 1",
    "1x",
    "+1",
    "99999999999999999999",
];
/// What can stand behind `owner=`.
pub const OWNERS: &[&str] = &[
    "none",
    "0",
    "1",
    "2",
    "3",
    "14",
    "15",
    "16",
    "17",
    "",
    "None",
    "NONE",
    "none ",
    " none",
    "nones",
    "non",
    "none0",
    "00",
    "01",
    "015",
    "-0",
    "-1",
    "-",
    "+1",
    "1 ",
    " 1",
    "0,1",
    "none,none",
    "none,",
    ",",
    "a0",
    "4294967296",
    "18446744073709551616",
    "none\t",
    "0\r",
];
const BYTES: &[u8] = b"\n\r\t ,=-0123456789vnaALsyn\x00\x1f\x20\x7e\x7f\x80\xff";

/// A text with one or two faults, perhaps.
pub fn damaged_text(random: &mut Random, text: &[u8]) -> Vec<u8> {
    let mut damaged = damaged_once(random, text);
    while random.percent(20) {
        damaged = damaged_once(random, &damaged);
    }
    damaged
}

fn damaged_once(random: &mut Random, text: &[u8]) -> Vec<u8> {
    match random.below(18) {
        0 | 1 => damaged_byte(random, text),
        9 | 10 => rewritten_line(random, text),
        11 | 12 => more_starts(random, text),
        13..=15 => damaged_writes(random, text),
        16 | 17 => damaged_owners(random, text),
        2 | 3 => damaged_parts(random, text, b'\n'),
        4 | 5 => damaged_token(random, text),
        6 | 7 => damaged_number(random, text),
        _ => cut_or_repeated(random, text),
    }
}

fn damaged_byte(random: &mut Random, text: &[u8]) -> Vec<u8> {
    let mut damaged = text.to_vec();
    let byte = if random.percent(70) { random.pick(BYTES) } else { random.below(256) as u8 };
    let at = random.below(text.len());
    match random.below(4) {
        0 => damaged.insert(at, byte),
        _ if text.is_empty() => damaged.push(byte),
        1 => {
            damaged.remove(at);
        }
        2 => damaged.swap(at, random.below(text.len())),
        _ => damaged[at] = byte,
    }
    damaged
}

/// Parts between separators: one dropped, repeated, or two swapped.
fn damaged_parts(random: &mut Random, text: &[u8], separator: u8) -> Vec<u8> {
    let mut parts: Vec<&[u8]> = text.split(|byte| *byte == separator).collect();
    let (at, other) = (random.below(parts.len()), random.below(parts.len()));
    let part = parts[at];
    match random.below(4) {
        0 => {
            parts.remove(at);
        }
        1 => parts.insert(at, part),
        2 if at + 1 < parts.len() => parts.swap(at, at + 1),
        _ => parts.swap(at, other),
    }
    parts.join(&separator)
}

/// A line whose words are dropped, repeated, swapped or replaced.
fn damaged_token(random: &mut Random, text: &[u8]) -> Vec<u8> {
    if random.percent(40) {
        let separator = random.pick(b" ,");
        return damaged_parts(random, text, separator);
    }
    let mut damaged = Vec::new();
    let ends = |byte: &u8| matches!(byte, b' ' | b',' | b'=' | b'\n');
    let starts: Vec<usize> = (0..text.len()).filter(|i| *i == 0 || ends(&text[i - 1])).collect();
    if starts.is_empty() {
        return text.to_vec();
    }
    let start = random.pick(&starts);
    let end = start + text[start..].iter().position(ends).unwrap_or(text.len() - start);
    damaged.extend(&text[..start]);
    damaged.extend(random.pick(TOKENS).bytes());
    if random.percent(30) {
        damaged.push(b' ');
        damaged.extend(&text[start..end]);
    }
    damaged.extend(&text[end..]);
    damaged
}

/// A line whose predicate or composition is a row of random words: ill-formed, and with numbers in every place.
fn rewritten_line(random: &mut Random, text: &[u8]) -> Vec<u8> {
    let mut lines: Vec<Vec<u8>> = text.split(|byte| *byte == b'\n').map(<[u8]>::to_vec).collect();
    let keys: [&[u8]; 4] = [b"compose=", b"init=", b"inv=", b"edge="];
    let key = random.pick(&keys);
    let of_key: Vec<usize> = (0..lines.len()).filter(|i| lines[*i].starts_with(key)).collect();
    if of_key.is_empty() {
        return text.to_vec();
    }
    let line = &mut lines[random.pick(&of_key)];
    let start = if key == b"edge=" { line.iter().rposition(|byte| *byte == b',').map_or(5, |comma| comma + 1) } else { key.len() };
    if random.percent(50) {
        line.truncate(start);
    } else {
        // Only the end is new, so that what comes before it is sound.
        let spaces: Vec<usize> = (start..line.len()).filter(|i| line[*i] == b' ').collect();
        line.truncate(if spaces.is_empty() { start } else { random.pick(&spaces) + 1 });
    }
    let words: Vec<&str> = (0..1 + random.below(6)).map(|_| word(random, key == b"compose=")).collect();
    line.extend(words.join(" ").bytes());
    lines.join(&b'\n')
}

fn word(random: &mut Random, in_composition: bool) -> &'static str {
    let usual: &[&str] = if in_composition {
        &["par", "syn", "ini", "a0", "a1", "1", "2,1", "1,2", "ini all 0", "eq v0 0"]
    } else {
        &["all", "any", "eq", "v0", "n0", "1", "not"]
    };
    if random.percent(60) {
        random.pick(usual)
    } else {
        random.pick(TOKENS)
    }
}

/// A composition with an `ini` more, or some: anywhere, behind the tree too, and with any predicate or none.
fn more_starts(random: &mut Random, text: &[u8]) -> Vec<u8> {
    let mut lines: Vec<Vec<u8>> = text.split(|byte| *byte == b'\n').map(<[u8]>::to_vec).collect();
    let Some(line) = lines.iter_mut().find(|line| line.starts_with(b"compose=")) else {
        return text.to_vec();
    };
    for _ in 0..random.pick(&[1, 1, 2, 3]) {
        let more = format!("ini {}", behind_ini(random));
        let places: Vec<usize> = (8..line.len()).filter(|i| matches!(line[i - 1], b'=' | b' ')).chain([line.len()]).collect();
        let at = random.pick(&places);
        let more = if at == line.len() { format!(" {more}") } else { format!("{more} ") };
        line.splice(at..at, more.into_bytes());
    }
    lines.join(&b'\n')
}

/// What edges write, said otherwise: another list, or its line somewhere else or not at all; or another format says which
/// lines are due.
fn damaged_writes(random: &mut Random, text: &[u8]) -> Vec<u8> {
    let mut lines: Vec<Vec<u8>> = text.split(|byte| *byte == b'\n').map(<[u8]>::to_vec).collect();
    if random.percent(15) {
        lines[0] = format!("format={}", random.pick(&[0, 1, 1, 2, 2, 3, 3, 4])).into_bytes();
        return lines.join(&b'\n');
    }
    let of_key = |key: &[u8]| (0..lines.len()).filter(|i| lines[*i].starts_with(key)).collect::<Vec<_>>();
    let (edges, lists) = (of_key(b"edge="), of_key(b"writes="));
    if edges.is_empty() {
        return text.to_vec();
    }
    if lists.is_empty() || random.percent(5) {
        let behind = 1 + random.pick(&edges);
        lines.insert(behind, format!("writes={}", random.pick(LISTS)).into_bytes());
        return lines.join(&b'\n');
    }
    let at = random.pick(&lists);
    match random.below(16) {
        0 => drop(lines.remove(at)),
        1 => lines.insert(at, lines[at].clone()),
        2 => lines.swap(at.saturating_sub(1), at),
        3 => lines.swap(at, random.pick(&lists)),
        _ => lines[at] = [b"writes=", &damaged_list(random, &lines[at][7..])[..]].concat(),
    }
    lines.join(&b'\n')
}

/// Whom variables belong to, said otherwise: another owner, or its line somewhere else or not at all; or other automata
/// are there.
fn damaged_owners(random: &mut Random, text: &[u8]) -> Vec<u8> {
    let mut lines: Vec<Vec<u8>> = text.split(|byte| *byte == b'\n').map(<[u8]>::to_vec).collect();
    let of_key = |key: &[u8]| (0..lines.len()).filter(|i| lines[*i].starts_with(key)).collect::<Vec<_>>();
    let (variables, owners, automata) = (of_key(b"variable="), of_key(b"owner="), of_key(b"automata="));
    if variables.is_empty() || automata.is_empty() {
        return text.to_vec();
    }
    let other = format!("owner={}", random.pick(OWNERS)).into_bytes();
    if owners.is_empty() || random.percent(5) {
        lines.insert(1 + random.pick(&variables), other);
        return lines.join(&b'\n');
    }
    let at = random.pick(&owners);
    match random.below(12) {
        0 => drop(lines.remove(at)),
        1 => lines.insert(at, lines[at].clone()),
        2 => lines.swap(at.saturating_sub(1), at),
        3 | 4 => lines.swap(at, random.pick(&owners)),
        5 | 6 => lines[automata[0]] = format!("automata={}", random.below(18)).into_bytes(),
        _ => lines[at] = other,
    }
    lines.join(&b'\n')
}

/// A list with an item more or less, or another, or in another order.
fn damaged_list(random: &mut Random, list: &[u8]) -> Vec<u8> {
    let mut items: Vec<Vec<u8>> = list.split(|byte| *byte == b',').filter(|item| !item.is_empty()).map(<[u8]>::to_vec).collect();
    let at = random.below(items.len());
    let other = if random.percent(60) { random.below(5).to_string() } else { random.pick(LISTS).to_string() };
    match random.below(8) {
        0 | 1 => items.insert(at, other.into_bytes()),
        2 => items.push(other.into_bytes()),
        _ if items.is_empty() => {}
        3 => drop(items.remove(at)),
        4 => items.insert(at, items[at].clone()),
        5 => items[at..].rotate_left(1),
        6 => items[at] = other.into_bytes(),
        _ => items.reverse(),
    }
    if random.percent(40) {
        items.sort_by_key(|item| std::str::from_utf8(item).map_or(0, |digits| digits.parse().unwrap_or(0)));
    }
    items.join(&b',')
}

/// What stands behind an `ini`; some are around the limits of depth and nodes.
fn behind_ini(random: &mut Random) -> String {
    match random.below(12) {
        0 => "not ".repeat(22 + random.below(3)) + "all 0",
        1 => {
            let part = format!(" all 512{}", " all 0".repeat(512));
            let parts = random.below(9);
            format!("all {parts}{}", part.repeat(parts))
        }
        _ => random.pick(STARTS).to_string(),
    }
}

fn damaged_number(random: &mut Random, text: &[u8]) -> Vec<u8> {
    let digit = |i: usize| text.get(i).is_some_and(u8::is_ascii_digit);
    let starts: Vec<usize> = (0..text.len()).filter(|i| digit(*i) && (*i == 0 || !digit(i - 1))).collect();
    if starts.is_empty() {
        return text.to_vec();
    }
    let start = random.pick(&starts);
    let end = (start..).find(|i| !digit(*i)).expect("a text ends");
    let old: i64 = std::str::from_utf8(&text[start..end]).expect("digits").parse().unwrap_or(i64::MAX / 2);
    let new = match random.below(6) {
        0 => (old + 1).to_string(),
        1 => (old - 1).to_string(),
        2 => format!("0{old}"),
        3 => format!("-{old}"),
        _ => random.pick(NUMBERS).to_string(),
    };
    [&text[..start], new.as_bytes(), &text[end..]].concat()
}

fn cut_or_repeated(random: &mut Random, text: &[u8]) -> Vec<u8> {
    let at = random.below(text.len() + 1);
    match random.below(4) {
        0 => text[at..].to_vec(),
        1 => [text, &text[at..]].concat(),
        _ => text[..at].to_vec(),
    }
}

/// Each small damage of a text, one after the other.
pub fn every_damage(text: &[u8]) -> Vec<Vec<u8>> {
    let mut all = Vec::new();
    for at in 0..text.len() {
        all.push(text[..at].to_vec());
        all.push([&text[..at], &text[at + 1..]].concat());
        for byte in [b'\n', b' ', b',', b'0', b'9', b'-', b'=', b'v', 31, 127, text[at] ^ 1] {
            all.push([&text[..at], &[byte], &text[at + 1..]].concat());
        }
        all.push([&text[..at], b"1", &text[at..]].concat());
    }
    let lines: Vec<&[u8]> = text.split_inclusive(|byte| *byte == b'\n').collect();
    for at in 0..lines.len() {
        all.push([lines[..at].concat(), lines[at + 1..].concat()].concat());
        all.push([lines[..=at].concat(), lines[at..].concat()].concat());
        if at > 0 {
            all.push([lines[..at - 1].concat(), lines[at].to_vec(), lines[at - 1].to_vec(), lines[at + 1..].concat()].concat());
        }
    }
    all
}

/// A table with some words changed; one in four of them is among the last, the composition's, and one in ten is an
/// owner's.
pub fn damaged_table(random: &mut Random, table: &[u32]) -> Vec<u32> {
    let mut damaged = table.to_vec();
    let used = table.iter().rposition(|word| *word != 0).map_or(1, |last| last + 2).min(table.len());
    loop {
        let at = match random.below(100) {
            0..=2 => random.below(table.len()),
            3..=27 => used - 1 - random.below(used.min(16)),
            28..=37 => owner_word(random, table).unwrap_or(0),
            _ => random.below(used),
        };
        match random.below(14) {
            0 | 1 => damaged[at] = 0,
            2 | 3 => damaged[at] = damaged[at].wrapping_add(1),
            4 | 5 => damaged[at] = damaged[at].wrapping_sub(1),
            6 => damaged[at] = random.draw() as u32,
            7 => damaged[at] ^= 1 << random.below(32),
            8 => damaged[at] = damaged[random.below(used)],
            9 => damaged[at] = random.below(700) as u32,
            10 => damaged[at] = random.pick(WORDS),
            12 => damaged[at] = random.below(19) as u32,
            11 => {
                damaged.remove(at);
                damaged.push(0);
            }
            _ => {
                damaged.insert(at, random.below(40) as u32);
                damaged.pop();
            }
        }
        if random.percent(80) {
            return damaged;
        }
    }
}

/// Where a table has some variable's owner.
fn owner_word(random: &mut Random, table: &[u32]) -> Option<usize> {
    let variables = *table.get(2)? as usize;
    let at = owner_place(random.below(variables));
    (variables > 0 && at < table.len()).then_some(at)
}

/// Where a table has the owner of variable k: behind the two ends of its range.
pub fn owner_place(k: usize) -> usize {
    3 + 3 * k + 2
}

/// A length for a lent table, mostly enough.
pub fn table_length(random: &mut Random) -> usize {
    match random.below(12) {
        0 => random.pick(&[0, 1, 2, 100, 8_192, 16_382, 16_383]),
        1 => random.below(TABLE_WORDS),
        2 => TABLE_WORDS + 1,
        3 => TABLE_WORDS + random.below(300),
        _ => TABLE_WORDS,
    }
}
