//! The reader: rows 18 and 1, then the lines in order; in a line its rows from the smallest up.
use super::model::*;

/// A row and a line.
pub type Refusal = (u32, u32);

/// The model of a text, for a lent table of this many words.
pub fn read(text: &[u8], table_length: usize) -> Result<Model, Refusal> {
    if table_length < TABLE_WORDS {
        return Err((18, 0));
    }
    if text.len() > TEXT_BYTES {
        return Err((1, 0));
    }
    let mut sheet =
        Sheet { rest: text, line: 0, format: 0, actions: 0, ranges: Vec::new(), owners: Vec::new(), nodes: 0, edges: 0 };
    let model = sheet.model()?;
    sheet.end()?;
    Ok(model)
}

/// What was read so far, as far as later lines depend on it.
struct Sheet<'a> {
    rest: &'a [u8],
    line: u32,
    format: u32,
    actions: u32,
    ranges: Vec<Range>,
    owners: Vec<Owner>,
    nodes: usize,
    edges: usize,
}

impl<'a> Sheet<'a> {
    fn refuse<T>(&self, row: u32) -> Result<T, Refusal> {
        Err((row, self.line))
    }

    fn require(&self, condition: bool, row: u32) -> Result<(), Refusal> {
        if condition {
            Ok(())
        } else {
            self.refuse(row)
        }
    }

    fn model(&mut self) -> Result<Model, Refusal> {
        self.format = self.number("format=", 1, HIGHEST_FORMAT)? as u32;
        self.actions = self.number("actions=", 0, HIGHEST_ACTION)? as u32;
        for _ in 0..self.number("variables=", 0, VARIABLES)? {
            let range = self.range()?;
            self.ranges.push(range);
            let owner = if self.format >= OWNERS_FORMAT { self.owner()? } else { None };
            self.owners.push(owner);
        }
        let count = self.number("automata=", 1, AUTOMATA)? as u32;
        self.require(self.owners.iter().flatten().all(|owner| *owner < count), 50)?;
        let mut automata = Vec::new();
        for k in 0..count {
            automata.push(self.automaton(k)?);
        }
        let composition = self.composition(automata.len())?;
        let (ranges, owners) = (self.ranges.clone(), self.owners.clone());
        Ok(Model { format: self.format, actions: self.actions, ranges, owners, automata, composition })
    }

    fn end(&mut self) -> Result<(), Refusal> {
        self.line += 1;
        self.require(self.rest.is_empty(), 2)
    }

    /// The value of the next line, which has this key.
    fn value(&mut self, key: &str) -> Result<&'a [u8], Refusal> {
        self.line += 1;
        let Some(length) = self.rest.iter().position(|byte| *byte == b'\n') else {
            return self.refuse(2);
        };
        let line = &self.rest[..length];
        self.rest = &self.rest[length + 1..];
        self.require(line.iter().all(|byte| (32..=126).contains(byte)), 2)?;
        match line.strip_prefix(key.as_bytes()) {
            Some(value) => Ok(value),
            None => self.refuse(2),
        }
    }

    /// The value's fields, this many.
    fn fields(&mut self, key: &str, count: usize) -> Result<Vec<&'a [u8]>, Refusal> {
        let fields = parts(self.value(key)?, b',');
        self.require(fields.len() == count, 2)?;
        Ok(fields)
    }

    fn number(&mut self, key: &str, least: i64, greatest: i64) -> Result<i64, Refusal> {
        let fields = self.fields(key, 1)?;
        self.in_range(fields[0], least, greatest)
    }

    fn in_range(&self, digits: &[u8], least: i64, greatest: i64) -> Result<i64, Refusal> {
        number(digits, least, greatest).ok_or((3, self.line))
    }

    fn range(&mut self) -> Result<Range, Refusal> {
        let fields = self.fields("variable=", 2)?;
        let low = self.in_range(fields[0], LEAST_NUMBER, GREATEST_NUMBER)?;
        let high = self.in_range(fields[1], LEAST_NUMBER, GREATEST_NUMBER)?;
        self.require(low <= high, 4)?;
        Ok((low as i32, high as i32))
    }

    /// The line behind a variable.
    fn owner(&mut self) -> Result<Owner, Refusal> {
        let fields = self.fields("owner=", 1)?;
        match fields[0] {
            b"none" => Ok(None),
            digits => self.in_range(digits, 0, AUTOMATA - 1).map(|owner| Some(owner as u32)),
        }
    }

    /// Automaton `own`.
    fn automaton(&mut self, own: u32) -> Result<Automaton, Refusal> {
        let sync = self.sync()?;
        let mut locations = Vec::new();
        for _ in 0..self.number("locations=", 1, LOCATIONS)? {
            let init = self.state_predicate("init=")?;
            let invariant = self.state_predicate("inv=")?;
            locations.push(Location { init, invariant });
        }
        let count = self.number("edges=", 0, EDGES as i64)? as usize;
        self.edges += count;
        self.require(self.edges <= EDGES, 15)?;
        let mut edges = Vec::new();
        for _ in 0..count {
            let edge = self.edge(locations.len())?;
            if self.format >= LISTS_FORMAT {
                self.writes(&edge, own)?;
            }
            edges.push(edge);
        }
        Ok(Automaton { sync, locations, edges })
    }

    fn sync(&mut self) -> Result<ActionSet, Refusal> {
        let actions = self.list("sync=", HIGHEST_ACTION)?;
        self.require(rises_within(&actions, self.actions), 5)?;
        Ok(actions.into_iter().collect())
    }

    /// The numbers of a line that is a list, perhaps an empty one.
    fn list(&mut self, key: &str, greatest: i64) -> Result<Vec<u32>, Refusal> {
        match self.value(key)? {
            b"" => Ok(Vec::new()),
            value => list(value, greatest).ok_or((3, self.line)),
        }
    }

    /// The line behind an edge of automaton `own`. Nothing of it is kept: if no row refuses it, the edge says the same.
    fn writes(&mut self, edge: &Edge, own: u32) -> Result<(), Refusal> {
        let written = self.list("writes=", VARIABLES - 1)?;
        self.require(rises(&written), 5)?;
        self.require(written.iter().all(|k| (*k as usize) < self.ranges.len()), 7)?;
        self.require(written == edge.writes(), 44)?;
        let may_write = |k: &u32| self.format < OWNERS_FORMAT || self.owners[*k as usize] == Some(own);
        self.require(written.iter().all(may_write), 51)
    }

    fn state_predicate(&mut self, key: &str) -> Result<Predicate, Refusal> {
        let fields = self.fields(key, 1)?;
        let tokens = parts(fields[0], b' ');
        self.require(numbers_sound(&tokens), 3)?;
        self.predicate(&tokens, false)
    }

    fn edge(&mut self, locations: usize) -> Result<Edge, Refusal> {
        let fields = self.fields("edge=", 4)?;
        let tokens = parts(fields[3], b' ');
        let from = self.in_range(fields[0], 0, LOCATIONS - 1)? as usize;
        let action = self.in_range(fields[1], 0, HIGHEST_ACTION)? as u32;
        let to = self.in_range(fields[2], 0, LOCATIONS - 1)? as usize;
        self.require(numbers_sound(&tokens), 3)?;
        let update = self.predicate(&tokens, true)?;
        self.require(from < locations && to < locations && action <= self.actions, 12)?;
        Ok(Edge { from, action, to, update })
    }

    /// Rows 6 to 11, from tokens whose numbers are sound.
    fn predicate(&mut self, tokens: &[&[u8]], new_allowed: bool) -> Result<Predicate, Refusal> {
        let mut one = self.predicates(&[tokens], new_allowed)?;
        Ok(one.remove(0))
    }

    /// Rows 6 to 11 for all predicates of a line: each row is asked of all of them before the next one is.
    fn predicates(&mut self, all: &[&[&[u8]]], new_allowed: bool) -> Result<Vec<Predicate>, Refusal> {
        let Some(all) = all.iter().map(|tokens| words(tokens)).collect::<Option<Vec<_>>>() else {
            return self.refuse(6);
        };
        let Some(depths) = all.iter().map(|words| depth(words)).collect::<Option<Vec<_>>>() else {
            return self.refuse(6);
        };
        let declared = |word: &Word| !matches!(word, Word::Old(k) | Word::New(k) if *k >= self.ranges.len());
        self.require(all.iter().flatten().all(declared), 7)?;
        self.require(new_allowed || !all.iter().flatten().any(|word| matches!(word, Word::New(_))), 8)?;
        self.require(depths.iter().all(|depth| *depth <= DEPTH), 9)?;
        let predicates: Vec<Predicate> = all.iter().map(|words| predicate_of(&mut words.iter())).collect();
        self.require(predicates.iter().all(|predicate| predicate.keeps_to_span(&self.ranges)), 10)?;
        self.nodes += all.iter().map(Vec::len).sum::<usize>();
        self.require(self.nodes <= NODES, 11)?;
        Ok(predicates)
    }

    fn composition(&mut self, automata: usize) -> Result<Composition, Refusal> {
        let tokens = parts(self.value("compose=")?, b' ');
        self.require(numbers_sound(&tokens), 3)?;
        self.require(lists_rise(&tokens, self.actions), 5)?;
        let (starts, tree) = apart(&tokens);
        let starts = self.predicates(&starts, false)?;
        let Some(branches) = branches(&tree) else {
            return self.refuse(13);
        };
        let leaves = branches.iter().filter_map(|branch| if let Branch::Leaf(k) = branch { Some(*k) } else { None });
        self.require(leaves.eq(0..automata), 14)?;
        self.require(branches.len() <= TREE_NODES, 16)?;
        Ok(composition_of(&mut branches.iter(), &mut starts.into_iter()))
    }
}

fn parts(value: &[u8], separator: u8) -> Vec<&[u8]> {
    value.split(|byte| *byte == separator).collect()
}

/// The number that the digits spell, if they are well-formed and it lies in the range.
pub fn number(digits: &[u8], least: i64, greatest: i64) -> Option<i64> {
    let (negative, magnitude) = match digits.strip_prefix(b"-") {
        Some(rest) => (true, rest),
        None => (false, digits),
    };
    if magnitude.is_empty() || !magnitude.iter().all(u8::is_ascii_digit) {
        return None;
    }
    let zero_first = magnitude[0] == b'0';
    if zero_first && (negative || magnitude.len() > 1) {
        return None;
    }
    // No range has numbers of more digits.
    if magnitude.len() > 10 {
        return None;
    }
    let size = magnitude.iter().fold(0, |sum, digit| sum * 10 + (digit - b'0') as i64);
    let number = if negative { -size } else { size };
    (least <= number && number <= greatest).then_some(number)
}

/// The numbers between commas, each from 0 up to this one.
fn list(items: &[u8], greatest: i64) -> Option<Vec<u32>> {
    parts(items, b',').into_iter().map(|item| number(item, 0, greatest).map(|number| number as u32)).collect()
}

fn actions(items: &[u8]) -> Option<Vec<u32>> {
    list(items, HIGHEST_ACTION)
}

fn rises(list: &[u32]) -> bool {
    list.windows(2).all(|pair| pair[0] < pair[1])
}

/// Not row 5, for actions: the list rises and holds those from 1 to A.
fn rises_within(list: &[u32], highest: u32) -> bool {
    rises(list) && list.iter().all(|action| (1..=highest).contains(action))
}

fn starts_number(token: &[u8]) -> bool {
    token.first().is_some_and(|byte| byte.is_ascii_digit() || *byte == b'-')
}

/// The number that a token carries, without its letter.
fn numeral(token: &[u8]) -> Option<&[u8]> {
    if starts_number(token) {
        return Some(token);
    }
    match token {
        [b'v' | b'n' | b'a', digit, ..] if digit.is_ascii_digit() => Some(&token[1..]),
        _ => None,
    }
}

/// Whether the number that a token carries, if any, is well-formed and in the range that its place gives it.
fn number_sound(before: &[u8], token: &[u8]) -> bool {
    let Some(digits) = numeral(token) else {
        return true;
    };
    match (before, token[0]) {
        (b"all" | b"any", _) => number(digits, 0, HIGHEST_COUNT).is_some(),
        (b"syn", _) => actions(digits).is_some(),
        (_, b'v' | b'n') => number(digits, 0, VARIABLES - 1).is_some(),
        (_, b'a') => number(digits, 0, AUTOMATA - 1).is_some(),
        _ => number(digits, LEAST_NUMBER, GREATEST_NUMBER).is_some(),
    }
}

/// Not row 3, for the tokens of a predicate or a composition.
fn numbers_sound(tokens: &[&[u8]]) -> bool {
    let before = std::iter::once(&b""[..]).chain(tokens.iter().copied());
    before.zip(tokens).all(|(before, token)| number_sound(before, token))
}

/// Not row 5, for the tokens of a composition: also in one that is ill-formed.
fn lists_rise(tokens: &[&[u8]], highest: u32) -> bool {
    tokens
        .windows(2)
        .filter(|pair| pair[0] == b"syn" && starts_number(pair[1]))
        .all(|pair| rises_within(&actions(pair[1]).expect("row 3 does not hold"), highest))
}

/// The tokens of a composition: those of the predicate behind each `ini`, and all others. An `ini` inside of such a predicate
/// breaks it; so what is behind that one need not be looked at.
fn apart<'t>(tokens: &'t [&'t [u8]]) -> (Vec<&'t [&'t [u8]]>, Vec<&'t [u8]>) {
    let (mut starts, mut tree) = (Vec::new(), Vec::new());
    let mut rest = tokens;
    while let Some((token, mut behind)) = rest.split_first() {
        tree.push(*token);
        if *token == b"ini" {
            let start;
            (start, behind) = behind.split_at(predicate_length(behind));
            starts.push(start);
        }
        rest = behind;
    }
    (starts, tree)
}

/// How many tokens belong to the predicate at the front: up to where none is wanted, or all.
fn predicate_length(tokens: &[&[u8]]) -> usize {
    let mut wanted = 1;
    let before = std::iter::once(&b""[..]).chain(tokens.iter().copied());
    for (k, (before, token)) in before.zip(tokens).enumerate() {
        wanted = wanted - 1 + called_for(before, token);
        if wanted == 0 {
            return k + 1;
        }
    }
    tokens.len()
}

/// How many more tokens a token of a predicate calls for. A count, which is a token of its own, calls for as many operands.
fn called_for(before: &[u8], token: &[u8]) -> usize {
    match (before, token) {
        (b"all" | b"any", count) => number(count, 0, HIGHEST_COUNT).unwrap_or(0) as usize,
        (_, b"all" | b"any" | b"not") => 1,
        (_, b"imp" | b"eq" | b"le" | b"add" | b"sub" | b"mul") => 2,
        (_, b"if") => 3,
        _ => 0,
    }
}

/// A node of a predicate, without its operands.
#[derive(Clone, Copy, Debug)]
enum Word {
    All(usize),
    Any(usize),
    Not,
    Imp,
    Eq,
    Le,
    Number(i32),
    Old(usize),
    New(usize),
    Add,
    Sub,
    Mul,
    If,
}

#[derive(Clone, Copy, PartialEq)]
enum Sort {
    Predicate,
    Expression,
}

impl Word {
    fn sort(self) -> Sort {
        match self {
            Word::All(_) | Word::Any(_) | Word::Not | Word::Imp | Word::Eq | Word::Le => Sort::Predicate,
            _ => Sort::Expression,
        }
    }

    /// How many predicates it takes, and then how many expressions.
    fn operands(self) -> (usize, usize) {
        match self {
            Word::All(count) | Word::Any(count) => (count, 0),
            Word::Not => (1, 0),
            Word::Imp => (2, 0),
            Word::Eq | Word::Le | Word::Add | Word::Sub | Word::Mul => (0, 2),
            Word::Number(_) | Word::Old(_) | Word::New(_) => (0, 0),
            Word::If => (1, 2),
        }
    }
}

/// The words that the tokens spell; none where one of them spells nothing.
fn words(tokens: &[&[u8]]) -> Option<Vec<Word>> {
    let mut words = Vec::new();
    let mut tokens = tokens.iter();
    while let Some(token) = tokens.next() {
        words.push(match *token {
            b"all" => Word::All(number(tokens.next()?, 0, HIGHEST_COUNT)? as usize),
            b"any" => Word::Any(number(tokens.next()?, 0, HIGHEST_COUNT)? as usize),
            b"not" => Word::Not,
            b"imp" => Word::Imp,
            b"eq" => Word::Eq,
            b"le" => Word::Le,
            b"add" => Word::Add,
            b"sub" => Word::Sub,
            b"mul" => Word::Mul,
            b"if" => Word::If,
            [b'v', k @ ..] => Word::Old(number(k, 0, VARIABLES - 1)? as usize),
            [b'n', k @ ..] => Word::New(number(k, 0, VARIABLES - 1)? as usize),
            other => Word::Number(number(other, LEAST_NUMBER, GREATEST_NUMBER)? as i32),
        });
    }
    Some(words)
}

/// The depth of the one predicate that the words make; none where they make none. No recursion: a line can nest
/// thousands of words, and each of them counts for row 6.
fn depth(words: &[Word]) -> Option<usize> {
    // What is still owed, the next at the end: a sort, how deep, how many.
    let mut owed = vec![(Sort::Predicate, 1, 1)];
    let mut deepest = 0;
    for word in words {
        let (sort, level, count) = owed.pop()?;
        if word.sort() != sort {
            return None;
        }
        deepest = deepest.max(level);
        let (predicates, expressions) = word.operands();
        let next = [(sort, level, count - 1), (Sort::Expression, level + 1, expressions), (Sort::Predicate, level + 1, predicates)];
        owed.extend(next.into_iter().filter(|(_, _, count)| *count > 0));
    }
    owed.is_empty().then_some(deepest)
}

fn predicate_of<'w>(words: &mut impl Iterator<Item = &'w Word>) -> Predicate {
    match *words.next().expect("well-formed") {
        Word::All(count) => Predicate::All((0..count).map(|_| predicate_of(words)).collect()),
        Word::Any(count) => Predicate::Any((0..count).map(|_| predicate_of(words)).collect()),
        Word::Not => Predicate::Not(Box::new(predicate_of(words))),
        Word::Imp => Predicate::Imp(Box::new(predicate_of(words)), Box::new(predicate_of(words))),
        Word::Eq => Predicate::Eq(expression_of(words), expression_of(words)),
        Word::Le => Predicate::Le(expression_of(words), expression_of(words)),
        _ => unreachable!("well-formed"),
    }
}

fn expression_of<'w>(words: &mut impl Iterator<Item = &'w Word>) -> Expression {
    match *words.next().expect("well-formed") {
        Word::Number(number) => Expression::Number(number),
        Word::Old(k) => Expression::Old(k),
        Word::New(k) => Expression::New(k),
        Word::Add => Expression::Add(Box::new(expression_of(words)), Box::new(expression_of(words))),
        Word::Sub => Expression::Sub(Box::new(expression_of(words)), Box::new(expression_of(words))),
        Word::Mul => Expression::Mul(Box::new(expression_of(words)), Box::new(expression_of(words))),
        Word::If => {
            let condition = Box::new(predicate_of(words));
            Expression::If(condition, Box::new(expression_of(words)), Box::new(expression_of(words)))
        }
        _ => unreachable!("well-formed"),
    }
}

/// A node of a composition, without its operands.
enum Branch {
    Par,
    Syn(ActionSet),
    Ini,
    Leaf(usize),
}

/// The nodes of the one composition that the tokens make, of which no predicate is a part; none where they make none.
fn branches(tokens: &[&[u8]]) -> Option<Vec<Branch>> {
    let mut branches = Vec::new();
    let mut tokens = tokens.iter();
    let mut owed = 1;
    while let Some(token) = tokens.next() {
        if owed == 0 {
            return None;
        }
        match *token {
            b"par" => {
                owed += 1;
                branches.push(Branch::Par);
            }
            b"syn" => branches.push(Branch::Syn(actions(tokens.next()?)?.into_iter().collect())),
            b"ini" => branches.push(Branch::Ini),
            [b'a', k @ ..] => {
                owed -= 1;
                branches.push(Branch::Leaf(number(k, 0, AUTOMATA - 1)? as usize));
            }
            _ => return None,
        }
    }
    (owed == 0).then_some(branches)
}

/// The tree of the nodes, each `ini` with the next of the predicates.
fn composition_of<'b>(
    branches: &mut impl Iterator<Item = &'b Branch>,
    starts: &mut impl Iterator<Item = Predicate>,
) -> Composition {
    let branch = branches.next().expect("well-formed");
    let start = if matches!(branch, Branch::Ini) { starts.next() } else { None };
    let mut inner = || Box::new(composition_of(branches, starts));
    match branch {
        Branch::Par => Composition::Par(inner(), inner()),
        Branch::Syn(list) => Composition::Syn(list.clone(), inner()),
        Branch::Ini => Composition::Ini(start.expect("each has one"), inner()),
        Branch::Leaf(k) => Composition::Leaf(*k),
    }
}
