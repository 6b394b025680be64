//! The table of a model (docs/TABLE.md), and back: rows 18 and 19.
use super::model::*;

/// A node's word is its kind and this many times its argument.
const KINDS: u32 = 16;
/// From here up it is a number's instead: this and the number above the least one.
const NUMBERS: u32 = 1 << 31;

/// The table of a model: 16,384 words. What an edge writes has none; its update says it. An owner has one in every format.
pub fn table(model: &Model) -> Vec<u32> {
    let mut out = vec![model.format, model.actions, model.ranges.len() as u32];
    for ((low, high), owner) in model.ranges.iter().zip(&model.owners) {
        out.extend([biased(*low), biased(*high), owner.map_or(0, |k| k + 1)]);
    }
    out.push(model.automata.len() as u32);
    for automaton in &model.automata {
        put_automaton(&mut out, automaton);
    }
    out.push(model.composition.nodes() as u32);
    put_composition(&mut out, &model.composition);
    let starts = model.composition.starts();
    out.push(starts.len() as u32);
    starts.iter().for_each(|p| put_counted(&mut out, p));
    out.resize(TABLE_WORDS, 0);
    out
}

/// A number above the least one, so that it is never below 0.
fn biased(number: i32) -> u32 {
    (number as i64 - LEAST_NUMBER) as u32
}

/// The number that the word is; none where it would be above the greatest.
fn unbiased(word: u32) -> Option<i32> {
    let number = word as i64 + LEAST_NUMBER;
    (number <= GREATEST_NUMBER).then_some(number as i32)
}

fn put_automaton(out: &mut Vec<u32>, automaton: &Automaton) {
    put_set(out, &automaton.sync);
    out.push(automaton.locations.len() as u32);
    for location in &automaton.locations {
        put_counted(out, &location.init);
        put_counted(out, &location.invariant);
    }
    out.push(automaton.edges.len() as u32);
    for edge in &automaton.edges {
        out.extend([edge.from as u32, edge.action, edge.to as u32]);
        put_counted(out, &edge.update);
    }
}

fn put_set(out: &mut Vec<u32>, set: &ActionSet) {
    let bits = set.iter().fold(0u64, |bits, action| bits | 1 << action);
    out.extend([bits as u32, (bits >> 32) as u32]);
}

fn put_counted(out: &mut Vec<u32>, predicate: &Predicate) {
    out.push(predicate.nodes() as u32);
    put_predicate(out, predicate);
}

fn put_predicate(out: &mut Vec<u32>, predicate: &Predicate) {
    match predicate {
        Predicate::All(operands) | Predicate::Any(operands) => {
            let kind = if matches!(predicate, Predicate::All(_)) { 0 } else { 1 };
            out.push(kind + KINDS * operands.len() as u32);
            operands.iter().for_each(|p| put_predicate(out, p));
        }
        Predicate::Not(p) => {
            out.push(2);
            put_predicate(out, p);
        }
        Predicate::Imp(p, q) => {
            out.push(3);
            put_predicate(out, p);
            put_predicate(out, q);
        }
        Predicate::Eq(x, y) => put_two(out, 4, x, y),
        Predicate::Le(x, y) => put_two(out, 5, x, y),
    }
}

fn put_two(out: &mut Vec<u32>, kind: u32, x: &Expression, y: &Expression) {
    out.push(kind);
    put_expression(out, x);
    put_expression(out, y);
}

fn put_expression(out: &mut Vec<u32>, expression: &Expression) {
    match expression {
        // It wraps for numbers that no sheet has; the tests make tables of such, too.
        Expression::Number(number) => out.push(NUMBERS.wrapping_add(biased(*number))),
        Expression::Old(k) => out.push(7 + KINDS * *k as u32),
        Expression::New(k) => out.push(8 + KINDS * *k as u32),
        Expression::Add(x, y) => put_two(out, 9, x, y),
        Expression::Sub(x, y) => put_two(out, 10, x, y),
        Expression::Mul(x, y) => put_two(out, 11, x, y),
        Expression::If(p, x, y) => {
            out.push(12);
            put_predicate(out, p);
            put_expression(out, x);
            put_expression(out, y);
        }
    }
}

/// The tree. An `ini` stands here as a `syn` with no action; the predicates come behind.
fn put_composition(out: &mut Vec<u32>, composition: &Composition) {
    match composition {
        Composition::Par(left, right) => {
            out.push(0);
            put_composition(out, left);
            put_composition(out, right);
        }
        Composition::Syn(list, inner) => {
            out.push(1);
            put_set(out, list);
            put_composition(out, inner);
        }
        Composition::Ini(_, inner) => {
            out.extend([1, 0, 0]);
            put_composition(out, inner);
        }
        Composition::Leaf(k) => out.push(2 + *k as u32),
    }
}

/// The model of a table, or row 18 or 19. A table is good if the model it seems to have is within the limits and has
/// exactly this table; so the taking apart may be careless about what the comparison finds.
pub fn open(words: &[u32]) -> Result<Model, u32> {
    let words = words.get(..TABLE_WORDS).ok_or(18u32)?;
    let model = Words { rest: words }.model().ok_or(19u32)?;
    if within_limits(&model) && table(&model) == words {
        Ok(model)
    } else {
        Err(19)
    }
}

/// Words not taken yet. None is given where they end or where a number is above its limit.
struct Words<'a> {
    rest: &'a [u32],
}

impl Words<'_> {
    fn next(&mut self) -> Option<u32> {
        let (first, rest) = self.rest.split_first()?;
        self.rest = rest;
        Some(*first)
    }

    fn up_to(&mut self, greatest: i64) -> Option<u32> {
        self.next().filter(|word| *word as i64 <= greatest)
    }

    fn model(&mut self) -> Option<Model> {
        let format = self.up_to(HIGHEST_FORMAT)?;
        let actions = self.up_to(HIGHEST_ACTION)?;
        let variables = self.up_to(VARIABLES)?;
        let (mut ranges, mut owners) = (Vec::new(), Vec::new());
        for _ in 0..variables {
            ranges.push((self.bound()?, self.bound()?));
            owners.push(self.up_to(AUTOMATA)?.checked_sub(1));
        }
        let count = self.up_to(AUTOMATA)?;
        let automata = (0..count).map(|_| self.automaton()).collect::<Option<_>>()?;
        let _nodes = self.next()?;
        let mut composition = self.composition(TREE_NODES)?;
        let count = self.up_to(TREE_NODES as i64)?;
        let starts = (0..count).map(|_| self.counted()).collect::<Option<Vec<_>>>()?;
        composition.starts_mut().into_iter().zip(starts).for_each(|(place, start)| *place = start);
        Some(Model { format, actions, ranges, owners, automata, composition })
    }

    fn bound(&mut self) -> Option<i32> {
        unbiased(self.next()?)
    }

    fn automaton(&mut self) -> Option<Automaton> {
        let sync = self.set()?;
        let count = self.up_to(LOCATIONS)?;
        let locations =
            (0..count).map(|_| Some(Location { init: self.counted()?, invariant: self.counted()? })).collect::<Option<_>>()?;
        let count = self.up_to(EDGES as i64)?;
        let edges = (0..count).map(|_| self.edge()).collect::<Option<_>>()?;
        Some(Automaton { sync, locations, edges })
    }

    fn set(&mut self) -> Option<ActionSet> {
        let bits = self.next()? as u64 | (self.next()? as u64) << 32;
        Some((0..64).filter(|action| bits >> action & 1 == 1).collect())
    }

    fn edge(&mut self) -> Option<Edge> {
        let from = self.up_to(LOCATIONS - 1)? as usize;
        let action = self.up_to(HIGHEST_ACTION)?;
        let to = self.up_to(LOCATIONS - 1)? as usize;
        Some(Edge { from, action, to, update: self.counted()? })
    }

    fn counted(&mut self) -> Option<Predicate> {
        let _nodes = self.next()?;
        self.predicate(DEPTH)
    }

    /// A predicate of at most this depth.
    fn predicate(&mut self, depth: usize) -> Option<Predicate> {
        let depth = depth.checked_sub(1)?;
        let word = self.next()?;
        Some(match word % KINDS {
            0 => Predicate::All(self.operands(word / KINDS, depth)?),
            1 => Predicate::Any(self.operands(word / KINDS, depth)?),
            2 => Predicate::Not(Box::new(self.predicate(depth)?)),
            3 => Predicate::Imp(Box::new(self.predicate(depth)?), Box::new(self.predicate(depth)?)),
            4 => Predicate::Eq(self.expression(depth)?, self.expression(depth)?),
            5 => Predicate::Le(self.expression(depth)?, self.expression(depth)?),
            _ => return None,
        })
    }

    fn operands(&mut self, count: u32, depth: usize) -> Option<Vec<Predicate>> {
        if count as i64 > HIGHEST_COUNT {
            return None;
        }
        (0..count).map(|_| self.predicate(depth)).collect()
    }

    fn expression(&mut self, depth: usize) -> Option<Expression> {
        let depth = depth.checked_sub(1)?;
        let word = self.next()?;
        if word >= NUMBERS {
            return unbiased(word - NUMBERS).map(Expression::Number);
        }
        let argument = word / KINDS;
        let mut operand = || self.expression(depth).map(Box::new);
        Some(match word % KINDS {
            7 => Expression::Old(argument as usize),
            8 => Expression::New(argument as usize),
            9 => Expression::Add(operand()?, operand()?),
            10 => Expression::Sub(operand()?, operand()?),
            11 => Expression::Mul(operand()?, operand()?),
            12 => {
                let condition = Box::new(self.predicate(depth)?);
                let mut operand = || self.expression(depth).map(Box::new);
                Expression::If(condition, operand()?, operand()?)
            }
            _ => return None,
        })
    }

    /// A composition of at most this depth; the predicates of its `ini` are still to come.
    fn composition(&mut self, depth: usize) -> Option<Composition> {
        let depth = depth.checked_sub(1)?;
        Some(match self.next()? {
            0 => Composition::Par(Box::new(self.composition(depth)?), Box::new(self.composition(depth)?)),
            1 => {
                let (list, inner) = (self.set()?, Box::new(self.composition(depth)?));
                if list.is_empty() {
                    Composition::Ini(Predicate::All(Vec::new()), inner)
                } else {
                    Composition::Syn(list, inner)
                }
            }
            leaf => Composition::Leaf(leaf as usize - 2),
        })
    }
}

/// Whether the model's text breaks none of the rows that a line can break.
pub fn within_limits(model: &Model) -> bool {
    model.format > 0
        && model.ranges.iter().all(|(low, high)| low <= high)
        && !model.automata.is_empty()
        && model.owners.iter().flatten().all(|owner| (*owner as usize) < model.automata.len())
        && (model.format >= OWNERS_FORMAT || model.owned() == 0)
        && model.automata.iter().all(|automaton| automaton_within(automaton, model))
        && (model.format < OWNERS_FORMAT || (0..model.automata.len()).all(|k| writes_own(model, k)))
        && model.edges() <= EDGES
        && composition_within(&model.composition, model)
        && model.nodes() <= NODES
}

fn automaton_within(automaton: &Automaton, model: &Model) -> bool {
    let locations = automaton.locations.len();
    let edge_within = |edge: &Edge| {
        edge.from < locations && edge.to < locations && edge.action <= model.actions && predicate_within(&edge.update, model)
    };
    let of_states = |location: &Location| state_within(&location.init, model) && state_within(&location.invariant, model);
    set_within(&automaton.sync, model)
        && locations > 0
        && automaton.locations.iter().all(of_states)
        && automaton.edges.iter().all(edge_within)
}

/// Not row 51, for the edges of automaton `own`; all variables are declared.
fn writes_own(model: &Model, own: usize) -> bool {
    let mut written = model.automata[own].edges.iter().flat_map(Edge::writes);
    written.all(|k| model.owners[k as usize] == Some(own as u32))
}

fn set_within(set: &ActionSet, model: &Model) -> bool {
    set.iter().all(|action| (1..=model.actions).contains(action))
}

/// A predicate of old values alone.
fn state_within(predicate: &Predicate, model: &Model) -> bool {
    predicate_within(predicate, model) && predicate.mentions_new() == 0
}

fn predicate_within(predicate: &Predicate, model: &Model) -> bool {
    let mut declared = true;
    predicate.visit(&mut |x| {
        if let Expression::Old(k) | Expression::New(k) = x {
            declared &= *k < model.ranges.len();
        }
    });
    declared && predicate.depth() <= DEPTH && predicate.keeps_to_span(&model.ranges)
}

fn composition_within(composition: &Composition, model: &Model) -> bool {
    composition.nodes() <= TREE_NODES
        && composition.leaves().into_iter().eq(0..model.automata.len())
        && lists_within(composition, model)
        && composition.starts().iter().all(|p| state_within(p, model))
}

fn lists_within(composition: &Composition, model: &Model) -> bool {
    match composition {
        Composition::Par(left, right) => lists_within(left, model) && lists_within(right, model),
        Composition::Syn(list, inner) => !list.is_empty() && set_within(list, model) && lists_within(inner, model),
        Composition::Ini(_, inner) => lists_within(inner, model),
        Composition::Leaf(_) => true,
    }
}
