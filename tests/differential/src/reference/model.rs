//! A sheet: automata over shared integer variables, and their composition.
use std::collections::BTreeSet;

pub const TEXT_BYTES: usize = 65_536;
pub const TABLE_WORDS: usize = 16_384;
pub const NODES: usize = 4_096;
pub const DEPTH: usize = 24;
pub const EDGES: usize = 512;
pub const TREE_NODES: usize = 64;
pub const HIGHEST_FORMAT: i64 = 3;
/// From here up the text says behind each edge what it writes; and from here up whom each variable belongs to.
pub const LISTS_FORMAT: u32 = 2;
pub const OWNERS_FORMAT: u32 = 3;
pub const HIGHEST_ACTION: i64 = 63;
pub const VARIABLES: i64 = 48;
pub const AUTOMATA: i64 = 16;
pub const LOCATIONS: i64 = 32;
pub const HIGHEST_COUNT: i64 = 512;
pub const LEAST_NUMBER: i64 = -1_000_000_000;
pub const GREATEST_NUMBER: i64 = 1_000_000_000;
/// How far from 0 an expression's interval may reach, on both sides: 2^62.
pub const SPAN: i128 = 4_611_686_018_427_387_904;

pub type ActionSet = BTreeSet<u32>;
/// The least and the greatest value of a variable.
pub type Range = (i32, i32);
/// The automaton that a variable belongs to; none where the environment moves it.
pub type Owner = Option<u32>;

#[derive(Clone, Debug, PartialEq)]
pub enum Predicate {
    All(Vec<Predicate>),
    Any(Vec<Predicate>),
    Not(Box<Predicate>),
    Imp(Box<Predicate>, Box<Predicate>),
    Eq(Expression, Expression),
    Le(Expression, Expression),
}

#[derive(Clone, Debug, PartialEq)]
pub enum Expression {
    Number(i32),
    Old(usize),
    New(usize),
    Add(Box<Expression>, Box<Expression>),
    Sub(Box<Expression>, Box<Expression>),
    Mul(Box<Expression>, Box<Expression>),
    If(Box<Predicate>, Box<Expression>, Box<Expression>),
}

#[derive(Clone, Debug, PartialEq)]
pub enum Composition {
    Par(Box<Composition>, Box<Composition>),
    Syn(ActionSet, Box<Composition>),
    /// A start condition, and what it stands over.
    Ini(Predicate, Box<Composition>),
    Leaf(usize),
}

#[derive(Clone, Debug, PartialEq)]
pub struct Location {
    pub init: Predicate,
    pub invariant: Predicate,
}

#[derive(Clone, Debug, PartialEq)]
pub struct Edge {
    pub from: usize,
    pub action: u32,
    pub to: usize,
    pub update: Predicate,
}

#[derive(Clone, Debug, PartialEq)]
pub struct Automaton {
    pub sync: ActionSet,
    pub locations: Vec<Location>,
    pub edges: Vec<Edge>,
}

#[derive(Clone, Debug, PartialEq)]
pub struct Model {
    pub format: u32,
    /// A: the actions are 0 (silent) and 1 to A.
    pub actions: u32,
    pub ranges: Vec<Range>,
    /// One for each variable. Below format 3 there is none that has one.
    pub owners: Vec<Owner>,
    pub automata: Vec<Automaton>,
    pub composition: Composition,
}

impl Predicate {
    pub fn nodes(&self) -> usize {
        use Predicate::*;
        1 + match self {
            All(operands) | Any(operands) => operands.iter().map(Predicate::nodes).sum(),
            Not(p) => p.nodes(),
            Imp(p, q) => p.nodes() + q.nodes(),
            Eq(x, y) | Le(x, y) => x.nodes() + y.nodes(),
        }
    }

    pub fn depth(&self) -> usize {
        use Predicate::*;
        1 + match self {
            All(operands) | Any(operands) => operands.iter().map(Predicate::depth).max().unwrap_or(0),
            Not(p) => p.depth(),
            Imp(p, q) => p.depth().max(q.depth()),
            Eq(x, y) | Le(x, y) => x.depth().max(y.depth()),
        }
    }

    /// Whether it is true of these old and new values.
    pub fn holds(&self, old: &[i32], new: &[i32]) -> bool {
        use Predicate::*;
        match self {
            All(operands) => operands.iter().all(|p| p.holds(old, new)),
            Any(operands) => operands.iter().any(|p| p.holds(old, new)),
            Not(p) => !p.holds(old, new),
            Imp(p, q) => !p.holds(old, new) || q.holds(old, new),
            Eq(x, y) => x.value(old, new) == y.value(old, new),
            Le(x, y) => x.value(old, new) <= y.value(old, new),
        }
    }

    /// Whether each expression in it keeps to the span (not row 10).
    pub fn keeps_to_span(&self, ranges: &[Range]) -> bool {
        use Predicate::*;
        match self {
            All(operands) | Any(operands) => operands.iter().all(|p| p.keeps_to_span(ranges)),
            Not(p) => p.keeps_to_span(ranges),
            Imp(p, q) => p.keeps_to_span(ranges) && q.keeps_to_span(ranges),
            Eq(x, y) | Le(x, y) => x.interval(ranges).is_some() && y.interval(ranges).is_some(),
        }
    }

    /// Calls `visit` for each number and variable in it.
    pub fn visit(&self, visit: &mut dyn FnMut(&Expression)) {
        use Predicate::*;
        match self {
            All(operands) | Any(operands) => operands.iter().for_each(|p| p.visit(visit)),
            Not(p) => p.visit(visit),
            Imp(p, q) => {
                p.visit(visit);
                q.visit(visit);
            }
            Eq(x, y) | Le(x, y) => {
                x.visit(visit);
                y.visit(visit);
            }
        }
    }

    /// The variables whose new value it mentions, one bit each.
    pub fn mentions_new(&self) -> u64 {
        let mut mentioned = 0;
        self.visit(&mut |x| {
            if let Expression::New(k) = x {
                mentioned |= 1 << k;
            }
        });
        mentioned
    }
}

impl Expression {
    pub fn nodes(&self) -> usize {
        use Expression::*;
        1 + match self {
            Number(_) | Old(_) | New(_) => 0,
            Add(x, y) | Sub(x, y) | Mul(x, y) => x.nodes() + y.nodes(),
            If(p, x, y) => p.nodes() + x.nodes() + y.nodes(),
        }
    }

    pub fn depth(&self) -> usize {
        use Expression::*;
        1 + match self {
            Number(_) | Old(_) | New(_) => 0,
            Add(x, y) | Sub(x, y) | Mul(x, y) => x.depth().max(y.depth()),
            If(p, x, y) => p.depth().max(x.depth()).max(y.depth()),
        }
    }

    /// Its value. Row 10 keeps every part within the span, so 128 bits are more than enough.
    pub fn value(&self, old: &[i32], new: &[i32]) -> i128 {
        use Expression::*;
        match self {
            Number(number) => *number as i128,
            Old(k) => old[*k] as i128,
            New(k) => new[*k] as i128,
            Add(x, y) => x.value(old, new) + y.value(old, new),
            Sub(x, y) => x.value(old, new) - y.value(old, new),
            Mul(x, y) => x.value(old, new) * y.value(old, new),
            If(p, x, y) => {
                if p.holds(old, new) {
                    x.value(old, new)
                } else {
                    y.value(old, new)
                }
            }
        }
    }

    /// Between which two numbers it can lie; none where it or a part of it leaves the span (row 10). Its operands keep
    /// to the span, so the largest number met here is a product of two ends, at most 2^124.
    pub fn interval(&self, ranges: &[Range]) -> Option<(i128, i128)> {
        use Expression::*;
        let (least, greatest) = match self {
            Number(number) => (*number as i128, *number as i128),
            Old(k) | New(k) => (ranges[*k].0 as i128, ranges[*k].1 as i128),
            Add(x, y) => {
                let (x, y) = (x.interval(ranges)?, y.interval(ranges)?);
                (x.0 + y.0, x.1 + y.1)
            }
            Sub(x, y) => {
                let (x, y) = (x.interval(ranges)?, y.interval(ranges)?);
                (x.0 - y.1, x.1 - y.0)
            }
            Mul(x, y) => {
                let (x, y) = (x.interval(ranges)?, y.interval(ranges)?);
                let products = [x.0 * y.0, x.0 * y.1, x.1 * y.0, x.1 * y.1];
                (*products.iter().min()?, *products.iter().max()?)
            }
            If(p, x, y) => {
                let (x, y) = (x.interval(ranges)?, y.interval(ranges)?);
                if !p.keeps_to_span(ranges) {
                    return None;
                }
                (x.0.min(y.0), x.1.max(y.1))
            }
        };
        (-SPAN <= least && greatest <= SPAN).then_some((least, greatest))
    }

    fn visit(&self, visit: &mut dyn FnMut(&Expression)) {
        use Expression::*;
        match self {
            Number(_) | Old(_) | New(_) => visit(self),
            Add(x, y) | Sub(x, y) | Mul(x, y) => {
                x.visit(visit);
                y.visit(visit);
            }
            If(p, x, y) => {
                p.visit(visit);
                x.visit(visit);
                y.visit(visit);
            }
        }
    }
}

impl Edge {
    /// The variables that it writes, rising: those whose new value its update mentions.
    pub fn writes(&self) -> Vec<u32> {
        let mentioned = self.update.mentions_new();
        (0..VARIABLES as u32).filter(|k| mentioned >> k & 1 == 1).collect()
    }
}

impl Composition {
    pub fn nodes(&self) -> usize {
        match self {
            Composition::Par(left, right) => 1 + left.nodes() + right.nodes(),
            Composition::Syn(_, inner) | Composition::Ini(_, inner) => 1 + inner.nodes(),
            Composition::Leaf(_) => 1,
        }
    }

    /// Its automata from left to right.
    pub fn leaves(&self) -> Vec<usize> {
        match self {
            Composition::Par(left, right) => [left.leaves(), right.leaves()].concat(),
            Composition::Syn(_, inner) | Composition::Ini(_, inner) => inner.leaves(),
            Composition::Leaf(k) => vec![*k],
        }
    }

    /// The predicates of its `ini`: from left to right, the outer first.
    pub fn starts(&self) -> Vec<&Predicate> {
        match self {
            Composition::Par(left, right) => [left.starts(), right.starts()].concat(),
            Composition::Syn(_, inner) => inner.starts(),
            Composition::Ini(p, inner) => [vec![p], inner.starts()].concat(),
            Composition::Leaf(_) => Vec::new(),
        }
    }

    /// The same, to be changed.
    pub fn starts_mut(&mut self) -> Vec<&mut Predicate> {
        match self {
            Composition::Par(left, right) => left.starts_mut().into_iter().chain(right.starts_mut()).collect(),
            Composition::Syn(_, inner) => inner.starts_mut(),
            Composition::Ini(p, inner) => std::iter::once(p).chain(inner.starts_mut()).collect(),
            Composition::Leaf(_) => Vec::new(),
        }
    }

    /// Its synchronising set: of `par` the union, of `syn` the list added, of `ini` what it stands over.
    pub fn sync(&self, automata: &[Automaton]) -> ActionSet {
        match self {
            Composition::Par(left, right) => &left.sync(automata) | &right.sync(automata),
            Composition::Syn(list, inner) => list | &inner.sync(automata),
            Composition::Ini(_, inner) => inner.sync(automata),
            Composition::Leaf(k) => automata[*k].sync.clone(),
        }
    }

    /// Whether the action is in its synchronising set.
    pub fn shares(&self, action: u32, automata: &[Automaton]) -> bool {
        match self {
            Composition::Par(left, right) => left.shares(action, automata) || right.shares(action, automata),
            Composition::Syn(list, inner) => list.contains(&action) || inner.shares(action, automata),
            Composition::Ini(_, inner) => inner.shares(action, automata),
            Composition::Leaf(k) => automata[*k].sync.contains(&action),
        }
    }
}

impl Model {
    /// All its predicates, in file order.
    pub fn predicates(&self) -> Vec<&Predicate> {
        let mut all = Vec::new();
        for automaton in &self.automata {
            all.extend(automaton.locations.iter().flat_map(|location| [&location.init, &location.invariant]));
            all.extend(automaton.edges.iter().map(|edge| &edge.update));
        }
        all.extend(self.composition.starts());
        all
    }

    pub fn nodes(&self) -> usize {
        self.predicates().iter().map(|p| p.nodes()).sum()
    }

    pub fn edges(&self) -> usize {
        self.automata.iter().map(|automaton| automaton.edges.len()).sum()
    }

    /// The variables that belong to some automaton, one bit each.
    pub fn owned(&self) -> u64 {
        let owned = self.owners.iter().enumerate().filter(|(_, owner)| owner.is_some());
        owned.fold(0, |bits, (k, _)| bits | 1 << k)
    }
}
