//! Whom the variables of a sheet belong to.
use super::Random;
use crate::reference::model::*;

/// Owners for the variables, mostly automata that write them already; what writes another's variable is then changed to
/// write one of its own, or to read.
pub(super) fn settle_owners(random: &mut Random, model: &mut Model) {
    let written: Vec<u64> = model.automata.iter().map(written).collect();
    model.owners = (0..model.ranges.len()).map(|k| owner(random, &written, k)).collect();
    for own in 0..model.automata.len() {
        let words: Vec<Expression> = (0..model.ranges.len()).map(|k| in_its_place(random, model, own, k)).collect();
        for edge in &mut model.automata[own].edges {
            replace_new(&mut edge.update, &words);
        }
    }
}

/// The variables that an automaton writes, one bit each.
fn written(automaton: &Automaton) -> u64 {
    automaton.edges.iter().fold(0, |all, edge| all | edge.update.mentions_new())
}

fn writers(written: &[u64], k: usize) -> Vec<u32> {
    (0..written.len() as u32).filter(|i| written[*i as usize] >> k & 1 == 1).collect()
}

fn owner(random: &mut Random, written: &[u64], k: usize) -> Owner {
    let writers = writers(written, k);
    match random.below(10) {
        0..=2 => None,
        3..=8 if !writers.is_empty() => Some(random.pick(&writers)),
        _ => Some(random.below(written.len()) as u32),
    }
}

/// What stands for `n` of a variable in the edges of an automaton: one word for all of them, so that equal edges stay
/// so. Its interval is not wider.
fn in_its_place(random: &mut Random, model: &Model, own: usize, k: usize) -> Expression {
    let is_own = |k: usize| model.owners[k] == Some(own as u32);
    let narrower = |other: &usize| {
        let ((low, high), (least, greatest)) = (model.ranges[*other], model.ranges[k]);
        least <= low && high <= greatest
    };
    if is_own(k) {
        return Expression::New(k);
    }
    let others: Vec<usize> = (0..model.ranges.len()).filter(|other| is_own(*other)).filter(narrower).collect();
    if others.is_empty() || random.percent(20) {
        Expression::Old(k)
    } else {
        Expression::New(random.pick(&others))
    }
}

/// Each `n` becomes the word that stands for it.
fn replace_new(p: &mut Predicate, words: &[Expression]) {
    use Predicate::*;
    match p {
        All(operands) | Any(operands) => operands.iter_mut().for_each(|p| replace_new(p, words)),
        Not(p) => replace_new(p, words),
        Imp(p, q) => {
            replace_new(p, words);
            replace_new(q, words);
        }
        Eq(x, y) | Le(x, y) => {
            replace_new_in(x, words);
            replace_new_in(y, words);
        }
    }
}

fn replace_new_in(x: &mut Expression, words: &[Expression]) {
    use Expression::*;
    match x {
        Number(_) | Old(_) => {}
        New(k) => *x = words[*k].clone(),
        Add(x, y) | Sub(x, y) | Mul(x, y) => {
            replace_new_in(x, words);
            replace_new_in(y, words);
        }
        If(p, x, y) => {
            replace_new(p, words);
            replace_new_in(x, words);
            replace_new_in(y, words);
        }
    }
}

/// The same sheet in this format; in one with owners there is none where two automata write a variable.
pub fn in_format(model: &Model, format: u32) -> Option<Model> {
    let owners = if format >= OWNERS_FORMAT { owners_by_writers(model)? } else { vec![None; model.ranges.len()] };
    Some(Model { format, owners, ..model.clone() })
}

/// For each variable the automaton that writes it.
fn owners_by_writers(model: &Model) -> Option<Vec<Owner>> {
    let written: Vec<u64> = model.automata.iter().map(written).collect();
    let owner = |k: usize| match writers(&written, k)[..] {
        [] => Some(None),
        [one] => Some(Some(one)),
        _ => None,
    };
    (0..model.ranges.len()).map(owner).collect()
}

/// Another owner for a variable: one that is not there, one that does not write it, or none.
pub(super) fn misown(random: &mut Random, model: &mut Model) {
    let count = model.automata.len() as u32;
    let k = random.below(model.owners.len());
    model.owners[k] = random.pick(&[None, Some(0), Some(count - 1), Some(count), Some(15), Some(16)]);
}
