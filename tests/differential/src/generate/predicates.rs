//! Predicates: mostly such that proposals can be found for them, and exact ones for the limits.
use super::Random;
use crate::reference::model::*;

/// What a predicate may speak of.
pub(super) struct Scope<'a> {
    pub ranges: &'a [Range],
    pub new: bool,
}

pub(super) fn always() -> Predicate {
    Predicate::All(Vec::new())
}

pub(super) fn add(x: Expression, y: Expression) -> Expression {
    Expression::Add(Box::new(x), Box::new(y))
}

pub(super) fn sub(x: Expression, y: Expression) -> Expression {
    Expression::Sub(Box::new(x), Box::new(y))
}

pub(super) fn mul(x: Expression, y: Expression) -> Expression {
    Expression::Mul(Box::new(x), Box::new(y))
}

/// A predicate of at most this depth; row 10 holds of few.
pub(super) fn predicate(random: &mut Random, scope: &Scope, depth: usize) -> Predicate {
    for _ in 0..20 {
        let drawn = any_predicate(random, scope, depth);
        if drawn.keeps_to_span(scope.ranges) || random.percent(1) {
            return drawn;
        }
    }
    always()
}

fn any_predicate(random: &mut Random, scope: &Scope, depth: usize) -> Predicate {
    if depth < 3 {
        return comparison_or_constant(random, scope, depth);
    }
    let inner = depth - 1;
    match random.below(12) {
        0 | 1 => Predicate::All(some(random, scope, inner)),
        2 | 3 => Predicate::Any(some(random, scope, inner)),
        4 => Predicate::Not(Box::new(any_predicate(random, scope, inner))),
        5 | 6 => Predicate::Imp(Box::new(any_predicate(random, scope, inner)), Box::new(any_predicate(random, scope, inner))),
        _ => comparison_or_constant(random, scope, depth),
    }
}

fn some(random: &mut Random, scope: &Scope, depth: usize) -> Vec<Predicate> {
    (0..random.below(4)).map(|_| any_predicate(random, scope, depth)).collect()
}

fn comparison_or_constant(random: &mut Random, scope: &Scope, depth: usize) -> Predicate {
    match random.below(10) {
        _ if depth < 2 => always(),
        0 | 1 => always(),
        2 if random.percent(30) => Predicate::Any(Vec::new()),
        // An assignment: what updates are mostly made of, and what a proposal can be found for.
        3 | 4 if scope.new && !scope.ranges.is_empty() => {
            let target = Expression::New(random.below(scope.ranges.len()));
            let by_far = depth > 4 && random.percent(10);
            let drawn = if by_far { detour } else { expression };
            Predicate::Eq(target, drawn(random, scope, depth - 1))
        }
        5..=9 if depth > 3 && random.percent(15) => far_comparison(random, scope, depth),
        5 | 6 => Predicate::Eq(expression(random, scope, depth - 1), expression(random, scope, depth - 1)),
        _ => Predicate::Le(expression(random, scope, depth - 1), expression(random, scope, depth - 1)),
    }
}

fn expression(random: &mut Random, scope: &Scope, depth: usize) -> Expression {
    use Expression::*;
    if depth < 2 || random.percent(60) {
        return operand(random, scope);
    }
    let inner = depth - 1;
    let (x, y) = (Box::new(expression(random, scope, inner)), Box::new(expression(random, scope, inner)));
    match random.below(5) {
        0 | 1 => Add(x, y),
        2 => Sub(x, y),
        3 => Mul(x, y),
        _ => If(Box::new(any_predicate(random, scope, inner)), x, y),
    }
}

/// A comparison of two numbers that are far from 0: far from each other, or near.
fn far_comparison(random: &mut Random, scope: &Scope, depth: usize) -> Predicate {
    let (x, y) = (expression(random, scope, depth - 2), expression(random, scope, depth - 2));
    let far = far(random);
    match random.below(6) {
        0 => Predicate::Eq(x.clone(), add(x, far)),
        1 => Predicate::Le(add(x.clone(), far), x),
        2 => Predicate::Le(x.clone(), add(x, far)),
        3 | 4 => Predicate::Eq(add(x, far.clone()), add(y, far)),
        _ => Predicate::Le(add(x, far.clone()), add(y, far)),
    }
}

/// A comparison of two products, or of one with its neighbour.
pub(super) fn products(random: &mut Random, scope: &Scope) -> Predicate {
    let product = |random: &mut Random| mul(operand(random, scope), operand(random, scope));
    let (x, y) = (product(random), product(random));
    match random.below(5) {
        0 => Predicate::Eq(x, y),
        1 => Predicate::Not(Box::new(Predicate::Le(x, y))),
        2 => Predicate::Not(Box::new(Predicate::Eq(x.clone(), add(x, Expression::Number(1))))),
        _ => Predicate::Le(x, y),
    }
}

/// An expression by a way that leads far from 0 and back.
fn detour(random: &mut Random, scope: &Scope, depth: usize) -> Expression {
    let (x, far) = (expression(random, scope, depth - 2), far(random));
    sub(add(x, far.clone()), far)
}

/// A product that 32 bits do not hold; some have nothing but zeros in their lowest 32.
fn far(random: &mut Random) -> Expression {
    let factors = [(65_536, 65_536), (-65_536, 65_536), (65_536, 32_768), (86_400, 250_000), (1 << 29, -1 << 29)];
    let (x, y) = random.pick(&factors);
    mul(Expression::Number(x), Expression::Number(y))
}

/// A number or a bound of a variable, perhaps at a limit and mostly far from 0.
pub(super) fn far_number(random: &mut Random) -> i32 {
    let some = [-1_000_000_000, -999_999_999, -65_536, -32_769, -1, 32_768, 46_341, 65_536, 999_999_999, 1_000_000_000];
    if random.percent(70) {
        random.pick(&some)
    } else {
        random.between(LEAST_NUMBER, GREATEST_NUMBER) as i32
    }
}

fn operand(random: &mut Random, scope: &Scope) -> Expression {
    let k = random.below(scope.ranges.len());
    match random.below(4) {
        0 if random.percent(12) => Expression::Number(far_number(random)),
        0 => Expression::Number(random.between(-3, 5) as i32),
        _ if scope.ranges.is_empty() => Expression::Number(random.between(-1, 1) as i32),
        1 if scope.new => Expression::New(k),
        _ => Expression::Old(k),
    }
}

/// A predicate of exactly this many nodes.
pub(super) fn padding(nodes: usize) -> Predicate {
    let mut left = nodes - 1;
    let mut operands = Vec::new();
    while left > 0 {
        // Few large operands where many small ones would pass the highest count.
        let size = if left > HIGHEST_COUNT as usize / 2 { (left / 2).min(256) } else { 1 };
        operands.push(if size == 1 { always() } else { padding(size) });
        left -= size;
    }
    Predicate::All(operands)
}

/// The predicate under so many words that it has exactly this depth, if it is not deeper.
pub(super) fn deepened(random: &mut Random, mut p: Predicate, depth: usize) -> Predicate {
    while p.depth() < depth {
        p = match random.below(4) {
            0 => Predicate::Not(Box::new(p)),
            1 => Predicate::All(vec![p]),
            2 => Predicate::Any(vec![always(), p]),
            _ if p.depth() + 2 <= depth => Predicate::Le(
                Expression::Number(0),
                Expression::If(Box::new(p), Box::new(Expression::Number(1)), Box::new(Expression::Number(0))),
            ),
            _ => Predicate::Imp(Box::new(always()), Box::new(p)),
        };
    }
    p
}
