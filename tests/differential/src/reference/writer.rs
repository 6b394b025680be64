//! The writer: the one text of a model.
use super::model::*;
use std::fmt::Write;

pub fn write(model: &Model) -> Vec<u8> {
    let mut text = String::new();
    let out = &mut text;
    line(out, format_args!("format={}", model.format));
    line(out, format_args!("actions={}", model.actions));
    line(out, format_args!("variables={}", model.ranges.len()));
    for ((low, high), owner) in model.ranges.iter().zip(&model.owners) {
        line(out, format_args!("variable={low},{high}"));
        if model.format >= OWNERS_FORMAT {
            line(out, format_args!("owner={}", owner.map_or("none".to_string(), |k| k.to_string())));
        }
    }
    line(out, format_args!("automata={}", model.automata.len()));
    for automaton in &model.automata {
        write_automaton(out, automaton, model.format);
    }
    line(out, format_args!("compose={}", composition(&model.composition)));
    text.into_bytes()
}

fn line(out: &mut String, content: std::fmt::Arguments) {
    writeln!(out, "{content}").expect("a string takes all");
}

fn write_automaton(out: &mut String, automaton: &Automaton, format: u32) {
    line(out, format_args!("sync={}", list(automaton.sync.iter())));
    line(out, format_args!("locations={}", automaton.locations.len()));
    for location in &automaton.locations {
        line(out, format_args!("init={}", predicate(&location.init)));
        line(out, format_args!("inv={}", predicate(&location.invariant)));
    }
    line(out, format_args!("edges={}", automaton.edges.len()));
    for edge in &automaton.edges {
        line(out, format_args!("edge={},{},{},{}", edge.from, edge.action, edge.to, predicate(&edge.update)));
        if format >= LISTS_FORMAT {
            line(out, format_args!("writes={}", list(edge.writes().iter())));
        }
    }
}

fn list<'n>(numbers: impl Iterator<Item = &'n u32>) -> String {
    numbers.map(u32::to_string).collect::<Vec<_>>().join(",")
}

pub fn predicate(p: &Predicate) -> String {
    match p {
        Predicate::All(operands) => counted("all", operands),
        Predicate::Any(operands) => counted("any", operands),
        Predicate::Not(p) => format!("not {}", predicate(p)),
        Predicate::Imp(p, q) => format!("imp {} {}", predicate(p), predicate(q)),
        Predicate::Eq(x, y) => format!("eq {} {}", expression(x), expression(y)),
        Predicate::Le(x, y) => format!("le {} {}", expression(x), expression(y)),
    }
}

fn counted(word: &str, operands: &[Predicate]) -> String {
    let mut text = format!("{word} {}", operands.len());
    for operand in operands {
        text.push(' ');
        text.push_str(&predicate(operand));
    }
    text
}

fn expression(x: &Expression) -> String {
    match x {
        Expression::Number(number) => number.to_string(),
        Expression::Old(k) => format!("v{k}"),
        Expression::New(k) => format!("n{k}"),
        Expression::Add(x, y) => format!("add {} {}", expression(x), expression(y)),
        Expression::Sub(x, y) => format!("sub {} {}", expression(x), expression(y)),
        Expression::Mul(x, y) => format!("mul {} {}", expression(x), expression(y)),
        Expression::If(p, x, y) => format!("if {} {} {}", predicate(p), expression(x), expression(y)),
    }
}

fn composition(c: &Composition) -> String {
    match c {
        Composition::Par(left, right) => format!("par {} {}", composition(left), composition(right)),
        Composition::Syn(actions, inner) => format!("syn {} {}", list(actions.iter()), composition(inner)),
        Composition::Ini(p, inner) => format!("ini {} {}", predicate(p), composition(inner)),
        Composition::Leaf(k) => format!("a{k}"),
    }
}
