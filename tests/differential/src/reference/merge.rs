//! The merger (Definition 4 of the source document, in the paper's order): rows 31 to 34.
use super::model::*;
use super::writer::write;

/// The edges that one merged edge is made of: an automaton and its edge each, by automaton.
pub type Takers<'a> = Vec<(usize, &'a Edge)>;

/// The merged text and its count of edges, or the row that refuses them.
pub fn merge(model: &Model) -> Result<(Vec<u8>, usize), u32> {
    let merged = merged(model)?;
    Ok((write(&merged), merged.edges()))
}

/// The merged model, or the row that refuses it.
pub fn merged(model: &Model) -> Result<Model, u32> {
    let model = &distinct(model);
    if model.ranges.len() + model.automata.len() > VARIABLES as usize {
        return Err(31);
    }
    if count_all(model) > EDGES as u128 {
        return Err(32);
    }
    let merged = definition_4(model);
    if merged.predicates().iter().any(|p| p.depth() > DEPTH) {
        return Err(33);
    }
    if merged.nodes() > NODES {
        return Err(34);
    }
    Ok(merged)
}

/// The same automata, of equal edges the first alone. Merged edges are equal exactly where the same automata take equal
/// edges, so no merged edge comes about twice then; to drop them from the list is too late where it has 32^16 of one.
pub fn distinct(model: &Model) -> Model {
    let mut distinct = model.clone();
    for automaton in &mut distinct.automata {
        automaton.edges = once(&automaton.edges);
    }
    distinct
}

/// Of equal edges the first.
pub fn once(edges: &[Edge]) -> Vec<Edge> {
    let is_first = |i: usize| !edges[..i].contains(&edges[i]);
    (0..edges.len()).filter(|i| is_first(*i)).map(|i| edges[i].clone()).collect()
}

/// The merged model with an edge for each choice of takers, in the paper's order.
pub fn definition_4(model: &Model) -> Model {
    let pointers = model.automata.iter().map(|automaton| (0, automaton.locations.len() as i32 - 1));
    let pointer_owner = (model.format >= OWNERS_FORMAT).then_some(0);
    // Automaton 0 is the only one.
    let owners = model.owners.iter().map(|owner| owner.map(|_| 0));
    let starts = model.composition.starts().into_iter().cloned().collect();
    let automaton = Automaton {
        sync: model.composition.sync(&model.automata),
        locations: vec![Location {
            init: Predicate::All([by_location(model, |location| &location.init), starts].concat()),
            invariant: Predicate::All(by_location(model, |location| &location.invariant)),
        }],
        edges: (0..=model.actions).flat_map(|action| merged_edges(model, action)).collect(),
    };
    Model {
        format: model.format,
        actions: model.actions,
        ranges: model.ranges.iter().copied().chain(pointers).collect(),
        owners: owners.chain(model.automata.iter().map(|_| pointer_owner)).collect(),
        automata: vec![automaton],
        composition: Composition::Leaf(0),
    }
}

/// Where a pointer names a location, what that location asks.
fn by_location(model: &Model, asked: fn(&Location) -> &Predicate) -> Vec<Predicate> {
    let mut operands = Vec::new();
    for (i, automaton) in model.automata.iter().enumerate() {
        for (j, location) in automaton.locations.iter().enumerate() {
            let here = is(Expression::Old(model.ranges.len() + i), j);
            operands.push(Predicate::Imp(Box::new(here), Box::new(asked(location).clone())));
        }
    }
    operands
}

fn is(pointer: Expression, location: usize) -> Predicate {
    Predicate::Eq(pointer, Expression::Number(location as i32))
}

fn merged_edges(model: &Model, action: u32) -> Vec<Edge> {
    let merge_one = |takers: &Takers| {
        let mut operands: Vec<_> = takers.iter().map(|(_, edge)| edge.update.clone()).collect();
        for (i, edge) in takers {
            let pointer = model.ranges.len() + i;
            operands.push(is(Expression::Old(pointer), edge.from));
            operands.push(is(Expression::New(pointer), edge.to));
        }
        Edge { from: 0, action, to: 0, update: Predicate::All(operands) }
    };
    moves(model, &model.composition, action).iter().map(merge_one).collect()
}

/// The ways in which a composition can take an action, in the paper's order.
pub fn moves<'a>(model: &'a Model, composition: &Composition, action: u32) -> Vec<Takers<'a>> {
    match composition {
        Composition::Leaf(k) => {
            let edges = model.automata[*k].edges.iter().filter(|edge| edge.action == action);
            edges.map(|edge| vec![(*k, edge)]).collect()
        }
        Composition::Syn(_, inner) | Composition::Ini(_, inner) => moves(model, inner, action),
        Composition::Par(left, right) => {
            let in_left = left.shares(action, &model.automata);
            let in_right = right.shares(action, &model.automata);
            let of_left = || moves(model, left, action);
            let of_right = || moves(model, right, action);
            if in_left && in_right {
                // Where one side has none, the other may have more than a memory holds.
                let lost = count(model, left, action) == 0 || count(model, right, action) == 0;
                return if lost { Vec::new() } else { pairs(&of_left(), &of_right()) };
            }
            let mut alone = if in_right { Vec::new() } else { of_left() };
            if !in_left {
                alone.extend(of_right());
            }
            alone
        }
    }
}

fn pairs<'a>(left: &[Takers<'a>], right: &[Takers<'a>]) -> Vec<Takers<'a>> {
    left.iter().flat_map(|l| right.iter().map(move |r| [l.as_slice(), r.as_slice()].concat())).collect()
}

/// How many merged edges there are. Counted apart from `moves`, for there can be more than a memory holds.
pub fn count_all(model: &Model) -> u128 {
    (0..=model.actions).fold(0, |sum: u128, action| sum.saturating_add(count(model, &model.composition, action)))
}

fn count(model: &Model, composition: &Composition, action: u32) -> u128 {
    match composition {
        Composition::Leaf(k) => model.automata[*k].edges.iter().filter(|edge| edge.action == action).count() as u128,
        Composition::Syn(_, inner) | Composition::Ini(_, inner) => count(model, inner, action),
        Composition::Par(left, right) => {
            let in_left = left.shares(action, &model.automata);
            let in_right = right.shares(action, &model.automata);
            let (of_left, of_right) = (count(model, left, action), count(model, right, action));
            match (in_left, in_right) {
                (true, true) => of_left.saturating_mul(of_right),
                (true, false) => of_left,
                (false, true) => of_right,
                (false, false) => of_left.saturating_add(of_right),
            }
        }
    }
}
