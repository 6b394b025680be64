//! Sheets: small, middle, at a limit, and with faults.
use super::owners::{misown, settle_owners};
use super::predicates::*;
use super::Random;
use crate::reference::model::*;
use crate::reference::writer;

/// How large a sheet is to be.
struct Shape {
    actions: usize,
    variables: usize,
    automata: usize,
    /// The most locations of one automaton.
    locations: usize,
    /// The edges of all automata.
    edges: usize,
    depth: usize,
    /// Of a hundred actions, how many are in an automaton's set.
    shared: usize,
    /// How many `syn` the composition has, and how many `ini`.
    syns: usize,
    inis: usize,
}

/// A sheet, mostly one that is accepted; a third of them in each format.
pub fn sheet(random: &mut Random) -> Model {
    let mut drawn = match random.below(20) {
        0..=6 => small(random),
        7 => large(random),
        8..=10 => middle(random),
        11..=13 => covering(random),
        14..=16 => merging_limit(random),
        17 => random_of(random, &[equal_edges, wide]),
        _ => limit(random),
    };
    if random.percent(30) {
        paste(random, &mut drawn);
    }
    drawn.format = 1 + random.below(HIGHEST_FORMAT as usize) as u32;
    // Not before: who owns a variable depends on the edges.
    drawn.owners = vec![None; drawn.ranges.len()];
    if drawn.format >= OWNERS_FORMAT {
        settle_owners(random, &mut drawn);
    }
    drawn
}

/// Edges that stand a second time, or nearly: in one part they may be another's.
fn paste(random: &mut Random, model: &mut Model) {
    let free = EDGES - model.edges().min(EDGES);
    for _ in 0..free.min(1 + random.below(6)) {
        let k = random.below(model.automata.len());
        let edges = &mut model.automata[k].edges;
        if edges.is_empty() {
            continue;
        }
        let (mut again, other) = (random.pick(edges), random.pick(edges));
        match random.below(8) {
            0 => again.from = other.from,
            1 => again.action = other.action,
            2 => again.to = other.to,
            3 => again.update = other.update,
            _ => {}
        }
        edges.insert(random.below(edges.len() + 1), again);
    }
}

fn small(random: &mut Random) -> Model {
    let shape = Shape {
        actions: random.below(5),
        variables: random.below(4),
        automata: 1 + random.below(4),
        locations: 1 + random.below(3),
        edges: random.below(14),
        depth: 1 + random.below(5),
        shared: random.pick(&[20, 50, 80]),
        syns: random.below(4),
        inis: random.pick(&[0, 0, 0, 1, 1, 2, 4]),
    };
    model(random, &shape)
}

fn middle(random: &mut Random) -> Model {
    let shape = Shape {
        actions: random.below(20),
        variables: random.below(20),
        automata: 1 + random.below(8),
        locations: 1 + random.below(10),
        edges: random.below(90),
        depth: 1 + random.below(7),
        shared: random.pick(&[10, 40]),
        syns: random.below(10),
        inis: random.pick(&[0, 0, 1, 3]),
    };
    model(random, &shape)
}

fn random_of(random: &mut Random, kinds: &[fn(&mut Random) -> Model]) -> Model {
    let kind = random.pick(kinds);
    kind(random)
}

/// Many takers of one action whose edges mention different variables: the choice of edges is the difficulty.
fn covering(random: &mut Random) -> Model {
    let shape = Shape {
        actions: 1 + random.below(2),
        variables: 1 + random.below(12),
        automata: 2 + random.below(15),
        locations: 1,
        edges: random.below(20),
        depth: 2,
        shared: random.pick(&[60, 90, 100]),
        syns: random.below(6),
        inis: random.pick(&[0, 0, 1, 2]),
    };
    let mut drawn = model(random, &shape);
    drawn.ranges = vec![(0, 3); shape.variables];
    for automaton in &mut drawn.automata {
        automaton.locations = vec![Location { init: always(), invariant: always() }];
        let takers = (0..1 + random.below(4)).map(|_| Edge { from: 0, action: 1, to: 0, update: always() });
        automaton.edges.extend(takers);
        for edge in &mut automaton.edges {
            edge.update = free(random, &drawn.ranges);
        }
    }
    drawn
}

/// All 48 variables and few automata, so that a step that changes the last ones is found.
fn wide(random: &mut Random) -> Model {
    let shape = Shape {
        actions: 1,
        variables: random.pick(&[33, 47, 48]),
        automata: 1 + random.below(2),
        locations: 1,
        edges: 4,
        depth: 2,
        shared: 50,
        syns: random.below(2),
        inis: random.below(2),
    };
    let mut drawn = model(random, &shape);
    drawn.ranges = vec![(0, 3); shape.variables];
    for automaton in &mut drawn.automata {
        automaton.locations = vec![Location { init: always(), invariant: always() }];
        for edge in &mut automaton.edges {
            edge.update = free(random, &drawn.ranges);
        }
    }
    drawn
}

/// Few wide variables, and edges that ask for products of them.
fn large(random: &mut Random) -> Model {
    let ranges: Vec<Range> = (0..2 + random.below(2)).map(|_| wide_range(random)).collect();
    let edge = |random: &mut Random| {
        let asked = products(random, &Scope { ranges: &ranges, new: true });
        Edge { from: 0, action: 1, to: 0, update: Predicate::All(vec![asked, free(random, &ranges)]) }
    };
    let automaton = |random: &mut Random| Automaton {
        sync: set(random, 1, 50),
        locations: vec![Location { init: always(), invariant: always() }],
        edges: (0..1 + random.below(3)).map(|_| edge(random)).collect(),
    };
    let automata: Vec<Automaton> = (0..1 + random.below(2)).map(|_| automaton(random)).collect();
    let start = products(random, &Scope { ranges: &ranges, new: false });
    let tree = tree(random, 0, automata.len());
    let composition = if random.percent(50) { tree } else { with_ini(random, tree, start) };
    Model { format: 1, actions: 1, ranges, owners: Vec::new(), automata, composition }
}

/// A range with an end that is far from 0, perhaps on both sides of it.
fn wide_range(random: &mut Random) -> Range {
    let ends = [far_number(random), far_number(random)];
    (ends[0].min(ends[1]), ends[0].max(ends[1]))
}

/// An update that lets some variables change and asks nothing.
fn free(random: &mut Random, ranges: &[Range]) -> Predicate {
    let mention = |k: usize| Predicate::Le(Expression::New(k), Expression::Number(ranges[k].1));
    Predicate::All((0..random.below(4)).map(|_| mention(random.below(ranges.len()))).collect())
}

/// Sixteen automata, 32 edges each, all equal and all shared: 32^16 choices that are one.
fn equal_edges(random: &mut Random) -> Model {
    let range = (0, 3);
    let update = Predicate::Le(Expression::New(0), Expression::Number(2));
    let edge = Edge { from: 0, action: 1, to: 0, update };
    let automaton = Automaton {
        sync: ActionSet::from([1]),
        locations: vec![Location { init: always(), invariant: always() }],
        edges: vec![edge; 32],
    };
    let mut automata = vec![automaton; 16];
    if random.percent(50) {
        automata[15].edges.truncate(random.below(3));
    }
    let mut composition = tree(random, 0, 16);
    if random.percent(50) {
        composition = with_ini(random, composition, Predicate::Le(Expression::Old(0), Expression::Number(2)));
    }
    let ranges = vec![range; 1 + random.below(2)];
    Model { format: 1, actions: 1, ranges, owners: Vec::new(), automata, composition }
}

fn model(random: &mut Random, shape: &Shape) -> Model {
    let ranges: Vec<Range> = (0..shape.variables).map(|_| range(random)).collect();
    let mut automata: Vec<_> = (0..shape.automata).map(|_| automaton(random, shape, &ranges)).collect();
    for _ in 0..shape.edges {
        let k = random.below(automata.len());
        let drawn = edge(random, shape, &ranges, automata[k].locations.len());
        automata[k].edges.push(drawn);
    }
    let mut composition = tree(random, 0, shape.automata);
    if shape.actions > 0 {
        for _ in 0..shape.syns.min(TREE_NODES - composition.nodes()) {
            composition = with_syn(random, composition, shape.actions);
        }
    }
    for _ in 0..shape.inis.min(TREE_NODES - composition.nodes()) {
        let start = start(random, &ranges, shape.depth);
        composition = with_ini(random, composition, start);
    }
    Model { format: 1, actions: shape.actions as u32, ranges, owners: Vec::new(), automata, composition }
}

fn range(random: &mut Random) -> Range {
    match random.below(14) {
        0 => (LEAST_NUMBER as i32, GREATEST_NUMBER as i32),
        1 => {
            let only = random.between(-2, 2) as i32;
            (only, only)
        }
        2 => (random.between(-1_000, 0) as i32, random.between(0, 1_000) as i32),
        3 => (0, 1),
        4 => wide_range(random),
        5 => (0, far_number(random).abs()),
        _ => (random.between(-2, 0) as i32, random.between(0, 3) as i32),
    }
}

fn automaton(random: &mut Random, shape: &Shape, ranges: &[Range]) -> Automaton {
    let scope = Scope { ranges, new: false };
    let count = 1 + random.below(shape.locations);
    let asked = |random: &mut Random| if random.percent(60) { always() } else { predicate(random, &scope, shape.depth) };
    let locations = (0..count).map(|_| Location { init: asked(random), invariant: asked(random) }).collect();
    Automaton { sync: set(random, shape.actions, shape.shared), locations, edges: Vec::new() }
}

/// A start condition.
fn start(random: &mut Random, ranges: &[Range], depth: usize) -> Predicate {
    if random.percent(20) {
        always()
    } else {
        predicate(random, &Scope { ranges, new: false }, depth.max(2))
    }
}

fn set(random: &mut Random, actions: usize, shared: usize) -> ActionSet {
    (1..=actions as u32).filter(|_| random.percent(shared)).collect()
}

fn edge(random: &mut Random, shape: &Shape, ranges: &[Range], locations: usize) -> Edge {
    let scope = Scope { ranges, new: true };
    Edge {
        from: random.below(locations),
        action: random.below(shape.actions + 1) as u32,
        to: random.below(locations),
        update: predicate(random, &scope, shape.depth),
    }
}

/// A tree of `par` over the automata from `first` on.
fn tree(random: &mut Random, first: usize, count: usize) -> Composition {
    if count == 1 {
        return Composition::Leaf(first);
    }
    let left = 1 + random.below(count - 1);
    Composition::Par(Box::new(tree(random, first, left)), Box::new(tree(random, first + left, count - left)))
}

/// The tree with one more `syn`, anywhere.
fn with_syn(random: &mut Random, composition: Composition, actions: usize) -> Composition {
    let mut list = set(random, actions, 30);
    list.insert(1 + random.below(actions) as u32);
    with_word(random, composition, |part| Composition::Syn(list, part))
}

/// The tree with one more `ini`, anywhere.
fn with_ini(random: &mut Random, composition: Composition, start: Predicate) -> Composition {
    with_word(random, composition, |part| Composition::Ini(start, part))
}

/// The tree with one more word, over any part of it.
fn with_word(random: &mut Random, composition: Composition, word: impl FnOnce(Box<Composition>) -> Composition) -> Composition {
    let here = random.percent(30);
    match composition {
        Composition::Par(left, right) if !here => {
            if random.percent(50) {
                Composition::Par(Box::new(with_word(random, *left, word)), right)
            } else {
                Composition::Par(left, Box::new(with_word(random, *right, word)))
            }
        }
        Composition::Syn(list, inner) if !here => Composition::Syn(list, Box::new(with_word(random, *inner, word))),
        Composition::Ini(start, inner) if !here => Composition::Ini(start, Box::new(with_word(random, *inner, word))),
        other => word(Box::new(other)),
    }
}

/// The tree with more words, until it has so many nodes.
fn fill_tree(random: &mut Random, model: &mut Model, nodes: usize) {
    while model.composition.nodes() < nodes {
        let tree = model.composition.clone();
        model.composition = if model.actions == 0 || random.percent(30) {
            with_ini(random, tree, always())
        } else {
            with_syn(random, tree, model.actions as usize)
        };
    }
}

/// A sheet at some of the limits, seldom one past them.
fn limit(random: &mut Random) -> Model {
    let shape = Shape {
        actions: random.pick(&[0, 3, 62, 63]),
        variables: random.pick(&[1, 32, 47, 48]),
        automata: random.pick(&[1, 2, 15, 16]),
        locations: random.pick(&[1, 4, 32]),
        edges: random.pick(&[0, 100, 511, 512]) + random.percent(8) as usize,
        depth: 1 + random.below(5),
        shared: random.pick(&[0, 5, 50]),
        syns: random.below(20),
        inis: random.pick(&[0, 0, 1, 3, 10]),
    };
    let mut drawn = model(random, &shape);
    let past = random.percent(10) as usize;
    if random.percent(50) {
        deepen(random, &mut drawn, DEPTH + past);
    }
    if random.percent(50) {
        fill_tree(random, &mut drawn, TREE_NODES + past);
    }
    if random.percent(70) {
        pad(random, &mut drawn, NODES + past);
    } else {
        lighten(&mut drawn);
    }
    drawn
}

/// One of the model's predicates.
fn some_place<'m>(random: &mut Random, model: &'m mut Model) -> &'m mut Predicate {
    let mut starts = model.composition.starts_mut();
    if !starts.is_empty() && random.percent(40) {
        return starts.swap_remove(random.below(starts.len()));
    }
    let k = random.below(model.automata.len());
    let automaton = &mut model.automata[k];
    match random.below(3) {
        0 if !automaton.edges.is_empty() => {
            let edge = random.below(automaton.edges.len());
            &mut automaton.edges[edge].update
        }
        1 => &mut automaton.locations[0].init,
        _ => &mut automaton.locations[0].invariant,
    }
}

/// One predicate of exactly this depth.
fn deepen(random: &mut Random, model: &mut Model, depth: usize) {
    let place = some_place(random, model);
    *place = deepened(random, place.clone(), depth);
}

/// Predicates made plain until the model has at most 4,096 nodes.
fn lighten(model: &mut Model) {
    let mut nodes = model.nodes();
    let of_automata = model.automata.iter_mut().flat_map(|automaton| {
        let asked = automaton.locations.iter_mut().flat_map(|location| [&mut location.init, &mut location.invariant]);
        asked.chain(automaton.edges.iter_mut().map(|edge| &mut edge.update))
    });
    for place in of_automata.chain(model.composition.starts_mut()) {
        if nodes <= NODES {
            return;
        }
        nodes -= place.nodes() - 1;
        *place = always();
    }
}

/// The model with exactly this many nodes.
fn pad(random: &mut Random, model: &mut Model, nodes: usize) {
    lighten(model);
    let lacking = nodes.saturating_sub(model.nodes());
    let place = some_place(random, model);
    let size = place.nodes() + lacking;
    if lacking > 0 {
        *place = padding(size);
    }
}

/// A sheet at a limit of the merger, or one past it.
fn merging_limit(random: &mut Random) -> Model {
    let shape = Shape {
        actions: 1 + random.below(3),
        variables: random.below(6),
        automata: 1 + random.below(9),
        locations: 1 + random.below(4),
        edges: random.below(20),
        depth: 1 + random.below(3),
        shared: 30,
        syns: random.below(5),
        inis: random.pick(&[0, 0, 1, 2]),
    };
    let mut drawn = model(random, &shape);
    let past = random.percent(40) as usize;
    match random.below(5) {
        0 => drawn.ranges.resize(VARIABLES as usize - drawn.automata.len() + past, (0, 1)),
        1 | 2 => share_to_512(random, &mut drawn, past == 1),
        3 => {
            let depth = random.pick(&[DEPTH - 2, DEPTH - 1]) + past;
            deepen(random, &mut drawn, depth);
        }
        _ => pad_merged(&mut drawn, NODES + past),
    }
    drawn
}

/// Automata whose shared edges make 512 merged ones, or a few more.
fn share_to_512(random: &mut Random, model: &mut Model, past: bool) {
    let counts = match (random.below(3), past) {
        (0, true) => random.pick(&[vec![19, 27], vec![3, 9, 19], vec![171, 3]]),
        (0, false) => random.pick(&[vec![16, 32], vec![7, 73], vec![511, 1]]),
        (1, true) => vec![8, 9, 8],
        (1, false) => vec![8, 8, 8],
        (_, true) => vec![2, 2, 2, 2, 3, 2, 2, 2, 2],
        (_, false) => vec![2; 9],
    };
    let numbered = |i: usize| Predicate::Eq(Expression::Number(0), Expression::Number(i as i32));
    let plain = |count: usize| Automaton {
        sync: ActionSet::from([1]),
        locations: vec![Location { init: always(), invariant: always() }],
        edges: (0..count).map(|i| Edge { from: 0, action: 1, to: 0, update: numbered(i) }).collect(),
    };
    model.automata = counts.iter().map(|count| plain(*count)).collect();
    model.composition = tree(random, 0, counts.len());
}

/// The model whose merged one has exactly this many nodes, if it has fewer now and can be merged.
fn pad_merged(model: &mut Model, nodes: usize) {
    let Ok(merged) = crate::reference::merged(model) else {
        return;
    };
    // A node more in an init or in a start condition is one more in the merged init.
    let init = &mut model.automata[0].locations[0].init;
    let place = model.composition.starts_mut().pop().unwrap_or(init);
    let size = place.nodes() + nodes.saturating_sub(merged.nodes());
    *place = padding(size);
}

/// The model with faults of rows 3 to 16, 50 and 51, as its text will have them: one or several.
pub fn faulty_sheet(random: &mut Random, model: &Model) -> Model {
    let mut faulty = model.clone();
    loop {
        break_row(random, &mut faulty);
        if random.percent(70) {
            return faulty;
        }
    }
}

fn break_row(random: &mut Random, model: &mut Model) {
    let k = random.below(model.automata.len());
    let variables = model.ranges.len();
    let past = random.below(2);
    match random.below(29) / 2 {
        0 if variables > 0 => {
            let low = random.pick(&[1, 1_000_000_000, -1_000_000_001]);
            let high = random.pick(&[1, 0, -1_000_000_000, 1_000_000_001]);
            model.ranges[random.below(variables)] = (low, high);
        }
        1 | 2 => {
            let p = faulty_predicate(random, model);
            put_somewhere(random, &mut model.automata[k], p);
        }
        3 => deepen(random, model, DEPTH + past),
        4 | 11 => {
            for _ in 0..1 + random.below(3) {
                let p = faulty_predicate(random, model);
                model.composition = with_ini(random, model.composition.clone(), p);
            }
        }
        5 => pad(random, model, NODES + past),
        6 if !model.automata[k].edges.is_empty() => misdirect(random, model.actions, &mut model.automata[k]),
        7 => {
            let tree = tree(random, past, model.automata.len());
            model.composition = if random.percent(50) { tree } else { with_ini(random, tree, always()) };
        }
        8 if model.automata[k].edges.len() > 1 => {
            let total = model.edges();
            let edge = Edge { update: always(), ..model.automata[k].edges[0].clone() };
            let count = model.automata[k].edges.len() + (EDGES + past).saturating_sub(total);
            model.automata[k].edges.resize(count, edge);
        }
        9 => fill_tree(random, model, TREE_NODES + past),
        12 | 13 if variables > 0 => misown(random, model),
        // Seldom: at the first line it hides the others.
        14 => model.format = random.below(HIGHEST_FORMAT as usize + 2) as u32,
        _ => {
            let action = random.pick(&[0, model.actions + 1, 63]);
            model.automata[k].sync.insert(action);
        }
    }
}

/// A predicate that breaks row 3 or one of the rows 7 to 11 in most places, or nearly does.
fn faulty_predicate(random: &mut Random, model: &Model) -> Predicate {
    let variables = model.ranges.len();
    let past = random.below(2);
    match random.below(9) {
        0 | 1 => {
            let outside = Expression::Old(variables + random.below(48 - variables.min(47)));
            Predicate::Eq(outside, Expression::Number(0))
        }
        2 | 3 => Predicate::Le(Expression::New(random.below(variables.max(1))), Expression::Number(1)),
        4 => deepened(random, always(), DEPTH + past),
        5 => padding((NODES + past).saturating_sub(model.nodes()).max(1)),
        6 => {
            let past = 1_000_000_000 + past as i32;
            let some = [past, -past, i32::MAX, i32::MIN];
            Predicate::Le(Expression::Number(random.pick(&some)), Expression::Number(0))
        }
        _ => around_the_span(random, past == 1),
    }
}

/// An expression around an end of the span, perhaps in the guard of an `if`.
fn around_the_span(random: &mut Random, as_guard: bool) -> Predicate {
    let sign = random.pick(&[1, -1]);
    let (number, one) = (Expression::Number, Expression::Number(sign));
    let end = mul(mul(number(sign << 29), number(1 << 29)), number(16));
    let around = match random.below(10) {
        0 => end,
        1 => add(end, one),
        2 => sub(end, one),
        3 => sub(add(end, one.clone()), one),
        4 => add(end.clone(), end),
        5 => sub(end.clone(), end),
        6 => mul(end.clone(), end),
        7 => mul(number(0), add(end, one)),
        8 => mul(end, number(random.pick(&[-1, 2, 4, 16]))),
        _ => sub(number(0), end),
    };
    let guard = Predicate::Le(around, Expression::Number(0));
    if !as_guard {
        return guard;
    }
    let guarded = Expression::If(Box::new(guard), Box::new(Expression::Number(0)), Box::new(Expression::Number(1)));
    Predicate::Eq(guarded, Expression::Number(0))
}

fn put_somewhere(random: &mut Random, automaton: &mut Automaton, p: Predicate) {
    let at = random.below(automaton.locations.len());
    match random.below(3) {
        0 if !automaton.edges.is_empty() => {
            let edge = random.below(automaton.edges.len());
            automaton.edges[edge].update = p;
        }
        1 => automaton.locations[at].init = p,
        _ => automaton.locations[at].invariant = Predicate::Not(Box::new(p)),
    }
}

fn misdirect(random: &mut Random, actions: u32, automaton: &mut Automaton) {
    let outside = random.pick(&[automaton.locations.len(), 31, 32]);
    let at = random.below(automaton.edges.len());
    let edge = &mut automaton.edges[at];
    match random.below(3) {
        0 => edge.from = outside,
        1 => edge.to = outside,
        _ => edge.action = random.pick(&[actions + 1, 63, 64]),
    }
}

/// The text of a model, also of one past the limits.
pub fn text_of(model: &Model) -> Vec<u8> {
    writer::write(model)
}
