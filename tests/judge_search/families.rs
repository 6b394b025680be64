// Families of sheets on which a search may take long.
use crate::sheets::{Automaton, Edge, Sheet, Step, Tree};

pub struct Random(u64);

impl Random {
    pub fn new(seed: u64) -> Random {
        Random(seed)
    }

    pub fn below(&mut self, k: usize) -> usize {
        self.0 = self.0.wrapping_mul(6364136223846793005).wrapping_add(1442695040888963407);
        ((self.0 >> 33) % k as u64) as usize
    }

    /// So many different numbers below k.
    pub fn some(&mut self, count: usize, k: usize) -> Vec<usize> {
        let mut all = vec![];
        while all.len() < count {
            let x = self.below(k);
            if !all.contains(&x) {
                all.push(x);
            }
        }
        all
    }
}

fn loops(mentions: Vec<Vec<usize>>) -> Automaton {
    let edges = mentions.into_iter().map(|mentions| Edge { from: 0, to: 0, mentions }).collect();
    Automaton { shares: true, locations: 1, edges }
}

/// k automata that share the action, each with edges that mention `size` of the variables.
pub fn random(k: usize, edges: usize, size: usize, variables: usize, seed: u64) -> Sheet {
    let mut r = Random::new(seed);
    let one = |r: &mut Random| loops((0..edges).map(|_| r.some(size, variables)).collect());
    Sheet::flat(variables, (0..k).map(|_| one(&mut r)).collect())
}

/// The same with 3 of 3k variables; the last two are mentioned by the last automaton alone, and by no edge of it together.
pub fn split(k: usize, edges: usize, seed: u64) -> Sheet {
    let (mut r, v) = (Random::new(seed), 3 * k);
    let one = |r: &mut Random, last: bool| {
        let edge = |r: &mut Random, e: usize| if last { [r.some(2, v - 2), vec![v - 1 - e % 2]].concat() } else { r.some(3, v - 2) };
        loops((0..edges).map(|e| edge(r, e)).collect())
    };
    Sheet::flat(v, (0..k).map(|a| one(&mut r, a + 1 == k)).collect())
}

/// k automata with edges that mention different variables, and one more that shares the action and has no edge.
pub fn dead(k: usize, edges: usize) -> Sheet {
    let mut r = Random::new(5);
    let mut automata: Vec<Automaton> = (0..k).map(|_| loops((0..edges).map(|_| r.some(3, 3 * k)).collect())).collect();
    automata.push(loops(vec![]));
    Sheet::flat(3 * k, automata)
}

/// k automata with equal edges, which mention one variable.
pub fn equal(k: usize, edges: usize, variables: usize) -> Sheet {
    Sheet::flat(variables, (0..k).map(|_| loops(vec![vec![0]; edges])).collect())
}

/// k automata whose edges mention more and more of their own variables, the fullest one last.
pub fn nested(k: usize, edges: usize, size: usize) -> Sheet {
    let one = |a: usize| loops((0..edges).map(|e| (0..1 + e * size / edges).map(|i| a * size + i).collect()).collect());
    Sheet::flat(k * size, (0..k).map(one).collect())
}

/// k automata with edges that mention `count` variables of one of some parts, each part as often as it is large.
pub fn parts(k: usize, edges: usize, count: usize, sizes: &[usize], seed: u64) -> Sheet {
    let (mut r, v) = (Random::new(seed), sizes.iter().sum());
    let one = |r: &mut Random| {
        let (mut x, mut first, mut part) = (r.below(v), 0, 0);
        while x >= sizes[part] {
            x -= sizes[part];
            first += sizes[part];
            part += 1;
        }
        r.some(count, sizes[part]).iter().map(|x| x + first).collect()
    };
    Sheet::flat(v, (0..k).map(|_| loops((0..edges).map(|_| one(&mut r)).collect())).collect())
}

/// Two variables of one of two parts, whose sizes are odd: no cover, but only counting says so.
pub fn odd(k: usize, edges: usize, first: usize, seed: u64) -> Sheet {
    parts(k, edges, 2, &[first, 2 * k - first], seed)
}

/// k automata with edges that mention some variables of the first `first` ones and some of the `second` ones after them.
pub fn uneven(k: usize, edges: usize, some: (usize, usize), first: usize, second: usize, seed: u64) -> Sheet {
    let mut r = Random::new(seed);
    let one = |r: &mut Random| {
        let mut edge = r.some(some.0, first);
        edge.extend(r.some(some.1, second).iter().map(|x| x + first));
        edge
    };
    Sheet::flat(first + second, (0..k).map(|_| loops((0..edges).map(|_| one(&mut r)).collect())).collect())
}

/// k automata with edges of three variables, two of the first ones or none; there is an odd number of those, so no cover.
pub fn even(k: usize, edges: usize, first: usize, seed: u64) -> Sheet {
    let mut r = Random::new(seed);
    let one = |r: &mut Random| {
        let count = 2 * r.below(2);
        let mut edge = r.some(count, first);
        edge.extend(r.some(3 - count, 3 * k - first).iter().map(|x| x + first));
        edge
    };
    Sheet::flat(3 * k, (0..k).map(|_| loops((0..edges).map(|_| one(&mut r)).collect())).collect())
}

/// Pairs in four parts of odd size; the first automaton's edges alone join two of them, which leaves two odd ones: no cover.
pub fn crossing(k: usize, edges: usize, seed: u64) -> Sheet {
    let side = (k / 2 - 1) | 1;
    let sizes = [side, side, side, 2 * k - 3 * side];
    let mut sheet = parts(k, edges, 2, &sizes, seed);
    let mut r = Random::new(seed + 99);
    for edge in &mut sheet.automata[0].edges {
        edge.mentions = vec![r.below(side), side + r.below(2 * k - side)];
    }
    sheet
}

/// Automata in groups, one of which takes the action for its group: each choice of them is a set of takers of its own.
pub fn choices(groups: usize, each: usize, edges: usize, size: usize, variables: usize, seed: u64) -> Sheet {
    let mut sheet = random(groups * each, edges, size, variables, seed);
    for a in &mut sheet.automata {
        a.shares = false;
    }
    let beside = |c, d| Tree::Par(Box::new(c), Box::new(d));
    let group = |g: usize| Tree::Syn(Box::new((1..each).fold(Tree::Leaf(g * each), |c, k| beside(c, Tree::Leaf(g * each + k)))));
    sheet.tree = (1..groups).fold(group(0), |c, g| beside(c, group(g)));
    sheet
}

/// A small sheet of any shape, and a step of it.
pub fn small(r: &mut Random) -> (Sheet, Step) {
    let n = 1 + r.below(4);
    let variables = 1 + r.below(6);
    let automaton = |r: &mut Random| {
        let locations = 1 + r.below(2) as u32;
        let edge = |r: &mut Random| {
            let count = r.below(variables.min(3) + 1);
            Edge { from: r.below(locations as usize) as u32, to: r.below(locations as usize) as u32, mentions: r.some(count, variables) }
        };
        let edges = r.below(6);
        Automaton { shares: r.below(3) > 0, locations, edges: (0..edges).map(|_| edge(r)).collect() }
    };
    let automata: Vec<Automaton> = (0..n).map(|_| automaton(r)).collect();
    let tree = shape(r, 0, n);
    let old: Vec<u32> = automata.iter().map(|a| r.below(a.locations as usize) as u32).collect();
    let new = automata.iter().zip(&old).map(|(a, &l)| if r.below(3) == 0 { r.below(a.locations as usize) as u32 } else { l }).collect();
    let changed = (0..variables).map(|_| r.below(2) == 0).collect();
    (Sheet { variables, automata, tree }, Step { old, new, changed })
}

/// A tree over the automata from one up to another.
fn shape(r: &mut Random, from: usize, to: usize) -> Tree {
    if r.below(5) == 0 {
        return Tree::Syn(Box::new(shape(r, from, to)));
    }
    if to - from == 1 {
        return Tree::Leaf(from);
    }
    let middle = from + 1 + r.below(to - from - 1);
    Tree::Par(Box::new(shape(r, from, middle)), Box::new(shape(r, middle, to)))
}
