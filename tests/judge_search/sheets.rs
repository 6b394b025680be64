// Sheets for the step judge: texts, read by the library, with what is needed to work out the answer without it.

#[link(name = "exports", kind = "static")]
extern "C" {
    fn sheet_read(text: *const u8, text_length: usize, table: *mut u32, table_length: usize) -> u64;
    fn sheet_step(
        table: *const u32, table_length: usize, phase: u32, locations: *const u32, locations_length: usize,
        values: *const i32, values_length: usize, action: u32, new_locations: *const u32, new_locations_length: usize,
        new_values: *const i32, new_values_length: usize,
    ) -> u32;
}

/// An edge under action 1: from where to where, and the variables that its update mentions. Its update holds always.
pub struct Edge {
    pub from: u32,
    pub to: u32,
    pub mentions: Vec<usize>,
}

pub struct Automaton {
    pub shares: bool,
    pub locations: u32,
    pub edges: Vec<Edge>,
}

pub enum Tree {
    Par(Box<Tree>, Box<Tree>),
    Syn(Box<Tree>),
    Leaf(usize),
}

pub struct Sheet {
    pub variables: usize,
    pub automata: Vec<Automaton>,
    pub tree: Tree,
}

pub struct Table(Vec<u32>);

/// Action 1 from the old locations to the new ones; the variables that change go from 0 to 1, all others stay 0.
pub struct Step {
    pub old: Vec<u32>,
    pub new: Vec<u32>,
    pub changed: Vec<bool>,
}

/// True whatever the values, 0 or 1, are; one variable takes 3 nodes, two 3, and each further one 2 more.
fn update(mentions: &[usize], sure: bool) -> String {
    match mentions {
        [] => "all 0".into(),
        [a] => format!("le n{a} 1"),
        [a, rest @ ..] => {
            let last = rest[rest.len() - 1];
            let sum: String = rest[..rest.len() - 1].iter().map(|k| format!("add n{k} ")).collect();
            let one = if sure { "add 1 " } else { "" };
            format!("le n{a} {one}{sum}n{last}")
        }
    }
}

fn tree_text(tree: &Tree) -> String {
    match tree {
        Tree::Par(c, d) => format!("par {} {}", tree_text(c), tree_text(d)),
        Tree::Syn(c) => format!("syn 1 {}", tree_text(c)),
        Tree::Leaf(k) => format!("a{k}"),
    }
}

impl Sheet {
    /// All automata beside each other.
    pub fn flat(variables: usize, automata: Vec<Automaton>) -> Sheet {
        let leaves = 1..automata.len();
        let tree = leaves.fold(Tree::Leaf(0), |c, k| Tree::Par(Box::new(c), Box::new(Tree::Leaf(k))));
        Sheet { variables, automata, tree }
    }

    /// `sure`: the updates hold for any values. Otherwise they are shorter, and hold where all values are equal.
    pub fn text(&self, sure: bool) -> String {
        let mut text = format!("format=1\nactions=1\nvariables={}\n", self.variables);
        text += &"variable=0,1\n".repeat(self.variables);
        text += &format!("automata={}\n", self.automata.len());
        for a in &self.automata {
            text += &format!("sync={}\nlocations={}\n", if a.shares { "1" } else { "" }, a.locations);
            text += &"init=all 0\ninv=all 0\n".repeat(a.locations as usize);
            text += &format!("edges={}\n", a.edges.len());
            for e in &a.edges {
                text += &format!("edge={},1,{},{}\n", e.from, e.to, update(&e.mentions, sure));
            }
        }
        text + &format!("compose={}\n", tree_text(&self.tree))
    }

    pub fn read(&self, sure: bool) -> Table {
        let text = self.text(sure);
        let mut table = vec![0; 16384];
        let answer = unsafe { sheet_read(text.as_ptr(), text.len(), table.as_mut_ptr(), table.len()) };
        assert_eq!(answer, 0, "refused: row {}, line {}\n{text}", answer >> 32, answer & 0xffff_ffff);
        Table(table)
    }
}

impl Step {
    /// Every automaton stays at location 0, and every variable changes.
    pub fn all(sheet: &Sheet) -> Step {
        let still = vec![0; sheet.automata.len()];
        Step { old: still.clone(), new: still, changed: vec![true; sheet.variables] }
    }
}

/// The library's answer: 0 no, 1 or 2 yes.
pub fn judge(table: &Table, step: &Step) -> u32 {
    let values = vec![0i32; step.changed.len()];
    let new_values: Vec<i32> = step.changed.iter().map(|&c| c as i32).collect();
    unsafe {
        sheet_step(
            table.0.as_ptr(), table.0.len(), 1, step.old.as_ptr(), step.old.len(), values.as_ptr(), values.len(), 1,
            step.new.as_ptr(), step.new.len(), new_values.as_ptr(), new_values.len(),
        )
    }
}

/// Each way to choose takers and their edges, as the rules list them, tried one after the other; the takers' mentions as bits.
fn moves(sheet: &Sheet, step: &Step, tree: &Tree) -> Vec<u64> {
    match tree {
        Tree::Leaf(k) => {
            let edges = sheet.automata[*k].edges.iter();
            let fit = edges.filter(|e| e.from == step.old[*k] && e.to == step.new[*k]);
            fit.map(|e| e.mentions.iter().fold(0, |set, v| set | 1 << v)).collect()
        }
        Tree::Syn(c) => moves(sheet, step, c),
        Tree::Par(c, d) => {
            let (left, right) = (moves(sheet, step, c), moves(sheet, step, d));
            let left_alone = if still(step, d) { left.clone() } else { vec![] };
            let right_alone = if still(step, c) { right.clone() } else { vec![] };
            match (shares(sheet, c), shares(sheet, d)) {
                (true, true) => left.iter().flat_map(|x| right.iter().map(move |y| x | y)).collect(),
                (true, false) => left_alone,
                (false, true) => right_alone,
                (false, false) => [left_alone, right_alone].concat(),
            }
        }
    }
}

fn shares(sheet: &Sheet, tree: &Tree) -> bool {
    match tree {
        Tree::Leaf(k) => sheet.automata[*k].shares,
        Tree::Syn(_) => true,
        Tree::Par(c, d) => shares(sheet, c) || shares(sheet, d),
    }
}

fn still(step: &Step, tree: &Tree) -> bool {
    match tree {
        Tree::Leaf(k) => step.old[*k] == step.new[*k],
        Tree::Syn(c) => still(step, c),
        Tree::Par(c, d) => still(step, c) && still(step, d),
    }
}

/// The answer by trying every move.
pub fn brute_force(sheet: &Sheet, step: &Step) -> u32 {
    let changed = step.changed.iter().enumerate().fold(0u64, |set, (k, &c)| set | (c as u64) << k);
    let yes = moves(sheet, step, &sheet.tree).iter().any(|named| changed & !named == 0);
    yes as u32 * if shares(sheet, &sheet.tree) { 2 } else { 1 }
}
