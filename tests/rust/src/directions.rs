//! Directions (paper 02, [6]) of the edges of trees to try: the ends of edges written the other way round, which edges of a tree are directed,
//! and plants with direction ignored.

use crate::compare::Solved;
use crate::random::Random;
use crate::reading::{is_directed, table_bytes, Inputs, Places, Plant, Tree, Weight, DIRECTED_FROM, FORBIDDEN};

/// Where the edge records of a tree begin.
fn edges(tree: &[u8]) -> Vec<usize> {
    let places = Places::of(tree).expect("a tree of one of the two kinds");
    (1..places.n).map(|edge| places.edge(edge - 1)).collect()
}

/// A tree with the ends of some edges written the other way round; `which` is asked with each edge's number and label.
pub fn turned(tree: &[u8], mut which: impl FnMut(usize, usize) -> bool) -> Vec<u8> {
    let mut bytes = tree.to_vec();
    for (edge, at) in edges(tree).into_iter().enumerate() {
        if which(edge, tree[at + 4].into()) {
            bytes.swap(at + 2, at + 3);
        }
    }
    bytes
}

/// Both trees with the ends of such edges written the other way round, by their labels.
pub fn both_turned(inputs: &Inputs, mut which: impl FnMut(usize) -> bool) -> Inputs {
    let mut turn = |tree: &[u8]| turned(tree, |_, label| which(label));
    Inputs { table: inputs.table.clone(), recorded: turn(&inputs.recorded), found: turn(&inputs.found) }
}

/// The numbers of a tree's directed edges.
fn directed(tree: &[u8]) -> Vec<usize> {
    edges(tree).into_iter().enumerate().filter(|&(_, at)| is_directed(tree[at + 4].into())).map(|(edge, _)| edge).collect()
}

/// Turns one directed edge of a plant round, of either tree; there is one.
pub fn turn_one(inputs: &mut Inputs, random: &mut Random) {
    let (recorded, found) = (directed(&inputs.recorded), directed(&inputs.found));
    let chosen = random.below(recorded.len() + found.len());
    match chosen.checked_sub(recorded.len()) {
        None => inputs.recorded = turned(&inputs.recorded, |edge, _| edge == recorded[chosen]),
        Some(chosen) => inputs.found = turned(&inputs.found, |edge, _| edge == found[chosen]),
    }
}

/// Whether there is a directed edge in either tree.
pub fn some(inputs: &Inputs) -> bool {
    !directed(&inputs.recorded).is_empty() || !directed(&inputs.found).is_empty()
}

/// Which of a tree's edges are directed: 0 none, 1 some, 2 all that there are.
fn mix(tree: &[u8]) -> usize {
    match directed(tree).len() {
        0 => 0,
        some if some < edges(tree).len() => 1,
        _ => 2,
    }
}

/// What the directions of the plants tried did. Plants are told apart by whether none, some or all edges of the recorded tree are directed, and
/// likewise of the found one. Where all are in both trees, only which way they run can decide; where none is in one of them, only that edges of
/// the other are directed.
#[derive(Debug, Default)]
pub struct Decided {
    plants: [[usize; 3]; 3],
    /// Those that were lighter than with direction ignored.
    lighter: [[usize; 3]; 3],
}

impl Decided {
    pub fn add(&mut self, inputs: &Inputs, plant: &Plant, heaviest: i64) {
        let (recorded, found) = (mix(&inputs.recorded), mix(&inputs.found));
        let ignoring = Solved::of(ignored(plant)).weight.into();
        assert!(heaviest <= ignoring, "directions only forbid{inputs:?}");
        self.plants[recorded][found] += 1;
        self.lighter[recorded][found] += usize::from(heaviest < ignoring);
    }

    /// Of so many plants tried directions decided not a few of every kind that has directed edges.
    pub fn report(&self, tried: usize) {
        println!("{self:?}");
        let mut with_directed = self.lighter.iter().flatten().skip(1);
        assert!(with_directed.all(|&count| count > tried / 100), "of {tried} plants: {self:?}");
    }
}

/// The same plant with direction ignored: no edge is directed, whatever its label.
pub fn ignored(plant: &Plant) -> Plant {
    let undirected = |tree: &Tree| {
        let mut tree = tree.clone();
        tree.joined.iter_mut().flatten().flatten().for_each(|edge| edge.upstream = None);
        tree
    };
    Plant { table: plant.table.clone(), recorded: undirected(&plant.recorded), found: undirected(&plant.found) }
}

/// A plant of undirected edges with all of them directed, from the end that is written first, and all else the same: each label is raised, with
/// the weights of its pairs. No edge has a lower label then; pairs of those weigh 0.
pub fn raised(plain: &Inputs) -> Inputs {
    let table = Plant::read(plain).expect("an accepted plant").table;
    let numbers = |row: &Vec<Weight>| row.iter().map(|weight| weight.unwrap_or(FORBIDDEN)).collect::<Vec<i32>>();
    let vertex: Vec<Vec<i32>> = table.vertex.iter().map(numbers).collect();
    let below = [0; DIRECTED_FROM];
    let mut edge = vec![vec![0; DIRECTED_FROM + table.edge.len()]; DIRECTED_FROM];
    edge.extend(table.edge.iter().map(|row| [&below[..], &numbers(row)].concat()));
    let raise = |tree: &[u8]| {
        let mut bytes = tree.to_vec();
        edges(tree).into_iter().for_each(|at| bytes[at + 4] += DIRECTED_FROM as u8);
        bytes
    };
    Inputs { table: table_bytes(&vertex, &edge), recorded: raise(&plain.recorded), found: raise(&plain.found) }
}
