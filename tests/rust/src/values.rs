//! Subproblems, their order and their values, by a plain dynamic program. The heaviest matching goes over all sets of columns.

use crate::reading::{Plant, Tree, FORBIDDEN};

/// The largest number that is stored as a value, by paper 02, [2].
pub const VALUE_MOST: i32 = 2_032_000_000;

/// A subproblem: recorded u, found v, and s, which is v or a neighbour of v.
#[derive(Clone, Copy, Debug, PartialEq, Eq)]
pub struct Subproblem {
    pub u: usize,
    pub v: usize,
    pub s: usize,
}

/// The subproblems of a plant in order, and the children of each recorded vertex.
pub struct Order {
    pub subproblems: Vec<Subproblem>,
    pub children: Vec<Vec<usize>>,
    /// Where the subproblems of a recorded vertex begin, and from there those of a found vertex.
    of_u: Vec<usize>,
    of_v: Vec<usize>,
}

impl Order {
    pub fn of(plant: &Plant) -> Order {
        let mut children = vec![Vec::new(); plant.n()];
        let mut postorder = Vec::new();
        visit(&plant.recorded, 0, None, &mut children, &mut postorder);
        let mut subproblems = Vec::new();
        let mut of_u = vec![0; plant.n()];
        let mut of_v = vec![0; plant.m()];
        for &u in &postorder {
            of_u[u] = subproblems.len();
            for (v, start) in of_v.iter_mut().enumerate() {
                *start = subproblems.len() - of_u[u];
                subproblems.push(Subproblem { u, v, s: v });
                for &s in &plant.found.neighbours[v] {
                    subproblems.push(Subproblem { u, v, s });
                }
            }
        }
        assert_eq!(subproblems.len(), plant.subproblems());
        Order { subproblems, children, of_u, of_v }
    }

    /// The place of a subproblem in the order.
    pub fn place(&self, plant: &Plant, u: usize, v: usize, s: usize) -> usize {
        let start = self.of_u[u] + self.of_v[v];
        if s == v {
            start
        } else {
            start + 1 + plant.found.neighbours[v].iter().position(|&w| w == s).unwrap()
        }
    }
}

/// Postorder of the part below `u`, children ascending.
fn visit(tree: &Tree, u: usize, parent: Option<usize>, children: &mut Vec<Vec<usize>>, postorder: &mut Vec<usize>) {
    for &below in &tree.neighbours[u] {
        if Some(below) != parent {
            children[u].push(below);
            visit(tree, below, Some(u), children, postorder);
        }
    }
    postorder.push(u);
}

/// The columns of a subproblem: v's neighbours other than s, ascending.
pub fn columns(plant: &Plant, of: Subproblem) -> Vec<usize> {
    plant.found.neighbours[of.v].iter().copied().filter(|&w| w != of.s).collect()
}

/// What the child pair (child, other) weighs in a subproblem of (u, v), if the child's value is `value`; none if it is left out.
pub fn gain(plant: &Plant, u: usize, v: usize, child: usize, other: usize, value: i32) -> Option<i64> {
    match plant.edge_pair(u, child, v, other) {
        Some(edge) if value != FORBIDDEN => Some(edge as i64 + value as i64),
        _ => None,
    }
}

/// The heaviest matching, not necessarily full, of rows with columns; `gains[row][column]` is none where the two must not be matched.
pub fn heaviest_matching(gains: &[Vec<Option<i64>>], columns: usize) -> i64 {
    // the heaviest matching of the rows so far within each set of columns
    let mut best = vec![0i64; 1 << columns];
    for row in gains {
        for set in (0..1usize << columns).rev() {
            for (column, gain) in row.iter().enumerate() {
                if let (Some(gain), true) = (gain, set >> column & 1 == 1) {
                    best[set] = best[set].max(best[set & !(1 << column)] + gain);
                }
            }
        }
    }
    best[(1 << columns) - 1]
}

/// The value of a subproblem over any work numbers before its place.
pub fn value(plant: &Plant, order: &Order, work: &[i32], of: Subproblem) -> i32 {
    let own = match plant.pair(of.u, of.v) {
        Some(own) => own,
        None => return FORBIDDEN,
    };
    let columns = columns(plant, of);
    let gains: Vec<Vec<Option<i64>>> = order.children[of.u]
        .iter()
        .map(|&child| {
            columns.iter().map(|&other| gain(plant, of.u, of.v, child, other, work[order.place(plant, child, other, of.v)])).collect()
        })
        .collect();
    (own as i64 + heaviest_matching(&gains, columns.len())).min(VALUE_MOST.into()) as i32
}

/// Solves the subproblems from place `from` up to place `to`.
pub fn solve(plant: &Plant, order: &Order, work: &mut [i32], from: usize, to: usize) {
    for place in from..to {
        work[place] = value(plant, order, work, order.subproblems[place]);
    }
}

/// All values.
pub fn all_values(plant: &Plant, order: &Order) -> Vec<i32> {
    let mut work = vec![0; plant.subproblems()];
    solve(plant, order, &mut work, 0, plant.subproblems());
    work
}

/// The greater of 0 and the largest value with s = v.
pub fn answer(order: &Order, work: &[i32]) -> i32 {
    order.subproblems.iter().zip(work).filter(|(of, _)| of.s == of.v).map(|(_, &value)| value).fold(0, i32::max)
}
