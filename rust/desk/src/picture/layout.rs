//! Where the vertices of a picture stand: which branches are folded, and the rows. Each vertex has a row of its own,
//! its partner the same.
use super::order::{Hanging, Stand};
use crate::answer::Answer;
use crate::graph::{Graph, Rooted};
use crate::plant::Tree;

/// The two trees, in all arrays of two.
pub const RECORDED: usize = 0;
pub const FOUND: usize = 1;

/// Branches are folded where there would be more rows.
pub const ROOM: usize = 40;

/// Branches of up to so many vertices are never folded.
const SMALL: usize = 3;

/// A tree hung up at its outermost vertex.
pub struct Hung<'a> {
    pub tree: &'a Tree,
    pub graph: &'a Graph,
    pub mate: &'a [Option<usize>],
    pub rooted: Rooted,
    /// Of each vertex whether no vertex of its branch has a partner.
    grey: Vec<bool>,
    /// Of each vertex how many vertices its branch has.
    pub size: Vec<usize>,
}

impl<'a> Hung<'a> {
    fn at(root: usize, tree: &'a Tree, graph: &'a Graph, mate: &'a [Option<usize>]) -> Hung<'a> {
        let rooted = graph.rooted(root);
        let mut grey: Vec<bool> = mate.iter().map(Option::is_none).collect();
        for &u in rooted.preorder.iter().rev() {
            if let Some(parent) = rooted.parent[u] {
                grey[parent] &= grey[u];
            }
        }
        let mut hung = Hung { tree, graph, mate, rooted, grey, size: Vec::new() };
        hung.size = hung.sizes(&vec![false; tree.size()]);
        hung
    }

    /// The recorded tree at vertex 0, the found tree at the partner of the uppermost vertex that has one.
    fn both(answer: &'a Answer) -> [Hung<'a>; 2] {
        let recorded = Hung::at(0, &answer.plant.recorded, &answer.recorded, &answer.partner);
        let top = recorded.rooted.preorder.iter().find_map(|&u| answer.partner[u]).unwrap_or(0);
        [recorded, Hung::at(top, &answer.plant.found, &answer.found, &answer.back)]
    }

    /// How many vertices of each branch are shown: of a folded one only the top.
    pub fn sizes(&self, folded: &[bool]) -> Vec<usize> {
        let mut sizes = vec![1; self.tree.size()];
        for &u in self.rooted.preorder.iter().rev() {
            sizes[u] = if folded[u] { 1 } else { sizes[u] };
            if let Some(parent) = self.rooted.parent[u] {
                sizes[parent] += sizes[u];
            }
        }
        sizes
    }

    /// The vertices below a vertex, parents before their children.
    pub fn below(&self, u: usize) -> Vec<usize> {
        let order = &self.rooted.preorder;
        let at = order.iter().position(|&v| v == u).map_or(order.len(), |at| at + 1);
        order[at..].iter().take(self.size[u] - 1).copied().collect()
    }

    /// Whether this is a whole branch without any partner, and large enough to be folded. Where no vertex at all has a
    /// partner nothing is folded: the picture would be empty.
    fn can_fold(&self, u: usize) -> bool {
        let whole = matches!(self.rooted.parent[u], Some(parent) if !self.grey[parent]);
        whole && self.grey[u] && self.size[u] > SMALL
    }
}

pub struct Layout<'a> {
    pub hung: [Hung<'a>; 2],
    pub stand: [Stand; 2],
    pub rows: usize,
    /// More than `ROOM` rows before anything was folded.
    pub large: bool,
}

impl<'a> Layout<'a> {
    pub fn of(answer: &'a Answer, narrow: bool) -> Layout<'a> {
        let hung = Hung::both(answer);
        let open = [RECORDED, FOUND].map(|side| vec![false; hung[side].tree.size()]);
        let (mut stand, mut rows) = arranged(&hung, &open, narrow);
        let large = rows > ROOM;
        if large {
            let placed = arranged(&hung, &folds(&hung, open, narrow), narrow);
            stand = placed.0;
            rows = placed.1;
        }
        Layout { hung, stand, rows, large }
    }
}

/// Folds every branch that can be, then unfolds those for which there is room, small ones first.
fn folds(hung: &[Hung; 2], open: [Vec<bool>; 2], narrow: bool) -> [Vec<bool>; 2] {
    let both = [RECORDED, FOUND].iter().flat_map(|&side| (0..hung[side].tree.size()).map(move |u| (side, u)));
    let mut branches: Vec<(usize, usize)> = both.filter(|&(side, u)| hung[side].can_fold(u)).collect();
    branches.sort_by_key(|&(side, u)| hung[side].size[u]);
    let mut folded = open;
    branches.iter().for_each(|&(side, u)| folded[side][u] = true);
    let room = ROOM.max(arranged(hung, &folded, narrow).1);
    for &(side, u) in &branches {
        folded[side][u] = false;
        folded[side][u] = arranged(hung, &folded, narrow).1 > room;
    }
    folded
}

/// Where the vertices stand if these branches are folded, and the number of rows. The found tree follows the recorded
/// one; in a narrow layout they then follow each other in turn as long as that saves rows.
fn arranged(hung: &[Hung; 2], folded: &[Vec<bool>; 2], narrow: bool) -> ([Stand; 2], usize) {
    let mut hanging = Hanging::new(hung, folded, narrow);
    let recorded = hanging.stand(RECORDED);
    hanging.follow(RECORDED, &recorded.order);
    let mut best = [recorded, hanging.stand(FOUND)];
    let mut rows = give_rows(hung, &mut best);
    let mut followed = FOUND;
    let mut saved = narrow;
    while saved {
        let mut stand = best.clone();
        hanging.follow(followed, &stand[followed].order);
        stand[1 - followed] = hanging.stand(1 - followed);
        let fewer = give_rows(hung, &mut stand);
        saved = fewer < rows;
        if saved {
            best = stand;
            rows = fewer;
            followed = 1 - followed;
        }
    }
    (best, rows)
}

/// Gives partners the same row, and what stands between two pairs the rows between them, beside each other. Returns the
/// number of rows.
fn give_rows(hung: &[Hung; 2], stand: &mut [Stand; 2]) -> usize {
    let mut at = [0, 0];
    let mut rows = 0;
    while [RECORDED, FOUND].iter().any(|&side| at[side] < stand[side].order.len()) {
        let lone = [RECORDED, FOUND].map(|side| lone_from(&hung[side], &stand[side], at[side]));
        let room = lone[RECORDED].max(lone[FOUND]);
        let ends = [RECORDED, FOUND].map(|side| at[side] + lone[side] == stand[side].order.len());
        for side in [RECORDED, FOUND] {
            // before the first pair they stand close to it
            let down = if at[side] == 0 && !ends[side] { room - lone[side] } else { 0 };
            let to = at[side] + lone[side];
            put(&mut stand[side], at[side]..to, rows + 1 + down);
            put(&mut stand[side], to..to + usize::from(!ends[side]), rows + 1 + room);
            at[side] = to + usize::from(!ends[side]);
        }
        rows += room + usize::from(ends != [true, true]);
    }
    rows
}

/// How many vertices without a partner follow in the order.
fn lone_from(hung: &Hung, stand: &Stand, at: usize) -> usize {
    stand.order[at..].iter().take_while(|&&u| hung.mate[u].is_none()).count()
}

fn put(stand: &mut Stand, range: std::ops::Range<usize>, first: usize) {
    for (i, at) in range.enumerate() {
        stand.row[stand.order[at]] = first + i;
    }
}
