//! The order of rows in a tree, and how far its vertices are indented.
//!
//! A vertex has a part of its children above it and the others below. In a narrow layout its heaviest child may be
//! straight: it stands below the other children, not indented, with all its own children below it. So a path is one
//! column, the line to a straight child meets nothing, and a tree of 64 vertices is indented a few times only.
use super::layout::{Hung, FOUND, RECORDED};
use std::cmp::Reverse;

/// Where the vertices of a tree stand.
#[derive(Clone)]
pub struct Stand {
    /// The vertices that are shown, in the order of their rows.
    pub order: Vec<usize>,
    /// Of each vertex its row, from 1 on; 0 if it is not shown.
    pub row: Vec<usize>,
    /// How many steps it is indented.
    pub indent: Vec<usize>,
    pub straight: Vec<bool>,
    pub folded: Vec<bool>,
}

/// What the order of a tree is found with.
pub struct Hanging<'a, 'b> {
    hung: &'b [Hung<'a>; 2],
    folded: &'b [Vec<bool>; 2],
    narrow: bool,
    /// How many vertices of each branch are shown.
    shown: [Vec<usize>; 2],
    /// The place of each vertex and its partner among the pairs, in the order of the tree that is followed; none before
    /// there is one.
    rank: [Vec<Option<usize>>; 2],
    /// The first and the last place in each branch.
    span: [Vec<Option<[usize; 2]>>; 2],
    /// How many vertices without partners the tree that is followed has before each pair and after the last, less those
    /// put beside them.
    room: Vec<i64>,
}

/// The children of a vertex in the order of their rows.
#[derive(Default)]
struct Branches {
    above: Vec<usize>,
    below: Vec<usize>,
    /// The last of those below, if it is straight.
    straight: Option<usize>,
}

impl Branches {
    /// Adds children to the side that has fewer.
    fn fill(&mut self, children: Vec<usize>) {
        for c in children {
            if self.above.len() < self.below.len() {
                self.above.insert(0, c);
            } else {
                self.below.push(c);
            }
        }
    }

    /// Puts children before each branch and `u` itself, and after the last.
    fn woven(&self, u: usize, mut slots: Vec<Vec<usize>>) -> Branches {
        let own = self.above.len();
        let mut woven = Branches { straight: self.straight, ..Branches::default() };
        let items = self.above.iter().chain([&u]).chain(&self.below).map(Some).chain([None]);
        for (slot, item) in items.enumerate() {
            let part = if slot <= own { &mut woven.above } else { &mut woven.below };
            part.append(&mut slots[slot]);
            part.extend(item.filter(|_| slot != own));
        }
        woven
    }
}

impl<'a, 'b> Hanging<'a, 'b> {
    pub fn new(hung: &'b [Hung<'a>; 2], folded: &'b [Vec<bool>; 2], narrow: bool) -> Hanging<'a, 'b> {
        let shown = [RECORDED, FOUND].map(|side| hung[side].sizes(&folded[side]));
        let rank = [RECORDED, FOUND].map(|side| vec![None; hung[side].tree.size()]);
        Hanging { hung, folded, narrow, shown, rank, span: [Vec::new(), Vec::new()], room: Vec::new() }
    }

    pub fn stand(&mut self, side: usize) -> Stand {
        let size = self.hung[side].tree.size();
        let folded = self.folded[side].clone();
        let mut stand = Stand { order: Vec::new(), row: vec![0; size], indent: vec![0; size], straight: vec![false; size], folded };
        self.hang(side, self.hung[side].rooted.preorder[0], &mut stand);
        stand
    }

    /// From now on the other tree follows the order of this one.
    pub fn follow(&mut self, side: usize, order: &[usize]) {
        self.room = vec![0];
        for &u in order {
            let rank = self.room.len() - 1;
            match self.hung[side].mate[u] {
                None => self.room[rank] += 1,
                Some(v) => {
                    self.rank[side][u] = Some(rank);
                    self.rank[1 - side][v] = Some(rank);
                    self.room.push(0);
                }
            }
        }
        self.span = [RECORDED, FOUND].map(|side| self.spans(side));
    }

    fn spans(&self, side: usize) -> Vec<Option<[usize; 2]>> {
        let mut spans: Vec<Option<[usize; 2]>> = self.rank[side].iter().map(|rank| rank.map(|rank| [rank, rank])).collect();
        for &u in self.hung[side].rooted.preorder.iter().rev() {
            if let (Some(parent), Some([from, to])) = (self.hung[side].rooted.parent[u], spans[u]) {
                let [first, last] = spans[parent].unwrap_or([from, to]);
                spans[parent] = Some([first.min(from), last.max(to)]);
            }
        }
        spans
    }

    /// Writes the branch of `u` in the order of its rows; whether `u` itself is indented and straight is known already.
    fn hang(&mut self, side: usize, u: usize, stand: &mut Stand) {
        let children: Vec<usize> = self.hung[side].rooted.children(u).filter(|_| !self.folded[side][u]).collect();
        let branches = match self.rank[side][u] {
            Some(rank) => self.following(side, u, rank, children, stand.straight[u]),
            None => self.free(side, children, stand.straight[u]),
        };
        for &c in branches.above.iter().chain(&branches.below) {
            stand.straight[c] = branches.straight == Some(c);
            stand.indent[c] = stand.indent[u] + usize::from(!stand.straight[c]);
        }
        branches.above.iter().for_each(|&c| self.hang(side, c, stand));
        stand.order.push(u);
        branches.below.iter().for_each(|&c| self.hang(side, c, stand));
    }

    /// Half of the children above; a straight vertex has all below.
    fn free(&self, side: usize, mut above: Vec<usize>, straight: bool) -> Branches {
        let count = above.len();
        let last = self.heaviest(side, above.iter().copied(), count);
        above.retain(|&c| Some(c) != last);
        let mut below = above.split_off(if straight { 0 } else { count / 2 });
        below.extend(last);
        Branches { above, below, straight: last }
    }

    /// Children that have partners stand as those do.
    fn following(&mut self, side: usize, u: usize, rank: usize, children: Vec<usize>, straight: bool) -> Branches {
        let count = children.len();
        let (mut above, mut lone): (Vec<usize>, Vec<usize>) = children.into_iter().partition(|&c| self.rank[side][c].is_some());
        above.sort_by_key(|&c| self.rank[side][c]);
        let mut below = above.split_off(above.iter().filter(|&&c| self.rank[side][c] < Some(rank)).count());
        // with all its children below it
        let level = below.last().copied().filter(|&c| self.span[side][c].map(|[first, _]| first) == self.rank[side][c]);
        let last = self.heaviest(side, lone.iter().copied().chain(level), count);
        below.retain(|&c| Some(c) != last);
        lone.retain(|&c| Some(c) != last);
        let mut branches = Branches { above, below, straight: last };
        if self.narrow {
            branches = self.spread(side, u, branches, lone, straight);
        } else {
            branches.fill(lone);
        }
        branches.below.extend(last);
        branches
    }

    /// Puts children without partners where the tree that is followed has most of its own with nothing beside them;
    /// else right below.
    fn spread(&mut self, side: usize, u: usize, branches: Branches, mut lone: Vec<usize>, straight: bool) -> Branches {
        let own = branches.above.len();
        let gaps = self.gaps(side, u, &branches);
        let mut slots = vec![Vec::new(); gaps.len()];
        lone.sort_by_key(|&c| Reverse(self.shown[side][c]));
        for c in lone {
            let least = if straight { own + 1 } else { 0 };
            let best = (least..gaps.len()).min_by_key(|&slot| (Reverse(self.room[gaps[slot]]), slot.max(own + 1) - slot.min(own + 1)));
            let slot = best.unwrap_or(own + 1);
            self.room[gaps[slot]] -= self.shown[side][c] as i64;
            slots[slot].push(c);
        }
        branches.woven(u, slots)
    }

    /// The gaps between pairs that children of `u` can stand in: before each of the branches and `u` itself, and after
    /// the last.
    fn gaps(&self, side: usize, u: usize, branches: &Branches) -> Vec<usize> {
        let span = |c: &usize| if *c == u { self.rank[side][u].map(|rank| [rank, rank]) } else { self.span[side][*c] };
        let spans: Vec<[usize; 2]> = branches.above.iter().chain([&u]).chain(&branches.below).filter_map(span).collect();
        let first = spans.first().map(|&[first, _]| first);
        first.into_iter().chain(spans.iter().map(|&[_, last]| last + 1)).collect()
    }

    /// The child that is to be straight, of those that can be. A leaf beside others is not: it would save nothing.
    fn heaviest(&self, side: usize, children: impl Iterator<Item = usize>, count: usize) -> Option<usize> {
        let heaviest = children.max_by_key(|&c| self.heaviness(side, c));
        heaviest.filter(|&c| self.narrow && (count == 1 || self.shown[side][c] > 1))
    }

    /// Where the recorded tree leads, the partner's branch counts too.
    fn heaviness(&self, side: usize, u: usize) -> usize {
        let other = self.hung[side].mate[u].filter(|_| side == RECORDED);
        self.shown[side][u] + other.map_or(0, |v| self.shown[FOUND][v])
    }
}
