//! An accepted tree by its neighbours: rooting, and the orders in which it is gone through.
use crate::plant::{Link, Tree};

/// The neighbours of each vertex, ascending, each with the edge to it.
#[derive(Clone, Debug, PartialEq, Eq)]
pub struct Graph {
    near: Vec<Vec<(usize, Link)>>,
}

/// A tree hung up at a vertex.
#[derive(Clone, Debug, PartialEq, Eq)]
pub struct Rooted {
    pub parent: Vec<Option<usize>>,
    pub depth: Vec<usize>,
    /// Parents before their children, children ascending.
    pub preorder: Vec<usize>,
}

impl Graph {
    /// Of a tree that the library accepts.
    pub fn of(tree: &Tree) -> Graph {
        let mut near = vec![Vec::new(); tree.size()];
        for edge in &tree.edges {
            let ([a, b], [of_a, of_b]) = (edge.ends.map(usize::from), edge.links());
            near[a].push((b, of_a));
            near[b].push((a, of_b));
        }
        near.iter_mut().for_each(|row| row.sort_unstable_by_key(|&(to, _)| to));
        Graph { near }
    }

    pub fn size(&self) -> usize {
        self.near.len()
    }

    /// The neighbours of a vertex, ascending.
    pub fn neighbours(&self, vertex: usize) -> impl Iterator<Item = usize> + '_ {
        self.links(vertex).map(|(to, _)| to)
    }

    /// The same with the edges to them, seen from the vertex.
    pub fn links(&self, vertex: usize) -> impl Iterator<Item = (usize, Link)> + '_ {
        self.near[vertex].iter().copied()
    }

    /// The edge between two vertices, seen from the first; none if they are not joined.
    pub fn edge(&self, a: usize, b: usize) -> Option<Link> {
        self.links(a).find(|&(to, _)| to == b).map(|(_, link)| link)
    }

    pub fn rooted(&self, root: usize) -> Rooted {
        let mut rooted = Rooted { parent: vec![None; self.size()], depth: vec![0; self.size()], preorder: Vec::new() };
        let mut stack = vec![root];
        while let Some(u) = stack.pop() {
            rooted.preorder.push(u);
            for v in self.neighbours(u).filter(|&v| rooted.parent[u] != Some(v)).collect::<Vec<_>>().into_iter().rev() {
                rooted.parent[v] = Some(u);
                rooted.depth[v] = rooted.depth[u] + 1;
                stack.push(v);
            }
        }
        rooted
    }
}

impl Rooted {
    /// The children of a vertex, ascending.
    pub fn children(&self, vertex: usize) -> impl Iterator<Item = usize> + '_ {
        (0..self.parent.len()).filter(move |&v| self.parent[v] == Some(vertex))
    }

    /// Children before their parents, children ascending.
    pub fn postorder(&self) -> Vec<usize> {
        // preorder with the children descending, backwards
        let mut order = Vec::new();
        let mut stack = vec![self.preorder[0]];
        while let Some(u) = stack.pop() {
            order.push(u);
            stack.extend(self.children(u));
        }
        order.reverse();
        order
    }
}
