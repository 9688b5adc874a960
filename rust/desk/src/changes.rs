//! What a mapping says of each vertex, in words that a service engineer can act on: kept, changed, gone, new.
use crate::answer::{Answer, Certainty};
use crate::plant::Link;

/// What became of a vertex.
#[derive(Clone, Copy, Debug, PartialEq, Eq)]
pub enum State {
    /// It has a partner of the same label, and so has its edge to the mapped vertex above it.
    Kept,
    /// It has a partner; its label or that edge's label is another.
    Changed,
    /// A recorded vertex without a partner.
    Gone,
    /// A found vertex without a partner.
    New,
}

impl State {
    pub fn word(self) -> &'static str {
        match self {
            State::Kept => "kept",
            State::Changed => "changed",
            State::Gone => "gone",
            State::New => "new",
        }
    }
}

/// A recorded vertex, seen from vertex 0: its partner, and the edge to the vertex above it if that has a partner too.
pub struct Row {
    pub vertex: usize,
    pub depth: usize,
    pub parent: Option<usize>,
    pub partner: Option<usize>,
    /// The edge to the parent and the partners' edge, seen from this vertex and its partner.
    pub edge: Option<(Link, Link)>,
    pub state: State,
    /// Whether the partner is certain.
    pub certain: Certainty,
    /// Whether the edge is: of a vertex whose own partner is certain, whether that of the vertex above is.
    pub edge_certain: Certainty,
}

impl Row {
    /// Whether nothing in this row is in doubt.
    pub fn is_certain(&self) -> bool {
        self.certain == Certainty::Certain && self.edge_certain == Certainty::Certain
    }
}

/// The recorded vertices, parents before children and children ascending.
pub fn rows(answer: &Answer) -> Vec<Row> {
    let rooted = answer.recorded.rooted(0);
    let row = |&vertex: &usize| {
        let (parent, partner) = (rooted.parent[vertex], answer.partner[vertex]);
        let edge = parent.and_then(|parent| answer.edge_pair(vertex, parent));
        let other_edge = edge.map_or(false, |(a, b)| a != b);
        let state = match partner {
            None => State::Gone,
            Some(v) if other_edge || answer.label_changed(vertex, v) => State::Changed,
            Some(_) => State::Kept,
        };
        let above = parent.filter(|_| edge.is_some()).map_or(Certainty::Certain, |parent| answer.certain[parent]);
        let certain = answer.certain[vertex];
        let edge_certain = if certain == Certainty::Certain { above } else { Certainty::Certain };
        Row { vertex, depth: rooted.depth[vertex], parent, partner, edge, state, certain, edge_certain }
    };
    rooted.preorder.iter().map(row).collect()
}

/// The found vertices without a partner, ascending.
pub fn new_vertices<'a>(answer: &'a Answer) -> impl Iterator<Item = usize> + 'a {
    (0..answer.back.len()).filter(move |&v| answer.back[v].is_none())
}

/// How many of each, how many are not certain, and of how many that is not known.
#[derive(Clone, Copy)]
pub struct Counts {
    pub kept: usize,
    pub changed: usize,
    pub gone: usize,
    pub new: usize,
    pub unsure: usize,
    pub unknown: usize,
}

pub fn counts(answer: &Answer, rows: &[Row]) -> Counts {
    let of = |state| rows.iter().filter(|row| row.state == state).count();
    let new = new_vertices(answer).map(|v| answer.found_certain[v]);
    let own = |row: &Row| if row.certain == Certainty::Certain { row.edge_certain } else { row.certain };
    let certain: Vec<Certainty> = rows.iter().map(own).chain(new).collect();
    let unknown = certain.iter().filter(|&&certain| certain == Certainty::Unknown).count();
    Counts {
        kept: of(State::Kept),
        changed: of(State::Changed),
        gone: of(State::Gone),
        new: new_vertices(answer).count(),
        unsure: certain.iter().filter(|&&certain| certain != Certainty::Certain).count() - unknown,
        unknown,
    }
}

/// Of a recorded vertex with a name: another found vertex than its partner that has the same name. Names weigh nothing,
/// so that this may be.
pub fn name_elsewhere(answer: &Answer, u: usize) -> Option<usize> {
    let name = answer.plant.recorded.vertices[u].name.as_ref()?;
    let there = answer.plant.found.vertices.iter().position(|vertex| vertex.name.as_ref() == Some(name));
    there.filter(|&v| answer.partner[u] != Some(v))
}
