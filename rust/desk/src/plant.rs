//! A plant as people give it: a weight table and two trees, with names for people and with the place in the input where
//! each part stands.
use crate::words::shown;
use pensummer::{DIRECTED_FROM, EDGE_LABELS_MOST, FORBIDDEN};
use std::fmt;
use std::ops::Range;
use std::rc::Rc;

/// Where something stands in an input.
#[derive(Clone, Debug, PartialEq, Eq)]
pub struct Place {
    pub file: Rc<str>,
    pub at: At,
}

/// Lines and columns are counted from 1, columns in characters; bytes from 0.
#[derive(Clone, Copy, Debug, PartialEq, Eq)]
pub enum At {
    Line { line: usize, column: usize },
    Byte(usize),
}

impl fmt::Display for Place {
    fn fmt(&self, f: &mut fmt::Formatter<'_>) -> fmt::Result {
        let file = shown(&self.file);
        match self.at {
            At::Line { line, column } => write!(f, "{file}:{line}:{column}"),
            At::Byte(offset) => write!(f, "{file}: byte {offset}"),
        }
    }
}

/// What is wrong with an input, and where.
#[derive(Clone, Debug, PartialEq, Eq)]
pub struct Fault {
    pub place: Place,
    pub reason: String,
}

impl fmt::Display for Fault {
    fn fmt(&self, f: &mut fmt::Formatter<'_>) -> fmt::Result {
        write!(f, "{}: {}", self.place, self.reason)
    }
}

/// The weights of pairs of vertex labels, or of edge labels.
#[derive(Clone, Debug, PartialEq, Eq)]
pub struct Weights {
    /// Row: recorded label; column: found label. `pensummer::FORBIDDEN` is a forbidden pair. Weights may be out of
    /// range.
    pub rows: Vec<Vec<i32>>,
    /// Where each weight stands.
    pub places: Vec<Vec<Place>>,
    /// The names of the labels; none if the plant gives none.
    pub names: Vec<String>,
}

impl Weights {
    /// How many labels there are.
    pub fn labels(&self) -> usize {
        self.rows.len()
    }

    /// A label for people: its name, or else `label` and its number.
    pub fn called(&self, label: usize) -> String {
        self.names.get(label).map_or_else(|| format!("label {label}"), |name| shown(name))
    }
}

#[derive(Clone, Debug, PartialEq, Eq)]
pub struct Table {
    pub vertex: Weights,
    pub edge: Weights,
    /// Where the numbers of labels stand.
    pub place: Place,
}

#[derive(Clone, Debug, PartialEq, Eq)]
pub struct Vertex {
    pub label: u8,
    pub name: Option<String>,
    pub place: Place,
}

/// The labels of directed edges. Smaller ones are of undirected edges, larger ones of none.
pub const DIRECTED: Range<usize> = DIRECTED_FROM..EDGE_LABELS_MOST;

#[derive(Clone, Debug, PartialEq, Eq)]
pub struct Edge {
    /// The two vertices, as written: of a directed edge the first is upstream. Of a refused plant they may be any.
    pub ends: [u8; 2],
    pub label: u8,
    /// The edge as written.
    pub text: String,
    pub place: Place,
}

impl Edge {
    /// The edge seen from each of its ends.
    pub fn links(&self) -> [Link; 2] {
        let label = self.label.into();
        let directions = match DIRECTED.contains(&label) {
            true => [Direction::Down, Direction::Up],
            false => [Direction::Undirected; 2],
        };
        directions.map(|direction| Link { label, direction })
    }
}

/// An edge seen from one of its ends.
#[derive(Clone, Copy, Debug, PartialEq, Eq)]
pub struct Link {
    pub label: usize,
    pub direction: Direction,
}

impl Link {
    /// For people, behind the words that a pair of edges is forbidden: how their directions differ, if they do.
    pub fn apart(self, partner: Link) -> &'static str {
        match [self.direction, partner.direction] {
            [a, b] if a == b => "",
            [Direction::Undirected, _] | [_, Direction::Undirected] => ": one has a direction and the other has not",
            _ => ": they run opposite ways",
        }
    }
}

/// Where an edge leads from the end that it is seen from.
#[derive(Clone, Copy, Debug, PartialEq, Eq)]
pub enum Direction {
    Undirected,
    /// Downstream: this end is upstream.
    Down,
    /// Upstream: this end is downstream.
    Up,
}

impl Direction {
    /// For people, behind the name of the vertex that the edge leads to.
    pub fn word(self) -> &'static str {
        match self {
            Direction::Undirected => "",
            Direction::Down => " downstream",
            Direction::Up => " upstream",
        }
    }

    /// The ends of an edge that leads from here to there, the upstream one first; none of an undirected one.
    pub fn ends(self, here: usize, there: usize) -> Option<[usize; 2]> {
        match self {
            Direction::Undirected => None,
            Direction::Down => Some([here, there]),
            Direction::Up => Some([there, here]),
        }
    }
}

/// The serial of a vertex; 0 is unknown.
#[derive(Clone, Debug, PartialEq, Eq)]
pub struct Serial {
    pub number: u32,
    /// Where it stands; of one that a text leaves out, where its vertex does.
    pub place: Place,
}

#[derive(Clone, Debug, PartialEq, Eq)]
pub struct Tree {
    pub vertices: Vec<Vertex>,
    pub edges: Vec<Edge>,
    /// One for each vertex where the vertex records have serials; none where they have not.
    pub serials: Option<Vec<Serial>>,
    /// Where the tree begins.
    pub place: Place,
}

impl Tree {
    pub fn size(&self) -> usize {
        self.vertices.len()
    }

    pub fn label(&self, vertex: usize) -> usize {
        self.vertices[vertex].label.into()
    }

    /// Whether an edge has a direction.
    pub fn is_directed(&self) -> bool {
        self.edges.iter().any(|edge| DIRECTED.contains(&edge.label.into()))
    }

    /// The serial of a vertex, if it is known.
    pub fn serial(&self, vertex: usize) -> Option<u32> {
        let number = self.serials.as_ref()?[vertex].number;
        Some(number).filter(|&number| number != 0)
    }

    /// A known serial for people, after what stands before it.
    pub fn serial_after(&self, before: &str, vertex: usize) -> String {
        self.serial(vertex).map_or(String::new(), |serial| format!("{before}serial {serial}"))
    }

    /// A vertex for people: its number, and its name if it has one.
    pub fn called(&self, vertex: usize) -> String {
        match &self.vertices[vertex].name {
            Some(name) => format!("{vertex} {}", shown(name)),
            None => vertex.to_string(),
        }
    }
}

#[derive(Clone, Debug, PartialEq, Eq)]
pub struct Plant {
    pub table: Table,
    pub recorded: Tree,
    pub found: Tree,
}

impl Plant {
    /// What recorded u with found v weighs, `pensummer::FORBIDDEN` if the pair is forbidden: the only way to a vertex
    /// pair's weight.
    pub fn pair_weight(&self, u: usize, v: usize) -> i32 {
        match self.serials_apart(u, v) {
            Some(_) => FORBIDDEN,
            None => self.table.vertex.rows[self.recorded.label(u)][self.found.label(v)],
        }
    }

    /// The serials of recorded u and found v if both are known and they differ: a forbidden pair, whatever the table
    /// says.
    pub fn serials_apart(&self, u: usize, v: usize) -> Option<[u32; 2]> {
        let serials = [self.recorded.serial(u)?, self.found.serial(v)?];
        Some(serials).filter(|[a, b]| a != b)
    }

    /// What a recorded edge with a found one weighs, `pensummer::FORBIDDEN` if the pair is forbidden: the only way to an
    /// edge pair's weight. The ends that they are seen from are partners. Where the directions differ the pair is
    /// forbidden, whatever the table says.
    pub fn edge_pair_weight(&self, recorded: Link, found: Link) -> i32 {
        match recorded.direction == found.direction {
            true => self.table.edge.rows[recorded.label][found.label],
            false => FORBIDDEN,
        }
    }
}
