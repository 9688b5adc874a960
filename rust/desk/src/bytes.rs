//! The bytes of a plant (docs/FORMAT.md), written from a plant and read into one.
use crate::plant::{At, Edge, Fault, Place, Plant, Serial, Table, Tree, Vertex, Weights, DIRECTED};
use pensummer::{Inputs, EDGE_LABELS_MOST, VERTEX_LABELS_MOST, VERTICES_MOST};
use std::rc::Rc;

const TABLE: [u8; 2] = [0xB1, 0x04];
const VERTEX_ROW: [u8; 2] = [0xB1, 0x05];
const EDGE_ROW: [u8; 2] = [0xB1, 0x06];
const TREE: [u8; 2] = [0xB1, 0x01];
const VERTEX: [u8; 2] = [0xB1, 0x02];
const VERTEX_WITH_SERIAL: [u8; 2] = [0xB1, 0x07];
/// The two kinds of vertex records; a tree has one of them throughout.
const VERTICES: [[u8; 2]; 2] = [VERTEX, VERTEX_WITH_SERIAL];
const EDGE: [u8; 2] = [0xB1, 0x03];

/// No text in UTF-8 begins with the first byte of a mark.
pub fn begins(bytes: &[u8]) -> bool {
    bytes.first() == Some(&TABLE[0])
}

/// The three parts that every call is lent.
#[derive(Clone, Debug, PartialEq, Eq)]
pub struct Bytes {
    pub table: Vec<u8>,
    pub recorded: Vec<u8>,
    pub found: Vec<u8>,
}

impl Bytes {
    pub fn inputs(&self) -> Inputs<'_> {
        Inputs { table: &self.table, recorded: &self.recorded, found: &self.found }
    }

    /// The parts one after the other, as the match program reads them.
    pub fn joined(&self) -> Vec<u8> {
        [&self.table[..], &self.recorded[..], &self.found[..]].concat()
    }

    /// Bytes that hold a table and two trees, parted as the match program does: each takes the length that its
    /// beginning tells, or all that is left.
    pub fn split(bytes: &[u8]) -> Bytes {
        let (table, trees) = bytes.split_at(table_length(bytes).min(bytes.len()));
        Bytes { table: table.into(), ..Bytes::split_trees(trees) }
    }

    /// Bytes that hold two trees, parted in the same way, and no table.
    pub fn split_trees(bytes: &[u8]) -> Bytes {
        let (recorded, found) = bytes.split_at(tree_length(bytes).min(bytes.len()));
        Bytes { table: Vec::new(), recorded: recorded.into(), found: found.into() }
    }
}

/// How long the table is that begins here by its head; all there is where the head is none.
fn table_length(bytes: &[u8]) -> usize {
    match bytes {
        [a, b, k, l, ..] if [*a, *b] == TABLE && in_range(*k, VERTEX_LABELS_MOST) && in_range(*l, EDGE_LABELS_MOST) => {
            let rows = |labels: usize| labels * (2 + 4 * labels);
            4 + rows(usize::from(*k)) + rows(usize::from(*l))
        }
        _ => bytes.len(),
    }
}

/// How long the tree is that begins here, by its number of vertices and the mark of the first; all there is where one
/// of them tells nothing.
fn tree_length(bytes: &[u8]) -> usize {
    match bytes {
        [_, _, n, a, b, ..] if *n > 0 && VERTICES.contains(&[*a, *b]) => {
            let each = if [*a, *b] == VERTEX { 8 } else { 12 };
            each * usize::from(*n) - 2
        }
        _ => bytes.len(),
    }
}

fn in_range(count: u8, most: usize) -> bool {
    (1..=most).contains(&usize::from(count))
}

impl From<&Plant> for Bytes {
    fn from(plant: &Plant) -> Bytes {
        Bytes { table: table_bytes(&plant.table), recorded: tree_bytes(&plant.recorded), found: tree_bytes(&plant.found) }
    }
}

pub fn table_bytes(table: &Table) -> Vec<u8> {
    let mut bytes = TABLE.to_vec();
    bytes.extend([table.vertex.labels() as u8, table.edge.labels() as u8]);
    for (weights, mark) in [(&table.vertex, VERTEX_ROW), (&table.edge, EDGE_ROW)] {
        for row in &weights.rows {
            bytes.extend(mark);
            bytes.extend(row.iter().flat_map(|weight| weight.to_le_bytes()));
        }
    }
    bytes
}

pub fn tree_bytes(tree: &Tree) -> Vec<u8> {
    let mut bytes = TREE.to_vec();
    bytes.push(tree.size() as u8);
    for (at, vertex) in tree.vertices.iter().enumerate() {
        bytes.extend(if tree.serials.is_some() { VERTEX_WITH_SERIAL } else { VERTEX });
        bytes.push(vertex.label);
        bytes.extend(tree.serials.iter().flat_map(|serials| serials[at].number.to_le_bytes()));
    }
    bytes.extend(tree.edges.iter().flat_map(|edge| [EDGE[0], EDGE[1], edge.ends[0], edge.ends[1], edge.label]));
    bytes
}

/// A part of a file: its bytes, and the offset at which they stand there.
pub struct Part<'a> {
    pub file: &'a Rc<str>,
    pub bytes: &'a [u8],
    pub offset: usize,
}

/// Bytes of another shape than a plant's.
pub struct Misshapen {
    /// What applies to the first part that is of another shape: 1, 3 or 8.
    pub item: u32,
    /// The first byte there that is.
    pub fault: Fault,
    /// The parts before it, and trees without vertices for the others.
    pub before: Option<Plant>,
}

/// The table and the trees of three parts.
pub fn read(table: Part, recorded: Part, found: Part) -> Result<Plant, Misshapen> {
    let blank = |part: &Part| {
        let place = Place { file: part.file.clone(), at: At::Byte(part.offset) };
        Tree { vertices: Vec::new(), edges: Vec::new(), serials: None, place }
    };
    let (no_recorded, no_found) = (blank(&recorded), blank(&found));
    let table = Reader::over(table).table().map_err(|fault| Misshapen { item: 1, fault, before: None })?;
    let mut plant = Plant { table, recorded: no_recorded, found: no_found };
    match Reader::over(recorded).tree("recorded") {
        Ok(tree) => plant.recorded = tree,
        Err(fault) => return Err(Misshapen { item: 3, fault, before: Some(plant) }),
    }
    match Reader::over(found).tree("found") {
        Ok(tree) => plant.found = tree,
        Err(fault) => return Err(Misshapen { item: 8, fault, before: Some(plant) }),
    }
    Ok(plant)
}

struct Reader<'a> {
    part: Part<'a>,
    at: usize,
}

impl<'a> Reader<'a> {
    fn over(part: Part<'a>) -> Reader<'a> {
        Reader { part, at: 0 }
    }

    fn place(&self, at: usize) -> Place {
        Place { file: self.part.file.clone(), at: At::Byte(self.part.offset + at) }
    }

    fn fault<T>(&self, at: usize, reason: String) -> Result<T, Fault> {
        Err(Fault { place: self.place(at), reason })
    }

    fn mark(&mut self, mark: [u8; 2], what: &str) -> Result<(), Fault> {
        self.one_of(&[mark], what).map(|_| ())
    }

    /// The mark that stands here, which is to be one of these.
    fn one_of(&mut self, marks: &[[u8; 2]], what: &str) -> Result<[u8; 2], Fault> {
        let there = match self.part.bytes[self.at..] {
            [a, b, ..] => [a, b],
            _ => return self.fault(self.part.bytes.len(), format!("the bytes end here, before the mark of {what} is whole")),
        };
        if !marks.contains(&there) {
            let hex = |mark: [u8; 2]| format!("{:02X} {:02X}", mark[0], mark[1]);
            let due: Vec<String> = marks.iter().map(|&mark| hex(mark)).collect();
            let mixed = marks.iter().chain([&there]).all(|mark| VERTICES.contains(mark));
            let why = if mixed { "; the vertex records of a tree are all of one kind" } else { "" };
            return self.fault(self.at, format!("{what} begins with {}, not {}{why}", due.join(" or "), hex(there)));
        }
        self.at += 2;
        Ok(there)
    }

    fn take<const N: usize>(&mut self, what: &str) -> Result<[u8; N], Fault> {
        let mut taken = [0; N];
        for byte in &mut taken {
            match self.part.bytes.get(self.at) {
                Some(&there) => *byte = there,
                None => return self.fault(self.at, format!("the bytes end here, within {what}")),
            }
            self.at += 1;
        }
        Ok(taken)
    }

    fn size(&mut self, what: &str, most: usize, record: &str) -> Result<usize, Fault> {
        let [size] = self.take(record)?;
        if !in_range(size, most) {
            return self.fault(self.at - 1, format!("{what} is 1 to {most}, not {size}"));
        }
        Ok(size.into())
    }

    fn end(&self, what: &str) -> Result<(), Fault> {
        let left = self.part.bytes.len() - self.at;
        if left > 0 {
            return self.fault(self.at, format!("{what} ends before this byte; bytes left over: {left}"));
        }
        Ok(())
    }

    fn table(&mut self) -> Result<Table, Fault> {
        let place = self.place(0);
        self.mark(TABLE, "the table head")?;
        let vertex_labels = self.size("the number of vertex labels", VERTEX_LABELS_MOST, "the table head")?;
        let edge_labels = self.size("the number of edge labels", EDGE_LABELS_MOST, "the table head")?;
        let vertex = self.rows("vertex", VERTEX_ROW, vertex_labels)?;
        let edge = self.rows("edge", EDGE_ROW, edge_labels)?;
        self.end("the table")?;
        Ok(Table { vertex, edge, place })
    }

    fn rows(&mut self, kind: &str, mark: [u8; 2], labels: usize) -> Result<Weights, Fault> {
        let mut weights = Weights { rows: Vec::new(), places: Vec::new(), names: Vec::new() };
        for row in 0..labels {
            let what = format!("{kind} row {row}");
            self.mark(mark, &what)?;
            let at = self.at;
            let row: Result<Vec<i32>, Fault> = (0..labels).map(|_| self.take(&what).map(i32::from_le_bytes)).collect();
            weights.rows.push(row?);
            weights.places.push((0..labels).map(|column| self.place(at + 4 * column)).collect());
        }
        Ok(weights)
    }

    fn tree(&mut self, side: &str) -> Result<Tree, Fault> {
        let place = self.place(0);
        let head = format!("the head of the {side} tree");
        self.mark(TREE, &head)?;
        let size = self.size("the number of vertices", VERTICES_MOST, &head)?;
        let (vertices, serials) = self.vertices(side, size)?;
        let edges = (1..size).map(|at| self.edge(&format!("{side} edge {}", at - 1))).collect::<Result<_, _>>()?;
        self.end(&format!("the {side} tree"))?;
        Ok(Tree { vertices, edges, serials, place })
    }

    /// The vertex records, and their serials if they are of the kind that has them. The first says which kind it is.
    fn vertices(&mut self, side: &str, size: usize) -> Result<(Vec<Vertex>, Option<Vec<Serial>>), Fault> {
        let (mut vertices, mut serials) = (Vec::new(), Vec::new());
        let mut kinds = VERTICES.to_vec();
        for at in 0..size {
            let (what, place) = (format!("{side} vertex {at}"), self.place(self.at));
            kinds = vec![self.one_of(&kinds, &what)?];
            let [label] = self.take(&what)?;
            vertices.push(Vertex { label, name: None, place });
            if kinds == [VERTEX_WITH_SERIAL] {
                let place = self.place(self.at);
                serials.push(Serial { number: u32::from_le_bytes(self.take(&what)?), place });
            }
        }
        Ok((vertices, Some(serials).filter(|serials| !serials.is_empty())))
    }

    fn edge(&mut self, what: &str) -> Result<Edge, Fault> {
        let place = self.place(self.at);
        self.mark(EDGE, what)?;
        let [a, b, label] = self.take(what)?;
        Ok(Edge { ends: [a, b], label, text: edge_text(a, b, label), place })
    }
}

/// An edge as the text form has it.
pub fn edge_text(a: u8, b: u8, label: u8) -> String {
    match label {
        0 => format!("{a}-{b}"),
        _ if DIRECTED.contains(&label.into()) => format!("{a}>{b}:{label}"),
        _ => format!("{a}-{b}:{label}"),
    }
}
