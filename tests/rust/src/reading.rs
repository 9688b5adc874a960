//! The bytes of a table and a tree (layout), read by the papers' words: items 1 to 12, 25 and 26.

/// A weight that is not forbidden lies between the opposite of this and this, by paper 02, [2].
pub const WEIGHT_MOST: i32 = 16_000_000;

/// The number that stands for a forbidden weight.
pub const FORBIDDEN: i32 = -2_147_483_648;

/// A tree has no more vertices.
pub const VERTICES_MOST: usize = 64;

/// The serial of a vertex whose serial is not known, by paper 02, [3].
pub const UNKNOWN: u32 = 0;

/// An edge with this label or a higher one is directed, by paper 02, [6]: from the end that is written first, the upstream one, to the other.
pub const DIRECTED_FROM: usize = 4;

/// Whether edges with this label are directed.
pub fn is_directed(label: usize) -> bool {
    label >= DIRECTED_FROM
}

/// The items on inputs in the order in which every call tests them: 25 after 7, 26 after 12.
pub const INPUT_ITEMS: [u32; 14] = [1, 2, 3, 4, 5, 6, 7, 25, 8, 9, 10, 11, 12, 26];

/// How many items there are.
pub const ITEMS: usize = 26;

/// A weight; none if it is forbidden.
pub type Weight = Option<i32>;

/// What every call is lent: the bytes of the table, the recorded tree and the found tree.
#[derive(Clone, PartialEq, Eq)]
pub struct Inputs {
    pub table: Vec<u8>,
    pub recorded: Vec<u8>,
    pub found: Vec<u8>,
}

impl Inputs {
    /// As the calls take them.
    pub fn lent(&self) -> pensummer::Inputs<'_> {
        pensummer::Inputs { table: &self.table, recorded: &self.recorded, found: &self.found }
    }
}

impl std::fmt::Debug for Inputs {
    fn fmt(&self, f: &mut std::fmt::Formatter) -> std::fmt::Result {
        write!(f, "\n table    {}\n recorded {}\n found    {}", hex(&self.table), hex(&self.recorded), hex(&self.found))
    }
}

pub fn hex(bytes: &[u8]) -> String {
    let mut text = String::new();
    for byte in bytes {
        text += &format!("{byte:02X} ");
    }
    text
}

/// The weights of pairs of vertex labels (device kinds) and of edge labels (line kinds), recorded label first.
#[derive(Clone)]
pub struct Table {
    pub vertex: Vec<Vec<Weight>>,
    pub edge: Vec<Vec<Weight>>,
}

/// The two kinds of vertex records. A tree has one of them throughout.
#[derive(Clone, Copy, Debug, PartialEq, Eq)]
pub enum Kind {
    /// B1 02 and the label.
    Plain,
    /// B1 07, the label and the serial in 4 bytes, low byte first, unsigned.
    Serial,
}

pub const KINDS: [Kind; 2] = [Kind::Plain, Kind::Serial];

impl Kind {
    pub fn mark(self) -> [u8; 2] {
        match self {
            Kind::Plain => [0xB1, 0x02],
            Kind::Serial => [0xB1, 0x07],
        }
    }

    /// The length of a vertex record, its mark included.
    pub fn record(self) -> usize {
        match self {
            Kind::Plain => 3,
            Kind::Serial => 7,
        }
    }

    /// The length of a tree of n vertices, by the papers.
    pub fn length(self, n: usize) -> usize {
        match self {
            Kind::Plain => 8 * n - 2,
            Kind::Serial => 12 * n - 2,
        }
    }

    pub fn other(self) -> Kind {
        match self {
            Kind::Plain => Kind::Serial,
            Kind::Serial => Kind::Plain,
        }
    }
}

/// An edge: its two ends as they are written, and its label.
pub type Edge = (usize, usize, usize);

/// Where the records of a tree stand.
#[derive(Clone, Copy)]
pub struct Places {
    pub n: usize,
    pub kind: Kind,
}

impl Places {
    /// By the count in the tree's head and the mark of its first vertex record; none if that is of neither kind, or cut off.
    pub fn of(tree: &[u8]) -> Option<Places> {
        let kind = KINDS.into_iter().find(|kind| tree.get(3..5) == Some(&kind.mark()[..]))?;
        Some(Places { n: tree[2] as usize, kind })
    }

    pub fn vertex(self, vertex: usize) -> usize {
        3 + self.kind.record() * vertex
    }

    pub fn label(self, vertex: usize) -> usize {
        self.vertex(vertex) + 2
    }

    /// None in a tree without serials.
    pub fn serial(self, vertex: usize) -> Option<usize> {
        (self.kind == Kind::Serial).then(|| self.vertex(vertex) + 3)
    }

    pub fn edge(self, edge: usize) -> usize {
        self.vertex(self.n) + 5 * edge
    }
}

/// The edge between two vertices.
#[derive(Clone, Copy, Debug, PartialEq, Eq)]
pub struct Joined {
    pub label: usize,
    /// The end that is upstream; none if the edge is undirected.
    pub upstream: Option<usize>,
}

#[derive(Clone)]
pub struct Tree {
    pub kind: Kind,
    pub labels: Vec<usize>,
    /// For each vertex its serial; all are unknown in a tree without serials.
    pub serials: Vec<u32>,
    /// For each two vertices the edge that joins them.
    pub joined: Vec<Vec<Option<Joined>>>,
    /// The neighbours of each vertex, ascending.
    pub neighbours: Vec<Vec<usize>>,
}

impl Tree {
    pub fn vertices(&self) -> usize {
        self.labels.len()
    }

    /// The edge between two vertices that are joined.
    pub fn edge(&self, a: usize, b: usize) -> Joined {
        self.joined[a][b].expect("two vertices that are joined")
    }
}

/// An accepted table with two accepted trees.
#[derive(Clone)]
pub struct Plant {
    pub table: Table,
    pub recorded: Tree,
    pub found: Tree,
}

impl Plant {
    /// Items 1 to 7, 25, 8 to 12 and 26.
    pub fn read(inputs: &Inputs) -> Result<Plant, u32> {
        let table = read_table(&inputs.table)?;
        let recorded = read_tree(&inputs.recorded, &table, 3, 25)?;
        let found = read_tree(&inputs.found, &table, 8, 26)?;
        Ok(Plant { table, recorded, found })
    }

    /// The number n of recorded vertices.
    pub fn n(&self) -> usize {
        self.recorded.vertices()
    }

    /// The number m of found vertices.
    pub fn m(&self) -> usize {
        self.found.vertices()
    }

    /// How many subproblems there are.
    pub fn subproblems(&self) -> usize {
        self.n() * (3 * self.m() - 2)
    }

    /// The weight of recorded u with found v: forbidden if their serials are known and different, else as the table says.
    pub fn pair(&self, u: usize, v: usize) -> Weight {
        if self.serials_differ(u, v) {
            None
        } else {
            self.table.vertex[self.recorded.labels[u]][self.found.labels[v]]
        }
    }

    /// Whether the serials of recorded u and found v are known and different.
    pub fn serials_differ(&self, u: usize, v: usize) -> bool {
        let (a, b) = (self.recorded.serials[u], self.found.serials[v]);
        a != UNKNOWN && b != UNKNOWN && a != b
    }

    /// The weight of the recorded edge between u and x with the found edge between v and y, where u is paired with v and x with y; both edges
    /// are there. It is forbidden if their directions differ, else as the table says.
    pub fn edge_pair(&self, u: usize, x: usize, v: usize, y: usize) -> Weight {
        if self.directions_differ(u, x, v, y) {
            None
        } else {
            self.table.edge[self.recorded.edge(u, x).label][self.found.edge(v, y).label]
        }
    }

    /// Whether of two such edges only one is directed, or both are and an upstream end is paired with a downstream one.
    pub fn directions_differ(&self, u: usize, x: usize, v: usize, y: usize) -> bool {
        match (self.recorded.edge(u, x).upstream, self.found.edge(v, y).upstream) {
            (None, None) => false,
            (Some(recorded), Some(found)) => (recorded == u) != (found == v),
            _ => true,
        }
    }
}

/// The 4 bytes at `at`, low byte first, two's complement.
pub fn number_at(bytes: &[u8], at: usize) -> i32 {
    i32::from_le_bytes([bytes[at], bytes[at + 1], bytes[at + 2], bytes[at + 3]])
}

/// Items 1 and 2.
fn read_table(bytes: &[u8]) -> Result<Table, u32> {
    if bytes.len() < 4 || bytes[0] != 0xB1 || bytes[1] != 0x04 {
        return Err(1);
    }
    let (k, l) = (bytes[2] as usize, bytes[3] as usize);
    if !(1..=32).contains(&k) || !(1..=8).contains(&l) || bytes.len() != 4 + k * (2 + 4 * k) + l * (2 + 4 * l) {
        return Err(1);
    }
    let edge_rows = 4 + k * (2 + 4 * k);
    let vertex_row = |row: usize| 4 + row * (2 + 4 * k);
    let edge_row = |row: usize| edge_rows + row * (2 + 4 * l);
    if (0..k).any(|row| bytes[vertex_row(row)..][..2] != [0xB1, 0x05]) || (0..l).any(|row| bytes[edge_row(row)..][..2] != [0xB1, 0x06]) {
        return Err(1);
    }
    let row_of = |at: usize, count: usize| -> Vec<i32> { (0..count).map(|column| number_at(bytes, at + 2 + 4 * column)).collect() };
    let vertex: Vec<Vec<i32>> = (0..k).map(|row| row_of(vertex_row(row), k)).collect();
    let edge: Vec<Vec<i32>> = (0..l).map(|row| row_of(edge_row(row), l)).collect();
    if vertex.iter().chain(&edge).flatten().any(|&w| w != FORBIDDEN && !(-WEIGHT_MOST..=WEIGHT_MOST).contains(&w)) {
        return Err(2);
    }
    let weights = |rows: Vec<Vec<i32>>| -> Vec<Vec<Weight>> {
        rows.into_iter().map(|row| row.into_iter().map(|w| if w == FORBIDDEN { None } else { Some(w) }).collect()).collect()
    };
    Ok(Table { vertex: weights(vertex), edge: weights(edge) })
}

/// Items 3 to 7 and 25, or 8 to 12 and 26: `first` is the number of the first of the five, `twice` that of the last item.
fn read_tree(bytes: &[u8], table: &Table, first: u32, twice: u32) -> Result<Tree, u32> {
    let places = form(bytes).ok_or(first)?;
    let n = places.n;
    // labels
    let labels: Vec<usize> = (0..n).map(|vertex| bytes[places.label(vertex)] as usize).collect();
    let edges: Vec<Edge> = (0..n - 1)
        .map(|edge| places.edge(edge))
        .map(|at| (bytes[at + 2] as usize, bytes[at + 3] as usize, bytes[at + 4] as usize))
        .collect();
    if labels.iter().any(|&label| label >= table.vertex.len()) || edges.iter().any(|&(_, _, label)| label >= table.edge.len()) {
        return Err(first + 1);
    }
    // vertex numbers
    if edges.iter().any(|&(a, b, _)| a >= n || b >= n) {
        return Err(first + 2);
    }
    if has_loop(n, &edges) {
        return Err(first + 3);
    }
    // degrees
    let mut joined = vec![vec![None; n]; n];
    for &(a, b, label) in &edges {
        let edge = Joined { label, upstream: is_directed(label).then_some(a) };
        joined[a][b] = Some(edge);
        joined[b][a] = Some(edge);
    }
    let neighbours: Vec<Vec<usize>> = (0..n).map(|a| (0..n).filter(|&b| joined[a][b].is_some()).collect()).collect();
    if neighbours.iter().any(|of| of.len() > 8) {
        return Err(first + 4);
    }
    // serials
    let serials: Vec<u32> = (0..n).map(|vertex| places.serial(vertex).map_or(UNKNOWN, |at| serial_at(bytes, at))).collect();
    if (0..n).any(|vertex| serials[vertex] != UNKNOWN && serials[..vertex].contains(&serials[vertex])) {
        return Err(twice);
    }
    Ok(Tree { kind: places.kind, labels, serials, joined, neighbours })
}

/// Where the records stand, if length, marks and count are right.
fn form(bytes: &[u8]) -> Option<Places> {
    let places = Places::of(bytes)?;
    let marked = |at: usize, mark: [u8; 2]| bytes[at..at + 2] == mark;
    let right = (1..=VERTICES_MOST).contains(&places.n)
        && bytes.len() == places.kind.length(places.n)
        && marked(0, [0xB1, 0x01])
        && (0..places.n).all(|vertex| marked(places.vertex(vertex), places.kind.mark()))
        && (0..places.n - 1).all(|edge| marked(places.edge(edge), [0xB1, 0x03]));
    Some(places).filter(|_| right)
}

/// Whether an edge's two ends are the same vertex or already connected by earlier edges.
fn has_loop(n: usize, edges: &[Edge]) -> bool {
    // of each vertex the part of the tree that earlier edges connect it to
    let mut part: Vec<usize> = (0..n).collect();
    for &(a, b, _) in edges {
        if part[a] == part[b] {
            return true;
        }
        let (kept, gone) = (part[a], part[b]);
        for p in &mut part {
            if *p == gone {
                *p = kept;
            }
        }
    }
    false
}

/// The 4 bytes at `at`, low byte first, unsigned.
pub fn serial_at(bytes: &[u8], at: usize) -> u32 {
    (0..4).map(|byte| u32::from(bytes[at + byte]) << (8 * byte)).sum()
}

/// The bytes of a table.
pub fn table_bytes(vertex: &[Vec<i32>], edge: &[Vec<i32>]) -> Vec<u8> {
    let mut bytes = vec![0xB1, 0x04, vertex.len() as u8, edge.len() as u8];
    for (rows, mark) in [(vertex, 0x05), (edge, 0x06)] {
        for row in rows {
            bytes.extend([0xB1, mark]);
            for weight in row {
                bytes.extend(weight.to_le_bytes());
            }
        }
    }
    bytes
}

/// The bytes of a tree without serials: vertex labels; edges, each with its two ends in the order given, of a directed one the upstream end
/// first, and its label.
pub fn tree_bytes(labels: &[usize], edges: &[Edge]) -> Vec<u8> {
    let mut bytes = vec![0xB1, 0x01, labels.len() as u8];
    for &label in labels {
        bytes.extend([0xB1, 0x02, label as u8]);
    }
    for &(a, b, label) in edges {
        bytes.extend([0xB1, 0x03, a as u8, b as u8, label as u8]);
    }
    bytes
}
