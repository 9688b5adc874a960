//! Plants for the tests of certificates, built directly: small ones of the paper, one with names, random ones; the
//! library over them.
use desk::plant::{At, Edge, Place, Plant, Serial, Table, Tree, Vertex, Weights};
use pensummer::{Inputs, Sizes, FORBIDDEN, VERTICES_MOST, WEIGHT_MOST};

pub const X: i32 = FORBIDDEN;

/// A stream of random numbers (splitmix64), the same in each run.
pub struct Random(pub u64);

impl Random {
    pub fn below(&mut self, n: usize) -> usize {
        self.0 = self.0.wrapping_add(0x9E37_79B9_7F4A_7C15);
        let z = (self.0 ^ (self.0 >> 30)).wrapping_mul(0xBF58_476D_1CE4_E5B9);
        let z = (z ^ (z >> 27)).wrapping_mul(0x94D0_49BB_1331_11EB);
        ((z ^ (z >> 31)) >> 11) as usize % n
    }

    /// From low to high, both included.
    pub fn between(&mut self, low: i32, high: i32) -> i32 {
        low + self.below((high - low + 1) as usize) as i32
    }

    pub fn pick<T: Copy>(&mut self, of: &[T]) -> T {
        of[self.below(of.len())]
    }

    pub fn shuffle<T>(&mut self, of: &mut [T]) {
        (1..of.len()).rev().for_each(|i| of.swap(i, self.below(i + 1)));
    }
}

fn nowhere() -> Place {
    Place { file: "test".into(), at: At::Byte(0) }
}

pub fn weights(rows: &[&[i32]], names: &[&str]) -> Weights {
    let rows: Vec<Vec<i32>> = rows.iter().map(|row| row.to_vec()).collect();
    let places = rows.iter().map(|row| vec![nowhere(); row.len()]).collect();
    Weights { rows, places, names: names.iter().map(|name| name.to_string()).collect() }
}

pub fn table(vertex: Weights, edge: Weights) -> Table {
    Table { vertex, edge, place: nowhere() }
}

/// A tree by its vertices' labels, its edges with their labels, and names for the first vertices.
pub fn tree(labels: &[u8], edges: &[(u8, u8, u8)], names: &[&str]) -> Tree {
    let name = |i: usize| names.get(i).map(|name| name.to_string());
    let vertices = labels.iter().enumerate().map(|(i, &label)| Vertex { label, name: name(i), place: nowhere() });
    let edges = edges.iter().map(|&(a, b, label)| Edge { ends: [a, b], label, text: String::new(), place: nowhere() });
    Tree { vertices: vertices.collect(), edges: edges.collect(), serials: None, place: nowhere() }
}

/// The tree with these serials in its vertex records.
pub fn with_serials(tree: Tree, serials: &[u32]) -> Tree {
    assert_eq!(serials.len(), tree.size());
    Tree { serials: Some(serials.iter().map(|&number| Serial { number, place: nowhere() }).collect()), ..tree }
}

/// A path by its vertices' labels; every edge has label 0.
pub fn path(labels: &[u8]) -> Tree {
    let edges: Vec<(u8, u8, u8)> = (1..labels.len() as u8).map(|v| (v - 1, v, 0)).collect();
    tree(labels, &edges, &[])
}

/// Table P of the paper's small plants.
pub fn table_p() -> Table {
    table(weights(&[&[5, -2], &[-2, 3]], &[]), weights(&[&[1]], &[]))
}

pub fn small_plant_1() -> Plant {
    Plant { table: table_p(), recorded: path(&[0]), found: path(&[0]) }
}

pub fn small_plant_8() -> Plant {
    let star = tree(&[0, 1, 2], &[(0, 1, 0), (0, 2, 0)], &[]);
    Plant { table: table(weights(&[&[5, X, X], &[X, 5, 4], &[X, 4, 0]], &[]), weights(&[&[0]], &[])), recorded: star.clone(), found: star }
}

/// Paths with names: three vertices recorded, four found; the pair of circulation and filtering is forbidden, and that
/// of pipe and cable.
pub fn named_plant() -> Plant {
    let vertex = weights(&[&[5, 1, X], &[1, 4, 1], &[1, 2, 3]], &["circulation", "heating", "filtering"]);
    let recorded = tree(&[0, 1, 2], &[(0, 1, 0), (1, 2, 0)], &["pump", "heater", "filter"]);
    let found = tree(&[0, 1, 2, 1], &[(0, 1, 0), (1, 2, 0), (2, 3, 1)], &["pump 2", "heater 2", "filter 2"]);
    Plant { table: table(vertex, weights(&[&[1, X], &[0, 0]], &["pipe", "cable"])), recorded, found }
}

fn random_weight(random: &mut Random) -> i32 {
    match random.below(10) {
        0 | 1 => FORBIDDEN,
        2 => random.pick(&[-WEIGHT_MOST, WEIGHT_MOST, WEIGHT_MOST - 1, 0]),
        _ => random.between(-5, 9),
    }
}

fn random_weights(random: &mut Random, labels: usize) -> Weights {
    let rows: Vec<Vec<i32>> = (0..labels).map(|_| (0..labels).map(|_| random_weight(random)).collect()).collect();
    weights(&rows.iter().map(Vec::as_slice).collect::<Vec<_>>(), &[])
}

/// A tree of so many vertices, numbered in any order, of degree at most `degree`.
fn random_tree(random: &mut Random, size: usize, degree: usize, labels: [usize; 2]) -> Tree {
    let mut number: Vec<u8> = (0..size as u8).collect();
    random.shuffle(&mut number);
    let mut degrees = vec![0; size];
    let mut edges = Vec::new();
    for v in 1..size {
        let free: Vec<usize> = (0..v).filter(|&u| degrees[u] < degree).collect();
        let u = random.pick(&free);
        degrees[u] += 1;
        degrees[v] += 1;
        let [a, b] = random.pick(&[[u, v], [v, u]]);
        edges.push((number[a], number[b], random.below(labels[1]) as u8));
    }
    random.shuffle(&mut edges);
    let kinds: Vec<u8> = (0..size).map(|_| random.below(labels[0]) as u8).collect();
    random_serials(random, tree(&kinds, &edges, &[]))
}

/// The tree without serials, or with some that are known; none of these stands twice, and many stand in other trees
/// too.
fn random_serials(random: &mut Random, tree: Tree) -> Tree {
    let mut numbers: Vec<u32> = (1..=tree.size() as u32).collect();
    random.shuffle(&mut numbers);
    match random.below(4) {
        0 | 1 => tree,
        2 => with_serials(tree, &numbers.iter().map(|&number| if random.below(3) == 0 { number } else { 0 }).collect::<Vec<_>>()),
        _ => with_serials(tree, &numbers.iter().map(|&number| if random.below(6) > 0 { u32::MAX - number } else { 0 }).collect::<Vec<_>>()),
    }
}

pub fn random_plant(random: &mut Random, sizes: [usize; 2]) -> Plant {
    // of eight edge labels half are of directed edges
    let labels = [1 + random.below(4), random.pick(&[1, 2, 3, 5, 8, 8])];
    let table = table(random_weights(random, labels[0]), random_weights(random, labels[1]));
    let degree = random.pick(&[2, 3, 8]);
    let [recorded, found] = sizes.map(|size| random_tree(random, size, degree, labels));
    Plant { table, recorded, found }
}

fn weight_bytes(mark: u8, weights: &Weights) -> Vec<u8> {
    let row = |row: &Vec<i32>| [0xB1, mark].into_iter().chain(row.iter().flat_map(|weight| weight.to_le_bytes())).collect::<Vec<u8>>();
    weights.rows.iter().flat_map(row).collect()
}

fn tree_bytes(tree: &Tree) -> Vec<u8> {
    let mut bytes = vec![0xB1, 0x01, tree.size() as u8];
    for (at, vertex) in tree.vertices.iter().enumerate() {
        match &tree.serials {
            Some(serials) => bytes.extend([&[0xB1, 0x07, vertex.label][..], &serials[at].number.to_le_bytes()].concat()),
            None => bytes.extend([0xB1, 0x02, vertex.label]),
        }
    }
    bytes.extend(tree.edges.iter().flat_map(|edge| [0xB1, 0x03, edge.ends[0], edge.ends[1], edge.label]));
    bytes
}

/// What the library reads of a plant.
pub struct Bytes {
    table: Vec<u8>,
    recorded: Vec<u8>,
    found: Vec<u8>,
}

impl Bytes {
    pub fn of(plant: &Plant) -> Bytes {
        let (vertex, edge) = (&plant.table.vertex, &plant.table.edge);
        let mut table = vec![0xB1, 0x04, vertex.labels() as u8, edge.labels() as u8];
        table.extend(weight_bytes(0x05, vertex));
        table.extend(weight_bytes(0x06, edge));
        Bytes { table, recorded: tree_bytes(&plant.recorded), found: tree_bytes(&plant.found) }
    }

    fn inputs(&self) -> Inputs<'_> {
        Inputs { table: &self.table, recorded: &self.recorded, found: &self.found }
    }

    /// The certificate that the library writes, and the values of all subproblems.
    pub fn written(&self) -> (Vec<u8>, Vec<i32>) {
        let sizes = self.sizes();
        let (mut work, mut certificate) = (vec![0; sizes.work], vec![0; sizes.certificate]);
        let length = pensummer::write_certificate(self.inputs(), &mut work, &mut certificate).expect("the plant is accepted");
        assert_eq!(length, certificate.len());
        (certificate, work)
    }

    /// The weight of a heaviest mapping.
    pub fn weight(&self) -> i32 {
        pensummer::match_trees(self.inputs(), &mut vec![0; self.sizes().work], &mut [0; VERTICES_MOST]).expect("the plant is accepted")
    }

    fn sizes(&self) -> Sizes {
        pensummer::sizes(self.inputs()).expect("the plant is accepted")
    }

    /// The item by which the library refuses a certificate; 0 if it accepts.
    pub fn item(&self, certificate: &[u8]) -> u32 {
        pensummer::check_certificate(self.inputs(), certificate).map_or_else(|refusal| refusal.number(), |()| 0)
    }
}
