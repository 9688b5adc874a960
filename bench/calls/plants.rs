//! Plants for the benchmark: a weight table and two trees of one shape and size, with random labels, as the bytes of paper 01.

use pensummer::{VERTICES_MOST, WEIGHT_MOST};

pub const SHAPES: [&str; 4] = ["path", "random tree", "balanced hubs", "hubs in a row"];

pub struct Plant {
    pub table: Vec<u8>,
    pub recorded: Vec<u8>,
    pub found: Vec<u8>,
}

pub struct Random(pub u64);

impl Random {
    pub fn below(&mut self, n: usize) -> usize {
        self.0 ^= self.0 << 13;
        self.0 ^= self.0 >> 7;
        self.0 ^= self.0 << 17;
        (self.0 >> 11) as usize % n
    }

    /// A weight, forbidden once in `rare`.
    fn weight(&mut self, rare: usize) -> i32 {
        if self.below(rare) == 0 {
            i32::MIN
        } else {
            WEIGHT_MOST - self.below(WEIGHT_MOST as usize / 5 * 8 + 1) as i32
        }
    }
}

/// The edges of n vertices in a shape. The hub shapes have as many vertices of degree 8 as n allows (eight of 64), and one of a lower degree.
fn edges(shape: &str, n: usize, random: &mut Random) -> Vec<(usize, usize)> {
    let hubs = (n + 5) / 7;
    let mut e = Vec::new();
    let mut degree = vec![0; n];
    for v in 1..n {
        let up = match shape {
            // the hubs come first, below vertex 0 or each below the one before it; then leaves
            "balanced hubs" if v < hubs => 0,
            "hubs in a row" if v < hubs => v - 1,
            "balanced hubs" | "hubs in a row" => (0..hubs).find(|&h| degree[h] < 8).unwrap(),
            "path" => v - 1,
            _ => loop {
                let u = random.below(v);
                if degree[u] < 8 {
                    break u;
                }
            },
        };
        degree[up] += 1;
        degree[v] += 1;
        e.push((up, v));
    }
    e
}

/// A tree whose vertices are numbered at random.
fn tree(shape: &str, n: usize, labels: usize, edge_labels: usize, random: &mut Random) -> Vec<u8> {
    let mut name: Vec<usize> = (0..n).collect();
    for i in (1..n).rev() {
        name.swap(i, random.below(i + 1));
    }
    let mut b = vec![0xB1, 1, n as u8];
    for _ in 0..n {
        b.extend([0xB1, 2, random.below(labels) as u8]);
    }
    for (x, y) in edges(shape, n, random) {
        b.extend([0xB1, 3, name[x] as u8, name[y] as u8, random.below(edge_labels) as u8]);
    }
    b
}

/// A table with the weights that `weight` gives, told how rarely one is forbidden.
fn table(labels: usize, edge_labels: usize, mut weight: impl FnMut(usize) -> i32) -> Vec<u8> {
    let mut b = vec![0xB1, 4, labels as u8, edge_labels as u8];
    for (mark, count, rare) in [(5, labels, 10), (6, edge_labels, 12)] {
        for _ in 0..count {
            b.extend([0xB1, mark]);
            for _ in 0..count {
                b.extend(weight(rare).to_le_bytes());
            }
        }
    }
    b
}

/// The i-th plant of a line: K from 4 to 8, L from 1 to 3.
pub fn plant(shape: &str, n: usize, i: usize, random: &mut Random) -> Plant {
    let (k, l) = (4 + i % 5, 1 + i % 3);
    let table = table(k, l, |rare| random.weight(rare));
    Plant { table, recorded: tree(shape, n, k, l, random), found: tree(shape, n, k, l, random) }
}

/// A plant that has many heaviest mappings: few labels, and weights from -2 to 3, so that many are equal, 0 or negative. The found tree is
/// of any size and, every other time, of any shape.
pub fn tied(shape: &str, n: usize, random: &mut Random) -> Plant {
    let (k, l) = (1 + random.below(3), 1 + random.below(2));
    let table = table(k, l, |rare| if random.below(rare) == 0 { i32::MIN } else { random.below(6) as i32 - 2 });
    let other = if random.below(2) == 0 { shape } else { SHAPES[random.below(4)] };
    let m = 1 + random.below(VERTICES_MOST);
    Plant { table, recorded: tree(shape, n, k, l, random), found: tree(other, m, k, l, random) }
}

/// Two equal paths of 64 vertices, all of one label: read out to the greatest depth.
pub fn equal_paths() -> Plant {
    let mut table = vec![0xB1, 4, 1, 1];
    for mark in [5, 6] {
        table.extend([0xB1, mark]);
        table.extend(1i32.to_le_bytes());
    }
    let mut path = vec![0xB1, 1, 64];
    (0..64).for_each(|_| path.extend([0xB1, 2, 0]));
    (0..63).for_each(|v| path.extend([0xB1, 3, v, v + 1, 0]));
    Plant { table, recorded: path.clone(), found: path }
}
