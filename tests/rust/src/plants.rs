//! Plants to try: small ones of all shapes, large ones of several shapes, tables of weights of many kinds, trees with serials and without, with
//! directed edges and without.

use crate::directions;
use crate::random::Random;
use crate::reading::{is_directed, table_bytes, tree_bytes, Edge, Inputs, Places, DIRECTED_FROM, FORBIDDEN, WEIGHT_MOST};
use crate::serials;
use std::ops::Range;

/// A shape: for each vertex but 0 an earlier vertex that it is joined to.
pub type Shape = Vec<usize>;

/// Every shape of trees of 1 to 6 vertices, once each: there are 14.
pub fn small_shapes() -> Vec<Shape> {
    let mut shapes: Vec<Shape> = Vec::new();
    let mut forms: Vec<String> = Vec::new();
    for vertices in 1..=6usize {
        let ways: usize = (1..vertices).product();
        for mut way in 0..ways {
            let mut shape = vec![0];
            for vertex in 1..vertices {
                shape.push(way % vertex);
                way /= vertex;
            }
            let form = form(&shape);
            if !forms.contains(&form) {
                forms.push(form);
                shapes.push(shape);
            }
        }
    }
    assert_eq!(shapes.len(), 14);
    shapes
}

/// A text that two trees share exactly if they have the same shape: the greatest over all roots of nested brackets.
fn form(shape: &Shape) -> String {
    let mut neighbours = vec![Vec::new(); shape.len()];
    for vertex in 1..shape.len() {
        neighbours[vertex].push(shape[vertex]);
        neighbours[shape[vertex]].push(vertex);
    }
    fn below(neighbours: &[Vec<usize>], vertex: usize, from: usize) -> String {
        let mut parts: Vec<String> = neighbours[vertex].iter().filter(|&&w| w != from).map(|&w| below(neighbours, w, vertex)).collect();
        parts.sort();
        format!("({})", parts.concat())
    }
    (0..shape.len()).map(|root| below(&neighbours, root, root)).max().unwrap()
}

/// A tree of a shape, without serials: names, labels, the order of the edges and their first ends at random.
pub fn tree(shape: &Shape, labels: usize, edge_labels: usize, random: &mut Random) -> Vec<u8> {
    let mut names: Vec<usize> = (0..shape.len()).collect();
    random.shuffle(&mut names);
    let among = labels_of_edges(edge_labels, random);
    let mut edges: Vec<Edge> = (1..shape.len())
        .map(|vertex| {
            let (a, b) = (names[vertex], names[shape[vertex]]);
            let (a, b) = if random.once_in(2) { (a, b) } else { (b, a) };
            (a, b, among.start + random.below(among.len()))
        })
        .collect();
    random.shuffle(&mut edges);
    let labels: Vec<usize> = shape.iter().map(|_| random.below(labels)).collect();
    tree_bytes(&labels, &edges)
}

/// The labels of one tree's edges, of so many that there are: those of undirected edges, those of directed ones, if there are any, or both.
fn labels_of_edges(edge_labels: usize, random: &mut Random) -> Range<usize> {
    let undirected = edge_labels.min(DIRECTED_FROM);
    match random.below(5) {
        0 => 0..undirected,
        1 | 2 if undirected < edge_labels => undirected..edge_labels,
        _ => 0..edge_labels,
    }
}

/// Kinds of weights.
#[derive(Clone, Copy, Debug, PartialEq, Eq)]
pub enum Weights {
    Small,
    SmallForbidden,
    Wide,
    Extremes,
    Positive,
    MostlyNegative,
    Ties,
    Zero,
    One,
    Most,
    Least,
    Forbidden,
}

pub const WEIGHTS: [Weights; 12] = [
    Weights::Small,
    Weights::SmallForbidden,
    Weights::Wide,
    Weights::Extremes,
    Weights::Positive,
    Weights::MostlyNegative,
    Weights::Ties,
    Weights::Zero,
    Weights::One,
    Weights::Most,
    Weights::Least,
    Weights::Forbidden,
];

impl Weights {
    pub fn one(self, random: &mut Random) -> i32 {
        let forbidden_once_in = |n: usize, random: &mut Random| random.once_in(n);
        match self {
            Weights::Small => random.between(-4, 4) as i32,
            Weights::SmallForbidden if forbidden_once_in(5, random) => FORBIDDEN,
            Weights::SmallForbidden => random.between(-5, 9) as i32,
            Weights::Wide if forbidden_once_in(8, random) => FORBIDDEN,
            Weights::Wide => random.between((-WEIGHT_MOST).into(), WEIGHT_MOST.into()) as i32,
            Weights::Extremes => {
                *random.pick(&[-WEIGHT_MOST, 1 - WEIGHT_MOST, -1, 0, 1, WEIGHT_MOST - 1, WEIGHT_MOST, WEIGHT_MOST, FORBIDDEN])
            }
            Weights::Positive => random.between(0, 20) as i32,
            Weights::MostlyNegative if forbidden_once_in(4, random) => FORBIDDEN,
            Weights::MostlyNegative => random.between(-6, 2) as i32,
            Weights::Ties => *random.pick(&[0, 0, 1, 1, 1, -1]),
            Weights::Zero => 0,
            Weights::One => 1,
            Weights::Most => WEIGHT_MOST,
            Weights::Least => -WEIGHT_MOST,
            Weights::Forbidden => FORBIDDEN,
        }
    }

    /// A kind at random, the plain ones less often.
    pub fn any(random: &mut Random) -> Weights {
        if random.once_in(8) {
            *random.pick(&WEIGHTS)
        } else {
            *random.pick(&WEIGHTS[..7])
        }
    }

    fn rows(self, count: usize, random: &mut Random) -> Vec<Vec<i32>> {
        (0..count).map(|_| (0..count).map(|_| self.one(random)).collect()).collect()
    }
}

/// A table with these numbers of labels and kinds of weights.
pub fn table(labels: usize, edge_labels: usize, vertex: Weights, edge: Weights, random: &mut Random) -> Vec<u8> {
    table_bytes(&vertex.rows(labels, random), &edge.rows(edge_labels, random))
}

/// Numbers of labels of vertices and of edges: of vertices mostly few, sometimes the most.
fn label_counts(random: &mut Random) -> (usize, usize) {
    match random.below(40) {
        0 => (32, 8),
        1 => (1 + random.below(32), edge_label_count(random)),
        _ => (1 + random.below(4), edge_label_count(random)),
    }
}

/// A number of edge labels: one time in two so few that no edge is directed.
pub fn edge_label_count(random: &mut Random) -> usize {
    let from = if random.once_in(2) { 0 } else { DIRECTED_FROM };
    from + 1 + random.below(4)
}

/// A plant of two shapes, all else at random; both trees have serials, or one of them, or none.
pub fn plant(recorded: &Shape, found: &Shape, random: &mut Random) -> Inputs {
    let labels = label_counts(random);
    let weights = (Weights::any(random), Weights::any(random));
    let mut inputs = weighted(recorded, found, labels, weights, random);
    serials::give(&mut inputs, random);
    inputs
}

/// A plant of these shapes with so many labels of vertices and of edges, and with these kinds of weights for them; without serials.
pub fn weighted(recorded: &Shape, found: &Shape, labels: (usize, usize), weights: (Weights, Weights), random: &mut Random) -> Inputs {
    Inputs {
        table: table(labels.0, labels.1, weights.0, weights.1, random),
        recorded: tree(recorded, labels.0, labels.1, random),
        found: tree(found, labels.0, labels.1, random),
    }
}

/// A small plant at random.
pub fn small_plant(shapes: &[Shape], random: &mut Random) -> Inputs {
    let (recorded, found) = (random.pick(shapes), random.pick(shapes));
    plant(recorded, found, random)
}

/// A plant of the same trees, but weights, labels, serials or the first ends of edges anew; so its certificates are as long.
pub fn relabelled(of: &Inputs, random: &mut Random) -> Inputs {
    let (labels, edge_labels) = (of.table[2] as usize, of.table[3] as usize);
    let again = |bytes: &[u8], random: &mut Random| {
        let mut bytes = bytes.to_vec();
        let places = Places::of(&bytes).expect("an accepted tree");
        for vertex in 0..places.n {
            bytes[places.label(vertex)] = random.below(labels) as u8;
        }
        for edge in 0..places.n - 1 {
            bytes[places.edge(edge) + 4] = random.below(edge_labels) as u8;
        }
        bytes
    };
    let mut other = of.clone();
    if random.once_in(2) {
        let (vertex, edge) = (Weights::any(random), Weights::any(random));
        other.table = table(labels, edge_labels, vertex, edge, random);
    }
    if random.once_in(2) {
        other.recorded = again(&of.recorded, random);
    }
    if random.once_in(2) {
        other.found = again(&of.found, random);
    }
    if random.once_in(2) {
        serials::give(&mut other, random);
    }
    if random.once_in(2) {
        other.recorded = directions::turned(&other.recorded, |_, _| random.once_in(4));
        other.found = directions::turned(&other.found, |_, _| random.once_in(4));
    }
    other
}

/// The same tree with its vertices renumbered: their records reordered to suit, those of the edges in any order, and an undirected edge with
/// either end first.
pub fn renumbered(tree: &[u8], random: &mut Random) -> Vec<u8> {
    let places = Places::of(tree).expect("an accepted tree");
    let mut numbers: Vec<u8> = (0..tree[2]).collect();
    random.shuffle(&mut numbers);
    let (head, records) = tree[..places.edge(0)].split_at(places.vertex(0));
    let mut vertices: Vec<(u8, &[u8])> = numbers.iter().copied().zip(records.chunks(places.kind.record())).collect();
    vertices.sort_unstable();
    let number = |old: u8| numbers[old as usize];
    let mut edges: Vec<[u8; 5]> =
        tree[places.edge(0)..].chunks(5).map(|edge| [edge[0], edge[1], number(edge[2]), number(edge[3]), edge[4]]).collect();
    random.shuffle(&mut edges);
    let vertices: Vec<&[u8]> = vertices.into_iter().map(|(_, record)| record).collect();
    let bytes = [head, &vertices.concat(), &edges.concat()].concat();
    directions::turned(&bytes, |_, label| !is_directed(label) && random.once_in(2))
}

/// A shape of so many vertices at random, no vertex of degree above 8: from long ones to ones of few hubs.
pub fn middle_shape(vertices: usize, random: &mut Random) -> Shape {
    let reach = *random.pick(&[1, 2, 3, 8, 64]);
    let from_front = random.once_in(2);
    let (mut shape, mut degree) = (vec![0], vec![0; vertices]);
    while shape.len() < vertices {
        // joined to one of the first, or of the last, that still may have a neighbour
        let free: Vec<usize> = (0..shape.len()).filter(|&vertex| degree[vertex] < 8).collect();
        let at = random.below(free.len().min(reach));
        let up = if from_front { free[at] } else { free[free.len() - 1 - at] };
        degree[up] += 1;
        degree[shape.len()] += 1;
        shape.push(up);
    }
    shape
}

/// Shapes of 64 vertices, each with a name. The hubs have eight vertices of degree 8, the most that 64 vertices allow, and one of degree 7.
pub fn large_shapes(random: &mut Random) -> Vec<(&'static str, Shape)> {
    const VERTICES: usize = 64;
    let degree = |shape: &Shape, of: usize| shape.iter().skip(1).filter(|&&up| up == of).count() + usize::from(of > 0);
    let mut shapes: Vec<(&'static str, Shape)> = vec![("path", (0..VERTICES).map(|vertex| vertex.saturating_sub(1)).collect())];
    for (name, hub) in [("star of hubs", 0), ("hubs in a row", 1)] {
        let mut shape = vec![0];
        for vertex in 1..VERTICES {
            let up = match vertex {
                1..=8 if hub == 0 => 0,
                1..=8 => vertex - 1,
                _ => (0..9).find(|&h| degree(&shape, h) < 8).unwrap(),
            };
            shape.push(up);
        }
        shapes.push((name, shape));
    }
    // every second vertex of a path has a leaf
    shapes.push((
        "caterpillar",
        (0..VERTICES)
            .map(|vertex| {
                if vertex < 2 {
                    0
                } else if vertex % 2 == 0 {
                    vertex - 2
                } else {
                    vertex - 1
                }
            })
            .collect(),
    ));
    // each vertex has two below it
    shapes.push(("binary", (0..VERTICES).map(|vertex| vertex.saturating_sub(1) / 2).collect()));
    for name in ["random", "another random"] {
        let mut shape = vec![0];
        while shape.len() < VERTICES {
            let up = random.below(shape.len());
            if degree(&shape, up) < 8 {
                shape.push(up);
            }
        }
        shapes.push((name, shape));
    }
    shapes
}
