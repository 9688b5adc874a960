//! Common subtree mappings by the paper's definition, word by word: the test, the weight, and a search through all of them.

use crate::reading::{Plant, Tree};

/// No partner.
pub const NONE: u8 = 255;

/// Whether the vertices are connected within themselves; no vertex at all is.
fn connected(tree: &Tree, vertices: &[usize]) -> bool {
    let first = match vertices.first() {
        Some(&first) => first,
        None => return true,
    };
    let mut reached = vec![first];
    let mut next = 0;
    while next < reached.len() {
        for &other in vertices {
            if tree.joined[reached[next]][other].is_some() && !reached.contains(&other) {
                reached.push(other);
            }
        }
        next += 1;
    }
    reached.len() == vertices.len()
}

/// The mapped pairs, recorded vertex first.
fn pairs(mapping: &[u8]) -> Vec<(usize, usize)> {
    mapping.iter().enumerate().filter(|(_, &partner)| partner != NONE).map(|(u, &partner)| (u, partner as usize)).collect()
}

/// Whether the bytes are a common subtree mapping of the plant.
pub fn is_mapping(plant: &Plant, mapping: &[u8]) -> bool {
    if mapping.len() != plant.n() || mapping.iter().any(|&partner| partner != NONE && partner as usize >= plant.m()) {
        return false;
    }
    let pairs = pairs(mapping);
    for (i, &(u, v)) in pairs.iter().enumerate() {
        if plant.pair(u, v).is_none() {
            return false;
        }
        for &(x, y) in &pairs[..i] {
            if v == y || plant.recorded.joined[u][x].is_some() != plant.found.joined[v][y].is_some() {
                return false;
            }
            if plant.recorded.joined[u][x].is_some() && plant.edge_pair(u, x, v, y).is_none() {
                return false;
            }
        }
    }
    let (recorded, found): (Vec<usize>, Vec<usize>) = pairs.into_iter().unzip();
    connected(&plant.recorded, &recorded) && connected(&plant.found, &found)
}

/// The weight of a mapping: the sum over its vertex pairs and edge pairs.
pub fn weight(plant: &Plant, mapping: &[u8]) -> i64 {
    let pairs = pairs(mapping);
    let mut sum = 0;
    for (i, &(u, v)) in pairs.iter().enumerate() {
        sum += plant.pair(u, v).unwrap() as i64;
        for &(x, y) in &pairs[..i] {
            if plant.recorded.joined[u][x].is_some() {
                sum += plant.edge_pair(u, x, v, y).unwrap() as i64;
            }
        }
    }
    sum
}

/// The weight of a heaviest mapping, by going through all of them, and how many there are. For small trees only.
pub fn search(plant: &Plant) -> (i64, usize) {
    let mut mapping = vec![NONE; plant.n()];
    let (mut heaviest, mut count) = (i64::MIN, 0);
    extend(plant, &mut mapping, 0, &mut heaviest, &mut count);
    (heaviest, count)
}

/// Tries every partner, and none, for the recorded vertices from `u` on. A partner is passed over only if the pair, with the pairs before it,
/// breaks a rule on pairs; then no completion is a mapping.
fn extend(plant: &Plant, mapping: &mut [u8], u: usize, heaviest: &mut i64, count: &mut usize) {
    if u == plant.n() {
        if is_mapping(plant, mapping) {
            *heaviest = (*heaviest).max(weight(plant, mapping));
            *count += 1;
        }
        return;
    }
    mapping[u] = NONE;
    extend(plant, mapping, u + 1, heaviest, count);
    for v in 0..plant.m() {
        let agrees = (0..u).filter(|&x| mapping[x] != NONE).all(|x| {
            let y = mapping[x] as usize;
            y != v && plant.recorded.joined[u][x].is_some() == plant.found.joined[v][y].is_some()
        });
        if agrees {
            mapping[u] = v as u8;
            extend(plant, mapping, u + 1, heaviest, count);
        }
    }
    mapping[u] = NONE;
}
