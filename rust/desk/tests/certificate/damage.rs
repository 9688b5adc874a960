//! Ways to damage a certificate. Each may find it damaged already, and then as short as can be.
#![allow(clippy::ptr_arg)] // all have the signature of those that change the length

use crate::plants::{Random, X};
use desk::certificate::{Certificate, Record};
use desk::plant::{Edge, Plant};
use pensummer::WEIGHT_MOST;

pub fn number(bytes: &[u8], at: usize) -> i32 {
    i32::from_le_bytes([bytes[at], bytes[at + 1], bytes[at + 2], bytes[at + 3]])
}

pub fn put(bytes: &mut [u8], at: usize, number: i32) {
    bytes[at..at + 4].copy_from_slice(&number.to_le_bytes());
}

fn add(bytes: &mut [u8], at: usize, by: i32) {
    let sum = number(bytes, at).wrapping_add(by);
    put(bytes, at, sum);
}

/// A certificate that the library wrote, and what damage needs to know of it.
pub struct Whole<'a> {
    pub plant: &'a Plant,
    pub certificate: &'a Certificate,
    pub bytes: &'a [u8],
}

pub type Damage = fn(&Whole, &mut Random, &mut Vec<u8>);

pub const DAMAGES: [Damage; 14] = [
    one_byte,
    one_number,
    other_weight,
    shorter,
    longer,
    marks,
    swapped,
    exchanged,
    moved,
    raised,
    one_partner,
    partners_swapped,
    mapping_weighed,
    shifted,
];

fn one_byte(_: &Whole, random: &mut Random, bytes: &mut Vec<u8>) {
    let at = random.below(bytes.len().max(1));
    let add = 1 + random.below(255) as u8;
    bytes.iter_mut().skip(at).take(1).for_each(|byte| *byte = byte.wrapping_add(add));
}

/// Where the value and the duals of a record stand.
fn numbers(record: &Record) -> Vec<usize> {
    let duals = record.children.iter().chain(&record.neighbours).map(|dual| dual.offset);
    std::iter::once(record.offset + 2).chain(duals).collect()
}

/// A number can stand there.
fn inside(bytes: &[u8], at: usize) -> bool {
    at + 4 <= bytes.len()
}

/// Adds, or puts another number in its place; nothing where the certificate is too short by now.
fn change(random: &mut Random, bytes: &mut [u8], at: usize) {
    if !inside(bytes, at) {
        return;
    }
    let other = match random.below(3) {
        0 => random.pick(&[0, 1, -1, X, X + 1, i32::MAX, WEIGHT_MOST, -WEIGHT_MOST]),
        1 => number(bytes, at).wrapping_add(random.pick(&[1, -1])),
        _ => number(bytes, at).wrapping_add(random.between(-9, 9)),
    };
    put(bytes, at, other);
}

fn any<'a>(whole: &Whole<'a>, random: &mut Random) -> &'a Record {
    &whole.certificate.records[random.below(whole.certificate.records.len())]
}

fn one_number(whole: &Whole, random: &mut Random, bytes: &mut Vec<u8>) {
    let places = numbers(any(whole, random));
    let at = random.pick(&places);
    change(random, bytes, at);
}

fn other_weight(_: &Whole, random: &mut Random, bytes: &mut Vec<u8>) {
    change(random, bytes, 4);
}

fn shorter(_: &Whole, random: &mut Random, bytes: &mut Vec<u8>) {
    let length = if random.below(2) == 0 { bytes.len().saturating_sub(1) } else { random.below(bytes.len() + 1) };
    bytes.truncate(length);
}

fn longer(_: &Whole, random: &mut Random, bytes: &mut Vec<u8>) {
    let more = 1 + random.below(9);
    bytes.extend((0..more).map(|i| [0xC1, 0x03, 0x00][i % 3]));
}

/// A mark, n or m.
fn marks(whole: &Whole, random: &mut Random, bytes: &mut Vec<u8>) {
    let partner = 8 + 3 * random.below(whole.certificate.partners.len());
    let record = any(whole, random).offset;
    let mark = random.pick(&[0, 2, partner, record]) + random.below(2);
    let other = random.pick(&[0x00, 0x01, 0x02, 0x03, 0xB1, 0xC1]);
    bytes.iter_mut().skip(mark).take(1).for_each(|byte| *byte = other);
}

/// The numbers of two records, as far as both have them.
fn swapped(whole: &Whole, random: &mut Random, bytes: &mut Vec<u8>) {
    let [a, b] = [numbers(any(whole, random)), numbers(any(whole, random))];
    let length = bytes.len();
    for (&a, &b) in a.iter().zip(&b).filter(|&(&a, &b)| a.max(b) + 4 <= length) {
        let [x, y] = [number(bytes, a), number(bytes, b)];
        put(bytes, a, y);
        put(bytes, b, x);
    }
}

/// Two records with their marks, whatever their lengths.
fn exchanged(whole: &Whole, random: &mut Random, bytes: &mut Vec<u8>) {
    let [one, two] = [numbers(any(whole, random)), numbers(any(whole, random))].map(|at| at[0] - 2..at[at.len() - 1] + 4);
    let (a, b) = if one.start < two.start { (one, two) } else { (two, one) };
    if a.end <= b.start && b.end <= bytes.len() {
        *bytes = [&bytes[..a.start], &bytes[b.clone()], &bytes[a.end..b.start], &bytes[a], &bytes[b.end..]].concat();
    }
}

/// Takes from one dual of a record what it gives to another: often from a child's to a neighbour's.
fn moved(whole: &Whole, random: &mut Random, bytes: &mut Vec<u8>) {
    let duals = numbers(any(whole, random)).split_off(1);
    if duals.len() < 2 || !inside(bytes, duals[duals.len() - 1]) {
        return;
    }
    let [a, b] = [random.pick(&duals), random.pick(&duals)];
    let few = random.between(-3, 3);
    let by = random.pick(&[number(bytes, b), few]);
    add(bytes, a, by);
    add(bytes, b, by.wrapping_neg());
}

/// A dual and the value, so that their sum stays right.
fn raised(whole: &Whole, random: &mut Random, bytes: &mut Vec<u8>) {
    let places = numbers(any(whole, random));
    if places.len() < 2 || !inside(bytes, places[places.len() - 1]) {
        return;
    }
    let by = random.between(-2, 4);
    for at in [places[0], random.pick(&places[1..])] {
        add(bytes, at, by);
    }
}

fn one_partner(whole: &Whole, random: &mut Random, bytes: &mut Vec<u8>) {
    let n = whole.certificate.partners.len();
    let at = 10 + 3 * random.below(n);
    let m = whole.plant.found.size() as u8;
    let other = random.below(m.into()) as u8;
    let partner = random.pick(&[255, 254, m, other, other]);
    bytes.iter_mut().skip(at).take(1).for_each(|byte| *byte = partner);
}

fn partners_swapped(whole: &Whole, random: &mut Random, bytes: &mut Vec<u8>) {
    let n = whole.certificate.partners.len();
    let [a, b] = [10 + 3 * random.below(n), 10 + 3 * random.below(n)];
    if a.max(b) < bytes.len() {
        bytes.swap(a, b);
    }
}

/// Another mapping, or what looks like one, with its own weight in the head.
fn mapping_weighed(whole: &Whole, random: &mut Random, bytes: &mut Vec<u8>) {
    let (n, m) = (whole.plant.recorded.size(), whole.plant.found.size());
    if bytes.len() < 8 + 3 * n {
        return;
    }
    let mut partners = if random.below(3) == 0 { vec![255; n] } else { whole.certificate.partners.clone() };
    for _ in 0..random.below(3) {
        partners[random.below(n)] = if random.below(2) == 0 { 255 } else { random.below(m) as u8 };
    }
    (0..n).for_each(|u| bytes[10 + 3 * u] = partners[u]);
    put(bytes, 4, mapping_weight(whole.plant, &partners));
}

/// The sum over vertex pairs and edge pairs; what is forbidden or not joined adds nothing.
fn mapping_weight(plant: &Plant, partners: &[u8]) -> i32 {
    let partner = |u: usize| Some(usize::from(partners[u])).filter(|&v| v < plant.found.size());
    let serial = |tree: &desk::plant::Tree, at: usize| tree.serials.as_ref().map_or(0, |serials| serials[at].number);
    let vertex = |u: usize| {
        let v = partner(u)?;
        let (a, b) = (serial(&plant.recorded, u), serial(&plant.found, v));
        let weight = plant.table.vertex.rows[plant.recorded.label(u)][plant.found.label(v)];
        Some(if a != 0 && b != 0 && a != b { X } else { weight })
    };
    let edge = |edge: &Edge| {
        let [a, b] = edge.ends.map(|end| partner(end.into()));
        let (a, b) = (a?, b?);
        let other = plant.found.edges.iter().find(|other| [[a, b], [b, a]].contains(&other.ends.map(usize::from)))?;
        let directed = [edge, other].map(|edge| edge.label > 3);
        let along = directed == [false; 2] || directed == [true; 2] && other.ends.map(usize::from) == [a, b];
        Some(if along { plant.table.edge.rows[usize::from(edge.label)][usize::from(other.label)] } else { X })
    };
    let pairs = (0..plant.recorded.size()).filter_map(vertex).chain(plant.recorded.edges.iter().filter_map(edge));
    pairs.filter(|&weight| weight != X).sum()
}

/// A byte goes to another place: the length stays.
fn shifted(_: &Whole, random: &mut Random, bytes: &mut Vec<u8>) {
    if bytes.is_empty() {
        return;
    }
    let byte = bytes.remove(random.below(bytes.len()));
    bytes.insert(random.below(bytes.len() + 1), byte);
}
