//! Certificates (sheets) by the paper's words: where their parts stand, their length, and a check of items 20 to 24.

use crate::mapping;
use crate::reading::{number_at, Plant, FORBIDDEN};
use crate::values::{columns, gain, Order, Subproblem};

/// The longest certificate that there can be.
pub const LONGEST: usize = 278_736;

/// The length of the head.
pub const HEAD: usize = 8;

/// The length of a partner record.
pub const PARTNER: usize = 3;

/// A certificate's length by the paper's formula.
pub fn length(plant: &Plant) -> usize {
    let (n, m) = (plant.n(), plant.m());
    let squares: usize = plant.found.neighbours.iter().map(|of| of.len() * of.len()).sum();
    8 + 3 * n + 6 * n * (3 * m - 2) + 4 * (n - 1) * (3 * m - 2) + 4 * n * squares
}

/// A subproblem record: where it stands, and of which subproblem it is.
pub struct Record {
    pub at: usize,
    pub of: Subproblem,
    /// The children of u: one dual (bound) each.
    pub children: Vec<usize>,
    /// The neighbours of v other than s: one dual each, after those of the children.
    pub columns: Vec<usize>,
}

impl Record {
    pub fn duals(&self) -> usize {
        self.children.len() + self.columns.len()
    }

    /// The record's length: the mark, the value and the duals.
    pub fn length(&self) -> usize {
        2 + 4 + 4 * self.duals()
    }

    pub fn value_at(&self) -> usize {
        self.at + 2
    }

    pub fn dual_at(&self, dual: usize) -> usize {
        self.at + 6 + 4 * dual
    }
}

/// The subproblem records of a plant's certificates.
pub fn records(plant: &Plant, order: &Order) -> Vec<Record> {
    let mut at = HEAD + PARTNER * plant.n();
    let mut records = Vec::new();
    for &of in &order.subproblems {
        let record = Record { at, of, children: order.children[of.u].clone(), columns: columns(plant, of) };
        at += record.length();
        records.push(record);
    }
    assert_eq!(at, length(plant));
    records
}

/// The bytes of a certificate for m found vertices: the weight, the partners, and the subproblem records, each its value and its duals.
pub fn bytes(m: u8, weight: i32, partners: &[u8], records: &[(i32, &[i32])]) -> Vec<u8> {
    let mut bytes = vec![0xC1, 0x01, partners.len() as u8, m];
    bytes.extend(weight.to_le_bytes());
    bytes.extend(partners.iter().flat_map(|&partner| [0xC1, 0x02, partner]));
    for &(value, duals) in records {
        bytes.extend([0xC1, 0x03]);
        [&[value], duals].concat().iter().for_each(|number| bytes.extend(number.to_le_bytes()));
    }
    bytes
}

/// Puts a number into a certificate.
pub fn put(certificate: &mut [u8], at: usize, number: i32) {
    certificate[at..at + 4].copy_from_slice(&number.to_le_bytes());
}

/// Puts these partner bytes into a certificate.
pub fn put_partners(certificate: &mut [u8], partners: &[u8]) {
    partners.iter().enumerate().for_each(|(u, &partner)| certificate[HEAD + PARTNER * u + 2] = partner);
}

/// A certificate's n partner bytes.
pub fn partners(plant: &Plant, certificate: &[u8]) -> Vec<u8> {
    (0..plant.n()).map(|u| certificate[HEAD + PARTNER * u + 2]).collect()
}

/// The first of items 20 to 24 that applies, or 0.
pub fn check(plant: &Plant, order: &Order, records: &[Record], certificate: &[u8]) -> u32 {
    if certificate.len() != length(plant)
        || certificate[..2] != [0xC1, 0x01]
        || certificate[2] as usize != plant.n()
        || certificate[3] as usize != plant.m()
        || (0..plant.n()).any(|u| certificate[HEAD + PARTNER * u..][..2] != [0xC1, 0x02])
        || records.iter().any(|record| certificate[record.at..][..2] != [0xC1, 0x03])
    {
        return 20;
    }
    let partners = partners(plant, certificate);
    if !mapping::is_mapping(plant, &partners) {
        return 21;
    }
    let weight = number_at(certificate, 4);
    if mapping::weight(plant, &partners) != weight as i64 {
        return 22;
    }
    if records.iter().any(|record| !rule_holds(plant, order, records, certificate, record)) {
        return 23;
    }
    let largest = records.iter().filter(|r| r.of.s == r.of.v).map(|r| number_at(certificate, r.value_at())).max().unwrap();
    if weight != largest.max(0) {
        return 24;
    }
    0
}

/// The rule on one subproblem record.
fn rule_holds(plant: &Plant, order: &Order, records: &[Record], certificate: &[u8], record: &Record) -> bool {
    let Subproblem { u, v, .. } = record.of;
    let value = number_at(certificate, record.value_at());
    let duals: Vec<i64> = (0..record.duals()).map(|dual| number_at(certificate, record.dual_at(dual)) as i64).collect();
    let own = match plant.pair(u, v) {
        Some(own) => own,
        None => return value == FORBIDDEN && duals.iter().all(|&dual| dual == 0),
    };
    if duals.iter().any(|&dual| dual < 0) || value as i64 != own as i64 + duals.iter().sum::<i64>() {
        return false;
    }
    for (i, &child) in record.children.iter().enumerate() {
        for (j, &other) in record.columns.iter().enumerate() {
            let below = number_at(certificate, records[order.place(plant, child, other, v)].value_at());
            if let Some(gain) = gain(plant, u, v, child, other, below) {
                if duals[i] + duals[record.children.len() + j] < gain {
                    return false;
                }
            }
        }
    }
    true
}
