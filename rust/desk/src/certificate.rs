//! A certificate of optimality for people: its bytes read against an accepted plant, the first rule that it breaks, and
//! its text. The verdict on a certificate is the library's; this module says where the fault is, and why it is one.
mod printing;
mod rules;

pub use printing::show;
pub use rules::broken;

use crate::graph::Graph;
use crate::plant::Plant;
use std::iter::once;

/// A certificate read against an accepted plant. Its form is right; its mapping and its numbers may break rules.
#[derive(Clone, Debug, PartialEq, Eq)]
pub struct Certificate {
    pub weight: i32,
    /// Of each recorded vertex its partner, `pensummer::NONE` for none; it may be any byte.
    pub partners: Vec<u8>,
    /// Of each subproblem its record, in order.
    pub records: Vec<Record>,
}

/// The record of recorded u with found v, where s is v itself or the neighbour of v that is left out.
#[derive(Clone, Debug, PartialEq, Eq)]
pub struct Record {
    pub u: usize,
    pub v: usize,
    pub s: usize,
    /// Where its mark stands.
    pub offset: usize,
    /// `pensummer::FORBIDDEN` for a forbidden pair.
    pub value: i32,
    /// Of each child of u, ascending.
    pub children: Vec<Dual>,
    /// Of each neighbour of v other than s, ascending.
    pub neighbours: Vec<Dual>,
}

/// The dual of a vertex in a record.
#[derive(Clone, Copy, Debug, PartialEq, Eq)]
pub struct Dual {
    pub vertex: usize,
    /// Where its number stands.
    pub offset: usize,
    pub value: i32,
}

/// What is broken: the item's number (20 to 24), the byte offset in the certificate, and the reason in words.
#[derive(Clone, Debug, PartialEq, Eq)]
pub struct Broken {
    pub item: u32,
    pub offset: usize,
    pub reason: String,
}

/// A plant's bytes and texts begin with others.
pub fn begins(bytes: &[u8]) -> bool {
    bytes.starts_with(&HEAD_MARK)
}

const HEAD_MARK: [u8; 2] = [0xC1, 0x01];
const PARTNER_MARK: [u8; 2] = [0xC1, 0x02];
const RECORD_MARK: [u8; 2] = [0xC1, 0x03];
/// Where the weight stands.
const WEIGHT_AT: usize = 4;
/// The length of the head.
const HEAD: usize = 8;
/// The length of a partner's record: its mark and the partner.
const PARTNER: usize = 3;

/// Reads the bytes; Err is item 20 with the first byte that is wrong: length, a mark, n or m.
pub fn read(plant: &Plant, bytes: &[u8]) -> Result<Certificate, Broken> {
    let mut records = blank_records(plant);
    let length = records.last().map_or(0, Record::end);
    let mut reader = Reader { bytes, at: 0, length };
    let weight = reader.head(plant)?;
    let partners = (0..plant.recorded.size()).map(|u| reader.partner(plant, u)).collect::<Result<_, _>>()?;
    records.iter_mut().try_for_each(|record| reader.record(plant, record))?;
    reader.end()?;
    Ok(Certificate { weight, partners, records })
}

/// The records of a plant's certificates, in order, with 0 for every number.
fn blank_records(plant: &Plant) -> Vec<Record> {
    let (rooted, found) = (Graph::of(&plant.recorded).rooted(0), Graph::of(&plant.found));
    let mut records = Vec::new();
    let mut offset = HEAD + PARTNER * plant.recorded.size();
    for u in rooted.postorder() {
        let children: Vec<usize> = rooted.children(u).collect();
        for (v, s) in choices(&found) {
            let record = blank_record([u, v, s], offset, &children, found.neighbours(v).filter(|&w| w != s));
            offset = record.end();
            records.push(record);
        }
    }
    records
}

/// Each found v with each s, in order: v itself, then its neighbours.
fn choices(found: &Graph) -> impl Iterator<Item = (usize, usize)> + '_ {
    (0..found.size()).flat_map(move |v| once(v).chain(found.neighbours(v)).map(move |s| (v, s)))
}

/// A record that begins at `offset`; `others` are the neighbours of v other than s.
fn blank_record([u, v, s]: [usize; 3], offset: usize, children: &[usize], others: impl Iterator<Item = usize>) -> Record {
    let first = offset + RECORD_MARK.len() + 4;
    let dual = |at: usize, (i, vertex): (usize, usize)| Dual { vertex, offset: at + 4 * i, value: 0 };
    let children: Vec<Dual> = children.iter().copied().enumerate().map(|child| dual(first, child)).collect();
    let next = first + 4 * children.len();
    let neighbours = others.enumerate().map(|other| dual(next, other)).collect();
    Record { u, v, s, offset, value: 0, children, neighbours }
}

impl Record {
    /// Where its value stands.
    fn value_at(&self) -> usize {
        self.offset + RECORD_MARK.len()
    }

    /// Where the next record begins.
    fn end(&self) -> usize {
        self.value_at() + 4 + 4 * (self.children.len() + self.neighbours.len())
    }

    /// Its duals: first those of u's children.
    fn duals(&self) -> impl Iterator<Item = &Dual> {
        self.children.iter().chain(&self.neighbours)
    }

    /// Its subproblem within a sentence; ends with a comma if it names s.
    fn called(&self, plant: &Plant) -> String {
        let pair = format!("recorded {} with found {}", plant.recorded.called(self.u), plant.found.called(self.v));
        if self.s == self.v {
            pair
        } else {
            format!("{pair}, without found {},", plant.found.called(self.s))
        }
    }
}

/// Goes through the bytes from the front and stops at the first that is wrong.
struct Reader<'a> {
    bytes: &'a [u8],
    at: usize,
    /// How long the certificate must be.
    length: usize,
}

impl Reader<'_> {
    /// The head: gives the weight.
    fn head(&mut self, plant: &Plant) -> Result<i32, Broken> {
        self.mark(HEAD_MARK, || "the head".into())?;
        self.size("recorded", plant.recorded.size())?;
        self.size("found", plant.found.size())?;
        self.number()
    }

    fn partner(&mut self, plant: &Plant, u: usize) -> Result<u8, Broken> {
        self.mark(PARTNER_MARK, || format!("the partner of recorded {}", plant.recorded.called(u)))?;
        self.byte()
    }

    /// Fills in the numbers of a record.
    fn record(&mut self, plant: &Plant, record: &mut Record) -> Result<(), Broken> {
        self.mark(RECORD_MARK, || format!("the record of {}", record.called(plant)))?;
        record.value = self.number()?;
        for dual in record.children.iter_mut().chain(&mut record.neighbours) {
            dual.value = self.number()?;
        }
        Ok(())
    }

    fn end(&self) -> Result<(), Broken> {
        if self.at == self.bytes.len() {
            return Ok(());
        }
        Err(Broken { item: 20, offset: self.at, reason: self.wrong_length() })
    }

    fn byte(&mut self) -> Result<u8, Broken> {
        let byte = self.bytes.get(self.at).copied();
        self.at += 1;
        byte.ok_or_else(|| Broken { item: 20, offset: self.bytes.len(), reason: self.wrong_length() })
    }

    fn number(&mut self) -> Result<i32, Broken> {
        Ok(i32::from_le_bytes([self.byte()?, self.byte()?, self.byte()?, self.byte()?]))
    }

    fn mark(&mut self, mark: [u8; 2], of: impl Fn() -> String) -> Result<(), Broken> {
        for due in mark {
            let byte = self.byte()?;
            if byte != due {
                let [a, b] = mark;
                return Err(self.wrong(format!("the byte is {byte:02X}, where the mark {a:02X} {b:02X} of {} has {due:02X}", of())));
            }
        }
        Ok(())
    }

    /// n or m.
    fn size(&mut self, tree: &str, size: usize) -> Result<(), Broken> {
        let said = self.byte()?;
        if usize::from(said) == size {
            return Ok(());
        }
        Err(self.wrong(format!("the certificate says that the {tree} tree has {said} vertices; it has {size}")))
    }

    /// The byte just read is wrong. Often a wrong length comes with it, so that is said too.
    fn wrong(&self, what: String) -> Broken {
        let also = if self.bytes.len() == self.length { String::new() } else { format!("; also, {}", self.wrong_length()) };
        Broken { item: 20, offset: self.at - 1, reason: what + &also }
    }

    fn wrong_length(&self) -> String {
        format!("the certificate has {} bytes; that of these two trees has {}", self.bytes.len(), self.length)
    }
}

/// The weight of recorded u with found v; none if forbidden.
fn vertex_pair(plant: &Plant, u: usize, v: usize) -> Option<i32> {
    allowed(plant.pair_weight(u, v))
}

/// A weight or a value unless it is the forbidden number.
fn allowed(number: i32) -> Option<i32> {
    Some(number).filter(|&number| number != pensummer::FORBIDDEN)
}

/// A weight or a value for people.
fn number_called(number: Option<i32>) -> String {
    number.map_or_else(|| "forbidden".into(), |number| number.to_string())
}
