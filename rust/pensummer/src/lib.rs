//! Pensummer for Rust: a heaviest common subtree isomorphism of two labelled trees under a weight table, in one call or
//! as a job in slices; writing a certificate of optimality, and checking one; how much memory to lend for it.
//!
//! Everything is done by the proved archive `libpensummer.a`; this crate declares its functions ([`ffi`]) and wraps
//! them safely. It lends the caller's buffers and allocates nothing. The bytes of a table, a tree and a certificate,
//! and what each refusal means, are in `docs/FORMAT.md`; what each call promises is in `include/pensummer.h`.
//!
//! ```ignore
//! // always enough; `sizes` says how much two trees take
//! let (mut work, mut mapping) = ([0; pensummer::WORK_MOST], [0; pensummer::VERTICES_MOST]);
//! match pensummer::match_trees(Inputs { table, recorded, found }, &mut work, &mut mapping) {
//!     Ok(weight) => ..,             // partners are in mapping, NONE where there is none
//!     Err(refusal) => ..,           // refusal.number(), refusal.sentence()
//! }
//! ```
#![no_std]
#![warn(missing_docs)]

pub mod ffi;
mod refusal;

pub use ffi::Job;
pub use refusal::Refusal;

/// A tree has no more vertices, so that no mapping is longer.
pub const VERTICES_MOST: usize = 64;
/// A vertex has no more neighbours.
pub const DEGREE_MOST: usize = 8;
/// A table has no more vertex labels.
pub const VERTEX_LABELS_MOST: usize = 32;
/// A table has no more edge labels.
pub const EDGE_LABELS_MOST: usize = 8;
/// An edge with this label or a greater one is directed: it runs from the end written first, upstream, to the other,
/// and pairs only with a directed edge, upstream end with upstream end.
pub const DIRECTED_FROM: usize = 4;
/// A weight is no greater, and no less than the negative of this, unless it is [`FORBIDDEN`].
pub const WEIGHT_MOST: i32 = 16_000_000;
/// No value is greater and no mapping is heavier: the greatest weight for every vertex and edge of a tree.
pub const VALUE_MOST: i32 = (2 * VERTICES_MOST as i32 - 1) * WEIGHT_MOST;
/// The weight of a pair that no mapping may have.
pub const FORBIDDEN: i32 = i32::MIN;
/// The partner of a vertex without one.
pub const NONE: u8 = 255;
/// A table is never longer, in bytes.
pub const TABLE_MOST: usize = 4 + rows(VERTEX_LABELS_MOST) + rows(EDGE_LABELS_MOST);
/// A tree is never longer, in bytes: 12n - 2 with serials, 8n - 2 without.
pub const TREE_MOST: usize = 12 * VERTICES_MOST - 2;
/// There are never more subproblems, and so never more work numbers to lend.
pub const WORK_MOST: usize = VERTICES_MOST * (3 * VERTICES_MOST - 2);
/// A certificate is never longer, in bytes.
pub const CERTIFICATE_MOST: usize = 278_736;

/// The bytes of the rows of a table with this many labels.
const fn rows(labels: usize) -> usize {
    labels * (2 + 4 * labels)
}

/// What every call reads: the bytes of a weight table, of the tree recorded at commissioning, and of the tree found.
#[derive(Clone, Copy, Debug, PartialEq, Eq)]
pub struct Inputs<'a> {
    /// The weight table.
    pub table: &'a [u8],
    /// The recorded tree, of n vertices.
    pub recorded: &'a [u8],
    /// The found tree, of m vertices.
    pub found: &'a [u8],
}

/// How much to lend for a table and two trees: see [`sizes`].
#[derive(Clone, Copy, Debug, PartialEq, Eq)]
pub struct Sizes {
    /// What the counts of an undisturbed job's advances add up to when nothing is left to solve.
    pub subproblems: u32,
    /// The work numbers wanted: with so many no call is refused by item 13, with fewer each is that tests it.
    pub work: usize,
    /// The length of a certificate in bytes: what a writing wants and gives back, and the only one that a check takes.
    pub certificate: usize,
}

/// The result of a call that was carried out, else its refusal.
fn result<T>(refusal: u32, value: T) -> Result<T, Refusal> {
    match Refusal::of(refusal) {
        None => Ok(value),
        Some(refusal) => Err(refusal),
    }
}

/// A call of the archive: first what stands before the inputs, then each input as a pointer and a length, then the
/// rest.
macro_rules! lend {
    ($function:ident, [$($before:expr),*], $i:ident, [$($rest:expr),*]) => {
        // SAFETY: each pointer is that of a slice or a reference, with the slice's length, and what is written is
        // borrowed mutably
        unsafe {
            ffi::$function(
                $($before,)*
                $i.table.as_ptr(), $i.table.len(), $i.recorded.as_ptr(), $i.recorded.len(), $i.found.as_ptr(), $i.found.len(),
                $($rest),*
            )
        }
    };
}

/// How much to lend for this table and these trees, so that memory can be set aside first. Tests the items 1 to 12,
/// 25 and 26. Solves nothing. A mapping takes n bytes.
pub fn sizes(i: Inputs) -> Result<Sizes, Refusal> {
    let r = lend!(pensummer_sizes, [], i, []);
    result(r.refusal, Sizes { subproblems: r.subproblems, work: r.work as usize, certificate: r.certificate as usize })
}

/// The match in one call: a heaviest mapping in the first n bytes of `mapping`, and its weight. Tests the items 1 to 13,
/// 18, 25 and 26. The first n(3m - 2) work numbers are left with the values of all subproblems; a refused call changes
/// nothing.
pub fn match_trees(i: Inputs, work: &mut [i32], mapping: &mut [u8]) -> Result<i32, Refusal> {
    let r = lend!(pensummer_match, [], i, [work.as_mut_ptr(), work.len(), mapping.as_mut_ptr(), mapping.len()]);
    result(r.refusal, r.weight)
}

impl Job {
    /// A record of no job: 1 in `idle`, 0 in the others.
    pub fn fresh() -> Job {
        unsafe { ffi::pensummer_fresh() }
    }

    /// Begins a job, also over an earlier one. Tests the items 1 to 13, 25 and 26. Changes no work number.
    pub fn start(&mut self, i: Inputs, work: &[i32]) -> Result<(), Refusal> {
        let refusal = lend!(pensummer_start, [self], i, [work.as_ptr(), work.len()]);
        result(refusal, ())
    }

    /// Solves the smaller of `budget` and what is left, and gives that count: so many work numbers are filled, from the
    /// position on. Tests the items 1 to 16, 25 and 26.
    pub fn advance(&mut self, i: Inputs, budget: u32, work: &mut [i32]) -> Result<u32, Refusal> {
        let r = lend!(pensummer_advance, [self], i, [budget, work.as_mut_ptr(), work.len()]);
        result(r.refusal, r.count)
    }

    /// Reads the mapping of a job whose subproblems are all solved into the first n bytes of `mapping`, and gives its
    /// exact weight. Over memory that only this job's calls have changed it is a heaviest one. Tests the items 1 to 18,
    /// 25 and 26.
    pub fn finish(&self, i: Inputs, work: &[i32], mapping: &mut [u8]) -> Result<i32, Refusal> {
        let r = lend!(pensummer_finish, [self], i, [work.as_ptr(), work.len(), mapping.as_mut_ptr(), mapping.len()]);
        result(r.refusal, r.weight)
    }
}

/// Writes a certificate into the front of `certificate`, and gives its length. Tests the items 1 to 13, 19, 25 and
/// 26. The first n(3m - 2) work numbers are left with the values of all subproblems.
pub fn write_certificate(i: Inputs, work: &mut [i32], certificate: &mut [u8]) -> Result<usize, Refusal> {
    let r = lend!(pensummer_write, [], i, [work.as_mut_ptr(), work.len(), certificate.as_mut_ptr(), certificate.len()]);
    result(r.refusal, r.length as usize)
}

/// Checks a certificate, whoever wrote it. Tests the items 1 to 12 and 20 to 26. Where it is accepted, the mapping in
/// it is a heaviest one and the weight in it is that mapping's.
pub fn check_certificate(i: Inputs, certificate: &[u8]) -> Result<(), Refusal> {
    let refusal = lend!(pensummer_check, [], i, [certificate.as_ptr(), certificate.len()]);
    result(refusal, ())
}
