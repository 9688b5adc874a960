//! Tests of the library's calls, through the crate `pensummer`. What judges them is an independent reading of paper 01 and of [1] to [3]
//! and [6] of paper 02, written from the papers' words alone: none of it comes from the definitions, the proofs or the code under test.
//!
//! The papers' words: layout = tree, device = vertex, line = edge, flow line = directed edge, kind = label, sheet = certificate, bound = dual,
//! allowance = budget.

pub mod answers;
pub mod certificate;
pub mod compare;
pub mod directions;
pub mod mapping;
pub mod plants;
pub mod random;
pub mod reading;
pub mod serials;
pub mod tally;
pub mod values;
