//! An SVG picture of a heaviest mapping, for a report or a screen.
//!
//! The recorded tree stands on the left with vertex 0 outermost, the found tree on the right, hung up at the partner of
//! the uppermost vertex that has one; both have their leaves towards the middle. A circle has the vertex's number,
//! beside it stand its name, its label, and its serial if that is known. Partners have the same row and colour and are
//! joined by a line across, dashed if their labels differ; a vertex without a partner is grey and hollow. Branches of
//! the found tree stand as those of the recorded tree, so that lines across do not cross. Edges have their label if
//! there are several; where neighbours and their partners are joined by edges of two labels, both edges are marked. A
//! directed edge has a head that points downstream. What is not certain has a `?`.
//!
//! The picture is to be read on a page of paper too: large plants are drawn closer, paths straight, and branches
//! without any partner folded.
mod draw;
mod heads;
mod layout;
mod order;
mod sheet;
pub mod widths;
mod words;

use crate::answer::Answer;

/// The SVG text; `title` is the plant's file name as shown.
pub fn picture(answer: &Answer, title: &str) -> String {
    draw::svg(&sheet::Sheet::of(answer), title)
}
