//! Serials (paper 02, [3]) of the vertices of trees to try: known and unknown ones, the same and different ones in two trees, and ones that
//! differ in one byte only, so that no byte can be forgotten.

use crate::random::Random;
use crate::reading::{serial_at, Inputs, Kind, Places, UNKNOWN};

/// Known serials about the ends of bytes, of signed numbers and of all 32 bits.
pub const EXTREME: [u32; 17] = [
    1,
    2,
    254,
    255,
    256,
    257,
    65_535,
    65_536,
    65_537,
    (1 << 24) - 1,
    1 << 24,
    (1 << 24) + 1,
    (1 << 31) - 1,
    1 << 31,
    (1 << 31) + 1,
    u32::MAX - 1,
    u32::MAX,
];

/// A tree in the longer form with these serials, one for each vertex; all else of it as it was, right or wrong.
pub fn numbered(tree: &[u8], serials: &[u32]) -> Vec<u8> {
    rewritten(tree, Kind::Serial, |vertex| serials[vertex].to_le_bytes().to_vec())
}

/// A tree in the shorter form, without serials.
pub fn unnumbered(tree: &[u8]) -> Vec<u8> {
    rewritten(tree, Kind::Plain, |_| Vec::new())
}

/// A tree with vertex records of this kind; `rest` gives what stands after a vertex's label.
fn rewritten(tree: &[u8], kind: Kind, rest: impl Fn(usize) -> Vec<u8>) -> Vec<u8> {
    let places = Places::of(tree).expect("a tree of one of the two kinds");
    let mut bytes = tree[..3].to_vec();
    for vertex in 0..places.n {
        bytes.extend(kind.mark());
        bytes.push(tree[places.label(vertex)]);
        bytes.extend(rest(vertex));
    }
    bytes.extend(&tree[places.edge(0)..]);
    bytes
}

/// The serials of a tree; none of a tree without.
pub fn of(tree: &[u8]) -> Option<Vec<u32>> {
    let places = Places::of(tree)?;
    (0..places.n).map(|vertex| places.serial(vertex).map(|at| serial_at(tree, at))).collect()
}

/// The serials of both trees, as far as they have any.
pub fn of_both(inputs: &Inputs) -> Vec<u32> {
    [&inputs.recorded, &inputs.found].map(|tree| of(tree).unwrap_or_default()).concat()
}

/// A plant without serials, the rest the same.
pub fn without(inputs: &Inputs) -> Inputs {
    Inputs { table: inputs.table.clone(), recorded: unnumbered(&inputs.recorded), found: unnumbered(&inputs.found) }
}

/// One that differs from this serial in one byte only.
pub fn near(serial: u32, random: &mut Random) -> u32 {
    serial ^ ((1 + random.below(255) as u32) << (8 * random.below(4)))
}

/// So many known serials, all different.
pub fn known(count: usize, random: &mut Random) -> Vec<u32> {
    let (way, base) = (random.below(4), random.draw() as u32);
    let mut serials = Vec::new();
    while serials.len() < count {
        let serial = match way {
            0 if random.once_in(2) => *random.pick(&EXTREME),
            1 => near(base, random),
            2 => 1 + random.below(count + 2) as u32,
            _ => random.draw() as u32,
        };
        if serial != UNKNOWN && !serials.contains(&serial) {
            serials.push(serial);
        }
    }
    serials
}

/// Serials for trees of n and m vertices, both from the same few; some, none or all of a tree's are unknown.
pub fn pair(n: usize, m: usize, random: &mut Random) -> [Vec<u32>; 2] {
    let mut few = known(n.max(m) + random.below(3), random);
    [n, m].map(|vertices| {
        let unknown = *random.pick(&[0, 1, 1, 2, 2, 3, 4]);
        if random.once_in(2) {
            random.shuffle(&mut few);
        }
        few[..vertices].iter().map(|&serial| if random.below(4) < unknown { UNKNOWN } else { serial }).collect()
    })
}

/// Gives both trees serials, most often, or one of them, or none; those that they had are gone.
pub fn give(inputs: &mut Inputs, random: &mut Random) {
    let [recorded, found] = pair(inputs.recorded[2].into(), inputs.found[2].into(), random);
    let with = *random.pick(&[(false, false), (false, true), (true, false), (true, true), (true, true)]);
    for (tree, with, serials) in [(&mut inputs.recorded, with.0, recorded), (&mut inputs.found, with.1, found)] {
        *tree = if with { numbered(tree, &serials) } else { unnumbered(tree) };
    }
}

/// Alters one serial of a tree, if it has any: to an unknown one, one of those given, one a byte away from one of those, or any.
pub fn alter(tree: &mut [u8], given: &[u32], random: &mut Random) {
    let places = Places::of(tree).expect("a tree of one of the two kinds");
    if let Some(at) = places.serial(random.below(places.n)) {
        let serial = match random.below(4) {
            0 => UNKNOWN,
            1 if !given.is_empty() => *random.pick(given),
            2 if !given.is_empty() => near(*random.pick(given), random),
            _ => random.draw() as u32,
        };
        tree[at..at + 4].copy_from_slice(&serial.to_le_bytes());
    }
}
