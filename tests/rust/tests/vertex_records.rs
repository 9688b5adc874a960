//! The two kinds of vertex records: marks mixed or wrong in every place, lengths of the other kind, serials that stand twice, damaged serials.
//! Every call gives the same number and leaves all that it was lent as it was.

use pensummer::{Job, DEGREE_MOST, TREE_MOST, VERTICES_MOST};
use pensummer_tests::compare::{self, Lending, Solved};
use pensummer_tests::plants::{self, middle_shape, small_shapes, Weights};
use pensummer_tests::random::Random;
use pensummer_tests::reading::{table_bytes, tree_bytes, Inputs, Kind, Places, KINDS, UNKNOWN};
use pensummer_tests::serials::{self, known, numbered, EXTREME};
use pensummer_tests::tally::Tally;

/// The item on a tree's form, and that on its serials, by side: recorded, found.
const FORM: [u32; 2] = [3, 8];
const TWICE: [u32; 2] = [25, 26];

/// A path of so many vertices of this kind; serials are 1, 2 and so on.
fn path(n: usize, kind: Kind) -> Vec<u8> {
    let edges: Vec<_> = (1..n).map(|vertex| (vertex - 1, vertex, 0)).collect();
    let tree = tree_bytes(&vec![0; n], &edges);
    match kind {
        Kind::Plain => tree,
        Kind::Serial => numbered(&tree, &(1..=n as u32).collect::<Vec<u32>>()),
    }
}

/// The tree on one side, a path of two vertices on the other.
fn on_side(side: usize, tree: &[u8]) -> Inputs {
    let (mut recorded, mut found) = (path(2, Kind::Plain), path(2, Kind::Serial));
    *[&mut recorded, &mut found][side] = tree.to_vec();
    Inputs { table: table_bytes(&[vec![5]], &[vec![1]]), recorded, found }
}

/// Trees that must be refused, or accepted, on either side.
struct Trees {
    tally: Tally,
    lending: Lending,
    random: Random,
}

impl Trees {
    fn new(name: &'static str) -> Trees {
        let mut random = Random::of_test(name);
        let lending = Lending::right(&on_side(0, &path(2, Kind::Plain)), &mut random);
        Trees { tally: Tally::new(name), lending, random }
    }

    /// Every call refuses the tree for its form.
    fn refused(&mut self, tree: &[u8]) {
        for side in 0..2 {
            let inputs = on_side(side, tree);
            assert_eq!(self.tally.add(&inputs, &self.lending, &mut self.random), [FORM[side]; 7], "{inputs:?}");
        }
    }

    /// No call refuses it for what it is.
    fn accepted(&mut self, tree: &[u8]) {
        for side in 0..2 {
            let inputs = on_side(side, tree);
            let work = compare::sizes(&inputs).unwrap_or_else(|item| panic!("{item}{inputs:?}")).work;
            compare::match_trees(&inputs, work, VERTICES_MOST, &mut self.random).unwrap_or_else(|item| panic!("{item}{inputs:?}"));
        }
    }
}

/// The tree with the vertices of a set of the other kind: the whole records, or only their marks.
fn mixed(tree: &[u8], others: usize, whole: bool) -> Vec<u8> {
    let places = Places::of(tree).expect("a tree of one of the two kinds");
    let mut bytes = tree[..3].to_vec();
    for vertex in 0..places.n {
        let is_other = others >> vertex & 1 == 1;
        let kind = if is_other { places.kind.other() } else { places.kind };
        let length = if whole { kind } else { places.kind }.record();
        let mut record = tree[places.vertex(vertex)..places.vertex(vertex + 1)].to_vec();
        record[..2].copy_from_slice(&kind.mark());
        record.resize(length, 0);
        bytes.extend(record);
    }
    bytes.extend(&tree[places.edge(0)..]);
    bytes
}

#[test]
fn mixed_kinds() {
    let mut trees = Trees::new("mixed kinds");
    for (n, kind) in (1..=5).flat_map(|n| KINDS.map(|kind| (n, kind))) {
        let tree = path(n, kind);
        for others in 1usize..1 << n {
            // only the marks; then whole records, and these with the length of either kind
            trees.refused(&mixed(&tree, others, false));
            let whole = mixed(&tree, others, true);
            if others + 1 == 1 << n {
                trees.accepted(&whole);
                continue;
            }
            trees.refused(&whole);
            for length in KINDS.map(|kind| kind.length(n)) {
                let mut other = whole.clone();
                other.resize(length, 0);
                trees.refused(&other);
            }
        }
    }
    // one vertex of the most, in every place
    for (vertex, kind) in (0..VERTICES_MOST).flat_map(|vertex| KINDS.map(|kind| (vertex, kind))) {
        let mut tree = path(VERTICES_MOST, kind);
        let at = Places { n: VERTICES_MOST, kind }.vertex(vertex);
        tree[at..at + 2].copy_from_slice(&kind.other().mark());
        trees.refused(&tree);
    }
    trees.tally.report(1_000, &[3, 8]);
}

#[test]
fn lengths_of_either_kind() {
    let mut trees = Trees::new("lengths of either kind");
    for (n, kind) in (1..=VERTICES_MOST).flat_map(|n| KINDS.map(|kind| (n, kind))) {
        let tree = path(n, kind);
        assert_eq!(tree.len(), kind.length(n));
        trees.accepted(&tree);
        for length in [tree.len() - 1, tree.len() + 1, kind.other().length(n)] {
            let mut other = tree.clone();
            other.resize(length, 0);
            trees.refused(&other);
        }
        // the other kind's mark at the front, so that another length is right
        let mut other = tree.clone();
        other[3..5].copy_from_slice(&kind.other().mark());
        trees.refused(&other);
        other.resize(kind.other().length(n), 0);
        if n == 1 {
            trees.accepted(&other);
        } else {
            trees.refused(&other);
        }
        // a count for which the length would be right in the other kind: 12 * 2 - 2 = 8 * 3 - 2, and so on
        for count in (1..=VERTICES_MOST).filter(|&count| count != n && kind.other().length(count) == tree.len()) {
            let mut other = tree.clone();
            other[2] = count as u8;
            trees.refused(&other);
        }
    }
    assert_eq!(path(VERTICES_MOST, Kind::Serial).len(), TREE_MOST);
    trees.tally.report(1_000, &[3, 8]);
}

#[test]
fn every_mark() {
    let mut trees = Trees::new("every mark");
    for (n, kind) in (1..=3).flat_map(|n| KINDS.map(|kind| (n, kind))) {
        let tree = path(n, kind);
        let [high, low] = kind.mark();
        let marks = (0..=255).flat_map(|byte| [[high, byte], [byte, low], [byte, kind.other().mark()[1]]]);
        for mark in marks.filter(|&mark| mark != kind.mark()) {
            for vertex in 0..n {
                let mut other = tree.clone();
                let at = Places { n, kind }.vertex(vertex);
                other[at..at + 2].copy_from_slice(&mark);
                trees.refused(&other);
            }
        }
    }
    trees.tally.report(10_000, &[3, 8]);
}

/// Both trees with serials; a given serial in two places of some of them.
fn twice(right: &Inputs, serial: u32, places: (usize, usize), sides: [bool; 2], random: &mut Random) -> Inputs {
    let mut inputs = right.clone();
    for (tree, has) in [&mut inputs.recorded, &mut inputs.found].into_iter().zip(sides) {
        // the others are known and different, or unknown
        let mut serials: Vec<u32> = known(tree[2].into(), random);
        serials.iter_mut().filter(|other| **other == serial || random.once_in(4)).for_each(|other| *other = UNKNOWN);
        if has {
            serials[places.0] = serial;
            serials[places.1] = serial;
        }
        *tree = numbered(tree, &serials);
    }
    inputs
}

#[test]
fn twice_in_every_pair_of_places() {
    const VERTICES: usize = 6;
    let mut random = Random::of_test("twice_in_every_pair_of_places");
    let mut tally = Tally::new("serials twice");
    let pairs = (0..VERTICES).flat_map(|b| (0..b).map(move |a| (a, b)));
    for (places, serial) in pairs.flat_map(|places| EXTREME.map(|serial| (places, serial)).into_iter().chain([(places, UNKNOWN)])) {
        let shapes = [middle_shape(VERTICES, &mut random), middle_shape(VERTICES, &mut random)];
        let right = plants::weighted(&shapes[0], &shapes[1], (2, 2), (Weights::Small, Weights::Small), &mut random);
        let lending = Lending::right(&right, &mut random);
        for (sides, item) in [([true, false], TWICE[0]), ([false, true], TWICE[1]), ([true, true], TWICE[0])] {
            let inputs = twice(&right, serial, places, sides, &mut random);
            let numbers = tally.add(&inputs, &lending, &mut random);
            if serial != UNKNOWN {
                assert_eq!(numbers, [item; 7], "{inputs:?}");
            } else {
                // match, start and sizes look at no work number
                assert_eq!([numbers[0], numbers[1], numbers[6]], [0; 3], "{inputs:?}");
            }
        }
    }
    tally.report(700, &[0, 25, 26]);
}

#[test]
fn twice_among_the_most_vertices() {
    let mut random = Random::of_test("twice_among_the_most_vertices");
    let tree = path(VERTICES_MOST, Kind::Plain);
    let mut tried = 0;
    for (a, b) in (0..VERTICES_MOST).flat_map(|b| (0..b).map(move |a| (a, b))) {
        let mut serials = known(VERTICES_MOST, &mut random);
        serials[b] = serials[a];
        for (side, item) in TWICE.into_iter().enumerate() {
            assert_eq!(compare::sizes(&on_side(side, &numbered(&tree, &serials))), Err(item), "{a} and {b}: {serials:?}");
        }
        // a byte away from it, or unknown, is accepted
        for other in [serials::near(serials[a], &mut random), UNKNOWN] {
            if other == UNKNOWN || !serials.contains(&other) {
                serials[b] = other;
                let inputs = on_side(tried % 2, &numbered(&tree, &serials));
                assert!(pensummer::sizes(inputs.lent()).is_ok(), "{a} and {b}: {serials:?}");
                tried += 1;
            }
        }
    }
    assert!(tried > VERTICES_MOST * (VERTICES_MOST - 1) / 2);
    println!("{tried} trees with serials that nearly stand twice");
}

/// A serial that stands twice as often as can be, in a tree that has another fault too: a vertex of one neighbour too many.
#[test]
fn twice_behind_too_many_neighbours() {
    let mut random = Random::of_test("twice_behind_too_many_neighbours");
    let star = |leaves: usize| {
        let edges: Vec<_> = (1..=leaves).map(|leaf| (0, leaf, 0)).collect();
        numbered(&tree_bytes(&vec![0; leaves + 1], &edges), &vec![u32::MAX; leaves + 1])
    };
    let lending = Lending::right(&on_side(0, &path(2, Kind::Plain)), &mut random);
    for (leaves, items) in [(DEGREE_MOST, TWICE), (DEGREE_MOST + 1, [7, 12])] {
        for (side, item) in items.into_iter().enumerate() {
            let inputs = on_side(side, &star(leaves));
            for lending in [&lending, &Lending::wrong()] {
                assert_eq!(compare::every_call(&inputs, lending, &mut random), [item; 7], "{inputs:?}");
            }
        }
    }
}

/// Damages some bytes of serials: a bit, a byte, a whole serial that another vertex of either tree has, or an unknown one.
fn damage_serials(inputs: &mut Inputs, random: &mut Random) {
    let given = serials::of_both(inputs);
    for _ in 0..1 + random.below(2) {
        let tree = if random.once_in(2) { &mut inputs.recorded } else { &mut inputs.found };
        let places = Places::of(tree).expect("an accepted tree");
        if let Some(at) = places.serial(random.below(places.n)) {
            match random.below(3) {
                0 => tree[at + random.below(4)] ^= 1 << random.below(8),
                1 => tree[at + random.below(4)] = random.byte(),
                _ => serials::alter(tree, &given, random),
            }
        }
    }
}

#[test]
fn damaged_serials() {
    let mut random = Random::of_test("damaged_serials");
    let shapes = small_shapes();
    let mut tally = Tally::new("damaged serials");
    while tally.inputs < 10_000 {
        let inputs = plants::small_plant(&shapes, &mut random);
        let solved = Solved::read(&inputs).expect("an accepted plant");
        let mut lending = Lending::right(&inputs, &mut random);
        lending.job = Job { position: solved.values.len() as u32, ..lending.job };
        for _ in 0..20 {
            let mut damaged = inputs.clone();
            damage_serials(&mut damaged, &mut random);
            if damaged != inputs {
                tally.add(&damaged, &lending, &mut random);
            }
        }
    }
    tally.report(10_000, &[0, 16, 21, 23, 25, 26]);
}
