//! How much to lend: the three numbers against a count, and what they are good for. Every call is lent exactly so much, and one less; the counts
//! of jobs in slices are added up; every refusal of inputs comes up alone and together with every other, in every call.

use pensummer_tests::certificate;
use pensummer_tests::compare::{self, every_call, Lending};
use pensummer_tests::plants::{self, small_shapes, Weights};
use pensummer_tests::random::Random;
use pensummer_tests::reading::{table_bytes, tree_bytes, Inputs, Kind, INPUT_ITEMS, KINDS, WEIGHT_MOST};
use pensummer_tests::serials;

/// Lends every call exactly what is wanted, and then one work number or one byte less.
fn exactly_and_one_less(inputs: &Inputs, random: &mut Random) {
    let sizes = compare::sizes(inputs).expect("an accepted plant");
    let slice = 1 + random.below(sizes.work);
    let (job, work) = compare::in_slices(inputs, slice, random);
    let certificate = compare::write(inputs, sizes.work, sizes.certificate, random).expect("a written certificate");
    assert_eq!(certificate.len(), sizes.certificate, "{inputs:?}");
    let exact =
        Lending { job, work, budget: 1, mapping_room: inputs.recorded[2] as usize, certificate_room: sizes.certificate, certificate };
    // match, start, advance, finish, write, check, sizes
    assert_eq!(every_call(inputs, &exact, random), [0; 7], "{inputs:?}");
    let fewer = |lending: &Lending| Lending { work: lending.work[..sizes.work - 1].to_vec(), ..lending.clone() };
    assert_eq!(every_call(inputs, &fewer(&exact), random), [13, 13, 13, 13, 13, 0, 0], "{inputs:?}");
    let mut shorter = Lending { certificate_room: sizes.certificate - 1, ..exact };
    shorter.certificate.pop();
    assert_eq!(every_call(inputs, &shorter, random), [0, 0, 0, 0, 19, 20, 0], "{inputs:?}");
    assert_eq!(every_call(inputs, &fewer(&shorter), random), [13, 13, 13, 13, 13, 20, 0], "{inputs:?}");
    let longer = [&shorter.certificate[..], &[0, 0]].concat();
    assert_eq!(compare::check(inputs, &longer), 20, "{inputs:?}");
}

/// A plant of trees of n and m vertices.
fn middle(n: usize, m: usize, random: &mut Random) -> Inputs {
    let (recorded, found) = (plants::middle_shape(n, random), plants::middle_shape(m, random));
    plants::plant(&recorded, &found, random)
}

#[test]
fn small_plants() {
    let mut random = Random::of_test("sizes of small plants");
    let shapes = small_shapes();
    for _ in 0..3_000 {
        exactly_and_one_less(&plants::small_plant(&shapes, &mut random), &mut random);
    }
}

#[test]
fn plants_of_middle_size() {
    let mut random = Random::of_test("sizes of plants of middle size");
    for _ in 0..300 {
        let (n, m) = (1 + random.below(24), 1 + random.below(24));
        exactly_and_one_less(&middle(n, m, &mut random), &mut random);
    }
}

#[test]
fn every_count_of_vertices() {
    let mut random = Random::of_test("sizes of every count of vertices");
    for n in 1..=64 {
        for m in 1..=64 {
            let sizes = compare::sizes(&middle(n, m, &mut random)).expect("an accepted plant");
            assert_eq!(sizes.work, n * (3 * m - 2));
        }
    }
}

#[test]
fn largest_plants() {
    let mut random = Random::of_test("sizes of the largest plants");
    let shapes = plants::large_shapes(&mut random);
    let mut longest = 0;
    for (_, recorded) in &shapes {
        for (name, found) in &shapes {
            let inputs = plants::plant(recorded, found, &mut random);
            let sizes = compare::sizes(&inputs).expect("an accepted plant");
            assert_eq!((sizes.subproblems, sizes.work), (12_160, 12_160));
            assert_eq!(sizes.certificate == certificate::LONGEST, name.contains("hubs"), "{name}: {sizes:?}");
            longest = longest.max(sizes.certificate);
        }
    }
    assert_eq!(longest, 278_736);
    for (_, shape) in shapes.iter().filter(|(name, _)| name.contains("hubs") || name.contains("path")) {
        exactly_and_one_less(&plants::plant(shape, shape, &mut random), &mut random);
    }
}

/// A plant with these faults, by their numbers: a part with several has the bytes of each in another place. Its trees are of these kinds;
/// with serials, all are known.
fn faulty(items: &[u32], kinds: [Kind; 2]) -> Inputs {
    let has = |item: u32| items.contains(&item);
    let mut table = table_bytes(&[vec![5, -2], vec![-2, 3]], &[vec![1]]);
    if has(1) {
        table[5] = 0x50;
    }
    if has(2) {
        table[6..10].copy_from_slice(&(WEIGHT_MOST + 1).to_le_bytes());
    }
    let recorded = faulty_tree([3, 4, 5, 6, 7, 25].map(has), kinds[0]);
    let found = faulty_tree([8, 9, 10, 11, 12, 26].map(has), kinds[1]);
    Inputs { table, recorded, found }
}

/// A tree with some of the six faults that trees can have.
fn faulty_tree([form, label, number, cycle, degree, serial]: [bool; 6], kind: Kind) -> Vec<u8> {
    // a path of three, and then a centre with leaves: each fault has edges of its own
    let leaves = if degree { 9 } else { 8 };
    let mut edges: Vec<(usize, usize, usize)> = vec![(0, 1, 0), (1, 2, 0), (2, 3, 0)];
    edges.extend((0..leaves - 1).map(|leaf| (3, 4 + leaf, 0)));
    let n = edges.len() + 1;
    if cycle {
        edges[0] = (2, 1, 0);
    }
    if number {
        edges[1] = (1, n, 0);
    }
    let mut labels = vec![0; n];
    if label {
        labels[0] = 2;
    }
    let mut bytes = tree_bytes(&labels, &edges);
    if kind == Kind::Serial {
        let mut serials: Vec<u32> = (1..=n as u32).collect();
        if serial {
            serials[4] = serials[1];
        }
        bytes = serials::numbered(&bytes, &serials);
    }
    if form {
        // the head's mark is that of a vertex with a serial
        bytes[1] = 7;
    }
    bytes
}

#[test]
fn refusals_alone_and_together() {
    let mut random = Random::of_test("refusals_alone_and_together");
    let mut tried = 0;
    for kinds in KINDS.into_iter().flat_map(|recorded| KINDS.map(|found| [recorded, found])) {
        let right = faulty(&[], kinds);
        let lendings = [Lending::right(&right, &mut random), Lending::wrong()];
        // match, start, advance, finish, write, check, sizes: what is lent counts only where the inputs are accepted
        assert_eq!(every_call(&right, &lendings[1], &mut random), [13, 13, 13, 13, 13, 20, 0]);
        let mut refused = |items: &[u32]| {
            for lending in &lendings {
                assert_eq!(every_call(&faulty(items, kinds), lending, &mut random), [items[0]; 7], "{items:?} in {kinds:?}");
                tried += 1;
            }
        };
        // a serial can stand twice only where there are serials
        let can_be = |item: u32| (item != 25 || kinds[0] == Kind::Serial) && (item != 26 || kinds[1] == Kind::Serial);
        let items: Vec<u32> = INPUT_ITEMS.into_iter().filter(|&item| can_be(item)).collect();
        for (at, &first) in items.iter().enumerate() {
            refused(&[first]);
            items[at + 1..].iter().for_each(|&second| refused(&[first, second]));
            // and all that come later
            refused(&items[at..]);
        }
    }
    println!("{tried} faulty plants, each to every call");
}

#[test]
fn the_table_decides_nothing_but_its_items() {
    let mut random = Random::of_test("sizes under any table");
    for _ in 0..500 {
        let (n, m) = (1 + random.below(30), 1 + random.below(30));
        let (recorded, found) = (plants::middle_shape(n, &mut random), plants::middle_shape(m, &mut random));
        let (recorded, found) = (plants::tree(&recorded, 1, 1, &mut random), plants::tree(&found, 1, 1, &mut random));
        let under = |table: Vec<u8>| compare::sizes(&Inputs { table, recorded: recorded.clone(), found: found.clone() });
        let forbidden = under(plants::table(1, 1, Weights::Forbidden, Weights::Forbidden, &mut random));
        assert_eq!(forbidden, under(plants::table(32, 8, Weights::Wide, Weights::Wide, &mut random)));
        assert!(forbidden.is_ok());
    }
}
