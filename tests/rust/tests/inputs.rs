//! Inputs that no caller should send: cut off, too long, random, damaged or faulty in several ways at once. Every call gives the number of the
//! first item that applies and leaves all that it was lent as it was.

use pensummer::{Job, TABLE_MOST, VERTICES_MOST};
use pensummer_tests::compare::{self, Lending, IDLE};
use pensummer_tests::plants::{self, small_shapes, Weights};
use pensummer_tests::random::Random;
use pensummer_tests::reading::{Inputs, Kind, Places, FORBIDDEN, WEIGHT_MOST};
use pensummer_tests::serials;
use pensummer_tests::tally::Tally;

fn part(inputs: &mut Inputs, which: usize) -> &mut Vec<u8> {
    match which {
        0 => &mut inputs.table,
        1 => &mut inputs.recorded,
        _ => &mut inputs.found,
    }
}

#[test]
fn cut_off_and_too_long() {
    let mut random = Random::of_test("cut_off_and_too_long");
    let shapes = small_shapes();
    let mut tally = Tally::new("cut off and too long");
    while tally.inputs < 40_000 {
        let inputs = plants::small_plant(&shapes, &mut random);
        let mut lending = Lending::right(&inputs, &mut random);
        for which in 0..3 {
            let bytes = part(&mut inputs.clone(), which).clone();
            let length = bytes.len();
            // a tree also at the length of the other kind, which a longer one passes on its way
            let other = Places::of(&bytes).map(|places| places.kind.other().length(places.n)).filter(|&other| other > length + 3);
            for cut in (0..length.min(120)).chain(length + 1..length + 4).chain(other) {
                let mut damaged = inputs.clone();
                let junk = random.byte();
                part(&mut damaged, which).resize(cut, junk);
                tally.add(&damaged, &lending, &mut random);
            }
        }
        // the certificate cut off or too long, for the check
        let right = lending.certificate.clone();
        for cut in (0..right.len().min(60)).chain(right.len() - right.len().min(60)..right.len() + 3) {
            lending.certificate = right.clone();
            lending.certificate.resize(cut, random.byte());
            let item = compare::check(&inputs, &lending.certificate);
            assert_eq!(item, if cut == right.len() { 0 } else { 20 });
            tally.count(&[item]);
        }
    }
    tally.report(40_000, &[1, 3, 8, 20]);
}

/// Puts random bytes for some of these, or for all.
fn randomise(bytes: &mut Vec<u8>, random: &mut Random) {
    match random.below(3) {
        // random throughout
        0 => {
            let length = random.below(70);
            *bytes = (0..length).map(|_| random.byte()).collect();
        }
        // of the right length, the marks kept at random
        1 => {
            for byte in bytes.iter_mut() {
                if random.once_in(4) {
                    *byte = random.byte();
                }
            }
        }
        // the marks and the small numbers kept
        _ => {
            for byte in bytes.iter_mut() {
                if *byte < 0xB0 && random.once_in(10) {
                    *byte = random.below(9) as u8;
                }
            }
        }
    }
}

#[test]
fn random_bytes() {
    let mut random = Random::of_test("random_bytes");
    let shapes = small_shapes();
    let mut tally = Tally::new("random bytes");
    while tally.inputs < 40_000 {
        let inputs = plants::small_plant(&shapes, &mut random);
        let right = Lending::right(&inputs, &mut random);
        for _ in 0..60 {
            let (mut damaged, mut lending) = (inputs.clone(), right.clone());
            let which = random.below(4);
            randomise(if which == 3 { &mut lending.certificate } else { part(&mut damaged, which) }, &mut random);
            if random.once_in(10) {
                lending.job = Job {
                    idle: if random.once_in(4) { *random.pick(&IDLE) } else { 0 },
                    n: random.below(7) as u32,
                    m: random.below(7) as u32,
                    position: random.below(20) as u32,
                    total: random.draw() as u32,
                };
            }
            if random.once_in(10) {
                let at = random.below(lending.work.len());
                lending.work[at] = random.number();
            }
            if damaged != inputs || lending != right {
                tally.add(&damaged, &lending, &mut random);
            }
        }
    }
    tally.report(40_000, &[1, 2, 3, 4, 5, 6, 8, 9, 10, 11, 14, 15, 16, 17, 20]);
}

/// Has two records of the same kind change places, or one stand in the other's place too; in a table two vertex rows.
fn swap_records(bytes: &mut [u8], is_table: bool, random: &mut Random) {
    let (start, size, count) = match (is_table, Places::of(bytes)) {
        (true, _) => (4, 2 + 4 * bytes[2] as usize, bytes[2] as usize),
        (false, Some(places)) if random.once_in(2) => (places.vertex(0), places.kind.record(), places.n),
        (false, Some(places)) => (places.edge(0), 5, places.n.saturating_sub(1)),
        (false, None) => return,
    };
    if count > 0 && start + size * count <= bytes.len() {
        let (a, b) = (start + size * random.below(count), start + size * random.below(count));
        if random.once_in(2) {
            bytes.copy_within(a..a + size, b);
        } else {
            (0..size).for_each(|i| bytes.swap(a + i, b + i));
        }
    }
}

#[test]
fn damaged_tables_and_trees() {
    let mut random = Random::of_test("damaged_tables_and_trees");
    let shapes = small_shapes();
    let mut tally = Tally::new("damaged tables and trees");
    while tally.inputs < 40_000 {
        let inputs = plants::small_plant(&shapes, &mut random);
        let lending = Lending::right(&inputs, &mut random);
        for _ in 0..50 {
            let mut damaged = inputs.clone();
            for _ in 0..1 + random.below(2) {
                let which = random.below(3);
                let bytes = part(&mut damaged, which);
                let at = random.below(bytes.len());
                match random.below(4) {
                    0 | 1 => bytes[at] ^= 1 << random.below(8),
                    2 => bytes[at] = random.byte(),
                    _ => swap_records(bytes, which == 0, &mut random),
                }
            }
            if damaged != inputs {
                tally.add(&damaged, &lending, &mut random);
            }
        }
    }
    tally.report(40_000, &[0, 1, 2, 3, 4, 5, 6, 8, 9, 10, 11, 16, 20, 21, 22, 23, 25, 26]);
}

/// A tree of up to 14 vertices, with hubs, and then up to three faults. It may have serials, and some of them twice.
fn faulty_tree(labels: usize, edge_labels: usize, random: &mut Random) -> Vec<u8> {
    let n = 1 + random.below(14);
    let hubs = 1 + random.below(3);
    let shape: Vec<usize> = (0..n).map(|vertex| if vertex == 0 { 0 } else { random.below(vertex.min(hubs)) }).collect();
    let mut bytes = plants::tree(&shape, labels, edge_labels, random);
    if random.once_in(2) {
        let both = serials::pair(n, n, random);
        bytes = serials::numbered(&bytes, &both[0]);
        let given = random.pick(&both);
        serials::alter(&mut bytes, given, random);
    }
    for _ in 0..random.below(4) {
        fault(&mut bytes, labels, edge_labels, random);
    }
    bytes
}

/// Puts a fault into a tree; the mark of its first vertex record stays.
fn fault(bytes: &mut [u8], labels: usize, edge_labels: usize, random: &mut Random) {
    let places = Places::of(bytes).expect("a first vertex record of either kind");
    let n = places.n;
    let vertex = random.below(n);
    if n == 1 || random.once_in(6) {
        bytes[places.label(vertex)] = (labels + random.below(2)) as u8;
        return;
    }
    let (edge, other) = (random.below(n - 1), random.below(n - 1));
    let at = places.edge(edge);
    match random.below(7) {
        0 => bytes[at + 4] = (edge_labels + random.below(2)) as u8,
        1 => bytes[at + 2 + random.below(2)] = (n + random.below(2)) as u8,
        2 => bytes[at + 3] = bytes[at + 2],
        3 => {
            // another edge once more, turned
            let (a, b) = (bytes[places.edge(other) + 2], bytes[places.edge(other) + 3]);
            bytes[at + 2] = b;
            bytes[at + 3] = a;
        }
        4 => bytes[at + 2 + random.below(2)] = vertex as u8,
        5 => bytes[at + random.below(2)] ^= 1,
        _ => bytes[at + 2] = *random.pick(&[64, 65, 127, 128, 200, 254, 255]),
    }
}

/// A table, once in six with a fault in a row.
fn faulty_table(labels: usize, edge_labels: usize, random: &mut Random) -> Vec<u8> {
    let mut table = plants::table(labels, edge_labels, Weights::any(random), Weights::any(random), random);
    if random.once_in(6) {
        let rows = [(4, labels, random.below(labels)), (4 + labels * (2 + 4 * labels), edge_labels, random.below(edge_labels))];
        let (start, count, row) = *random.pick(&rows);
        let at = start + row * (2 + 4 * count);
        match random.below(3) {
            0 => table[at + random.below(2)] ^= 1 << random.below(8),
            _ => {
                let weight: i32 = *random.pick(&[WEIGHT_MOST + 1, -WEIGHT_MOST - 1, FORBIDDEN + 1, i32::MAX]);
                let at = at + 2 + 4 * random.below(count);
                table[at..at + 4].copy_from_slice(&weight.to_le_bytes());
            }
        }
    }
    table
}

#[test]
fn several_faults_at_once() {
    let mut random = Random::of_test("several_faults_at_once");
    let mut tally = Tally::new("several faults at once");
    let right = plants::small_plant(&small_shapes(), &mut random);
    let base = Lending::right(&right, &mut random);
    while tally.inputs < 40_000 {
        let (labels, edge_labels) = (1 + random.below(3), plants::edge_label_count(&mut random));
        let table = faulty_table(labels, edge_labels, &mut random);
        let inputs =
            Inputs { table, recorded: faulty_tree(labels, edge_labels, &mut random), found: faulty_tree(labels, edge_labels, &mut random) };
        // some calls have room for any such plant, some only for the small one
        let room = if random.once_in(2) { 14 * 40 } else { base.work.len() };
        let lending = Lending {
            job: Job { n: inputs.recorded[2] as u32, m: inputs.found[2] as u32, position: random.below(3) as u32, ..base.job },
            work: (0..room).map(|_| *random.pick(&[0, 0, 0, FORBIDDEN, 7])).collect(),
            mapping_room: random.below(20),
            certificate_room: random.below(60_000),
            certificate: base.certificate.clone(),
            ..base
        };
        tally.add(&inputs, &lending, &mut random);
    }
    tally.report(40_000, &[0, 1, 2, 3, 4, 5, 6, 7, 8, 9, 10, 11, 12, 13, 16, 17, 18, 19, 20, 25, 26]);
}

#[test]
fn largest_inputs_cut_off_and_damaged() {
    let mut random = Random::of_test("largest_inputs_cut_off_and_damaged");
    let shapes = plants::large_shapes(&mut random);
    let mut tally = Tally::new("largest inputs");
    for (at, (_, shape)) in shapes.iter().enumerate() {
        let found = &random.pick(&shapes).1;
        let mut inputs = plants::weighted(shape, found, (32, 8), (Weights::Wide, Weights::Wide), &mut random);
        // the four combinations in turn
        let [recorded, found] = serials::pair(VERTICES_MOST, VERTICES_MOST, &mut random);
        let kinds = [(at % 2, &mut inputs.recorded, recorded), (at / 2 % 2, &mut inputs.found, found)].map(|(with, tree, serials)| {
            if with == 1 {
                *tree = serials::numbered(tree, &serials);
            }
            [Kind::Plain, Kind::Serial][with]
        });
        let lending = Lending::right(&inputs, &mut random);
        for which in 0..3 {
            let length = part(&mut inputs.clone(), which).len();
            assert_eq!(length, [TABLE_MOST, kinds[0].length(VERTICES_MOST), kinds[1].length(VERTICES_MOST)][which]);
            for _ in 0..200 {
                let cut = if random.once_in(8) { length + 1 + random.below(3) } else { random.below(length) };
                let mut damaged = inputs.clone();
                let junk = random.byte();
                part(&mut damaged, which).resize(cut, junk);
                tally.add(&damaged, &lending, &mut random);
            }
            for _ in 0..30 {
                let mut damaged = inputs.clone();
                let at = random.below(length);
                part(&mut damaged, which)[at] ^= 1 << random.below(8);
                tally.add(&damaged, &lending, &mut random);
            }
        }
    }
    tally.report(4_800, &[0, 1, 2, 3, 4, 6, 8, 9, 11, 20]);
}
