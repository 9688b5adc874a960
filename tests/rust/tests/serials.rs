//! Serials: which pairs they forbid, what they leave as it is, and certificates and jobs that do not heed them. The random plants of the other
//! tests have serials too.

use pensummer::{Job, Refusal};
use pensummer_tests::answers::Answers;
use pensummer_tests::certificate::{self, put, put_partners, Record};
use pensummer_tests::compare::{self, Solved};
use pensummer_tests::mapping::NONE;
use pensummer_tests::plants::{self, small_shapes};
use pensummer_tests::random::Random;
use pensummer_tests::reading::{table_bytes, tree_bytes, Inputs, Places, FORBIDDEN, ITEMS, UNKNOWN};
use pensummer_tests::serials::{self, numbered, EXTREME};

/// How often there were answers, and how often each refusal.
fn count(numbers: &mut [usize; ITEMS + 1], given: &Result<Answers, Refusal>) {
    numbers[given.as_ref().map_or_else(|refusal| refusal.number() as usize, |_| 0)] += 1;
}

#[test]
fn which_pairs() {
    let mut random = Random::of_test("which_pairs");
    let vertex = tree_bytes(&[0], &[]);
    let mut weight = |a: u32, b: u32| {
        let inputs =
            Inputs { table: table_bytes(&[vec![5]], &[vec![1]]), recorded: numbered(&vertex, &[a]), found: numbered(&vertex, &[b]) };
        match compare::match_trees(&inputs, 1, 1, &mut random).expect("a match")[0] {
            NONE => 0,
            _ => 5,
        }
    };
    for a in EXTREME {
        assert_eq!([weight(a, a), weight(a, UNKNOWN), weight(UNKNOWN, a)], [5, 5, 5], "{a}");
        for b in EXTREME.into_iter().filter(|&b| b != a) {
            assert_eq!(weight(a, b), 0, "{a} with {b}");
        }
        // no bit is forgotten
        for b in (0..u32::BITS).map(|bit| a ^ (1 << bit)).filter(|&b| b != UNKNOWN) {
            assert_eq!([weight(a, b), weight(b, a)], [0, 0], "{a} with {b}");
        }
    }
    assert_eq!(weight(UNKNOWN, UNKNOWN), 5);
}

/// A plant without serials; once in three a label or a number in an edge is wrong.
fn plain_plant(shapes: &[plants::Shape], random: &mut Random) -> Inputs {
    let mut inputs = serials::without(&plants::small_plant(shapes, random));
    if random.once_in(3) {
        let tree = if random.once_in(2) { &mut inputs.recorded } else { &mut inputs.found };
        let places = Places::of(tree).expect("an accepted tree");
        let edges = places.n - 1;
        let at = if edges == 0 || random.once_in(3) {
            places.label(random.below(places.n))
        } else {
            places.edge(random.below(edges)) + 2 + random.below(3)
        };
        tree[at] = random.below(8) as u8;
    }
    inputs
}

/// Serials that are unknown in one tree at least forbid nothing: all is as without them.
#[test]
fn unknown_ones_change_nothing() {
    let mut random = Random::of_test("unknown_ones_change_nothing");
    let shapes = small_shapes();
    let mut numbers = [0; ITEMS + 1];
    for _ in 0..3_000 {
        let plain = plain_plant(&shapes, &mut random);
        let budget = 1 + random.below(20) as u32;
        let without = Answers::of(&plain, budget);
        count(&mut numbers, &without);
        let mut forms = |tree: &[u8]| {
            let n = tree[2].into();
            [tree.to_vec(), numbered(tree, &vec![UNKNOWN; n]), numbered(tree, &serials::known(n, &mut random))]
        };
        let (recorded, found) = (forms(&plain.recorded), forms(&plain.found));
        for (a, b) in [(0, 1), (1, 0), (1, 1), (0, 2), (1, 2), (2, 0), (2, 1)] {
            let inputs = Inputs { table: plain.table.clone(), recorded: recorded[a].clone(), found: found[b].clone() };
            assert_eq!(Answers::of(&inputs, budget), without, "{inputs:?}");
        }
    }
    assert!([0, 4, 5, 6, 9, 10, 11].iter().all(|&item| numbers[item] > 0), "{numbers:?}");
    println!("plants by number {numbers:?}");
}

/// Any other known serials for the known ones, the same for the same, give the same answers.
#[test]
fn other_numbers_change_nothing() {
    let mut random = Random::of_test("other_numbers_change_nothing");
    let shapes = small_shapes();
    let mut numbers = [0; ITEMS + 1];
    for _ in 0..6_000 {
        let mut inputs = plants::small_plant(&shapes, &mut random);
        if random.once_in(3) {
            // perhaps one stands twice then
            let given = serials::of_both(&inputs);
            serials::alter(if random.once_in(2) { &mut inputs.recorded } else { &mut inputs.found }, &given, &mut random);
        }
        let given = serials::of_both(&inputs);
        let others = serials::known(given.len(), &mut random);
        let other = |&serial: &u32| match given.iter().position(|&known| known == serial) {
            Some(at) if serial != UNKNOWN => others[at],
            _ => UNKNOWN,
        };
        let renumbered = |tree: &[u8]| match serials::of(tree) {
            Some(serials) => numbered(tree, &serials.iter().map(other).collect::<Vec<u32>>()),
            None => tree.to_vec(),
        };
        let (recorded, found) = (renumbered(&inputs.recorded), renumbered(&inputs.found));
        let budget = 1 + random.below(20) as u32;
        let as_given = Answers::of(&inputs, budget);
        count(&mut numbers, &as_given);
        assert_eq!(Answers::of(&Inputs { recorded, found, ..inputs.clone() }, budget), as_given, "{inputs:?}");
    }
    assert!([0, 25, 26].iter().all(|&item| numbers[item] > 0), "{numbers:?}");
    println!("plants by number {numbers:?}");
}

/// A plant with serials, its certificate, that without serials, and the records of the pairs that serials alone forbid.
struct Forbidding {
    inputs: Inputs,
    without: Inputs,
    solved: Solved,
    certificate: Vec<u8>,
    certificate_without: Vec<u8>,
    /// Each with the weight that the table gives the pair.
    records: Vec<(Record, i32)>,
}

impl Forbidding {
    fn of(inputs: Inputs, random: &mut Random) -> Forbidding {
        let without = serials::without(&inputs);
        let (solved, plain) = (Solved::read(&inputs).expect("an accepted plant"), Solved::read(&without).expect("an accepted plant"));
        let mut written = |inputs: &Inputs| {
            let sizes = compare::sizes(inputs).expect("an accepted plant");
            compare::write(inputs, sizes.work, sizes.certificate, random).expect("a written certificate")
        };
        let (certificate, certificate_without) = (written(&inputs), written(&without));
        let records = certificate::records(&solved.plant, &solved.order)
            .into_iter()
            .filter(|record| solved.plant.serials_differ(record.of.u, record.of.v))
            .filter_map(|record| plain.plant.pair(record.of.u, record.of.v).map(|weight| (record, weight)))
            .collect();
        Forbidding { inputs, without, solved, certificate, certificate_without, records }
    }

    /// The number of the check for the certificate with one change.
    fn changed(&self, change: impl FnOnce(&mut [u8])) -> u32 {
        let mut bytes = self.certificate.clone();
        change(&mut bytes);
        compare::check(&self.inputs, &bytes)
    }

    /// Whether a certificate maps two vertices with different serials.
    fn maps_different(&self, bytes: &[u8]) -> bool {
        let partners = certificate::partners(&self.solved.plant, bytes);
        partners.iter().enumerate().any(|(u, &v)| v != NONE && self.solved.plant.serials_differ(u, v.into()))
    }
}

#[test]
fn certificates_that_do_not_heed_serials() {
    let mut random = Random::of_test("certificates_that_do_not_heed_serials");
    let shapes = small_shapes();
    let (mut same, mut mapped, mut records) = (0, 0, 0);
    while records < 20_000 {
        let plant = Forbidding::of(plants::small_plant(&shapes, &mut random), &mut random);
        let crossed = [compare::check(&plant.inputs, &plant.certificate_without), compare::check(&plant.without, &plant.certificate)];
        if plant.records.is_empty() {
            assert_eq!((crossed, &plant.certificate), ([0, 0], &plant.certificate_without), "{:?}", plant.inputs);
            same += 1;
            continue;
        }
        // one has values where the other is forbidden; its weight is its mapping's in both plants
        let different = plant.maps_different(&plant.certificate_without);
        assert_eq!(crossed, [if different { 21 } else { 23 }, 23], "{:?}", plant.inputs);
        mapped += usize::from(different);
        for (record, weight) in &plant.records {
            let Record { of, .. } = record;
            // the value that the table would give, and one that is only not forbidden
            assert_eq!(plant.changed(|bytes| put(bytes, record.value_at(), *weight)), 23, "{of:?}{:?}", plant.inputs);
            assert_eq!(plant.changed(|bytes| put(bytes, record.value_at(), FORBIDDEN + 1)), 23, "{of:?}{:?}", plant.inputs);
            if record.duals() > 0 {
                let at = record.dual_at(random.below(record.duals()));
                assert_eq!(plant.changed(|bytes| put(bytes, at, 1)), 23, "{of:?}{:?}", plant.inputs);
            }
            // the pair alone, with the table's weight
            let mut partners = vec![NONE; plant.solved.plant.n()];
            partners[of.u] = of.v as u8;
            let alone = plant.changed(|bytes| {
                put_partners(bytes, &partners);
                put(bytes, 4, *weight);
            });
            assert_eq!(alone, 21, "{of:?}{:?}", plant.inputs);
            records += 1;
        }
    }
    assert!(same > 0 && mapped > 0);
    println!("{records} records of pairs forbidden by serials; {mapped} mappings of such pairs; {same} plants without");
}

/// Plant 3 of paper 01 with recorded serials 7, 8 and found serials 9, 7, worked out by hand: only recorded 0 with found 1 is allowed.
#[test]
fn a_certificate_by_hand() {
    let plain = Inputs {
        table: table_bytes(&[vec![5, -2], vec![-2, 3]], &[vec![1]]),
        recorded: tree_bytes(&[0, 1], &[(0, 1, 0)]),
        found: tree_bytes(&[1, 0], &[(0, 1, 0)]),
    };
    let inputs = Inputs { recorded: numbered(&plain.recorded, &[7, 8]), found: numbered(&plain.found, &[9, 7]), ..plain.clone() };
    let bytes = |weight: i32, partners: [u8; 2], records: &[(i32, &[i32])]| certificate::bytes(2, weight, &partners, records);
    let check = |weight: i32, partners: [u8; 2], records: &[(i32, &[i32])]| compare::check(&inputs, &bytes(weight, partners, records));
    let no = FORBIDDEN;
    // recorded 1 below 0: with found 0, s = 0 and 1, then with found 1, s = 1 and 0; then recorded 0 in the same way
    let right: [(i32, &[i32]); 8] = [(no, &[0]), (no, &[]), (no, &[0]), (no, &[]), (no, &[0, 0]), (no, &[0]), (5, &[0, 0]), (5, &[0])];
    assert_eq!(check(5, [1, NONE], &right), 0);
    // no other one has these values
    let mut random = Random::of_test("a_certificate_by_hand");
    assert_eq!(compare::write(&inputs, 8, 94, &mut random), Ok(bytes(5, [1, NONE], &right)));
    // recorded 1 with found 0 weighs 3, as without serials, and then the pair above it 9
    let unheeding: [(i32, &[i32]); 8] = [(no, &[0]), (3, &[]), (no, &[0]), (no, &[]), (no, &[0, 0]), (no, &[0]), (9, &[4, 0]), (5, &[0])];
    assert_eq!(check(9, [1, 0], &unheeding), 21);
    assert_eq!(check(5, [1, NONE], &unheeding), 23);
    assert_eq!(check(9, [1, NONE], &unheeding), 22);
    assert_eq!(check(9, [1, 0], &right), 21);
    assert_eq!(check(3, [NONE, 0], &right), 21);
    assert_eq!(check(6, [1, NONE], &right), 22);
    assert_eq!(check(0, [NONE, NONE], &right), 24);
    // a dual of a forbidden pair; a value of one
    let with = |at: usize, record: (i32, &'static [i32])| {
        let mut records = right;
        records[at] = record;
        check(5, [1, NONE], &records)
    };
    assert_eq!([with(0, (no, &[1])), with(4, (no, &[0, 1])), with(5, (no, &[1]))], [23; 3]);
    assert_eq!([with(1, (3, &[])), with(2, (-2, &[0])), with(4, (-2, &[0, 0]))], [23; 3]);
    // without serials it is no certificate, and that without serials is none here
    assert_eq!(compare::check(&plain, &bytes(5, [1, NONE], &right)), 23);
    let without = compare::write(&plain, 8, 94, &mut random).expect("a written certificate");
    assert_eq!(compare::check(&inputs, &without), 21);
}

/// A job that was begun under some serials goes on under others only where they allow the same pairs, as far as it has come.
#[test]
fn a_job_under_other_serials() {
    let mut random = Random::of_test("a_job_under_other_serials");
    let shapes = small_shapes();
    let mut numbers = [0; ITEMS + 1];
    for _ in 0..4_000 {
        let inputs = plants::small_plant(&shapes, &mut random);
        let mut other = inputs.clone();
        if random.once_in(2) {
            other = serials::without(&inputs);
        } else {
            serials::give(&mut other, &mut random);
        }
        let (begun, after) = if random.once_in(2) { (&inputs, &other) } else { (&other, &inputs) };
        let (solved, then) = (Solved::read(begun).expect("an accepted plant"), Solved::read(after).expect("an accepted plant"));
        let mut work = solved.values.clone();
        let position = if random.once_in(2) { work.len() } else { random.below(work.len() + 1) };
        let mut job = Job { idle: 0, n: solved.plant.n() as u32, m: solved.plant.m() as u32, position: position as u32, total: 0 };
        let forbidden = |plant: &Solved| -> Vec<bool> { plant.values[..position].iter().map(|&value| value == FORBIDDEN).collect() };
        let refusal = if forbidden(&solved) == forbidden(&then) { 0 } else { 16 };
        let finished = compare::finish(&job, after, &work, solved.plant.n(), &mut random).err().unwrap_or(0);
        assert_eq!(finished, if refusal == 0 && position < work.len() { 17 } else { refusal }, "{begun:?}{after:?}");
        let advanced = compare::advance(&mut job, after, u32::MAX, &mut work, &mut random).err().unwrap_or(0);
        assert_eq!(advanced, refusal, "{begun:?}{after:?}");
        numbers[advanced as usize] += 1;
    }
    assert!(numbers[0] > 400 && numbers[16] > 400, "{numbers:?}");
    println!("advances by number {numbers:?}");
}
