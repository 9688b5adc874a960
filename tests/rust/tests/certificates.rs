//! Certificates: each written one is accepted by the check and by the independent check; of damaged and forged ones both give the same number.

use pensummer_tests::certificate::{self, put, put_partners, Record, HEAD, PARTNER};
use pensummer_tests::compare;
use pensummer_tests::mapping::{self, NONE};
use pensummer_tests::plants::{self, large_shapes, small_shapes, Shape, Weights};
use pensummer_tests::random::Random;
use pensummer_tests::reading::{number_at, table_bytes, tree_bytes, Inputs, Plant, FORBIDDEN, ITEMS, WEIGHT_MOST};
use pensummer_tests::serials;
use pensummer_tests::values::{gain, Order, VALUE_MOST};

/// Weights at their limits.
const EXTREMES: [Weights; 3] = [Weights::Most, Weights::Least, Weights::Extremes];

/// A plant with its written certificate.
struct Written {
    inputs: Inputs,
    plant: Plant,
    order: Order,
    records: Vec<Record>,
    certificate: Vec<u8>,
}

impl Written {
    fn of(inputs: Inputs, random: &mut Random) -> Written {
        let plant = Plant::read(&inputs).expect("an accepted plant");
        let order = Order::of(&plant);
        let records = certificate::records(&plant, &order);
        let sizes = compare::sizes(&inputs).expect("an accepted plant");
        let certificate = compare::write(&inputs, sizes.work, sizes.certificate, random).expect("a written certificate");
        Written { inputs, plant, order, records, certificate }
    }

    fn small(shapes: &[Shape], random: &mut Random) -> Written {
        Written::of(plants::small_plant(shapes, random), random)
    }

    /// Both checks on these bytes.
    fn check(&self, bytes: &[u8]) -> u32 {
        compare::check_gives(&self.inputs, bytes, certificate::check(&self.plant, &self.order, &self.records, bytes))
    }
}

/// How often each number was given, and how many damaged certificates there were; one that damage left as it was written does not count.
struct Tally {
    name: &'static str,
    count: usize,
    by_number: [usize; ITEMS + 1],
}

impl Tally {
    fn new(name: &'static str) -> Tally {
        Tally { name, count: 0, by_number: [0; ITEMS + 1] }
    }

    /// Has both checks look at a damaged certificate.
    fn add(&mut self, written: &Written, damaged: &[u8]) {
        if damaged != written.certificate {
            self.count += 1;
            self.by_number[written.check(damaged) as usize] += 1;
        }
    }

    /// The same of so many forged ones.
    fn add_forged(&mut self, written: &Written, count: usize, random: &mut Random) {
        for _ in 0..count {
            self.add(written, &forge(written, random));
        }
    }

    /// At least so many, and each of these numbers among them.
    fn report(&self, least: usize, numbers: &[usize]) {
        println!(
            "{}: {} damaged certificates, accepted {}, items 20 to 24: {:?}",
            self.name,
            self.count,
            self.by_number[0],
            &self.by_number[20..]
        );
        assert!(self.count >= least, "{}: {} of {least}", self.name, self.count);
        for &number in numbers {
            assert!(self.by_number[number] > 0, "{}: {number} came up", self.name);
        }
    }
}

#[test]
fn written_ones_are_accepted() {
    let mut random = Random::of_test("written_ones_are_accepted");
    let shapes = small_shapes();
    let (mut tried, mut bytes) = (0, 0);
    for _ in 0..103 {
        for recorded in &shapes {
            for found in &shapes {
                // compare::write has both checks accept it
                let written = Written::of(plants::plant(recorded, found, &mut random), &mut random);
                let heaviest = number_at(&written.certificate, 4) as i64;
                assert_eq!(mapping::weight(&written.plant, &certificate::partners(&written.plant, &written.certificate)), heaviest);
                if tried % 4 == 0 {
                    assert_eq!(mapping::search(&written.plant).0, heaviest, "the heaviest mapping{:?}", written.inputs);
                }
                tried += 1;
                bytes += written.certificate.len();
            }
        }
    }
    assert!(tried >= 20_000);
    println!("{tried} written certificates, {bytes} bytes");
}

#[test]
fn buffers_short_exact_and_long() {
    let mut random = Random::of_test("certificate buffers_short_exact_and_long");
    let shapes = small_shapes();
    let mut refusals = [0; ITEMS + 1];
    for _ in 0..400 {
        let inputs = plants::small_plant(&shapes, &mut random);
        let sizes = compare::sizes(&inputs).expect("an accepted plant");
        let (values, length) = (sizes.work, sizes.certificate);
        for numbers in [0, values - 1, values, values + 1, values + 7] {
            for room in [0, 7, length - 1, length, length + 1, length + 9] {
                let result = compare::write(&inputs, numbers, room, &mut random);
                refusals[result.err().unwrap_or(0) as usize] += 1;
            }
        }
    }
    assert!(refusals[0] > 0 && refusals[13] > 0 && refusals[19] > 0, "{refusals:?}");
}

#[test]
fn single_bits() {
    let mut random = Random::of_test("single_bits");
    let shapes = small_shapes();
    let mut tally = Tally::new("single bits");
    while tally.count < 80_000 {
        // every bit of small certificates, some bits of longer ones
        let written = Written::small(&shapes, &mut random);
        let bits = 8 * written.certificate.len();
        let chosen: Vec<usize> = if bits < 3_000 { (0..bits).collect() } else { (0..300).map(|_| random.below(bits)).collect() };
        for bit in chosen {
            let mut damaged = written.certificate.clone();
            damaged[bit / 8] ^= 1 << (bit % 8);
            tally.add(&written, &damaged);
        }
    }
    tally.report(80_000, &[20, 21, 22, 23]);
}

#[test]
fn single_bytes() {
    let mut random = Random::of_test("single_bytes");
    let shapes = small_shapes();
    let mut tally = Tally::new("single bytes");
    while tally.count < 50_000 {
        let written = Written::small(&shapes, &mut random);
        for _ in 0..60 {
            let mut damaged = written.certificate.clone();
            // the head and the partners more often than by their length
            let at = if random.once_in(3) { random.below(HEAD + PARTNER * written.plant.n()) } else { random.below(damaged.len()) };
            damaged[at] = match random.below(4) {
                0 => *random.pick(&[0, 1, 255, 254, 0x80, 0x7F, 0xC1]),
                1 => random.below(7) as u8,
                2 => damaged[at].wrapping_add(1),
                _ => random.byte(),
            };
            tally.add(&written, &damaged);
        }
    }
    tally.report(50_000, &[20, 21, 22, 23]);
}

#[test]
fn swapped_records() {
    let mut random = Random::of_test("swapped_records");
    let shapes = small_shapes();
    let mut tally = Tally::new("swapped records");
    while tally.count < 30_000 {
        let written = Written::small(&shapes, &mut random);
        let (n, records) = (written.plant.n(), &written.records);
        for _ in 0..30 {
            let mut damaged = written.certificate.clone();
            if random.once_in(3) {
                let (a, b) = (random.below(n), random.below(n));
                damaged.swap(HEAD + PARTNER * a + 2, HEAD + PARTNER * b + 2);
            } else {
                let (a, b) = (random.below(records.len()), random.below(records.len()));
                let (a, b) = (&records[a.min(b)], &records[a.max(b)]);
                if a.at == b.at {
                    continue;
                }
                // the two change places; what stands between moves if they are not as long as each other
                let of = &written.certificate;
                let mut swapped = of[..a.at].to_vec();
                swapped.extend(&of[b.at..b.at + b.length()]);
                swapped.extend(&of[a.at + a.length()..b.at]);
                swapped.extend(&of[a.at..a.at + a.length()]);
                swapped.extend(&of[b.at + b.length()..]);
                damaged = swapped;
            }
            tally.add(&written, &damaged);
        }
    }
    tally.report(30_000, &[0, 20, 21, 22, 23]);
}

#[test]
fn certificates_of_other_plants() {
    let mut random = Random::of_test("certificates_of_other_plants");
    let shapes = small_shapes();
    let mut tally = Tally::new("certificates of other plants");
    let mut last = Written::small(&shapes, &mut random);
    while tally.count < 30_000 {
        let written = Written::small(&shapes, &mut random);
        tally.add(&written, &last.certificate);
        for _ in 0..4 {
            // the same trees with other labels, serials or weights, both ways
            let other = Written::of(plants::relabelled(&written.inputs, &mut random), &mut random);
            tally.add(&written, &other.certificate);
            tally.add(&other, &written.certificate);
        }
        // a certificate for the trees the other way round
        let turned =
            Inputs { table: written.inputs.table.clone(), recorded: written.inputs.found.clone(), found: written.inputs.recorded.clone() };
        tally.add(&written, &Written::of(turned, &mut random).certificate);
        last = written;
    }
    // an honest certificate has the weight of its own largest value, so item 24 is not among them
    tally.report(30_000, &[0, 20, 21, 22, 23]);
}

/// Raises a dual and the value with it; then all later records that this breaks, so that only the last item can notice. A number that does
/// not fit is left as it is.
fn raise(written: &Written, bytes: &mut [u8], record: usize, dual: usize, by: i64) {
    let add = |bytes: &mut [u8], record: &Record, dual: usize, by: i64| {
        for at in [record.dual_at(dual), record.value_at()] {
            if let Ok(sum) = i32::try_from(number_at(bytes, at) as i64 + by) {
                put(bytes, at, sum);
            }
        }
    };
    add(bytes, &written.records[record], dual, by);
    for later in &written.records[record + 1..] {
        let (u, v) = (later.of.u, later.of.v);
        if written.plant.pair(u, v).is_none() {
            continue;
        }
        for (i, &child) in later.children.iter().enumerate() {
            for (j, &other) in later.columns.iter().enumerate() {
                let below = number_at(bytes, written.records[written.order.place(&written.plant, child, other, v)].value_at());
                if let Some(gain) = gain(&written.plant, u, v, child, other, below) {
                    let have = number_at(bytes, later.dual_at(i)) as i64 + number_at(bytes, later.dual_at(later.children.len() + j)) as i64;
                    if have < gain {
                        add(bytes, later, i, gain - have);
                    }
                }
            }
        }
    }
}

/// An amount to forge with.
fn amount(random: &mut Random) -> i64 {
    match random.below(6) {
        0 | 1 => 1,
        2 => random.between(1, 9),
        3 => random.between(1, 2 * i64::from(WEIGHT_MOST)),
        4 => *random.pick(&[VALUE_MOST.into(), 1 << 30, (1 << 31) - 1, 1 << 31, (1 << 32) - 1]),
        _ => random.between(1, 1 << 31),
    }
}

/// One forgery.
fn forge(written: &Written, random: &mut Random) -> Vec<u8> {
    let mut bytes = written.certificate.clone();
    let n = written.plant.n();
    let at = random.below(written.records.len());
    let record = &written.records[at];
    let by = amount(random);
    let change = |bytes: &mut [u8], at: usize, by: i64| put(bytes, at, (number_at(bytes, at) as i64).wrapping_add(by) as i32);
    match random.below(12) {
        // the weight in the head
        0 => change(&mut bytes, 4, if random.once_in(2) { by } else { -by }),
        // another mapping with its right weight: some vertices unmapped, or none mapped, or one pair
        1 | 2 => {
            let mut partners = certificate::partners(&written.plant, &bytes);
            match random.below(4) {
                0 => partners.fill(NONE),
                1 => {
                    partners.fill(NONE);
                    partners[random.below(n)] = random.below(written.plant.m()) as u8;
                }
                2 => partners[random.below(n)] = NONE,
                _ => partners[random.below(n)] = random.below(written.plant.m()) as u8,
            }
            put_partners(&mut bytes, &partners);
            if mapping::is_mapping(&written.plant, &partners) {
                put(&mut bytes, 4, mapping::weight(&written.plant, &partners) as i32);
            }
        }
        // a value alone
        3 => change(&mut bytes, record.value_at(), if random.once_in(2) { by } else { -by }),
        // a dual alone
        4 if record.duals() > 0 => {
            let dual = random.below(record.duals());
            change(&mut bytes, record.dual_at(dual), if random.once_in(2) { by } else { -by });
        }
        // a dual and the value together
        5 | 6 if record.duals() > 0 => {
            let dual = random.below(record.duals());
            let by = if random.once_in(2) { by } else { -by };
            change(&mut bytes, record.dual_at(dual), by);
            change(&mut bytes, record.value_at(), by);
        }
        // from one dual to another; the value stays
        7 | 8 if record.duals() > 1 => {
            let (a, b) = (random.below(record.duals()), random.below(record.duals()));
            let by = if random.once_in(2) { number_at(&bytes, record.dual_at(b)) as i64 } else { by };
            change(&mut bytes, record.dual_at(a), by);
            change(&mut bytes, record.dual_at(b), -by);
        }
        // every record as before but for one dual, and what follows from it
        9 | 10 if record.duals() > 0 => raise(written, &mut bytes, at, random.below(record.duals()), by),
        // sums that would be right if they wrapped
        11 if record.duals() > 1 => {
            for dual in 0..record.duals() {
                put(&mut bytes, record.dual_at(dual), *random.pick(&[i32::MAX, 1 << 30, 0, 1]));
            }
            let sum = (0..record.duals()).fold(0i32, |sum, dual| sum.wrapping_add(number_at(&bytes, record.dual_at(dual))));
            let own = written.plant.pair(record.of.u, record.of.v).unwrap_or(FORBIDDEN);
            put(&mut bytes, record.value_at(), sum.wrapping_add(own));
        }
        // a number of a record replaced
        _ => {
            let place = random.below(1 + record.duals());
            let at = record.value_at() + 4 * place;
            put(&mut bytes, at, *random.pick(&[0, 1, -1, FORBIDDEN, FORBIDDEN + 1, i32::MAX, VALUE_MOST, -WEIGHT_MOST]));
        }
    }
    bytes
}

#[test]
fn forged_weights_and_duals() {
    let mut random = Random::of_test("forged_weights_and_duals");
    let shapes = small_shapes();
    let mut tally = Tally::new("forged weights and duals");
    while tally.count < 80_000 {
        let written = Written::small(&shapes, &mut random);
        tally.add_forged(&written, 40, &mut random);
    }
    tally.report(80_000, &[0, 21, 22, 23, 24]);
}

#[test]
fn forged_at_the_extremes() {
    let mut random = Random::of_test("forged_at_the_extremes");
    // a tree of 64 vertices with itself under the greatest weights: values and duals are as great as they get, and what is added goes past 32 bits
    let mut tally = Tally::new("forged at the greatest weights");
    for (_, shape) in large_shapes(&mut random) {
        let written = Written::of(plants::weighted(&shape, &shape, (2, 2), (Weights::Most, Weights::Most), &mut random), &mut random);
        assert_eq!(number_at(&written.certificate, 4), VALUE_MOST);
        tally.add_forged(&written, 300, &mut random);
    }
    tally.report(1_500, &[0, 21, 22, 23, 24]);
    let shapes = small_shapes();
    let mut tally = Tally::new("forged at the limits of weights");
    while tally.count < 40_000 {
        let (recorded, found) = (random.pick(&shapes).clone(), random.pick(&shapes).clone());
        let weights = (*random.pick(&EXTREMES), *random.pick(&EXTREMES));
        let mut inputs = plants::weighted(&recorded, &found, (2, 2), weights, &mut random);
        serials::give(&mut inputs, &mut random);
        tally.add_forged(&Written::of(inputs, &mut random), 40, &mut random);
    }
    tally.report(40_000, &[0, 21, 22, 23, 24]);
}

#[test]
fn sums_past_32_bits() {
    // recorded 0-1, found 0-1-2; the root's pairs weigh the least, the child's 5, edges the most
    let inputs = Inputs {
        table: table_bytes(&[vec![-WEIGHT_MOST, -WEIGHT_MOST], vec![5, 5]], &[vec![WEIGHT_MOST]]),
        recorded: tree_bytes(&[0, 1], &[(0, 1, 0)]),
        found: tree_bytes(&[0, 0, 0], &[(0, 1, 0), (1, 2, 0)]),
    };
    let written = Written::of(inputs, &mut Random::of_test("sums_past_32_bits"));
    let of = |u: usize, v: usize, s: usize| &written.records[written.order.place(&written.plant, u, v, s)];
    let mut bytes = written.certificate.clone();
    // the child's value with s = 0 is the most that 32 bits hold
    let child = of(1, 1, 0);
    put(&mut bytes, child.dual_at(0), i32::MAX - 5);
    put(&mut bytes, child.value_at(), i32::MAX);
    assert_eq!(written.check(&bytes), 23);
    // the pair then weighs more than 32 bits hold, and the duals cover it, with a value that fits
    let root = of(0, 0, 0);
    let gain = i64::from(WEIGHT_MOST) + i64::from(i32::MAX);
    put(&mut bytes, root.dual_at(0), 1 << 30);
    put(&mut bytes, root.dual_at(1), (gain - (1 << 30)) as i32);
    put(&mut bytes, root.value_at(), i32::MAX);
    assert_eq!(written.check(&bytes), 24);
    // one less does not cover it
    put(&mut bytes, root.dual_at(0), (1 << 30) - 1);
    put(&mut bytes, root.value_at(), i32::MAX - 1);
    assert_eq!(written.check(&bytes), 23);
    // a record that no other one uses and that has s other than v may say anything that its duals add up to
    let unused = of(0, 1, 0);
    let mut bytes = written.certificate.clone();
    put(&mut bytes, unused.dual_at(0), i32::MAX);
    put(&mut bytes, unused.dual_at(1), WEIGHT_MOST);
    put(&mut bytes, unused.value_at(), i32::MAX);
    assert_eq!(written.check(&bytes), 0);
    // the sum has to be exact, not right but for 2^32
    put(&mut bytes, unused.dual_at(1), i32::MAX);
    put(&mut bytes, unused.value_at(), -WEIGHT_MOST - 2);
    assert_eq!(written.check(&bytes), 23);
}
