//! Jobs: in random slices they end as the match in one call does; over altered memory they refuse by number or work from what is lent.

use pensummer::Job;
use pensummer_tests::compare::{self, Solved, IDLE};
use pensummer_tests::plants::{self, small_shapes};
use pensummer_tests::random::Random;
use pensummer_tests::reading::{Inputs, Plant, FORBIDDEN, ITEMS, WEIGHT_MOST};
use pensummer_tests::serials;
use pensummer_tests::values::{Order, VALUE_MOST};

const FRESH: Job = Job { idle: 1, n: 0, m: 0, position: 0, total: 0 };

/// A budget (allowance): often small, sometimes 0 or the most.
fn budget(random: &mut Random) -> u32 {
    match random.below(10) {
        0 => 0,
        1 | 2 => 1,
        3 => u32::MAX,
        4 => random.draw() as u32,
        5 | 6 => random.below(100) as u32,
        _ => random.below(12) as u32,
    }
}

/// A record of any bytes; its total is not so high that a job would meet the limit.
fn any_record(random: &mut Random) -> Job {
    Job {
        idle: random.draw() as u32,
        n: random.draw() as u32,
        m: random.draw() as u32,
        position: random.draw() as u32,
        total: random.below(1 << 31) as u32,
    }
}

#[test]
fn fresh_record() {
    assert_eq!(Job::fresh(), FRESH);
}

#[test]
fn slices_end_as_one_call() {
    let mut random = Random::of_test("slices_end_as_one_call");
    let shapes = small_shapes();
    let (mut tried, mut slices) = (0, 0);
    let mut job = Job::fresh();
    for _ in 0..105 {
        for recorded in &shapes {
            for found in &shapes {
                let inputs = plants::plant(recorded, found, &mut random);
                let solved = Solved::read(&inputs).expect("an accepted plant");
                let mut work: Vec<i32> = (0..solved.values.len() + random.below(3)).map(|_| random.number()).collect();
                // some records are fresh, some of any bytes, some of a job that was left or is done
                if random.once_in(4) {
                    job = if random.once_in(2) { Job::fresh() } else { any_record(&mut random) };
                }
                let before = job.total;
                compare::start(&mut job, &inputs, &work, &mut random).expect("a start");
                let (mut solved_here, mut given_up) = (0u64, false);
                while (job.position as usize) < solved.values.len() && !given_up {
                    if random.once_in(8) {
                        assert_eq!(compare::finish(&job, &inputs, &work, solved.plant.n(), &mut random), Err(17));
                    }
                    let count = compare::advance(&mut job, &inputs, budget(&mut random), &mut work, &mut random).expect("an advance");
                    assert_eq!(work[..job.position as usize], solved.values[..job.position as usize]);
                    solved_here += count as u64;
                    slices += 1;
                    given_up = random.once_in(1_000);
                }
                assert_eq!(job.total as u64, before as u64 + solved_here);
                if !given_up {
                    // an advance of a job that is done solves nothing
                    assert_eq!(compare::advance(&mut job, &inputs, budget(&mut random), &mut work, &mut random), Ok(0));
                    let room = solved.plant.n() + random.below(3);
                    assert_eq!(compare::finish(&job, &inputs, &work, room, &mut random), Ok(solved.weight), "{inputs:?}");
                    tried += 1;
                }
            }
        }
    }
    assert!(tried >= 20_000, "{tried} jobs");
    println!("{tried} plants as jobs, {slices} slices");
}

/// Work numbers that item 16 lets pass: at allowed pairs numbers in range, among them the most; at forbidden pairs the forbidden number.
fn plausible(plant: &Plant, random: &mut Random) -> Vec<i32> {
    let most = random.once_in(2);
    Order::of(plant)
        .subproblems
        .iter()
        .map(|of| match plant.pair(of.u, of.v) {
            None => FORBIDDEN,
            Some(_) if most => *random.pick(&[VALUE_MOST, VALUE_MOST, VALUE_MOST - 1, VALUE_MOST - WEIGHT_MOST, -WEIGHT_MOST, 0]),
            Some(_) => random.between((-WEIGHT_MOST).into(), VALUE_MOST.into()) as i32,
        })
        .collect()
}

/// Numbers about the limits of item 16.
const STRANGE: [i32; 8] = [VALUE_MOST, VALUE_MOST + 1, -WEIGHT_MOST, -WEIGHT_MOST - 1, FORBIDDEN, FORBIDDEN + 1, i32::MAX, 0];

/// All that a caller keeps between the calls of a job.
#[derive(Clone)]
struct Kept {
    inputs: Inputs,
    job: Job,
    work: Vec<i32>,
}

/// Alters some of it.
fn alter(kept: &mut Kept, shapes: &[plants::Shape], random: &mut Random) {
    match random.below(16) {
        way @ 0..=5 => alter_work(kept, way, random),
        6 => alter_record(&mut kept.job, random),
        way @ 7..=13 => alter_inputs(&mut kept.inputs, way, shapes, random),
        14 => {
            let room = (kept.work.len() + random.below(4)).saturating_sub(random.below(4));
            kept.work.resize(room, random.number());
        }
        _ => kept.job.total = random.draw() as u32,
    }
}

/// Alters work numbers, and perhaps the position with them.
fn alter_work(kept: &mut Kept, way: usize, random: &mut Random) {
    let done = (kept.job.position as usize).min(kept.work.len());
    match way {
        0 if done > 0 => {
            let at = random.below(done);
            if kept.work[at] != FORBIDDEN {
                kept.work[at] = random.between((-WEIGHT_MOST).into(), VALUE_MOST.into()) as i32;
            }
        }
        1 if done > 0 => kept.work[..done].iter_mut().filter(|number| **number != FORBIDDEN).for_each(|number| *number = VALUE_MOST),
        2 if done > 0 => kept.work[random.below(done)] = *random.pick(&STRANGE),
        3 if !kept.work.is_empty() => {
            let at = random.below(kept.work.len());
            kept.work[at] = random.number();
        }
        4 | 5 => {
            // numbers that pass, and any position that they allow
            if let Ok(plant) = Plant::read(&kept.inputs) {
                kept.work = plausible(&plant, random);
                kept.job.position = if random.once_in(2) { kept.work.len() } else { random.below(kept.work.len() + 1) } as u32;
            }
        }
        _ => {}
    }
}

/// Alters the job's record.
fn alter_record(job: &mut Job, random: &mut Random) {
    match random.below(8) {
        0 => job.idle = *random.pick(&IDLE),
        1 => job.n = *random.pick(&[0, 1, 2, 6, 64, 65, u32::MAX]),
        2 => job.m = *random.pick(&[0, 1, 2, 6, 64, 65, u32::MAX]),
        3 => job.position = job.position.wrapping_add(1),
        4 => job.position = job.position.saturating_sub(random.below(5) as u32),
        5 => job.position = (job.n * (3 * job.m).saturating_sub(2)).wrapping_add(random.below(3) as u32).wrapping_sub(1),
        6 => job.total = u32::MAX - random.below(4) as u32,
        _ => job.position = random.draw() as u32,
    }
}

/// Alters the table or the trees.
fn alter_inputs(inputs: &mut Inputs, way: usize, shapes: &[plants::Shape], random: &mut Random) {
    match way {
        7 | 8 => *inputs = plants::relabelled(inputs, random),
        9 => {
            let other = plants::small_plant(shapes, random);
            match random.below(3) {
                0 => inputs.recorded = other.recorded,
                1 => inputs.found = other.found,
                _ => *inputs = other,
            }
        }
        10 => {
            // another tree of the same number of vertices
            let (labels, edge_labels) = (inputs.table[2] as usize, inputs.table[3] as usize);
            let tree = if random.once_in(2) { &mut inputs.recorded } else { &mut inputs.found };
            let shape = plants::middle_shape(tree[2] as usize, random);
            *tree = plants::tree(&shape, labels, edge_labels, random);
        }
        11 => {
            let part = match random.below(3) {
                0 => &mut inputs.table,
                1 => &mut inputs.recorded,
                _ => &mut inputs.found,
            };
            let at = random.below(part.len());
            part[at] ^= 1 << random.below(8);
        }
        _ => {
            // another serial, perhaps one of this tree or of the other
            let given = serials::of_both(inputs);
            serials::alter(if random.once_in(2) { &mut inputs.recorded } else { &mut inputs.found }, &given, random);
        }
    }
}

#[test]
fn altered_memory() {
    let mut random = Random::of_test("altered_memory");
    let shapes = small_shapes();
    let (mut alterations, mut finished, mut refusals) = (0, 0, [0; ITEMS + 1]);
    for _ in 0..6_000 {
        let inputs = plants::small_plant(&shapes, &mut random);
        let room = compare::sizes(&inputs).expect("an accepted plant").work;
        let mut kept = Kept { inputs, job: Job::fresh(), work: (0..room).map(|_| random.number()).collect() };
        compare::start(&mut kept.job, &kept.inputs, &kept.work, &mut random).expect("a start");
        for _ in 0..14 {
            let sound = kept.clone();
            for _ in 0..random.below(3) {
                // one that is out of range or no longer accepted is not altered further
                if kept.job.n <= 64 && kept.job.m <= 64 && Plant::read(&kept.inputs).is_ok() {
                    alter(&mut kept, &shapes, &mut random);
                    alterations += 1;
                }
            }
            let result = match random.below(12) {
                0 => compare::start(&mut kept.job, &kept.inputs, &kept.work, &mut random).err(),
                1..=3 => {
                    let n = kept.inputs.recorded.get(2).map_or(0, |&n| n as usize);
                    let room = (n + random.below(3)).saturating_sub(usize::from(random.once_in(6)));
                    let result = compare::finish(&kept.job, &kept.inputs, &kept.work, room, &mut random);
                    finished += usize::from(result.is_ok());
                    result.err()
                }
                _ => compare::advance(&mut kept.job, &kept.inputs, budget(&mut random), &mut kept.work, &mut random).err(),
            };
            refusals[result.unwrap_or(0) as usize] += 1;
            if result.is_some() && !random.once_in(5) {
                kept = sound;
            }
        }
    }
    for item in [0, 1, 2, 3, 4, 5, 8, 9, 10, 13, 14, 15, 16, 17, 18, 25, 26] {
        assert!(refusals[item] > 0, "item {item} came up: {refusals:?}");
    }
    println!("{alterations} alterations, {finished} legal finishes, calls by number {refusals:?}");
}

#[test]
fn finish_over_any_numbers() {
    let mut random = Random::of_test("finish_over_any_numbers");
    let shapes = small_shapes();
    let mut tried = 0;
    for _ in 0..8_000 {
        let inputs = plants::small_plant(&shapes, &mut random);
        let solved = Solved::read(&inputs).expect("an accepted plant");
        let (n, m) = (solved.plant.n(), solved.plant.m());
        let job = Job { idle: 0, n: n as u32, m: m as u32, position: solved.values.len() as u32, total: 0 };
        for nearly in [false, true] {
            let mut work = plausible(&solved.plant, &mut random);
            if nearly {
                // a few of the numbers, the others as they should be
                let other = std::mem::replace(&mut work, solved.values.clone());
                for _ in 0..1 + random.below(3) {
                    let at = random.below(work.len());
                    work[at] = other[at];
                }
            }
            compare::finish(&job, &inputs, &work, n, &mut random).expect("a finish");
            tried += 1;
        }
    }
    println!("{tried} finishes over altered numbers");
}

#[test]
fn records_and_numbers_at_the_limits() {
    let mut random = Random::of_test("records_and_numbers_at_the_limits");
    let shapes = small_shapes();
    let mut refusals = [0; ITEMS + 1];
    for _ in 0..300 {
        let inputs = plants::small_plant(&shapes, &mut random);
        let solved = Solved::read(&inputs).expect("an accepted plant");
        let (n, m, end) = (solved.plant.n() as u32, solved.plant.m() as u32, solved.values.len() as u32);
        let right = Job { idle: 0, n, m, position: end, total: 7 };
        let mut records = vec![right, FRESH, any_record(&mut random)];
        records.extend(IDLE.map(|idle| Job { idle, ..right }));
        for other in [0, 1, 63, 64, 65, 128, 1 << 16, u32::MAX / 3, u32::MAX] {
            records.push(Job { n: other, ..right });
            records.push(Job { m: other, ..right });
            records.push(Job { n: other, m: other, ..right });
        }
        for position in [0, 1, end - 1, end + 1, u32::MAX] {
            records.push(Job { position, ..right });
        }
        // the record's own n and m decide about its position: 64 by 64 allows 12,160
        for position in [12_160, 12_161] {
            records.push(Job { n: 64, m: 64, position, ..right });
        }
        for total in [u32::MAX, u32::MAX - 1, u32::MAX - end, u32::MAX - end + 1] {
            records.push(Job { position: 0, total, ..right });
        }
        for record in records {
            for room in [solved.values.len() - 1, solved.values.len(), solved.values.len() + 2] {
                let mut work = solved.values.clone();
                work.resize(room, random.number());
                for bytes in [n as usize - 1, n as usize, n as usize + 2] {
                    let result = compare::finish(&record, &inputs, &work, bytes, &mut random);
                    refusals[result.err().unwrap_or(0) as usize] += 1;
                }
                let mut job = record;
                let result = compare::advance(&mut job, &inputs, budget(&mut random), &mut work, &mut random);
                refusals[result.err().unwrap_or(0) as usize] += 1;
                let mut job = record;
                let result = compare::start(&mut job, &inputs, &work, &mut random);
                refusals[result.err().unwrap_or(0) as usize] += 1;
            }
        }
        // each number just before the position and just after it
        for number in STRANGE {
            for at in [0, end as usize / 2, end as usize - 1] {
                for position in [at as u32, at as u32 + 1, end] {
                    let mut work = solved.values.clone();
                    work[at] = number;
                    let mut job = Job { position, ..right };
                    let result = compare::advance(&mut job, &inputs, budget(&mut random), &mut work, &mut random);
                    refusals[result.err().unwrap_or(0) as usize] += 1;
                    let mut work = solved.values.clone();
                    work[at] = number;
                    let job = Job { position, ..right };
                    let result = compare::finish(&job, &inputs, &work, n as usize, &mut random);
                    refusals[result.err().unwrap_or(0) as usize] += 1;
                }
            }
        }
    }
    for item in [0, 13, 14, 15, 16, 17, 18] {
        assert!(refusals[item] > 0, "item {item} came up: {refusals:?}");
    }
    println!("calls by number {refusals:?}");
}
