//! Compares the proved calls with plain ones in Rust (plain.rs, certificate.rs) on the same plants, in one run: the match in one call, a
//! job in slices of 256 with its start and finish, writing a certificate, checking it, a start alone, and how much to lend. A difference
//! in answers, work numbers or mappings stops the program; before anything is timed, many more plants are compared. It prints the mean over
//! a line's plants of the best of several calls, in microseconds, the ratio, how the time grows from the size before, and the most stack
//! that a call used. Run it by run.sh.
mod certificate;
mod plain;
mod plants;
mod proved;
mod stack;

use pensummer::{CERTIFICATE_MOST, VERTICES_MOST, WORK_MOST};
use plants::{equal_paths, plant, tied, Plant, Random, SHAPES};
use std::hint::black_box;
use std::time::Instant;

const PLANTS: usize = 6;
const ROUNDS: usize = 25;
/// Plants with many ties of each shape and size.
const TIED: usize = 16;
const SLICE: usize = 256;
const CALLS: [&str; 6] = ["match", "slices", "write", "check", "start", "sizes"];

/// What the calls are lent: work numbers, a mapping, a certificate and its length.
struct Room {
    work: Vec<i32>,
    mapping: Vec<u8>,
    certificate: Vec<u8>,
    length: usize,
}

fn room(fill: u8) -> Room {
    Room { work: vec![fill as i32; WORK_MOST], mapping: vec![fill; VERTICES_MOST], certificate: vec![fill; CERTIFICATE_MOST], length: 0 }
}

/// A whole job: start, advances, finish.
macro_rules! job {
    ($side:ident, $p:expr, $b:expr) => {{
        let mut job = $side::start(&$p.table, &$p.recorded, &$p.found, &$b.work).unwrap();
        while $side::advance(&mut job, &$p.table, &$p.recorded, &$p.found, SLICE, &mut $b.work).unwrap() == SLICE {}
        $side::finish(&job, &$p.table, &$p.recorded, &$p.found, &$b.work, &mut $b.mapping).unwrap() as i64
    }};
}

/// The work numbers wanted and a certificate's length, as one number.
fn both(sizes: Result<(usize, usize), u32>) -> i64 {
    let (work, certificate) = sizes.unwrap();
    (work as i64) << 32 | certificate as i64
}

/// One call of either side; its answer as a number. The check is of the certificate that lies in the room.
fn by_proved(call: usize, p: &Plant, b: &mut Room) -> i64 {
    match call {
        0 => proved::match_trees(&p.table, &p.recorded, &p.found, &mut b.work, &mut b.mapping).unwrap() as i64,
        1 => job!(proved, p, b),
        2 => {
            b.length = proved::write(&p.table, &p.recorded, &p.found, &mut b.work, &mut b.certificate).unwrap();
            b.length as i64
        }
        3 => proved::check(&p.table, &p.recorded, &p.found, &b.certificate[..b.length]) as i64,
        4 => proved::start(&p.table, &p.recorded, &p.found, &b.work).map_or_else(i64::from, |_| 0),
        _ => both(proved::sizes(&p.table, &p.recorded, &p.found)),
    }
}

fn by_plain(call: usize, p: &Plant, b: &mut Room) -> i64 {
    match call {
        0 => plain::match_trees(&p.table, &p.recorded, &p.found, &mut b.work, &mut b.mapping).unwrap() as i64,
        1 => job!(plain, p, b),
        2 => {
            b.length = certificate::write(&p.table, &p.recorded, &p.found, &mut b.work, &mut b.certificate).unwrap();
            b.length as i64
        }
        3 => certificate::check(&p.table, &p.recorded, &p.found, &b.certificate[..b.length]) as i64,
        4 => plain::start(&p.table, &p.recorded, &p.found, &b.work).map_or_else(i64::from, |_| 0),
        _ => both(certificate::sizes(&p.table, &p.recorded, &p.found)),
    }
}

/// Equal answers of a call, and equal work numbers and mappings of one that writes them: a certificate has its mapping in its front.
fn same(call: usize, p: &Plant, ours: &mut Room, theirs: &mut Room) {
    let (n, m) = (p.recorded[2] as usize, p.found[2] as usize);
    let (all, front) = (n * (3 * m - 2), 8 + 3 * n);
    for (b, x) in [(&mut *ours, 1), (&mut *theirs, 2)] {
        b.work.fill(x);
        b.mapping.fill(x as u8);
    }
    assert_eq!(by_proved(call, p, ours), by_plain(call, p, theirs), "{}", CALLS[call]);
    if call < 3 {
        assert_eq!(ours.work[..all], theirs.work[..all], "{}: work numbers", CALLS[call]);
    }
    if call < 2 {
        assert_eq!(ours.mapping[..n], theirs.mapping[..n], "{}: mappings", CALLS[call]);
    }
    if call == 2 {
        assert_eq!(ours.certificate[..front], theirs.certificate[..front], "{}: mappings", CALLS[call]);
    }
}

/// Every call is the same on both sides, and either side's certificate is accepted by both.
fn agree(p: &Plant) {
    let (mut ours, mut theirs) = (room(1), room(2));
    (0..CALLS.len()).for_each(|call| same(call, p, &mut ours, &mut theirs));
    assert_eq!(proved::check(&p.table, &p.recorded, &p.found, &theirs.certificate[..theirs.length]), 0);
    assert_eq!(certificate::check(&p.table, &p.recorded, &p.found, &ours.certificate[..ours.length]), 0);
}

/// The match and the job are the same on many plants that have many heaviest mappings.
fn agree_on_ties(random: &mut Random) {
    let (mut ours, mut theirs) = (room(1), room(2));
    let mut count = 0;
    for shape in SHAPES {
        for n in 1..=VERTICES_MOST {
            for _ in 0..TIED {
                let p = tied(shape, n, random);
                same(0, &p, &mut ours, &mut theirs);
                same(1, &p, &mut ours, &mut theirs);
                count += 1;
            }
        }
    }
    println!("equal weights, work numbers and mappings on {count} plants with many ties");
}

/// The microseconds of one call.
fn time(f: impl FnOnce() -> i64) -> f64 {
    let start = Instant::now();
    black_box(f());
    start.elapsed().as_secs_f64() * 1e6
}

/// Of a line: the mean over its plants of the best of several calls of the plain and of the proved side, in turn.
fn measure(call: usize, plants: &[Plant]) -> (f64, f64) {
    let (mut ours, mut theirs) = (room(0), room(0));
    let (mut plain_mean, mut proved_mean) = (0.0, 0.0);
    for p in plants {
        by_proved(2, p, &mut ours);
        by_plain(2, p, &mut theirs);
        let (mut a, mut b) = (f64::MAX, f64::MAX);
        for _ in 0..ROUNDS {
            a = a.min(time(|| by_plain(call, black_box(p), &mut theirs)));
            b = b.min(time(|| by_proved(call, black_box(p), &mut ours)));
        }
        plain_mean += a / plants.len() as f64;
        proved_mean += b / plants.len() as f64;
    }
    (plain_mean, proved_mean)
}

fn stack_used(call: usize, plants: &[Plant], f: fn(usize, &Plant, &mut Room) -> i64) -> usize {
    let mut b = room(0);
    plants
        .iter()
        .map(|p| {
            f(2, p, &mut b);
            stack::used(&mut || {
                black_box(f(call, p, &mut b));
            })
        })
        .max()
        .unwrap()
}

fn main() {
    agree_on_ties(&mut Random(2685821657736338717));
    let mut random = Random(88172645463325252);
    let mut worst = [0.0f64; CALLS.len()];
    for shape in SHAPES {
        let mut before = [0.0; CALLS.len()];
        for n in [16, 32, 64] {
            let plants: Vec<Plant> = (0..PLANTS).map(|i| plant(shape, n, i, &mut random)).collect();
            plants.iter().for_each(agree);
            for call in 0..CALLS.len() {
                let (a, b) = measure(call, &plants);
                let growth = if before[call] > 0.0 { format!("x{:.1}", b / before[call]) } else { String::new() };
                println!(
                    "{:<24} {:<6} plain {a:8.1} us  proved {b:8.1} us  ratio {:5.2}  {growth:<5}  stack {} and {}",
                    format!("{shape}, {n} by {n}"),
                    CALLS[call],
                    b / a,
                    stack_used(call, &plants, by_plain),
                    stack_used(call, &plants, by_proved),
                );
                before[call] = b;
                worst[call] = worst[call].max(b / a);
            }
        }
    }
    let deep = [equal_paths()];
    for call in 0..CALLS.len() {
        println!(
            "equal paths, 64 by 64    {:<6} stack {} and {}",
            CALLS[call],
            stack_used(call, &deep, by_plain),
            stack_used(call, &deep, by_proved)
        );
    }
    let lines: Vec<String> = CALLS.iter().zip(worst).map(|(c, w)| format!("{c} {w:.2}")).collect();
    println!("worst ratios: {}", lines.join(", "));
}
