//! Each exported call run once over lent memory that was filled with junk, and everything that it gives back or leaves behind compared with
//! what the papers say: the first item that applies, or the result; every byte and number lent, the room after it and around it included.
//!
//! Every call tests the items on inputs first: 1 to 7, 25, 8 to 12 and 26. Further ones are named at each call.

use crate::certificate::{self, Record, HEAD, PARTNER};
use crate::mapping;
use crate::random::Random;
use crate::reading::{number_at, Inputs, Plant, FORBIDDEN, WEIGHT_MOST};
use crate::values::{self, Order, VALUE_MOST};
use pensummer::{Job, Refusal, Sizes};

/// Numbers in a record's `idle` that say that no job is running.
pub const IDLE: [u32; 9] = [1, 2, 255, 256, 257, 1 << 16, 1 << 24, 1 << 31, u32::MAX];

/// How many cells of junk stand before and after a lent buffer.
const MARGIN: usize = 3;

/// A buffer that is lent to a call, within junk that is not lent.
pub struct Lent<T> {
    cells: Vec<T>,
    before: Vec<T>,
}

impl<T: Copy + PartialEq + std::fmt::Debug> Lent<T> {
    pub fn holding(content: &[T], mut junk: impl FnMut() -> T) -> Lent<T> {
        let mut cells: Vec<T> = (0..MARGIN).map(|_| junk()).collect();
        cells.extend(content);
        cells.extend((0..MARGIN).map(|_| junk()));
        Lent { before: cells.clone(), cells }
    }

    pub fn junk(room: usize, mut junk: impl FnMut() -> T) -> Lent<T> {
        let content: Vec<T> = (0..room).map(|_| junk()).collect();
        Lent::holding(&content, junk)
    }

    pub fn lend(&mut self) -> &mut [T] {
        let end = self.cells.len() - MARGIN;
        &mut self.cells[MARGIN..end]
    }

    pub fn now(&self) -> &[T] {
        &self.cells[MARGIN..self.cells.len() - MARGIN]
    }

    /// Whether the first `written` cells are all that may have changed.
    pub fn rest_unchanged(&self, written: usize) -> bool {
        let from = MARGIN + written;
        self.cells[..MARGIN] == self.before[..MARGIN] && self.cells[from..] == self.before[from..]
    }

    pub fn unchanged(&self) -> bool {
        self.cells == self.before
    }
}

fn junk_numbers(room: usize, random: &mut Random) -> Lent<i32> {
    Lent::junk(room, || random.number())
}

fn junk_bytes(room: usize, random: &mut Random) -> Lent<u8> {
    Lent::junk(room, || random.byte())
}

/// Has the compiler look at this memory again after a call; of what is lent to be read only it could take for granted that it stays.
fn look_again<T>(lent: &mut T) {
    // SAFETY: no instruction; it only stands for one that may read and write what the pointer leads to
    unsafe { std::arch::asm!("/* {0} */", in(reg) lent as *mut T, options(nostack, preserves_flags)) };
}

/// A plant with all that the comparison needs of it.
pub struct Solved {
    pub plant: Plant,
    pub order: Order,
    pub values: Vec<i32>,
    pub weight: i32,
}

impl Solved {
    /// The items on inputs, then all values.
    pub fn read(inputs: &Inputs) -> Result<Solved, u32> {
        Plant::read(inputs).map(Solved::of)
    }

    pub fn of(plant: Plant) -> Solved {
        let order = Order::of(&plant);
        let values = values::all_values(&plant, &order);
        let weight = values::answer(&order, &values);
        Solved { plant, order, values, weight }
    }

    /// Item 13.
    fn enough_work(self, room: usize) -> Result<Solved, u32> {
        if room < self.plant.subproblems() {
            Err(13)
        } else {
            Ok(self)
        }
    }
}

/// How much to lend: the items on inputs. The numbers must be those of a count: the subproblems one by one, a certificate record by record. Gives
/// back the refusal, or the numbers.
pub fn sizes(inputs: &Inputs) -> Result<Sizes, u32> {
    let expected = Plant::read(inputs).map(|plant| {
        let order = Order::of(&plant);
        let records: usize = certificate::records(&plant, &order).iter().map(Record::length).sum();
        let count = order.subproblems.len();
        Sizes { subproblems: count as u32, work: count, certificate: HEAD + PARTNER * plant.n() + records }
    });
    let mut lent = inputs.clone();
    let result = pensummer::sizes(lent.lent()).map_err(Refusal::number);
    look_again(&mut lent);
    assert!(lent == *inputs, "sizes changed its inputs{inputs:?}");
    assert_eq!(result, expected, "sizes{inputs:?}");
    result
}

/// The match in one call: items 13 and 18. Gives back the refusal, or the mapping.
pub fn match_trees(inputs: &Inputs, work_room: usize, mapping_room: usize, random: &mut Random) -> Result<Vec<u8>, u32> {
    let expected =
        Solved::read(inputs).and_then(|s| s.enough_work(work_room)).and_then(|s| if mapping_room < s.plant.n() { Err(18) } else { Ok(s) });
    let (mut lent, mut work, mut mapping) = (inputs.clone(), junk_numbers(work_room, random), junk_bytes(mapping_room, random));
    let result = pensummer::match_trees(lent.lent(), work.lend(), mapping.lend()).map_err(Refusal::number);
    look_again(&mut lent);
    assert!(lent == *inputs, "match changed its inputs{inputs:?}");
    match expected {
        Err(item) => {
            assert_eq!(result, Err(item), "match: refusal, {work_room} numbers, {mapping_room} bytes{inputs:?}");
            assert!(work.unchanged() && mapping.unchanged(), "match: memory after refusal {item}{inputs:?}");
            Err(item)
        }
        Ok(s) => {
            assert_eq!(result, Ok(s.weight), "match: heaviest weight, {work_room} numbers, {mapping_room} bytes{inputs:?}");
            assert_eq!(work.now()[..s.values.len()], s.values, "match: values{inputs:?}");
            assert!(work.rest_unchanged(s.values.len()), "match: work numbers past the values{inputs:?}");
            assert!(mapping.rest_unchanged(s.plant.n()), "match: bytes past the mapping{inputs:?}");
            let mapping = &mapping.now()[..s.plant.n()];
            assert!(mapping::is_mapping(&s.plant, mapping), "match: {mapping:?} is no mapping{inputs:?}");
            assert_eq!(mapping::weight(&s.plant, mapping), s.weight as i64, "match: weight of the mapping {mapping:?}{inputs:?}");
            Ok(mapping.to_vec())
        }
    }
}

/// Starting: item 13.
pub fn start(job: &mut Job, inputs: &Inputs, work: &[i32], random: &mut Random) -> Result<(), u32> {
    let expected = Plant::read(inputs).and_then(|p| if work.len() < p.subproblems() { Err(13) } else { Ok(p) });
    let (mut lent, mut work, before) = (inputs.clone(), Lent::holding(work, || random.number()), *job);
    let result = job.start(lent.lent(), work.lend()).map_err(Refusal::number);
    look_again(&mut (&mut lent, &mut work));
    assert!(lent == *inputs, "start changed its inputs{inputs:?}");
    assert!(work.unchanged(), "start changed a work number{inputs:?}");
    match expected {
        Err(item) => {
            assert_eq!(result, Err(item), "start: refusal{inputs:?}");
            assert_eq!(*job, before, "start: record after refusal {item}{inputs:?}");
            Err(item)
        }
        Ok(p) => {
            assert_eq!(result, Ok(()), "start: refusal{inputs:?}");
            let started = Job { idle: 0, n: p.n() as u32, m: p.m() as u32, position: 0, total: before.total };
            assert_eq!(*job, started, "start: record{inputs:?}");
            Ok(())
        }
    }
}

/// The items that advance and finish test: those on inputs, and 13 to 16.
fn job_items(job: &Job, inputs: &Inputs, work: &[i32]) -> Result<(Plant, Order), u32> {
    let plant = Plant::read(inputs)?;
    if work.len() < plant.subproblems() {
        return Err(13);
    }
    let (n, m) = (job.n as u64, job.m as u64);
    if job.idle != 0 || !(1..=64).contains(&n) || !(1..=64).contains(&m) || job.position as u64 > n * (3 * m - 2) {
        return Err(14);
    }
    if n as usize != plant.n() || m as usize != plant.m() {
        return Err(15);
    }
    let order = Order::of(&plant);
    for (of, &number) in order.subproblems.iter().zip(work).take(job.position as usize) {
        let fits = match plant.pair(of.u, of.v) {
            Some(_) => (-WEIGHT_MOST..=VALUE_MOST).contains(&number),
            None => number == FORBIDDEN,
        };
        if !fits {
            return Err(16);
        }
    }
    Ok((plant, order))
}

/// An advance: items 13 to 16. Works on the caller's work numbers; gives back the refusal, or how many subproblems were solved.
pub fn advance(job: &mut Job, inputs: &Inputs, budget: u32, work: &mut [i32], random: &mut Random) -> Result<u32, u32> {
    let expected = job_items(job, inputs, work);
    let (mut copy, mut lent_work, before) = (inputs.clone(), Lent::holding(work, || random.number()), *job);
    let result = job.advance(copy.lent(), budget, lent_work.lend()).map_err(Refusal::number);
    look_again(&mut copy);
    assert!(copy == *inputs, "advance changed its inputs{inputs:?}");
    match expected {
        Err(item) => {
            assert_eq!(result, Err(item), "advance: refusal for {before:?}, {} numbers{inputs:?}", work.len());
            assert_eq!(*job, before, "advance: record after refusal {item}{inputs:?}");
            assert!(lent_work.unchanged(), "advance: work numbers after refusal {item}{inputs:?}");
            Err(item)
        }
        Ok((plant, order)) => {
            let from = before.position as usize;
            let count = (budget as usize).min(plant.subproblems() - from);
            assert_eq!(result, Ok(count as u32), "advance: count for {before:?}, budget {budget}, {} numbers{inputs:?}", work.len());
            let advanced = Job {
                position: before.position + count as u32,
                total: (before.total as u64 + count as u64).min(4_294_967_295) as u32,
                ..before
            };
            assert_eq!(*job, advanced, "advance: record, budget {budget}{inputs:?}");
            values::solve(&plant, &order, work, from, from + count);
            assert_eq!(lent_work.now(), work, "advance: work numbers for {before:?}, budget {budget}{inputs:?}");
            let room = work.len();
            assert!(lent_work.rest_unchanged(room), "advance wrote past the work numbers{inputs:?}");
            Ok(count as u32)
        }
    }
}

/// Finishing: items 13 to 18. The mapping must be legal and its weight exact. Gives back the refusal, or the weight.
pub fn finish(job: &Job, inputs: &Inputs, work: &[i32], mapping_room: usize, random: &mut Random) -> Result<i32, u32> {
    let expected = job_items(job, inputs, work).and_then(|(plant, order)| {
        if (job.position as usize) < plant.subproblems() {
            Err(17)
        } else if mapping_room < plant.n() {
            Err(18)
        } else {
            Ok((plant, order))
        }
    });
    let (mut copy, mut work, mut mapping, mut lent) =
        (inputs.clone(), Lent::holding(work, || random.number()), junk_bytes(mapping_room, random), *job);
    let result = lent.finish(copy.lent(), work.lend(), mapping.lend()).map_err(Refusal::number);
    look_again(&mut (&mut copy, &mut work, &mut lent));
    assert!(copy == *inputs && lent == *job, "finish changed its inputs or the record{inputs:?}");
    assert!(work.unchanged(), "finish changed a work number{inputs:?}");
    match expected {
        Err(item) => {
            assert_eq!(result, Err(item), "finish: refusal for {job:?}, {mapping_room} bytes{inputs:?}");
            assert!(mapping.unchanged(), "finish: mapping after refusal {item}{inputs:?}");
            Err(item)
        }
        Ok((plant, _)) => {
            assert!(result.is_ok(), "finish: refusal {result:?} for {job:?}, {mapping_room} bytes{inputs:?}");
            assert!(mapping.rest_unchanged(plant.n()), "finish: bytes past the mapping{inputs:?}");
            let mapping = &mapping.now()[..plant.n()];
            assert!(mapping::is_mapping(&plant, mapping), "finish: {mapping:?} is no mapping, work {:?}{inputs:?}", work.now());
            let weight = mapping::weight(&plant, mapping);
            assert_eq!(result.map(i64::from), Ok(weight), "finish: weight of {mapping:?}, work {:?}{inputs:?}", work.now());
            result
        }
    }
}

/// A job in slices of about so many, over exactly the work numbers wanted. Its counts must add up to the subproblems; a finish must be refused by 17
/// before that and not after, and a further advance must count nothing. Gives back the record and the work numbers at the end.
pub fn in_slices(inputs: &Inputs, slice: usize, random: &mut Random) -> (Job, Vec<i32>) {
    let sizes = sizes(inputs).expect("an accepted plant");
    let mapping = inputs.recorded[2] as usize;
    let (mut job, mut counted) = (Job::fresh(), 0);
    let mut work: Vec<i32> = (0..sizes.work).map(|_| random.number()).collect();
    start(&mut job, inputs, &work, random).expect("a start");
    while counted < sizes.subproblems {
        assert_eq!(finish(&job, inputs, &work, mapping, random), Err(17), "{counted} of {sizes:?}{inputs:?}");
        let budget = random.below(2 * slice) as u32;
        counted += advance(&mut job, inputs, budget, &mut work, random).expect("an advance");
    }
    assert_eq!(counted, sizes.subproblems, "{inputs:?}");
    finish(&job, inputs, &work, mapping, random).expect("a finish");
    assert_eq!(advance(&mut job, inputs, u32::MAX, &mut work, random), Ok(0), "{inputs:?}");
    (job, work)
}

/// Writing a certificate: items 13 and 19. It must have the values of the subproblems, and both checks must accept it. Gives back the
/// refusal, or the certificate.
pub fn write(inputs: &Inputs, work_room: usize, certificate_room: usize, random: &mut Random) -> Result<Vec<u8>, u32> {
    let expected = Solved::read(inputs).and_then(|s| s.enough_work(work_room)).and_then(|s| {
        if certificate_room < certificate::length(&s.plant) {
            Err(19)
        } else {
            Ok(s)
        }
    });
    let (mut lent, mut work, mut bytes) = (inputs.clone(), junk_numbers(work_room, random), junk_bytes(certificate_room, random));
    let result = pensummer::write_certificate(lent.lent(), work.lend(), bytes.lend()).map_err(Refusal::number);
    look_again(&mut lent);
    assert!(lent == *inputs, "write changed its inputs{inputs:?}");
    match expected {
        Err(item) => {
            assert_eq!(result, Err(item), "write: refusal, {work_room} numbers, {certificate_room} bytes{inputs:?}");
            assert!(work.unchanged() && bytes.unchanged(), "write: memory after refusal {item}{inputs:?}");
            Err(item)
        }
        Ok(s) => {
            let length = certificate::length(&s.plant);
            assert_eq!(result, Ok(length), "write: length, {work_room} numbers, {certificate_room} bytes{inputs:?}");
            assert_eq!(work.now()[..s.values.len()], s.values, "write: values{inputs:?}");
            assert!(work.rest_unchanged(s.values.len()), "write: work numbers past the values{inputs:?}");
            assert!(bytes.rest_unchanged(length), "write: bytes past the certificate{inputs:?}");
            let certificate = &bytes.now()[..length];
            let records = certificate::records(&s.plant, &s.order);
            assert_eq!(certificate::check(&s.plant, &s.order, &records, certificate), 0, "write: the independent check{inputs:?}");
            assert_eq!(pensummer::check_certificate(inputs.lent(), certificate), Ok(()), "write: the check{inputs:?}");
            assert_eq!(number_at(certificate, 4), s.weight, "write: weight{inputs:?}");
            for (record, &value) in records.iter().zip(&s.values) {
                assert_eq!(number_at(certificate, record.value_at()), value, "write: value of {:?}{inputs:?}", record.of);
            }
            Ok(certificate.to_vec())
        }
    }
}

/// The match, a job in slices and the writing of a certificate, each lent just what it takes, must all give the same weight. Gives back that
/// and the mapping of the match.
pub fn heaviest(inputs: &Inputs, random: &mut Random) -> (i32, Vec<u8>) {
    let sizes = sizes(inputs).expect("an accepted plant");
    let room = inputs.recorded[2] as usize;
    let mapping = match_trees(inputs, sizes.work, room, random).expect("a match");
    let (job, work) = in_slices(inputs, sizes.work / 8 + 1, random);
    let weight = finish(&job, inputs, &work, room, random).expect("a finish");
    let certificate = write(inputs, sizes.work, sizes.certificate, random).expect("a written certificate");
    assert_eq!(number_at(&certificate, 4), weight, "a job and a certificate{inputs:?}");
    (weight, mapping)
}

/// The check: items 20 to 24.
pub fn check(inputs: &Inputs, certificate: &[u8]) -> u32 {
    let item = match Plant::read(inputs) {
        Err(item) => item,
        Ok(plant) => {
            let order = Order::of(&plant);
            certificate::check(&plant, &order, &certificate::records(&plant, &order), certificate)
        }
    };
    check_gives(inputs, certificate, item)
}

/// The check must give this number.
pub fn check_gives(inputs: &Inputs, certificate: &[u8], item: u32) -> u32 {
    let (mut lent, mut lent_certificate) = (inputs.clone(), certificate.to_vec());
    let result = pensummer::check_certificate(lent.lent(), &lent_certificate).map_or_else(Refusal::number, |()| 0);
    look_again(&mut (&mut lent, &mut lent_certificate));
    assert!(lent == *inputs && lent_certificate == certificate, "check changed what it was lent{inputs:?}");
    assert_eq!(result, item, "check{inputs:?}\n certificate {}", crate::reading::hex(certificate));
    item
}

/// What is lent to a call beside its inputs.
#[derive(Clone, PartialEq, Eq)]
pub struct Lending {
    pub job: Job,
    pub work: Vec<i32>,
    pub budget: u32,
    pub mapping_room: usize,
    pub certificate_room: usize,
    pub certificate: Vec<u8>,
}

impl Lending {
    /// Right for a plant; the job is anywhere between its start and its end.
    pub fn right(inputs: &Inputs, random: &mut Random) -> Lending {
        let solved = Solved::read(inputs).expect("an accepted plant");
        let (n, m, end) = (solved.plant.n(), solved.plant.m(), solved.values.len());
        let position = if random.once_in(2) { end } else { random.below(end + 1) };
        let sizes = sizes(inputs).expect("an accepted plant");
        let certificate = write(inputs, sizes.work, sizes.certificate, random).expect("a written certificate");
        Lending {
            job: Job { idle: 0, n: n as u32, m: m as u32, position: position as u32, total: random.draw() as u32 },
            work: solved.values,
            budget: random.below(40) as u32,
            mapping_room: n,
            certificate_room: sizes.certificate,
            certificate,
        }
    }

    /// Wrong for every plant: no room and an idle record, so that all calls but the sizes refuse an accepted one.
    pub fn wrong() -> Lending {
        Lending { job: Job::fresh(), work: Vec::new(), budget: 1, mapping_room: 0, certificate_room: 0, certificate: Vec::new() }
    }
}

/// Every call on the same inputs. Gives back the numbers: match, start, advance, finish, write, check, sizes.
pub fn every_call(inputs: &Inputs, lending: &Lending, random: &mut Random) -> [u32; 7] {
    let number = |result: Result<(), u32>| result.err().unwrap_or(0);
    let mut job = lending.job;
    let started = start(&mut job, inputs, &lending.work, random);
    let (mut job, mut work) = (lending.job, lending.work.clone());
    let advanced = advance(&mut job, inputs, lending.budget, &mut work, random).map(|_| ());
    [
        number(match_trees(inputs, lending.work.len(), lending.mapping_room, random).map(|_| ())),
        number(started),
        number(advanced),
        number(finish(&lending.job, inputs, &lending.work, lending.mapping_room, random).map(|_| ())),
        number(write(inputs, lending.work.len(), lending.certificate_room, random).map(|_| ())),
        check(inputs, &lending.certificate),
        number(sizes(inputs).map(|_| ())),
    ]
}
