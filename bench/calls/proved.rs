//! The proved library's calls with the plain ones' signatures.
use pensummer::{Inputs, Job, Refusal};

fn inputs<'a>(table: &'a [u8], recorded: &'a [u8], found: &'a [u8]) -> Inputs<'a> {
    Inputs { table, recorded, found }
}

pub fn sizes(t: &[u8], r: &[u8], f: &[u8]) -> Result<(usize, usize), u32> {
    pensummer::sizes(inputs(t, r, f)).map(|s| (s.work, s.certificate)).map_err(Refusal::number)
}

pub fn match_trees(t: &[u8], r: &[u8], f: &[u8], work: &mut [i32], mapping: &mut [u8]) -> Result<i32, u32> {
    pensummer::match_trees(inputs(t, r, f), work, mapping).map_err(Refusal::number)
}

pub fn start(t: &[u8], r: &[u8], f: &[u8], work: &[i32]) -> Result<Job, u32> {
    let mut job = Job::fresh();
    job.start(inputs(t, r, f), work).map_err(Refusal::number)?;
    Ok(job)
}

pub fn advance(job: &mut Job, t: &[u8], r: &[u8], f: &[u8], budget: usize, work: &mut [i32]) -> Result<usize, u32> {
    let count = job.advance(inputs(t, r, f), budget as u32, work).map_err(Refusal::number)?;
    Ok(count as usize)
}

pub fn finish(job: &Job, t: &[u8], r: &[u8], f: &[u8], work: &[i32], mapping: &mut [u8]) -> Result<i32, u32> {
    job.finish(inputs(t, r, f), work, mapping).map_err(Refusal::number)
}

pub fn write(t: &[u8], r: &[u8], f: &[u8], work: &mut [i32], certificate: &mut [u8]) -> Result<usize, u32> {
    pensummer::write_certificate(inputs(t, r, f), work, certificate).map_err(Refusal::number)
}

pub fn check(t: &[u8], r: &[u8], f: &[u8], certificate: &[u8]) -> u32 {
    pensummer::check_certificate(inputs(t, r, f), certificate).map_or_else(Refusal::number, |()| 0)
}
