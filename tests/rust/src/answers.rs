//! What the calls give for a plant, so that two plants can be compared that must not be told apart, or only by their weights.

use crate::reading::Inputs;
use pensummer::{Job, Refusal, Sizes, VERTICES_MOST, WORK_MOST};

/// The weight of a match.
pub fn weight(inputs: &Inputs) -> i32 {
    let (mut work, mut mapping) = ([0; WORK_MOST], [0; VERTICES_MOST]);
    pensummer::match_trees(inputs.lent(), &mut work, &mut mapping).unwrap_or_else(|refusal| panic!("{refusal}{inputs:?}"))
}

/// All that the calls give and leave behind.
#[derive(Debug, PartialEq, Eq)]
pub struct Answers {
    pub sizes: Sizes,
    pub weight: i32,
    pub mapping: Vec<u8>,
    pub values: Vec<i32>,
    pub certificate: Vec<u8>,
    /// A job's counts, its record at the end, its work numbers, its weight and mapping.
    pub job: (Vec<u32>, Job, Vec<i32>, i32, Vec<u8>),
}

impl Answers {
    /// The answers of all calls, the advances of the job with this budget; or a refusal.
    pub fn of(inputs: &Inputs, budget: u32) -> Result<Answers, Refusal> {
        let i = inputs.lent();
        let sizes = pensummer::sizes(i)?;
        let (mut values, mut mapping) = (vec![7; sizes.work], vec![7; inputs.recorded[2].into()]);
        let weight = pensummer::match_trees(i, &mut values, &mut mapping)?;
        let (mut written, mut certificate) = (vec![7; sizes.work], vec![7; sizes.certificate]);
        pensummer::write_certificate(i, &mut written, &mut certificate)?;
        pensummer::check_certificate(i, &certificate)?;
        assert_eq!(written, values, "work numbers of a writing{inputs:?}");
        let (mut job, mut counts, mut work, mut partners) = (Job::fresh(), Vec::new(), vec![7; sizes.work], vec![7; mapping.len()]);
        job.start(i, &work)?;
        while job.position < sizes.subproblems {
            counts.push(job.advance(i, budget, &mut work)?);
        }
        let finished = job.finish(i, &work, &mut partners)?;
        Ok(Answers { sizes, weight, mapping, values, certificate, job: (counts, job, work, finished, partners) })
    }
}
