//! What came of damaged inputs that were given to every call.

use crate::compare::{every_call, Lending};
use crate::random::Random;
use crate::reading::{Inputs, ITEMS};

/// How many damaged inputs there were, and how often each number was given.
pub struct Tally {
    name: &'static str,
    pub inputs: usize,
    by_number: [usize; ITEMS + 1],
}

impl Tally {
    pub fn new(name: &'static str) -> Tally {
        Tally { name, inputs: 0, by_number: [0; ITEMS + 1] }
    }

    /// Has every call look at damaged inputs. Gives back the numbers.
    pub fn add(&mut self, damaged: &Inputs, lending: &Lending, random: &mut Random) -> [u32; 7] {
        let numbers = every_call(damaged, lending, random);
        self.count(&numbers);
        numbers
    }

    /// One more, with these numbers.
    pub fn count(&mut self, numbers: &[u32]) {
        self.inputs += 1;
        for &number in numbers {
            self.by_number[number as usize] += 1;
        }
    }

    /// At least so many, and each of these numbers among them.
    pub fn report(&self, least: usize, numbers: &[usize]) {
        let Tally { name, inputs, by_number } = self;
        println!("{name}: {inputs} damaged inputs, each to every call that reads it, numbers given {by_number:?}");
        assert!(*inputs >= least, "{name}: {inputs} of {least}");
        for &number in numbers {
            assert!(by_number[number] > 0, "{name}: {number} came up");
        }
    }
}
