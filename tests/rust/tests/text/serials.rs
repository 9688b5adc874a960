//! Plants with serials, judged by the rules of plants without them and by what serials add, word by word.
use super::made::Made;
use pensummer_tests::mapping;
use pensummer_tests::reading::{Plant, Weight};

/// An accepted plant, with the serials of its two trees, 0 where they are unknown or where there are none.
pub struct Judged {
    /// The plant without serials.
    pub plant: Plant,
    serials: [Vec<u32>; 2],
}

impl Judged {
    /// Items 1 to 12, 25 and 26.
    pub fn read(made: &Made) -> Result<Judged, u32> {
        let [recorded_twice, found_twice] = [made.trees[0].has_serial_twice(), made.trees[1].has_serial_twice()];
        match Plant::read(&made.inputs_without_serials()) {
            Err(item @ 1..=7) => Err(item),
            _ if recorded_twice => Err(25),
            Err(item) => Err(item),
            Ok(_) if found_twice => Err(26),
            Ok(plant) => {
                let serials = |at: usize| made.trees[at].serials.clone().unwrap_or_else(|| vec![0; made.trees[at].labels.len()]);
                Ok(Judged { plant, serials: [serials(0), serials(1)] })
            }
        }
    }

    pub fn n(&self) -> usize {
        self.plant.n()
    }

    pub fn m(&self) -> usize {
        self.plant.m()
    }

    /// The weight of recorded u with found v: none if their serials are known and differ.
    pub fn pair(&self, u: usize, v: usize) -> Weight {
        match (self.serials[0][u], self.serials[1][v]) {
            (0, _) | (_, 0) => self.plant.pair(u, v),
            (a, b) if a == b => self.plant.pair(u, v),
            _ => None,
        }
    }

    /// Whether the bytes are a common subtree mapping.
    pub fn is_mapping(&self, mapping: &[u8]) -> bool {
        let allowed = |(u, &v): (usize, &u8)| v == mapping::NONE || self.pair(u, v.into()).is_some();
        mapping::is_mapping(&self.plant, mapping) && mapping.iter().enumerate().all(allowed)
    }

    pub fn weight(&self, mapping: &[u8]) -> i64 {
        mapping::weight(&self.plant, mapping)
    }

    /// How many pairs serials alone forbid.
    pub fn forbidden_by_serials(&self) -> usize {
        let pairs = (0..self.n()).flat_map(|u| (0..self.m()).map(move |v| (u, v)));
        pairs.filter(|&(u, v)| self.pair(u, v) != self.plant.pair(u, v)).count()
    }
}
