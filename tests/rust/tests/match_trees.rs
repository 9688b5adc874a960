//! The match in one call on random small plants of all shapes, against the exhaustive search and the independent dynamic program.

use pensummer_tests::compare::{self, Solved};
use pensummer_tests::directions::Decided;
use pensummer_tests::mapping::{self, NONE};
use pensummer_tests::plants::{self, small_shapes};
use pensummer_tests::random::Random;
use pensummer_tests::reading::{Inputs, Kind, Plant, ITEMS, UNKNOWN};
use pensummer_tests::serials;

/// Every pair of shapes of 1 to 6 vertices as often as this: 196 pairs, so 20,188 plants.
const ROUNDS: usize = 103;

/// What the serials of the plants tried did.
#[derive(Debug, Default)]
struct Serials {
    /// How many plants there were with serials in neither tree, in the found one, in the recorded one, in both.
    kinds: [usize; 4],
    /// How many were lighter than without their serials.
    lighter: usize,
    /// How many mapped two vertices with the same known serial, and how many a known one with an unknown one.
    equal: usize,
    unknown: usize,
}

impl Serials {
    fn add(&mut self, inputs: &Inputs, plant: &Plant, mapping: &[u8], heaviest: i64) {
        let with = [&plant.recorded, &plant.found].map(|tree| usize::from(tree.kind == Kind::Serial));
        self.kinds[2 * with[0] + with[1]] += 1;
        let pairs = mapping.iter().enumerate().filter(|(_, &v)| v != NONE);
        let mapped: Vec<(u32, u32)> = pairs.map(|(u, &v)| (plant.recorded.serials[u], plant.found.serials[v as usize])).collect();
        self.equal += usize::from(mapped.iter().any(|&(a, b)| a != UNKNOWN && a == b));
        self.unknown += usize::from(mapped.iter().any(|&(a, b)| (a == UNKNOWN) != (b == UNKNOWN)));
        if with == [1, 1] {
            let without = Solved::read(&serials::without(inputs)).expect("an accepted plant").weight.into();
            assert!(heaviest <= without, "serials only forbid{inputs:?}");
            self.lighter += usize::from(heaviest < without);
        }
    }

    /// Each kind of plant was among those tried, and not seldom.
    fn report(&self, tried: usize) {
        println!("{self:?}");
        let Serials { kinds, lighter, equal, unknown } = self;
        assert!(kinds.iter().chain([lighter, equal, unknown]).all(|&count| count > tried / 20), "of {tried} plants: {self:?}");
    }
}

#[test]
fn heaviest_by_exhaustive_search() {
    let mut random = Random::of_test("heaviest_by_exhaustive_search");
    let shapes = small_shapes();
    let (mut tried, mut mappings, mut positive) = (0, 0, 0);
    let (mut serials, mut directions) = (Serials::default(), Decided::default());
    for _ in 0..ROUNDS {
        for recorded in &shapes {
            for found in &shapes {
                let inputs = plants::plant(recorded, found, &mut random);
                let plant = Plant::read(&inputs).expect("an accepted plant");
                let (heaviest, count) = mapping::search(&plant);
                // the room is exact or longer
                let (numbers, bytes) =
                    (compare::sizes(&inputs).expect("an accepted plant").work + random.below(3), plant.n() + random.below(3));
                let mapping = compare::match_trees(&inputs, numbers, bytes, &mut random).expect("a match");
                assert_eq!(mapping::weight(&plant, &mapping), heaviest, "the heaviest of {count} mappings{inputs:?}");
                serials.add(&inputs, &plant, &mapping, heaviest);
                directions.add(&inputs, &plant, heaviest);
                tried += 1;
                mappings += count;
                positive += usize::from(heaviest > 0);
            }
        }
    }
    assert!(tried >= 20_000 && positive > tried / 2, "{positive} of {tried} plants have a mapping above 0");
    serials.report(tried);
    directions.report(tried);
    println!("{tried} plants, {mappings} mappings searched, {positive} plants with a weight above 0");
}

#[test]
fn buffers_short_exact_and_long() {
    let mut random = Random::of_test("buffers_short_exact_and_long");
    let shapes = small_shapes();
    let (mut tried, mut refusals) = (0, [0; ITEMS + 1]);
    for _ in 0..400 {
        let inputs = plants::small_plant(&shapes, &mut random);
        let solved = Solved::read(&inputs).expect("an accepted plant");
        let (values, n) = (solved.values.len(), solved.plant.n());
        for numbers in [0, values - 1, values, values + 1, values + 7] {
            for bytes in [0, n - 1, n, n + 1, 64] {
                let result = compare::match_trees(&inputs, numbers, bytes, &mut random);
                refusals[result.err().unwrap_or(0) as usize] += 1;
                tried += 1;
            }
        }
    }
    assert!(refusals[13] > 0 && refusals[18] > 0 && refusals[0] > 0 && tried == refusals[0] + refusals[13] + refusals[18]);
    println!("{tried} pairs of buffers");
}
