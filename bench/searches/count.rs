//! Prints how many path searches filling takes on the plants of bench/calls, of how many at most, and how often a pair of a child
//! and a neighbour is looked at: sums over the six plants of a line. The counts are the proved library's own (crates/searches). It stops
//! where a count is above its bound. Run it by run.sh.
#[allow(dead_code)]
#[path = "../calls/plants.rs"]
mod plants;

/// What plants.rs takes from the Rust crate, which is not linked here.
mod pensummer {
    pub const VERTICES_MOST: usize = 64;
    pub const WEIGHT_MOST: i32 = 16_000_000;
}

use pensummer::VERTICES_MOST;
use plants::{plant, Random, SHAPES};

const PLANTS: usize = 6;
const WORK_MOST: usize = VERTICES_MOST * (3 * VERTICES_MOST - 2);

/// As in crates/searches/src/pairs.rt.
#[repr(C)]
struct Tally {
    item: u8,
    searches: u64,
    most: u64,
    looks: u64,
    reached: u64,
    greatest: u64,
}

extern "C" {
    fn tally_searches(
        table: *const u8,
        table_length: usize,
        recorded: *const u8,
        recorded_length: usize,
        found: *const u8,
        found_length: usize,
        work: *mut i32,
        work_length: usize,
    ) -> Tally;
}

/// The counts of one plant.
fn tally(p: &plants::Plant, work: &mut [i32]) -> Tally {
    // SAFETY: each pointer comes with the length of what it points to, and the call keeps to them.
    unsafe {
        tally_searches(
            p.table.as_ptr(),
            p.table.len(),
            p.recorded.as_ptr(),
            p.recorded.len(),
            p.found.as_ptr(),
            p.found.len(),
            work.as_mut_ptr(),
            work.len(),
        )
    }
}

fn main() {
    let mut work = vec![0; WORK_MOST];
    let mut random = Random(88172645463325252);
    for shape in &SHAPES {
        for &n in &[16, 32, 64] {
            let (mut searches, mut most, mut looks, mut reached, mut greatest) = (0, 0, 0, 0, 0);
            for i in 0..PLANTS {
                let t = tally(&plant(shape, n, i, &mut random), &mut work);
                assert_eq!(t.item, 0);
                assert_eq!(t.most as usize, n * (3 * n - 2) - n);
                assert!(t.searches <= t.most);
                searches += t.searches;
                most += t.most;
                looks += t.looks;
                reached += t.reached;
                greatest = greatest.max(t.greatest);
            }
            println!(
                "{:<24} searches {searches:6} of at most {most:6}, looks {looks:7}, {reached:5} pairs reach their bound, the most of a pair {greatest:2}",
                format!("{}, {} by {}", shape, n, n)
            );
        }
    }
}
