//! Random numbers from a seed. The seed is PENSUMMER_SEED if that is set, else a fixed one, so that a run can be repeated.

pub const USUAL_SEED: u64 = 64_278_736;

/// The seed of this run.
pub fn seed() -> u64 {
    match std::env::var("PENSUMMER_SEED") {
        Ok(text) => text.trim().parse().expect("PENSUMMER_SEED is a decimal number below 2^64"),
        Err(_) => USUAL_SEED,
    }
}

/// A stream of numbers (splitmix64).
pub struct Random(u64);

impl Random {
    /// The stream of one test: the run's seed and the test's name. The seed is printed; the test runner shows it if the test fails.
    pub fn of_test(name: &str) -> Random {
        let seed = seed();
        println!("{name}: PENSUMMER_SEED={seed}");
        let mut state = seed;
        for byte in name.bytes() {
            state = (state ^ byte as u64).wrapping_mul(0x0000_0100_0000_01B3).rotate_left(17);
        }
        Random(state)
    }

    /// Any 64-bit number.
    pub fn draw(&mut self) -> u64 {
        self.0 = self.0.wrapping_add(0x9E37_79B9_7F4A_7C15);
        let mut z = self.0;
        z = (z ^ (z >> 30)).wrapping_mul(0xBF58_476D_1CE4_E5B9);
        z = (z ^ (z >> 27)).wrapping_mul(0x94D0_49BB_1331_11EB);
        z ^ (z >> 31)
    }

    /// A number from 0 to `n - 1`.
    pub fn below(&mut self, n: usize) -> usize {
        (self.draw() >> 11) as usize % n
    }

    /// A number from `low` to `high`, both included.
    pub fn between(&mut self, low: i64, high: i64) -> i64 {
        low + self.below((high - low + 1) as usize) as i64
    }

    /// True once in `n`.
    pub fn once_in(&mut self, n: usize) -> bool {
        self.below(n) == 0
    }

    pub fn byte(&mut self) -> u8 {
        self.draw() as u8
    }

    /// Any 32-bit number.
    pub fn number(&mut self) -> i32 {
        self.draw() as i32
    }

    pub fn pick<'a, T>(&mut self, of: &'a [T]) -> &'a T {
        &of[self.below(of.len())]
    }

    pub fn shuffle<T>(&mut self, of: &mut [T]) {
        for i in (1..of.len()).rev() {
            of.swap(i, self.below(i + 1));
        }
    }
}
