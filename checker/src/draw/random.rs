//! A small generator that always gives the same numbers for the same seed (splitmix64).

use std::env;

/// A generator; the same seed gives the same numbers on every machine.
pub struct Random {
    state: u64,
}

/// The seed of a test: CHECKER_SEED if it is set, else the given one.
pub fn seed_or(seed: u64) -> u64 {
    match env::var("CHECKER_SEED") {
        Ok(text) => text
            .parse()
            .expect("CHECKER_SEED is not a decimal number of at most 64 bits"),
        Err(_) => seed,
    }
}

impl Random {
    /// Begins at a seed.
    pub fn new(seed: u64) -> Random {
        Random { state: seed }
    }

    /// 64 new bits.
    pub fn bits(&mut self) -> u64 {
        self.state = self.state.wrapping_add(0x9E37_79B9_7F4A_7C15);
        let mut x = self.state;
        x = (x ^ (x >> 30)).wrapping_mul(0xBF58_476D_1CE4_E5B9);
        x = (x ^ (x >> 27)).wrapping_mul(0x94D0_49BB_1331_11EB);
        x ^ (x >> 31)
    }

    /// A number from 0 to n - 1.
    pub fn below(&mut self, n: u32) -> u32 {
        (self.bits() % u64::from(n)) as u32
    }

    /// A number from least to most, both included.
    pub fn between(&mut self, least: i64, most: i64) -> i64 {
        assert!(least <= most, "nothing between {least} and {most}");
        let count = (most - least) as u64 + 1;
        least + (self.bits() % count) as i64
    }

    /// One of the choices.
    pub fn pick<T: Copy>(&mut self, choices: &[T]) -> T {
        choices[(self.bits() % choices.len() as u64) as usize]
    }

    /// The same items in turn, from any of them on.
    pub fn turned<T, const N: usize>(&mut self, mut items: [T; N]) -> [T; N] {
        let first = self.below(N as u32) as usize;
        items.rotate_left(first);
        items
    }

    /// True once in n times.
    pub fn one_in(&mut self, n: u32) -> bool {
        self.below(n) == 0
    }
}

#[cfg(test)]
mod tests {
    use super::*;

    /// The published first numbers of splitmix64 from 0: a recorded seed must keep its draws.
    #[test]
    fn the_numbers_of_seed_0() {
        let mut random = Random::new(0);
        assert_eq!(random.bits(), 0xE220_A839_7B1D_CDAF);
        assert_eq!(random.bits(), 0x6E78_9E6A_A1B9_65F4);
        assert_eq!(random.bits(), 0x06C4_5D18_8009_454F);
    }

    #[test]
    fn every_number_between_two_is_met_and_no_other() {
        let mut random = Random::new(1);
        let mut met = [false; 5];
        for _ in 0..1000 {
            met[(random.between(-2, 2) + 2) as usize] = true;
        }
        assert_eq!(met, [true; 5]);
    }
}
