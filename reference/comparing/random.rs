//! Numbers that look random and are the same for the same seed: SplitMix64.

use std::ops::RangeInclusive;

pub struct Random {
    state: u64,
}

impl Random {
    /// The numbers for one file of a seed. Any word is a seed.
    pub fn new(seed: &str, file: u64) -> Random {
        let fnv = |hash: u64, byte: u8| (hash ^ u64::from(byte)).wrapping_mul(0x100_0000_01b3);
        let mut of_seed = Random {
            state: seed.bytes().fold(0xcbf2_9ce4_8422_2325, fnv),
        };
        let state = of_seed.next() ^ file.wrapping_mul(0xd134_2543_de82_ef95);
        Random { state }
    }

    pub fn next(&mut self) -> u64 {
        self.state = self.state.wrapping_add(0x9e37_79b9_7f4a_7c15);
        let mixed = (self.state ^ self.state >> 30).wrapping_mul(0xbf58_476d_1ce4_e5b9);
        let mixed = (mixed ^ mixed >> 27).wrapping_mul(0x94d0_49bb_1331_11eb);
        mixed ^ mixed >> 31
    }

    pub fn within(&mut self, range: RangeInclusive<usize>) -> usize {
        let (low, high) = range.into_inner();
        low + (self.next() % (high - low + 1) as u64) as usize
    }

    pub fn below(&mut self, n: usize) -> usize {
        self.within(0..=n - 1)
    }

    pub fn byte(&mut self) -> u8 {
        self.next() as u8
    }

    pub fn bytes(&mut self, range: RangeInclusive<usize>) -> Vec<u8> {
        let length = self.within(range);
        (0..length).map(|_| self.byte()).collect()
    }

    pub fn chance(&mut self, percent: usize) -> bool {
        self.below(100) < percent
    }

    pub fn pick<T: Copy>(&mut self, from: &[T]) -> T {
        from[self.below(from.len())]
    }

    pub fn shuffle<T>(&mut self, all: &mut [T]) {
        for at in 1..all.len() {
            all.swap(at, self.within(0..=at));
        }
    }

    /// One of the choices, each as often as the number beside it says.
    pub fn weighed<T: Copy>(&mut self, choices: &[(usize, T)]) -> T {
        let all = choices.iter().map(|(weight, _)| weight).sum();
        let mut left = self.below(all);
        for (weight, choice) in choices {
            if left < *weight {
                return *choice;
            }
            left -= weight;
        }
        unreachable!("below the sum of the weights")
    }
}
