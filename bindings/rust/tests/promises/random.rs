//! Random numbers, the same in every run from the same seed.

use std::env;

/// A source of random numbers: a counter in fixed steps, each of its values stirred.
pub struct Random {
    counter: u64,
}

impl Random {
    /// The numbers of one test. The environment variable FIRNOLVAG_SEED, a number, is added to the test's own seed.
    pub fn of_test(test: &str, own: u64) -> Random {
        let added = match env::var("FIRNOLVAG_SEED") {
            Ok(text) => text.parse().expect("FIRNOLVAG_SEED is a number"),
            Err(_) => 0,
        };
        let seed = own.wrapping_add(added);
        println!("{test}: seed {seed}");
        Random { counter: seed }
    }

    pub fn next(&mut self) -> u64 {
        self.counter = self.counter.wrapping_add(0x9e37_79b9_7f4a_7c15);
        let mut stirred = self.counter;
        stirred = (stirred ^ (stirred >> 30)).wrapping_mul(0xbf58_476d_1ce4_e5b9);
        stirred = (stirred ^ (stirred >> 27)).wrapping_mul(0x94d0_49bb_1331_11eb);
        stirred ^ (stirred >> 31)
    }

    /// A number from 0 to one less than the bound, which is not 0.
    pub fn below(&mut self, bound: usize) -> usize {
        (self.next() % bound as u64) as usize
    }

    /// A number from least to most, both included.
    pub fn between(&mut self, least: u64, most: u64) -> u64 {
        least + self.next() % (most - least + 1)
    }

    /// True about once in so many times.
    pub fn once_in(&mut self, times: usize) -> bool {
        self.below(times) == 0
    }

    /// One of a list's entries.
    pub fn pick<T: Copy>(&mut self, list: &[T]) -> T {
        list[self.below(list.len())]
    }

    /// A station number below n.
    pub fn station(&mut self, stations: u16) -> u16 {
        self.below(usize::from(stations)) as u16
    }

    /// The numbers from 0 to one less than the count, in random order.
    pub fn shuffled(&mut self, count: usize) -> Vec<usize> {
        let mut numbers: Vec<usize> = (0..count).collect();
        for place in 0..count {
            let other = place + self.below(count - place);
            numbers.swap(place, other);
        }
        numbers
    }
}
