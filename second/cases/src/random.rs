//! A splitmix64 generator: the same seed gives the same cases everywhere.

pub struct Random {
    state: u64,
}

impl Random {
    pub fn new(seed: u64) -> Random {
        Random { state: seed }
    }

    /// The generator of one case of a seed.
    pub fn for_case(seed: u64, number: u64) -> Random {
        let mut mixed = Random::new(seed);
        let start = mixed.next().wrapping_add(number.wrapping_mul(0xd134_2543_de82_ef95));
        Random::new(Random::new(start).next())
    }

    pub fn next(&mut self) -> u64 {
        self.state = self.state.wrapping_add(0x9e37_79b9_7f4a_7c15);
        let mut z = self.state;
        z = (z ^ (z >> 30)).wrapping_mul(0xbf58_476d_1ce4_e5b9);
        z = (z ^ (z >> 27)).wrapping_mul(0x94d0_49bb_1331_11eb);
        z ^ (z >> 31)
    }

    /// A number from low to high, both included.
    pub fn within(&mut self, low: u64, high: u64) -> u64 {
        low + self.next() % (high - low + 1)
    }

    /// An index below a length.
    pub fn below(&mut self, length: usize) -> usize {
        (self.next() % length as u64) as usize
    }

    pub fn chance(&mut self, percent: u64) -> bool {
        self.within(1, 100) <= percent
    }

    pub fn pick<T: Copy>(&mut self, items: &[T]) -> T {
        items[self.below(items.len())]
    }

    pub fn shuffle<T>(&mut self, items: &mut [T]) {
        for index in (1..items.len()).rev() {
            items.swap(index, self.below(index + 1));
        }
    }

    /// Different numbers from 1 to the greatest, in any order.
    pub fn different(&mut self, count: usize, greatest: u64) -> Vec<u64> {
        let mut numbers: Vec<u64> = (1..=greatest).collect();
        self.shuffle(&mut numbers);
        numbers.truncate(count);
        numbers
    }
}
