// A small random generator, splitmix64: the same seed gives the same numbers everywhere.

pub struct Random {
    state: u64,
}

impl Random {
    // The generator of one item of one class, so that an item can be run again alone.
    pub fn of_item(seed: u64, class: u64, index: u64) -> Random {
        let mut random = Random { state: seed };
        for word in [class, index] {
            random.state = random.next() ^ word;
        }
        random
    }

    pub fn next(&mut self) -> u64 {
        self.state = self.state.wrapping_add(0x9e37_79b9_7f4a_7c15);
        let z = self.state;
        let z = (z ^ (z >> 30)).wrapping_mul(0xbf58_476d_1ce4_e5b9);
        let z = (z ^ (z >> 27)).wrapping_mul(0x94d0_49bb_1331_11eb);
        z ^ (z >> 31)
    }

    // 0 .. n−1
    pub fn below(&mut self, n: usize) -> usize {
        ((self.next() as u128 * n as u128) >> 64) as usize
    }

    // low .. high, both included
    pub fn between(&mut self, low: i64, high: i64) -> i64 {
        low + self.below((high - low + 1) as usize) as i64
    }

    pub fn one_in(&mut self, n: usize) -> bool {
        self.below(n) == 0
    }

    pub fn of<T: Copy>(&mut self, list: &[T]) -> T {
        list[self.below(list.len())]
    }
}
