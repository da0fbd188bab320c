//! Numbers from a seed (splitmix64): the same seed gives the same cases everywhere.

pub struct Random {
    state: u64,
}

impl Random {
    /// The numbers of one case: cases can be drawn again one by one.
    pub fn of_case(seed: u64, case: u64) -> Random {
        let mut random = Random { state: seed };
        let start = random.next();
        Random { state: start ^ case.wrapping_mul(0xd134_2543_de82_ef95) }
    }

    pub fn next(&mut self) -> u64 {
        self.state = self.state.wrapping_add(0x9e37_79b9_7f4a_7c15);
        let mut z = self.state;
        z = (z ^ (z >> 30)).wrapping_mul(0xbf58_476d_1ce4_e5b9);
        z = (z ^ (z >> 27)).wrapping_mul(0x94d0_49bb_1331_11eb);
        z ^ (z >> 31)
    }

    /// A number from 0 up to and without the limit.
    pub fn below(&mut self, limit: usize) -> usize {
        (self.next() % limit as u64) as usize
    }

    pub fn between(&mut self, least: usize, most: usize) -> usize {
        least + self.below(most - least + 1)
    }

    pub fn percent(&mut self, chance: usize) -> bool {
        self.below(100) < chance
    }

    pub fn pick<T: Copy>(&mut self, from: &[T]) -> T {
        from[self.below(from.len())]
    }

    pub fn byte(&mut self) -> u8 {
        self.next() as u8
    }

    pub fn bytes(&mut self, length: usize) -> Vec<u8> {
        (0..length).map(|_| self.byte()).collect()
    }

    /// These numbers in some order, and no more than so many of them.
    pub fn some_of(&mut self, mut from: Vec<usize>, most: usize) -> Vec<usize> {
        for k in (1..from.len()).rev() {
            from.swap(k, self.below(k + 1));
        }
        from.truncate(most);
        from
    }
}
