//! Numbers that look random and are the same on every machine.

/// A small generator: a counter, well mixed (splitmix64).
pub struct Random {
    state: u64,
}

impl Random {
    /// The generator of one case of a seed.
    pub fn of(seed: u64, index: u64) -> Random {
        let mut first = Random { state: seed };
        let mut second = Random { state: index };
        Random {
            state: first.number() ^ second.number().rotate_left(32),
        }
    }

    /// The next number.
    pub fn number(&mut self) -> u64 {
        self.state = self.state.wrapping_add(0x9E37_79B9_7F4A_7C15);
        let mut mixed = self.state;
        mixed = (mixed ^ (mixed >> 30)).wrapping_mul(0xBF58_476D_1CE4_E5B9);
        mixed = (mixed ^ (mixed >> 27)).wrapping_mul(0x94D0_49BB_1331_11EB);
        mixed ^ (mixed >> 31)
    }

    /// A number below `limit`; 0 if there is none.
    pub fn below(&mut self, limit: u64) -> u64 {
        if limit == 0 {
            return 0;
        }
        self.number() % limit
    }

    /// A place in something of this length; 0 if it is empty.
    pub fn place(&mut self, length: usize) -> usize {
        self.below(length as u64) as usize
    }

    /// A number from `least` to `greatest`.
    pub fn between(&mut self, least: u32, greatest: u32) -> u32 {
        let width = u64::from(greatest.saturating_sub(least)) + 1;
        least + self.below(width) as u32
    }

    /// A count from `least` to `greatest`.
    pub fn count(&mut self, least: usize, greatest: usize) -> usize {
        least + self.place(greatest.saturating_sub(least) + 1)
    }

    /// True in so many of a hundred.
    pub fn chance(&mut self, percent: u64) -> bool {
        self.below(100) < percent
    }

    /// One of these; nothing if there are none.
    pub fn pick<T: Clone>(&mut self, from: &[T]) -> Option<T> {
        from.get(self.place(from.len())).cloned()
    }

    /// One of these.
    pub fn one_of<T: Clone, const N: usize>(&mut self, from: [T; N]) -> T {
        from[self.place(N)].clone()
    }

    /// So many bytes.
    pub fn bytes(&mut self, count: usize) -> Vec<u8> {
        (0..count).map(|_| self.number() as u8).collect()
    }

    /// Puts these in any order.
    pub fn shuffle<T>(&mut self, items: &mut [T]) {
        for last in (1..items.len()).rev() {
            let other = self.place(last + 1);
            items.swap(last, other);
        }
    }
}
