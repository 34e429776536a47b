//! Numbers drawn from a seed, the same on every machine (splitmix64).

pub struct Random {
    state: u64,
}

impl Random {
    /// Scenes of one run have draws of their own, so that one can be drawn again by itself.
    pub fn of_scene(seed: u64, scene: u64) -> Self {
        let mut mixed = Self { state: seed };
        let start = mixed.next() ^ scene.wrapping_mul(0xD134_2543_DE82_EF95);
        Self { state: start }
    }

    pub fn next(&mut self) -> u64 {
        self.state = self.state.wrapping_add(0x9E37_79B9_7F4A_7C15);
        let mut mixed = self.state;
        mixed = (mixed ^ (mixed >> 30)).wrapping_mul(0xBF58_476D_1CE4_E5B9);
        mixed = (mixed ^ (mixed >> 27)).wrapping_mul(0x94D0_49BB_1331_11EB);
        mixed ^ (mixed >> 31)
    }

    /// Below the bound, which is at least 1.
    pub fn below(&mut self, bound: usize) -> usize {
        (self.next() % bound as u64) as usize
    }

    /// From the first to the last, both included.
    pub fn within(&mut self, first: usize, last: usize) -> usize {
        first + self.below(last - first + 1)
    }

    /// Below the bound, a low one more often, so that many agree.
    pub fn low(&mut self, bound: usize) -> usize {
        self.below(bound).min(self.below(bound))
    }

    pub fn word(&mut self) -> u32 {
        self.next() as u32
    }

    /// True so many times in a hundred.
    pub fn percent(&mut self, chance: usize) -> bool {
        self.below(100) < chance
    }

    /// One of the items, of which there is at least one.
    pub fn one_of<'a, T>(&mut self, items: &'a [T]) -> &'a T {
        &items[self.below(items.len())]
    }

    /// The place of a weight, the more often the greater it is.
    pub fn weighted(&mut self, weights: &[usize]) -> usize {
        let mut left = self.below(weights.iter().sum());
        for (place, &weight) in weights.iter().enumerate() {
            if left < weight {
                return place;
            }
            left -= weight;
        }
        unreachable!("the draw is below the sum")
    }

    /// So many words of rubbish: areas are lent filled with it.
    pub fn rubbish(&mut self, count: usize) -> Vec<u32> {
        match self.below(4) {
            0 => vec![0; count],
            1 => vec![u32::MAX; count],
            _ => (0..count)
                .map(|_| self.word() >> (self.state & 31))
                .collect(),
        }
    }
}
