//! Pseudorandom numbers.

/// A generator of pseudorandom numbers, the same in each run: SplitMix64.
pub struct Numbers {
    state: u64,
}

impl Default for Numbers {
    fn default() -> Self {
        Numbers { state: 1 }
    }
}

impl Numbers {
    fn draw(&mut self) -> u64 {
        self.state = self.state.wrapping_add(0x9e37_79b9_7f4a_7c15);
        let mixed = self.state ^ (self.state >> 30);
        let mixed = mixed.wrapping_mul(0xbf58_476d_1ce4_e5b9);
        let mixed = (mixed ^ (mixed >> 27)).wrapping_mul(0x94d0_49bb_1331_11eb);
        mixed ^ (mixed >> 31)
    }

    fn below(&mut self, n: usize) -> usize {
        (self.draw() % n as u64) as usize
    }

    /// Returns one of the items, or `None` if there are none.
    pub fn pick<T: Copy>(&mut self, items: &[T]) -> Option<T> {
        if items.is_empty() {
            return None;
        }
        Some(items[self.below(items.len())])
    }

    /// Permutes the items pseudorandomly.
    pub fn shuffle<T>(&mut self, items: &mut [T]) {
        for k in 1..items.len() {
            items.swap(k, self.below(k + 1));
        }
    }
}
