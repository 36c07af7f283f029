//! Numbers from a seed (splitmix64), the same on every machine.

pub struct Random(u64);

impl Random {
    pub fn new(seed: u64) -> Random {
        Random(seed)
    }

    pub fn draw(&mut self) -> u64 {
        self.0 = self.0.wrapping_add(0x9e37_79b9_7f4a_7c15);
        let mut z = self.0;
        z = (z ^ (z >> 30)).wrapping_mul(0xbf58_476d_1ce4_e5b9);
        z = (z ^ (z >> 27)).wrapping_mul(0x94d0_49bb_1331_11eb);
        z ^ (z >> 31)
    }

    /// From 0 to `end` − 1.
    pub fn below(&mut self, end: usize) -> usize {
        (self.draw() % end as u64) as usize
    }

    /// From `low` to `high`, both included.
    pub fn within(&mut self, low: usize, high: usize) -> usize {
        low + self.below(high - low + 1)
    }

    pub fn byte(&mut self) -> u8 {
        self.draw() as u8
    }

    /// True once in `times` on average.
    pub fn once_in(&mut self, times: usize) -> bool {
        self.below(times) == 0
    }

    pub fn pick<T: Copy>(&mut self, from: &[T]) -> T {
        from[self.below(from.len())]
    }

    pub fn shuffle<T>(&mut self, list: &mut [T]) {
        for i in (1..list.len()).rev() {
            list.swap(i, self.below(i + 1));
        }
    }
}

/// How much of each family is tried.
#[derive(Clone, Copy)]
pub struct Thin(u64);

impl Thin {
    pub fn full() -> Thin {
        Thin(1)
    }

    pub fn one_of(cases: u64) -> Option<Thin> {
        (cases > 0).then_some(Thin(cases))
    }

    pub fn is_full(self) -> bool {
        self.0 == 1
    }

    /// Whether the case with this number is tried. Drawn by lot, as the counts of neighbouring
    /// cases repeat.
    pub fn keeps(self, case: u64) -> bool {
        Random::new(case).draw().is_multiple_of(self.0)
    }

    /// How many of so many random cases are tried.
    pub fn of(self, cases: u64) -> u64 {
        (cases / self.0).max(1)
    }
}
