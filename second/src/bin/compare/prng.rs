//! A small generator of numbers with a fixed seed.

pub struct Rng(u64);

impl Rng {
    pub fn new(seed: u64) -> Rng {
        Rng(seed)
    }

    /// The next 64 bits (a counter, well mixed).
    pub fn next(&mut self) -> u64 {
        self.0 = self.0.wrapping_add(0x9E37_79B9_7F4A_7C15);
        let mut z = self.0;
        z = (z ^ (z >> 30)).wrapping_mul(0xBF58_476D_1CE4_E5B9);
        z = (z ^ (z >> 27)).wrapping_mul(0x94D0_49BB_1331_11EB);
        z ^ (z >> 31)
    }

    /// A number under `bound`, which is not 0.
    pub fn below(&mut self, bound: usize) -> usize {
        (self.next() % bound as u64) as usize
    }

    /// A number from `low` to `high`, both possible.
    pub fn within(&mut self, low: usize, high: usize) -> usize {
        low + self.below(high - low + 1)
    }

    /// True once in `of` times.
    pub fn once_in(&mut self, of: usize) -> bool {
        self.below(of) == 0
    }

    pub fn coin(&mut self) -> bool {
        self.once_in(2)
    }

    pub fn pick<T: Copy>(&mut self, from: &[T]) -> T {
        from[self.below(from.len())]
    }

    pub fn bytes(&mut self, count: usize) -> Vec<u8> {
        (0..count).map(|_| self.next() as u8).collect()
    }

    /// A sequence number, often near where numbers wrap.
    pub fn sequence(&mut self) -> u16 {
        let base: u16 = self.pick(&[0, 0, 0, 32768, 1024]);
        match self.below(4) {
            0 => self.next() as u16,
            _ => base.wrapping_add(self.below(40) as u16).wrapping_sub(20),
        }
    }

    /// A run length, 0 more often than the others.
    pub fn run(&mut self) -> u8 {
        if self.once_in(3) {
            0
        } else {
            self.below(9) as u8
        }
    }

    /// A capacity, mostly small.
    pub fn capacity(&mut self) -> usize {
        match self.below(40) {
            0 => 1024,
            1 => 1023,
            2 => self.within(9, 1024),
            3..=9 => 9,
            10..=14 => 10,
            _ => self.within(9, 40),
        }
    }

    /// Link information.
    pub fn information(&mut self) -> u64 {
        match self.below(8) {
            0 => 0,
            1 => u64::MAX,
            _ => self.next(),
        }
    }
}
