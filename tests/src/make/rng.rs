//! A small generator of pseudo-random numbers (splitmix64).

pub struct Rng(u64);

impl Rng {
    /// Each piece of work has its own numbers, so that it can be made again
    /// whatever else ran beside it.
    pub fn for_work(seed: u64, stream: u64, index: usize) -> Rng {
        let mut rng = Rng(seed);
        let mixed = rng.draw() ^ stream.wrapping_mul(0xD6E8_FEB8_6659_FD93);
        let mut rng = Rng(mixed);
        let mixed = rng.draw().wrapping_add(index as u64);
        let mut rng = Rng(mixed);
        Rng(rng.draw())
    }

    pub fn draw(&mut self) -> u64 {
        self.0 = self.0.wrapping_add(0x9E37_79B9_7F4A_7C15);
        let mut z = self.0;
        z = (z ^ z >> 30).wrapping_mul(0xBF58_476D_1CE4_E5B9);
        z = (z ^ z >> 27).wrapping_mul(0x94D0_49BB_1331_11EB);
        z ^ z >> 31
    }

    /// A number under `end`, which is not 0.
    pub fn below(&mut self, end: usize) -> usize {
        (self.draw() % end as u64) as usize
    }

    /// A number from `least` to `most`, both possible.
    pub fn from_to(&mut self, least: usize, most: usize) -> usize {
        least + self.below(most - least + 1)
    }

    /// True once in `times` on average.
    pub fn once_in(&mut self, times: usize) -> bool {
        self.below(times) == 0
    }

    pub fn byte(&mut self) -> u8 {
        self.draw() as u8
    }

    pub fn bytes(&mut self, length: usize) -> Vec<u8> {
        (0..length).map(|_| self.byte()).collect()
    }

    pub fn pick<T: Copy>(&mut self, of: &[T]) -> T {
        of[self.below(of.len())]
    }
}
