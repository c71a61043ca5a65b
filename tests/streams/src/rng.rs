//! A small generator of numbers (splitmix64), so that a seed fixes every stream.

pub struct Rng {
    state: u64,
}

impl Rng {
    pub fn new(seed: u64) -> Rng {
        Rng { state: seed }
    }

    /// Another generator, which this one's numbers so far fix. What is drawn from it leaves this one as it is, so that
    /// questions that are added later do not change what is drawn for the others.
    pub fn apart(&self) -> Rng {
        Rng::new(!self.state)
    }

    /// Any number.
    pub fn number(&mut self) -> u64 {
        self.state = self.state.wrapping_add(0x9E37_79B9_7F4A_7C15);
        let mut z = self.state;
        z = (z ^ (z >> 30)).wrapping_mul(0xBF58_476D_1CE4_E5B9);
        z = (z ^ (z >> 27)).wrapping_mul(0x94D0_49BB_1331_11EB);
        z ^ (z >> 31)
    }

    /// A number below `bound`, which must not be 0.
    pub fn below(&mut self, bound: u64) -> u64 {
        self.number() % bound
    }

    /// True once in `n` times.
    pub fn one_in(&mut self, n: u64) -> bool {
        self.below(n) == 0
    }

    pub fn pick<T: Copy>(&mut self, choices: &[T]) -> T {
        choices[self.below(choices.len() as u64) as usize]
    }

    pub fn bytes(&mut self, length: usize) -> Vec<u8> {
        (0..length).map(|_| self.number() as u8).collect()
    }

    /// A size weighted to small ones: often 0 or 1, mostly below 8, seldom up to `most`.
    pub fn size(&mut self, most: u64) -> u64 {
        let size = match self.below(10) {
            0 | 1 => 0,
            2 => 1,
            3..=6 => 2 + self.below(6),
            7 | 8 => self.below(40),
            _ => self.below(most + 1),
        };
        size.min(most)
    }
}
