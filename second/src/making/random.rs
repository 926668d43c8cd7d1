//! A source of numbers that look random and depend on the seed alone.

/// A stream of numbers (splitmix64).
pub struct Random {
    state: u64,
}

impl Random {
    /// The stream of one case: the seed, the group of cases, the case's number.
    pub fn new(seed: u64, group: &str, ordinal: u64) -> Random {
        let mut state = mix(seed);
        for byte in group.bytes() {
            state = mix(state ^ u64::from(byte));
        }
        Random {
            state: mix(state ^ mix(ordinal)),
        }
    }

    /// Any 64-bit number.
    pub fn word(&mut self) -> u64 {
        self.state = self.state.wrapping_add(0x9e3779b97f4a7c15);
        mix(self.state)
    }

    /// A number below the bound, which is not 0. That small bounds are not hit
    /// perfectly evenly does not matter here.
    pub fn below(&mut self, bound: u64) -> u64 {
        self.word() % bound
    }

    /// A number from `low` to `high`, both possible.
    pub fn within(&mut self, low: u64, high: u64) -> u64 {
        low + self.below(high - low + 1)
    }

    /// An index into something of this length, which is not 0.
    pub fn index(&mut self, length: usize) -> usize {
        self.below(length as u64) as usize
    }

    /// Yes once in `times`.
    pub fn one_in(&mut self, times: u64) -> bool {
        self.below(times) == 0
    }

    /// One of the choices.
    pub fn pick<T: Copy>(&mut self, choices: &[T]) -> T {
        choices[self.index(choices.len())]
    }

    /// Bytes of any content; now and then all the same, or only those that
    /// padding is made of.
    pub fn bytes(&mut self, length: usize) -> Vec<u8> {
        let same = self.pick(&[0, 0x80, 0xff]);
        match self.below(12) {
            0 => vec![same; length],
            1 => (0..length).map(|_| self.pick(&[0, 0x80])).collect(),
            _ => (0..length).map(|_| self.word() as u8).collect(),
        }
    }

    /// 32 bytes that are no one's digest.
    pub fn digest(&mut self) -> [u8; 32] {
        std::array::from_fn(|_| self.word() as u8)
    }

    /// One bit, as a byte.
    pub fn bit(&mut self) -> u8 {
        1 << self.below(8)
    }
}

fn mix(word: u64) -> u64 {
    let word = (word ^ (word >> 30)).wrapping_mul(0xbf58476d1ce4e5b9);
    let word = (word ^ (word >> 27)).wrapping_mul(0x94d049bb133111eb);
    word ^ (word >> 31)
}
