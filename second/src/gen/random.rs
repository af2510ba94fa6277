//! A small generator of pseudo-random numbers.

/// The state of the generator.
#[derive(Clone, Debug)]
pub struct Random(u64);

impl Random {
    /// A generator for one case of a seed, apart from those of other cases.
    pub fn of_case(seed: u64, stream: u64, number: u64) -> Random {
        let mut random = Random(seed);
        for part in [stream, number] {
            random.0 = random.bits() ^ part.wrapping_mul(0xD6E8_FEB8_6659_FD93);
        }
        random
    }

    /// The next 64 bits.
    pub fn bits(&mut self) -> u64 {
        self.0 = self.0.wrapping_add(0x9E37_79B9_7F4A_7C15);
        let mut z = self.0;
        z = (z ^ (z >> 30)).wrapping_mul(0xBF58_476D_1CE4_E5B9);
        z = (z ^ (z >> 27)).wrapping_mul(0x94D0_49BB_1331_11EB);
        z ^ (z >> 31)
    }

    /// A number from `low` to `high`, both included.
    pub fn from_to(&mut self, low: u32, high: u32) -> u32 {
        let choices = u64::from(high - low) + 1;
        low + (self.bits() % choices) as u32
    }

    /// A place below a length, which is not 0.
    pub fn place(&mut self, length: usize) -> usize {
        (self.bits() % length as u64) as usize
    }

    /// True once in so many times.
    pub fn once_in(&mut self, times: u32) -> bool {
        self.from_to(1, times) == 1
    }

    /// One of some choices.
    pub fn pick<T: Copy>(&mut self, choices: &[T]) -> T {
        choices[self.place(choices.len())]
    }

    /// So many bytes.
    pub fn bytes(&mut self, length: usize) -> Vec<u8> {
        (0..length).map(|_| self.bits() as u8).collect()
    }
}
