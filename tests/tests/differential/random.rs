//! Random numbers that repeat: xorshift64* (Vigna 2016), which neither implementation uses.

pub struct Random(u64);

impl Random {
    /// The numbers of one case of one call. The scrambling (splitmix64) keeps neighbouring cases apart.
    pub fn of_case(call: &str, case: u64) -> Random {
        let mut seed = case.wrapping_mul(0x9E37_79B9_7F4A_7C15);
        for byte in call.bytes() {
            seed = (seed ^ u64::from(byte)).wrapping_mul(0xBF58_476D_1CE4_E5B9);
            seed ^= seed >> 29;
        }
        seed = (seed ^ (seed >> 27)).wrapping_mul(0x94D0_49BB_1331_11EB);
        Random((seed ^ (seed >> 31)) | 1)
    }

    pub fn seed(&self) -> u64 {
        self.0
    }

    pub fn number(&mut self) -> u64 {
        self.0 ^= self.0 >> 12;
        self.0 ^= self.0 << 25;
        self.0 ^= self.0 >> 27;
        self.0.wrapping_mul(0x2545_F491_4F6C_DD1D)
    }

    /// 0 to `end` - 1.
    pub fn below(&mut self, end: usize) -> usize {
        ((u128::from(self.number()) * end as u128) >> 64) as usize
    }

    /// `first` to `last`, both included.
    pub fn between(&mut self, first: usize, last: usize) -> usize {
        first + self.below(last - first + 1)
    }

    /// True once in `n`.
    pub fn once_in(&mut self, n: usize) -> bool {
        self.below(n) == 0
    }

    pub fn one_of<T: Copy>(&mut self, choices: &[T]) -> T {
        choices[self.below(choices.len())]
    }

    pub fn byte(&mut self) -> u8 {
        (self.number() >> 56) as u8
    }

    pub fn word(&mut self) -> u32 {
        (self.number() >> 32) as u32
    }

    pub fn bytes(&mut self, length: usize) -> Vec<u8> {
        let mut bytes = Vec::with_capacity(length + 8);
        while bytes.len() < length {
            bytes.extend_from_slice(&self.number().to_le_bytes());
        }
        bytes.truncate(length);
        bytes
    }

    /// A length for a buffer that needs `needed`: just enough, one short, none, or more.
    pub fn length_for(&mut self, needed: usize) -> usize {
        match self.below(16) {
            0 => needed.saturating_sub(1),
            1 => self.below(needed + 1),
            2 => 0,
            3..=6 => needed + self.between(1, 40),
            _ => needed,
        }
    }
}
