//! Numbers drawn from a seed: case k of seed s draws the same ones whatever ran before it.

const STRIDE: u64 = 0x9E37_79B9_7F4A_7C15;

pub struct Prng {
    state: u64,
}

fn mixed(word: u64) -> u64 {
    let word = (word ^ (word >> 30)).wrapping_mul(0xBF58_476D_1CE4_E5B9);
    let word = (word ^ (word >> 27)).wrapping_mul(0x94D0_49BB_1331_11EB);
    word ^ (word >> 31)
}

impl Prng {
    /// The stream keeps apart the uses of one seed.
    pub fn of_case(seed: u64, stream: u64, case: u64) -> Prng {
        let of_stream = mixed(mixed(seed).wrapping_add(stream));
        Prng { state: mixed(of_stream.wrapping_add(case)) }
    }

    pub fn word(&mut self) -> u32 {
        self.state = self.state.wrapping_add(STRIDE);
        (mixed(self.state) >> 32) as u32
    }

    pub fn byte(&mut self) -> u8 {
        self.word() as u8
    }

    /// 0 to bound - 1; the bound is not 0.
    pub fn below(&mut self, bound: u32) -> u32 {
        ((u64::from(self.word()) * u64::from(bound)) >> 32) as u32
    }

    /// low to high, both among them.
    pub fn between(&mut self, low: u32, high: u32) -> u32 {
        low + self.below(high - low + 1)
    }

    pub fn one_in(&mut self, count: u32) -> bool {
        self.below(count) == 0
    }

    pub fn place(&mut self, length: usize) -> usize {
        self.below(length as u32) as usize
    }

    pub fn pick<T: Copy>(&mut self, pool: &[T]) -> T {
        pool[self.place(pool.len())]
    }

    pub fn bytes(&mut self, count: usize) -> Vec<u8> {
        let mut bytes = Vec::with_capacity(count + 3);
        while bytes.len() < count {
            bytes.extend_from_slice(&self.word().to_le_bytes());
        }
        bytes.truncate(count);
        bytes
    }

    pub fn words(&mut self, count: usize) -> Vec<u32> {
        (0..count).map(|_| self.word()).collect()
    }
}
