//! A pseudorandom generator with a fixed sequence for each seed.

/// splitmix64.
pub struct Random {
    state: u64,
}

impl Random {
    pub fn new(seed: u64) -> Random {
        Random { state: seed }
    }

    pub fn next_u64(&mut self) -> u64 {
        self.state = self.state.wrapping_add(0x9e3779b97f4a7c15);
        let mut z = self.state;
        z = (z ^ (z >> 30)).wrapping_mul(0xbf58476d1ce4e5b9);
        z = (z ^ (z >> 27)).wrapping_mul(0x94d049bb133111eb);
        z ^ (z >> 31)
    }

    /// A number below `bound`, which is small against 2^64.
    pub fn below(&mut self, bound: u64) -> u64 {
        self.next_u64() % bound
    }

    /// A number below 2^width, with width from 1 to 64.
    pub fn bits(&mut self, width: u32) -> u64 {
        self.next_u64() >> (64 - width)
    }

    pub fn bytes(&mut self, count: usize) -> Vec<u8> {
        (0..count).map(|_| self.bits(8) as u8).collect()
    }

    pub fn key(&mut self) -> [u8; 10] {
        std::array::from_fn(|_| self.bits(8) as u8)
    }

    /// A mask of no lane, all, few, or about half.
    pub fn lanes(&mut self) -> u64 {
        match self.below(4) {
            0 => 0,
            1 => u64::MAX,
            2 => self.next_u64() & self.next_u64() & self.next_u64(),
            _ => self.next_u64(),
        }
    }

    /// A position, more often than others at an end.
    pub fn position(&mut self) -> u8 {
        match self.below(8) {
            0 => 0,
            1 => 254,
            _ => self.below(255) as u8,
        }
    }

    /// A move's count, more often than others small or at an end.
    pub fn count(&mut self) -> u8 {
        match self.below(8) {
            0 => 1,
            1 => 254,
            2 | 3 => 1 + self.below(254) as u8,
            _ => 1 + self.below(40) as u8,
        }
    }
}

#[cfg(test)]
mod tests {
    use super::Random;

    /// The first outputs of splitmix64 for the seed 1234567.
    #[test]
    fn splitmix64() {
        let mut random = Random::new(1234567);
        assert_eq!(random.next_u64(), 6457827717110365317);
        assert_eq!(random.next_u64(), 3203168211198807973);
    }
}
