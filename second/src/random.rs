//! A small seeded generator (xorshift64*). The same seed always makes the same cases.

const FNV_BASIS: u64 = 0xcbf2_9ce4_8422_2325;
const FNV_PRIME: u64 = 0x0000_0100_0000_01b3;
const STAR: u64 = 0x2545_f491_4f6c_dd1d;

pub struct Random {
    state: u64,
}

impl Random {
    /// Every subject has its own stream. If cases are added for one subject, those of the others
    /// stay as they were.
    pub fn new(seed: u64, subject: &str) -> Self {
        let hash = seed
            .to_le_bytes()
            .into_iter()
            .chain(subject.bytes())
            .fold(FNV_BASIS, |hash, byte| {
                (hash ^ u64::from(byte)).wrapping_mul(FNV_PRIME)
            });
        // Zero is the only state that xorshift never leaves.
        Random { state: hash.max(1) }
    }

    pub fn draw(&mut self) -> u64 {
        self.state ^= self.state >> 12;
        self.state ^= self.state << 25;
        self.state ^= self.state >> 27;
        self.state.wrapping_mul(STAR)
    }

    /// A number from 0 up to, but not including, `limit`.
    pub fn below(&mut self, limit: u64) -> u64 {
        ((u128::from(self.draw()) * u128::from(limit)) >> 64) as u64
    }

    /// True once in `times` draws, on average.
    pub fn once_in(&mut self, times: u64) -> bool {
        self.below(times) == 0
    }

    /// A place in something of this length, which must not be empty.
    pub fn place(&mut self, length: usize) -> usize {
        self.below(length as u64) as usize
    }

    pub fn pick<T: Copy>(&mut self, list: &[T]) -> T {
        list[self.place(list.len())]
    }

    pub fn byte(&mut self) -> u8 {
        (self.draw() >> 56) as u8
    }

    pub fn bytes(&mut self, length: usize) -> Vec<u8> {
        (0..length).map(|_| self.byte()).collect()
    }
}

#[cfg(test)]
mod tests {
    use super::*;

    #[test]
    fn a_seed_gives_the_same_numbers_for_ever() {
        let mut random = Random::new(1, "pinned");
        let drawn: Vec<u64> = (0..3).map(|_| random.draw()).collect();
        let pinned = [
            6_332_570_546_298_436_448,
            17_022_574_131_149_677_961,
            3_872_601_320_474_738_216,
        ];
        assert_eq!(drawn, pinned);
    }

    #[test]
    fn below_stays_below() {
        let mut random = Random::new(7, "below");
        assert!((0..1000).all(|_| random.below(3) < 3));
        assert_eq!(random.below(1), 0);
    }
}
