//! Random numbers, the same for the same seed.

pub struct Rng {
    state: u64,
}

impl Rng {
    /// The numbers of one stream of a seed; each random call has a stream of its own.
    pub fn new(seed: u64, stream: u64) -> Self {
        let mut rng = Rng { state: seed };
        rng.state = rng.word() ^ stream;
        rng
    }

    /// Any 64-bit word: the generator known as SplitMix64.
    pub fn word(&mut self) -> u64 {
        self.state = self.state.wrapping_add(0x9e37_79b9_7f4a_7c15);
        let mut z = self.state;
        z = (z ^ (z >> 30)).wrapping_mul(0xbf58_476d_1ce4_e5b9);
        z = (z ^ (z >> 27)).wrapping_mul(0x94d0_49bb_1331_11eb);
        z ^ (z >> 31)
    }

    pub fn below(&mut self, n: u64) -> u64 {
        self.word() % n
    }

    pub fn size(&mut self, n: usize) -> usize {
        self.below(n as u64) as usize
    }

    pub fn one_in(&mut self, n: u64) -> bool {
        self.below(n) == 0
    }

    pub fn pick<T: Copy>(&mut self, list: &[T]) -> T {
        list[self.size(list.len())]
    }
}
