//! Arrays as a caller lends them, between canary words that nobody was lent.

const MARGIN: usize = 8;

pub struct Lent {
    all: Vec<u64>,
}

impl Lent {
    pub fn new(words: &[u64]) -> Self {
        let mut all: Vec<u64> = (0..words.len() + 2 * MARGIN).map(canary).collect();
        all[MARGIN..MARGIN + words.len()].copy_from_slice(words);
        Lent { all }
    }

    pub fn words(&self) -> &[u64] {
        &self.all[MARGIN..self.all.len() - MARGIN]
    }

    pub fn words_mut(&mut self) -> &mut [u64] {
        let end = self.all.len() - MARGIN;
        &mut self.all[MARGIN..end]
    }

    pub fn canaries_live(&self) -> bool {
        let n = self.all.len();
        (0..MARGIN)
            .chain(n - MARGIN..n)
            .all(|i| self.all[i] == canary(i))
    }
}

/// Every place has its own word, so that words moved from one place to another are found too.
fn canary(i: usize) -> u64 {
    0xc0ff_ee00_dead_beef ^ (i as u64).wrapping_mul(0x9e37_79b9_7f4a_7c15)
}
