//! What outputs and work hold afterwards, the last column of RULES Replies.

use crate::packing;
use crate::polynomial::Polynomial;

/// After reply 0: the terms of the result, and zero words behind them.
pub fn fill(room: &mut [u64], result: &Polynomial) {
    clear(room);
    for (record, (m, &c)) in room.chunks_exact_mut(2).zip(result.iter().rev()) {
        record[0] = packing::pack(*m).value;
        record[1] = c;
    }
}

/// After 9 to 12, and of the work after 0.
pub fn clear(words: &mut [u64]) {
    words.fill(0);
}

/// How many terms a room holds.
pub fn places(room: &[u64]) -> usize {
    room.len() / 2
}
