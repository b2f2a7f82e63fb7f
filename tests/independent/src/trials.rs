//! Words and listings that several modules' tests lay out.

use crate::codeword::{IDLE, PREAMBLE, SYNC};
use crate::listing::{self, BYTES_A_WORD};
use crate::placement::BATCH_WORDS;

/// Batches with these words from each of these slots on, and idle everywhere else.
pub fn batches(count: usize, parts: &[(usize, &[u32])]) -> Vec<u32> {
    let mut words = [&[SYNC][..], &[IDLE; BATCH_WORDS - 1]].concat().repeat(count);
    for &(first, part) in parts {
        for (slot, &word) in (first..).zip(part) {
            words[slot / 16 * BATCH_WORDS + 1 + slot % 16] = word;
        }
    }
    words
}

/// Their listing.
pub fn listed(batches: &[u32]) -> Vec<u8> {
    let words = [&[PREAMBLE; 18], batches].concat();
    let mut out = vec![0; BYTES_A_WORD * words.len()];
    listing::write(&words, &mut out);
    out
}
