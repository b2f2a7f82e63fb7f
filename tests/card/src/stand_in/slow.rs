//! The functions of the slow engine, and the mistakes that only they make. What a reading answers does not depend on the
//! engine, so here it is the fast one's.

use super::{card_read_listing, card_read_words, is};
use crate::{Reading, Word};
use independent::codeword;

#[no_mangle]
extern "C" fn card_correct_slowly(word: u32) -> Word {
    match found(word) {
        Some((word, changed)) => Word { word, number: 0, changed },
        None => {
            let last_tried = word ^ 3 << 30;
            Word { word: if is("slow-refused-word-last-tried") { last_tried } else { word }, number: 20, changed: 0 }
        }
    }
}

/// The codeword and how many bits away it is or, for some mistakes, something else.
fn found(word: u32) -> Option<(u32, u32)> {
    match codeword::correct_slowly(word) {
        None if is("slow-three-bits") => (0..32).find_map(|i| codeword::correct_slowly(word ^ 1 << i)).map(|(near, _)| (near, 3)),
        Some((_, 2)) if is("slow-one-bit") => None,
        Some((near, _)) if is("slow-31-bits") && (word ^ near) & 1 == 1 => None,
        Some((near, 1)) if is("slow-without-parity") && word ^ near == 1 => Some((word, 0)),
        Some((near, 1)) if is("slow-one-bit-is-two") => Some((near, 2)),
        right => right,
    }
}

#[no_mangle]
unsafe extern "C" fn card_read_words_slowly(words: *const u32, words_length: usize, out: *mut u8, out_length: usize) -> Reading {
    let mut answer = card_read_words(words, words_length, out, out_length);
    if is("slow-words-of-100-batches") && answer.number == 0 {
        answer = card_read_words(words, words_length.min(100 * 17), out, out_length);
    }
    if is("slow-words-end-without-newline") && answer.bytes > 0 {
        *out.add(answer.bytes - 1) = b' ';
    }
    answer
}

#[no_mangle]
unsafe extern "C" fn card_read_listing_slowly(
    listing: *const u8,
    listing_length: usize,
    out: *mut u8,
    out_length: usize,
) -> Reading {
    let mut answer = card_read_listing(listing, listing_length, out, out_length);
    if is("slow-listing-syncs-not-summed") {
        answer.changed.syncs = 0;
    }
    if is("slow-listing-writes-when-declined") && answer.number == 10 && out_length > 0 {
        *out = b'-';
    }
    answer
}
