//! Listings: good ones, damaged ones, and ones that are cut or edited at every kind of place.

use crate::words::{self, Damage, BATCH, DAMAGES, MOST_BATCHES};
use crate::{bytes, Random};
use independent::codeword::{IDLE, SYNC};

const DIGITS: &[u8; 16] = b"0123456789ABCDEF";

fn put(word: u32, end: u8, out: &mut Vec<u8>) {
    for shift in (0..8).rev() {
        out.push(DIGITS[(word >> (4 * shift) & 15) as usize]);
    }
    out.push(end);
}

/// A listing with so many preamble lines, all of the given word, and the batches.
pub fn listing(preamble_lines: usize, preamble: u32, batches: &[u32]) -> Vec<u8> {
    of_words(&vec![preamble; 2 * preamble_lines], batches)
}

/// A listing with these preamble words, two a line, and the batches.
pub fn of_words(preamble: &[u32], batches: &[u32]) -> Vec<u8> {
    let mut out = Vec::with_capacity(9 * (preamble.len() + batches.len()));
    for (i, &word) in preamble.iter().enumerate() {
        put(word, if i % 2 == 0 { b' ' } else { b'\n' }, &mut out);
    }
    for (i, &word) in batches.iter().enumerate() {
        put(word, if i % BATCH % 2 == 0 { b'\n' } else { b' ' }, &mut out);
    }
    out
}

/// Batches with nothing in them.
pub fn idle_batches(count: usize) -> Vec<u32> {
    (0..BATCH * count).map(|i| if i % BATCH == 0 { SYNC } else { IDLE }).collect()
}

/// A listing in good form; its words have the given damage.
pub fn formed(random: &mut Random, damage: Damage) -> Vec<u8> {
    let mut batches = words::batches(random);
    words::damage(random, &mut batches, damage);
    let preamble = if random.once_in(4) { random.word() } else { 0xAAAA_AAAA };
    let lines = if random.once_in(3) { random.between(9, 36) } else { 9 };
    listing(lines, preamble, &batches)
}

/// A listing in good form or nearly so.
pub fn any(random: &mut Random) -> Vec<u8> {
    match random.below(12) {
        0..=4 => {
            let damage = random.pick(DAMAGES);
            formed(random, damage)
        }
        5 => {
            let lines = random.pick(&[0, 1, 8, 9, 10, 35, 36, 37, 38]);
            let mut batches = words::sent_batches(random);
            words::damage(random, &mut batches, Damage::Light);
            listing(lines, 0xAAAA_AAAA, &batches)
        }
        // cut anywhere, or near a line's end
        6 | 7 => {
            let mut listing = formed(random, Damage::Light);
            let mut length = random.below(listing.len() + 1);
            if random.once_in(2) {
                length = (length / 9 * 9 + random.below(3)).saturating_sub(1).min(listing.len());
            }
            listing.truncate(length);
            listing
        }
        8 => {
            let mut listing = formed(random, Damage::Rare);
            bytes::mutate(random, &mut listing);
            listing
        }
        9 => {
            let mut listing = formed(random, Damage::Rare);
            bytes::mutate_lines(random, &mut listing);
            listing
        }
        // a word in lower case, or a space that is something else
        10 => {
            let mut listing = formed(random, Damage::None);
            let at = random.below(listing.len());
            match listing[at] {
                b' ' | b'\n' => listing[at] = random.pick(b" \n\t\r0"),
                _ => listing[at] = random.pick(b"abcdefgG/:@ \n\xB0"),
            }
            listing
        }
        // something behind
        _ => {
            let mut listing = formed(random, Damage::None);
            let more: &[&[u8]] =
                &[b"\n", b" ", b"7", b"7CD215D8", b"7CD215D8\n", b"7A89C197 7A89C197\n", b"7CD215D8\n7A89C197 7A89C197\n", b"\0"];
            listing.extend_from_slice(random.pick(more));
            listing
        }
    }
}

/// Listings on both sides of every limit, the same in every run.
pub fn limits() -> Vec<Vec<u8>> {
    let mut listings = vec![];
    for lines in 0..40 {
        for batches in [0, 1, 2] {
            listings.push(listing(lines, 0xAAAA_AAAA, &idle_batches(batches)));
        }
        // a sync line among the preamble
        let mut early = listing(lines, 0, &[SYNC]);
        early.extend(listing(9, 0, &idle_batches(1)));
        listings.push(early);
    }
    let batch_ends: &[&[u8]] =
        &[b"", b"\n", b"7CD215D8", b"7CD215D8\n", b"00000000\n", b"7cd215d8\n", b"7A89C197 7A89C197\n", b"x"];
    for count in [1, 2, MOST_BATCHES - 1, MOST_BATCHES, MOST_BATCHES + 1] {
        for lines in [9, 36, 37] {
            let whole = listing(lines, 0xAAAA_AAAA, &idle_batches(count));
            for end in batch_ends {
                listings.push([&whole[..], end].concat());
            }
            for cut in [1, 2, 9, 10, 18, 19] {
                listings.push(whole[..whole.len() - cut].to_vec());
            }
            // the last sync doesn't correct, alone and with a fault of form in the last line
            let mut bad = idle_batches(count);
            bad[BATCH * (count - 1)] ^= 0x8000_0003;
            let mut bad = listing(lines, 0, &bad);
            listings.push(bad.clone());
            *bad.last_mut().unwrap() = b' ';
            listings.push(bad);
        }
    }
    // every cut, and every byte put over every place, of a short listing's last preamble line and first batch
    let model = listing(9, 0xAAAA_AAAA, &idle_batches(2));
    for at in 0..=model.len() {
        listings.push(model[..at].to_vec());
        if at < model.len() {
            let mut without = model.clone();
            without.remove(at);
            listings.push(without);
            for byte in *b"\n 0Aa-" {
                let mut over = model.clone();
                over[at] = byte;
                listings.push(over);
                let mut put_in = model.clone();
                put_in.insert(at, byte);
                listings.push(put_in);
            }
        }
    }
    for at in 17 * 8..18 * 10 + 30 {
        for byte in 0..=255 {
            let mut over = model.clone();
            over[at] = byte;
            listings.push(over);
        }
    }
    listings.extend(words::mended().iter().map(|batch| listing(9, 0xAAAA_AAAA, batch)));
    listings.push(vec![]);
    listings
}

#[cfg(test)]
mod tests {
    use super::*;
    use independent::reader::log_of_listing;
    use std::collections::BTreeSet;

    #[test]
    fn formed_listings_have_the_form() {
        let mut random = Random::new(1);
        for _ in 0..300 {
            assert!(log_of_listing(&formed(&mut random, Damage::None)).is_ok());
            assert!(log_of_listing(&formed(&mut random, Damage::Heavy)).map_or_else(|refusal| refusal.number == 22, |_| true));
        }
    }

    #[test]
    fn every_refusal_is_met() {
        let mut random = Random::new(2);
        let mut met = BTreeSet::new();
        for _ in 0..1000 {
            met.insert(log_of_listing(&any(&mut random)).map_or_else(|refusal| refusal.number, |_| 0));
        }
        assert!([0, 21, 22].iter().all(|number| met.contains(number)), "{met:?}");
        let met: BTreeSet<u32> =
            limits().iter().map(|listing| log_of_listing(listing).map_or_else(|refusal| refusal.number, |_| 0)).collect();
        assert_eq!(met, [0, 21, 22, 23].into());
    }
}
