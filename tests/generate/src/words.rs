//! Words and slices of words as they might be received.

use crate::{jobs, Random};
use independent::codeword::{address, encode, message, IDLE, RESERVED, SYNC};
use independent::send::Accepted;

pub const BATCH: usize = 17;
pub const MOST_BATCHES: usize = 300;

/// Any codeword: idle and sync are as likely as all addresses.
pub fn codeword(random: &mut Random) -> u32 {
    match random.below(8) {
        0 => IDLE,
        1 => SYNC,
        2 => encode(random.pick(&RESERVED) << 2 | random.below(4) as u32),
        3 | 4 => encode(random.word() & 0xF_FFFF),
        _ => message(random.word() & 0xF_FFFF),
    }
}

/// What may stand in a slot, before damage; mostly things that belong together.
fn slot_word(random: &mut Random) -> u32 {
    match random.below(20) {
        0..=3 => IDLE,
        4..=7 => address(random.word() & 0x1F_FFFF, random.below(4) as u32),
        8 => encode(random.pick(&RESERVED) << 2 | random.below(4) as u32),
        9 => SYNC,
        10 => random.word(),
        11 => message(0x33333),
        12 => message(0),
        13 => message(0x55555),
        _ => message(random.word() & 0xF_FFFF),
    }
}

/// Batches of slots that no sender need have made: pages of every kind, empty texts, orphans, reserved values, rubbish.
pub fn free_batches(random: &mut Random, batches: usize) -> Vec<u32> {
    let mut words = Vec::with_capacity(BATCH * batches);
    for _ in 0..batches {
        words.push(SYNC);
        for _ in 1..BATCH {
            words.push(slot_word(random));
        }
    }
    words
}

/// Any words under good syncs.
pub fn any_batches(random: &mut Random, batches: usize) -> Vec<u32> {
    let mut words: Vec<u32> = (0..BATCH * batches).map(|_| random.word()).collect();
    words.iter_mut().step_by(BATCH).for_each(|word| *word = SYNC);
    words
}

/// One page over all batches, with words of any value.
pub fn one_long_page(random: &mut Random, batches: usize) -> Vec<u32> {
    let fixed = random.once_in(2).then(|| random.pick(&[0, 0x33333, 0xF_FFFF, 0x55555]));
    let mut words = Vec::with_capacity(BATCH * batches);
    for _ in 0..batches {
        words.push(SYNC);
        for _ in 1..BATCH {
            words.push(message(fixed.unwrap_or_else(|| random.word() & 0xF_FFFF)));
        }
    }
    let at = 1 + random.pick(&[0, 0, 1, 15]);
    if let Some(word) = words.get_mut(at) {
        *word = address(random.word() & 0x1F_FFFF, random.below(4) as u32);
    }
    words
}

/// Batches that are full: long alphanumeric pages one behind the other, without the pause that a sender makes.
pub fn full_batches(random: &mut Random, batches: usize) -> Vec<u32> {
    let mut words = Vec::with_capacity(BATCH * batches);
    let mut left = 0;
    let mut groups = vec![];
    for _ in 0..batches {
        words.push(SYNC);
        for _ in 1..BATCH {
            if left == 0 {
                groups.clear();
                independent::text::pack_alphanumeric(&jobs::alphanumeric_text(random, 240), &mut groups);
                left = groups.len();
                words.push(address(8 * random.below(200_000) as u32, 3));
            } else {
                words.push(message(groups[groups.len() - left]));
                left -= 1;
            }
        }
    }
    words
}

/// The batches of a good job.
pub fn sent_batches(random: &mut Random) -> Vec<u32> {
    let (job, book) = jobs::good(random);
    Accepted::new(&job, &book).expect("good job").words().split_off(18)
}

/// Batches of any sort, a few of them or as many as there may be.
pub fn batches(random: &mut Random) -> Vec<u32> {
    let count = if random.once_in(12) { random.pick(&[30, 100, 299, 300]) } else { random.between(1, 6) };
    match random.below(8) {
        0..=3 => sent_batches(random),
        4 | 5 => free_batches(random, count),
        6 => one_long_page(random, count),
        _ => full_batches(random, count),
    }
}

/// How words are damaged.
#[derive(Clone, Copy, Debug, PartialEq, Eq)]
pub enum Damage {
    None,
    /// Each word has none to two wrong bits.
    Light,
    /// Some words have one or two wrong bits.
    Rare,
    /// Each word has none to four wrong bits.
    Heavy,
    /// A few slot words have three or four wrong bits; syncs at most two.
    Spots,
    /// A slot word has three wrong bits once in so many times; every other word has none to two.
    Three(usize),
}

/// The kinds of damage that slices and listings are drawn with.
pub const DAMAGES: &[Damage] = &[Damage::None, Damage::Light, Damage::Rare, Damage::Heavy, Damage::Spots];

/// Flips bits in batches.
pub fn damage(random: &mut Random, words: &mut [u32], damage: Damage) {
    for (i, word) in words.iter_mut().enumerate() {
        let sync = i % BATCH == 0;
        let flips = match damage {
            Damage::None => 0,
            Damage::Three(count) if !sync && random.once_in(count) => 3,
            Damage::Light | Damage::Three(_) => random.below(3),
            Damage::Rare if random.once_in(10) => random.between(1, 2),
            Damage::Rare => 0,
            Damage::Heavy => random.below(5),
            Damage::Spots if sync => random.below(3),
            Damage::Spots if random.once_in(12) => random.between(3, 4),
            Damage::Spots => random.below(2),
        };
        *word ^= random.ones(flips as u32);
    }
}

/// A slice of words of any length: whole batches, some missing or too many, none, one batch over the most.
pub fn slice(random: &mut Random) -> Vec<u32> {
    match random.below(10) {
        0 => {
            let count = random.pick(&[0, 1, 2, 16, 17, 18, 33, 34, 35, 17 * 3 - 1, 17 * 3 + 1]);
            (0..count).map(|i| if i % BATCH == 0 { SYNC } else { IDLE }).collect()
        }
        1 => {
            let mut words = batches(random);
            words.truncate(random.below(words.len() + 1));
            words
        }
        2 => {
            let mut words = batches(random);
            let more = random.between(1, 18);
            words.extend((0..more).map(|_| IDLE));
            words
        }
        3 => {
            let count = random.between(1, 4);
            any_batches(random, count)
        }
        4 => {
            // words of every sort, each with none to two wrong bits
            let count = random.between(1, 6);
            let mut words = free_batches(random, count);
            damage(random, &mut words, Damage::Light);
            words
        }
        _ => {
            let mut words = batches(random);
            let kind = random.pick(DAMAGES);
            damage(random, &mut words, kind);
            words
        }
    }
}

/// Slices around the most batches, and those of `mended`, the same in every run.
pub fn slice_limits() -> Vec<Vec<u32>> {
    let mut slices = vec![];
    for count in [0, 1, 2, 299, 300, 301, 302, 600] {
        let whole: Vec<u32> = (0..BATCH * count).map(|i| if i % BATCH == 0 { SYNC } else { IDLE }).collect();
        let mut bad_last = whole.clone();
        if count > 0 {
            bad_last[BATCH * (count - 1)] ^= 7;
            slices.push(whole[..whole.len() - 1].to_vec());
            let mut bad_first = whole.clone();
            bad_first[0] = IDLE;
            slices.push(bad_first);
            slices.push(vec![0; BATCH * count]);
        }
        slices.push([&whole[..], &[SYNC]].concat());
        slices.push(bad_last);
        slices.push(whole);
    }
    for flips in [0b1u32, 0b11, 0b111, 0b1111, 1 << 31, 1 << 31 | 1, 1 << 31 | 3] {
        for batch in 0..3 {
            let mut words: Vec<u32> = (0..BATCH * 3).map(|i| if i % BATCH == 0 { SYNC } else { IDLE }).collect();
            words[BATCH * batch] ^= flips;
            slices.push(words);
        }
    }
    slices.extend(mended());
    slices
}

/// The codewords with a reserved value, idle and sync among them.
pub(crate) fn reserved() -> impl Iterator<Item = u32> {
    RESERVED.into_iter().flat_map(|upper| (0..4).map(move |function| encode(upper << 2 | function)))
}

/// Single batches in which a sync, an address, a message word or a word with a reserved value, idle among them, has one or two wrong
/// bits, in every way. In a slot it stands behind a page's message and behind none.
pub fn mended() -> Vec<Vec<u32>> {
    let words: Vec<u32> = reserved().chain([address(9, 1), message(0x84333)]).collect();
    let mut slices = vec![];
    for i in 0..32 {
        for j in 0..=i {
            let flips = 1 << i | 1 << j;
            let mut batch = [IDLE; BATCH];
            batch[0] = SYNC ^ flips;
            slices.push(batch.to_vec());
            for &word in &words {
                batch = [IDLE; BATCH];
                batch[0] = SYNC;
                (batch[7], batch[8]) = (word ^ flips, message(0));
                slices.push(batch.to_vec());
                (batch[5], batch[6]) = (address(2, 0), message(0x84333));
                slices.push(batch.to_vec());
            }
        }
    }
    slices
}

#[cfg(test)]
mod tests {
    use super::*;
    use independent::codeword::{changed, correct, meaning, Meaning};
    use independent::judge;
    use independent::reader::log_of_words;
    use std::collections::BTreeSet;

    #[test]
    fn every_refusal_and_kind_is_met() {
        let mut random = Random::new(1);
        let mut numbers = BTreeSet::new();
        let mut kinds = BTreeSet::new();
        let mut cuts = 0;
        for _ in 0..2000 {
            match log_of_words(&slice(&mut random)) {
                Ok(log) => {
                    for line in log.lines.split_inclusive(|&byte| byte == b'\n') {
                        kinds.insert(line[7]);
                        cuts += usize::from(line.ends_with(b"-\n"));
                    }
                }
                Err(refusal) => {
                    numbers.insert(refusal.number);
                }
            }
        }
        assert!(numbers.contains(&21) && numbers.contains(&22));
        assert!(slice_limits().iter().any(|words| log_of_words(words).is_err_and(|refusal| refusal.number == 23)));
        assert_eq!(kinds, (b'0'..=b'7').collect());
        assert!(cuts > 100);
    }

    /// what is mended in such words isn't counted.
    #[test]
    fn reserved_values_are_met_with_one_and_two_wrong_bits() {
        let mut random = Random::new(1);
        let mut slices = [0; 3];
        for _ in 0..2000 {
            let words = slice(&mut random);
            if log_of_words(&words).is_err() {
                continue;
            }
            let mut met = [false; 3];
            for &word in words.chunks(BATCH).flat_map(|batch| &batch[1..]) {
                if let Some(near) = correct(word).filter(|&near| meaning(near) == Meaning::Reserved) {
                    met[changed(word, near) as usize] = true;
                }
            }
            slices.iter_mut().zip(met).for_each(|(slices, met)| *slices += usize::from(met));
        }
        assert!(slices.iter().all(|&count| count > 100), "{slices:?}");
    }

    #[test]
    fn three_wrong_bits_are_in_slots_alone() {
        let whole = crate::listings::idle_batches(100);
        let mut words = whole.clone();
        damage(&mut Random::new(3), &mut words, Damage::Three(4));
        let flips: Vec<u32> = words.iter().zip(&whole).map(|(word, whole)| (word ^ whole).count_ones()).collect();
        let syncs: BTreeSet<u32> = flips.iter().step_by(BATCH).copied().collect();
        assert_eq!(syncs, [0, 1, 2].into());
        assert_eq!(flips.iter().copied().collect::<BTreeSet<u32>>(), [0, 1, 2, 3].into());
        let three = flips.iter().filter(|&&flips| flips == 3).count();
        assert!((300..500).contains(&three), "{three} of 1600");
    }

    /// R-9, of what the independent implementation reads.
    #[test]
    fn with_three_wrong_bits_nothing_false_is_read() {
        let mut random = Random::new(1);
        let (mut whole, mut cut, mut unseen, mut orphans) = (0, 0, 0, 0);
        for rate in [2, 5, 20, 100, 500, 1_000_000] {
            for _ in 0..100 {
                let (job, book) = jobs::good(&mut random);
                let accepted = Accepted::new(&job, &book).unwrap();
                let batches = accepted.words().split_off(18);
                let mut received = batches.clone();
                damage(&mut random, &mut received, Damage::Three(rate));
                let (pages, log) = (judge::sent(&job, &book, &accepted.placement.slots), log_of_words(&received).unwrap());
                assert_eq!(judge::judge(&pages, &judge::flips(&batches, &received), &log), Ok(()));
                let dashes = log.lines.iter().filter(|&&byte| byte == b'-').count();
                cut += dashes;
                whole += log.pages as usize - dashes;
                unseen += pages.len() - log.pages as usize;
                orphans += log.orphans;
            }
        }
        assert!(whole > 1000 && cut > 1000 && unseen > 500 && orphans > 1000, "{whole} {cut} {unseen} {orphans}");
    }

    #[test]
    fn full_batches_have_no_idle() {
        let words = full_batches(&mut Random::new(2), 30);
        assert_eq!(words.len(), 30 * BATCH);
        assert!(!words.contains(&IDLE));
        assert_eq!(log_of_words(&words).unwrap().lost, 0);
    }
}
