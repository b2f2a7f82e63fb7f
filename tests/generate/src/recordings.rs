//! Recordings: the radio's bits, with what stands before, between and behind the batches.

use crate::words::{self, BATCH, DAMAGES, MOST_BATCHES};
use crate::Random;
use independent::codeword::{address, changed, message, IDLE, SYNC};
use independent::receive::{bits_of_words, recorded, BATCH_BITS, MOST_BYTES};

type Bits = Vec<bool>;

/// One batch with these words from this slot on, and idle everywhere else.
fn batch(slot: usize, part: &[u32]) -> Bits {
    let mut words = [IDLE; BATCH];
    words[0] = SYNC;
    words[1 + slot..1 + slot + part.len()].copy_from_slice(part);
    bits_of_words(&words)
}

/// A batch at whose end a page with a message is open.
fn opening() -> Bits {
    batch(14, &[address(0x0A_BCDF, 1), message(0x12345)])
}

/// A batch with two message words in front, and a page of its own.
fn going_on() -> Bits {
    batch(0, &[message(0xABCDE), message(0x84333), IDLE, address(0x00_0009, 0), message(0x84333)])
}

fn zeros(count: usize) -> Bits {
    vec![false; count]
}

/// Bits that change each time, as in a preamble.
fn alternating(count: usize) -> Bits {
    (0..count).map(|at| at % 2 == 0).collect()
}

/// Batches in front of as many bits as are left, about each length that decides what follows a batch: with no sync there, with one that
/// is right or has two or three wrong bits, and with one that comes a bit late.
fn about_the_end() -> Vec<Bits> {
    let ends = [opening(), batch(15, &[address(0x00_0007, 2)]), batch(13, &[address(0x00_0006, 0), message(0x84333)])];
    let idle = &batch(0, &[])[32..];
    let with_sync = |flips: u32| [&bits_of_words(&[SYNC ^ flips]), idle].concat();
    let tails = [zeros(BATCH_BITS), going_on(), with_sync(0x8000_0001), with_sync(0x8000_0003), [zeros(1), going_on()].concat()];
    let lengths = (0..40).chain(500..600);
    let mut all = vec![];
    for (end, left) in ends.iter().flat_map(|end| lengths.clone().map(move |left| (end, left))) {
        for tail in &tails {
            let mut bits = [zeros((8 - left % 8) % 8), end.clone(), tail.clone()].concat();
            bits.resize(bits.len() - tail.len() + left, true);
            all.push(bits);
        }
    }
    all
}

/// A batch in front of which stand few bits or none, cut short at every byte.
fn cut_short() -> Vec<Bits> {
    let mut all = vec![];
    for front in 0..17 {
        let whole = [alternating(front), opening(), zeros(8)].concat();
        all.extend((0..=whole.len() / 8).map(|bytes| whole[..8 * bytes].to_vec()));
    }
    all
}

/// A sync with one or two wrong bits in every way, and with three in every seventh: the first that is hunted, and the one behind a batch.
fn wrong_syncs() -> Vec<Bits> {
    let mut all = vec![];
    for i in 0..32 {
        for j in 0..=i {
            for k in (0..=j).filter(|k| *k == j || (i + 2 * j + 3 * k) % 7 == 0) {
                let flips = 1 << i | 1 << j | 1 << k;
                for at in [0, 1] {
                    let mut syncs = [SYNC; 2];
                    syncs[at] ^= flips;
                    let [one, other] = syncs.map(|sync| bits_of_words(&[sync]));
                    all.push([&one, &opening()[32..], &other, &going_on()[32..], &zeros(8)].concat());
                }
            }
        }
    }
    all
}

/// A page that runs through three batches, with a bit more or less at every third place, and so at every place of a byte and of a word.
fn slipped() -> Vec<Bits> {
    let whole = [opening(), batch(0, &[message(0x55555); 16]), going_on()].concat();
    let mut all = vec![];
    for at in (0..whole.len()).step_by(3) {
        let (front, back) = whole.split_at(at);
        all.extend([[front, &[false], back].concat(), [front, &[true], back].concat(), [front, &back[1..]].concat()]);
    }
    all
}

/// Two batches with something between them, of every length up to that of a batch and somewhat more.
fn gaps() -> Vec<Bits> {
    let mut all = vec![];
    for length in 0..BATCH_BITS + 40 {
        let gap = match length % 3 {
            0 => zeros(length),
            1 => vec![true; length],
            _ => alternating(length),
        };
        all.push([opening(), gap, going_on()].concat());
    }
    all
}

/// A sync that is right, nearly so or not at all, at every third distance before a batch, and at every third place inside one, behind which
/// the hunt starts again.
fn false_syncs() -> Vec<Bits> {
    let mut all = vec![];
    for flips in [0, 0x0001_8000, 0x8001_8000] {
        let sync = bits_of_words(&[SYNC ^ flips]);
        for distance in (32..BATCH_BITS + 40).step_by(3) {
            all.push([sync.clone(), alternating(distance - 32), opening(), zeros(16)].concat());
        }
        for at in (32..BATCH_BITS - 31).step_by(3) {
            let mut inside = opening();
            inside.splice(at..at + 32, sync.iter().copied());
            all.push([inside, alternating(7), going_on(), zeros(BATCH_BITS)].concat());
        }
    }
    all
}

/// Batches that are one behind the other so many at a time, with a bit between.
pub fn in_runs(batches: &[u32], together: usize) -> Vec<bool> {
    batches.chunks(BATCH * together).flat_map(|run| [bits_of_words(run), zeros(1)].concat()).collect()
}

/// Batches of which each is full: a numeric page with 15 message words.
fn full(count: usize) -> Vec<u32> {
    let mut batch = [message(0); BATCH];
    (batch[0], batch[1]) = (SYNC, address(0x00_0008, 0));
    batch.repeat(count)
}

/// The recording whose lines are longest: as many batches as there may be, each a full one that loses its sync.
pub fn longest() -> Vec<u8> {
    recorded(&[in_runs(&full(MOST_BATCHES), 1), zeros(BATCH_BITS)].concat())
}

/// A short recording: a page that is cut, and a whole one.
pub fn short() -> Vec<u8> {
    recorded(&[alternating(576), opening(), zeros(1), going_on()].concat())
}

/// About the most batches, in one run and in several; and one too many of which a bit is missing.
fn many() -> Vec<Bits> {
    let mut all = vec![];
    for count in [MOST_BATCHES - 1, MOST_BATCHES, MOST_BATCHES + 1, MOST_BATCHES + 2] {
        for together in [1, 7, 150, 2 * MOST_BATCHES] {
            let bits = in_runs(&full(count), together);
            all.extend([bits.clone(), [bits, zeros(BATCH_BITS)].concat()]);
        }
    }
    let late = [zeros(1), bits_of_words(&full(MOST_BATCHES + 1))].concat();
    all.extend([late[..late.len() - 1].to_vec(), late]);
    all
}

/// About the most bytes: without a batch, with one at the very front or the very end or a bit from it, and with nothing but batches.
fn long() -> Vec<Vec<u8>> {
    let batches = |length: usize| recorded(&opening()).into_iter().cycle().take(length).collect();
    let mut all: Vec<Vec<u8>> = [MOST_BYTES - 1, MOST_BYTES + 2, 2 * MOST_BYTES].map(batches).into();
    for length in [MOST_BYTES, MOST_BYTES + 1] {
        all.push(batches(length));
        all.extend([0, 0xAA, 0xFF].map(|byte| vec![byte; length]));
        let silence = zeros(8 * length - BATCH_BITS);
        let first = [opening(), silence.clone()].concat();
        let last = [silence, opening()].concat();
        let late = [&[false], &last[..last.len() - 1]].concat();
        all.extend([first, last, late].map(|bits| recorded(&bits)));
    }
    all
}

/// A few recordings about the limits, for the program, which takes longer.
pub fn few() -> Vec<Vec<u8>> {
    let bits = [about_the_end().into_iter().step_by(7).collect(), cut_short().into_iter().step_by(7).collect(), many()].concat();
    let mut all: Vec<Vec<u8>> = bits.iter().map(|bits| recorded(bits)).collect();
    all.extend([short(), longest()]);
    all.extend(long());
    all
}

/// Recordings on both sides of every limit, the same in every run.
pub fn limits() -> Vec<Vec<u8>> {
    let mended = words::mended().into_iter().step_by(5).map(|words| bits_of_words(&words));
    let bits = [about_the_end(), cut_short(), wrong_syncs(), slipped(), gaps(), false_syncs(), many()];
    let mut all: Vec<Vec<u8>> = bits.into_iter().flatten().chain(mended).map(|bits| recorded(&bits)).collect();
    // the other way up, and turned round
    let upside_down: Bits = opening().iter().map(|bit| !bit).collect();
    let turned: Bits = opening().into_iter().rev().collect();
    all.extend([upside_down, turned].map(|bits| recorded(&[bits, zeros(BATCH_BITS)].concat())));
    all.push(longest());
    all.extend(long());
    all
}

/// Bits at random.
pub fn noise(random: &mut Random, count: usize) -> Vec<bool> {
    let mut bits = Vec::with_capacity(count + 32);
    while bits.len() < count {
        bits.extend(bits_of_words(&[random.word()]));
    }
    bits.truncate(count);
    bits
}

/// So many bits without a batch, but perhaps with a sync or part of one: silence of some sort.
fn silence(random: &mut Random, count: usize) -> Bits {
    let mut bits = match random.below(6) {
        0 => zeros(count),
        1 => vec![true; count],
        2 => alternating(count),
        3 => bits_of_words(&[IDLE]).into_iter().cycle().take(count).collect(),
        _ => noise(random, count),
    };
    if count > 64 && random.once_in(3) {
        let wrong = random.below(5) as u32;
        let near = bits_of_words(&[SYNC ^ random.ones(wrong)]);
        let part = &near[random.pick(&[0, 0, 1, 2, 5])..random.pick(&[32, 32, 31, 30, 20])];
        let at = random.below(count - part.len());
        bits.splice(at..at + part.len(), part.iter().copied());
    }
    bits
}

/// How long a silence is: often none or short, about a batch's length, or longer.
fn some_length(random: &mut Random) -> usize {
    match random.below(6) {
        0 => 0,
        1 => random.below(33),
        2 => random.between(500, 560),
        3 => 576,
        _ => random.below(3000),
    }
}

/// The bits of batches, some of which are lost: left out, unlike a batch, or without a good sync.
fn partly_lost(random: &mut Random, batches: &[u32]) -> Bits {
    let once_in = random.pick(&[4, 20, 1000]);
    let mut bits = vec![];
    for batch in batches.chunks(BATCH) {
        let mut batch = bits_of_words(batch);
        match random.below(3 * once_in) {
            0 => batch.clear(),
            1 => batch = silence(random, BATCH_BITS),
            2 => batch.splice(..32, bits_of_words(&[SYNC ^ random.ones(3)])).for_each(drop),
            _ => {}
        }
        bits.extend(batch);
    }
    bits
}

/// A bit more or less, anywhere or just between two batches.
fn slip(random: &mut Random, bits: &mut Bits) {
    if bits.is_empty() {
        return;
    }
    let mut at = random.below(bits.len());
    if random.once_in(2) {
        at = at / BATCH_BITS * BATCH_BITS;
    }
    match random.once_in(2) {
        true => bits.insert(at, random.once_in(2)),
        false => _ = bits.remove(at),
    }
}

/// A transmission as it may come: silence, a preamble or nothing, then batches with flips, some of them lost, and bits slipped.
fn transmission(random: &mut Random) -> Bits {
    let mut batches = words::batches(random);
    let damage = random.pick(DAMAGES);
    words::damage(random, &mut batches, damage);
    let mut bits = partly_lost(random, &batches);
    for _ in 0..random.pick(&[0, 0, 0, 1, 1, 3]) {
        slip(random, &mut bits);
    }
    let length = some_length(random);
    let front = if random.once_in(3) { alternating(length) } else { silence(random, length) };
    [front, bits].concat()
}

/// About the most batches, in runs of any length.
fn about_the_most(random: &mut Random) -> Bits {
    let count = random.pick(&[299, 300, 300, 301, 301, 400]);
    let batches = match random.below(3) {
        0 => full(count),
        1 => words::free_batches(random, count),
        _ => words::one_long_page(random, count),
    };
    let together = random.pick(&[1, 2, 10, 299, 300, 301, 400]);
    in_runs(&batches, together)
}

/// Any recording: one to four transmissions, or none, with silence behind.
pub fn any(random: &mut Random) -> Vec<u8> {
    let mut bits = match random.below(24) {
        0 | 1 => zeros(0),
        2 => about_the_most(random),
        _ => (0..random.pick(&[1, 1, 2, 3, 4])).flat_map(|_| transmission(random)).collect(),
    };
    let behind = if random.once_in(2) { random.below(8) } else { some_length(random) };
    bits.extend(silence(random, behind));
    let mut bytes = recorded(&bits);
    match random.below(40) {
        // short, long, or just as long as may be
        0..=3 => bytes.truncate(random.below(140)),
        4 => bytes.resize(random.pick(&[MOST_BYTES, MOST_BYTES, MOST_BYTES + 1, MOST_BYTES + 2]), random.byte()),
        _ => {}
    }
    bytes
}

/// The 32 bits from each of these positions on aren't within two bits of sync.
fn is_quiet(bits: &[bool], positions: usize) -> bool {
    let window = |at: usize| bits[at..at + 32].iter().fold(0, |word, &bit| word << 1 | u32::from(bit));
    (0..positions).all(|at| changed(window(at), SYNC) > 2)
}

/// Batches whole and one behind the other, with bits in front among which none are within two bits of sync, and at most seven behind:
/// what R-10 promises the lines of.
pub fn whole(random: &mut Random, batches: &[u32]) -> Vec<u8> {
    let batches = bits_of_words(batches);
    loop {
        let length = some_length(random);
        let front = if random.once_in(2) { alternating(length) } else { silence(random, length) };
        let mut bits = [front, batches.clone()].concat();
        if is_quiet(&bits, length) {
            let behind = (8 - length % 8) % 8;
            bits.extend(noise(random, behind));
            return recorded(&bits);
        }
    }
}

#[cfg(test)]
mod tests {
    use super::*;
    use independent::reader::log_of_words;
    use independent::receive::{log_of_recording, run_by_run, Received};
    use std::collections::BTreeMap;

    /// What recordings are met, by the number, by the batches (none, one, up to 299, 300) and by what is in them.
    #[derive(Debug, Default)]
    struct Met {
        numbers: BTreeMap<u32, usize>,
        batches: [usize; 4],
        cut: usize,
        orphans: usize,
        lost: usize,
    }

    /// Receives, one in five in both ways, which must agree.
    fn met(all: impl Iterator<Item = Vec<u8>>) -> Met {
        let mut met = Met::default();
        for (number, bytes) in all.enumerate() {
            let received = log_of_recording(&bytes);
            if number % 5 == 0 {
                assert_eq!(run_by_run(&bytes), received, "{bytes:02X?}");
            }
            *met.numbers.entry(received.as_ref().map_or_else(|refusal| refusal.number, |_| 0)).or_default() += 1;
            let Ok(Received { batches, log }) = received else { continue };
            met.batches[match batches {
                0 | 1 => batches as usize,
                2..300 => 2,
                _ => 3,
            }] += 1;
            met.cut += usize::from(log.lines.contains(&b'-'));
            met.orphans += usize::from(log.orphans > 0);
            met.lost += usize::from(log.lost > 0);
        }
        met
    }

    #[test]
    fn every_sort_is_about_the_limits() {
        let sorts = met(limits().into_iter());
        assert_eq!(sorts.numbers.keys().copied().collect::<Vec<_>>(), [0, 23, 28]);
        assert!(sorts.batches.iter().all(|&count| count >= 10) && sorts.cut > 1000, "{sorts:?}");
    }

    #[test]
    fn every_sort_is_drawn() {
        let mut random = Random::new(1);
        let sorts = met((0..500).map(|_| any(&mut random)));
        assert_eq!(sorts.numbers.keys().copied().collect::<Vec<_>>(), [0, 23, 28]);
        let often = [sorts.batches[0], sorts.batches[1], sorts.batches[2], sorts.cut, sorts.orphans, sorts.lost];
        assert!(often.iter().all(|&count| count > 20) && sorts.batches[3] > 2, "{sorts:?}");
    }

    #[test]
    fn the_longest_lines() {
        assert_eq!(log_of_recording(&longest()).unwrap().log.lines.len(), 48_300);
    }

    /// R-10's promise, of what the independent implementation receives.
    #[test]
    fn whole_batches_are_received_as_they_are_read() {
        let mut random = Random::new(1);
        for damage in [words::Damage::None, words::Damage::Light, words::Damage::Three(5)] {
            for _ in 0..50 {
                let mut batches = words::sent_batches(&mut random);
                words::damage(&mut random, &mut batches, damage);
                let expected = Received { batches: (batches.len() / BATCH) as u32, log: log_of_words(&batches).unwrap() };
                assert_eq!(log_of_recording(&whole(&mut random, &batches)), Ok(expected));
            }
        }
    }
}
