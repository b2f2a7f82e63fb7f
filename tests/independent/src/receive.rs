//! A receiver: the page lines of a recording, which is the radio's bits, eight to a byte and the first on top. It goes through
//! the bits once. Beside it stands the plain way, which cuts the recording into runs of batches and reads each run as words.

use crate::codeword::{self, IDLE, SYNC};
use crate::listing::MOST_BATCHES;
use crate::placement::BATCH_WORDS;
use crate::reader::{self, Log, Reader, Reading};
use crate::Refusal;

pub const MOST_BYTES: usize = 65_536;

const WORD_BITS: usize = 32;
pub const BATCH_BITS: usize = BATCH_WORDS * WORD_BITS;

/// So many wrong bits a sync may have.
const MOST_WRONG: u32 = 2;

/// Page lines, what was counted on the way, and how many batches were found.
#[derive(Clone, Debug, Default, PartialEq, Eq)]
pub struct Received {
    pub batches: u32,
    pub log: Log,
}

/// What is reported when the page lines went to a lent slice.
#[derive(Clone, Copy, Debug, PartialEq, Eq)]
pub struct Receiving {
    pub batches: u32,
    pub reading: Reading,
}

impl Received {
    /// The lines over the front of the lent slice.
    pub fn hand_over(&self, out: &mut [u8]) -> Result<Receiving, Refusal> {
        Ok(Receiving { batches: self.batches, reading: self.log.hand_over(out)? })
    }
}

/// The bits of a recording; positions count from 0.
struct Recording<'a>(&'a [u8]);

impl Recording<'_> {
    fn bit(&self, at: usize) -> u32 {
        u32::from(self.0[at / 8] >> (7 - at % 8) & 1)
    }

    /// The 32 bits from this position on.
    fn word(&self, at: usize) -> u32 {
        let (first, slipped) = (at / 8, at % 8);
        let bytes = &self.0[first..];
        let word = u32::from_be_bytes([bytes[0], bytes[1], bytes[2], bytes[3]]);
        match slipped {
            0 => word,
            _ => word << slipped | u32::from(bytes[4]) >> (8 - slipped),
        }
    }

    /// Whether as many bits as a batch has are left.
    fn has_batch(&self, at: usize) -> bool {
        at + BATCH_BITS <= 8 * self.0.len()
    }

    fn is_sync(&self, at: usize) -> bool {
        near_sync(self.word(at))
    }

    fn batch(&self, at: usize) -> [u32; BATCH_WORDS] {
        std::array::from_fn(|word| self.word(at + WORD_BITS * word))
    }

    /// The lowest position from this one on at which a batch stands.
    fn hunt(&self, from: usize) -> Option<usize> {
        let last = (8 * self.0.len()).checked_sub(BATCH_BITS).filter(|&last| from <= last)?;
        let mut window = self.word(from);
        for at in from..last {
            if near_sync(window) {
                return Some(at);
            }
            window = window << 1 | self.bit(at + WORD_BITS);
        }
        near_sync(window).then_some(last)
    }
}

fn near_sync(word: u32) -> bool {
    codeword::changed(word, SYNC) <= MOST_WRONG
}

fn judged(bytes: &[u8]) -> Result<Recording<'_>, Refusal> {
    if bytes.len() > MOST_BYTES {
        return Err(Refusal::new(28, 0));
    }
    Ok(Recording(bytes))
}

const TOO_MANY_BATCHES: Refusal = Refusal { number: 23, place: 0, position: 0 };

/// The page lines of a recording.
pub fn log_of_recording(bytes: &[u8]) -> Result<Received, Refusal> {
    let recording = judged(bytes)?;
    let mut reader = Reader::default();
    let mut batches = 0;
    let mut next = recording.hunt(0);
    while let Some(at) = next {
        if batches == MOST_BATCHES {
            return Err(TOO_MANY_BATCHES);
        }
        batches += 1;
        reader.batch(&recording.batch(at));
        let end = at + BATCH_BITS;
        next = if !recording.has_batch(end) {
            None
        } else if recording.is_sync(end) {
            Some(end)
        } else {
            reader.close(true);
            recording.hunt(end)
        };
    }
    reader.close(false);
    Ok(Received { batches: batches as u32, log: reader.log })
}

/// The page lines of a recording, over the front of the lent slice.
pub fn receive(bytes: &[u8], out: &mut [u8]) -> Result<Receiving, Refusal> {
    log_of_recording(bytes)?.hand_over(out)
}

/// The bits of a recording, or of a part of one.
pub fn bits(bytes: &[u8]) -> Vec<bool> {
    bytes.iter().flat_map(|byte| (0..8).map(move |at| byte << at & 0x80 != 0)).collect()
}

/// The bits of words, as they are sent.
pub fn bits_of_words(words: &[u32]) -> Vec<bool> {
    words.iter().flat_map(|word| bits(&word.to_be_bytes())).collect()
}

/// The recording of these bits; its last byte is filled with zeros.
pub fn recorded(bits: &[bool]) -> Vec<u8> {
    bits.chunks(8).map(|eight| eight.iter().enumerate().fold(0, |byte, (at, &bit)| byte | u8::from(bit) << (7 - at))).collect()
}

/// Batches one directly behind the other.
struct Run {
    words: Vec<u32>,
    /// Whether it ended because the next 32 bits were no sync.
    lost_sync: bool,
}

/// The runs of a recording, looked for bit by bit.
fn runs(bits: &[bool]) -> Vec<Run> {
    let sync = bits_of_words(&[SYNC]);
    // no third bit differs
    let is_sync = |at: usize| bits[at..].iter().zip(&sync).filter(|(bit, sync)| bit != sync).nth(2).is_none();
    let word = |at: usize| bits[at..at + WORD_BITS].iter().fold(0, |word, &bit| word << 1 | u32::from(bit));
    let has_batch = |at: usize| bits.len() >= at + BATCH_BITS;
    let mut runs: Vec<Run> = vec![];
    let mut running = false;
    let mut at = 0;
    while has_batch(at) {
        if !is_sync(at) {
            if running {
                runs.last_mut().expect("it is running").lost_sync = true;
                running = false;
            }
            at += 1;
            continue;
        }
        if !running {
            runs.push(Run { words: vec![], lost_sync: false });
            running = true;
        }
        runs.last_mut().expect("it is running").words.extend((0..BATCH_WORDS).map(|i| word(at + WORD_BITS * i)));
        at += BATCH_BITS;
    }
    runs
}

/// What is read of a run. Behind one that lost its sync a lost word, which isn't counted, cuts the page that is open.
fn read_run(run: &Run) -> Log {
    if !run.lost_sync {
        return reader::read(&run.words);
    }
    const LOST: u32 = 7;
    let mut cutting = [IDLE; BATCH_WORDS];
    (cutting[0], cutting[1]) = (SYNC, LOST);
    let mut log = reader::read(&[&run.words[..], &cutting].concat());
    log.lost -= 1;
    log
}

/// The plain way: run by run.
pub fn run_by_run(bytes: &[u8]) -> Result<Received, Refusal> {
    judged(bytes)?;
    let mut received = Received::default();
    for run in runs(&bits(bytes)) {
        let Log { lines, pages, lost, orphans, changed } = read_run(&run);
        let log = &mut received.log;
        received.batches += (run.words.len() / BATCH_WORDS) as u32;
        log.lines.extend(lines);
        log.pages += pages;
        log.lost += lost;
        log.orphans += orphans;
        log.changed.slots += changed.slots;
        log.changed.syncs += changed.syncs;
    }
    if received.batches > MOST_BATCHES as u32 {
        return Err(TOO_MANY_BATCHES);
    }
    Ok(received)
}

#[cfg(test)]
mod tests {
    use super::*;
    use crate::book::NO_BOOK;
    use crate::codeword::{address, message};
    use crate::placement::PREAMBLE_WORDS;
    use crate::reader::{log_of_words, Changes};
    use crate::send::Accepted;

    /// One batch with these words from this slot on, and idle everywhere else.
    fn batch(slot: usize, part: &[u32]) -> Vec<bool> {
        let mut words = [IDLE; BATCH_WORDS];
        words[0] = SYNC;
        words[1 + slot..1 + slot + part.len()].copy_from_slice(part);
        bits_of_words(&words)
    }

    /// A page opens in the last slot but one.
    fn opening() -> Vec<bool> {
        batch(14, &[address(7, 1), message(0x12345)])
    }

    /// A message word in the first slot.
    fn going_on() -> Vec<bool> {
        batch(0, &[message(0xABCDE)])
    }

    const WHOLE: &str = "000007 6 12345\n";
    const CUT: &str = "000007 6 12345-\n";
    const LONG: &str = "000007 6 12345ABCDE\n";

    fn zeros(count: usize) -> Vec<bool> {
        vec![false; count]
    }

    fn sync(flips: u32) -> Vec<bool> {
        bits_of_words(&[SYNC ^ flips])
    }

    /// What is received, in both ways the same.
    fn received(bytes: &[u8]) -> Result<Received, Refusal> {
        let answer = log_of_recording(bytes);
        assert_eq!(run_by_run(bytes), answer);
        answer
    }

    /// The lines and the batches of bits that fill whole bytes.
    fn heard(parts: &[&[bool]]) -> (String, u32) {
        let bits = parts.concat();
        assert_eq!(bits.len() % 8, 0, "{}", bits.len());
        let Received { batches, log } = received(&recorded(&bits)).unwrap();
        (String::from_utf8(log.lines).unwrap(), batches)
    }

    /// Orphans, lost words and changed bits.
    fn counts(parts: &[&[bool]]) -> (u32, u32, u32, u32) {
        let Received { log: Log { lost, orphans, changed: Changes { slots, syncs }, .. }, .. } =
            received(&recorded(&parts.concat())).unwrap();
        (orphans, lost, slots, syncs)
    }

    fn fault(bytes: &[u8]) -> Option<(u32, usize)> {
        received(bytes).err().map(|refusal| (refusal.number, refusal.place))
    }

    #[test]
    fn bits_both_ways() {
        assert_eq!(bits(&[0b1010_0001]), [true, false, true, false, false, false, false, true]);
        assert_eq!(recorded(&[true, false, true]), [0b1010_0000]);
        assert_eq!(recorded(&bits_of_words(&[SYNC])), [0x7C, 0xD2, 0x15, 0xD8]);
        let bytes: Vec<u8> = (0..=255).collect();
        assert_eq!(recorded(&bits(&bytes)), bytes);
        let slipped = recorded(&[&[false; 3][..], &bits_of_words(&[SYNC, IDLE])].concat());
        assert_eq!((Recording(&slipped).word(3), Recording(&slipped).word(35)), (SYNC, IDLE));
    }

    #[test]
    fn what_was_sent_is_received() {
        let job = b"000009 4 3132\n00000A 6 12345\n00000F 5 4142434445464748494A4B4C4D4E4F50\n000004 7 00000FFFFF\n000007 2\n";
        let words = Accepted::new(job, NO_BOOK).unwrap().words();
        let flip = |(i, word): (usize, &u32)| word ^ 1 << (i % 32) ^ 1 << (i * 7 % 31);
        let batches: Vec<u32> = words[PREAMBLE_WORDS..].iter().enumerate().map(flip).collect();
        let expected = Received { batches: 2, log: log_of_words(&batches).unwrap() };
        assert_eq!((expected.log.pages, expected.log.lost, batches.len()), (5, 0, 2 * BATCH_WORDS));
        // behind a preamble of any length and with up to seven bits behind
        for front in 0..PREAMBLE_WORDS * WORD_BITS {
            let preamble: Vec<bool> = (0..front).map(|at| (at + front) % 2 == 0).collect();
            let bits = [preamble, bits_of_words(&batches)].concat();
            assert_eq!(received(&recorded(&bits)).unwrap(), expected, "{front}");
        }
    }

    #[test]
    fn no_batch() {
        let nothing = Ok(Received::default());
        for byte in [0, 0xFF, 0xAA, 0x7C] {
            for length in [0, 1, 67, 68, 69, 136, 1000] {
                assert_eq!(received(&vec![byte; length]), nothing);
            }
        }
        // the bits of a batch turned round, and the other way up
        let mut turned = opening();
        turned.reverse();
        assert_eq!(heard(&[&turned, &zeros(544)]), (String::new(), 0));
        let inverted: Vec<bool> = opening().iter().map(|bit| !bit).collect();
        assert_eq!(heard(&[&inverted, &zeros(544)]), (String::new(), 0));
        assert_eq!(receive(&[0; 100], &mut []).unwrap().reading.bytes, 0);
    }

    #[test]
    fn a_batch_has_512_bits_behind_its_sync() {
        for front in 0..17 {
            let bits = [zeros(front), opening()].concat();
            for bytes in 60..80 {
                let mut part = bits.clone();
                part.resize(8 * bytes, false);
                let found = front + BATCH_BITS <= 8 * bytes;
                assert_eq!(heard(&[&part]), if found { (WHOLE.into(), 1) } else { (String::new(), 0) }, "{front} {bytes}");
            }
        }
        // one bit too few, and just enough
        assert_eq!(heard(&[&zeros(9), &opening()[..543]]), (String::new(), 0));
        assert_eq!(heard(&[&zeros(8), &opening()]), (WHOLE.into(), 1));
    }

    #[test]
    fn what_follows_a_batch() {
        let (whole, cut, long) = ((WHOLE.into(), 1), (CUT.into(), 1), (LONG.into(), 2));
        // 543 bits left: the end, whatever stands there
        assert_eq!(heard(&[&zeros(1), &opening(), &zeros(543)]), whole);
        assert_eq!(heard(&[&zeros(1), &opening(), &going_on()[..543]]), whole);
        // 544: the next batch, or no sync
        assert_eq!(heard(&[&opening(), &going_on()]), long);
        assert_eq!(heard(&[&opening(), &zeros(544)]), cut);
        assert_eq!(heard(&[&opening(), &zeros(1), &going_on()[..543]]), cut);
        // 545: so too, and the hunt may find a batch one bit behind
        assert_eq!(heard(&[&zeros(7), &opening(), &zeros(545)]), cut);
        assert_eq!(heard(&[&zeros(7), &opening(), &going_on(), &zeros(1)]), long);
        assert_eq!(heard(&[&zeros(7), &opening(), &zeros(1), &going_on()]), (CUT.into(), 2));
        for left in 0..544 {
            let front = zeros((8 - left % 8) % 8);
            assert_eq!(heard(&[&front, &opening(), &zeros(left)]), whole, "{left}");
        }
    }

    #[test]
    fn where_a_page_ends() {
        let tone = batch(15, &[address(7, 3)]);
        // a tone at the end of the batch is open too; a page that idle has ended is not
        assert_eq!(heard(&[&tone, &zeros(8)]), ("000007 3\n".into(), 1));
        assert_eq!(heard(&[&tone, &zeros(544)]), ("000007 3-\n".into(), 1));
        assert_eq!(heard(&[&batch(13, &[address(6, 1), message(0x12345)]), &zeros(544)]), ("000006 6 12345\n".into(), 1));
        // through every batch of a run, to its end
        let through = batch(0, &[message(0xABCDE); 16]);
        let digits = "ABCDE".repeat(16);
        assert_eq!(heard(&[&opening(), &through, &through]), (format!("000007 6 12345{digits}{digits}\n"), 3));
        assert_eq!(heard(&[&opening(), &through, &zeros(544)]), (format!("000007 6 12345{digits}-\n"), 2));
        // message words of the next run are orphans until an address comes
        let next = batch(0, &[message(0), message(1), address(8, 2), message(0xFEDCB)]);
        assert_eq!(heard(&[&opening(), &zeros(8), &next, &zeros(8)]), (format!("{CUT}000009 7 FEDCB\n"), 2));
        assert_eq!(counts(&[&opening(), &zeros(8), &next, &zeros(8)]), (2, 0, 0, 0));
    }

    #[test]
    fn a_sync_has_up_to_two_wrong_bits() {
        let rest = &opening()[32..];
        let goes_on = &going_on()[32..];
        let patterns = [0u32, 1, 1 << 31, 3, 0x8000_0001, 0x0001_8000, 7, 0x8000_0003, 0xC000_0001, 0x0101_0100, 0xF];
        for flips in patterns {
            let count = flips.count_ones();
            let hunted = heard(&[&zeros(24), &sync(flips), rest]);
            assert_eq!(hunted, if count <= 2 { (WHOLE.into(), 1) } else { (String::new(), 0) }, "{flips:08X}");
            let tested = heard(&[&opening(), &sync(flips), goes_on]);
            assert_eq!(tested, if count <= 2 { (LONG.into(), 2) } else { (CUT.into(), 1) }, "{flips:08X}");
            // what is mended in it counts, but not what a failed test shows
            let changed = if count <= 2 { count } else { 0 };
            assert_eq!(counts(&[&zeros(24), &sync(flips), rest]), (0, 0, 0, changed));
            assert_eq!(counts(&[&opening(), &sync(flips), goes_on]), (0, 0, 0, changed));
        }
    }

    #[test]
    fn the_lowest_position_is_taken() {
        // a false sync in front has the batch that follows for its slots
        let false_sync = [sync(0x8000_0001), zeros(8)].concat();
        let (lines, batches) = heard(&[&false_sync, &opening(), &zeros(8)]);
        assert_eq!((batches, lines.contains("12345")), (1, false));
        // one with three wrong bits, and part of one, hide nothing
        assert_eq!(heard(&[&sync(0x8000_0011), &zeros(8), &opening()]), (WHOLE.into(), 1));
        assert_eq!(heard(&[&sync(0)[..20], &sync(0)[..28], &opening()]), (WHOLE.into(), 1));
        assert_eq!(heard(&[&sync(0)[5..], &zeros(5), &opening()]), (WHOLE.into(), 1));
        // in a slot a sync is a lost word and begins no batch, neither now nor when the hunt starts again
        let inside = batch(3, &[SYNC]);
        assert_eq!(heard(&[&inside, &opening()]), (WHOLE.into(), 2));
        assert_eq!(heard(&[&inside, &zeros(544)]), (String::new(), 1));
        assert_eq!(counts(&[&inside, &zeros(544)]), (0, 1, 0, 0));
    }

    #[test]
    fn slipped_bits() {
        let pages = [opening(), going_on(), batch(2, &[address(8, 0)])].concat();
        let tone = "000009 0\n";
        assert_eq!(heard(&[&pages]), (format!("{LONG}{tone}"), 3));
        // a bit more or less between the batches: cut, and the next one is found
        for slip in 1..40 {
            let (one, others) = pages.split_at(544);
            let fill = zeros((8 - slip % 8) % 8);
            assert_eq!(heard(&[one, &zeros(slip), others, &fill]), (format!("{CUT}{tone}"), 3), "{slip}");
            // the second batch has lost its front, so the third is the next that is found
            let fill = zeros(slip % 8);
            assert_eq!(heard(&[one, &others[slip..], &fill]), (format!("{CUT}{tone}"), 2), "{slip}");
        }
        // inside the second batch, behind its sync: the slots behind it are shifted, and then the third is hunted
        let inside = [&pages[..544 + 300], &zeros(8), &pages[544 + 300..]].concat();
        let (lines, batches) = heard(&[&inside]);
        assert!(lines.starts_with(LONG) && lines.ends_with(tone) && batches == 3, "{lines}");
    }

    #[test]
    fn most_batches() {
        let one = opening();
        let run = |count: usize| one.repeat(count);
        assert_eq!(heard(&[&run(300)]).1, 300);
        assert_eq!(fault(&recorded(&run(301))), Some((23, 0)));
        assert_eq!(fault(&recorded(&run(900))), Some((23, 0)));
        // in several runs
        let slipped = [one.clone(), zeros(8)].concat();
        assert_eq!(heard(&[&slipped.repeat(300)]).1, 300);
        assert_eq!(fault(&recorded(&slipped.repeat(301))), Some((23, 0)));
        assert_eq!(heard(&[&run(150), &zeros(8), &run(150)]).1, 300);
        assert_eq!(fault(&recorded(&[run(150), zeros(8), run(151)].concat())), Some((23, 0)));
        // a 301st sync that has 511 bits behind it, and one that has 512
        let late = [zeros(1), run(301)].concat();
        assert_eq!(heard(&[&late[..late.len() - 1]]).1, 300);
        assert_eq!(fault(&recorded(&late)), Some((23, 0)));
        assert_eq!(receive(&recorded(&late), &mut []), Err(Refusal::new(23, 0)));
    }

    #[test]
    fn most_bytes() {
        for batches in [0, 1, 301] {
            let mut bytes = recorded(&opening().repeat(batches));
            bytes.resize(MOST_BYTES + 1, 0);
            assert_eq!(fault(&bytes), Some((28, 0)));
            bytes.pop();
            assert_eq!(fault(&bytes), (batches == 301).then_some((23, 0)));
        }
        // the last batch that there is room for
        let mut bits = zeros(8 * MOST_BYTES - 544);
        bits.extend(opening());
        assert_eq!(heard(&[&bits]), (WHOLE.into(), 1));
        assert_eq!(heard(&[&bits[1..], &zeros(1)]), (WHOLE.into(), 1));
        assert_eq!(heard(&[&zeros(1), &bits[..bits.len() - 1]]), (String::new(), 0));
        assert_eq!(receive(&[0; MOST_BYTES + 1], &mut []), Err(Refusal::new(28, 0)));
    }

    #[test]
    fn the_longest_answer() {
        let mut slots = [message(0); 16];
        slots[0] = address(0, 0);
        let run = [batch(0, &slots), zeros(8)].concat();
        let bytes = recorded(&[run.repeat(300), zeros(544)].concat());
        let line = format!("000000 4 {}-\n", "30".repeat(75));
        let mut out = vec![7; 48_301];
        assert_eq!(receive(&bytes, &mut out[..48_299]), Err(Refusal::new(10, 0)));
        assert_eq!(out, [7; 48_301]);
        let reading = Reading { bytes: 48_300, pages: 300, lost: 0, orphans: 0, changed: Changes::default() };
        assert_eq!(receive(&bytes, &mut out), Ok(Receiving { batches: 300, reading }));
        assert_eq!((&out[..48_300], out[48_300]), (line.repeat(300).as_bytes(), 7));
        // without what stands behind the last batch its page is whole
        let end = bytes.len() - 544 / 8 - 1;
        assert_eq!(receive(&bytes[..end], &mut out).unwrap().reading.bytes, 48_299);
    }

    #[test]
    fn changed_bits_and_lost_words() {
        let words = [SYNC ^ 1, IDLE ^ 3, address(8, 1) ^ 0x8000_0000, message(5), 7, SYNC ^ 1, message(6) ^ 1];
        let mut bits = bits_of_words(&words);
        bits.extend(bits_of_words(&[IDLE; 10]));
        assert_eq!(counts(&[&bits]), (1, 2, 4, 1));
        assert_eq!(counts(&[&bits, &bits]), (2, 4, 8, 2));
        assert_eq!(counts(&[&bits, &zeros(8), &bits]), (2, 4, 8, 2));
    }
}
