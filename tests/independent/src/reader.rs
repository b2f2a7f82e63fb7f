//! Reading: words, or a listing, to page lines with counts.

use crate::codeword::{self, Meaning};
use crate::job::{print_head, print_pairs};
use crate::listing::{self, MOST_BATCHES};
use crate::placement::BATCH_WORDS;
use crate::text;
use crate::{Refusal, DIGITS, TOO_SHORT};

/// Bits that correction changed: in the slots' words, but for lost ones, and in the sync words.
#[derive(Clone, Copy, Debug, Default, PartialEq, Eq)]
pub struct Changes {
    pub slots: u32,
    pub syncs: u32,
}

/// Page lines and what was counted on the way.
#[derive(Clone, Debug, Default, PartialEq, Eq)]
pub struct Log {
    pub lines: Vec<u8>,
    pub pages: u32,
    pub lost: u32,
    pub orphans: u32,
    pub changed: Changes,
}

/// What is reported when the page lines went to a lent slice.
#[derive(Clone, Copy, Debug, PartialEq, Eq)]
pub struct Reading {
    pub bytes: usize,
    pub pages: u32,
    pub lost: u32,
    pub orphans: u32,
    pub changed: Changes,
}

/// The page that is open; its groups of message bits are kept beside it, so that their memory is used again.
pub struct Open {
    pub identity: u32,
    pub function: u32,
}

impl Open {
    /// Prints the page's line. The text is memory to work in, and is empty before and afterwards.
    pub fn print(&self, groups: &[u32], cut: bool, text: &mut Vec<u8>, lines: &mut Vec<u8>) {
        if groups.is_empty() {
            print_head(self.identity, self.function, lines);
        } else {
            self.print_message(groups, text, lines);
            text.clear();
        }
        if cut {
            lines.push(b'-');
        }
        lines.push(b'\n');
    }

    fn print_message(&self, groups: &[u32], text: &mut Vec<u8>, lines: &mut Vec<u8>) {
        match self.function {
            0 => {
                print_head(self.identity, 4, lines);
                text::unpack_numeric(groups, text);
                print_pairs(text, lines);
            }
            3 => {
                print_head(self.identity, 5, lines);
                text::unpack_alphanumeric(groups, text);
                print_pairs(text, lines);
            }
            function => {
                print_head(self.identity, function + 5, lines);
                print_groups(groups, lines);
            }
        }
    }
}

/// Reads batch by batch: a page that is open goes on into the next one.
#[derive(Default)]
pub(crate) struct Reader {
    pub log: Log,
    open: Option<Open>,
    groups: Vec<u32>,
    text: Vec<u8>,
}

impl Reader {
    /// The words of a batch that begins with sync.
    pub fn batch(&mut self, batch: &[u32]) {
        self.log.changed.syncs += codeword::changed(batch[0], codeword::SYNC);
        for (frame, pair) in batch[1..].chunks_exact(2).enumerate() {
            self.word(pair[0], frame as u32);
            self.word(pair[1], frame as u32);
        }
    }

    fn word(&mut self, word: u32, frame: u32) {
        let Some(near) = codeword::correct(word) else { return self.lose() };
        match codeword::meaning(near) {
            Meaning::Reserved => return self.lose(),
            Meaning::Idle => self.close(false),
            Meaning::Address { upper, function } => {
                self.close(false);
                self.open = Some(Open { identity: upper << 3 | frame, function });
            }
            Meaning::Message(_) if self.open.is_none() => self.log.orphans += 1,
            Meaning::Message(group) => self.groups.push(group),
        }
        self.log.changed.slots += codeword::changed(word, near);
    }

    /// A lost word: what was mended in it isn't counted.
    fn lose(&mut self) {
        self.log.lost += 1;
        self.close(true);
    }

    /// Prints the page that is open, if one is.
    pub fn close(&mut self, cut: bool) {
        let Some(page) = self.open.take() else { return };
        page.print(&self.groups, cut, &mut self.text, &mut self.log.lines);
        self.groups.clear();
        self.log.pages += 1;
    }
}

/// A space and five digits a group.
fn print_groups(groups: &[u32], lines: &mut Vec<u8>) {
    lines.push(b' ');
    for group in groups {
        for shift in [16, 12, 8, 4, 0] {
            lines.push(DIGITS[(group >> shift & 15) as usize]);
        }
    }
}

/// Reads batches that are complete and begin with sync.
pub(crate) fn read(words: &[u32]) -> Log {
    let mut reader = Reader::default();
    words.chunks_exact(BATCH_WORDS).for_each(|batch| reader.batch(batch));
    reader.close(false);
    reader.log
}

/// Declines complete batches of which one doesn't begin with sync.
fn synced<W: AsRef<[u32]>>(words: W) -> Result<W, Refusal> {
    let mut batches = words.as_ref().chunks_exact(BATCH_WORDS);
    match batches.position(|batch| codeword::correct(batch[0]) != Some(codeword::SYNC)) {
        Some(bad) => Err(Refusal::new(22, bad + 1)),
        None => Ok(words),
    }
}

/// A slice of words, if it is one that can be read: batches only.
pub(crate) fn batches_of_words(words: &[u32]) -> Result<&[u32], Refusal> {
    if words.is_empty() || words.len() % BATCH_WORDS != 0 {
        return Err(Refusal::new(21, 0));
    }
    if words.len() / BATCH_WORDS > MOST_BATCHES {
        return Err(Refusal::new(23, 0));
    }
    synced(words)
}

/// The words of a listing's batches, if it is one that can be read.
pub(crate) fn batches_of_listing(listing: &[u8]) -> Result<Vec<u32>, Refusal> {
    synced(listing::read(listing)?)
}

/// The page lines of a slice of words: batches only.
pub fn log_of_words(words: &[u32]) -> Result<Log, Refusal> {
    Ok(read(batches_of_words(words)?))
}

/// The page lines of a listing.
pub fn log_of_listing(listing: &[u8]) -> Result<Log, Refusal> {
    Ok(read(&batches_of_listing(listing)?))
}

impl Log {
    /// The lines over the front of the lent slice.
    pub fn hand_over(&self, out: &mut [u8]) -> Result<Reading, Refusal> {
        let &Log { ref lines, pages, lost, orphans, changed } = self;
        let bytes = lines.len();
        out.get_mut(..bytes).ok_or(TOO_SHORT)?.copy_from_slice(lines);
        Ok(Reading { bytes, pages, lost, orphans, changed })
    }
}

/// The page lines of a slice of words, over the front of the lent slice.
pub fn read_words(words: &[u32], out: &mut [u8]) -> Result<Reading, Refusal> {
    log_of_words(words)?.hand_over(out)
}

/// The page lines of a listing, over the front of the lent slice.
pub fn read_listing(listing: &[u8], out: &mut [u8]) -> Result<Reading, Refusal> {
    log_of_listing(listing)?.hand_over(out)
}

#[cfg(test)]
mod tests {
    use super::*;
    use crate::book::NO_BOOK;
    use crate::codeword::{address, encode, message, IDLE, SYNC};
    use crate::send::Accepted;

    /// One batch with these slots, filled with idle.
    fn batch(slots: &[u32]) -> Vec<u32> {
        let mut words = vec![IDLE; 17];
        words[0] = SYNC;
        words[1..=slots.len()].copy_from_slice(slots);
        words
    }

    fn log(words: &[u32]) -> (String, u32, u32, u32) {
        let log = log_of_words(words).unwrap();
        (String::from_utf8(log.lines).unwrap(), log.pages, log.lost, log.orphans)
    }

    /// Bits changed in the slots and in the syncs.
    fn changed(words: &[u32]) -> (u32, u32) {
        let Changes { slots, syncs } = log_of_words(words).unwrap().changed;
        (slots, syncs)
    }

    fn fault(words: &[u32]) -> Option<(u32, usize)> {
        log_of_words(words).err().map(|refusal| (refusal.number, refusal.place))
    }

    const LOST: u32 = 7;
    const TWELVE: u32 = 0x84333;

    #[test]
    fn what_was_sent_is_read() {
        let job = "000009 4 3132\n00000A 6 12345\n000004 7 00000FFFFF\n00000F 5 41\n000007 2\n";
        let words = Accepted::new(job.as_bytes(), NO_BOOK).unwrap().words();
        assert_eq!(log(&words[18..]), (job.into(), 5, 0, 0));
        let flipped: Vec<u32> = words[18..].iter().enumerate().map(|(i, word)| word ^ 1 << (i % 32) ^ 1 << (i * 7 % 31)).collect();
        assert_eq!(log(&flipped), log(&words[18..]));
        // a phrase is read as an alphanumeric page
        let words = Accepted::new(b"00000A 9 01\n00000F 9 00\n", b"4142\n20\n").unwrap().words();
        assert_eq!(log(&words[18..]), ("00000A 5 20\n00000F 5 4142\n".into(), 2, 0, 0));
    }

    #[test]
    fn nothing_but_idle() {
        assert_eq!(log(&batch(&[])), (String::new(), 0, 0, 0));
        assert_eq!(read_words(&batch(&[]), &mut []).unwrap().bytes, 0);
    }

    #[test]
    fn kinds_and_cuts() {
        let m = message(TWELVE);
        for (slots, line) in [
            (vec![address(0, 0)], "000000 0\n"),
            (vec![address(0, 1)], "000000 1\n"),
            (vec![address(0, 2)], "000000 2\n"),
            (vec![address(0, 3)], "000000 3\n"),
            (vec![address(0, 0), m], "000000 4 3132\n"),
            (vec![address(0, 1), m], "000000 6 84333\n"),
            (vec![address(0, 2), m, message(0)], "000000 7 8433300000\n"),
            (vec![address(0, 3), message(0x82000)], "000000 5 41\n"),
            (vec![address(0, 0), LOST], "000000 0-\n"),
            (vec![address(0, 2), LOST], "000000 2-\n"),
            (vec![address(0, 0), m, LOST], "000000 4 3132-\n"),
            (vec![address(0, 1), m, LOST], "000000 6 84333-\n"),
            (vec![address(0, 0), message(0x33333)], "000000 4\n"),
            (vec![address(0, 0), message(0x33333), LOST], "000000 4-\n"),
            (vec![address(0, 3), message(0), m], "000000 5\n"),
            (vec![address(0, 3), message(0), m, LOST], "000000 5-\n"),
            (vec![address(0, 0), m, SYNC], "000000 4 3132-\n"),
        ] {
            let lost = u32::from(line.contains('-'));
            assert_eq!(log(&batch(&slots)), (line.into(), 1, lost, 0), "{line}");
        }
    }

    #[test]
    fn frames_come_from_slots() {
        let same = [address(0x1F_FFF8, 0); 16];
        let (lines, pages, _, _) = log(&batch(&same));
        assert_eq!(pages, 16);
        let expected: String = (0..16).map(|slot| format!("{:06X} 0\n", 0x1F_FFF8 + slot / 2)).collect();
        assert_eq!(lines, expected);
    }

    #[test]
    fn orphans_and_lost_words() {
        let m = message(TWELVE);
        assert_eq!(log(&batch(&[m, m, IDLE, m])), (String::new(), 0, 0, 3));
        assert_eq!(log(&batch(&[address(0, 0), LOST, m, address(8, 1), IDLE, m])), ("000000 0-\n000009 1\n".into(), 2, 1, 2));
        // damaged words of both reserved values with every function: all but idle count as lost
        for upper in codeword::RESERVED {
            for function in 0..4 {
                let word = encode(upper << 2 | function);
                let (lines, pages, lost, orphans) = log(&batch(&[address(0, 0), word ^ 0x8001, m]));
                assert_eq!((pages, orphans), (1, 1));
                assert_eq!(lost, u32::from(word != IDLE));
                assert_eq!(lines, if word == IDLE { "000000 0\n" } else { "000000 0-\n" });
            }
        }
        // a page runs through sync to the end, uncut
        let mut two = batch(&[]);
        two[16] = address(0, 0);
        two.push(SYNC);
        two.extend([m; 16]);
        assert_eq!(log(&two), (format!("000007 4 {}3132\n", "3132202020".repeat(15)), 1, 0, 0));
    }

    #[test]
    fn changed_bits() {
        // an orphan, an address, its message word, idle
        let slots = [message(TWELVE), address(0, 0), message(TWELVE), IDLE];
        let changes =
            [(0, 0), (1, 1), (1 << 31, 1), (0x0040_0000, 1), (3, 2), (0x8000_0001, 2), (0x0804_0000, 2), (7, 0), (0x8001_0001, 0)];
        for (flips, count) in changes {
            for at in 0..4 {
                let mut received = batch(&slots);
                received[1 + at] ^= flips;
                assert_eq!(changed(&received), (count, 0), "{flips:08X} in slot {at}");
            }
            // in all slots, of which no word is lost or every word
            let received: Vec<u32> = batch(&slots).iter().map(|word| word ^ flips).collect();
            assert_eq!(changed(&[&[SYNC], &received[1..]].concat()), (16 * count, 0));
        }
        // every sync apart from the slots
        let mut three = batch(&slots).repeat(3);
        three[0] ^= 1;
        three[34] ^= 0x8000_0001;
        assert_eq!(changed(&three), (0, 3));
        three[18] ^= 0x8000_0000;
        three[33] ^= 0x0101_0000;
        three[50] ^= 1;
        assert_eq!(changed(&three), (4, 3));
    }

    #[test]
    fn lost_words_count_no_changed_bits() {
        for upper in codeword::RESERVED {
            for function in 0..4 {
                let word = encode(upper << 2 | function);
                for i in 0..32 {
                    for j in 0..=i {
                        let flips = 1 << i | 1 << j;
                        let log = log_of_words(&batch(&[word ^ flips, message(0) ^ 1])).unwrap();
                        let (lost, slots) = if word == IDLE { (0, flips.count_ones()) } else { (1, 0) };
                        assert_eq!(
                            (log.lost, log.changed),
                            (lost, Changes { slots: slots + 1, syncs: 0 }),
                            "{word:08X} {flips:08X}"
                        );
                    }
                }
            }
        }
    }

    #[test]
    fn the_longest_answers() {
        let m = message(TWELVE);
        let long = |function, group: u32| {
            let mut words = Vec::new();
            for _ in 0..300 {
                words.push(SYNC);
                words.extend([message(group); 16]);
            }
            words[1] = address(0, function);
            log(&words).0.len()
        };
        assert_eq!(long(0, 0), 8 + 1 + 2 * 5 * 4799 + 1);
        assert_eq!(long(1, 0), 8 + 1 + 5 * 4799 + 1);
        assert_eq!(long(3, 0xF_FFFF), 8 + 1 + 2 * (20 * 4799 / 7) + 1);
        let pages: Vec<u32> = (0..300).flat_map(|_| batch(&[address(0, 0), m, address(0, 3)].repeat(5))).collect();
        assert!(log(&pages).0.len() < 48_000);
    }

    #[test]
    fn word_slices() {
        assert_eq!(fault(&[]), Some((21, 0)));
        assert_eq!(fault(&batch(&[])[..16]), Some((21, 0)));
        assert_eq!(fault(&[SYNC; 18]), Some((21, 0)));
        assert_eq!(fault(&batch(&[]).repeat(300)), None);
        assert_eq!(fault(&batch(&[]).repeat(301)), Some((23, 0)));
        assert_eq!(fault(&[0; 301 * 17]), Some((23, 0)));
        assert_eq!(fault(&[0; 301 * 17 + 1]), Some((21, 0)));
        let mut words = batch(&[]).repeat(3);
        words[17] ^= 3;
        assert_eq!(fault(&words), None);
        words[17] ^= 4;
        assert_eq!(fault(&words), Some((22, 2)));
        words[34] = IDLE;
        assert_eq!(fault(&words), Some((22, 2)));
        words[17] = SYNC;
        assert_eq!(fault(&words), Some((22, 3)));
        assert_eq!(read_words(&words, &mut []), Err(Refusal::new(22, 3)));
    }

    #[test]
    fn short_buffers() {
        let mut words = batch(&[address(0, 0), message(TWELVE)]);
        words[0] ^= 0x8000_0001;
        words[2] ^= 1;
        let line = b"000000 4 3132\n";
        let mut out = [7; 15];
        assert_eq!(read_words(&words, &mut out[..13]), Err(Refusal::new(10, 0)));
        assert_eq!(out, [7; 15]);
        let changed = Changes { slots: 1, syncs: 2 };
        assert_eq!(read_words(&words, &mut out), Ok(Reading { bytes: 14, pages: 1, lost: 0, orphans: 0, changed }));
        assert_eq!((&out[..14], out[14]), (&line[..], 7));
    }
}
