//! A desk receiver: the lines that reading prints for one identity. While no page of its own is open it looks at the two slots of
//! its frame in each batch and at no others; an open page it follows from slot to slot until a word ends it. Beside it stands the plain
//! way: of all lines that reading prints those with the identity.

use crate::codeword::{self, Meaning};
use crate::job::identity_fault;
use crate::placement::BATCH_WORDS;
use crate::reader::{self, Log, Open};
use crate::{number, Refusal, TOO_SHORT};

const BATCH_SLOTS: usize = BATCH_WORDS - 1;
const FRAME_SLOTS: usize = 2;

/// The lines of one identity, and how many there are.
#[derive(Clone, Debug, Default, PartialEq, Eq)]
pub struct Followed {
    pub lines: Vec<u8>,
    pub count: u32,
}

/// What is reported when the lines went to a lent slice.
#[derive(Clone, Copy, Debug, PartialEq, Eq)]
pub struct Following {
    pub bytes: usize,
    pub lines: u32,
}

impl Followed {
    /// The lines over the front of the lent slice.
    pub fn hand_over(&self, out: &mut [u8]) -> Result<Following, Refusal> {
        let bytes = self.lines.len();
        out.get_mut(..bytes).ok_or(TOO_SHORT)?.copy_from_slice(&self.lines);
        Ok(Following { bytes, lines: self.count })
    }
}

/// The receiver of one identity over batches that can be read.
struct Receiver<'a> {
    identity: u32,
    batches: &'a [u32],
    /// The message bits of the page that is open, kept so that their memory is used again; so is the text's.
    groups: Vec<u32>,
    text: Vec<u8>,
    followed: Followed,
}

impl Receiver<'_> {
    fn follow(mut self) -> Followed {
        let mut slot = self.own_from(0);
        while let Some(word) = self.word(slot) {
            let next = match self.own_function(word) {
                Some(function) => self.page(function, slot + 1),
                None => slot + 1,
            };
            slot = self.own_from(next);
        }
        self.followed
    }

    /// The first slot of the receiver's frame from this one on.
    fn own_from(&self, slot: usize) -> usize {
        let first = FRAME_SLOTS * (self.identity & 7) as usize;
        match slot % BATCH_SLOTS {
            before if before < first => slot - before + first,
            within if within < first + FRAME_SLOTS => slot,
            behind => slot - behind + BATCH_SLOTS + first,
        }
    }

    /// The word of a slot; none behind the last.
    fn word(&self, slot: usize) -> Option<u32> {
        self.batches.get(slot / BATCH_SLOTS * BATCH_WORDS + 1 + slot % BATCH_SLOTS).copied()
    }

    /// The function, if the word is an address with the identity's upper bits.
    fn own_function(&self, word: u32) -> Option<u32> {
        // the flag stands above the upper bits, so that it is 0 where they are equal
        codeword::correct(word).filter(|near| near >> 13 == self.identity >> 3).map(|near| near >> 11 & 3)
    }

    /// Prints the page whose message begins in this slot, if it has one, and answers the slot that ended it, which may hold the
    /// identity's next address.
    fn page(&mut self, function: u32, mut slot: usize) -> usize {
        self.groups.clear();
        let cut = loop {
            let Some(word) = self.word(slot) else { break false };
            match codeword::correct(word).map(codeword::meaning) {
                Some(Meaning::Message(group)) => self.groups.push(group),
                Some(Meaning::Idle | Meaning::Address { .. }) => break false,
                Some(Meaning::Reserved) | None => break true,
            }
            slot += 1;
        };
        let Followed { lines, count } = &mut self.followed;
        Open { identity: self.identity, function }.print(&self.groups, cut, &mut self.text, lines);
        *count += 1;
        slot
    }
}

fn judged(identity: u32) -> Result<(), Refusal> {
    identity_fault(identity).map_or(Ok(()), |number| Err(Refusal::new(number, 0)))
}

fn follow(identity: u32, batches: &[u32]) -> Followed {
    Receiver { identity, batches, groups: vec![], text: vec![], followed: Followed::default() }.follow()
}

/// The identity's lines of a slice of words: batches only.
pub fn lines_of_words(identity: u32, words: &[u32]) -> Result<Followed, Refusal> {
    judged(identity)?;
    Ok(follow(identity, reader::batches_of_words(words)?))
}

/// The identity's lines of a listing.
pub fn lines_of_listing(identity: u32, listing: &[u8]) -> Result<Followed, Refusal> {
    judged(identity)?;
    Ok(follow(identity, &reader::batches_of_listing(listing)?))
}

/// The identity's lines of a slice of words, over the front of the lent slice.
pub fn follow_words(identity: u32, words: &[u32], out: &mut [u8]) -> Result<Following, Refusal> {
    lines_of_words(identity, words)?.hand_over(out)
}

/// The identity's lines of a listing, over the front of the lent slice.
pub fn follow_listing(identity: u32, listing: &[u8], out: &mut [u8]) -> Result<Following, Refusal> {
    lines_of_listing(identity, listing)?.hand_over(out)
}

/// The plain way: of what was read, or of why it was not, what the identity's receiver answers.
pub fn among(identity: u32, read: &Result<Log, Refusal>) -> Result<Followed, Refusal> {
    judged(identity)?;
    let lines = &read.as_ref().map_err(|&refusal| refusal)?.lines;
    let is_own = |line: &&[u8]| number(&line[..6]) == Some(identity);
    let own: Vec<&[u8]> = lines.split_inclusive(|&byte| byte == b'\n').filter(is_own).collect();
    Ok(Followed { lines: own.concat(), count: own.len() as u32 })
}

#[cfg(test)]
mod tests {
    use super::*;
    use crate::book::NO_BOOK;
    use crate::codeword::{address, encode, message, IDLE, RESERVED};
    use crate::reader::{log_of_listing, log_of_words};
    use crate::send::Accepted;
    use crate::trials::{batches, listed};

    /// In frame 3, whose slots are 6 and 7, 22 and 23, and so on.
    const OWN: u32 = 0x00_000B;
    /// In the same frame.
    const OTHER: u32 = 0x00_0013;
    const LOST: u32 = 7;
    /// The message bits of "12" and of "11111".
    const TWELVE: u32 = 0x84333;
    const ONES: u32 = 0x88888;

    fn own(function: u32) -> u32 {
        address(OWN, function)
    }

    /// What is followed in words and in their listing, in both ways: each time the same.
    fn followed(identity: u32, words: &[u32]) -> Result<Followed, Refusal> {
        let answer = lines_of_words(identity, words);
        let listing = listed(words);
        assert_eq!(lines_of_listing(identity, &listing), answer);
        assert_eq!(among(identity, &log_of_words(words)), answer);
        assert_eq!(among(identity, &log_of_listing(&listing)), answer);
        answer
    }

    fn lines(identity: u32, words: &[u32]) -> String {
        let Followed { lines, count } = followed(identity, words).unwrap();
        assert_eq!(lines.iter().filter(|&&byte| byte == b'\n').count(), count as usize);
        String::from_utf8(lines).unwrap()
    }

    /// The lines of `OWN` in two batches with these words from slot 6 on.
    fn from_six(words: &[u32]) -> String {
        lines(OWN, &batches(2, &[(6, words)]))
    }

    #[test]
    fn every_function_prints() {
        for (function, page) in [(0, "4 3132"), (1, "6 84333"), (2, "7 84333"), (3, "5 21")] {
            let m = message(if function == 3 { 0x84000 } else { TWELVE });
            assert_eq!(from_six(&[own(function)]), format!("00000B {function}\n"));
            assert_eq!(from_six(&[own(function), LOST]), format!("00000B {function}-\n"));
            assert_eq!(from_six(&[own(function), m]), format!("00000B {page}\n"));
            assert_eq!(from_six(&[own(function), m, LOST]), format!("00000B {page}-\n"));
        }
    }

    #[test]
    fn what_ends_a_message() {
        let m = message(TWELVE);
        let (whole, cut) = ("00000B 4 3132\n", "00000B 4 3132-\n");
        let in_any_frame = [own(0), own(3), address(OTHER, 0), address(0, 1), address(0x1F_FFFF, 2)];
        for end in [IDLE].into_iter().chain(in_any_frame) {
            assert_eq!(from_six(&[own(0), m, end, m]), whole, "{end:08X}");
        }
        // every reserved value is lost but idle itself, damaged or not
        for word in RESERVED.iter().flat_map(|upper| (0..4).map(move |function| encode(upper << 2 | function))) {
            for flips in [0, 1, 0x8000_0400] {
                assert_eq!(from_six(&[own(0), m, word ^ flips, m]), if word == IDLE { whole } else { cut }, "{word:08X}");
            }
        }
        assert_eq!(from_six(&[own(0), m, LOST, m]), cut);
        assert_eq!(from_six(&[own(0), m, m ^ 7, m]), cut);
    }

    #[test]
    fn the_word_that_ends_a_message_may_be_an_address_of_its_own() {
        assert_eq!(from_six(&[own(0), own(1)]), "00000B 0\n00000B 1\n");
        // messages up to the frame's next slots
        let m = message(ONES);
        let digits = "31".repeat(5);
        let fifteen = format!("00000B 4 {}", digits.repeat(15));
        let words = |ends: &[u32]| [&[own(0)], &[m; 15][..], ends].concat();
        assert_eq!(from_six(&words(&[own(2)])), format!("{fifteen}\n00000B 2\n"));
        assert_eq!(from_six(&words(&[own(2), own(3)])), format!("{fifteen}\n00000B 2\n00000B 3\n"));
        assert_eq!(from_six(&words(&[LOST, own(1), m])), format!("{fifteen}-\n00000B 6 88888\n"));
        assert_eq!(from_six(&words(&[address(OTHER, 0), own(1), m])), format!("{fifteen}\n00000B 6 88888\n"));
        assert_eq!(from_six(&words(&[m, own(1), m])), format!("{fifteen}{digits}\n00000B 6 88888\n"));
        assert_eq!(from_six(&words(&[m, m, own(1), m])), format!("{fifteen}{digits}{digits}\n"));
    }

    #[test]
    fn an_address_counts_in_its_own_frame_alone() {
        let m = message(TWELVE);
        for slot in 0..BATCH_SLOTS {
            let words = batches(2, &[(slot, &[own(0), m])]);
            for identity in 0x08..0x10 {
                let expected =
                    if identity as usize == 0x08 + slot / 2 { format!("{identity:06X} 4 3132\n") } else { String::new() };
                assert_eq!(lines(identity, &words), expected, "slot {slot}");
            }
        }
        // both slots of the frame, and pages of others in it
        assert_eq!(from_six(&[IDLE, own(1)]), "00000B 1\n");
        assert_eq!(from_six(&[m, own(1), m]), "00000B 6 84333\n");
        assert_eq!(from_six(&[address(OTHER, 1), own(1), m]), "00000B 6 84333\n");
        assert_eq!(from_six(&[own(1), address(OTHER, 1), m]), "00000B 1\n");
        assert_eq!(from_six(&[address(OTHER, 1), m, m]), "");
        // the same word in the next frame ends the message and is the address of another
        let words = batches(2, &[(6, &[own(0), m, own(1), m])]);
        assert_eq!(lines(OWN, &words), "00000B 4 3132\n");
        assert_eq!(lines(OWN + 1, &words), "00000C 6 84333\n");
    }

    #[test]
    fn a_message_runs_on_through_syncs() {
        let m = message(ONES);
        // to the very end, whole
        for slots in [10, 26, 42] {
            let words = batches(3, &[(6, &[&[own(2)], &vec![m; slots - 1][..]].concat())]);
            assert_eq!(lines(OWN, &words), format!("00000B 7 {}\n", "88888".repeat(slots - 1)));
        }
        // from the last slot on, and up to the last slot of a batch
        let words = batches(3, &[(15, &[&[address(7, 1)], &[m; 20][..]].concat())]);
        assert_eq!(lines(7, &words), format!("000007 6 {}\n", "88888".repeat(20)));
        let words = batches(3, &[(6, &[&[own(1)], &[m; 9][..]].concat())]);
        assert_eq!(lines(OWN, &words), format!("00000B 6 {}\n", "88888".repeat(9)));
        // a lost word directly behind a sync
        let words = batches(3, &[(6, &[&[own(1)], &[m; 9][..], &[LOST, m]].concat())]);
        assert_eq!(lines(OWN, &words), format!("00000B 6 {}-\n", "88888".repeat(9)));
    }

    #[test]
    fn the_same_identity_several_times() {
        let m = message(TWELVE);
        let parts: [(usize, &[u32]); 5] =
            [(6, &[own(0), m]), (22, &[own(3), own(1), m, m]), (38, &[LOST, own(2)]), (55, &[own(0), m, LOST]), (70, &[m, own(0)])];
        let words = batches(5, &parts);
        assert_eq!(lines(OWN, &words), "00000B 4 3132\n00000B 3\n00000B 6 8433384333\n00000B 2\n00000B 4 3132-\n00000B 0\n");
        let flipped: Vec<u32> = words.iter().enumerate().map(|(i, word)| word ^ 1 << (i % 32) ^ 1 << (i * 7 % 31)).collect();
        assert_eq!(lines(OWN, &flipped), lines(OWN, &words));
    }

    #[test]
    fn what_was_sent_is_followed() {
        let job = "000009 4 3132\n00000A 6 12345\n000009 2\n00000F 5 41\n000011 9 00\n";
        let words = Accepted::new(job.as_bytes(), b"4142\n").unwrap().words();
        for (identity, expected) in [
            (0x09, "000009 4 3132\n000009 2\n"),
            (0x0A, "00000A 6 12345\n"),
            (0x0F, "00000F 5 41\n"),
            (0x11, "000011 5 4142\n"),
            (0x19, ""),
        ] {
            assert_eq!(lines(identity, &words[18..]), expected);
        }
        let edges = Accepted::new(b"1EA26F 0\n1EA278 0\n1F347F 0\n1F3488 0\n1FFFFF 0\n000000 0\n", NO_BOOK).unwrap().words();
        for identity in [0x1E_A26F, 0x1E_A278, 0x1F_347F, 0x1F_3488, 0x1F_FFFF, 0] {
            assert_eq!(lines(identity, &edges[18..]), format!("{identity:06X} 0\n"));
        }
    }

    #[test]
    fn refusals() {
        let good = batches(3, &[]);
        let mut bad_sync = good.clone();
        bad_sync[17] = IDLE;
        let fault = |identity, words: &[u32]| followed(identity, words).err().map(|refusal| (refusal.number, refusal.place));
        for words in [&good, &bad_sync] {
            let own = (words == &bad_sync).then_some((22, 2));
            for identity in [0, 0x1E_A26F, 0x1E_A278, 0x1F_347F, 0x1F_3488, 0x1F_FFFF] {
                assert_eq!(fault(identity, words), own, "{identity:06X}");
            }
            for identity in [0x20_0000, 0x3E_A270, 0x3F_FFFF, 0x100_0000, u32::MAX] {
                assert_eq!(fault(identity, words), Some((2, 0)), "{identity:06X}");
            }
            for identity in (0x1E_A270..0x1E_A278).chain(0x1F_3480..0x1F_3488) {
                assert_eq!(fault(identity, words), Some((3, 0)), "{identity:06X}");
            }
        }
        let short = &good[..16];
        let long = batches(301, &[]);
        for (identity, first, second) in [(OWN, (21, 0), (23, 0)), (0x20_0000, (2, 0), (2, 0)), (0x1E_A270, (3, 0), (3, 0))] {
            let fault = |words: &[u32]| lines_of_words(identity, words).err().map(|refusal| (refusal.number, refusal.place));
            assert_eq!(fault(short), Some(first));
            assert_eq!(fault(&long), Some(second));
            assert_eq!(among(identity, &log_of_words(short)), lines_of_words(identity, short));
        }
        assert_eq!(lines_of_listing(OWN, b"x"), Err(Refusal::new(21, 1)));
        assert_eq!(lines_of_listing(0x1F_3480, b"x"), Err(Refusal::new(3, 0)));
    }

    #[test]
    fn short_buffers() {
        let mut words = batches(1, &[(0, &[address(0, 0), message(TWELVE)]), (6, &[own(0), message(TWELVE)])]);
        let line = b"00000B 4 3132\n";
        let mut out = [7; 15];
        assert_eq!(follow_words(OWN, &words, &mut out[..13]), Err(Refusal::new(10, 0)));
        assert_eq!(out, [7; 15]);
        assert_eq!(follow_words(OWN, &words, &mut out[..14]), Ok(Following { bytes: 14, lines: 1 }));
        assert_eq!((&out[..14], out[14]), (&line[..], 7));
        assert_eq!(follow_listing(OWN, &listed(&words), &mut out), Ok(Following { bytes: 14, lines: 1 }));
        assert_eq!((&out[..14], out[14]), (&line[..], 7));
        // no line, so that no buffer is too short
        assert_eq!(follow_words(OTHER, &words, &mut []), Ok(Following { bytes: 0, lines: 0 }));
        words[0] = IDLE;
        assert_eq!(follow_words(OWN, &words, &mut []), Err(Refusal::new(22, 1)));
        assert_eq!(follow_words(0x20_0000, &words, &mut []), Err(Refusal::new(2, 0)));
    }
}
