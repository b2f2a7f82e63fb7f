//! Sending: a job's transmission as words, as a listing, or word by word.

use crate::codeword::{IDLE, PREAMBLE, SYNC};
use crate::job::{self, Page};
use crate::listing;
use crate::placement::{self, word_index, Placement, BATCH_WORDS, PREAMBLE_WORDS};
use crate::{Refusal, TOO_SHORT};
use std::ops::Range;

#[derive(Clone, Copy, Debug, PartialEq, Eq)]
pub struct Report {
    pub batches: u32,
    pub words: u32,
}

/// An accepted job and where its pages go.
pub struct Accepted {
    pub pages: Vec<Page>,
    pub placement: Placement,
}

impl Accepted {
    pub fn new(job: &[u8], book: &[u8]) -> Result<Accepted, Refusal> {
        let pages = job::parse(job, book)?;
        let placement = placement::place(&pages);
        Ok(Accepted { pages, placement })
    }

    /// Writes the transmission. The slice must have its length.
    fn fill(&self, words: &mut [u32]) {
        let (preamble, batches) = words.split_at_mut(PREAMBLE_WORDS);
        preamble.fill(PREAMBLE);
        for batch in batches.chunks_exact_mut(BATCH_WORDS) {
            batch[0] = SYNC;
            batch[1..].fill(IDLE);
        }
        let mut message = Vec::new();
        for (page, &slot) in self.pages.iter().zip(&self.placement.slots) {
            words[word_index(slot)] = page.address();
            message.clear();
            page.push_message(&mut message);
            for (&word, slot) in message.iter().zip(slot + 1..) {
                words[word_index(slot)] = word;
            }
        }
    }

    pub fn words(&self) -> Vec<u32> {
        let mut words = vec![0; self.placement.words()];
        self.fill(&mut words);
        words
    }
}

/// A job's words and address slots, over the front of the lent slices.
pub fn send(job: &[u8], book: &[u8], words: &mut [u32], slots: &mut [u32]) -> Result<Report, Refusal> {
    let accepted = Accepted::new(job, book)?;
    let count = accepted.placement.words();
    let (Some(words), Some(slots)) = (words.get_mut(..count), slots.get_mut(..accepted.pages.len())) else {
        return Err(TOO_SHORT);
    };
    accepted.fill(words);
    slots.copy_from_slice(&accepted.placement.slots);
    Ok(Report { batches: accepted.placement.batches, words: count as u32 })
}

/// A job's listing, over the front of the lent slice, and its length.
pub fn list(job: &[u8], book: &[u8], out: &mut [u8]) -> Result<usize, Refusal> {
    let accepted = Accepted::new(job, book)?;
    let bytes = listing::BYTES_A_WORD * accepted.placement.words();
    let out = out.get_mut(..bytes).ok_or(TOO_SHORT)?;
    listing::write(&accepted.words(), out);
    Ok(bytes)
}

/// The transmission of an accepted job, one word at a time. It doesn't look at the placement: each slot's word is found when it is
/// asked for.
#[derive(Clone, Debug, PartialEq, Eq)]
pub struct Sender {
    /// Pages not yet sent, in job order.
    unsent: Vec<Outgoing>,
    /// The message words of all pages.
    message_words: Vec<u32>,
    /// What is still to come of the message that runs.
    running: Range<usize>,
    /// How many words were given.
    given: usize,
    last_was_message: bool,
}

#[derive(Clone, Debug, PartialEq, Eq)]
struct Outgoing {
    frame: usize,
    address: u32,
    message: Range<usize>,
}

impl Sender {
    pub fn start(job: &[u8], book: &[u8]) -> Result<Sender, Refusal> {
        let mut message_words = Vec::new();
        let mut unsent = Vec::new();
        for page in job::parse(job, book)? {
            let start = message_words.len();
            page.push_message(&mut message_words);
            let message = start..message_words.len();
            unsent.push(Outgoing { frame: page.frame() as usize, address: page.address(), message });
        }
        Ok(Sender { unsent, message_words, running: 0..0, given: 0, last_was_message: false })
    }

    fn slot_word(&mut self, frame: usize) -> u32 {
        if let Some(index) = self.running.next() {
            self.last_was_message = true;
            return self.message_words[index];
        }
        // in the pause after a message only a tone may start
        let pause = std::mem::take(&mut self.last_was_message);
        match self.unsent.iter().position(|page| page.frame == frame && (page.message.is_empty() || !pause)) {
            Some(first) => {
                let page = self.unsent.remove(first);
                self.running = page.message;
                page.address
            }
            None => IDLE,
        }
    }
}

impl Iterator for Sender {
    type Item = u32;

    fn next(&mut self) -> Option<u32> {
        let word = if self.given < PREAMBLE_WORDS {
            PREAMBLE
        } else {
            match (self.given - PREAMBLE_WORDS) % BATCH_WORDS {
                0 if self.unsent.is_empty() && self.running.is_empty() && !self.last_was_message => return None,
                0 => SYNC,
                behind_sync => self.slot_word((behind_sync - 1) / 2),
            }
        };
        self.given += 1;
        Some(word)
    }
}

#[cfg(test)]
mod tests {
    use super::*;
    use crate::book::NO_BOOK;

    #[test]
    fn the_example() {
        let mut words = [1; 40];
        let mut slots = [1; 2];
        let report = send(b"000009 4 3132\n", NO_BOOK, &mut words, &mut slots).unwrap();
        assert_eq!(report, Report { batches: 1, words: 35 });
        assert_eq!(words[..18], [PREAMBLE; 18]);
        assert_eq!(words[18..24], [SYNC, IDLE, IDLE, 0x0000_26EC, 0xC219_9DEA, IDLE]);
        assert_eq!(words[24..35], [IDLE; 11]);
        assert_eq!(words[35..], [1; 5]);
        assert_eq!(slots, [2, 1]);
    }

    #[test]
    fn short_buffers() {
        let job = b"000009 4 3132\n00000F 0\n";
        for (word_count, slot_count, good) in [(35, 2, true), (34, 2, false), (35, 1, false), (0, 0, false), (36, 3, true)] {
            let mut words = vec![7; word_count];
            let mut slots = vec![7; slot_count];
            let answer = send(job, NO_BOOK, &mut words, &mut slots);
            if good {
                assert_eq!(answer, Ok(Report { batches: 1, words: 35 }));
                assert!(words[35..].iter().chain(&slots[2..]).all(|&word| word == 7));
            } else {
                assert_eq!(answer, Err(Refusal::new(10, 0)));
                assert!(words.iter().chain(&slots).all(|&word| word == 7));
            }
        }
        let mut out = [7; 314];
        assert_eq!(list(job, NO_BOOK, &mut out), Err(Refusal::new(10, 0)));
        assert_eq!(out, [7; 314]);
        // a fault of the job comes before the buffer's, and one of the book before both
        assert_eq!(send(b"x", NO_BOOK, &mut [], &mut []), Err(Refusal::new(1, 1)));
        assert_eq!(list(b"", NO_BOOK, &mut []), Err(Refusal::new(9, 0)));
        assert_eq!(list(b"", b"41\n42", &mut []), Err(Refusal::new(19, 2)));
    }

    /// A phrase goes out as the alphanumeric page that has it for its text, whichever call sends it.
    #[test]
    fn a_phrase_is_sent() {
        let book = b"41\n4142434445464748\n";
        let job = b"000002 9 01\n000009 9 00\n000002 2\n";
        let written_out = b"000002 5 4142434445464748\n000009 5 41\n000002 2\n";
        let words = Accepted::new(written_out, NO_BOOK).unwrap().words();
        assert_eq!(Accepted::new(job, book).unwrap().words(), words);
        assert!(Sender::start(job, book).unwrap().eq(words));
        let answers = [(&job[..], &book[..]), (written_out, NO_BOOK)].map(|(job, book)| {
            let (mut words, mut slots, mut out) = ([0; 60], [0; 3], [0; 600]);
            (send(job, book, &mut words, &mut slots).unwrap(), words, slots, list(job, book, &mut out).unwrap(), out)
        });
        assert_eq!(answers[0], answers[1]);
    }

    #[test]
    fn steps_are_the_transmission() {
        let one_message_word = "00000F 4 31\n";
        let long = "000001 5 ".to_owned() + &"41".repeat(240) + "\n";
        for job in [
            "000009 4 3132\n".to_owned(),
            "000007 0\n".to_owned(),
            "000007 0\n000007 1\n".to_owned(),
            one_message_word.to_owned(),
            "000000 0\n".repeat(3),
            long.clone() + "000000 2\n000001 1\n",
            long.repeat(48),
            "000001 4 31\n000002 4 31\n000002 2\n".to_owned(),
            "000001 6 1234567890\n000002 7 ABCDE\n000002 2\n".to_owned(),
        ] {
            let words = Accepted::new(job.as_bytes(), NO_BOOK).unwrap().words();
            let mut sender = Sender::start(job.as_bytes(), NO_BOOK).unwrap();
            let steps: Vec<u32> = sender.by_ref().collect();
            assert_eq!(steps, words, "{job}");
            assert_eq!(sender.next(), None);
            assert_eq!(sender.next(), None);
            assert_eq!(words.iter().filter(|&&word| word == SYNC).count(), (words.len() - 18) / 17);
        }
        assert_eq!(Sender::start(b"", NO_BOOK).err(), Some(Refusal::new(9, 0)));
    }

    /// Three pages, tones or messages, in frames about a batch's end; the messages end about these frames.
    #[test]
    fn steps_around_the_pause() {
        let mut lines = vec![];
        for identity in [0, 1, 7] {
            for words in [0, 1, 2, 13, 14, 15, 16] {
                let kind = if words == 0 { 1 } else { job::ALPHANUMERIC };
                let mut line = vec![];
                Page { identity, kind, text: vec![b'A'; 20 * words / 7] }.print(&mut line);
                lines.push(line);
            }
        }
        for one in &lines {
            for two in &lines {
                for three in &lines {
                    let job = [&one[..], two, three].concat();
                    let words = Accepted::new(&job, NO_BOOK).unwrap().words();
                    assert!(Sender::start(&job, NO_BOOK).unwrap().eq(words), "{}", String::from_utf8_lossy(&job));
                }
            }
        }
    }
}
