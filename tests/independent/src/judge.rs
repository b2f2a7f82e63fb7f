//! R-9, and R-2's sums, as checks of one reading of a damaged transmission, whoever read it. It goes by their sentences alone: it knows
//! how many bits were flipped in each word and looks at no codeword.

use crate::job;
use crate::placement::BATCH_WORDS;
use crate::reader::{Changes, Log};

/// A page that was sent.
pub struct Sent {
    /// The line that is printed where nothing is damaged, newline included.
    pub line: Vec<u8>,
    message_words: usize,
    /// The slot of its address, as sending reports it.
    slot: usize,
}

/// The pages of a good job with its book, in job order, with the slots that were reported for them.
pub fn sent(job: &[u8], book: &[u8], slots: &[u32]) -> Vec<Sent> {
    let pages = job::parse(job, book).expect("good job");
    let lines = lines(job).map(|line| undamaged(line, book));
    let sent = lines.zip(pages).zip(slots);
    sent.map(|((line, page), &slot)| Sent { line, message_words: page.message_words(), slot: slot as usize }).collect()
}

/// The line in the job itself or, of a phrase, the alphanumeric page's with the line that the number has in the book.
fn undamaged(line: &[u8], book: &[u8]) -> Vec<u8> {
    let [identity @ .., b'9', b' ', tens, ones, b'\n'] = line else { return line.to_vec() };
    let number = usize::from(tens - b'0') * 10 + usize::from(ones - b'0');
    [identity, b"5 ", lines(book).nth(number).expect("a phrase")].concat()
}

/// Lines with their newlines.
fn lines(text: &[u8]) -> impl Iterator<Item = &[u8]> {
    text.split_inclusive(|&byte| byte == b'\n')
}

/// How many bits are flipped: at most three of each slot's word, and at most two of a sync.
#[derive(Default)]
pub struct Flips {
    /// Of each slot's word.
    slots: Vec<u32>,
    /// Of all syncs together.
    syncs: u32,
}

/// The flips of batches, given as they were sent and as they were received.
pub fn flips(sent: &[u32], received: &[u32]) -> Flips {
    let mut flips = Flips::default();
    for (i, (sent, received)) in sent.iter().zip(received).enumerate() {
        let count = (sent ^ received).count_ones();
        if i % BATCH_WORDS == 0 {
            flips.syncs += count;
        } else {
            flips.slots.push(count);
        }
    }
    flips
}

impl Flips {
    /// The bits that reading changes: every flip but those of lost words.
    pub fn changed(&self) -> Changes {
        Changes { slots: self.slots.iter().filter(|flips| is_read(flips)).sum(), syncs: self.syncs }
    }
}

/// What is asked of a reading, in this order, and named where it is broken: R-9's sentences, and with them document 01's counts
/// and R-2's sums.
#[derive(Clone, Copy, Debug, PartialEq, Eq)]
pub enum Broken {
    /// The pages lie within the batches, by their reported slots.
    Slots,
    /// As many words are lost as have three flips.
    Lost,
    /// A page has a line where its address has at most two flips, and there only.
    OneLineEach,
    /// As many pages are reported as there are lines.
    Pages,
    /// The lines are those of sent pages, one for each, in slot order.
    InSlotOrder,
    /// A page whose codewords and next slot have at most two flips each has its undamaged line.
    Whole,
    /// Any other line has its `-`, directly before the newline.
    Cut,
    /// A cut line has its page's kind or, where no message word was read, the tone of its function.
    Kind,
    /// The text of a cut line begins its page's text.
    Text,
    /// Message words that were read behind a lost word of their own page are the orphans.
    Orphans,
    /// In the slots as many bits are changed as are flipped, lost words apart.
    ChangedSlots,
    /// In the syncs as many bits are changed as are flipped.
    ChangedSyncs,
}

/// What a reading breaks first, if anything.
pub fn judge(sent: &[Sent], flips: &Flips, read: &Log) -> Result<(), Broken> {
    let slots = &flips.slots;
    let mut pages = sent.iter().map(|sent| Received::new(sent, slots)).collect::<Option<Vec<_>>>().ok_or(Broken::Slots)?;
    pages.sort_by_key(|page| page.sent.slot);
    let with_line = || pages.iter().filter(|page| page.address_read());
    let lines = || lines(&read.lines);

    holds(read.lost as usize == slots.iter().filter(|&&flips| flips == 3).count(), Broken::Lost)?;
    holds(lines().count() == with_line().count(), Broken::OneLineEach)?;
    holds(read.pages as usize == lines().count(), Broken::Pages)?;
    for (page, line) in with_line().zip(lines()) {
        holds(line.starts_with(page.sent.identity()), Broken::InSlotOrder)?;
        if page.all_read() {
            holds(line == page.sent.line, Broken::Whole)?;
        } else {
            page.cut(line)?;
        }
    }
    holds(read.orphans as usize == pages.iter().map(Received::orphans).sum(), Broken::Orphans)?;
    holds(read.changed.slots == flips.changed().slots, Broken::ChangedSlots)?;
    holds(read.changed.syncs == flips.changed().syncs, Broken::ChangedSyncs)
}

fn holds(fact: bool, otherwise: Broken) -> Result<(), Broken> {
    fact.then_some(()).ok_or(otherwise)
}

/// At most two flips: the word is read as it was sent.
fn is_read(flips: &u32) -> bool {
    *flips <= 2
}

impl Sent {
    /// The six digits and the space behind them.
    fn identity(&self) -> &[u8] {
        &self.line[..7]
    }

    /// The digit of its kind.
    fn kind(&self) -> u8 {
        self.line[7]
    }

    /// The digit of a tone with its function.
    fn tone(&self) -> u8 {
        match self.kind() {
            b'4' => b'0',
            b'5' => b'3',
            b'6' => b'1',
            b'7' => b'2',
            tone => tone,
        }
    }

    /// Whether this begins the page's text: nothing, or the space and then pairs, of a data page groups, at least one.
    fn has_front(&self, text: &[u8]) -> bool {
        let digits = if matches!(self.kind(), b'6' | b'7') { 5 } else { 2 };
        let whole = text.len() > digits && text.len() % digits == 1;
        text.is_empty() || whole && self.line[8..].starts_with(text)
    }
}

/// A page and the flips that matter to it.
struct Received<'a> {
    sent: &'a Sent,
    /// Of its address and its message codewords.
    own: &'a [u32],
    /// Of the slot behind them; the last slot of all has none behind it.
    next: Option<&'a u32>,
}

impl<'a> Received<'a> {
    /// None if the page goes beyond the slots there are.
    fn new(sent: &'a Sent, flips: &'a [u32]) -> Option<Self> {
        let end = sent.slot + 1 + sent.message_words;
        Some(Received { sent, own: flips.get(sent.slot..end)?, next: flips.get(end) })
    }

    fn address_read(&self) -> bool {
        is_read(&self.own[0])
    }

    fn all_read(&self) -> bool {
        self.own.iter().chain(self.next).all(is_read)
    }

    /// Whether any message word was read before the first that is lost.
    fn any_message_read(&self) -> bool {
        self.own.get(1).is_some_and(is_read)
    }

    /// How many message words were read behind its first lost word.
    fn orphans(&self) -> usize {
        self.own.iter().skip_while(|flips| is_read(flips)).filter(|flips| is_read(flips)).count()
    }

    /// What a cut page's line has behind its identity.
    fn cut(&self, line: &[u8]) -> Result<(), Broken> {
        let Some([kind, text @ ..]) = line[7..].strip_suffix(b"-\n") else { return Err(Broken::Cut) };
        if self.any_message_read() {
            holds(*kind == self.sent.kind(), Broken::Kind)?;
            holds(self.sent.has_front(text), Broken::Text)
        } else {
            // a tone has no text
            holds(*kind == self.sent.tone(), Broken::Kind)?;
            holds(text.is_empty(), Broken::Text)
        }
    }
}

#[cfg(test)]
mod tests {
    use super::*;
    use crate::book::NO_BOOK;
    use crate::reader::log_of_words;
    use crate::send::Accepted;

    /// A job with its book, the slots that are lost, the lines that are read, the orphans, and the bits changed.
    struct Day {
        job: &'static [u8],
        book: &'static [u8],
        lost: &'static [usize],
        lines: &'static str,
        orphans: u32,
        changed: Changes,
    }

    /// Addresses in slots 9, 0, 3, 4, 14, 15 and 12. Lost are the end of a message, the start of one, the slot behind one, and the
    /// last address.
    const FIRST: Day = Day {
        job: b"000004 4 3132\n000000 4 313233343536\n000001 2\n000002 5 4142434445464748\n000007 0\n00000F 3\n000006 5 41\n",
        book: NO_BOOK,
        lost: &[2, 5, 11, 15],
        lines: "000000 4 3132333435-\n000001 2\n000002 3-\n000004 4 3132-\n000006 5 41\n000007 0-\n",
        orphans: 2,
        changed: Changes { slots: 12, syncs: 1 },
    };

    /// Addresses in slots 0, 4, 7, 12, 15, 16, 17, 30 and 31, the last of all. Lost are the second word of a page whose first is spaces,
    /// the first of one, the second of one, within a character, and an address.
    const SECOND: Day = Day {
        job: b"000000 4 202020202031\n000002 4 3132\n000003 5 4142434445464748\n000006 4 31323334353637\n000007 1\n000008 1\n000008 2\n00000F 0\n000017 3\n",
        book: NO_BOOK,
        lost: &[2, 5, 9, 12],
        lines: "000000 4-\n000002 0-\n000003 5 4142-\n000007 1\n000008 1\n000008 2\n00000F 0\n000017 3\n",
        orphans: 3,
        changed: Changes { slots: 27, syncs: 1 },
    };

    /// Data pages with addresses in slots 0, 5, 9, 12 and 15. Lost are the last group of one, the first of one, the slot behind
    /// one, and an address.
    const THIRD: Day = Day {
        job: b"000000 6 1234567890ABCDE\n000002 7 0000000000\n000004 6 FFFFF\n000006 7 ABCDE\n000007 6 12345\n",
        book: NO_BOOK,
        lost: &[3, 6, 11, 15],
        lines: "000000 6 1234567890-\n000002 2-\n000004 6 FFFFF-\n000006 7 ABCDE\n",
        orphans: 2,
        changed: Changes { slots: 26, syncs: 1 },
    };

    /// Phrases with addresses in slots 0, 5, 8 and 12, and a tone in the pause after the last. Lost are the second word of one, the
    /// only word of one, the slot behind one, and the slot behind the tone.
    const FOURTH: Day = Day {
        job: b"000000 9 02\n000002 9 00\n000004 9 01\n000006 9 03\n000007 3\n",
        book: b"5A\n4142434445\n4142434445464748\n7F\n",
        lost: &[2, 6, 11, 15],
        lines: "000000 5 4142-\n000002 3-\n000004 5 4142434445-\n000006 5 7F\n000007 3-\n",
        orphans: 1,
        changed: Changes { slots: 11, syncs: 1 },
    };

    impl Day {
        /// The words behind the preamble as received: three flips in the lost slots, none to two in the other words.
        fn received(&self, batches: &[u32]) -> Vec<u32> {
            let few = batches.iter().enumerate().map(|(i, word)| word ^ [1 << 31, 0x0001_0001, 0][i % 3]);
            let mut received: Vec<u32> = few.collect();
            for slot in self.lost {
                let at = slot + slot / 16 + 1;
                received[at] = batches[at] ^ 0x8000_0101;
            }
            received
        }

        /// The reported slots, the flips, and what is read.
        fn read(&self) -> (Vec<u32>, Flips, Log) {
            let accepted = Accepted::new(self.job, self.book).unwrap();
            let batches = accepted.words().split_off(18);
            let received = self.received(&batches);
            (accepted.placement.slots, flips(&batches, &received), log_of_words(&received).unwrap())
        }

        /// What is said of a reading that is the true one but for a change.
        fn judged(&self, change: impl FnOnce(&mut Log)) -> Result<(), Broken> {
            let (slots, flips, mut log) = self.read();
            let pages = self.lines.lines().count() as u32;
            let lost = self.lost.len() as u32;
            assert_eq!(log, Log { lines: self.lines.into(), pages, lost, orphans: self.orphans, changed: self.changed });
            change(&mut log);
            judge(&sent(self.job, self.book, &slots), &flips, &log)
        }

        /// The same where a part of the lines, which is there once, is replaced, and the lines are counted rightly.
        fn with(&self, part: &str, by: &str) -> Result<(), Broken> {
            assert_eq!(self.lines.matches(part).count(), 1, "{part}");
            assert_ne!(part, by);
            self.judged(|log| {
                log.lines = self.lines.replace(part, by).into();
                log.pages = lines(&log.lines).count() as u32;
            })
        }
    }

    #[test]
    fn lines_for_pages() {
        assert_eq!(FIRST.judged(|_| ()), Ok(()));
        assert_eq!(SECOND.judged(|_| ()), Ok(()));
        assert_eq!(THIRD.judged(|_| ()), Ok(()));
        assert_eq!(FOURTH.judged(|_| ()), Ok(()));
        // one missing, doubled, added; one for the page whose address is lost
        assert_eq!(FIRST.with("000001 2\n", ""), Err(Broken::OneLineEach));
        assert_eq!(FIRST.with("000002 3-\n", ""), Err(Broken::OneLineEach));
        assert_eq!(FIRST.with("000001 2\n", "000001 2\n000001 2\n"), Err(Broken::OneLineEach));
        assert_eq!(FIRST.with("000006 5 41\n", "000005 1\n000006 5 41\n"), Err(Broken::OneLineEach));
        assert_eq!(FIRST.with("000007 0-\n", "000007 0-\n00000F 3\n"), Err(Broken::OneLineEach));
        // as many lines, but two swapped, or one doubled or false in another's place
        assert_eq!(FIRST.with("000001 2\n000002 3-\n", "000002 3-\n000001 2\n"), Err(Broken::InSlotOrder));
        assert_eq!(FIRST.with("000002 3-\n", "000001 2\n"), Err(Broken::InSlotOrder));
        assert_eq!(FIRST.with("000007 0-\n", "00000F 3\n"), Err(Broken::InSlotOrder));
        // two neighbours with the same identity swapped, and one doubled
        assert_eq!(SECOND.with("000008 1\n000008 2\n", "000008 2\n000008 1\n"), Err(Broken::Whole));
        assert_eq!(SECOND.with("000008 1\n000008 2\n", "000008 1\n000008 1\n"), Err(Broken::Whole));
        // one for the page whose address is lost, though its message is read
        assert_eq!(SECOND.with("000007 1\n", "000006 4 31323334353637-\n000007 1\n"), Err(Broken::OneLineEach));
        // another identity
        assert_eq!(FIRST.with("000001 2", "000009 2"), Err(Broken::InSlotOrder));
        assert_eq!(FIRST.with("000000 4", "000008 4"), Err(Broken::InSlotOrder));
    }

    #[test]
    fn whole_and_cut_lines() {
        assert_eq!(FIRST.with("000001 2\n", "000001 2-\n"), Err(Broken::Whole));
        assert_eq!(FIRST.with("5 41\n", "5 41-\n"), Err(Broken::Whole));
        assert_eq!(FIRST.with("5 41\n", "5 42\n"), Err(Broken::Whole));
        assert_eq!(FIRST.with("5 41\n", "5 4142\n"), Err(Broken::Whole));
        assert_eq!(FIRST.with("5 41\n", "5\n"), Err(Broken::Whole));
        assert_eq!(FIRST.with("000001 2\n", "000001 1\n"), Err(Broken::Whole));
        assert_eq!(FIRST.with("3132333435-", "3132333435"), Err(Broken::Cut));
        assert_eq!(FIRST.with("3132333435-", "313233343536"), Err(Broken::Cut));
        assert_eq!(FIRST.with("3132333435-", "-3132333435"), Err(Broken::Cut));
        // the last slot of all has none behind it
        assert_eq!(SECOND.with("000017 3\n", "000017 3-\n"), Err(Broken::Whole));
        // nothing but the next slot is lost
        assert_eq!(FIRST.with(" 3132-\n", " 3132\n"), Err(Broken::Cut));
        assert_eq!(FIRST.with("000007 0-\n", "000007 0\n"), Err(Broken::Cut));
        assert_eq!(FIRST.with("000007 0-\n", "000007 0-"), Err(Broken::Cut));
    }

    #[test]
    fn kind_and_text_of_cut_lines() {
        // no message word read
        assert_eq!(FIRST.with("000002 3-", "000002 5-"), Err(Broken::Kind));
        assert_eq!(FIRST.with("000002 3-", "000002 0-"), Err(Broken::Kind));
        assert_eq!(FIRST.with("000002 3-", "000002 3 41-"), Err(Broken::Text));
        assert_eq!(FIRST.with("000007 0-", "000007 4-"), Err(Broken::Kind));
        assert_eq!(SECOND.with("000002 0-", "000002 4-"), Err(Broken::Kind));
        // some read
        assert_eq!(SECOND.with("000000 4-", "000000 0-"), Err(Broken::Kind));
        assert_eq!(SECOND.with("4142-", "414243-"), Ok(()));
        assert_eq!(SECOND.with("4142-", "4143-"), Err(Broken::Text));
        assert_eq!(FIRST.with("000000 4 3132333435-", "000000 0-"), Err(Broken::Kind));
        assert_eq!(FIRST.with("000000 4", "000000 5"), Err(Broken::Kind));
        assert_eq!(FIRST.with("3132333435-", "3132333436-"), Err(Broken::Text));
        assert_eq!(FIRST.with("3132333435-", "3232333435-"), Err(Broken::Text));
        assert_eq!(FIRST.with("3132333435-", "31323334353637-"), Err(Broken::Text));
        assert_eq!(FIRST.with("3132333435-", "313233343-"), Err(Broken::Text));
        assert_eq!(FIRST.with("000000 4 3132333435-", "000000 4 -"), Err(Broken::Text));
        // R-9 leaves it free how much of the text is there
        for text in ["", " 31", " 3132", " 313233343536"] {
            assert_eq!(FIRST.with("000000 4 3132333435-", &format!("000000 4{text}-")), Ok(()));
        }
    }

    #[test]
    fn data_pages() {
        assert_eq!(THIRD.with("7 ABCDE\n", "6 ABCDE\n"), Err(Broken::Whole));
        assert_eq!(THIRD.with("7 ABCDE\n", "7 ABCDF\n"), Err(Broken::Whole));
        assert_eq!(THIRD.with("FFFFF-", "FFFFF"), Err(Broken::Cut));
        // no message word read
        assert_eq!(THIRD.with("000002 2-", "000002 7-"), Err(Broken::Kind));
        assert_eq!(THIRD.with("000002 2-", "000002 1-"), Err(Broken::Kind));
        assert_eq!(THIRD.with("000002 2-", "000002 2 00000-"), Err(Broken::Text));
        // some read
        assert_eq!(THIRD.with("000000 6 1234567890-", "000000 1-"), Err(Broken::Kind));
        assert_eq!(THIRD.with("000000 6", "000000 7"), Err(Broken::Kind));
        for text in ["", " 12345", " 1234567890ABCDE"] {
            assert_eq!(THIRD.with("000000 6 1234567890-", &format!("000000 6{text}-")), Ok(()));
        }
        // parts of a group, pairs among them; another digit; too many groups
        for text in ["", "12", "1234", "123456", "123456789", "1234567890AB", "1234567891", "1234567890ABCDE00000"] {
            assert_eq!(THIRD.with("1234567890-", &format!("{text}-")), Err(Broken::Text), "{text}");
        }
    }

    #[test]
    fn phrases() {
        // neither the job's own line nor another phrase
        assert_eq!(FOURTH.with("5 7F\n", "9 03\n"), Err(Broken::Whole));
        assert_eq!(FOURTH.with("5 7F\n", "5 5A\n"), Err(Broken::Whole));
        assert_eq!(FOURTH.with("5 7F\n", "5 03\n"), Err(Broken::Whole));
        // no message word read
        assert_eq!(FOURTH.with("000002 3-", "000002 5-"), Err(Broken::Kind));
        assert_eq!(FOURTH.with("000002 3-", "000002 9-"), Err(Broken::Kind));
        // some read
        assert_eq!(FOURTH.with("000000 5", "000000 9"), Err(Broken::Kind));
        assert_eq!(FOURTH.with("000000 5 4142-", "000000 3-"), Err(Broken::Kind));
        for text in ["", " 41", " 4142434445464748"] {
            assert_eq!(FOURTH.with("000000 5 4142-", &format!("000000 5{text}-")), Ok(()));
        }
        for text in ["02", "5A", "414", "414243444546474849"] {
            assert_eq!(FOURTH.with("5 4142-", &format!("5 {text}-")), Err(Broken::Text), "{text}");
        }
    }

    #[test]
    fn counts() {
        type Count = fn(&mut Log) -> &mut u32;
        let counts: [(Count, Broken); 5] = [
            (|log| &mut log.lost, Broken::Lost),
            (|log| &mut log.orphans, Broken::Orphans),
            (|log| &mut log.pages, Broken::Pages),
            (|log| &mut log.changed.slots, Broken::ChangedSlots),
            (|log| &mut log.changed.syncs, Broken::ChangedSyncs),
        ];
        for (count, broken) in counts {
            assert_eq!(FIRST.judged(|log| *count(log) += 1), Err(broken));
            assert_eq!(FIRST.judged(|log| *count(log) -= 1), Err(broken));
        }
    }

    #[test]
    fn slots_beyond_the_batches() {
        let (mut slots, flips, log) = FIRST.read();
        for slot in [16, 15, 14, u32::MAX] {
            slots[1] = slot;
            assert_eq!(judge(&sent(FIRST.job, FIRST.book, &slots), &flips, &log), Err(Broken::Slots));
        }
    }
}
