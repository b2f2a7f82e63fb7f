//! A bad day: the transmission of a job is damaged, by at most three flipped bits in a slot's word and two in a sync, and
//! what the library reads of it is judged.

use crate::compare::{corrects, shown, shown_job, Comparison, Difference, Outcome};
use crate::engine::Engine;
use crate::follow::Received;
use crate::lent::Unit;
use generate::words::{damage, Damage, BATCH};
use generate::{followed, listings, Random};
use independent::book::NO_BOOK;
use independent::judge::{self, Sent};
use independent::placement::PREAMBLE_WORDS;
use independent::reader::{Changes, Log};

/// One slot word in so many has three flips: from heavy damage to days on which most of the longest messages are whole.
const RATES: &[usize] = &[2, 5, 20, 100, 500];

/// One transmission in so many is read slowly too.
const SLOW_DAYS: usize = 10;

/// One transmission in so many is received from a recording too.
const RECORDED_DAYS: usize = 10;

/// Two phrases.
const BOOK: &[u8] = b"4142434445464748494A4B4C4D4E4F505152535455\n4142434445464748\n";

/// Jobs of one batch with their books, for every set of lost slots.
const SHORT: [(&[u8], &[u8]); 3] = [
    // in slot order: a numeric page whose first message word is spaces, a tone in its pause, directly behind that an alphanumeric
    // page, whose text is a phrase, an idle pause and directly behind it a numeric page, and a tone in each of the last two slots
    (b"00000F 2\n00000C 4 3132\n00000A 9 01\n00000F 3\n000009 1\n000008 4 202020202031\n", BOOK),
    // a message up to the last slot but one, and in its pause, the last slot, a tone
    (b"000003 5 4142434445464748494A4B4C4D4E4F505152535455\n000007 0\n", NO_BOOK),
    // data pages: in slot order one of two groups, a tone with its function in its pause, directly behind that one of three, an
    // idle pause and directly behind it one of a group, and a tone in the last slot but one
    (b"00000F 2\n00000C 6 33333\n00000A 7 00000FFFFFABCDE\n000009 1\n000008 6 1234567890\n", NO_BOOK),
];

/// Jobs of two batches with their books, for many sets of lost slots.
const LONGER: [(&[u8], &[u8]); 5] = [
    // a message that runs on behind a sync, and a tone in its pause
    (b"000007 4 31323334353637\n000000 1\n000008 2\n000010 3\n", NO_BOOK),
    // messages that end in the last slot: a batch of idles follows
    (b"00000F 4 31\n", NO_BOOK),
    (b"000000 5 4142434445464748494A4B4C4D4E4F505152535455565758595A6162636465666768696A6B6C6D6E6F70\n", NO_BOOK),
    // a data page that ends in the last slot and one that waits behind it
    (b"00000F 7 ABCDE\n000000 1\n000008 2\n000010 6 1234567890\n", NO_BOOK),
    // two phrases, one of which runs on behind a sync, and a tone in its pause
    (b"000007 9 01\n000009 9 00\n000001 3\n", BOOK),
];

/// A job as the library sent it.
struct Transmission<'a> {
    job: &'a [u8],
    book: &'a [u8],
    pages: Vec<Sent>,
    /// The words behind the preamble.
    batches: Vec<u32>,
}

impl<'a> Transmission<'a> {
    fn new(job: &'a [u8], book: &'a [u8]) -> Result<Self, Difference> {
        let (mut words, mut slots) = (vec![0; card::WORDS], vec![0; card::PAGES]);
        let report = card::send(job, book, &mut words, &mut slots);
        if report.number != 0 {
            return Err(Difference(format!("bad day: sending answers {report:?}\n{}", shown_job(job, book))));
        }
        words.truncate(report.words as usize);
        Ok(Transmission { job, book, pages: judge::sent(job, book, &slots), batches: words.split_off(PREAMBLE_WORDS) })
    }

    /// Each received word is corrected to the one that was sent, where it has at most two flips, and else refused.
    fn corrected(&self, received: &[u32], engine: &Engine) -> Outcome {
        for (&sent, &word) in self.batches.iter().zip(received) {
            let expected = match (sent ^ word).count_ones() {
                3 => card::Word { word, number: 20, changed: 0 },
                changed => card::Word { word: sent, number: 0, changed },
            };
            corrects(engine, word, expected).map_err(|Difference(text)| self.wrong(received, &text))?;
        }
        Ok(())
    }

    /// What the library reads of the received words, which must be as R-9 has it. `how` says how they were read.
    fn judged(&self, received: &[u32], how: &str, read: impl FnOnce(&mut [u8]) -> card::Reading) -> Result<Log, Difference> {
        // no line is longer than its page's own and a `-`
        let mut out = vec![0; self.pages.iter().map(|page| page.line.len() + 1).sum()];
        let reading = read(&mut out);
        if reading.number != 0 {
            return Err(self.wrong(received, &format!("{how}: reading answers {reading:?}")));
        }
        out.truncate(reading.bytes);
        let changed = Changes { slots: reading.changed.slots, syncs: reading.changed.syncs };
        let log = Log { lines: out, pages: reading.pages, lost: reading.lost, orphans: reading.orphans, changed };
        match judge::judge(&self.pages, &judge::flips(&self.batches, received), &log) {
            Ok(()) => Ok(log),
            Err(broken) => {
                let what = format!("{how}: broken: {broken:?}\n{reading:?}\nlines:\n{}", shown(&log.lines));
                Err(self.wrong(received, &what))
            }
        }
    }

    fn wrong(&self, received: &[u32], what: &str) -> Difference {
        let words = self.batches.iter().zip(received).enumerate();
        let shown_word = |(i, (sent, received)): (usize, (&u32, &u32))| match i % BATCH {
            0 => format!("sync {sent:08X} {received:08X}\n"),
            _ => format!("slot {} {sent:08X} {received:08X}, {} flips\n", i - i / BATCH - 1, (sent ^ received).count_ones()),
        };
        let words: String = words.map(shown_word).collect();
        Difference(format!("bad day: {what}\n{}\nwords sent and received:\n{words}", shown_job(self.job, self.book)))
    }
}

impl Comparison {
    /// A good job with its book, and damage at random.
    pub fn bad_day(&mut self, job: &[u8], book: &[u8]) -> Outcome {
        self.random_damage(&Transmission::new(job, book)?)
    }

    /// Short jobs with every set of lost slots, longer ones with many.
    pub fn bad_day_limits(&mut self) -> Outcome {
        for (job, book) in SHORT {
            self.job(job, book)?;
            let transmission = Transmission::new(job, book)?;
            for lost in 0..1 << 16 {
                let mut received = transmission.batches.clone();
                lose(&mut self.random, &mut received, lost);
                self.damaged(&transmission, &received)?;
            }
        }
        for (job, book) in LONGER {
            self.job(job, book)?;
            let transmission = Transmission::new(job, book)?;
            for _ in 0..3000 {
                self.random_damage(&transmission)?;
            }
        }
        Ok(())
    }

    fn random_damage(&mut self, transmission: &Transmission) -> Outcome {
        let mut received = transmission.batches.clone();
        let rate = self.random.pick(RATES);
        damage(&mut self.random, &mut received, Damage::Three(rate));
        self.damaged(transmission, &received)
    }

    /// The damaged words one by one, together, as a listing behind any preamble and now and then as a recording. In what the
    /// library reads, with either engine, an identity is followed: in the words one of the job's, in the listing perhaps another.
    fn damaged(&mut self, transmission: &Transmission, received: &[u32]) -> Outcome {
        let listing = listings::of_words(&u32::rubbish(&mut self.random, PREAMBLE_WORDS), received);
        let identities = followed::identities(&mut self.random, transmission.job);
        for engine in self.engines(SLOW_DAYS) {
            let how = engine.how;
            transmission.corrected(received, engine)?;
            self.count_by("bad day, each word", how, 0);
            let log = transmission.judged(received, &format!("words{how}"), |out| (engine.read_words)(received, out))?;
            self.count_by("bad day, words", how, 0);
            self.follow_identity(Received::Words(received), &Ok(log), identities[0])?;
            let log = transmission.judged(received, &format!("listing{how}"), |out| (engine.read_listing)(&listing, out))?;
            self.count_by("bad day, listing", how, 0);
            let identity = self.random.pick(&identities);
            self.follow_identity(Received::Listing(&listing), &Ok(log), identity)?;
        }
        if self.random.once_in(RECORDED_DAYS) {
            self.received_whole(received)?;
        }
        Ok(())
    }
}

/// Three flips in the slots of a set, none to two in the other words of a batch.
fn lose(random: &mut Random, batch: &mut [u32], lost: u32) {
    for (i, word) in batch.iter_mut().enumerate() {
        let flips = if lost << 1 >> i & 1 == 1 { 3 } else { random.below(3) as u32 };
        *word ^= random.ones(flips);
    }
}

#[cfg(test)]
mod tests {
    use super::*;
    use independent::placement::Placement;
    use independent::send::Accepted;

    /// The address slots in job order, the number of batches, and the message words.
    fn placed((job, book): (&[u8], &[u8])) -> (Vec<u32>, u32, Vec<usize>) {
        let Accepted { pages, placement: Placement { slots, batches } } = Accepted::new(job, book).unwrap();
        (slots, batches, pages.iter().map(|page| page.message_words()).collect())
    }

    #[test]
    fn the_jobs_lie_as_they_should() {
        assert_eq!(placed(SHORT[0]), (vec![14, 9, 4, 15, 3, 0], 1, vec![0, 1, 3, 0, 0, 2]));
        assert_eq!(placed(SHORT[1]), (vec![6, 15], 1, vec![8, 0]));
        assert_eq!(placed(SHORT[2]), (vec![14, 9, 4, 3, 0], 1, vec![0, 1, 3, 0, 2]));
        assert_eq!(placed(LONGER[0]), (vec![14, 0, 1, 17], 2, vec![2, 0, 0, 0]));
        assert_eq!(placed(LONGER[1]), (vec![14], 2, vec![1]));
        assert_eq!(placed(LONGER[2]), (vec![0], 2, vec![15]));
        assert_eq!(placed(LONGER[3]), (vec![14, 0, 1, 17], 2, vec![1, 0, 0, 2]));
        assert_eq!(placed(LONGER[4]), (vec![14, 2, 18], 2, vec![3, 8, 0]));
    }

    #[test]
    fn a_set_is_lost() {
        let mut random = Random::new(1);
        let mut flips = [[0; 4]; 2];
        for lost in (0..1 << 16).step_by(0x123) {
            let mut batch = [0; BATCH];
            lose(&mut random, &mut batch, lost);
            assert!((0..16).all(|slot| (batch[1 + slot].count_ones() == 3) == (lost >> slot & 1 == 1)));
            batch.iter().enumerate().for_each(|(i, word)| flips[i.min(1)][word.count_ones() as usize] += 1);
        }
        assert!(flips[0][..3].iter().all(|&count| count > 0) && flips[0][3] == 0, "{flips:?}");
        assert!(flips[1].iter().all(|&count| count > 0), "{flips:?}");
    }
}
