//! One input to the library and to the independent implementation: both must give the same answer and leave the same buffers.

use crate::engine::{engines, Engine};
use crate::follow::Received;
use crate::lent::Lent;
use crate::states::Kept;
use card::steps::{self, Step};
use generate::{buffer_length, Random};
use independent::listing::BYTES_A_WORD;
use independent::send::Accepted;
use independent::{codeword, judge, reader, send, Refusal};
use std::collections::BTreeMap;

/// What was found to differ, ready to be printed.
pub struct Difference(pub String);

pub type Outcome = Result<(), Difference>;

/// One single word in so many is corrected slowly too.
const SLOW_WORDS: usize = 5;
/// An input of up to so many words is read slowly each time, one of n times as many once in n times.
const SHORT: usize = 102;

/// Counts comparisons by what was called, by which engine, and the number it answered, and keeps the random state of the buffers.
pub struct Comparison {
    pub counts: BTreeMap<(&'static str, &'static str, u32), u64>,
    /// How often a step was done, and how often number 11 had a single reason: comparisons that are counted above too.
    pub among: BTreeMap<&'static str, u64>,
    pub random: Random,
    /// Whether the slow engine is asked each time.
    pub slow_always: bool,
    /// The state before the step that is compared; kept here because it is large.
    pub scratch: Option<Box<Kept>>,
}

impl Comparison {
    pub fn new(seed: u64) -> Self {
        let random = Random::new(seed ^ 0x5EED_0FB0_FFE5);
        Comparison { counts: BTreeMap::new(), among: BTreeMap::new(), random, slow_always: true, scratch: None }
    }

    pub fn count(&mut self, what: &'static str, number: u32) {
        self.count_by(what, "", number);
    }

    /// Counts a call of the engine with that name.
    pub fn count_by(&mut self, what: &'static str, how: &'static str, number: u32) {
        *self.counts.entry((what, how, number)).or_default() += 1;
    }

    /// The engines to ask: the slow one always, or once in so many times.
    pub fn engines(&mut self, once_in: usize) -> &'static [Engine] {
        engines(self.slow_always || self.random.once_in(once_in))
    }

    pub fn correct(&mut self, word: u32) -> Outcome {
        let expected = corrected(word);
        for engine in self.engines(SLOW_WORDS) {
            corrects(engine, word, expected)?;
            self.count_by("correct", engine.how, expected.number);
        }
        Ok(())
    }

    /// A job with its book sent as words and listed, each with buffers of several lengths, and stepped through.
    pub fn job(&mut self, job: &[u8], book: &[u8]) -> Outcome {
        let (words, pages) = match Accepted::new(job, book) {
            Ok(accepted) => (accepted.placement.words(), accepted.pages.len()),
            Err(_) => (self.random.below(60), self.random.below(60)),
        };
        self.send(job, book, words, pages)?;
        let lengths = (buffer_length(&mut self.random, words), buffer_length(&mut self.random, pages));
        self.send(job, book, lengths.0, lengths.1)?;
        self.list(job, book, 9 * words)?;
        let length = buffer_length(&mut self.random, 9 * words);
        self.list(job, book, length)?;
        self.steps(job, book)
    }

    /// Sends with buffers of the given lengths.
    pub fn send(&mut self, job: &[u8], book: &[u8], words_length: usize, slots_length: usize) -> Outcome {
        let words_before: Lent<u32> = Lent::new(&mut self.random, words_length);
        let slots_before: Lent<u32> = Lent::new(&mut self.random, slots_length);
        let (mut words, mut slots) = (words_before.clone(), slots_before.clone());
        let (mut words_got, mut slots_got) = (words_before.clone(), slots_before.clone());
        let expected = match send::send(job, book, words.slice(), slots.slice()) {
            Ok(send::Report { batches, words }) => card::Report { place: 0, position: 0, number: 0, batches, words },
            Err(Refusal { number, place, position }) => card::Report { place, position, number, batches: 0, words: 0 },
        };
        if expected.number != 0 {
            (words, slots) = (words_before, slots_before);
        }
        let got = card::send(job, book, words_got.slice(), slots_got.slice());
        let input = || format!("words {words_length}, slots {slots_length}, {}", shown_job(job, book));
        if got != expected {
            return differs("send", got, expected, &input());
        }
        same_buffer("send, words", &words_got, &words, input)?;
        same_buffer("send, slots", &slots_got, &slots, input)?;
        self.count("send", expected.number);
        Ok(())
    }

    /// Lists into a buffer of the given length.
    pub fn list(&mut self, job: &[u8], book: &[u8], length: usize) -> Outcome {
        let before: Lent<u8> = Lent::new(&mut self.random, length);
        let (mut out, mut out_got) = (before.clone(), before.clone());
        let expected = match send::list(job, book, out.slice()) {
            Ok(bytes) => card::Bytes { place: 0, position: 0, bytes, number: 0 },
            Err(Refusal { number, place, position }) => card::Bytes { place, position, bytes: 0, number },
        };
        if expected.number != 0 {
            out = before;
        }
        let got = card::list(job, book, out_got.slice());
        let input = || format!("out {length}, {}", shown_job(job, book));
        if got != expected {
            return differs("list", got, expected, &input());
        }
        same_buffer("list", &out_got, &out, input)?;
        self.count("list", expected.number);
        Ok(())
    }

    /// Reads a slice of words, with buffers of several lengths, and follows some identities in it.
    pub fn words(&mut self, words: &[u32]) -> Outcome {
        let log = reader::log_of_words(words);
        let exact = log.as_ref().map_or_else(|_| self.random.below(100), |log| log.lines.len());
        let other = buffer_length(&mut self.random, exact);
        for length in [exact, other] {
            let input = || format!("out {length}, words:\n{}", shown_words(words));
            let read = |engine: &Engine, out: &mut [u8]| (engine.read_words)(words, out);
            self.read("read words", words.len(), length, input, |out| reader::read_words(words, out), read)?;
        }
        self.follow_some(Received::Words(words), &log)
    }

    /// Reads a listing, with buffers of several lengths, follows some identities in it, and adds it to coverage reports.
    pub fn listing(&mut self, listing: &[u8]) -> Outcome {
        let log = reader::log_of_listing(listing);
        let exact = log.as_ref().map_or_else(|_| self.random.below(100), |log| log.lines.len());
        let other = buffer_length(&mut self.random, exact);
        for length in [exact, other] {
            let input = || format!("out {length}, listing:\n{}", shown(listing));
            let read = |engine: &Engine, out: &mut [u8]| (engine.read_listing)(listing, out);
            self.read("read listing", listing.len() / BYTES_A_WORD, length, input, |out| reader::read_listing(listing, out), read)?;
        }
        self.follow_some(Received::Listing(listing), &log)?;
        self.covered(listing)
    }

    /// Reads so many words into a buffer of the given length.
    fn read(
        &mut self,
        what: &'static str,
        words: usize,
        length: usize,
        input: impl Fn() -> String,
        independent: impl FnOnce(&mut [u8]) -> Result<reader::Reading, Refusal>,
        library: impl Fn(&Engine, &mut [u8]) -> card::Reading,
    ) -> Outcome {
        let before: Lent<u8> = Lent::new(&mut self.random, length);
        let mut out = before.clone();
        let expected = reading(independent(out.slice()));
        if expected.number != 0 {
            out = before.clone();
        }
        for engine in self.engines(words.div_ceil(SHORT).max(1)) {
            let mut out_got = before.clone();
            let got = library(engine, out_got.slice());
            let name = format!("{what}{}", engine.how);
            if got != expected {
                return differs(&name, got, expected, &input());
            }
            same_buffer(&name, &out_got, &out, &input)?;
            self.count_by(what, engine.how, expected.number);
        }
        Ok(())
    }

    /// A job's start and steps, to the end and somewhat further: the words that sending writes, then done.
    pub fn steps(&mut self, job: &[u8], book: &[u8]) -> Outcome {
        let input = || shown_job(job, book);
        let mut state = Kept::rubbish(&mut self.random);
        let before = state.clone();
        let got = steps::start(job, book, &mut state.sender);
        let (expected, words) = match Accepted::new(job, book) {
            Ok(accepted) => (steps::Refusal::NONE, accepted.words()),
            Err(Refusal { number, place, position }) => (steps::Refusal { place, position, number }, vec![]),
        };
        if got != expected {
            return differs("start", got, expected, &input());
        }
        self.count("start", expected.number);
        if expected.number != 0 {
            return match before.difference(&state) {
                Some(place) => Err(Difference(format!("a declined start writes {place}\n{}", input()))),
                None => Ok(()),
            };
        }
        // the header: what the state held before does not matter
        let mut again = Kept::rubbish(&mut self.random);
        steps::start(job, book, &mut again.sender);
        if let Some(place) = again.difference(&state) {
            return Err(Difference(format!("a start leaves {place} as it was\n{}", input())));
        }
        let expected = words.iter().map(|&word| Step::word(word)).chain([Step::DONE; 3]);
        for (i, expected) in expected.enumerate() {
            let got = self.step(&mut state, "step", &mut || format!("step {i}\n{}", input()))?;
            if got != expected {
                return differs(&format!("step {i}"), got, expected, &input());
            }
        }
        Ok(())
    }

    /// The independent implementation alone: its own steps, and what is read from a damaged transmission is what was sent.
    pub fn round_trip(&mut self, job: &[u8], book: &[u8]) -> Outcome {
        let input = || shown_job(job, book);
        let accepted =
            Accepted::new(job, book).map_err(|refusal| Difference(format!("{refusal:?} for a good job\n{}", input())))?;
        let words = accepted.words();
        if !send::Sender::start(job, book).is_ok_and(|sender| sender.eq(words.iter().copied())) {
            return Err(Difference(format!("independent: the steps aren't the words\n{}", input())));
        }
        let mut order: Vec<usize> = (0..accepted.pages.len()).collect();
        order.sort_by_key(|&page| accepted.placement.slots[page]);
        let mut lines = Vec::new();
        order.iter().for_each(|&page| accepted.pages[page].print(&mut lines));
        let mut batches = words[18..].to_vec();
        generate::words::damage(&mut self.random, &mut batches, generate::words::Damage::Light);
        let changed = judge::flips(&words[18..], &batches).changed();
        let expected = reader::Log { lines, pages: accepted.pages.len() as u32, lost: 0, orphans: 0, changed };

        let listing = generate::listings::listing(9, 0xAAAA_AAAA, &batches);
        for log in [reader::log_of_words(&batches), reader::log_of_listing(&listing)] {
            if log.as_ref() != Ok(&expected) {
                return differs("independent: round trip", log, expected, &input());
            }
        }
        self.count("round trip of independent alone", 0);
        Ok(())
    }
}

/// What the independent implementation answers for a reading.
fn reading(result: Result<reader::Reading, Refusal>) -> card::Reading {
    match result {
        Ok(reader::Reading { bytes, pages, lost, orphans, changed: reader::Changes { slots, syncs } }) => {
            card::Reading { place: 0, bytes, number: 0, pages, lost, orphans, changed: card::Changes { slots, syncs } }
        }
        Err(Refusal { number, place, .. }) => {
            let changed = card::Changes { slots: 0, syncs: 0 };
            card::Reading { place, bytes: 0, number, pages: 0, lost: 0, orphans: 0, changed }
        }
    }
}

/// What the independent implementation answers for a single word.
pub fn corrected(word: u32) -> card::Word {
    match codeword::correct(word) {
        Some(near) => card::Word { word: near, number: 0, changed: codeword::changed(word, near) },
        None => card::Word { word, number: 20, changed: 0 },
    }
}

/// An engine gives the expected answer for a single word.
pub fn corrects(engine: &Engine, word: u32, expected: card::Word) -> Outcome {
    let got = (engine.correct)(word);
    if got != expected {
        return differs(&format!("correct{}", engine.how), got, expected, &format!("word {word:08X}"));
    }
    Ok(())
}

pub fn differs(what: &str, got: impl std::fmt::Debug, expected: impl std::fmt::Debug, input: &str) -> Outcome {
    Err(Difference(format!("{what}: got {got:?}\nexpected {expected:?}\n{input}")))
}

pub fn same_buffer<T: crate::lent::Unit>(what: &str, got: &Lent<T>, expected: &Lent<T>, input: impl Fn() -> String) -> Outcome {
    match got.difference(expected) {
        Some(difference) => Err(Difference(format!("{what}: the buffer {difference}\n{}", input()))),
        None => Ok(()),
    }
}

/// Bytes so that one sees them: a line's end is shown and kept.
pub fn shown(bytes: &[u8]) -> String {
    bytes.escape_ascii().to_string().replace("\\n", "\\n\n")
}

/// A job and its book, if it has one.
pub fn shown_job(job: &[u8], book: &[u8]) -> String {
    match book {
        [] => format!("job:\n{}", shown(job)),
        _ => format!("job:\n{}\nbook:\n{}", shown(job), shown(book)),
    }
}

pub fn shown_words(words: &[u32]) -> String {
    let lines: Vec<String> = words.chunks(17).map(|batch| batch.iter().map(|word| format!("{word:08X} ")).collect()).collect();
    lines.join("\n")
}
