//! The receiver, and the mistakes that only it makes. It makes a list of what it meets, batches and tests that fail, and then
//! hears that list: neither of the independent implementation's two ways.

use super::{closed, is};
use crate::{Changes, Receiving, RECEIVED_BYTES};
use independent::codeword::{self, Meaning, SYNC};
use independent::listing::MOST_BATCHES;
use independent::reader::Open;
use independent::receive::{bits, BATCH_BITS, MOST_BYTES};
use independent::Refusal;
use std::slice::{from_raw_parts, from_raw_parts_mut};

#[no_mangle]
unsafe extern "C" fn card_receive(bits: *const u8, bits_length: usize, out: *mut u8, out_length: usize) -> Receiving {
    let bytes = from_raw_parts(bits, bits_length);
    let out = from_raw_parts_mut(out, out_length);
    let heard = Heard::of(&met(&Windows::new(bytes)));
    let lines = heard.lines.concat();
    match declined(bytes.len(), &heard, lines.len(), out.len()) {
        Some(refusal) => refused(refusal, &heard, &lines, out),
        None => {
            out[..lines.len()].copy_from_slice(&lines);
            if is("receive-clears-behind") {
                out[lines.len()..].fill(0);
            }
            heard.counted(lines.len())
        }
    }
}

/// The number that comes first, as it is right or, for some mistakes, wrong.
fn declined(length: usize, heard: &Heard, lines: usize, room: usize) -> Option<Refusal> {
    let most_bytes = match () {
        _ if is("receive-65537-taken") => MOST_BYTES + 1,
        _ if is("receive-65536-refused") => MOST_BYTES - 1,
        _ => MOST_BYTES,
    };
    let most_batches = match () {
        _ if is("receive-301-taken") => MOST_BATCHES + 1,
        _ if is("receive-300-refused") => MOST_BATCHES - 1,
        _ => MOST_BATCHES,
    };
    let batches = if is("receive-300-in-a-run") { heard.longest_run } else { heard.batches };
    let room = match room {
        some @ 1.. if is("receive-last-byte-unused") => some - 1,
        some if is("receive-room-for-48300") && some < RECEIVED_BYTES && lines > 0 => 0,
        some if is("receive-room-of-48000") => some.min(48_000),
        all => all,
    };
    let long = length > most_bytes && !(is("receive-28-with-batches-alone") && batches == 0);
    let long = long.then_some(Refusal::new(if is("receive-24-for-28") { 24 } else { 28 }, is("receive-place-of-28").into()));
    let many = (batches > most_batches).then_some(Refusal::new(23, if is("receive-place-of-23") { 301 } else { 0 }));
    let short = (lines > room).then_some(Refusal::new(10, is("receive-place-of-10").into()));
    let none = [(21, "receive-no-batch-is-21"), (22, "receive-no-batch-is-22")];
    let none = none.into_iter().find(|(_, fault)| is(fault) && batches == 0).map(|(number, _)| Refusal::new(number, 0));
    match () {
        _ if is("receive-28-after-23") => many.or(long).or(short),
        _ if is("receive-10-before-23") => long.or(short).or(many),
        _ => long.or(many).or(none).or(short),
    }
}

/// The answer of a declined call, and nothing written, but for some mistakes.
fn refused(Refusal { number, place, .. }: Refusal, heard: &Heard, lines: &[u8], out: &mut [u8]) -> Receiving {
    let writes = [(10, "receive-writes-what-fits"), (23, "receive-writes-when-23"), (28, "receive-writes-when-28")];
    if writes.into_iter().any(|(when, fault)| is(fault) && number == when) {
        let fits = lines.len().min(out.len());
        out[..fits].copy_from_slice(&lines[..fits]);
    }
    let batches = if is("receive-counts-when-declined") { heard.batches as u32 } else { 0 };
    let bytes = if is("receive-bytes-when-declined") { lines.len() } else { 0 };
    let changed = Changes { slots: 0, syncs: 0 };
    Receiving { place, bytes, number, batches, pages: 0, lost: 0, orphans: 0, changed }
}

/// The 32 bits from each position on.
struct Windows {
    bits: usize,
    windows: Vec<u32>,
}

impl Windows {
    fn new(bytes: &[u8]) -> Self {
        let bits = match is("receive-low-bit-first") {
            true => bits(&bytes.iter().map(|byte| byte.reverse_bits()).collect::<Vec<_>>()),
            false => bits(bytes),
        };
        let mut window = 0;
        let slide = |&bit: &bool| {
            window = window << 1 | u32::from(bit);
            window
        };
        Windows { bits: bits.len(), windows: bits.iter().map(slide).skip(31).collect() }
    }

    /// Behind the end stand zeros.
    fn at(&self, position: usize) -> u32 {
        self.windows.get(position).copied().unwrap_or(0)
    }

    /// The lowest position from this one on at which a batch stands.
    fn hunted(&self, from: usize) -> Option<usize> {
        let behind = match () {
            _ if is("receive-511-behind") => 511,
            _ if is("receive-513-behind") => 513,
            _ if is("receive-any-bits-behind") => 0,
            _ => 512,
        };
        let last = self.bits.checked_sub(32 + behind)?;
        let mut positions = from..=last;
        let is_found = |at: &usize| is_hunted(self.at(*at)) && !self.is_missed(*at);
        if is("receive-hunts-the-last") {
            positions.rfind(is_found)
        } else {
            positions.find(is_found)
        }
    }

    /// Whether, by mistake, a batch isn't looked for at this position.
    fn is_missed(&self, at: usize) -> bool {
        let preamble = || at >= 32 && matches!(self.at(at - 32), 0xAAAA_AAAA | 0x5555_5555);
        is("receive-hunts-by-bytes") && at % 8 != 0 || is("receive-asks-for-a-preamble") && !preamble()
    }
}

/// Whether a word is near sync, as one that is hunted.
fn is_hunted(word: u32) -> bool {
    let wrong = (word ^ SYNC).count_ones();
    match () {
        // most words, and by no mistake
        _ if (4..30).contains(&wrong) => false,
        _ if is("receive-hunts-exact") => wrong == 0,
        _ if is("receive-hunts-one-bit") => wrong <= 1,
        _ if is("receive-hunts-three-bits") => wrong <= 3,
        _ if is("receive-hunts-31-bits") => wrong - (word & 1) <= 2,
        _ if is("receive-hunts-upside-down") => wrong <= 2 || wrong >= 30,
        _ => wrong <= 2,
    }
}

/// The same of one that is tested behind a batch.
fn is_next(word: u32) -> bool {
    let wrong = (word ^ SYNC).count_ones();
    match () {
        _ if is("receive-tests-exact") => wrong == 0,
        _ if is("receive-tests-one-bit") => wrong <= 1,
        _ if is("receive-tests-three-bits") => wrong <= 3,
        _ if is("receive-tests-31-bits") => wrong - (word & 1) <= 2,
        _ if is("receive-tests-nothing") => true,
        _ => wrong <= 2,
    }
}

/// What is met on the way.
enum Met {
    Batch([u32; 17]),
    /// The 32 bits behind a batch, which aren't near sync.
    NoSync(u32),
}

/// All that is met; behind the last batch nothing else where the recording is at its end there.
fn met(windows: &Windows) -> Vec<Met> {
    let mut all = vec![];
    let mut from = usize::from(is("receive-hunts-from-1"));
    while let Some(mut at) = windows.hunted(from) {
        loop {
            all.push(Met::Batch(std::array::from_fn(|i| windows.at(at + 32 * i))));
            at += BATCH_BITS;
            if at + fewest_left(windows.at(at)) > windows.bits {
                return all;
            }
            if is_next(windows.at(at)) {
                continue;
            }
            if !(is("receive-follows-a-slip") && is_next(windows.at(at + 1)) && at + 1 + BATCH_BITS <= windows.bits) {
                break;
            }
            at += 1;
        }
        all.push(Met::NoSync(windows.at(at)));
        from = match () {
            _ if is("receive-hunts-once") => windows.bits,
            _ if is("receive-hunts-again-from-2") => at + 2,
            _ if is("receive-hunts-again-in-the-batch") => at - BATCH_BITS + 32,
            _ if is("receive-hunts-again-a-batch-later") => at + BATCH_BITS,
            _ => at,
        };
    }
    all
}

/// With so few bits left behind a batch, of which these are the first 32, the recording is at its end.
fn fewest_left(next: u32) -> usize {
    match () {
        _ if is("receive-end-at-545") => 545,
        _ if is("receive-end-at-543") => 543,
        _ if is("receive-end-without-32") => 32,
        // a test that fails counts with 32 bits, one that doesn't with a batch
        _ if is("receive-cut-before-the-end") && !is_next(next) => 32,
        _ => BATCH_BITS,
    }
}

#[derive(Default)]
struct Heard {
    open: Option<Open>,
    groups: Vec<u32>,
    lines: Vec<Vec<u8>>,
    batches: usize,
    runs: usize,
    run: usize,
    longest_run: usize,
    lost: u32,
    orphans: u32,
    slots: u32,
    syncs: u32,
}

impl Heard {
    fn of(all: &[Met]) -> Self {
        let mut heard = Heard::default();
        for (number, met) in all.iter().enumerate() {
            match met {
                Met::Batch(_) if is("receive-stops-at-300") && heard.batches == MOST_BATCHES => break,
                Met::Batch(words) => heard.batch(words),
                Met::NoSync(word) => heard.no_sync(*word, number + 1 < all.len()),
            }
        }
        if !is("receive-open-at-the-end") {
            heard.close(is("receive-cut-at-the-end"));
        }
        heard
    }

    fn batch(&mut self, words: &[u32; 17]) {
        let wrong = (words[0] ^ SYNC).count_ones();
        self.syncs += if is("receive-first-sync-unsummed") && self.run == 0 { 0 } else { wrong };
        if is("receive-syncs-among-the-slots") {
            self.slots += wrong;
        }
        self.runs += usize::from(self.run == 0);
        self.run += 1;
        self.batches += 1;
        self.longest_run = self.longest_run.max(self.run);
        if is("receive-ends-at-sync") || is("receive-cut-at-sync") {
            self.close(is("receive-cut-at-sync"));
        }
        for (slot, &word) in words[1..].iter().enumerate() {
            self.word(word, slot as u32 / 2);
        }
    }

    /// A test that failed, behind which another batch is found or none.
    fn no_sync(&mut self, word: u32, another: bool) {
        self.run = 0;
        self.lost += u32::from(is("receive-failed-test-lost"));
        if is("receive-failed-test-changed") {
            self.syncs += codeword::correct(word).map_or(0, |near| codeword::changed(word, near));
        }
        let tone = self.groups.is_empty();
        match () {
            _ if is("receive-open-over-a-failed-test") => {}
            _ if is("receive-dropped-at-a-failed-test") => {
                self.open = None;
                self.groups.clear();
            }
            _ => {
                let whole = is("receive-whole-at-a-failed-test")
                    || is("receive-cut-before-another-alone") && !another
                    || is("receive-tones-uncut") && tone;
                self.close(!whole);
            }
        }
    }

    fn word(&mut self, word: u32, frame: u32) {
        let near = codeword::correct(word).filter(|&near| near == word || !is("receive-slots-uncorrected"));
        let wrong = near.map_or(0, |near| codeword::changed(word, near));
        self.slots += wrong;
        match near.map(codeword::meaning) {
            Some(Meaning::Message(group)) if self.open.is_some() => self.groups.push(group),
            Some(Meaning::Message(_)) => self.orphans += u32::from(!(is("receive-orphans-of-the-first-run") && self.runs > 1)),
            Some(Meaning::Idle) => self.close(false),
            Some(Meaning::Address { upper, function }) => {
                self.close(false);
                self.open = Some(Open { identity: upper << 3 | frame, function });
            }
            Some(Meaning::Reserved) | None => {
                self.slots -= if is("receive-lost-words-summed") { 0 } else { wrong };
                self.lost += 1;
                self.close(true);
            }
        }
    }

    fn close(&mut self, cut: bool) {
        self.lines.extend(self.open.take().map(|page| closed(&page, &mut self.groups, cut)));
    }

    /// The answer with so many bytes written, as it is right or, for some mistakes, wrong.
    fn counted(&self, bytes: usize) -> Receiving {
        let batches = match self.batches {
            some @ 1.. if is("receive-batches-one-more") => some + 1,
            _ if is("receive-batches-of-the-longest-run") => self.longest_run,
            _ if is("receive-counts-runs") => self.runs,
            all => all,
        };
        let whole = self.lines.iter().filter(|line| !line.ends_with(b"-\n")).count();
        let pages = if is("receive-cut-pages-uncounted") { whole } else { self.lines.len() };
        let changed = match is("receive-sums-exchanged") {
            true => Changes { slots: self.syncs, syncs: self.slots },
            false => Changes { slots: self.slots, syncs: self.syncs },
        };
        let (batches, pages) = (batches as u32, pages as u32);
        Receiving { place: 0, bytes, number: 0, batches, pages, lost: self.lost, orphans: self.orphans, changed }
    }
}
