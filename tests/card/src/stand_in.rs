//! The library's C functions on top of the independent implementation, for builds without the archive. CARD_FAULT names a mistake
//! to be made on purpose, so that one can see the comparison find it.

mod coverage;
mod data;
mod declined;
mod follow;
mod phrases;
pub mod program;
mod receive;
mod slow;

use crate::steps::{self, Sender, Step};
use crate::{Bytes, Changes, Reading, Report, Word};
use independent::book::NO_BOOK;
use independent::codeword::Meaning;
use independent::{codeword, job, listing, reader, send, state, Refusal};
use std::slice::{from_raw_parts, from_raw_parts_mut};
use std::sync::OnceLock;

/// The mistakes that can be asked for.
pub const FAULTS: &[&str] = &[
    "correct-31-bits",
    "correct-one-bit",
    "refused-word-zero",
    "no-idle-batch",
    "slots-in-slot-order",
    "clears-words-behind",
    "writes-when-declined",
    "counts-when-declined",
    "last-buffer-unit-unused",
    "eight-before-lines",
    "longer-numeric",
    "newline-optional",
    "orphans-not-counted",
    "cut-not-shown",
    "place-of-21",
    "22-before-lines",
    "301-batches",
    "37-preamble-lines",
    "start-writes-when-declined",
    "start-leaves-words",
    "49-pages",
    "frame-8",
    "ending-at-4033",
    "running-page-uncounted",
    "running-word-beyond",
    "slot-4801",
    "page-looked-at-when-not-running",
    "uncounted-frame-looked-at",
    "flag-is-one",
    "writes-when-11",
    "writes-when-done",
    "writes-a-message-word",
    "no-pause",
    "no-pause-behind-a-sync",
    "no-tone-in-the-pause",
    "no-overtaking-in-the-pause",
    "reads-31-bits",
    "whole-before-a-lost-word",
    "joined-behind-a-lost-word",
    "cut-keeps-its-kind",
    "changed-one-more",
    "changed-31-bits",
    "refused-word-changed",
    "sums-one-more",
    "lost-words-summed",
    "idle-words-not-summed",
    "orphans-not-summed",
    "syncs-among-the-slots",
    "syncs-31-bits",
    "sums-when-declined",
    "12-and-13-exchanged",
    "long-tone-is-14",
    "14-after-6",
    "7-before-6",
    "position-from-0",
    "position-in-digits",
    "position-in-the-line",
    "position-of-the-last",
    "position-with-7",
    "position-with-14",
    "list-without-position",
    "start-without-position",
    "program-without-position",
    "program-with-0",
    "1-and-2-exchanged",
    "7-is-4",
    "lower-case-digits",
    "odd-digits-are-1",
    "odd-digits-after-4",
    "groups-of-four",
    "85-groups",
    "25-after-14",
    "25-without-text",
    "position-with-25",
    "last-digit-on-top",
    "low-bits-on-top",
    "data-starts-in-the-pause",
    "cut-within-a-group",
    "phrases-from-1",
    "phrases-in-hexadecimal",
    "four-digits-name-a-phrase",
    "no-text-is-phrase-00",
    "text-of-the-job",
    "phrases-with-function-1",
    "99-phrases",
    "101-phrases",
    "241-characters",
    "blank-phrases",
    "lower-case-phrases",
    "phrases-with-3-and-4",
    "phrases-of-eight-bits",
    "last-phrase-without-newline",
    "19-where-a-phrase-is-named",
    "19-after-lines",
    "19-after-9",
    "place-of-19-from-0",
    "place-of-19-is-1",
    "place-of-19-at-the-end",
    "18-before-2",
    "18-before-4",
    "18-without-a-book",
    "13-for-18",
    "position-with-18",
    "position-with-19",
    "list-without-book",
    "start-without-book",
    "program-without-book",
    "program-without-a-missing-book",
    "program-19-before-24",
    "program-long-book-is-24",
    "program-short-book",
    "slow-one-bit",
    "slow-31-bits",
    "slow-three-bits",
    "slow-without-parity",
    "slow-one-bit-is-two",
    "slow-refused-word-last-tried",
    "slow-words-of-100-batches",
    "slow-words-end-without-newline",
    "slow-listing-syncs-not-summed",
    "slow-listing-writes-when-declined",
    "follow-in-every-frame",
    "follow-in-the-next-frame",
    "follow-first-slot-alone",
    "follow-neighbour-too",
    "follow-functions-0-and-3",
    "follow-addresses-uncorrected",
    "follow-misses-an-address-behind",
    "follow-messages-uncorrected",
    "follow-message-in-its-frame",
    "follow-ends-at-sync",
    "follow-cut-at-sync",
    "follow-past-idle",
    "follow-cut-at-idle",
    "follow-past-an-address",
    "follow-past-its-word-elsewhere",
    "follow-cut-at-an-address",
    "follow-past-reserved",
    "follow-whole-at-reserved",
    "follow-idle-of-any-function",
    "follow-past-a-lost-word",
    "follow-whole-at-a-lost-word",
    "follow-open-at-the-end",
    "follow-cut-at-the-end",
    "follow-without-cut-lines",
    "follow-without-tones",
    "follow-last-line-first",
    "follow-first-line-alone",
    "follow-counts-one-more",
    "follow-counts-all-pages",
    "follow-counts-when-declined",
    "follow-writes-what-fits",
    "follow-clears-behind",
    "follow-last-byte-unused",
    "follow-room-for-all-lines",
    "follow-low-21-bits",
    "follow-1FFFFF-refused",
    "follow-200000-taken",
    "follow-1EA277-taken",
    "follow-1EA278-refused",
    "follow-sync-not-reserved",
    "follow-3-before-2",
    "follow-3-for-2",
    "follow-2-for-3",
    "follow-place-of-2",
    "follow-place-of-3",
    "follow-2-after-21",
    "follow-10-before-22",
    "follow-syncs-uncorrected",
    "follow-words-301-batches",
    "follow-listing-place-of-21",
    "follow-listing-any-sync",
    "program-follow-all-lines",
    "program-follow-lower-case",
    "program-follow-five-digits",
    "program-follow-two-arguments",
    "program-follow-2-before-24",
    "program-follow-usage-printed",
    "program-follow-without-usage",
    "receive-low-bit-first",
    "receive-hunts-the-last",
    "receive-hunts-by-bytes",
    "receive-hunts-exact",
    "receive-hunts-one-bit",
    "receive-hunts-three-bits",
    "receive-hunts-31-bits",
    "receive-hunts-upside-down",
    "receive-hunts-from-1",
    "receive-hunts-once",
    "receive-hunts-again-from-2",
    "receive-hunts-again-in-the-batch",
    "receive-hunts-again-a-batch-later",
    "receive-clears-behind",
    "receive-511-behind",
    "receive-513-behind",
    "receive-any-bits-behind",
    "receive-asks-for-a-preamble",
    "receive-tests-exact",
    "receive-tests-one-bit",
    "receive-tests-three-bits",
    "receive-tests-31-bits",
    "receive-tests-nothing",
    "receive-follows-a-slip",
    "receive-end-at-545",
    "receive-end-at-543",
    "receive-end-without-32",
    "receive-cut-before-the-end",
    "receive-open-at-the-end",
    "receive-cut-at-the-end",
    "receive-ends-at-sync",
    "receive-cut-at-sync",
    "receive-cut-before-another-alone",
    "receive-tones-uncut",
    "receive-cut-pages-uncounted",
    "receive-whole-at-a-failed-test",
    "receive-open-over-a-failed-test",
    "receive-dropped-at-a-failed-test",
    "receive-failed-test-lost",
    "receive-failed-test-changed",
    "receive-first-sync-unsummed",
    "receive-syncs-among-the-slots",
    "receive-sums-exchanged",
    "receive-lost-words-summed",
    "receive-slots-uncorrected",
    "receive-orphans-of-the-first-run",
    "receive-28-with-batches-alone",
    "receive-batches-one-more",
    "receive-batches-of-the-longest-run",
    "receive-counts-runs",
    "receive-stops-at-300",
    "receive-301-taken",
    "receive-300-refused",
    "receive-300-in-a-run",
    "receive-room-for-48300",
    "receive-place-of-23",
    "receive-28-after-23",
    "receive-10-before-23",
    "receive-writes-when-23",
    "receive-65537-taken",
    "receive-65536-refused",
    "receive-24-for-28",
    "receive-place-of-28",
    "receive-writes-when-28",
    "receive-place-of-10",
    "receive-no-batch-is-21",
    "receive-no-batch-is-22",
    "receive-room-of-48000",
    "receive-last-byte-unused",
    "receive-writes-what-fits",
    "receive-counts-when-declined",
    "receive-bytes-when-declined",
    "program-receive-28-for-24",
    "program-receive-65536-refused",
    "program-receive-up-to-a-zero",
    "program-receive-up-to-a-newline",
    "program-receive-without-the-last-byte",
    "program-receive-no-batch-refused",
    "program-receive-nothing-for-23",
    "coverage-601-times",
    "coverage-600-times-refused",
    "coverage-any-count-without-listings",
    "coverage-sum-of-a-frame",
    "coverage-refusals-unjudged",
    "coverage-last-frame-unjudged",
    "coverage-syncs-unjudged",
    "coverage-pages-unjudged",
    "coverage-listings-of-16-bits",
    "coverage-over-1000-is-23",
    "coverage-1001-listings",
    "coverage-999-listings",
    "coverage-23-before-11",
    "coverage-place-of-11",
    "coverage-place-1000",
    "coverage-bad-1001st-taken",
    "coverage-writes-when-11",
    "coverage-writes-when-23",
    "coverage-refusal-declines",
    "coverage-refusal-answered",
    "coverage-refused-no-listing",
    "coverage-good-batches-of-22",
    "coverage-21-and-22-exchanged",
    "coverage-23-as-21",
    "coverage-46556-bytes",
    "coverage-lost-also-unchanged",
    "coverage-reserved-not-lost",
    "coverage-idle-of-any-function",
    "coverage-31-bits",
    "coverage-orphans-uncounted",
    "coverage-syncs-in-frame-0",
    "coverage-sync-by-its-meaning",
    "coverage-orphans-as-pages",
    "coverage-frame-of-the-last-word",
    "coverage-frame-of-the-address-word",
    "coverage-cut-as-whole",
    "coverage-cut-at-the-end",
    "coverage-open-at-the-end",
    "coverage-tones-uncounted",
    "coverage-two-counted-once",
    "coverage-lost-not-received",
    "coverage-remainder-by-words",
    "coverage-rate-rounded",
    "coverage-rate-of-32-bits",
    "coverage-rate-of-row-9",
    "coverage-rate-within-bounds-alone",
    "program-coverage-1001-files",
    "program-coverage-1000-files-refused",
    "program-coverage-report-and-refusal",
    "program-coverage-46556-bytes",
    "program-coverage-long-is-24",
    "program-coverage-nothing-without-files",
    "program-coverage-reads-input",
    "program-coverage-without-a-missing-file",
    "program-coverage-missing-is-21",
    "program-coverage-printed-when-missing",
    "program-coverage-without-the-name",
    "program-coverage-empty-name-unread",
    "program-coverage-4095-bytes-refused",
    "program-coverage-last-file-alone",
    "program-coverage-each-file-once",
    "program-coverage-without-remainders",
];

/// The mistake that is asked for, empty where none is.
fn asked() -> &'static str {
    static ASKED: OnceLock<String> = OnceLock::new();
    ASKED.get_or_init(|| std::env::var("CARD_FAULT").unwrap_or_default())
}

/// The line of a page that is closed, whose groups are taken.
fn closed(page: &reader::Open, groups: &mut Vec<u32>, cut: bool) -> Vec<u8> {
    let mut line = vec![];
    page.print(groups, cut, &mut vec![], &mut line);
    groups.clear();
    line
}

fn is(fault: &str) -> bool {
    debug_assert!(FAULTS.contains(&fault));
    asked() == fault
}

#[no_mangle]
extern "C" fn card_correct(word: u32) -> Word {
    if is("correct-31-bits") {
        let near = [0, 1].into_iter().find_map(|parity| codeword::correct(word ^ parity));
        return near.map_or(Word { word, number: 20, changed: 0 }, |near| answered(word, near));
    }
    match codeword::correct(word) {
        Some(near) if is("correct-one-bit") && codeword::changed(word, near) == 2 => Word { word, number: 20, changed: 0 },
        Some(near) => answered(word, near),
        None => {
            let changed = if is("refused-word-changed") { 3 } else { 0 };
            Word { word: if is("refused-word-zero") { 0 } else { word }, number: 20, changed }
        }
    }
}

fn answered(received: u32, word: u32) -> Word {
    let counted = if is("changed-31-bits") { !1 } else { !0 };
    let mut changed = codeword::changed(received & counted, word & counted);
    if is("changed-one-more") && changed == 2 {
        changed = 3;
    }
    Word { word, number: 0, changed }
}

/// The job and its book as they are or, for some mistakes, as they are wrongly taken.
fn taken(job: &[u8], book: &[u8]) -> (Vec<u8>, Vec<u8>) {
    if asked().is_empty() {
        return (job.to_vec(), book.to_vec());
    }
    let lines = || job.split_inclusive(|&byte| byte == b'\n');
    if is("19-where-a-phrase-is-named") && !lines().any(phrases::is_phrase) {
        return (job.to_vec(), NO_BOOK.to_vec());
    }
    let book = phrases::taken_book(book);
    let mut job: Vec<u8> = lines().map(data::taken).flat_map(|line| phrases::taken(&line, &book)).collect();
    if is("newline-optional") && job.last().is_some_and(|&byte| byte != b'\n') {
        job.push(b'\n');
    }
    if is("longer-numeric") {
        let lines = job.split_inclusive(|&byte| byte == b'\n');
        let shorter = |line: &[u8]| {
            if line.len() == 10 + 2 * 61 && line[7] == b'4' {
                [&line[..9], &line[11..]].concat()
            } else {
                line.to_vec()
            }
        };
        job = lines.map(shorter).collect::<Vec<_>>().concat();
    }
    if is("eight-before-lines") && job.iter().filter(|&&byte| byte == b'\n').count() > 48 {
        job = b"000000 0\n".repeat(49);
    }
    (job, book)
}

#[no_mangle]
unsafe extern "C" fn card_send(
    job: *const u8,
    job_length: usize,
    book: *const u8,
    book_length: usize,
    words: *mut u32,
    words_length: usize,
    slots: *mut u32,
    slots_length: usize,
) -> Report {
    let (job, book) = taken(from_raw_parts(job, job_length), from_raw_parts(book, book_length));
    let words = from_raw_parts_mut(words, words_length);
    let slots = from_raw_parts_mut(slots, slots_length);
    if is("last-buffer-unit-unused") && words_length > 0 {
        return report(send::send(&job, &book, &mut words[..words_length - 1], slots));
    }
    let mut answer = report(send::send(&job, &book, words, slots).map_err(|right| declined::said(&job, &book, right)));
    if answer.number == 0 {
        let end = answer.words as usize;
        if is("no-idle-batch") && words[end - 16..end] == [codeword::IDLE; 16] && words[end - 18] >> 31 == 1 {
            answer.batches -= 1;
            answer.words -= 17;
        }
        if is("slots-in-slot-order") {
            let pages = job.iter().filter(|&&byte| byte == b'\n').count();
            slots[..pages].sort();
        }
        if is("clears-words-behind") {
            words[end..].fill(0);
        }
    } else {
        if is("writes-when-declined") && words_length > 0 {
            words[0] = codeword::PREAMBLE;
        }
        if is("counts-when-declined") && answer.number == 10 {
            answer.batches = 1;
        }
    }
    answer
}

fn report(result: Result<send::Report, Refusal>) -> Report {
    match result {
        Ok(send::Report { batches, words }) => Report { place: 0, position: 0, number: 0, batches, words },
        Err(Refusal { number, place, position }) => Report { place, position, number, batches: 0, words: 0 },
    }
}

#[no_mangle]
unsafe extern "C" fn card_list(
    job: *const u8,
    job_length: usize,
    book: *const u8,
    book_length: usize,
    out: *mut u8,
    out_length: usize,
) -> Bytes {
    let book = if is("list-without-book") { NO_BOOK } else { from_raw_parts(book, book_length) };
    let (job, book) = taken(from_raw_parts(job, job_length), book);
    match send::list(&job, &book, from_raw_parts_mut(out, out_length)).map_err(|right| declined::said(&job, &book, right)) {
        Ok(bytes) => Bytes { place: 0, position: 0, bytes, number: 0 },
        Err(Refusal { number, place, mut position }) => {
            if is("list-without-position") {
                position = 0;
            }
            Bytes { place, position, bytes: 0, number }
        }
    }
}

/// The words of batches as they are or, for some mistakes, as they are wrongly taken; and how many lost ones are then missed.
fn taken_words(words: &[u32]) -> (Vec<u32>, u32) {
    let (mut words, mut missed) = (words.to_vec(), 0);
    let slots: Vec<usize> = (0..words.len()).filter(|at| at % 17 != 0).collect();
    for pair in slots.windows(2) {
        let (at, next) = (pair[0], pair[1]);
        if codeword::correct(words[at]).is_some() {
            continue;
        }
        let before_message = codeword::correct(words[next]).is_some_and(|word| word >> 31 == 1);
        if is("reads-31-bits") {
            words[at] ^= 1;
        } else if is("whole-before-a-lost-word") && !before_message {
            words[at] = codeword::IDLE;
            missed += 1;
        } else if is("joined-behind-a-lost-word") && before_message {
            words.swap(at, next);
        }
    }
    (words, missed)
}

#[no_mangle]
unsafe extern "C" fn card_read_words(words: *const u32, words_length: usize, out: *mut u8, out_length: usize) -> Reading {
    let words = from_raw_parts(words, words_length);
    let out = from_raw_parts_mut(out, out_length);
    let most = if is("301-batches") && words.len() == 17 * 301 { words.len() - 17 } else { words.len() };
    let (words, missed) = taken_words(&words[..most]);
    let result = reader::read_words(&words, out).map(|read| reader::Reading { lost: read.lost + missed, ..read });
    reading(result, || words, out)
}

#[no_mangle]
unsafe extern "C" fn card_read_listing(listing: *const u8, listing_length: usize, out: *mut u8, out_length: usize) -> Reading {
    let listing = from_raw_parts(listing, listing_length);
    let out = from_raw_parts_mut(out, out_length);
    let mut result = reader::read_listing(listing, out);
    if is("37-preamble-lines") && result == Err(Refusal::new(21, 37)) {
        result = reader::read_listing(&listing[18..], out);
    }
    if is("22-before-lines") && result.is_err_and(|refusal| refusal.number == 21 && refusal.place > 10) {
        let sync = std::str::from_utf8(&listing[162..170]).ok().and_then(|digits| u32::from_str_radix(digits, 16).ok());
        if sync.is_some_and(|word| codeword::correct(word) != Some(codeword::SYNC)) {
            result = Err(Refusal::new(22, 1));
        }
    }
    reading(result, || listing::read(listing).unwrap_or_default(), out)
}

/// The bits changed in the words of batches, as they are rightly summed or, for some mistakes, wrongly.
fn summed(words: impl FnOnce() -> Vec<u32>, right: reader::Changes) -> Changes {
    let reader::Changes { mut slots, mut syncs } = right;
    if asked().is_empty() {
        return Changes { slots, syncs };
    }
    let words = words();
    let mut open = false;
    for &word in words.chunks(17).flat_map(|batch| &batch[1..]) {
        let near = codeword::correct(word);
        let changed = near.map_or(0, |near| codeword::changed(word, near));
        match near.map(codeword::meaning) {
            Some(Meaning::Address { .. }) => open = true,
            Some(Meaning::Message(_)) => slots -= if is("orphans-not-summed") && !open { changed } else { 0 },
            Some(Meaning::Idle) => {
                slots -= if is("idle-words-not-summed") { changed } else { 0 };
                open = false;
            }
            None | Some(Meaning::Reserved) => {
                slots += if is("lost-words-summed") { changed } else { 0 };
                open = false;
            }
        }
    }
    if is("sums-one-more") && slots > 0 {
        slots += 1;
    }
    if is("syncs-among-the-slots") {
        slots += syncs;
    }
    if is("syncs-31-bits") {
        syncs -= words.iter().step_by(17).filter(|&word| (word ^ codeword::SYNC) & 1 == 1).count() as u32;
    }
    Changes { slots, syncs }
}

/// What is read, as it is right or, for some mistakes, wrong, and how many bytes that is.
fn printed(out: &mut [u8], bytes: usize) -> usize {
    if is("cut-not-shown") {
        for pair in 1..bytes {
            if out[pair - 1] == b'-' {
                out[pair - 1] = b'\n';
            }
        }
    }
    if is("cut-keeps-its-kind") {
        for at in 2..bytes {
            match &mut out[at - 2..=at] {
                [b' ', kind @ b'0', b'-'] => *kind = b'4',
                [b' ', kind @ b'3', b'-'] => *kind = b'5',
                _ => {}
            }
        }
    }
    if is("cut-within-a-group") {
        let lines = out[..bytes].split_inclusive(|&byte| byte == b'\n');
        let shorter = lines.flat_map(|line| match line {
            [front @ .., _, b'-', b'\n'] if matches!(line[7], b'6' | b'7') => [front, b"-\n"].concat(),
            _ => line.to_vec(),
        });
        let shorter: Vec<u8> = shorter.collect();
        out[..shorter.len()].copy_from_slice(&shorter);
        return shorter.len();
    }
    bytes
}

/// An answer in the header's form; `words` gives the words of the batches.
fn reading(result: Result<reader::Reading, Refusal>, words: impl FnOnce() -> Vec<u32>, out: &mut [u8]) -> Reading {
    match result {
        Ok(reader::Reading { bytes, pages, lost, orphans, changed }) => {
            let bytes = printed(out, bytes);
            let orphans = if is("orphans-not-counted") { 0 } else { orphans };
            Reading { place: 0, bytes, number: 0, pages, lost, orphans, changed: summed(words, changed) }
        }
        Err(Refusal { number, mut place, .. }) => {
            if is("place-of-21") && number == 21 {
                place = place.saturating_sub(1);
            }
            let changed = Changes { slots: u32::from(is("sums-when-declined") && number == 10), syncs: 0 };
            Reading { place, bytes: 0, number, pages: 0, lost: 0, orphans: 0, changed }
        }
    }
}

#[no_mangle]
unsafe extern "C" fn card_start(
    job: *const u8,
    job_length: usize,
    book: *const u8,
    book_length: usize,
    state: *mut Sender,
) -> steps::Refusal {
    let book = if is("start-without-book") { NO_BOOK } else { from_raw_parts(book, book_length) };
    let (job, book) = taken(from_raw_parts(job, job_length), book);
    let pages = match job::parse(&job, &book).map_err(|right| declined::said(&job, &book, right)) {
        Ok(pages) => pages,
        Err(Refusal { number, place, mut position }) => {
            if is("start-writes-when-declined") {
                (*state).cursor.message = 0;
            }
            if is("start-without-position") {
                position = 0;
            }
            return steps::Refusal { place, position, number };
        }
    };
    let mut next = Sender::boxed();
    next.cursor.preamble = 18;
    next.pages.count = pages.len() as u32;
    let mut words = Vec::new();
    for (i, page) in pages.iter().enumerate() {
        next.pages.addresses[i] = page.address();
        next.pages.starts[i] = words.len() as u16;
        next.pages.lengths[i] = page.message_words() as u16;
        next.pages.frames[i] = page.frame() as u8;
        page.push_message(&mut words);
    }
    if is("start-leaves-words") {
        next.words = (*state).words;
    }
    next.words[..words.len()].copy_from_slice(&words);
    *state = *next;
    steps::Refusal::NONE
}

/// Whether number 11 is given.
fn declines(state: &Sender) -> bool {
    let Sender { cursor, pages, .. } = state;
    let set = if is("flag-is-one") { cursor.running == 1 } else { cursor.running != 0 };
    let looked_at = set || is("page-looked-at-when-not-running");
    let mut frames = pages.frames;
    if is("frame-8") {
        frames.iter_mut().filter(|frame| **frame == 8).for_each(|frame| *frame = 7);
    }
    let mut reasons = state::reasons(&state::State {
        slot: cursor.slot - u32::from(is("slot-4801") && cursor.slot == 4801),
        running: looked_at.then_some((cursor.page, cursor.word)),
        count: pages.count - u32::from(is("49-pages") && pages.count == 49),
        starts: &pages.starts,
        lengths: &pages.lengths,
        frames: &frames,
    });
    let ends = |page: usize| u32::from(pages.starts[page]) + u32::from(pages.lengths[page]);
    if is("ending-at-4033") && (0..48).map(ends).max() == Some(4033) {
        reasons[2] = false;
    }
    if is("running-page-uncounted") {
        reasons[3] = false;
    }
    if is("running-word-beyond") && cursor.word == pages.lengths.get(cursor.page as usize).map_or(0, |&length| length.into()) {
        reasons[4] = false;
    }
    reasons.contains(&true) || is("uncounted-frame-looked-at") && frames.iter().any(|&frame| frame > 7)
}

#[no_mangle]
unsafe extern "C" fn card_step(state: *mut Sender) -> Step {
    let state = &mut *state;
    if declines(state) {
        if is("writes-when-11") {
            state.cursor.slot = 0;
        }
        return Step::DECLINED;
    }
    let Sender { cursor, pages, sent, words } = state;
    if cursor.preamble != 0 {
        cursor.preamble -= 1;
        return Step::word(codeword::PREAMBLE);
    }
    let counted = pages.count.min(48) as usize;
    if cursor.slot % 16 == 0 && cursor.synced == 0 {
        if cursor.running == 0 && cursor.message == 0 && sent[..counted].iter().all(|&flag| flag != 0) {
            if is("writes-when-done") {
                cursor.word = 0;
            }
            return Step::DONE;
        }
        cursor.synced = 1;
        return Step::word(codeword::SYNC);
    }
    let in_batch = cursor.slot % 16;
    cursor.synced = 0;
    cursor.slot += 1;
    if cursor.running != 0 {
        let page = (cursor.page as usize).min(47);
        let at = usize::from(pages.starts[page]) + cursor.word as usize;
        cursor.word += 1;
        cursor.running = u8::from(cursor.word < pages.lengths[page].into());
        cursor.message = 1;
        let word = words.get(at).copied().unwrap_or(0);
        if is("writes-a-message-word") {
            words.iter_mut().skip(at).take(1).for_each(|word| *word = 0);
        }
        return Step::word(word);
    }
    // in the pause after a message only a tone may start
    let pause = cursor.message != 0 && !is("no-pause") && !(is("no-pause-behind-a-sync") && in_batch == 0);
    cursor.message = 0;
    let mut waiting = (0..counted).filter(|&page| sent[page] == 0 && u32::from(pages.frames[page]) == in_batch / 2);
    let tone = |page: usize| pages.lengths[page] == 0 && !is("no-tone-in-the-pause");
    let may_start = |&page: &usize| !pause || tone(page) || data::starts_in_the_pause(pages.addresses[page]);
    let next = if is("no-overtaking-in-the-pause") { waiting.next().filter(may_start) } else { waiting.find(may_start) };
    match next {
        Some(page) => {
            sent[page] = 1;
            cursor.page = page as u32;
            cursor.word = 0;
            cursor.running = u8::from(pages.lengths[page] != 0);
            Step::word(pages.addresses[page])
        }
        None => Step::word(codeword::IDLE),
    }
}
