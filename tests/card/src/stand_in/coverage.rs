//! The coverage report, and the mistakes that only it makes. It makes a list of the slots first and counts each class in it; of each
//! address it looks for the first word behind it that is no message word. That is neither of the independent implementation's two ways.

use super::is;
use crate::coverage::{Coverage, FrameWords, PageCounts, Rate, SyncWords, NUMBERS, SYNC_ROW};
use crate::steps::Refusal;
use independent::codeword::{self, Meaning, SYNC};
use independent::{listing, reader};
use std::array::from_fn;
use std::slice::from_raw_parts;

#[no_mangle]
unsafe extern "C" fn card_coverage_add(listing: *const u8, listing_length: usize, coverage: *mut Coverage) -> Refusal {
    let mut listing = from_raw_parts(listing, listing_length);
    if is("coverage-46556-bytes") {
        listing = &listing[..listing.len().min(46_556)];
    }
    let report = &mut *coverage;
    let refused = reader::log_of_listing(listing).err();
    let bad = |fault: &str| refused.is_some() && is(fault);
    if let Some(refusal) = declined(report).filter(|refusal| !(refusal.number == 23 && bad("coverage-bad-1001st-taken"))) {
        if refusal.number == 11 && is("coverage-writes-when-11") || refusal.number == 23 && is("coverage-writes-when-23") {
            report.listings = report.listings.wrapping_add(1);
        }
        return refusal;
    }
    let answer = refused.map_or(Refusal::NONE, |refusal| Refusal { place: refusal.place, position: 0, number: refusal.number });
    if bad("coverage-refusal-declines") {
        return answer;
    }
    let single = match refused {
        Some(refusal) => refused_alone(refusal.number, listing),
        None => counted(&listing::read(listing).expect("it was read")),
    };
    let mut sum: [u32; NUMBERS] = from_fn(|i| report.numbers()[i].wrapping_add(single.numbers()[i]));
    *report = *Coverage::of(&mut sum);
    if bad("coverage-refusal-answered") {
        answer
    } else {
        Refusal::NONE
    }
}

/// Why a report is declined, if it is, as it is rightly said or, for some mistakes, wrongly.
fn declined(report: &Coverage) -> Option<Refusal> {
    let [listings, counts @ ..] = *report.numbers();
    let judged = if is("coverage-listings-of-16-bits") { listings & 0xFFFF } else { listings };
    let many = judged > 1000 && !is("coverage-over-1000-is-23");
    let over = counts.iter().enumerate().position(|(at, &count)| is_over(at, count, judged));
    let over = over.or((is("coverage-sum-of-a-frame") && frame_is_over(report, judged)).then_some(0));
    let place = if is("coverage-place-of-11") { 1 + over.unwrap_or(0) } else { 0 };
    let eleven = (many || over.is_some()).then_some(Refusal { place, position: 0, number: 11 });
    let most = match () {
        _ if is("coverage-1001-listings") => 1001,
        _ if is("coverage-999-listings") => 999,
        _ => 1000,
    };
    let place = if is("coverage-place-1000") { 1000 } else { 1001 };
    let full = (judged >= most).then_some(Refusal { place, position: 0, number: 23 });
    match is("coverage-23-before-11") {
        true => full.filter(|_| listings == 1000).or(eleven).or(full),
        false => eleven.or(full),
    }
}

/// Whether a count is out of bounds; the counts are those of refusals, frames, sync and pages, in this order.
fn is_over(at: usize, count: u32, listings: u32) -> bool {
    let times = if is("coverage-601-times") { 601 } else { 600 };
    let most = times * u64::from(listings);
    let unjudged = match at {
        _ if is("coverage-any-count-without-listings") && listings == 0 => true,
        0..3 => is("coverage-refusals-unjudged"),
        3..35 => is("coverage-last-frame-unjudged") && at >= 31,
        35..38 => is("coverage-syncs-unjudged"),
        _ => is("coverage-pages-unjudged"),
    };
    let just = is("coverage-600-times-refused") && listings > 0 && u64::from(count) == most;
    (u64::from(count) > most || just) && !unjudged
}

/// Whether a frame's counts are, taken together.
fn frame_is_over(report: &Coverage, listings: u32) -> bool {
    report.frames.iter().any(|words| received(*words) / 32 > 600 * u64::from(listings))
}

/// What a listing adds that is refused with this number.
fn refused_alone(number: u32, listing: &[u8]) -> Coverage {
    let mut single = match listing::read(listing) {
        // the batches in front of the first without a sync
        Ok(words) if is("coverage-good-batches-of-22") => {
            let bad = words.iter().step_by(17).position(|&word| codeword::correct(word) != Some(SYNC));
            counted(&words[..17 * bad.unwrap_or(0)])
        }
        _ => Coverage::default(),
    };
    single.listings = u32::from(!is("coverage-refused-no-listing"));
    let at = match number {
        21 | 22 if is("coverage-21-and-22-exchanged") => 22 - number,
        23 if is("coverage-23-as-21") => 0,
        _ => number - 21,
    };
    single.refused[at as usize] = 1;
    single
}

struct Slot {
    frame: usize,
    /// None of a word that is lost.
    meaning: Option<Meaning>,
    /// Bits mended, 3 for a lost word.
    class: u32,
}

const LOST: u32 = 3;

impl Slot {
    fn new(at: usize, word: u32) -> Self {
        let near = codeword::correct(word);
        let counted = if is("coverage-31-bits") { !1 } else { !0 };
        let mended = near.map_or(LOST, |near| codeword::changed(word & counted, near & counted));
        let (meaning, class) = match near.map(codeword::meaning) {
            Some(Meaning::Reserved) if is("coverage-reserved-not-lost") => (None, mended),
            Some(Meaning::Reserved)
                if is("coverage-idle-of-any-function") && near.map(|near| near >> 13) == Some(codeword::IDLE >> 13) =>
            {
                (Some(Meaning::Idle), mended)
            }
            None | Some(Meaning::Reserved) => (None, LOST),
            meaning => (meaning, mended),
        };
        Slot { frame: at % 16 / 2, meaning, class }
    }

    fn is_message(&self) -> bool {
        matches!(self.meaning, Some(Meaning::Message(_)))
    }
}

/// What the batches of a listing add.
fn counted(words: &[u32]) -> Coverage {
    let slots: Vec<Slot> =
        words.chunks(17).flat_map(|batch| &batch[1..]).enumerate().map(|(at, &word)| Slot::new(at, word)).collect();
    let mut pages = [PageCounts { whole: 0, cut: 0 }; 8];
    for (at, slot) in slots.iter().enumerate() {
        if let Some(Meaning::Address { upper, .. }) = slot.meaning {
            count_page(&slots, at, upper, &mut pages);
        }
    }
    if is("coverage-orphans-as-pages") {
        orphans(&slots).for_each(|slot| pages[slot.frame].whole += 1);
    }
    let of = |frame: usize, class: u32| slots.iter().filter(|slot| (slot.frame, slot.class) == (frame, class)).count() as u32;
    let mut frames =
        from_fn(|frame| FrameWords { unchanged: of(frame, 0), one: of(frame, 1), two: of(frame, 2), lost: of(frame, LOST) });
    let wrong = |bits: u32| words.iter().step_by(17).filter(|&word| (word ^ SYNC).count_ones() == bits).count() as u32;
    let mut sync = SyncWords { unchanged: wrong(0), one: wrong(1), two: wrong(2) };
    match () {
        _ if is("coverage-lost-also-unchanged") => frames.iter_mut().for_each(|words| words.unchanged += words.lost),
        _ if is("coverage-orphans-uncounted") => {
            orphans(&slots).filter(|slot| slot.class == 0).for_each(|slot| frames[slot.frame].unchanged -= 1)
        }
        _ if is("coverage-syncs-in-frame-0") => frames[0].unchanged += sync.unchanged,
        // in a slot sync is lost
        _ if is("coverage-sync-by-its-meaning") => sync = SyncWords::default(),
        _ => {}
    }
    Coverage { listings: 1, refused: [0; 3], frames, sync, pages }
}

/// Counts the page whose address stands in this slot.
fn count_page(slots: &[Slot], at: usize, upper: u32, pages: &mut [PageCounts; 8]) {
    let words = slots[at + 1..].iter().take_while(|slot| slot.is_message()).count();
    let end = slots.get(at + 1 + words);
    if end.is_none() && is("coverage-open-at-the-end") || words == 0 && is("coverage-tones-uncounted") {
        return;
    }
    let frame = match () {
        _ if is("coverage-frame-of-the-last-word") => slots[at + words].frame,
        _ if is("coverage-frame-of-the-address-word") => upper as usize % 8,
        _ => slots[at].frame,
    };
    let cut = end.map_or(is("coverage-cut-at-the-end"), |slot| slot.meaning.is_none());
    if cut && !is("coverage-cut-as-whole") {
        pages[frame].cut += 1;
    } else {
        pages[frame].whole += 1;
    }
}

/// The message words that belong to no page.
fn orphans(slots: &[Slot]) -> impl Iterator<Item = &Slot> {
    let mut open = false;
    slots.iter().filter(move |slot| {
        open = matches!(slot.meaning, Some(Meaning::Address { .. })) || open && slot.is_message();
        slot.is_message() && !open
    })
}

/// Bits received, as is right or, for a mistake, without the lost words'.
fn received(FrameWords { unchanged, one, two, lost }: FrameWords) -> u64 {
    let lost = if is("coverage-lost-not-received") { 0 } else { lost };
    32 * [unchanged, one, two, lost].into_iter().map(u64::from).sum::<u64>()
}

#[no_mangle]
unsafe extern "C" fn card_coverage_rate(coverage: *const Coverage, row: u32) -> Rate {
    let report = &*coverage;
    let SyncWords { unchanged, one, two } = report.sync;
    let words = match row {
        0..SYNC_ROW => report.frames[row as usize],
        9 if is("coverage-rate-of-row-9") => report.frames[7],
        SYNC_ROW => FrameWords { unchanged, one, two, lost: 0 },
        _ => return Rate::default(),
    };
    if is("coverage-rate-within-bounds-alone") && declined(report).is_some_and(|refusal| refusal.number == 11) {
        return Rate::default();
    }
    rate(words)
}

/// The rate of words: found from its top bit down, for there are at most two mended bits in 32, so that it is at most 62,500.
fn rate(words: FrameWords) -> Rate {
    let received = received(words);
    if received == 0 {
        return Rate::default();
    }
    let twice = if is("coverage-two-counted-once") { 1 } else { 2 };
    let mut millionfold = 1_000_000 * (u64::from(words.one) + twice * u64::from(words.two));
    if is("coverage-rate-of-32-bits") {
        millionfold &= 0xFFFF_FFFF;
    }
    let mut rate =
        (0..16).rev().fold(0, |rate, bit| if (rate | 1 << bit) * received <= millionfold { rate | 1 << bit } else { rate });
    let mut remainder = millionfold - rate * received;
    if is("coverage-remainder-by-words") {
        remainder = millionfold % (received / 32);
    }
    if is("coverage-rate-rounded") && 2 * remainder >= received {
        rate += 1;
    }
    Rate { rate, remainder }
}
