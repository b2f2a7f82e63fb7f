//! The desk receiver, and the mistakes that only it makes. It goes through every slot, and is neither of the independent
//! implementation's two ways.

use super::{closed, is};
use crate::Following;
use independent::codeword::{self, Meaning};
use independent::reader::{self, Log, Open};
use independent::{follow, listing, Refusal};
use std::slice::{from_raw_parts, from_raw_parts_mut};

#[no_mangle]
unsafe extern "C" fn card_follow_words(
    identity: u32,
    words: *const u32,
    words_length: usize,
    out: *mut u8,
    out_length: usize,
) -> Following {
    let mut words = from_raw_parts(words, words_length);
    if is("follow-words-301-batches") && words.len() == 17 * 301 {
        words = &words[17..];
    }
    let declined = follow::lines_of_words(0, words).err();
    answer(identity, declined, words.to_vec(), from_raw_parts_mut(out, out_length))
}

#[no_mangle]
unsafe extern "C" fn card_follow_listing(
    identity: u32,
    listing: *const u8,
    listing_length: usize,
    out: *mut u8,
    out_length: usize,
) -> Following {
    let listing = from_raw_parts(listing, listing_length);
    let mut declined = follow::lines_of_listing(0, listing).err();
    if is("follow-listing-place-of-21") {
        declined = declined.map(|refusal| Refusal { place: refusal.place + usize::from(refusal.number == 21), ..refusal });
    }
    if is("follow-listing-any-sync") {
        declined = declined.filter(|refusal| refusal.number != 22);
    }
    answer(identity, declined, listing::read(listing).unwrap_or_default(), from_raw_parts_mut(out, out_length))
}

/// The answer for words that are declined, or are batches.
fn answer(identity: u32, declined: Option<Refusal>, words: Vec<u32>, out: &mut [u8]) -> Following {
    let identity = if is("follow-low-21-bits") { identity & 0x1F_FFFF } else { identity };
    let first = first_declined(identity, declined, &words);
    if let Some(refusal) = first.filter(|refusal| refusal.number != 22 || !is("follow-10-before-22")) {
        return refused(refusal);
    }
    let lines = printed(Receiver::new(identity).through(&words));
    let bytes = lines.concat();
    if room(out, &words) < bytes.len() {
        if is("follow-writes-what-fits") {
            out.copy_from_slice(&bytes[..out.len()]);
        }
        let lines = if is("follow-counts-when-declined") { lines.len() as u32 } else { 0 };
        return Following { lines, ..refused(Refusal::new(10, 0)) };
    }
    if let Some(refusal) = first {
        return refused(refusal);
    }
    out[..bytes.len()].copy_from_slice(&bytes);
    if is("follow-clears-behind") {
        out[bytes.len()..].fill(0);
    }
    Following { place: 0, bytes: bytes.len(), number: 0, lines: counted(&lines, &words) }
}

/// What comes first of the identity's own refusal and that of the words.
fn first_declined(identity: u32, declined: Option<Refusal>, words: &[u32]) -> Option<Refusal> {
    let inexact = || words.iter().step_by(17).position(|&word| word != codeword::SYNC).map(|at| Refusal::new(22, at + 1));
    let declined = if is("follow-syncs-uncorrected") { declined.or_else(inexact) } else { declined };
    let of_identity = identity_declined(identity);
    if is("follow-2-after-21") {
        declined.or(of_identity)
    } else {
        of_identity.or(declined)
    }
}

/// All lines of the words, and their number.
fn all_lines(words: &[u32]) -> Log {
    reader::log_of_words(words).unwrap_or_default()
}

/// For how many bytes there is room.
fn room(out: &[u8], words: &[u32]) -> usize {
    match out.len() {
        some @ 1.. if is("follow-last-byte-unused") => some - 1,
        some if is("follow-room-for-all-lines") && some < all_lines(words).lines.len() => 0,
        all => all,
    }
}

/// How many lines are reported.
fn counted(lines: &[Vec<u8>], words: &[u32]) -> u32 {
    match lines.len() as u32 {
        some @ 1.. if is("follow-counts-one-more") => some + 1,
        _ if is("follow-counts-all-pages") => all_lines(words).pages,
        all => all,
    }
}

fn refused(Refusal { number, place, .. }: Refusal) -> Following {
    Following { place, bytes: 0, number, lines: 0 }
}

/// Why an identity is declined, if it is, as it is rightly said or, for some mistakes, wrongly.
fn identity_declined(identity: u32) -> Option<Refusal> {
    let right = follow::among(identity, &Ok(Log::default())).err();
    let with = |number, place| Some(Refusal::new(number, place));
    match (right.map_or(0, |refusal| refusal.number), identity) {
        (0, 0x1F_FFFF) if is("follow-1FFFFF-refused") => with(2, 0),
        (0, 0x1E_A278) if is("follow-1EA278-refused") => with(3, 0),
        (2, 0x20_0000) if is("follow-200000-taken") => None,
        (2, _) if is("follow-3-before-2") && codeword::is_reserved(identity >> 3 & 0x3_FFFF) => with(3, 0),
        (2, _) if is("follow-3-for-2") => with(3, 0),
        (2, _) if is("follow-place-of-2") => with(2, 1),
        (3, 0x1E_A277) if is("follow-1EA277-taken") => None,
        (3, 0x1F_3480..=0x1F_3487) if is("follow-sync-not-reserved") => None,
        (3, _) if is("follow-2-for-3") => with(2, 0),
        (3, _) if is("follow-place-of-3") => with(3, 1),
        _ => right,
    }
}

/// What a word does to the page that is open.
enum Effect {
    Runs(u32),
    Nothing,
    Whole,
    Cut,
}

struct Receiver {
    identity: u32,
    open: Option<Open>,
    groups: Vec<u32>,
    lines: Vec<Vec<u8>>,
}

impl Receiver {
    fn new(identity: u32) -> Self {
        Receiver { identity, open: None, groups: vec![], lines: vec![] }
    }

    /// The identity's lines of batches.
    fn through(mut self, words: &[u32]) -> Vec<Vec<u8>> {
        let slots = words.chunks(17).flat_map(|batch| &batch[1..]);
        for (slot, &word) in slots.enumerate() {
            if slot % 16 == 0 && (is("follow-ends-at-sync") || is("follow-cut-at-sync")) {
                self.close(is("follow-cut-at-sync"));
            }
            self.word(slot, word);
        }
        if !is("follow-open-at-the-end") {
            self.close(is("follow-cut-at-the-end"));
        }
        self.lines
    }

    fn word(&mut self, slot: usize, word: u32) {
        let running = self.open.is_some();
        if running {
            self.message(slot, word);
        }
        if let Some(page) = self.own_page(slot, word).filter(|_| !(running && is("follow-misses-an-address-behind"))) {
            self.close(false);
            self.open = Some(page);
        }
    }

    /// A word while a page is open.
    fn message(&mut self, slot: usize, word: u32) {
        if is("follow-message-in-its-frame") && !self.is_own(slot) {
            return;
        }
        match self.effect(word) {
            Effect::Runs(group) => self.groups.push(group),
            Effect::Nothing => {}
            Effect::Whole => self.close(false),
            Effect::Cut => self.close(true),
        }
    }

    fn effect(&self, word: u32) -> Effect {
        let near = codeword::correct(word).filter(|&near| near == word || !is("follow-messages-uncorrected"));
        let upper = near.map_or(0, |near| near >> 13);
        match near.map(codeword::meaning) {
            Some(Meaning::Message(group)) => Effect::Runs(group),
            Some(Meaning::Idle) if is("follow-past-idle") => Effect::Nothing,
            Some(Meaning::Idle) if is("follow-cut-at-idle") => Effect::Cut,
            Some(Meaning::Address { .. }) if is("follow-past-an-address") => Effect::Nothing,
            Some(Meaning::Address { .. }) if is("follow-past-its-word-elsewhere") && upper == self.identity >> 3 => Effect::Nothing,
            Some(Meaning::Address { .. }) if is("follow-cut-at-an-address") => Effect::Cut,
            Some(Meaning::Idle | Meaning::Address { .. }) => Effect::Whole,
            Some(Meaning::Reserved) if is("follow-past-reserved") => Effect::Nothing,
            Some(Meaning::Reserved) if is("follow-whole-at-reserved") => Effect::Whole,
            Some(Meaning::Reserved) if is("follow-idle-of-any-function") && upper == codeword::IDLE >> 13 => Effect::Whole,
            None if is("follow-past-a-lost-word") => Effect::Nothing,
            None if is("follow-whole-at-a-lost-word") => Effect::Whole,
            None | Some(Meaning::Reserved) => Effect::Cut,
        }
    }

    fn is_own(&self, slot: usize) -> bool {
        slot as u32 / 2 % 8 == self.identity & 7
    }

    /// The page that the word of a slot opens, if it is one for the identity.
    fn own_page(&self, slot: usize, word: u32) -> Option<Open> {
        let near = codeword::correct(word)?;
        let Meaning::Address { upper, function } = codeword::meaning(near) else { return None };
        let apart = upper ^ self.identity >> 3;
        if apart > 1 || apart == 1 && !is("follow-neighbour-too") {
            return None;
        }
        let in_frame = match slot {
            _ if is("follow-in-every-frame") => true,
            _ if is("follow-in-the-next-frame") => self.is_own(slot + 14),
            _ if is("follow-first-slot-alone") => self.is_own(slot) && slot % 2 == 0,
            _ => self.is_own(slot),
        };
        let missed =
            near != word && is("follow-addresses-uncorrected") || matches!(function, 1 | 2) && is("follow-functions-0-and-3");
        (in_frame && !missed).then_some(Open { identity: upper << 3 | self.identity & 7, function })
    }

    fn close(&mut self, cut: bool) {
        self.lines.extend(self.open.take().map(|page| closed(&page, &mut self.groups, cut)));
    }
}

/// The lines, as they are right or, for some mistakes, wrong.
fn printed(mut lines: Vec<Vec<u8>>) -> Vec<Vec<u8>> {
    if is("follow-without-cut-lines") {
        lines.retain(|line| !line.ends_with(b"-\n"));
    }
    if is("follow-without-tones") {
        lines.retain(|line| !matches!(line[7], b'0'..=b'3'));
    }
    if is("follow-last-line-first") {
        lines.reverse();
    }
    if is("follow-first-line-alone") {
        lines.truncate(1);
    }
    lines
}
