//! The library behind safe functions: declarations that match include/spuggenor.h, and all the unsafe calls there are.
//!
//! Answers are handed on as the header has them, so that a comparison sees every field.

pub mod coverage;
#[cfg(feature = "stand-in")]
pub mod stand_in;
pub mod steps;

/// Whether the independent implementation stands in for the library.
pub const STAND_IN: bool = cfg!(feature = "stand-in");

/// `struct card_word`.
#[repr(C)]
#[derive(Clone, Copy, Debug, PartialEq, Eq)]
pub struct Word {
    pub word: u32,
    pub number: u32,
    pub changed: u32,
}

/// `struct card_report`.
#[repr(C)]
#[derive(Clone, Copy, Debug, PartialEq, Eq)]
pub struct Report {
    pub place: usize,
    pub position: usize,
    pub number: u32,
    pub batches: u32,
    pub words: u32,
}

/// `struct card_bytes`.
#[repr(C)]
#[derive(Clone, Copy, Debug, PartialEq, Eq)]
pub struct Bytes {
    pub place: usize,
    pub position: usize,
    pub bytes: usize,
    pub number: u32,
}

/// `struct card_changes`.
#[repr(C)]
#[derive(Clone, Copy, Debug, PartialEq, Eq)]
pub struct Changes {
    pub slots: u32,
    pub syncs: u32,
}

/// `struct card_reading`.
#[repr(C)]
#[derive(Clone, Copy, Debug, PartialEq, Eq)]
pub struct Reading {
    pub place: usize,
    pub bytes: usize,
    pub number: u32,
    pub pages: u32,
    pub lost: u32,
    pub orphans: u32,
    pub changed: Changes,
}

/// `struct card_following`.
#[repr(C)]
#[derive(Clone, Copy, Debug, PartialEq, Eq)]
pub struct Following {
    pub place: usize,
    pub bytes: usize,
    pub number: u32,
    pub lines: u32,
}

/// `struct card_receiving`.
#[repr(C)]
#[derive(Clone, Copy, Debug, PartialEq, Eq)]
pub struct Receiving {
    pub place: usize,
    pub bytes: usize,
    pub number: u32,
    pub batches: u32,
    pub pages: u32,
    pub lost: u32,
    pub orphans: u32,
    pub changed: Changes,
}

/// Sizes that the header promises to suffice.
pub const PAGES: usize = 48;
pub const WORDS: usize = 5118;
pub const LISTING_BYTES: usize = 46_062;
pub const LINES_BYTES: usize = 48_000;
pub const RECEIVED_BYTES: usize = 48_300;

extern "C" {
    fn card_correct(word: u32) -> Word;
    fn card_correct_slowly(word: u32) -> Word;
    fn card_send(
        job: *const u8,
        job_length: usize,
        book: *const u8,
        book_length: usize,
        words: *mut u32,
        words_length: usize,
        slots: *mut u32,
        slots_length: usize,
    ) -> Report;
    fn card_list(job: *const u8, job_length: usize, book: *const u8, book_length: usize, out: *mut u8, out_length: usize) -> Bytes;
    fn card_read_words(words: *const u32, words_length: usize, out: *mut u8, out_length: usize) -> Reading;
    fn card_read_words_slowly(words: *const u32, words_length: usize, out: *mut u8, out_length: usize) -> Reading;
    fn card_read_listing(listing: *const u8, listing_length: usize, out: *mut u8, out_length: usize) -> Reading;
    fn card_read_listing_slowly(listing: *const u8, listing_length: usize, out: *mut u8, out_length: usize) -> Reading;
    fn card_follow_words(identity: u32, words: *const u32, words_length: usize, out: *mut u8, out_length: usize) -> Following;
    fn card_follow_listing(identity: u32, listing: *const u8, listing_length: usize, out: *mut u8, out_length: usize) -> Following;
    fn card_receive(bits: *const u8, bits_length: usize, out: *mut u8, out_length: usize) -> Receiving;
}

pub fn correct(word: u32) -> Word {
    // SAFETY: no pointers are passed.
    unsafe { card_correct(word) }
}

pub fn correct_slowly(word: u32) -> Word {
    // SAFETY: no pointers are passed.
    unsafe { card_correct_slowly(word) }
}

pub fn send(job: &[u8], book: &[u8], words: &mut [u32], slots: &mut [u32]) -> Report {
    // SAFETY: each pointer comes with the length of its slice, and the borrows keep the lent slices apart.
    unsafe {
        card_send(
            job.as_ptr(),
            job.len(),
            book.as_ptr(),
            book.len(),
            words.as_mut_ptr(),
            words.len(),
            slots.as_mut_ptr(),
            slots.len(),
        )
    }
}

pub fn list(job: &[u8], book: &[u8], out: &mut [u8]) -> Bytes {
    // SAFETY: as in send.
    unsafe { card_list(job.as_ptr(), job.len(), book.as_ptr(), book.len(), out.as_mut_ptr(), out.len()) }
}

pub fn read_words(words: &[u32], out: &mut [u8]) -> Reading {
    // SAFETY: as in send.
    unsafe { card_read_words(words.as_ptr(), words.len(), out.as_mut_ptr(), out.len()) }
}

pub fn read_words_slowly(words: &[u32], out: &mut [u8]) -> Reading {
    // SAFETY: as in send.
    unsafe { card_read_words_slowly(words.as_ptr(), words.len(), out.as_mut_ptr(), out.len()) }
}

pub fn read_listing(listing: &[u8], out: &mut [u8]) -> Reading {
    // SAFETY: as in send.
    unsafe { card_read_listing(listing.as_ptr(), listing.len(), out.as_mut_ptr(), out.len()) }
}

pub fn read_listing_slowly(listing: &[u8], out: &mut [u8]) -> Reading {
    // SAFETY: as in send.
    unsafe { card_read_listing_slowly(listing.as_ptr(), listing.len(), out.as_mut_ptr(), out.len()) }
}

pub fn follow_words(identity: u32, words: &[u32], out: &mut [u8]) -> Following {
    // SAFETY: as in send.
    unsafe { card_follow_words(identity, words.as_ptr(), words.len(), out.as_mut_ptr(), out.len()) }
}

pub fn follow_listing(identity: u32, listing: &[u8], out: &mut [u8]) -> Following {
    // SAFETY: as in send.
    unsafe { card_follow_listing(identity, listing.as_ptr(), listing.len(), out.as_mut_ptr(), out.len()) }
}

pub fn receive(bits: &[u8], out: &mut [u8]) -> Receiving {
    // SAFETY: as in send.
    unsafe { card_receive(bits.as_ptr(), bits.len(), out.as_mut_ptr(), out.len()) }
}
