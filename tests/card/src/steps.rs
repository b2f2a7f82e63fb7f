//! The sender's start and step. The state is the caller's, and any bytes are a state.

/// `cursor` of `struct card_sender`. A flag is set where it isn't 0.
#[repr(C)]
#[derive(Clone, Copy, Debug, PartialEq, Eq)]
pub struct Cursor {
    pub slot: u32,
    pub page: u32,
    pub word: u32,
    pub preamble: u8,
    pub synced: u8,
    pub running: u8,
    pub message: u8,
}

/// `pages` of `struct card_sender`.
#[repr(C)]
#[derive(Clone, Copy, Debug, PartialEq, Eq)]
pub struct Pages {
    pub count: u32,
    pub addresses: [u32; crate::PAGES],
    pub starts: [u16; crate::PAGES],
    pub lengths: [u16; crate::PAGES],
    pub frames: [u8; crate::PAGES],
}

/// `struct card_sender`.
#[repr(C)]
#[derive(Clone, Debug, PartialEq, Eq)]
pub struct Sender {
    pub cursor: Cursor,
    pub pages: Pages,
    pub sent: [u8; crate::PAGES],
    pub words: [u32; MESSAGE_WORDS],
}

pub const MESSAGE_WORDS: usize = 4032;
const BYTES: usize = 16_628;

const _: () = {
    use std::mem::{align_of, offset_of, size_of};
    assert!(size_of::<Sender>() == BYTES && align_of::<Sender>() == 4);
    assert!(offset_of!(Sender, cursor.preamble) == 12);
    assert!(offset_of!(Sender, pages) == 16);
    assert!(offset_of!(Sender, pages.starts) == 212);
    assert!(offset_of!(Sender, pages.lengths) == 308);
    assert!(offset_of!(Sender, pages.frames) == 404);
    assert!(offset_of!(Sender, sent) == 452);
    assert!(offset_of!(Sender, words) == 500);
    // the fields fill the struct, so that there are no bytes between them
    assert!(size_of::<Sender>() == 3 * 4 + 4 + 4 + (4 + 2 + 2 + 1 + 1) * crate::PAGES + 4 * MESSAGE_WORDS);
};

impl Sender {
    /// A state of zeros.
    pub fn boxed() -> Box<Sender> {
        // SAFETY: a struct of plain numbers, of which every byte pattern is one.
        Box::new(unsafe { std::mem::zeroed() })
    }

    pub fn bytes(&self) -> &[u8; BYTES] {
        // SAFETY: the struct has this size and no bytes between its fields.
        unsafe { &*(self as *const Sender).cast() }
    }

    pub fn bytes_mut(&mut self) -> &mut [u8; BYTES] {
        // SAFETY: as in bytes, and every byte pattern is a state.
        unsafe { &mut *(self as *mut Sender).cast() }
    }
}

/// `struct card_refusal`.
#[repr(C)]
#[derive(Clone, Copy, Debug, PartialEq, Eq)]
pub struct Refusal {
    pub place: usize,
    pub position: usize,
    pub number: u32,
}

impl Refusal {
    pub const NONE: Refusal = Refusal { place: 0, position: 0, number: 0 };
}

/// `struct card_step_answer`.
#[repr(C)]
#[derive(Clone, Copy, Debug, PartialEq, Eq)]
pub struct Step {
    pub word: u32,
    pub done: u32,
    pub number: u32,
}

impl Step {
    pub const DONE: Step = Step { word: 0, done: 1, number: 0 };
    pub const DECLINED: Step = Step { word: 0, done: 0, number: 11 };

    pub fn word(word: u32) -> Step {
        Step { word, done: 0, number: 0 }
    }
}

extern "C" {
    fn card_start(job: *const u8, job_length: usize, book: *const u8, book_length: usize, state: *mut Sender) -> Refusal;
    fn card_step(state: *mut Sender) -> Step;
}

pub fn start(job: &[u8], book: &[u8], state: &mut Sender) -> Refusal {
    // SAFETY: each pointer comes with the length of its slice, and the borrows keep the state apart from both.
    unsafe { card_start(job.as_ptr(), job.len(), book.as_ptr(), book.len(), state) }
}

pub fn step(state: &mut Sender) -> Step {
    // SAFETY: the state is borrowed for the call.
    unsafe { card_step(state) }
}
