//! A listing added to a coverage report, and the rate of a row. The report is the caller's, and any bytes are one.

use crate::steps::Refusal;

/// `struct card_frame_words`.
#[repr(C)]
#[derive(Clone, Copy, Debug, Default, PartialEq, Eq)]
pub struct FrameWords {
    pub unchanged: u32,
    pub one: u32,
    pub two: u32,
    pub lost: u32,
}

/// `struct card_sync_words`.
#[repr(C)]
#[derive(Clone, Copy, Debug, Default, PartialEq, Eq)]
pub struct SyncWords {
    pub unchanged: u32,
    pub one: u32,
    pub two: u32,
}

/// `struct card_page_counts`.
#[repr(C)]
#[derive(Clone, Copy, Debug, Default, PartialEq, Eq)]
pub struct PageCounts {
    pub whole: u32,
    pub cut: u32,
}

/// `struct card_coverage`.
#[repr(C)]
#[derive(Clone, Copy, Debug, Default, PartialEq, Eq)]
pub struct Coverage {
    pub listings: u32,
    pub refused: [u32; 3],
    pub frames: [FrameWords; 8],
    pub sync: SyncWords,
    pub pages: [PageCounts; 8],
}

/// `struct card_rate`.
#[repr(C)]
#[derive(Clone, Copy, Debug, Default, PartialEq, Eq)]
pub struct Rate {
    pub rate: u64,
    pub remainder: u64,
}

/// How many numbers a report has.
pub const NUMBERS: usize = 55;
/// The row of sync.
pub const SYNC_ROW: u32 = 8;

const _: () = {
    use std::mem::{align_of, offset_of, size_of};
    assert!(size_of::<Coverage>() == 220 && align_of::<Coverage>() == 4);
    assert!(offset_of!(Coverage, refused) == 4);
    assert!(offset_of!(Coverage, frames) == 16);
    assert!(offset_of!(Coverage, sync) == 144);
    assert!(offset_of!(Coverage, pages) == 156);
    // nothing but numbers of 32 bits
    assert!(size_of::<Coverage>() == 4 * NUMBERS && align_of::<[u32; NUMBERS]>() == 4);
};

impl Coverage {
    /// All numbers, in the order of the struct.
    pub fn numbers(&self) -> &[u32; NUMBERS] {
        // SAFETY: the struct has this size and alignment, and no bytes between its fields.
        unsafe { &*(self as *const Coverage).cast() }
    }

    /// Numbers as the report that they are.
    pub fn of(numbers: &mut [u32; NUMBERS]) -> &mut Coverage {
        // SAFETY: as in numbers, and any numbers are a report.
        unsafe { &mut *(numbers as *mut [u32; NUMBERS]).cast() }
    }
}

extern "C" {
    fn card_coverage_add(listing: *const u8, listing_length: usize, coverage: *mut Coverage) -> Refusal;
    fn card_coverage_rate(coverage: *const Coverage, row: u32) -> Rate;
}

pub fn add(listing: &[u8], coverage: &mut Coverage) -> Refusal {
    // SAFETY: the pointer comes with the length of its slice, and the borrows keep the report apart from it.
    unsafe { card_coverage_add(listing.as_ptr(), listing.len(), coverage) }
}

pub fn rate(coverage: &Coverage, row: u32) -> Rate {
    // SAFETY: the report is borrowed for the call.
    unsafe { card_coverage_rate(coverage, row) }
}
