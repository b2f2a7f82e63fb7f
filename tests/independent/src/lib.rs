//! Document 01 in plain Rust, with what document 02 asks, written from the documents alone: the yardstick that the proved library is compared with, and the
//! baseline of the benchmarks. It shares no line with the library and has no proofs.

pub mod book;
pub mod codeword;
pub mod coverage;
pub mod follow;
pub mod job;
pub mod judge;
pub mod listing;
pub mod placement;
pub mod program;
pub mod reader;
pub mod receive;
pub mod send;
pub mod state;
pub mod text;
#[cfg(test)]
mod trials;

/// Why work is declined: a number of document 01's table as have it, and the place that goes with it.
#[derive(Clone, Copy, Debug, PartialEq, Eq)]
pub struct Refusal {
    pub number: u32,
    pub place: usize,
    /// With number 6 that of the text's first bad character, from 1; 0 with any other.
    pub position: usize,
}

impl Refusal {
    pub fn new(number: u32, place: usize) -> Self {
        Refusal { number, place, position: 0 }
    }
}

/// The answer does not fit where it is to go.
pub(crate) const TOO_SHORT: Refusal = Refusal { number: 10, place: 0, position: 0 };

/// The value of an upper-case hexadecimal digit.
pub(crate) fn digit_value(byte: u8) -> Option<u32> {
    match DIGIT_VALUES[byte as usize] {
        NO_DIGIT => None,
        value => Some(value as u32),
    }
}

/// The number that upper-case hexadecimal digits spell; at most eight of them.
pub(crate) fn number(digits: &[u8]) -> Option<u32> {
    let mut value = 0;
    let mut seen = 0;
    for &byte in digits {
        let digit = DIGIT_VALUES[byte as usize];
        value = value << 4 | digit as u32;
        seen |= digit;
    }
    (seen < 16).then_some(value)
}

pub(crate) const DIGITS: &[u8; 16] = b"0123456789ABCDEF";

const NO_DIGIT: u8 = 0xFF;

static DIGIT_VALUES: [u8; 256] = {
    let mut values = [NO_DIGIT; 256];
    let mut value = 0;
    while value < 16 {
        values[DIGITS[value] as usize] = value as u8;
        value += 1;
    }
    values
};

#[cfg(test)]
mod tests {
    use super::*;

    #[test]
    fn digits() {
        assert_eq!(number(b"1FFFFF"), Some(0x1F_FFFF));
        assert_eq!(number(b"7CD215D8"), Some(0x7CD2_15D8));
        assert_eq!(number(b"FFFFFFFF"), Some(u32::MAX));
        assert_eq!(number(b"G0000000"), None);
        assert_eq!(number(b"0000000g"), None);
        for byte in 0..=255u8 {
            let expected = (byte.is_ascii_digit() || (b'A'..=b'F').contains(&byte)).then(|| (byte as char).to_digit(16).unwrap());
            assert_eq!(digit_value(byte), expected, "byte {byte:02X}");
        }
    }
}
