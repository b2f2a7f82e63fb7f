//! Data pages, and the mistakes in taking their lines and in placing them.

use super::declined::HEAD;
use super::is;

/// A job's line, its newline included, as it is or, for some mistakes, as a data page's is wrongly taken.
pub fn taken(line: &[u8]) -> Vec<u8> {
    let Some((head, mut digits)) = split(line) else { return line.to_vec() };
    let mut head = head.to_vec();
    if is("1-and-2-exchanged") {
        head[7] ^= 1;
    }
    if is("7-is-4") && head[7] == b'7' {
        head[7] = b'8';
        digits = digits.repeat(2);
    }
    if is("lower-case-digits") {
        digits.make_ascii_uppercase();
    }
    if is("odd-digits-are-1") && digits.len() % 2 == 1 {
        digits.push(b'-');
    }
    if is("85-groups") && digits.len() == 5 * 85 {
        digits.drain(5..10);
    }
    if is("groups-of-four") {
        digits = digits.chunks(4).flat_map(|four| [b"0", four].concat()).collect();
    }
    if is("last-digit-on-top") {
        digits.chunks_mut(5).for_each(<[u8]>::reverse);
    }
    if is("low-bits-on-top") {
        digits.iter_mut().for_each(|digit| *digit = turned(*digit));
    }
    [&head[..], &digits, b"\n"].concat()
}

/// Whether, by mistake, a page with this address starts in the pause after a message.
pub fn starts_in_the_pause(address: u32) -> bool {
    is("data-starts-in-the-pause") && matches!(address >> 11 & 3, 1 | 2)
}

/// What stands before the text of a data page, and its text.
fn split(line: &[u8]) -> Option<(&[u8], Vec<u8>)> {
    let (head, text) = line.split_at_checked(HEAD)?;
    matches!(head[7], b'6' | b'7').then_some((head, text.strip_suffix(b"\n")?.to_vec()))
}

/// A digit with its four bits turned round; anything else as it is.
fn turned(digit: u8) -> u8 {
    const TURNED: &[u8; 16] = b"084C2A6E195D3B7F";
    b"0123456789ABCDEF".iter().position(|&other| other == digit).map_or(digit, |value| TURNED[value])
}
