//! Texts as groups of 20 message bits: numeric and alphanumeric ones both ways, a data page's digits one way, since reading prints its
//! groups as they are.

use crate::number;

/// How many digits of a data page are a group.
pub const GROUP_DIGITS: usize = 5;

/// Numeric characters by their four-bit value; the spare is shown as `*`.
const NUMERIC: &[u8; 16] = b"0123456789*U -][";
const SPARE: usize = 10;
const SPACE: u32 = 12;

const NOT_NUMERIC: u8 = 0xFF;

static NUMERIC_VALUES: [u8; 256] = {
    let mut values = [NOT_NUMERIC; 256];
    let mut value = 0;
    while value < 16 {
        if value != SPARE {
            values[NUMERIC[value] as usize] = value as u8;
        }
        value += 1;
    }
    values
};

/// The four-bit value of a numeric character that may be sent.
pub fn numeric_value(byte: u8) -> Option<u32> {
    match NUMERIC_VALUES[byte as usize] {
        NOT_NUMERIC => None,
        value => Some(value as u32),
    }
}

/// Whether an alphanumeric page may have this character.
pub fn is_alphanumeric(byte: u8) -> bool {
    matches!(byte, 1..=127) && byte != 3 && byte != 4
}

/// All numbers of `BITS` bits, low bit first.
const fn reversed<const BITS: u32, const COUNT: usize>() -> [u8; COUNT] {
    let mut table = [0; COUNT];
    let mut value = 0;
    while value < COUNT {
        table[value] = ((value as u32).reverse_bits() >> (32 - BITS)) as u8;
        value += 1;
    }
    table
}

static REVERSED_4: [u8; 16] = reversed::<4, 16>();
static REVERSED_7: [u8; 128] = reversed::<7, 128>();

/// Groups for a numeric text, filled with spaces. Every byte must be a numeric character.
pub fn pack_numeric(text: &[u8], groups: &mut Vec<u32>) {
    for five in text.chunks(5) {
        let mut group = 0;
        for i in 0..5 {
            let value = five.get(i).map_or(SPACE, |&byte| NUMERIC_VALUES[byte as usize] as u32);
            group = group << 4 | REVERSED_4[value as usize] as u32;
        }
        groups.push(group);
    }
}

/// Groups for an alphanumeric text, filled with zero bits.
pub fn pack_alphanumeric(text: &[u8], groups: &mut Vec<u32>) {
    let mut pending = 0;
    let mut count = 0;
    for &byte in text {
        pending = pending << 7 | REVERSED_7[(byte & 0x7F) as usize] as u32;
        count += 7;
        if count >= 20 {
            count -= 20;
            groups.push(pending >> count);
            pending &= (1 << count) - 1;
        }
    }
    if count > 0 {
        groups.push(pending << (20 - count));
    }
}

/// Groups for a data page's digits, of which the first is the group's top four bits. There must be whole groups.
pub fn pack_digits(digits: &[u8], groups: &mut Vec<u32>) {
    groups.extend(digits.chunks_exact(GROUP_DIGITS).map(|five| number(five).expect("digits")));
}

/// The numeric text of groups, without its trailing spaces.
pub fn unpack_numeric(groups: &[u32], text: &mut Vec<u8>) {
    let start = text.len();
    for &group in groups {
        for shift in [16, 12, 8, 4, 0] {
            text.push(NUMERIC[REVERSED_4[(group >> shift & 15) as usize] as usize]);
        }
    }
    while text.len() > start && text.last() == Some(&b' ') {
        text.pop();
    }
}

/// The alphanumeric text of groups, up to its first 0, 3 or 4.
pub fn unpack_alphanumeric(groups: &[u32], text: &mut Vec<u8>) {
    let mut pending = 0;
    let mut count = 0;
    for &group in groups {
        pending = pending << 20 | group;
        count += 20;
        while count >= 7 {
            count -= 7;
            let character = REVERSED_7[(pending >> count & 0x7F) as usize];
            if matches!(character, 0 | 3 | 4) {
                return;
            }
            text.push(character);
        }
        pending &= (1 << count) - 1;
    }
}

#[cfg(test)]
mod tests {
    use super::*;

    fn packed(pack: fn(&[u8], &mut Vec<u32>), text: &[u8]) -> Vec<u32> {
        let mut groups = Vec::new();
        pack(text, &mut groups);
        groups
    }

    fn unpacked(unpack: fn(&[u32], &mut Vec<u8>), groups: &[u32]) -> Vec<u8> {
        let mut text = Vec::new();
        unpack(groups, &mut text);
        text
    }

    #[test]
    fn examples() {
        assert_eq!(packed(pack_numeric, b"12"), [0x84333]);
        assert_eq!(packed(pack_alphanumeric, b"A"), [0x82000]);
        assert_eq!(packed(pack_digits, b"84333FFFFF0000A"), [0x84333, 0xF_FFFF, 0xA]);
    }

    #[test]
    fn numeric_values() {
        let sendable: Vec<u8> = (0..=255).filter(|&byte| numeric_value(byte).is_some()).collect();
        assert_eq!(sendable, b" -0123456789U[]");
        assert_eq!(b"U -][".map(numeric_value), [11, 12, 13, 14, 15].map(Some));
    }

    #[test]
    fn numeric_reading() {
        assert_eq!(unpacked(unpack_numeric, &[0x84333]), b"12");
        // 10, low bit first, is 0101
        assert_eq!(unpacked(unpack_numeric, &[0x55555]), b"*****");
        // spaces are dropped over more than one group, inner ones stay
        assert_eq!(unpacked(unpack_numeric, &[0x38333, 0x33333]), b" 1");
        assert_eq!(unpacked(unpack_numeric, &[0x33333, 0x33333]), b"");
        // what stood in the vector before isn't part of the text
        let mut text = b"9  ".to_vec();
        unpack_numeric(&[0x33333], &mut text);
        assert_eq!(text, b"9  ");
    }

    #[test]
    fn alphanumeric_reading() {
        assert_eq!(unpacked(unpack_alphanumeric, &[0x82000]), b"A");
        // 60 bits are eight characters and an incomplete one
        let all_ones = unpacked(unpack_alphanumeric, &[0xF_FFFF; 3]);
        assert_eq!(all_ones, [127; 8]);
        for end in [0, 3, 4] {
            let groups = packed(pack_alphanumeric, &[b'A', b'B', end, b'C', b'D', b'E']);
            assert_eq!(unpacked(unpack_alphanumeric, &groups), b"AB");
        }
    }

    #[test]
    fn there_and_back() {
        let characters: Vec<u8> = (1..=127).filter(|&byte| is_alphanumeric(byte)).collect();
        assert_eq!(characters.len(), 125);
        for length in 1..=240 {
            let text: Vec<u8> = characters.iter().copied().cycle().skip(length).take(length).collect();
            let groups = packed(pack_alphanumeric, &text);
            assert_eq!(groups.len(), (7 * length).div_ceil(20));
            assert!(groups.iter().all(|&group| group < 1 << 20));
            assert_eq!(unpacked(unpack_alphanumeric, &groups), text);
        }
        for length in 1..=60 {
            let mut text: Vec<u8> = b"[0 12]3-45U6789".iter().copied().cycle().skip(length).take(length).collect();
            let groups = packed(pack_numeric, &text);
            assert_eq!(groups.len(), length.div_ceil(5));
            while text.last() == Some(&b' ') {
                text.pop();
            }
            assert_eq!(unpacked(unpack_numeric, &groups), text);
        }
    }
}
