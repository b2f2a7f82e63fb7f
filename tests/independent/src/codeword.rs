//! Codewords: making them, and finding the codeword that a received word stands for.

pub const SYNC: u32 = 0x7CD2_15D8;
pub const IDLE: u32 = 0x7A89_C197;
pub const PREAMBLE: u32 = 0xAAAA_AAAA;

/// Upper address values that no page may have.
pub const RESERVED: [u32; 2] = [250_958, 255_632];

/// x^10 + x^9 + x^8 + x^6 + x^5 + x^3 + 1.
const GENERATOR: u32 = 0b111_0110_1001;

/// Remainder of bits 1 to 31 by the generator, in ten bits, then the parity of all 32: zero exactly for codewords. Bit by bit: it
/// fills the tables, and the slow word reader tests with it.
const fn slow_syndrome(word: u32) -> u32 {
    let mut rest = word >> 1;
    let mut power = 30;
    while power >= 10 {
        if rest >> power & 1 == 1 {
            rest ^= GENERATOR << (power - 10);
        }
        power -= 1;
    }
    rest << 1 | word.count_ones() & 1
}

/// The syndrome of each byte at each of the four places of a word.
static BYTE_SYNDROMES: [[u16; 256]; 4] = {
    let mut tables = [[0; 256]; 4];
    let mut place = 0;
    while place < 4 {
        let mut byte = 0;
        while byte < 256 {
            tables[place][byte] = slow_syndrome((byte as u32) << (24 - 8 * place)) as u16;
            byte += 1;
        }
        place += 1;
    }
    tables
};

fn syndrome(word: u32) -> u32 {
    let [a, b, c, d] = word.to_be_bytes();
    (BYTE_SYNDROMES[0][a as usize] ^ BYTE_SYNDROMES[1][b as usize] ^ BYTE_SYNDROMES[2][c as usize] ^ BYTE_SYNDROMES[3][d as usize])
        as u32
}

/// Marks the syndromes that no pattern of at most two wrong bits has.
const NOT_CORRECTABLE: u32 = u32::MAX;

/// The wrong bits for each syndrome, from the 529 patterns of at most two of them.
static WRONG_BITS: [u32; 2048] = {
    let mut table = [NOT_CORRECTABLE; 2048];
    table[0] = 0;
    let mut i = 0;
    while i < 32 {
        let one = 1 << i;
        table[slow_syndrome(one) as usize] = one;
        let mut j = 0;
        while j < i {
            let two = one | 1 << j;
            table[slow_syndrome(two) as usize] = two;
            j += 1;
        }
        i += 1;
    }
    table
};

/// The codeword of 21 information bits.
pub fn encode(information: u32) -> u32 {
    let bits = information << 11;
    let remainder = syndrome(bits) & !1;
    let word = bits | remainder;
    word | word.count_ones() & 1
}

/// The address codeword of an identity; its frame isn't in it.
pub fn address(identity: u32, function: u32) -> u32 {
    encode(identity >> 3 << 2 | function)
}

/// The message codeword of 20 message bits.
pub fn message(bits: u32) -> u32 {
    encode(1 << 20 | bits)
}

/// Undoes up to two wrong bits; none if no codeword is so near.
pub fn correct(word: u32) -> Option<u32> {
    match WRONG_BITS[syndrome(word) as usize] {
        NOT_CORRECTABLE => None,
        wrong => Some(word ^ wrong),
    }
}

/// How many bits are changed from one word to the other, all 32 counted.
pub fn changed(received: u32, corrected: u32) -> u32 {
    (received ^ corrected).count_ones()
}

/// The slow word reader: the first codeword among the word itself, those one bit away and those two away, and how many bits
/// away it is.
pub fn correct_slowly(word: u32) -> Option<(u32, u32)> {
    let one = (0..32).map(|i| (word ^ 1 << i, 1));
    let two = (0..32).flat_map(|i| (0..i).map(move |j| (word ^ 1 << i ^ 1 << j, 2)));
    [(word, 0)].into_iter().chain(one).chain(two).find(|&(tried, _)| slow_syndrome(tried) == 0)
}

pub fn is_reserved(upper: u32) -> bool {
    RESERVED.contains(&upper)
}

/// What a codeword is.
#[derive(Clone, Copy, Debug, PartialEq, Eq)]
pub enum Meaning {
    Idle,
    /// Looks like an address, but its value is kept free for idle or sync.
    Reserved,
    Address {
        upper: u32,
        function: u32,
    },
    Message(u32),
}

pub fn meaning(codeword: u32) -> Meaning {
    if codeword >> 31 == 1 {
        return Meaning::Message(codeword >> 11 & 0xF_FFFF);
    }
    if codeword == IDLE {
        return Meaning::Idle;
    }
    let upper = codeword >> 13;
    if is_reserved(upper) {
        Meaning::Reserved
    } else {
        Meaning::Address { upper, function: codeword >> 11 & 3 }
    }
}

#[cfg(test)]
mod tests {
    use super::*;

    #[test]
    fn examples() {
        assert_eq!([0, 1, 2, 3].map(|function| address(0, function)), [0x0000_0000, 0x0000_0ED3, 0x0000_1376, 0x0000_1DA5]);
        assert_eq!(message(0), 0x8000_0769);
        assert_eq!(message(0x84333), 0xC219_9DEA);
        assert_eq!(address(9, 0), 0x0000_26EC);
        assert_eq!(correct(0x0000_0003), Some(0));
        assert_eq!(correct(0x8000_0000), Some(0));
        assert_eq!(correct(0x0000_0007), None);
    }

    #[test]
    fn sync_and_idle_obey_the_code() {
        for word in [SYNC, IDLE] {
            assert_eq!(slow_syndrome(word), 0);
            assert_eq!(encode(word >> 11), word);
            assert_eq!(correct(word), Some(word));
        }
        assert_eq!(IDLE >> 13, RESERVED[0]);
        assert_eq!(SYNC >> 13, RESERVED[1]);
        assert_eq!(meaning(IDLE), Meaning::Idle);
        assert_eq!(meaning(SYNC), Meaning::Reserved);
    }

    #[test]
    fn the_patterns_have_their_own_syndromes() {
        assert_eq!(WRONG_BITS.iter().filter(|&&wrong| wrong != NOT_CORRECTABLE).count(), 1 + 32 + 32 * 31 / 2);
    }

    /// Words of every sort, the same each time.
    fn any_words(count: usize) -> impl Iterator<Item = u32> {
        let next = |word: &u32| Some(word.wrapping_mul(0x9E37_79B1).rotate_left(7).wrapping_add(0x7F4A_7C15));
        std::iter::successors(Some(1), next).take(count)
    }

    #[test]
    fn the_quick_syndrome_is_the_slow_one() {
        for word in any_words(10_000) {
            assert_eq!(syndrome(word), slow_syndrome(word));
        }
    }

    #[test]
    fn every_codeword_obeys_the_code() {
        for information in 0..1 << 21 {
            let word = encode(information);
            assert_eq!(word >> 11, information);
            assert_eq!(slow_syndrome(word), 0);
        }
    }

    /// The codeword and the number of bits changed, by the tables.
    fn read(word: u32) -> Option<(u32, u32)> {
        correct(word).map(|near| (near, changed(word, near)))
    }

    #[test]
    fn up_to_two_wrong_bits_are_mended_and_three_are_not() {
        for read in [read, correct_slowly] {
            for codeword in [0, SYNC, IDLE, message(0x84333), address(0x1F_FFFF, 3)] {
                assert_eq!(read(codeword), Some((codeword, 0)));
                for i in 0..32 {
                    assert_eq!(read(codeword ^ 1 << i), Some((codeword, 1)));
                    for j in 0..i {
                        assert_eq!(read(codeword ^ 1 << i ^ 1 << j), Some((codeword, 2)));
                        for k in 0..j {
                            assert_eq!(read(codeword ^ 1 << i ^ 1 << j ^ 1 << k), None);
                        }
                    }
                }
            }
        }
    }

    #[test]
    fn both_word_readers_answer_alike() {
        let mut refused = 0;
        for word in any_words(100_000) {
            assert_eq!(correct_slowly(word), read(word), "{word:08X}");
            refused += u32::from(read(word).is_none());
        }
        // 529 of 2,048 words are at most two bits from a codeword
        assert!((73_000..76_000).contains(&refused), "{refused}");
    }

    #[test]
    fn changed_bits() {
        assert_eq!(changed(IDLE, IDLE), 0);
        assert_eq!(changed(0x8000_0000, 0), 1);
        assert_eq!(changed(0x0000_0001, 0), 1);
        assert_eq!(changed(0x0000_0003, 0), 2);
        assert_eq!(changed(SYNC ^ 0x8000_0001, SYNC), 2);
    }
}
