//! Page lines: a job's lines parsed, and page lines printed.

use crate::text::{self, GROUP_DIGITS};
use crate::{book, codeword, digit_value, number, Refusal, DIGITS};

pub const MOST_PAGES: usize = 48;

pub const NUMERIC: u32 = 4;
pub const ALPHANUMERIC: u32 = 5;
/// Data pages, with function 1 and with function 2.
pub const DATA_1: u32 = 6;
pub const DATA_2: u32 = 7;
/// A line's kind where the page is alphanumeric and its text a phrase of the book.
pub const PHRASE: u32 = 9;
pub const MOST_NUMERIC: usize = 60;
pub const MOST_ALPHANUMERIC: usize = 240;
pub const MOST_GROUPS: usize = 84;

/// A page of an accepted job.
#[derive(Clone, Debug, PartialEq, Eq)]
pub struct Page {
    pub identity: u32,
    /// The function of a tone, `NUMERIC`, `ALPHANUMERIC`, `DATA_1` or `DATA_2`.
    pub kind: u32,
    /// A data page's text is its digits.
    pub text: Vec<u8>,
}

impl Page {
    pub fn frame(&self) -> u32 {
        self.identity & 7
    }

    pub fn function(&self) -> u32 {
        match self.kind {
            NUMERIC => 0,
            ALPHANUMERIC => 3,
            DATA_1 => 1,
            DATA_2 => 2,
            tone => tone,
        }
    }

    pub fn address(&self) -> u32 {
        codeword::address(self.identity, self.function())
    }

    /// How many message codewords the page has.
    pub fn message_words(&self) -> usize {
        match self.kind {
            NUMERIC => self.text.len().div_ceil(5),
            ALPHANUMERIC => (7 * self.text.len()).div_ceil(20),
            DATA_1 | DATA_2 => self.text.len() / GROUP_DIGITS,
            _ => 0,
        }
    }

    /// The page's message codewords, put behind those that are there.
    pub fn push_message(&self, words: &mut Vec<u32>) {
        let start = words.len();
        match self.kind {
            NUMERIC => text::pack_numeric(&self.text, words),
            ALPHANUMERIC => text::pack_alphanumeric(&self.text, words),
            DATA_1 | DATA_2 => text::pack_digits(&self.text, words),
            _ => {}
        }
        for word in &mut words[start..] {
            *word = codeword::message(*word);
        }
    }

    /// The page of the line at a place, which comes without its newline, or what is wrong with it. Without phrases there is no book.
    fn parse(line: &[u8], place: usize, phrases: &[&[u8]]) -> Result<Page, Refusal> {
        let fault = |number| Refusal::new(number, place);
        let Some((identity, kind, text)) = split(line) else {
            return Err(fault(1));
        };
        if let Some(number) = identity_fault(identity) {
            return Err(fault(number));
        }
        if kind == PHRASE && !phrases.is_empty() {
            let phrase = phrase_number(&text).and_then(|number| phrases.get(number)).ok_or(fault(18))?;
            return Ok(Page { identity, kind: ALPHANUMERIC, text: characters(phrase).expect("pairs") });
        }
        if kind > DATA_2 {
            return Err(fault(4));
        }
        if let Some(number) = length_fault(kind, text.len()) {
            return Err(fault(number));
        }
        let before_bad = match kind {
            NUMERIC => text.iter().position(|&byte| text::numeric_value(byte).is_none()),
            ALPHANUMERIC => text.iter().position(|&byte| !text::is_alphanumeric(byte)),
            _ => None,
        };
        if let Some(before) = before_bad {
            return Err(Refusal { position: before + 1, ..fault(6) });
        }
        if kind == NUMERIC && text.last() == Some(&b' ') {
            return Err(fault(7));
        }
        Ok(Page { identity, kind, text })
    }

    /// The page's line, put behind what is there.
    pub fn print(&self, out: &mut Vec<u8>) {
        print_head(self.identity, self.kind, out);
        match self.kind {
            DATA_1 | DATA_2 => {
                out.push(b' ');
                out.extend_from_slice(&self.text);
            }
            _ => print_pairs(&self.text, out),
        }
        out.push(b'\n');
    }
}

/// What is wrong with an identity, as a number.
pub(crate) fn identity_fault(identity: u32) -> Option<u32> {
    if identity > 0x1F_FFFF {
        return Some(2);
    }
    codeword::is_reserved(identity >> 3).then_some(3)
}

/// What is wrong with the length of a kind's text, as a number.
fn length_fault(kind: u32, length: usize) -> Option<u32> {
    let most = match kind {
        NUMERIC => MOST_NUMERIC,
        ALPHANUMERIC => MOST_ALPHANUMERIC,
        DATA_1 | DATA_2 if length % GROUP_DIGITS != 0 => return Some(25),
        DATA_1 | DATA_2 => GROUP_DIGITS * MOST_GROUPS,
        _ => return (length > 0).then_some(12),
    };
    match length {
        0 => Some(13),
        _ => (length > most).then_some(14),
    }
}

/// The number that a text of two decimal digits is.
fn phrase_number(text: &[u8]) -> Option<usize> {
    match text {
        [tens @ b'0'..=b'9', ones @ b'0'..=b'9'] => Some(usize::from(10 * (tens - b'0') + (ones - b'0'))),
        _ => None,
    }
}

/// Identity, kind and text; no text is there if the line has no second space.
fn split(line: &[u8]) -> Option<(u32, u32, Vec<u8>)> {
    if line.len() < 8 || line[6] != b' ' {
        return None;
    }
    let identity = number(&line[..6])?;
    let kind = digit_value(line[7])?;
    let text = match &line[8..] {
        [] => Vec::new(),
        [b' ', digits @ ..] if !digits.is_empty() => match kind {
            DATA_1 | DATA_2 => all_digits(digits)?,
            // these digits stand for no characters, but pairs are asked for
            PHRASE => characters(digits).map(|_| digits.to_vec())?,
            _ => characters(digits)?,
        },
        _ => return None,
    };
    Some((identity, kind, text))
}

/// A data page's digits, however many.
fn all_digits(digits: &[u8]) -> Option<Vec<u8>> {
    digits.iter().all(|&byte| digit_value(byte).is_some()).then(|| digits.to_vec())
}

/// The characters that pairs of digits spell.
fn characters(digits: &[u8]) -> Option<Vec<u8>> {
    if digits.len() % 2 != 0 {
        return None;
    }
    let mut text = Vec::with_capacity(digits.len() / 2);
    for pair in digits.chunks_exact(2) {
        text.push(number(pair)? as u8);
    }
    Some(text)
}

/// The pages of a job with its book, or the first fault. The book's comes before all of the job.
pub fn parse(job: &[u8], book: &[u8]) -> Result<Vec<Page>, Refusal> {
    let phrases = book::phrases(book)?;
    let mut pages = Vec::new();
    let mut rest = job;
    while !rest.is_empty() {
        let place = pages.len() + 1;
        if place > MOST_PAGES {
            return Err(Refusal::new(8, place));
        }
        let Some(length) = rest.iter().position(|&byte| byte == b'\n') else {
            return Err(Refusal::new(1, place));
        };
        pages.push(Page::parse(&rest[..length], place, &phrases)?);
        rest = &rest[length + 1..];
    }
    if pages.is_empty() {
        return Err(Refusal::new(9, 0));
    }
    Ok(pages)
}

/// Identity and kind, as they begin a page line.
pub(crate) fn print_head(identity: u32, kind: u32, out: &mut Vec<u8>) {
    for shift in [20, 16, 12, 8, 4, 0] {
        out.push(DIGITS[(identity >> shift & 15) as usize]);
    }
    out.push(b' ');
    out.push(DIGITS[kind as usize]);
}

/// A space and the text as pairs of digits; nothing for an empty text.
pub(crate) fn print_pairs(text: &[u8], out: &mut Vec<u8>) {
    if text.is_empty() {
        return;
    }
    out.push(b' ');
    for &byte in text {
        out.push(DIGITS[(byte >> 4) as usize]);
        out.push(DIGITS[(byte & 15) as usize]);
    }
}

#[cfg(test)]
mod tests {
    use super::*;
    use crate::book::NO_BOOK;

    /// The number and the place; a position comes with number 6 alone.
    fn fault(job: impl AsRef<[u8]>) -> Option<(u32, usize)> {
        fault_with(job, NO_BOOK)
    }

    fn fault_with(job: impl AsRef<[u8]>, book: impl AsRef<[u8]>) -> Option<(u32, usize)> {
        let Refusal { number, place, position } = parse(job.as_ref(), book.as_ref()).err()?;
        assert_eq!(position > 0, number == 6);
        Some((number, place))
    }

    #[test]
    fn a_line_there_and_back() {
        let job = b"000009 4 3132\n1FFFFF 3\n000009 5 417F20\n000009 6 12345\n000009 7 00000FEDCB\n";
        let pages = parse(job, NO_BOOK).unwrap();
        assert_eq!(pages[0], Page { identity: 9, kind: 4, text: b"12".to_vec() });
        assert_eq!(pages[1], Page { identity: 0x1F_FFFF, kind: 3, text: vec![] });
        assert_eq!(pages[3], Page { identity: 9, kind: 6, text: b"12345".to_vec() });
        let mut printed = Vec::new();
        pages.iter().for_each(|page| page.print(&mut printed));
        assert_eq!(printed, job);
    }

    /// Document 01's codewords, as those of data pages.
    #[test]
    fn codewords() {
        let pages = parse(b"000000 6 84333\n000000 7 8433300000\n", NO_BOOK).unwrap();
        assert_eq!([pages[0].address(), pages[1].address()], [0x0000_0ED3, 0x0000_1376]);
        let mut words = vec![];
        pages.iter().for_each(|page| page.push_message(&mut words));
        assert_eq!(words, [0xC219_9DEA, 0xC219_9DEA, 0x8000_0769]);
    }

    #[test]
    fn form() {
        for line in [
            "",
            "\n",
            "000009\n",
            "000009 \n",
            "000009  \n",
            "000009 4\r\n",
            "00009 4 3132\n",
            "0000009 4 3132\n",
            "00000a 4 3132\n",
            "000009 4 \n",
            "000009 0 \n",
            "000009 4 3\n",
            "000009 4 313\n",
            "000009 4 313G\n",
            "000009 4 31 32\n",
            "000009 4 3132 \n",
            "000009 4 3132-\n",
            "000009 0-\n",
            "000009 g\n",
            "000009 a\n",
            "000009\t4 3132\n",
            "000009 4  3132\n",
            " 000009 4 3132\n",
            "000009 6 \n",
            "000009 6 12345-\n",
            "000009 6 12345 \n",
            "000009 6 1234G\n",
            "000009 6  12345\n",
            "000009 7 abcde\n",
            "000009 7 ABCDe\n",
            "000009 612345\n",
            "20000a 4 3132\n",
            "200000 4 \n",
            "200000 6 \n",
            "200000 6 1234f\n",
            "000009 4 3132",
            "200000 9 3132",
            "0",
        ] {
            let expected = if line.is_empty() { Some((9, 0)) } else { Some((1, 1)) };
            assert_eq!(fault(line), expected, "{line:?}");
        }
        assert_eq!(fault("000009 4 31\0\x32\n"), Some((1, 1)));
    }

    #[test]
    fn identities() {
        for (identity, expected) in [
            ("000000", None),
            ("1EA26F", None),
            ("1EA270", Some((3, 1))),
            ("1EA277", Some((3, 1))),
            ("1EA278", None),
            ("1F347F", None),
            ("1F3480", Some((3, 1))),
            ("1F3487", Some((3, 1))),
            ("1F3488", None),
            ("1FFFFF", None),
            ("200000", Some((2, 1))),
            ("3EA270", Some((2, 1))),
            ("FFFFFF", Some((2, 1))),
        ] {
            assert_eq!(fault(format!("{identity} 0\n")), expected, "{identity}");
        }
    }

    #[test]
    fn kinds() {
        let text = "31".repeat(500);
        for kind in ["8", "9", "A", "F"] {
            assert_eq!(fault(format!("000000 {kind}\n")), Some((4, 1)));
            assert_eq!(fault(format!("000000 {kind} {text}\n")), Some((4, 1)));
            assert_eq!(fault(format!("000000 {kind} 1234512345\n")), Some((4, 1)));
        }
        assert_eq!(fault("1EA270 9\n"), Some((3, 1)));
    }

    /// An odd number of digits is number 1 for every kind but a data page's.
    #[test]
    fn odd_digits() {
        for (identity, digits, of_a_data_page) in [
            ("000009", "12345", None),
            ("000009", "123", Some((25, 1))),
            ("200000", "12345", Some((2, 1))),
            ("200000", "123", Some((2, 1))),
            ("1EA270", "123", Some((3, 1))),
        ] {
            for kind in 0..16 {
                let expected = if matches!(kind, DATA_1 | DATA_2) { of_a_data_page } else { Some((1, 1)) };
                assert_eq!(fault(format!("{identity} {kind:X} {digits}\n")), expected, "{identity} {kind:X} {digits}");
            }
        }
    }

    /// A line without its newline.
    fn line(kind: u32, text: &[u8]) -> Vec<u8> {
        let mut line = Vec::new();
        print_head(0, kind, &mut line);
        print_pairs(text, &mut line);
        line
    }

    #[test]
    fn lengths() {
        for length in [0, 1, 2, 59, 60, 61, 239, 240, 241, 500] {
            for kind in 0..6 {
                let expected = match (kind, length) {
                    (0..=3, 0) | (4, 1..=60) | (5, 1..=240) => None,
                    (0..=3, _) => Some(12),
                    (_, 0) => Some(13),
                    _ => Some(14),
                };
                let number =
                    |character| Page::parse(&line(kind, &vec![character; length]), 1, &[]).err().map(|refusal| refusal.number);
                assert_eq!(number(b'1'), expected, "kind {kind}, {length} characters");
                // a wrong length comes before a bad character
                let with_bad = if length > 0 { expected.or(Some(6)) } else { expected };
                assert_eq!(number(0xFF), with_bad, "kind {kind}, {length} bad characters");
            }
        }
    }

    /// Whole groups of five digits, 1 to 84 of them: what is declined with which number, or how many message words there are.
    #[test]
    fn groups() {
        for (digits, expected) in [
            (0, Err(13)),
            (1, Err(25)),
            (4, Err(25)),
            (5, Ok(1)),
            (6, Err(25)),
            (10, Ok(2)),
            (415, Ok(83)),
            (419, Err(25)),
            (420, Ok(84)),
            (421, Err(25)),
            (424, Err(25)),
            (425, Err(14)),
            (426, Err(25)),
            (850, Err(14)),
        ] {
            for kind in [DATA_1, DATA_2] {
                let answer = |digit: &str| {
                    let space = if digits > 0 { " " } else { "" };
                    let job = format!("000000 {kind}{space}{}\n", digit.repeat(digits));
                    parse(job.as_bytes(), NO_BOOK).map(|pages| pages[0].message_words()).map_err(|refusal| refusal.number)
                };
                assert_eq!(answer("A"), expected, "{digits} digits");
                assert_eq!(answer("a"), if digits > 0 { Err(1) } else { expected }, "{digits} digits");
            }
        }
    }

    #[test]
    fn characters() {
        for byte in 0..=255u8 {
            let numeric = fault(format!("000000 4 {byte:02X}31\n"));
            assert_eq!(numeric, (!b"0123456789U -][".contains(&byte)).then_some((6, 1)), "{byte:02X}");
            let alphanumeric = fault(format!("000000 5 {byte:02X}\n"));
            assert_eq!(alphanumeric, (matches!(byte, 0 | 3 | 4) || byte > 127).then_some((6, 1)), "{byte:02X}");
        }
        assert_eq!(fault("000000 4 3120\n"), Some((7, 1)));
        assert_eq!(fault("000000 4 20\n"), Some((7, 1)));
        assert_eq!(fault("000000 4 2031\n"), None);
        assert_eq!(fault("000000 5 20\n"), None);
    }

    #[test]
    fn positions() {
        for (kind, length) in [(4, 1), (4, 2), (4, 59), (4, 60), (5, 1), (5, 239), (5, 240)] {
            for first in 0..length {
                // alone, with another bad character as the last one, with a space as the last one
                for last in [b'1', 0xFF, b' '] {
                    let mut text = vec![b'1'; length];
                    text[length - 1] = last;
                    text[first] = 0;
                    let expected = Refusal { number: 6, place: 7, position: first + 1 };
                    assert_eq!(Page::parse(&line(kind, &text), 7, &[]), Err(expected), "kind {kind}, {length} characters, {last}");
                }
            }
        }
        // characters are counted, neither digits nor columns; the line is the job's
        let refusal = parse(b"000000 0\n000000 4 31322A332A20\n000000 4 2A\n", NO_BOOK).unwrap_err();
        assert_eq!(refusal, Refusal { number: 6, place: 2, position: 3 });
    }

    #[test]
    fn line_counts() {
        let good = "000000 0\n";
        assert_eq!(fault(good.repeat(48)), None);
        assert_eq!(fault(good.repeat(49)), Some((8, 49)));
        assert_eq!(fault(good.repeat(60)), Some((8, 49)));
        for behind in ["\n", "x", "200000 0\n"] {
            assert_eq!(fault(good.repeat(48) + behind), Some((8, 49)));
            assert_eq!(fault(good.repeat(47) + behind).map(|fault| fault.1), Some(48));
        }
        assert_eq!(fault(good.repeat(47) + "200000 0\n" + &good.repeat(5)), Some((2, 48)));
        assert_eq!(fault("000000 0\n000000 8\n000000 x\n"), Some((4, 2)));
        assert_eq!(fault(""), Some((9, 0)));
        assert_eq!(fault("\n"), Some((1, 1)));
    }

    /// "AB", "C" and "D".
    const THREE: &str = "4142\n43\n44\n";

    /// A book of so many phrases, in which no two are alike.
    fn book_of(phrases: usize) -> String {
        (0..phrases).map(|number| format!("{:02X}{:02X}\n", b'0' + number as u8 / 10, b'0' + number as u8 % 10)).collect()
    }

    #[test]
    fn phrases() {
        let pages = parse(b"000009 9 01\n1FFFFF 9 00\n000009 5 43\n000000 2\n", THREE.as_bytes()).unwrap();
        assert_eq!(pages[0], Page { identity: 9, kind: ALPHANUMERIC, text: b"C".to_vec() });
        assert_eq!(pages[1], Page { identity: 0x1F_FFFF, kind: ALPHANUMERIC, text: b"AB".to_vec() });
        assert_eq!(pages[0], pages[2]);
        assert_eq!(pages[0].function(), 3);
        // every number of every size of book
        for count in [1, 2, 9, 10, 11, 99, 100] {
            let book = book_of(count);
            for number in 0..100 {
                let page = parse(format!("000009 9 {number:02}\n").as_bytes(), book.as_bytes());
                let expected = Page { identity: 9, kind: ALPHANUMERIC, text: format!("{number:02}").into_bytes() };
                assert_eq!(page, if number < count { Ok(vec![expected]) } else { Err(Refusal::new(18, 1)) });
            }
        }
    }

    #[test]
    fn no_phrase() {
        for (line, number) in [
            ("000009 9\n", 18),
            ("000009 9 03\n", 18),
            ("000009 9 99\n", 18),
            ("000009 9 0A\n", 18),
            ("000009 9 A0\n", 18),
            ("000009 9 FF\n", 18),
            ("000009 9 0000\n", 18),
            ("000009 9 0007\n", 18),
            ("000009 9 000000\n", 18),
            // number 1 still asks for pairs
            ("000009 9 \n", 1),
            ("000009 9 0\n", 1),
            ("000009 9 7\n", 1),
            ("000009 9 007\n", 1),
            ("000009 9 0a\n", 1),
            ("000009 9 0G\n", 1),
            ("000009 9 00-\n", 1),
            ("000009 9 00 \n", 1),
            ("000009 9  00\n", 1),
            ("000009 900\n", 1),
            ("000009 9 00", 1),
            ("200000 9 0\n", 1),
            // what comes before 18, and other kinds
            ("200000 9\n", 2),
            ("200000 9 0A\n", 2),
            ("1EA270 9 99\n", 3),
            ("000009 8 00\n", 4),
            ("000009 A\n", 4),
            ("000009 0 00\n", 12),
            ("000009 5\n", 13),
        ] {
            assert_eq!(fault_with(line, THREE), Some((number, 1)), "{line:?}");
            assert_eq!(fault_with("000009 9 02\n".to_owned() + line, THREE), Some((number, 2)), "{line:?}");
            // without a book, kind 9 is none of the kinds, whatever its text
            let without = if number == 18 { 4 } else { number };
            assert_eq!(fault(line), Some((without, 1)), "{line:?}");
        }
        assert_eq!(fault("000009 9 00\n"), Some((4, 1)));
        // of a book of 100 phrases no number is left over
        assert_eq!(fault_with("000009 9 99\n", book_of(100)), None);
        assert_eq!(fault_with("000009 9 99\n", book_of(99)), Some((18, 1)));
    }

    /// The first faulty line decides, with 18 as with any other number.
    #[test]
    fn no_phrase_among_other_faults() {
        assert_eq!(fault_with("000009 9 03\n000009 4 2A\n", THREE), Some((18, 1)));
        assert_eq!(fault_with("000009 4 2A\n000009 9 03\n", THREE), Some((6, 1)));
        assert_eq!(fault_with("000009 9 02\n000009 9\n000009 9 7\n", THREE), Some((18, 2)));
        let many = "000009 9 00\n".repeat(48);
        assert_eq!(fault_with(&many, THREE), None);
        assert_eq!(fault_with(many + "000009 9 03\n", THREE), Some((8, 49)));
    }

    #[test]
    fn a_bad_book_comes_first() {
        for (book, place) in [("x", 1), ("41\n42", 2), ("\n", 1), (&(book_of(100) + "41\n"), 101)] {
            for job in ["", "x", "\n", "000009 0\n", "000009 9 00\n", "000009 9\n", "200000 0\n", &"000009 0\n".repeat(49)] {
                assert_eq!(fault_with(job, book), Some((19, place)), "{job:?} {book:?}");
            }
        }
        assert_eq!(fault_with("", THREE), Some((9, 0)));
    }
}
