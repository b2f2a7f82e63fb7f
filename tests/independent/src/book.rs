//! Phrase books (R-6): a phrase a line, of which a page sends one as its text.

use crate::job::MOST_ALPHANUMERIC;
use crate::{number, text, Refusal};

pub const MOST_PHRASES: usize = 100;

/// An empty book is none.
pub const NO_BOOK: &[u8] = &[];

/// A book's phrases, each as the pairs of digits that it is written in; none where there is no book. What is wrong is said of the first
/// line that is no phrase, or of the 101st.
pub fn phrases(book: &[u8]) -> Result<Vec<&[u8]>, Refusal> {
    let mut phrases = Vec::new();
    let mut rest = book;
    while !rest.is_empty() {
        let fault = Refusal::new(19, phrases.len() + 1);
        let length = rest.iter().position(|&byte| byte == b'\n').ok_or(fault)?;
        if phrases.len() == MOST_PHRASES || !is_phrase(&rest[..length]) {
            return Err(fault);
        }
        phrases.push(&rest[..length]);
        rest = &rest[length + 1..];
    }
    Ok(phrases)
}

/// Whether digits are the pairs of a text that an alphanumeric page may have.
fn is_phrase(digits: &[u8]) -> bool {
    let may_be_sent = |pair| number(pair).is_some_and(|byte| text::is_alphanumeric(byte as u8));
    let in_pairs = digits.len() % 2 == 0;
    in_pairs && (1..=MOST_ALPHANUMERIC).contains(&(digits.len() / 2)) && digits.chunks_exact(2).all(may_be_sent)
}

#[cfg(test)]
mod tests {
    use super::*;

    /// How many phrases there are, or the place of number 19, which has no position.
    fn answer(book: impl AsRef<[u8]>) -> Result<usize, usize> {
        phrases(book.as_ref()).map(|phrases| phrases.len()).map_err(|refusal| {
            assert_eq!((refusal.number, refusal.position), (19, 0));
            refusal.place
        })
    }

    #[test]
    fn phrases_in_order() {
        assert_eq!(phrases(b"4142\n20\n7F01\n"), Ok(vec![&b"4142"[..], b"20", b"7F01"]));
        assert_eq!(phrases(NO_BOOK), Ok(vec![]));
    }

    #[test]
    fn form() {
        for line in ["", "4", "414", "41-", "4a", "4G", "41 ", " 41", "41 42", "41\r", "41\0", "00 41", "000009 5 41"] {
            for (book, place) in [
                (format!("{line}\n"), 1),
                (format!("{line}\n41\n"), 1),
                (format!("41\n{line}\n"), 2),
                (format!("41\n{line}\n{line}\n"), 2),
            ] {
                assert_eq!(answer(&book), Err(place), "{book:?}");
            }
        }
        // the last line must have its newline too
        for (book, place) in [("41", 1), ("4", 1), ("41\n42", 2), ("41\n42\n4", 3), ("41\nx", 2)] {
            assert_eq!(answer(book), Err(place), "{book:?}");
        }
    }

    #[test]
    fn lengths() {
        for (characters, good) in [(0, false), (1, true), (2, true), (239, true), (240, true), (241, false), (480, false)] {
            let line = "41".repeat(characters) + "\n";
            assert_eq!(answer(&line), if good { Ok(1) } else { Err(1) }, "{characters}");
            assert_eq!(answer("41\n".to_owned() + &line), if good { Ok(2) } else { Err(2) }, "{characters}");
        }
        assert_eq!(answer("41".repeat(240) + "4\n"), Err(1));
    }

    #[test]
    fn characters() {
        for byte in 0..=255u8 {
            let good = !matches!(byte, 0 | 3 | 4) && byte < 128;
            for line in [format!("{byte:02X}\n"), format!("{byte:02X}41\n"), format!("41{byte:02X}\n")] {
                assert_eq!(answer(&line), if good { Ok(1) } else { Err(1) }, "{line}");
            }
        }
    }

    #[test]
    fn line_counts() {
        for count in [1, 2, 99, 100] {
            assert_eq!(answer("41\n".repeat(count)), Ok(count));
            assert_eq!(answer("41\n".repeat(count) + "\n"), Err(count + 1));
        }
        // the 101st line, whatever it holds, and whatever is behind it
        for behind in ["41\n", "\n", "4", "x", "41\n41\n", "41\nx\n", "x\nx"] {
            assert_eq!(answer("41\n".repeat(100) + behind), Err(101), "{behind:?}");
        }
        // a fault before it comes first
        assert_eq!(answer("41\n".repeat(99) + "x\n41\n"), Err(100));
        assert_eq!(answer("\n".to_owned() + &"41\n".repeat(200)), Err(1));
    }

    /// No book is longer than 100 lines of 240 characters, 48,100 bytes, and a byte more settles what is wrong with it.
    #[test]
    fn the_first_bytes_settle_it() {
        let longest = "41".repeat(240) + "\n";
        assert_eq!(longest.repeat(100).len(), 48_100);
        assert_eq!(answer(longest.repeat(100)), Ok(100));
        for (book, place) in [
            (longest.repeat(100) + "4", 101),
            (longest.repeat(101), 101),
            (longest.repeat(100) + &"\n".repeat(20_000), 101),
            (longest.repeat(99) + &"41".repeat(241) + "\n", 100),
            (longest.repeat(99) + &"41".repeat(20_000), 100),
            ("41\n".repeat(30_000), 101),
            ("41".repeat(30_000) + "\n", 1),
            ("41".repeat(30_000), 1),
            ("\n".repeat(60_000), 1),
        ] {
            assert_eq!(answer(&book), Err(place));
            assert_eq!(answer(&book[..book.len().min(48_101)]), Err(place));
        }
    }
}
