//! Phrase books: good ones of every size, and books that are declined, or nearly so.

use crate::jobs::{alphanumeric_text, length, pairs, MOST_ALPHANUMERIC};
use crate::{bytes, Random};

pub const MOST_PHRASES: usize = 100;

/// A book of eleven phrases, so that there are numbers of one digit and one of two.
pub const SHORT: &[u8] = b"4142\n20\n0102\n7F7E7D\n414243444546474849\n35\n36\n37\n38\n39\n5A5A\n";

/// A phrase's line with the given text, without further ado.
fn line(text: &[u8]) -> Vec<u8> {
    [pairs(text).as_bytes(), b"\n"].concat()
}

/// A good line.
fn phrase(random: &mut Random) -> Vec<u8> {
    let most = random.pick(&[20, 40, MOST_ALPHANUMERIC]);
    let length = length(random, most);
    line(&alphanumeric_text(random, length))
}

/// How many phrases a book has: none, where there is no book, up to 100.
pub fn count(random: &mut Random) -> usize {
    let any = random.between(1, MOST_PHRASES);
    random.pick(&[0, 0, 0, 1, 2, 10, 11, 99, MOST_PHRASES, any, any])
}

/// A good book of so many phrases.
pub fn good(random: &mut Random, phrases: usize) -> Vec<u8> {
    (0..phrases).flat_map(|_| phrase(random)).collect()
}

/// A good book of so many phrases, each of so many characters.
pub fn of_length(random: &mut Random, phrases: usize, length: usize) -> Vec<u8> {
    (0..phrases).flat_map(|_| line(&alphanumeric_text(random, length))).collect()
}

/// The longest book: 100 phrases of 240 characters.
pub fn longest(random: &mut Random) -> Vec<u8> {
    of_length(random, MOST_PHRASES, MOST_ALPHANUMERIC)
}

/// A line that is no phrase.
fn faulty_line(random: &mut Random) -> Vec<u8> {
    let mut text = phrase(random);
    let end = text.len() - 1;
    let at = random.below(end / 2);
    match random.below(8) {
        0 => text = b"\n".to_vec(),
        1 => {
            let more = random.pick(&[1, 1, 1, 2, 60, 240]);
            text = line(&alphanumeric_text(random, MOST_ALPHANUMERIC + more));
        }
        2 => _ = text.remove(random.below(end)),
        3 => text[random.below(end)] = random.pick(b"abcdefg/:@G-\0\xFF"),
        4 => text.insert(random.below(end + 1), random.pick(b" \r-0")),
        5 => text = [&b"000009 5 "[..], &text].concat(),
        _ => {
            let over = 0x80 | random.byte();
            let bad = random.pick(&[0, 3, 4, 0x80, 0xFF, over]);
            text[2 * at..2 * at + 2].copy_from_slice(format!("{bad:02X}").as_bytes());
        }
    }
    text
}

/// A book that is declined, or nearly so.
pub fn bad(random: &mut Random) -> Vec<u8> {
    let about_the_most = random.between(MOST_PHRASES - 2, MOST_PHRASES + 3);
    let count = random.pick(&[1, 2, 10, about_the_most, about_the_most]);
    let mut book = good(random, count);
    match random.below(6) {
        // one faulty line among good ones, perhaps another behind it
        0 | 1 => {
            let lines: Vec<&[u8]> = book.split_inclusive(|&byte| byte == b'\n').collect();
            let any = random.below(count);
            let (before, behind) = lines.split_at(random.pick(&[0, count - 1, count, any]));
            let mut parts = vec![before.concat(), faulty_line(random), behind.concat()];
            if random.once_in(3) {
                parts.push(faulty_line(random));
            }
            book = parts.concat();
        }
        2 => _ = book.pop(),
        3 => bytes::mutate(random, &mut book),
        4 => bytes::mutate_lines(random, &mut book),
        _ => {
            let byte = random.byte();
            book.extend(random.pick(&[&b"\n"[..], b"4", b"41", b"x\n", &[byte]]));
        }
    }
    book
}

/// Books on both sides of every limit, the same in every run.
pub fn limits() -> Vec<Vec<u8>> {
    let mut books = vec![];
    // line counts, and what may stand behind the last line
    for count in [0, 1, 2, 9, 10, 11, 98, 99, 100, 101, 102, 150, 300] {
        let book: Vec<u8> = (0..count).flat_map(|number| line(format!("{number:02}").as_bytes())).collect();
        for end in [&b""[..], b"\n", b"4", b"41", b"x\n", b"00\n", b"41\n\n", b"\n41\n"] {
            books.push([&book[..], end].concat());
            books.push([end, &book].concat());
        }
        books.push(book[..book.len().saturating_sub(1)].to_vec());
    }
    // lengths, of the only line, of the first, and of the hundredth
    for length in [1, 2, 3, 119, 120, 239, 240, 241, 242, 480, 20_000] {
        let one = line(&vec![b'A'; length]);
        books.push([&one[..], b"42\n"].concat());
        books.push([&b"42\n".repeat(MOST_PHRASES - 1)[..], &one].concat());
        books.push([&one[..one.len() - 2], b"\n"].concat());
        books.push(one);
    }
    // every byte as a phrase, and as its first, inner and last character
    for byte in 0..=255 {
        for text in [&[byte][..], &[byte, b'1', b'1'], &[b'1', byte, b'1'], &[b'1', b'1', byte]] {
            books.push(line(text));
        }
    }
    books.extend(bytes::all_edits(b"4142\n43\n"));
    // the longest book, and what may stand behind it; books that are far too long
    let longest = line(&[b'z'; MOST_ALPHANUMERIC]).repeat(MOST_PHRASES);
    for end in [&b""[..], b"\n", b"7", b"7A\n", b"x", &[b'7'; 20_000]] {
        books.push([&longest[..], end].concat());
    }
    books.extend([b"7A\n".repeat(30_000), vec![b'7'; 70_000], vec![b'\n'; 70_000]]);
    books
}

#[cfg(test)]
mod tests {
    use super::*;
    use independent::book::phrases;
    use std::collections::BTreeSet;

    #[test]
    fn good_books_are_taken() {
        let mut random = Random::new(1);
        let (mut counts, mut lengths) = (BTreeSet::new(), BTreeSet::new());
        for _ in 0..1000 {
            let count = count(&mut random);
            let book = good(&mut random, count);
            let phrases = phrases(&book).unwrap();
            assert_eq!(phrases.len(), count);
            counts.insert(count);
            lengths.extend(phrases.iter().map(|phrase| phrase.len() / 2));
        }
        assert!([0, 1, 99, 100].iter().all(|count| counts.contains(count)) && counts.len() > 30, "{counts:?}");
        assert_eq!(lengths, (1..=240).collect());
        assert_eq!(phrases(SHORT).map(|phrases| phrases.len()), Ok(11));
        let longest = longest(&mut random);
        assert_eq!((phrases(&longest).map(|phrases| phrases.len()), longest.len()), (Ok(100), 48_100));
    }

    #[test]
    fn faulty_lines_are_no_phrases() {
        let mut random = Random::new(2);
        for _ in 0..2000 {
            let line = faulty_line(&mut random);
            assert!(phrases(&line).is_err(), "{:?}", String::from_utf8_lossy(&line));
        }
    }

    /// The places of books that are declined, and how many books aren't. A fault is settled by the first 48,101 bytes.
    fn places(books: impl IntoIterator<Item = Vec<u8>>) -> (BTreeSet<usize>, usize) {
        let (mut places, mut taken) = (BTreeSet::new(), 0);
        for book in books {
            let answer = phrases(&book);
            assert_eq!(answer, phrases(&book[..book.len().min(48_101)]));
            match answer {
                Ok(_) => taken += 1,
                Err(refusal) => _ = places.insert(refusal.place),
            }
        }
        (places, taken)
    }

    #[test]
    fn every_place_is_met() {
        let mut random = Random::new(3);
        let (met, taken) = places((0..1000).map(|_| bad(&mut random)));
        assert!([1, 2, 99, 100, 101].iter().all(|place| met.contains(place)) && met.len() > 50, "{met:?}");
        assert!(taken > 50, "{taken} taken");
        let (met, taken) = places(limits());
        assert!(met == [1, 2, 3, 4, 9, 10, 11, 12, 13, 98, 99, 100, 101].into() && taken > 500, "{met:?}, {taken} taken");
    }
}
