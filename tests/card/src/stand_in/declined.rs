//! What is said of a job that is declined, and the mistakes in the number, the place and the position.

use super::is;
use independent::book::NO_BOOK;
use independent::{job, Refusal};

/// How many bytes of a line stand before its text.
pub const HEAD: usize = 9;

/// The refusal of a job with its book, as it is rightly said or, for some mistakes, wrongly.
pub fn said(job: &[u8], book: &[u8], right: Refusal) -> Refusal {
    let Refusal { number, place, position } = right;
    let with_number = |number| Refusal { number, ..right };
    let with_place = |place| Refusal { place, ..right };
    let with_position = |position| Refusal { position, ..right };
    let line = job.split(|&byte| byte == b'\n').nth(place.saturating_sub(1)).unwrap_or_default();
    let (head, pairs) = line.split_at(line.len().min(HEAD));
    match number {
        19 if is("19-after-lines") => job::parse(job, NO_BOOK).err().filter(|own| own.number != 9).unwrap_or(right),
        19 if is("19-after-9") && job.is_empty() => Refusal::new(9, 0),
        19 if is("place-of-19-from-0") => with_place(place - 1),
        19 if is("place-of-19-is-1") => with_place(1),
        19 if is("place-of-19-at-the-end") => with_place(book.split_inclusive(|&byte| byte == b'\n').count()),
        19 if is("position-with-19") => with_position(1),
        2 | 3 if is("18-before-2") => {
            let same_text = [b"000000", &line[6..], b"\n"].concat();
            job::parse(&same_text, book).err().map(|own| own.number).filter(|&number| number == 18).map_or(right, with_number)
        }
        4 if is("18-before-4") && line[7] == b'9' && (pairs.len() != 2 || !pairs.iter().all(u8::is_ascii_digit)) => with_number(18),
        4 if is("18-without-a-book") && line[7] == b'9' => with_number(18),
        18 if is("13-for-18") && pairs.is_empty() => with_number(13),
        18 if is("position-with-18") => with_position(1),
        1 if is("odd-digits-after-4") && pairs.len() % 2 == 1 => {
            refusal(head, &pairs[1..]).map(|even| even.number).filter(|number| (2..=4).contains(number)).map_or(right, with_number)
        }
        25 if is("25-after-14") && pairs.len() > 5 * 84 => with_number(14),
        25 if is("position-with-25") => with_position(pairs.len() / 5 + 1),
        13 if is("25-without-text") && matches!(line[7], b'6' | b'7') => with_number(25),
        12 if is("12-and-13-exchanged") => with_number(13),
        13 if is("12-and-13-exchanged") => with_number(12),
        12 if is("long-tone-is-14") && pairs.len() > 2 * 60 => with_number(14),
        14 if is("14-after-6") => {
            first_bad(head, &pairs[..2 * 60]).map_or(right, |position| Refusal { number: 6, place, position })
        }
        14 if is("position-with-14") => with_position(61),
        6 if is("7-before-6") && head.ends_with(b"4 ") && pairs.ends_with(b"20") => Refusal::new(7, place),
        6 if is("position-from-0") => with_position(position - 1),
        6 if is("position-in-digits") => with_position(2 * position - 1),
        6 if is("position-in-the-line") => with_position(HEAD + position),
        6 if is("position-of-the-last") => last_bad(head, pairs).map_or(right, with_position),
        7 if is("position-with-7") => with_position(pairs.len() / 2),
        _ => right,
    }
}

/// Why a line is declined, if it is.
fn refusal(head: &[u8], pairs: &[u8]) -> Option<Refusal> {
    job::parse(&[head, pairs, b"\n"].concat(), NO_BOOK).err()
}

/// The position of a text's first bad character.
fn first_bad(head: &[u8], pairs: &[u8]) -> Option<usize> {
    refusal(head, pairs).filter(|refusal| refusal.number == 6).map(|refusal| refusal.position)
}

/// The position of a text's last bad character, which is the first where the text is turned round.
fn last_bad(head: &[u8], pairs: &[u8]) -> Option<usize> {
    let turned: Vec<u8> = pairs.chunks(2).rev().flatten().copied().collect();
    first_bad(head, &turned).map(|position| pairs.len() / 2 + 1 - position)
}
