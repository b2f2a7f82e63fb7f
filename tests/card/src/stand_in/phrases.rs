//! Phrase books, and the mistakes in taking them and the lines that name a phrase.

use super::declined::HEAD;
use super::is;
use independent::{job, text};

/// A book as it is or, for some mistakes, as it is wrongly taken.
pub fn taken_book(book: &[u8]) -> Vec<u8> {
    let mut lines: Vec<Vec<u8>> = book.split_inclusive(|&byte| byte == b'\n').map(<[u8]>::to_vec).collect();
    if is("101-phrases") && lines.len() == 101 {
        lines.pop();
    }
    if is("99-phrases") && lines.len() == 100 {
        lines.push(b"\n".to_vec());
    }
    for line in &mut lines {
        if is("last-phrase-without-newline") && !line.ends_with(b"\n") {
            line.push(b'\n');
        }
        if is("241-characters") && line.len() == 2 * 241 + 1 {
            line.drain(..2);
        }
        if is("blank-phrases") && line == b"\n" {
            *line = b"20\n".to_vec();
        }
        if is("lower-case-phrases") {
            line.make_ascii_uppercase();
        }
        for pair in line.chunks_exact_mut(2) {
            if is("phrases-with-3-and-4") && (pair == b"03" || pair == b"04") {
                pair[1] = b'5';
            }
            if is("phrases-of-eight-bits") && matches!(pair[0], b'8' | b'9' | b'A'..=b'F') {
                pair[0] = b'7';
            }
        }
    }
    lines.concat()
}

/// A job's line, its newline included, as it is or, for some mistakes, as one that names a phrase is wrongly taken.
pub fn taken(line: &[u8], book: &[u8]) -> Vec<u8> {
    let Some((head, digits)) = split(line).filter(|_| !book.is_empty()) else { return line.to_vec() };
    let number = |radix| u8::from_str_radix(std::str::from_utf8(digits).ok()?, radix).ok();
    let with_number = |number: Option<u8>| match number {
        Some(number @ 0..100) => [head, format!("9 {number:02}\n").as_bytes()].concat(),
        _ => [head, b"9 FF\n"].concat(),
    };
    match digits {
        [b'0'..=b'9', b'0'..=b'9'] if is("phrases-from-1") => with_number(number(10).and_then(|number| number.checked_sub(1))),
        [_, _] if is("phrases-in-hexadecimal") => with_number(number(16)),
        [b'0', b'0', two @ ..] if is("four-digits-name-a-phrase") && two.len() == 2 => [head, b"9 ", two, b"\n"].concat(),
        [] if is("no-text-is-phrase-00") => [head, b"9 00\n"].concat(),
        _ => match job::parse(line, book) {
            Ok(_) if is("text-of-the-job") && !matches!(digits, b"00" | b"03" | b"04") => [head, b"5 ", digits, b"\n"].concat(),
            Ok(pages) if is("phrases-with-function-1") => [head, b"6 ", as_groups(&pages[0].text).as_bytes(), b"\n"].concat(),
            _ => line.to_vec(),
        },
    }
}

/// What stands before the kind of a line that names a phrase, and its digits.
fn split(line: &[u8]) -> Option<(&[u8], &[u8])> {
    let line = line.strip_suffix(b"\n").filter(|line| line.get(7) == Some(&b'9'))?;
    Some((&line[..7], &line[line.len().min(HEAD)..]))
}

/// Whether a line names a phrase.
pub fn is_phrase(line: &[u8]) -> bool {
    split(line).is_some()
}

/// The digits of a data page with the same message words as an alphanumeric text.
fn as_groups(text: &[u8]) -> String {
    let mut groups = vec![];
    text::pack_alphanumeric(text, &mut groups);
    groups.iter().map(|group| format!("{group:05X}")).collect()
}
