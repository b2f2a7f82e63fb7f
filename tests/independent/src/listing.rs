//! Listings: a transmission as text, both ways.

use crate::placement::PREAMBLE_WORDS;
use crate::{number, Refusal, DIGITS};

pub const BYTES_A_WORD: usize = 9;
pub const MOST_BATCHES: usize = 300;

const FEWEST_PREAMBLE_LINES: usize = 9;
const MOST_PREAMBLE_LINES: usize = 36;
const BATCH_LINES: usize = 8;

/// Writes a transmission, nine bytes a word. The slice must have that length.
pub fn write(words: &[u32], out: &mut [u8]) {
    let (preamble, batches) = words.split_at(PREAMBLE_WORDS);
    let mut places = out.chunks_exact_mut(BYTES_A_WORD);
    let mut put = |word: u32, end: u8| {
        let place = places.next().expect("nine bytes a word");
        for (i, digit) in place[..8].iter_mut().enumerate() {
            *digit = DIGITS[(word >> (28 - 4 * i) & 15) as usize];
        }
        place[8] = end;
    };
    for pair in preamble.chunks_exact(2) {
        put(pair[0], b' ');
        put(pair[1], b'\n');
    }
    for batch in batches.chunks_exact(2 * BATCH_LINES + 1) {
        put(batch[0], b'\n');
        for pair in batch[1..].chunks_exact(2) {
            put(pair[0], b' ');
            put(pair[1], b'\n');
        }
    }
}

enum Line {
    One(u32),
    Two(u32, u32),
}

struct Lines<'a> {
    rest: &'a [u8],
    /// The line that was read last, from 1.
    line: usize,
}

impl Lines<'_> {
    /// The next line; refused if it is malformed or isn't there.
    fn next(&mut self) -> Result<Line, Refusal> {
        self.line += 1;
        let (line, length) = self.parse().ok_or(self.malformed())?;
        self.rest = &self.rest[length..];
        Ok(line)
    }

    fn parse(&self) -> Option<(Line, usize)> {
        let first = number(self.rest.get(..8)?)?;
        match self.rest.get(8)? {
            b'\n' => Some((Line::One(first), 9)),
            b' ' => {
                let second = number(self.rest.get(9..17)?)?;
                (self.rest.get(17)? == &b'\n').then_some((Line::Two(first, second), 18))
            }
            _ => None,
        }
    }

    fn malformed(&self) -> Refusal {
        Refusal::new(21, self.line)
    }
}

/// The words of a listing's batches, without its preamble.
pub fn read(listing: &[u8]) -> Result<Vec<u32>, Refusal> {
    let mut lines = Lines { rest: listing, line: 0 };
    let mut sync = loop {
        match lines.next()? {
            Line::Two(..) if lines.line <= MOST_PREAMBLE_LINES => {}
            Line::One(word) if lines.line > FEWEST_PREAMBLE_LINES => break word,
            _ => return Err(lines.malformed()),
        }
    };
    let mut words = Vec::with_capacity(listing.len() / BYTES_A_WORD);
    let mut batches = 1;
    loop {
        words.push(sync);
        for _ in 0..BATCH_LINES {
            match lines.next()? {
                Line::Two(first, second) => words.extend([first, second]),
                Line::One(_) => return Err(lines.malformed()),
            }
        }
        if lines.rest.is_empty() {
            return Ok(words);
        }
        sync = match lines.next()? {
            Line::One(word) => word,
            Line::Two(..) => return Err(lines.malformed()),
        };
        batches += 1;
        if batches > MOST_BATCHES {
            return Err(Refusal::new(23, lines.line));
        }
    }
}

#[cfg(test)]
mod tests {
    use super::*;
    use crate::codeword::{IDLE, PREAMBLE, SYNC};

    const FRAME: &str = "7A89C197 7A89C197\n";
    const ONE: &str = "7CD215D8\n";

    fn listing(preamble_lines: usize, batches: usize) -> String {
        let batch = ONE.to_owned() + &FRAME.repeat(8);
        "AAAAAAAA AAAAAAAA\n".repeat(preamble_lines) + &batch.repeat(batches)
    }

    fn fault(listing: impl AsRef<[u8]>) -> Option<(u32, usize)> {
        read(listing.as_ref()).err().map(|refusal| (refusal.number, refusal.place))
    }

    #[test]
    fn written() {
        let mut words = vec![PREAMBLE; 18];
        for _ in 0..2 {
            words.push(SYNC);
            words.extend([IDLE; 16]);
        }
        let mut out = vec![0; 9 * words.len()];
        write(&words, &mut out);
        assert_eq!(String::from_utf8(out).unwrap(), listing(9, 2));
    }

    #[test]
    fn preamble_lines() {
        for (count, expected) in [(0, Some((21, 1))), (8, Some((21, 9))), (9, None), (10, None), (36, None), (37, Some((21, 37)))] {
            assert_eq!(fault(listing(count, 1)), expected, "{count}");
        }
        // any values will do, but not any form
        assert_eq!(fault("7CD215D8 7CD215D8\n".repeat(9) + &listing(0, 1)), None);
        assert_eq!(fault("AAAAAAAA AAAAAAAa\n".to_owned() + &listing(8, 1)), Some((21, 1)));
    }

    #[test]
    fn batch_counts() {
        let mut words = read(listing(9, 300).as_bytes()).unwrap();
        assert_eq!(words.len(), 17 * 300);
        assert_eq!(words.pop(), Some(IDLE));
        assert_eq!(fault(listing(9, 301)), Some((23, 9 + 9 * 300 + 1)));
        assert_eq!(fault(listing(36, 301)), Some((23, 36 + 9 * 300 + 1)));
        assert_eq!(fault(listing(9, 300) + "00000000\n"), Some((23, 2710)));
        assert_eq!(fault(listing(9, 300) + "00000000"), Some((21, 2710)));
        assert_eq!(fault(listing(9, 300) + FRAME), Some((21, 2710)));
        assert_eq!(fault(listing(9, 300) + "\n"), Some((21, 2710)));
    }

    #[test]
    fn ended_early_and_malformed() {
        assert_eq!(fault(""), Some((21, 1)));
        assert_eq!(fault("\n"), Some((21, 1)));
        assert_eq!(fault(listing(9, 0)), Some((21, 10)));
        assert_eq!(fault(listing(36, 0)), Some((21, 37)));
        let good = listing(9, 2);
        for (line, start) in [0].into_iter().chain(good.match_indices('\n').map(|(i, _)| i + 1)).enumerate() {
            let line = line + 1;
            let whole = start == listing(9, 1).len() || start == good.len();
            assert_eq!(fault(&good[..start]), (!whole).then_some((21, line)), "cut before line {line}");
            if start < good.len() {
                assert_eq!(fault(&good[..start + 5]), Some((21, line)));
                assert_eq!(fault(format!("{}x{}", &good[..start], &good[start + 1..])), Some((21, line)));
                assert_eq!(fault(format!("{} {}", &good[..start], &good[start..])), Some((21, line)));
            }
        }
        assert_eq!(fault(&good[..good.len() - 1]), Some((21, 27)));
        assert_eq!(fault(good.clone() + "\n"), Some((21, 28)));
        assert_eq!(fault(good.replacen(" 7A89C197\n", "\n", 1)), Some((21, 11)));
        assert_eq!(fault(good.replacen(ONE, "7CD215D8 7CD215D8\n", 2)), Some((21, 27 + 1)));
        assert_eq!(fault(good.replacen("7A89C197\n", "7A89C197 \n", 1)), Some((21, 11)));
        assert_eq!(fault(good.replacen("7A89C197\n", "7A89C197\r\n", 1)), Some((21, 11)));
    }
}
