//! Jobs: good ones of every shape and size, and jobs that are declined for each reason. A job that may have phrases comes with its book.

use crate::{books, bytes, Random};

const NUMERIC: &[u8] = b"0123456789U -][";
const MOST_NUMERIC: usize = 60;
pub(crate) const MOST_ALPHANUMERIC: usize = 240;
const DIGITS: &[u8] = b"0123456789ABCDEF";
const GROUP: usize = 5;
const MOST_GROUPS: usize = 84;
const EDGES: &[u32] = &[0, 7, 8, 0x1E_A26F, 0x1E_A278, 0x1F_347F, 0x1F_3488, 0x1F_FFF8, 0x1F_FFFF];
const RESERVED: &[u32] = &[0x1E_A270, 0x1F_3480];

/// A page line with the given text in pairs, without further ado.
pub fn line(identity: u32, kind: u32, text: &[u8]) -> Vec<u8> {
    line_of_digits(identity, kind, pairs(text).as_bytes())
}

/// A text's bytes as pairs of digits.
pub(crate) fn pairs(text: &[u8]) -> String {
    text.iter().map(|byte| format!("{byte:02X}")).collect()
}

/// A page line with these digits for a text: a data page where the kind is 6 or 7, a phrase where it is 9.
pub fn line_of_digits(identity: u32, kind: u32, digits: &[u8]) -> Vec<u8> {
    let space = if digits.is_empty() { "" } else { " " };
    [format!("{identity:06X} {kind:X}{space}").as_bytes(), digits, b"\n"].concat()
}

pub fn is_reserved(identity: u32) -> bool {
    RESERVED.contains(&(identity & !7))
}

/// An identity that may be used, in one of the frames.
fn identity(random: &mut Random, frames: &[u32]) -> u32 {
    loop {
        let any = if random.once_in(8) { random.pick(EDGES) } else { random.word() & 0x1F_FFFF };
        let identity = any & !7 | random.pick(frames);
        if !is_reserved(identity) {
            return identity;
        }
    }
}

pub fn numeric_text(random: &mut Random, length: usize) -> Vec<u8> {
    let mut text: Vec<u8> = (0..length).map(|_| random.pick(NUMERIC)).collect();
    if text.last() == Some(&b' ') {
        *text.last_mut().unwrap() = b'7';
    }
    text
}

pub fn alphanumeric_text(random: &mut Random, length: usize) -> Vec<u8> {
    let mut character = || loop {
        let byte = random.byte() & 0x7F;
        if !matches!(byte, 0 | 3 | 4) {
            return byte;
        }
    };
    (0..length).map(|_| character()).collect()
}

/// So many upper-case digits.
fn digits(random: &mut Random, count: usize) -> Vec<u8> {
    (0..count).map(|_| random.pick(DIGITS)).collect()
}

/// A length from 1 to `most`, often at a limit or just where another codeword begins.
pub(crate) fn length(random: &mut Random, most: usize) -> usize {
    let length = match random.below(8) {
        0 => 1,
        1 | 2 => most,
        3 => most - 1,
        4 => 5 * random.between(1, most / 5) + random.below(2),
        5 => 20 * random.between(1, most / 20) + random.below(2),
        _ => random.between(1, most),
    };
    length.clamp(1, most)
}

/// A good text of a given kind.
fn text_of_kind(random: &mut Random, kind: u32) -> Vec<u8> {
    match kind {
        4 => {
            let length = length(random, MOST_NUMERIC);
            numeric_text(random, length)
        }
        5 => {
            let length = length(random, MOST_ALPHANUMERIC);
            alphanumeric_text(random, length)
        }
        _ => vec![],
    }
}

/// A good line of a given kind in one of the frames.
fn page_of_kind(random: &mut Random, frames: &[u32], kind: u32) -> Vec<u8> {
    let identity = identity(random, frames);
    if DATA_KINDS.contains(&kind) {
        let groups = length(random, MOST_GROUPS);
        return line_of_digits(identity, kind, &digits(random, GROUP * groups));
    }
    line(identity, kind, &text_of_kind(random, kind))
}

/// A phrase's number of two digits: the first, the last or any of a book's, which has at least one.
fn phrase_number(random: &mut Random, phrases: usize) -> String {
    let any = random.below(phrases);
    format!("{:02}", random.pick(&[0, phrases - 1, any, any]))
}

/// The pages of good lines, some of them with a phrase of a book for their text; without phrases there is no book.
fn with_phrases(random: &mut Random, lines: &[u8], phrases: usize) -> Vec<u8> {
    if phrases == 0 {
        return lines.to_vec();
    }
    let once_in = random.pick(&[1, 2, 5]);
    let mut with_phrase = |line: &[u8]| match random.once_in(once_in) {
        true => [&line[..7], b"9 ", phrase_number(random, phrases).as_bytes(), b"\n"].concat(),
        false => line.to_vec(),
    };
    lines.split_inclusive(|&byte| byte == b'\n').flat_map(&mut with_phrase).collect()
}

const ALL_FRAMES: &[u32] = &[0, 1, 2, 3, 4, 5, 6, 7];
const ALL_KINDS: &[u32] = &[0, 1, 2, 3, 4, 5, 6, 7];
const DATA_KINDS: &[u32] = &[6, 7];

/// A good line of any kind.
pub fn page(random: &mut Random) -> Vec<u8> {
    let kind = random.pick(ALL_KINDS);
    page_of_kind(random, ALL_FRAMES, kind)
}

/// `count` pages, all of these kinds and in these frames.
pub fn pages(random: &mut Random, count: usize, frames: &[u32], kinds: &[u32]) -> Vec<u8> {
    let mut job = Vec::new();
    for _ in 0..count {
        let kind = random.pick(kinds);
        job.extend(page_of_kind(random, frames, kind));
    }
    job
}

/// The largest jobs: 48 alphanumeric pages of 240 characters, in one frame or in any.
pub fn maximal(random: &mut Random, frames: &[u32]) -> Vec<u8> {
    alphanumeric(random, 48, 240, frames)
}

/// As many message codewords: 48 data pages of 84 groups.
pub fn maximal_data(random: &mut Random, frames: &[u32]) -> Vec<u8> {
    let mut job = Vec::new();
    for _ in 0..48 {
        let identity = identity(random, frames);
        let kind = random.pick(DATA_KINDS);
        job.extend(line_of_digits(identity, kind, &digits(random, GROUP * MOST_GROUPS)));
    }
    job
}

/// 48 pages, each with one of so many phrases.
pub fn phrases(random: &mut Random, phrases: usize, frames: &[u32]) -> Vec<u8> {
    let mut job = Vec::new();
    for _ in 0..48 {
        let identity = identity(random, frames);
        job.extend(line_of_digits(identity, 9, phrase_number(random, phrases).as_bytes()));
    }
    job
}

/// As many message codewords from a book: 48 pages, each with one of 100 phrases of 240 characters. With the book.
pub fn maximal_phrases(random: &mut Random, frames: &[u32]) -> (Vec<u8>, Vec<u8>) {
    (phrases(random, books::MOST_PHRASES, frames), books::longest(random))
}

/// `count` alphanumeric pages of the same length.
pub fn alphanumeric(random: &mut Random, count: usize, length: usize, frames: &[u32]) -> Vec<u8> {
    let mut job = Vec::new();
    for _ in 0..count {
        let identity = identity(random, frames);
        job.extend(line(identity, 5, &alphanumeric_text(random, length)));
    }
    job
}

/// A job as late as any: the second slot of frame 7 is each message's pause, so that every address and the number of batches are at
/// the bounds of demand 3. No job takes more than its 289 batches: address, message and pause of a page, 86 slots at most, have at
/// most 12 slots of any frame, so the k-th address is in slot 14 + 96 (k - 1) at the latest.
pub fn latest(random: &mut Random) -> Vec<u8> {
    let words = [[80; 47].as_slice(), &[84]].concat();
    words.into_iter().flat_map(|words| page_of_words(random, 7, words)).collect()
}

/// A page in a frame with so many message codewords, up to 84; a tone with none.
fn page_of_words(random: &mut Random, frame: u32, words: usize) -> Vec<u8> {
    let identity = identity(random, &[frame]);
    match words {
        0 => line(identity, random.below(4) as u32, &[]),
        _ if random.once_in(4) => line_of_digits(identity, random.pick(DATA_KINDS), &digits(random, GROUP * words)),
        1..=12 if random.once_in(2) => line(identity, 4, &numeric_text(random, 5 * words)),
        _ => line(identity, 5, &alphanumeric_text(random, 20 * words / 7)),
    }
}

/// A job whose last codeword falls on the last slot of a batch, or next to it.
fn near_the_batch_end(random: &mut Random) -> Vec<u8> {
    let mut job = Vec::new();
    if random.once_in(2) {
        let count = random.between(1, 6);
        job = pages(random, count, &[0, 1, 2], ALL_KINDS);
    }
    let frame = random.below(8) as u32;
    let words = (15 - 2 * frame as usize + 16 * random.below(5) + random.below(3)).saturating_sub(1);
    job.extend(page_of_words(random, frame, words));
    job
}

/// A job full of pauses after messages: tones and messages wait in a few frames next to each other, the tones mostly behind the
/// messages, and the messages end just before one of these frames or in it.
fn around_the_pause(random: &mut Random) -> Vec<u8> {
    // frame 0 often, so that there are pauses behind a sync
    let first = if random.once_in(2) { random.pick(&[0, 6, 7]) } else { random.below(8) };
    let frames: Vec<usize> = (first..first + random.between(1, 3)).map(|frame| frame % 8).collect();
    let count = random.pick(&[2, 3, 4, 6, 10, 20, 48]);
    let mut job = Vec::new();
    for page in 0..count {
        let frame = random.pick(&frames);
        let address = 2 * frame + random.below(2);
        let pause = 2 * random.pick(&frames) + random.below(2);
        let words = (15 + pause - address) % 16 + 16 * random.below(5);
        let tone = random.below(count) < page;
        job.extend(page_of_words(random, frame as u32, if tone { 0 } else { words }));
    }
    job
}

/// A good job of any shape and size, with its book, from which some of the pages may have their text.
pub fn good(random: &mut Random) -> (Vec<u8>, Vec<u8>) {
    let phrases = books::count(random);
    (good_for(random, phrases), books::good(random, phrases))
}

/// A good job for a book of so many phrases.
fn good_for(random: &mut Random, phrases: usize) -> Vec<u8> {
    let lines = good_lines(random);
    with_phrases(random, &lines, phrases)
}

/// A good job of any shape and size, without phrases.
fn good_lines(random: &mut Random) -> Vec<u8> {
    let frame = [random.below(8) as u32];
    let count = match random.below(6) {
        0 => 48,
        1 => random.between(24, 48),
        _ => random.between(1, 16),
    };
    match random.below(14) {
        0 | 1 => page(random),
        2 | 3 => pages(random, count, ALL_FRAMES, ALL_KINDS),
        4 => pages(random, count, &frame, ALL_KINDS),
        5 => {
            let two = [frame[0], random.below(8) as u32];
            pages(random, count, &two, ALL_KINDS)
        }
        6 => pages(random, count, ALL_FRAMES, &[0, 1, 2, 3]),
        7 => pages(random, count, &frame, &[0, 1, 2, 3]),
        8 => {
            let kinds = if random.once_in(2) { &[4] } else { DATA_KINDS };
            pages(random, count, ALL_FRAMES, kinds)
        }
        9 => page(random).repeat(count),
        10 => near_the_batch_end(random),
        11 | 12 => around_the_pause(random),
        _ if random.once_in(4) => {
            let frames = if random.once_in(2) { &frame[..] } else { ALL_FRAMES };
            let maximal = random.pick(&[maximal, maximal_data]);
            maximal(random, frames)
        }
        _ => pages(random, count, ALL_FRAMES, &[4, 5, 6, 7]),
    }
}

/// A line that isn't written as a page line.
fn malformed_line(random: &mut Random) -> Vec<u8> {
    let any = page(random);
    let mut line = with_phrases(random, &any, 1);
    let end = line.len() - 1;
    match random.below(9) {
        0 => line.truncate(random.below(8)),
        1 => line.insert(end, b' '),
        2 => line.insert(end, b'-'),
        3 => line.insert(end, b'\r'),
        4 => line[random.below(8)] = random.pick(b"/:@Gag\0\xFF"),
        5 => line.insert(random.below(end), b' '),
        6 => line.insert(6, b' '),
        // an odd number of digits where pairs are asked for, and a data page with something that is no digit
        7 => {
            let kind = random.pick(&[0, 3, 4, 5, 8, 9, 15]);
            let count = 2 * length(random, MOST_ALPHANUMERIC) - 1;
            line = line_of_digits(identity(random, ALL_FRAMES), kind, &digits(random, count));
        }
        _ => {
            let kind = random.pick(DATA_KINDS);
            line = page_of_kind(random, ALL_FRAMES, kind);
            let at = random.between(9, line.len() - 2);
            line[at] = random.pick(b"abcdefg/:@G-\0\xFF");
        }
    }
    if !line.ends_with(b"\n") {
        line.push(b'\n');
    }
    line
}

/// A text that isn't empty: a good one of either kind, or one byte again and again.
fn any_text(random: &mut Random) -> Vec<u8> {
    match random.below(4) {
        0 => text_of_kind(random, 4),
        1 => text_of_kind(random, 5),
        _ => vec![random.byte(); random.pick(&[1, 2, 60, 61, 240, 241, 300])],
    }
}

/// A text that is too long for its kind, often with a bad character or with a space at the end.
fn long_text(random: &mut Random, kind: u32) -> Vec<u8> {
    let more = random.pick(&[1, 1, 1, 2, 61, 181]);
    let mut text = match kind {
        4 => numeric_text(random, MOST_NUMERIC + more),
        _ => alphanumeric_text(random, MOST_ALPHANUMERIC + more),
    };
    let last = text.len() - 1;
    match random.below(4) {
        0 => text[random.below(last + 1)] = 0,
        1 => text[last] = b' ',
        _ => {}
    }
    text
}

/// A text with one to three characters that its kind doesn't have, often the first or the last; it may end in a space.
fn bad_text(random: &mut Random, kind: u32) -> Vec<u8> {
    let bad: &[u8] = if kind == 4 { b"*/:u()TV\x5C\x5E\0\x80\xFF" } else { b"\0\x03\x04\x80\xFF" };
    let mut text = text_of_kind(random, kind);
    let last = text.len() - 1;
    if random.once_in(3) {
        text[last] = b' ';
    }
    for _ in 0..random.pick(&[1, 1, 2, 3]) {
        let at = match random.below(4) {
            0 => 0,
            1 => last,
            _ => random.below(last + 1),
        };
        text[at] = random.pick(bad);
    }
    text
}

/// Digits of a data page that is declined with the given number, 13, 14 or 25, or whose identity declines it.
fn faulty_digits(random: &mut Random, number: u32) -> Vec<u8> {
    let count = match number {
        13 => 0,
        14 => GROUP * random.pick(&[85, 85, 86, 168, 200]),
        25 => GROUP * random.pick(&[0, 0, 1, 83, 84, 84, 85, random.clone().below(100)]) + random.between(1, GROUP - 1),
        _ => random.pick(&[0, 1, 4, 5, 6, 420, 421, 425]),
    };
    digits(random, count)
}

/// Digits that are the number of no phrase, though pairs, where the book has so many phrases.
fn no_phrase(random: &mut Random, phrases: usize) -> Vec<u8> {
    match random.below(6) {
        0 => vec![],
        1 | 2 if phrases < books::MOST_PHRASES => format!("{:02}", random.pick(&[phrases, 99])).into_bytes(),
        3 => [&b"00"[..], phrase_number(random, phrases).as_bytes()].concat(),
        4 => phrase_number(random, phrases).repeat(random.between(2, 4)).into_bytes(),
        _ => {
            let mut pair = digits(random, 2);
            pair[random.below(2)] = random.pick(b"ABCDEF");
            pair
        }
    }
}

/// The numbers that a line is declined with, in the order of the tests.
const LINE_NUMBERS: &[u32] = &[1, 2, 3, 4, 25, 12, 13, 14, 18, 6, 7];

/// One of these numbers; without phrases, where there is no book, none is 18.
fn line_number(random: &mut Random, phrases: usize) -> u32 {
    match random.pick(LINE_NUMBERS) {
        18 if phrases == 0 => 4,
        number => number,
    }
}

/// A line that is declined with the given one of these numbers, where the book has so many phrases, and often has faults of later
/// numbers too.
fn faulty_line(random: &mut Random, number: u32, phrases: usize) -> Vec<u8> {
    if number == 1 {
        return malformed_line(random);
    }
    let good = identity(random, ALL_FRAMES);
    let identity = match number {
        2 => random.pick(&[0x20_0000, 0x20_0001, 0x3E_A270, 0xFF_FFFF, 0x20_0000 + good]),
        3 => random.pick(RESERVED) + random.below(8) as u32,
        _ => good,
    };
    let kind = match number {
        2 | 3 => random.pick(&[0, 1, 2, 3, 4, 5, 6, 7, 9, 15]),
        4 if phrases > 0 => random.pick(&[8, 10, 11, 12, 13, 14, 15]),
        4 => random.between(8, 15) as u32,
        18 => 9,
        25 => random.pick(DATA_KINDS),
        12 => random.below(4) as u32,
        13 | 14 => random.pick(&[4, 5, 6, 7]),
        7 => 4,
        _ => random.pick(&[4, 5]),
    };
    if DATA_KINDS.contains(&kind) {
        return line_of_digits(identity, kind, &faulty_digits(random, number));
    }
    if kind == 9 && phrases > 0 {
        return line_of_digits(identity, kind, &no_phrase(random, phrases));
    }
    let text = match number {
        13 => vec![],
        14 => long_text(random, kind),
        6 => bad_text(random, kind),
        7 => {
            let mut text = text_of_kind(random, kind);
            text.pop();
            text.push(b' ');
            text
        }
        2..=4 if random.once_in(3) => vec![],
        _ => any_text(random),
    };
    line(identity, kind, &text)
}

/// A job that is declined, or nearly so, with its book, which is good.
pub fn bad(random: &mut Random) -> (Vec<u8>, Vec<u8>) {
    let phrases = books::count(random);
    (bad_for(random, phrases), books::good(random, phrases))
}

/// A job that is declined with a book of so many phrases, or nearly so.
fn bad_for(random: &mut Random, phrases: usize) -> Vec<u8> {
    match random.below(8) {
        // one faulty line among good ones, perhaps another behind it
        0..=2 => {
            let before = random.pick(&[0, 0, 1, 2, 10, 46, 47, 48]);
            let behind = random.pick(&[0, 0, 1, 2, 5]);
            let mut job = Vec::new();
            let numbers = (line_number(random, phrases), line_number(random, phrases));
            job.extend(short_pages(random, before, phrases));
            job.extend(faulty_line(random, numbers.0, phrases));
            job.extend(short_pages(random, behind, phrases));
            if random.once_in(3) {
                job.extend(faulty_line(random, numbers.1, phrases));
            }
            job
        }
        // about 48 lines, with or without something behind
        3 => {
            let count = random.between(46, 50);
            let mut job = short_pages(random, count, phrases);
            match random.below(6) {
                0 => {
                    job.pop();
                }
                1 => job.push(b'\n'),
                2 => job.push(random.byte()),
                3 => {
                    let number = line_number(random, phrases);
                    job.extend(faulty_line(random, number, phrases));
                }
                _ => {}
            }
            job
        }
        4 | 5 => {
            let mut job = good_for(random, phrases);
            bytes::mutate(random, &mut job);
            job
        }
        6 => {
            let mut job = good_for(random, phrases);
            bytes::mutate_lines(random, &mut job);
            job
        }
        _ => {
            let line = page(random);
            let mut job = with_phrases(random, &line, phrases);
            bytes::mutate(random, &mut job);
            job
        }
    }
}

fn short_pages(random: &mut Random, count: usize, phrases: usize) -> Vec<u8> {
    let mut job = Vec::new();
    for _ in 0..count {
        let identity = identity(random, ALL_FRAMES);
        job.extend(match random.below(4) {
            0 => line(identity, 4, &numeric_text(random, 3)),
            1 => line(identity, 5, &alphanumeric_text(random, 2)),
            2 => line_of_digits(identity, random.pick(DATA_KINDS), &digits(random, GROUP)),
            kind => line(identity, kind as u32, &[]),
        });
    }
    with_phrases(random, &job, phrases)
}

/// Every slot of a batch as the pause after a message, and behind that message, in every order, up to three tones and messages in the
/// frame of the pause and in the next; the same in every run. Those with phrases are for the short book.
fn pauses() -> Vec<Vec<u8>> {
    let mut jobs = vec![];
    for words in 1..=16 {
        // from slot 0 on
        let message = line(8, 5, &vec![b'A'; 20 * words / 7]);
        let frame = (1 + words as u32) % 16 / 2;
        let next = (frame + 1) % 8;
        let data = line_of_digits(frame, 6, b"12345");
        let phrase = line_of_digits(next, 9, b"00");
        let behind = [line(frame, 1, b""), line(frame, 4, b"1"), line(next, 2, b""), phrase, data];
        let mut longest = vec![message];
        for _ in 0..3 {
            longest = longest.iter().flat_map(|job| behind.iter().map(move |page| [&job[..], page].concat())).collect();
            jobs.extend_from_slice(&longest);
        }
    }
    jobs
}

/// Texts of every kind about the greatest lengths, as the second line of a job: with no bad character, or with one as the first,
/// in the middle or as the last; the last is good, a space, or bad as well. The same in every run.
pub fn texts() -> Vec<Vec<u8>> {
    let mut jobs = vec![];
    let mut push = |kind: u32, text: &[u8]| jobs.push([line(7, 0, b""), line(9, kind, text)].concat());
    for kind in 0..6 {
        push(kind, b"");
        for length in [1, 2, 59, 60, 61, 239, 240, 241] {
            for last in [b'1', b' ', 0xFF] {
                let mut text = vec![b'1'; length];
                text[length - 1] = last;
                push(kind, &text);
                for bad in [0, length / 2, length - 1] {
                    let mut text = text.clone();
                    text[bad] = 0;
                    push(kind, &text);
                }
            }
        }
    }
    jobs.extend(digit_texts());
    jobs
}

/// The same of digits as they are: so many that they are no group, one, 84 or 85, or nearly so, for data pages and for kinds that
/// have pairs; all upper-case, with one in lower case, or with a `-` behind them.
fn digit_texts() -> Vec<Vec<u8>> {
    let mut jobs = vec![];
    for kind in [4, 6, 7, 8, 9] {
        let mut push = |digits: &[u8]| jobs.push([line(7, 0, b""), line_of_digits(9, kind, digits)].concat());
        for count in [0, 1, 4, 5, 6, 9, 10, 11, 415, 419, 420, 421, 424, 425, 426, 430] {
            let digits: Vec<u8> = DIGITS.iter().copied().cycle().take(count).collect();
            push(&digits);
            push(&[&digits, &b"-"[..]].concat());
            for at in [0, count / 2, count.saturating_sub(1)] {
                let mut digits = digits.clone();
                digits.iter_mut().skip(at).take(1).for_each(|digit| *digit = b'a');
                push(&digits);
            }
        }
    }
    jobs
}

/// The same of kind 9: every pair of digits, no text, and what is more, less or something else than a pair; some of them also
/// with an identity that comes first.
pub fn phrase_numbers() -> Vec<Vec<u8>> {
    let mut jobs = vec![];
    let mut push = |identity: u32, digits: &[u8]| jobs.push([line(7, 0, b""), line_of_digits(identity, 9, digits)].concat());
    for pair in 0..=255 {
        push(9, pairs(&[pair]).as_bytes());
    }
    let others = ["", "0", "7", "007", "0000", "0007", "0700", "0100", "000000", "0a", "a0", "0:", "/0", "-0", "00-", "00 ", " 00"];
    for digits in others {
        for identity in [9, 0x20_0000, 0x1E_A270] {
            push(identity, digits.as_bytes());
        }
    }
    jobs
}

/// Whether a job has a line of kind 9, well written or not.
pub fn names_a_phrase(job: &[u8]) -> bool {
    job.split(|&byte| byte == b'\n').any(|line| line.get(7) == Some(&b'9'))
}

/// Jobs for any book: without a line, with a faulty one, without a phrase, with the first two phrases and with the hundredth.
pub const FOR_BOOKS: [&[u8]; 5] = [b"", b"x", b"000009 0\n", b"000009 9 00\n000001 9 01\n", b"000007 9 99\n"];

/// The longest texts with a bad character at every position, and another one at the end.
fn bad_positions() -> Vec<Vec<u8>> {
    let mut jobs = vec![];
    for (kind, most) in [(4, MOST_NUMERIC), (5, MOST_ALPHANUMERIC)] {
        for bad in 0..most {
            let mut text = vec![b'1'; most];
            text[most - 1] = 0xFF;
            text[bad] = 0;
            jobs.push(line(9, kind, &text));
        }
    }
    jobs
}

/// Jobs on both sides of every limit, the same in every run. Those that have phrases are for the short book.
pub fn limits() -> Vec<Vec<u8>> {
    let mut jobs = [pauses(), texts(), phrase_numbers(), bad_positions()].concat();
    // identities by kinds
    let mut identities = vec![0, 1, 0x20_0000, 0x20_0001, 0x3E_A270, 0x3F_3480, 0xFF_FFFF];
    for edge in EDGES.iter().chain(RESERVED) {
        identities.extend(edge.saturating_sub(1)..=edge + 9);
    }
    for &identity in &identities {
        for kind in 0..16 {
            jobs.push(line(identity, kind, &[]));
            jobs.push(line(identity, kind, b"1"));
            jobs.push(line_of_digits(identity, kind, b"12345"));
        }
        jobs.push(line_of_digits(identity, 9, b"00"));
    }
    // kinds by lengths, good characters and bad, with and without a space at the end
    for kind in 0..16 {
        for length in [0, 1, 2, 4, 5, 6, 19, 20, 21, 40, 59, 60, 61, 62, 120, 239, 240, 241, 242, 480] {
            for fill in [b'1', b'*', b' ', 0, 3, 4, 127, 128] {
                for last in [b'1', b' ', b'A', 0] {
                    let mut text = vec![fill; length];
                    if let Some(end) = text.last_mut() {
                        *end = last;
                    }
                    jobs.push(line(9, kind, &text));
                }
            }
        }
    }
    // every byte as first, inner and last character
    for byte in 0..=255 {
        for kind in [4, 5] {
            for text in [[byte, b'1', b'1'], [b'1', byte, b'1'], [b'1', b'1', byte]] {
                jobs.push(line(0x1F_FFFF, kind, &text));
            }
            jobs.push(line(8, kind, &[byte]));
        }
    }
    // every byte put over or into every place of short lines, every byte taken out, every front
    for model in [&b"000009 4 3132\n"[..], b"000009 0\n", b"000009 5 41\n000007 3\n", b"000009 6 12345\n", b"000009 9 10\n"] {
        jobs.extend(bytes::all_edits(model));
    }
    // few digits, and so many that they are pairs, groups, both or neither
    for kind in 4..10 {
        for digits in 0..12 {
            for end in ["\n", "-\n", " \n"] {
                jobs.push(format!("000009 {kind} {}{end}", "1".repeat(digits)).into_bytes());
                jobs.push(format!("000009 {kind}{}{end}", "1".repeat(digits)).into_bytes());
            }
        }
    }
    // far too long
    jobs.push(line(9, 5, &[b'A'; 40_000]));
    jobs.push(vec![b'A'; 70_000]);
    jobs.push(vec![b'\n'; 70_000]);
    jobs.push(b"000009 5 4142\n".repeat(6_000));
    // line counts
    for count in [0, 1, 2, 47, 48, 49, 50, 100] {
        for one in [&b"000007 0\n"[..], b"000003 4 31\n", b"000000 5 4142\n", b"000002 7 12345\n", b"000001 9 10\n"] {
            let job = one.repeat(count);
            for end in [&b""[..], b"\n", b"0", b"000007 0", b"200000 0\n", b"000007 9\n", b"\n\n", b"1EA270 0\n"] {
                jobs.push([&job[..], end].concat());
            }
            if count > 0 {
                jobs.push(job[..job.len() - 1].to_vec());
            }
            for bad in [
                &b"200000 0\n"[..],
                b"\n",
                b"000007 1 31\n",
                b"000007 4 312A2A\n",
                b"000007 4 20\n",
                b"000007 6 1234\n",
                b"000007 9 11\n",
            ] {
                jobs.push([bad, &job].concat());
                jobs.push([&job[..], bad, &job].concat());
            }
        }
    }
    jobs
}

#[cfg(test)]
mod tests {
    use super::*;
    use crate::books::SHORT;
    use independent::book::NO_BOOK;
    use independent::job::parse;
    use independent::send::{Accepted, Sender};
    use std::collections::{BTreeMap, BTreeSet};

    #[test]
    fn good_jobs_are_accepted() {
        let mut random = Random::new(1);
        let mut counts = BTreeSet::new();
        let mut groups = BTreeSet::new();
        let mut numbers = BTreeSet::new();
        for _ in 0..3000 {
            let (job, book) = good(&mut random);
            let pages = parse(&job, &book).unwrap();
            counts.insert(pages.len());
            groups.extend(pages.iter().filter(|page| page.kind > 5).map(|page| (page.kind, page.message_words())));
            numbers.extend(String::from_utf8(job).unwrap().lines().filter_map(|line| Some(line.split_once(" 9 ")?.1.to_owned())));
        }
        assert!(counts.contains(&1) && counts.contains(&48) && counts.len() > 30);
        // data pages of every length
        assert!(groups.into_iter().eq([6, 7].into_iter().flat_map(|kind| (1..=84).map(move |groups| (kind, groups)))));
        // every number of a phrase
        assert!(numbers.into_iter().eq((0..100).map(|number| format!("{number:02}"))));
    }

    #[test]
    fn faulty_lines_have_their_number() {
        let mut random = Random::new(2);
        let mut positions = BTreeSet::new();
        for &number in LINE_NUMBERS {
            for _ in 0..500 {
                let phrases = if number == 18 { random.between(1, 100) } else { books::count(&mut random) };
                let line = faulty_line(&mut random, number, phrases);
                let refusal = parse(&line, &b"41\n".repeat(phrases)).unwrap_err();
                assert_eq!(refusal.number, number, "{phrases} phrases, {:?}", String::from_utf8_lossy(&line));
                positions.insert(refusal.position);
            }
        }
        assert!([1, 60, 240].iter().all(|position| positions.contains(position)) && positions.len() > 100, "{positions:?}");
    }

    /// The number that a job is declined with, and the position; 0 and 0 where it isn't.
    fn answer(job: &[u8], book: &[u8]) -> (u32, usize) {
        parse(job, book).map_or_else(|refusal| (refusal.number, refusal.position), |_| (0, 0))
    }

    /// Those of many jobs with one book.
    fn answers(jobs: &[Vec<u8>], book: &[u8]) -> (BTreeSet<u32>, BTreeSet<usize>) {
        jobs.iter().map(|job| answer(job, book)).unzip()
    }

    #[test]
    fn every_refusal_is_met() {
        let mut random = Random::new(3);
        let drawn = (0..4000).map(|_| bad(&mut random));
        let (numbers, positions): (BTreeSet<u32>, BTreeSet<usize>) = drawn.map(|(job, book)| answer(&job, &book)).unzip();
        assert!(LINE_NUMBERS.iter().chain(&[0, 8]).all(|number| numbers.contains(number)), "{numbers:?}");
        assert!(positions.len() > 50, "{positions:?}");
        for book in [NO_BOOK, SHORT] {
            let with_book = |number: &u32| *number != 18 || !book.is_empty();
            let (numbers, positions) = answers(&limits(), book);
            assert_eq!(numbers, LINE_NUMBERS.iter().chain(&[0, 8, 9]).copied().filter(with_book).collect());
            assert_eq!(positions, (0..=240).collect());
            let (numbers, positions) = answers(&texts(), book);
            assert_eq!(numbers, [0, 1, 4, 6, 7, 12, 13, 14, 18, 25].into_iter().filter(with_book).collect());
            assert_eq!(positions, [0, 1, 2, 30, 31, 59, 60, 61, 120, 121, 239, 240].into());
        }
        assert_eq!(answers(&phrase_numbers(), NO_BOOK).0, [1, 2, 3, 4].into());
        assert_eq!(answers(&phrase_numbers(), SHORT).0, [0, 1, 2, 3, 18].into());
    }

    /// Counts the pauses of a job in which pages wait, by their slot (behind a sync, a frame's first, its second) and by who waits.
    fn count_pauses(job: &[u8], book: &[u8], counts: &mut BTreeMap<(&str, &str), usize>) {
        let Accepted { pages, placement } = Accepted::new(job, book).unwrap();
        let slots = &placement.slots;
        for (page, slot) in pages.iter().zip(slots).filter(|(page, _)| page.message_words() > 0) {
            let pause = slot + page.message_words() as u32 + 1;
            let waits = |&at: &usize| pages[at].frame() == pause % 16 / 2 && slots[at] >= pause;
            let waiting: Vec<usize> = (0..pages.len()).filter(waits).collect();
            let tone = waiting.iter().position(|&at| pages[at].message_words() == 0);
            assert_eq!(tone.map(|at| waiting[at]), slots.iter().position(|&slot| slot == pause));
            let who = match tone {
                None if waiting.is_empty() => continue,
                None => "a message waits on",
                Some(0) => "a tone is first",
                Some(_) => "a tone overtakes",
            };
            let place = match pause % 16 {
                0 => "behind a sync",
                slot if slot % 2 == 0 => "first slot",
                _ => "second slot",
            };
            *counts.entry((place, who)).or_default() += 1;
        }
    }

    #[test]
    fn every_pause_is_met() {
        let mut random = Random::new(5);
        let (mut fixed, mut drawn) = (BTreeMap::new(), BTreeMap::new());
        pauses().iter().for_each(|job| count_pauses(job, SHORT, &mut fixed));
        for _ in 0..1000 {
            let (job, book) = good(&mut random);
            count_pauses(&job, &book, &mut drawn);
        }
        for counts in [fixed, drawn] {
            assert!(counts.len() == 9 && counts.values().all(|&count| count >= 10), "{counts:?}");
        }
    }

    /// The bounds of demand 3 less what the job takes: of the addresses in the order in which they go out, and of the batches.
    fn to_spare(job: &[u8], book: &[u8]) -> (Vec<u32>, u32) {
        let Accepted { pages, placement } = Accepted::new(job, book).unwrap();
        let words = pages.iter().map(|page| page.message_words() as u32);
        let mut sent: Vec<(u32, u32)> = placement.slots.iter().copied().zip(words).collect();
        sent.sort();
        let mut before = 0;
        let mut spare = vec![];
        for (k, (slot, words)) in (1u32..).zip(sent) {
            spare.push((16 * k - 2 + before).checked_sub(slot).expect("the address is in time"));
            before += words;
        }
        let batches = (16 * pages.len() as u32 + before - 1) / 16 + 1;
        (spare, batches.checked_sub(placement.batches).expect("few batches"))
    }

    #[test]
    fn bounds_are_kept_and_met() {
        let mut random = Random::new(6);
        let latest = latest(&mut random);
        assert_eq!(to_spare(&latest, NO_BOOK), (vec![0; 48], 0));
        assert_eq!(Accepted::new(&latest, NO_BOOK).unwrap().placement.batches, 289);
        let mut jobs: Vec<(Vec<u8>, Vec<u8>)> = pauses().into_iter().map(|job| (job, SHORT.to_vec())).collect();
        jobs.extend((0..1000).map(|_| good(&mut random)));
        for (job, book) in jobs {
            to_spare(&job, &book);
            let words = Accepted::new(&job, &book).unwrap().words();
            assert!(words.len() <= 18 + 17 * 289);
            assert!(Sender::start(&job, &book).unwrap().eq(words));
        }
    }

    #[test]
    fn the_largest_jobs() {
        let mut random = Random::new(4);
        let mut jobs = vec![];
        for frame in 0..8 {
            jobs.extend([maximal, maximal_data].map(|maximal| (maximal(&mut random, &[frame]), NO_BOOK.to_vec())));
            jobs.push(maximal_phrases(&mut random, &[frame]));
        }
        for (job, book) in jobs {
            let pages = parse(&job, &book).unwrap();
            assert_eq!(pages.len(), 48);
            assert!(pages.iter().all(|page| page.message_words() == 84));
        }
    }
}
