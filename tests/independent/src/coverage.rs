//! A month of listings in numbers: how the words of each frame and the sync words were read, and how many pages were whole and how
//! many cut. A listing is gone through once, word by word. Beside it stands the plain way: a listing's own report is made alone and added
//! to the others', with each word read in a batch that holds nothing else, and the pages taken from the lines that reading prints.

use crate::codeword::{self, Meaning, IDLE, SYNC};
use crate::placement::BATCH_WORDS;
use crate::reader::{self, Log};
use crate::{number, Refusal};
use std::fmt::Write;

pub const MOST_LISTINGS: u32 = 1000;
/// A count is at most so many times the listings: a frame has two words in each of 300 batches.
pub const MOST_A_LISTING: u32 = 600;
/// The row of sync, behind those of the frames.
pub const SYNC_ROW: u32 = 8;
/// How many numbers a report has.
pub const NUMBERS: usize = 55;

const FIRST_REFUSED: u32 = 21;

/// Words by how they were read; a sync word is never lost.
#[derive(Clone, Copy, Debug, Default, PartialEq, Eq)]
pub struct Words {
    pub unchanged: u32,
    pub one: u32,
    pub two: u32,
    pub lost: u32,
}

impl Words {
    /// Counts a word in which so many bits were mended.
    fn mended(&mut self, bits: u32) {
        *[&mut self.unchanged, &mut self.one, &mut self.two][bits as usize] += 1;
    }

    fn plus(self, other: Words) -> Words {
        Words {
            unchanged: self.unchanged + other.unchanged,
            one: self.one + other.one,
            two: self.two + other.two,
            lost: self.lost + other.lost,
        }
    }
}

/// Pages by how they ended.
#[derive(Clone, Copy, Debug, Default, PartialEq, Eq)]
pub struct Pages {
    pub whole: u32,
    pub cut: u32,
}

impl Pages {
    fn ended(&mut self, cut: bool) {
        *if cut { &mut self.cut } else { &mut self.whole } += 1;
    }
}

/// The report of some listings; all zeros where there are none.
#[derive(Clone, Copy, Debug, Default, PartialEq, Eq)]
pub struct Coverage {
    /// Refused ones among them.
    pub listings: u32,
    /// With number 21, 22 and 23.
    pub refused: [u32; 3],
    pub frames: [Words; 8],
    pub sync: Words,
    /// By the frame of the address.
    pub pages: [Pages; 8],
}

/// Mended bits per million received, rounded down, and the remainder of that division.
#[derive(Clone, Copy, Debug, Default, PartialEq, Eq)]
pub struct Rate {
    pub rate: u64,
    pub remainder: u64,
}

impl Coverage {
    /// All numbers in this order: listings, refusals, frames, sync, pages.
    pub fn numbers(&self) -> [u32; NUMBERS] {
        let Coverage { listings, refused, frames, sync, pages } = self;
        let frames = frames.iter().flat_map(|words| [words.unchanged, words.one, words.two, words.lost]);
        let pages = pages.iter().flat_map(|pages| [pages.whole, pages.cut]);
        let mut all =
            [*listings].into_iter().chain(*refused).chain(frames).chain([sync.unchanged, sync.one, sync.two]).chain(pages);
        std::array::from_fn(|_| all.next().expect("as many as there are"))
    }

    /// The report of these numbers.
    pub fn of_numbers(numbers: &[u32; NUMBERS]) -> Self {
        let mut all = numbers.iter().copied();
        let mut next = || all.next().expect("as many as there are");
        Coverage {
            listings: next(),
            refused: [next(), next(), next()],
            frames: std::array::from_fn(|_| Words { unchanged: next(), one: next(), two: next(), lost: next() }),
            sync: Words { unchanged: next(), one: next(), two: next(), lost: 0 },
            pages: std::array::from_fn(|_| Pages { whole: next(), cut: next() }),
        }
    }

    /// Adds a listing, word by word. One that is refused is counted by its number and adds nothing else; only a report that is out of
    /// bounds, or has all its listings, declines.
    pub fn add(&mut self, listing: &[u8]) -> Result<(), Refusal> {
        let [listings, counts @ ..] = self.numbers();
        if listings > MOST_LISTINGS || counts.iter().any(|&count| count > MOST_A_LISTING * listings) {
            return Err(OUT_OF_BOUNDS);
        }
        if listings == MOST_LISTINGS {
            return Err(ONE_TOO_MANY);
        }
        self.listings += 1;
        match reader::batches_of_listing(listing) {
            Ok(batches) => self.count(&batches),
            Err(refusal) => self.refused[(refusal.number - FIRST_REFUSED) as usize] += 1,
        }
        Ok(())
    }

    /// Counts the words and pages of batches that can be read.
    fn count(&mut self, batches: &[u32]) {
        // the frame of the page that is open
        let mut open: Option<usize> = None;
        for batch in batches.chunks_exact(BATCH_WORDS) {
            self.sync.mended(codeword::changed(batch[0], SYNC));
            for (slot, &word) in batch[1..].iter().enumerate() {
                let frame = slot / 2;
                let near = codeword::correct(word).filter(|&near| codeword::meaning(near) != Meaning::Reserved);
                let Some(near) = near else {
                    self.frames[frame].lost += 1;
                    self.close(open.take(), true);
                    continue;
                };
                self.frames[frame].mended(codeword::changed(word, near));
                match codeword::meaning(near) {
                    Meaning::Message(_) => {}
                    Meaning::Address { .. } => self.close(open.replace(frame), false),
                    _ => self.close(open.take(), false),
                }
            }
        }
        self.close(open, false);
    }

    /// Counts the page that was open in this frame, if one was.
    fn close(&mut self, open: Option<usize>, cut: bool) {
        if let Some(frame) = open {
            self.pages[frame].ended(cut);
        }
    }

    fn row(&self, row: u32) -> Option<&Words> {
        match row {
            SYNC_ROW => Some(&self.sync),
            _ => self.frames.get(row as usize),
        }
    }

    /// The rate of a frame or of sync, whatever the report; zeros with nothing received, and of what is no row.
    pub fn rate(&self, row: u32) -> Rate {
        let Some(&words) = self.row(row) else { return Rate::default() };
        let (mended, received) = bits(words);
        match received {
            0 => Rate::default(),
            _ => Rate { rate: 1_000_000 * mended / received, remainder: 1_000_000 * mended % received },
        }
    }

    /// The same by long division: digit by digit, six of them behind the point.
    pub fn rate_by_digits(&self, row: u32) -> Rate {
        let (mended, received) = self.row(row).map_or((0, 0), |&words| bits(words));
        if received == 0 {
            return Rate::default();
        }
        let (mut rate, mut rest) = (mended / received, mended % received);
        for _ in 0..6 {
            rate = 10 * rate + 10 * rest / received;
            rest = 10 * rest % received;
        }
        Rate { rate, remainder: rest }
    }

    /// The sum of two reports.
    pub fn plus(&self, other: &Coverage) -> Coverage {
        Coverage {
            listings: self.listings + other.listings,
            refused: std::array::from_fn(|i| self.refused[i] + other.refused[i]),
            frames: std::array::from_fn(|i| self.frames[i].plus(other.frames[i])),
            sync: self.sync.plus(other.sync),
            pages: std::array::from_fn(|i| Pages {
                whole: self.pages[i].whole + other.pages[i].whole,
                cut: self.pages[i].cut + other.pages[i].cut,
            }),
        }
    }

    /// The lines that the coverage program prints.
    pub fn text(&self) -> String {
        let mut text = String::new();
        for (frame, (Words { unchanged, one, two, lost }, Pages { whole, cut })) in self.frames.iter().zip(&self.pages).enumerate()
        {
            let Rate { rate, remainder } = self.rate(frame as u32);
            let words = format!("unchanged {unchanged} one {one} two {two} lost {lost}");
            _ = writeln!(text, "frame {frame} {words} whole {whole} cut {cut} rate {rate} remainder {remainder}");
        }
        let (Words { unchanged, one, two, .. }, Rate { rate, remainder }) = (self.sync, self.rate(SYNC_ROW));
        let [r21, r22, r23] = self.refused;
        _ = writeln!(text, "sync unchanged {unchanged} one {one} two {two} rate {rate} remainder {remainder}");
        _ = writeln!(text, "listings {} refused21 {r21} refused22 {r22} refused23 {r23}", self.listings);
        text
    }
}

const OUT_OF_BOUNDS: Refusal = Refusal { number: 11, place: 0, position: 0 };
const ONE_TOO_MANY: Refusal = Refusal { number: 23, place: 1001, position: 0 };

/// Bits mended and bits received.
fn bits(Words { unchanged, one, two, lost }: Words) -> (u64, u64) {
    let words: u64 = [unchanged, one, two, lost].into_iter().map(u64::from).sum();
    (u64::from(one) + 2 * u64::from(two), 32 * words)
}

/// The report of listings, one after the other from an empty one on.
pub fn month(listings: &[impl AsRef<[u8]>]) -> Result<Coverage, Refusal> {
    let mut report = Coverage::default();
    listings.iter().try_for_each(|listing| report.add(listing.as_ref()))?;
    Ok(report)
}

/// The plain way: the report with this listing's own added.
pub fn with_another(report: &Coverage, listing: &[u8]) -> Result<Coverage, Refusal> {
    let [listings, counts @ ..] = report.numbers();
    // so many listings have to be there at least
    let least = counts.iter().map(|count| count.div_ceil(MOST_A_LISTING)).max();
    match listings {
        0..=MOST_LISTINGS if least > Some(listings) => Err(OUT_OF_BOUNDS),
        MOST_LISTINGS => Err(ONE_TOO_MANY),
        0..MOST_LISTINGS => Ok(report.plus(&alone(listing))),
        _ => Err(OUT_OF_BOUNDS),
    }
}

/// The report of a single listing.
pub fn alone(listing: &[u8]) -> Coverage {
    let mut report = Coverage { listings: 1, ..Coverage::default() };
    match reader::log_of_listing(listing) {
        Ok(Log { lines, .. }) => {
            let words = reader::batches_of_listing(listing).expect("it was read");
            words.iter().enumerate().for_each(|(at, &word)| count_alone(&mut report, at % BATCH_WORDS, word));
            for line in lines.split_inclusive(|&byte| byte == b'\n') {
                let identity = number(&line[..6]).expect("six digits");
                report.pages[identity as usize % 8].ended(line.ends_with(b"-\n"));
            }
        }
        Err(Refusal { number: 21, .. }) => report.refused[0] = 1,
        Err(Refusal { number: 22, .. }) => report.refused[1] = 1,
        Err(_) => report.refused[2] = 1,
    }
    report
}

/// Counts a word as it is read in this place of a batch that holds nothing else.
fn count_alone(report: &mut Coverage, at: usize, word: u32) {
    let mut batch = [IDLE; BATCH_WORDS];
    batch[0] = SYNC;
    batch[at] = word;
    let Log { lost, changed, .. } = reader::read(&batch);
    let words = if at == 0 { &mut report.sync } else { &mut report.frames[(at - 1) / 2] };
    match (lost, changed.slots + changed.syncs) {
        (1, _) => words.lost += 1,
        (_, 0) => words.unchanged += 1,
        (_, 1) => words.one += 1,
        _ => words.two += 1,
    }
}

#[cfg(test)]
mod tests {
    use super::*;
    use crate::codeword::{address, encode, message, RESERVED};
    use crate::reader::{log_of_listing, Changes};
    use crate::trials::{batches, listed};

    const LOST: u32 = 7;
    const TWELVE: u32 = 0x84333;

    /// The report with a listing more, in both ways the same; a declined one is as it was.
    fn with(report: &Coverage, listing: &[u8]) -> Result<Coverage, Refusal> {
        let mut added = *report;
        let answer = added.add(listing).map(|()| added);
        if answer.is_err() {
            assert_eq!(added, *report);
        }
        assert_eq!(with_another(report, listing), answer);
        answer
    }

    /// The report of one listing, from an empty one on.
    fn of_listing(listing: &[u8]) -> Coverage {
        let report = with(&Coverage::default(), listing).unwrap();
        assert_eq!(alone(listing), report);
        if let Ok(log) = log_of_listing(listing) {
            assert_eq!(totals(&report), log_totals(&log));
        }
        report
    }

    fn of(batches: &[u32]) -> Coverage {
        of_listing(&listed(batches))
    }

    /// Words lost, pages, and bits mended in the slots and in the syncs.
    fn totals(report: &Coverage) -> (u32, u32, Changes) {
        let mended = |words: &Words| words.one + 2 * words.two;
        let lost = report.frames.iter().map(|words| words.lost).sum();
        let pages = report.pages.iter().map(|pages| pages.whole + pages.cut).sum();
        (lost, pages, Changes { slots: report.frames.iter().map(mended).sum(), syncs: mended(&report.sync) })
    }

    fn log_totals(log: &Log) -> (u32, u32, Changes) {
        (log.lost, log.pages, log.changed)
    }

    fn words(unchanged: u32, one: u32, two: u32, lost: u32) -> Words {
        Words { unchanged, one, two, lost }
    }

    /// A report of idle batches alone.
    fn idle(count: u32) -> Coverage {
        let frames = [words(2 * count, 0, 0, 0); 8];
        Coverage { listings: 1, frames, sync: words(count, 0, 0, 0), ..Coverage::default() }
    }

    fn pages(report: &Coverage) -> Vec<(u32, u32)> {
        report.pages.iter().map(|pages| (pages.whole, pages.cut)).collect()
    }

    /// Pages in some frames, and in the others none.
    fn some(frames: &[(usize, (u32, u32))]) -> Vec<(u32, u32)> {
        let mut all = vec![(0, 0); 8];
        frames.iter().for_each(|&(frame, counts)| all[frame] = counts);
        all
    }

    #[test]
    fn numbers_both_ways() {
        let numbers = std::array::from_fn(|i| 7 * i as u32);
        let report = Coverage::of_numbers(&numbers);
        assert_eq!(report.numbers(), numbers);
        assert_eq!((report.listings, report.refused), (0, [7, 14, 21]));
        assert_eq!((report.frames[0], report.frames[7]), (words(28, 35, 42, 49), words(7 * 32, 7 * 33, 7 * 34, 7 * 35)));
        assert_eq!((report.sync, report.pages[7]), (words(7 * 36, 7 * 37, 7 * 38, 0), Pages { whole: 7 * 53, cut: 7 * 54 }));
        assert_eq!(Coverage::default().numbers(), [0; NUMBERS]);
    }

    #[test]
    fn every_word_is_counted_once() {
        for count in [1, 2, 300] {
            assert_eq!(of(&batches(count, &[])), idle(count as u32));
        }
        // a word of every sort in every slot, with every count of wrong bits
        for word in [IDLE, message(TWELVE), address(0, 2)] {
            for (flips, class) in [(0, [1, 0, 0, 0]), (1, [0, 1, 0, 0]), (0x8000_0001, [0, 0, 1, 0]), (0x8000_0003, [0, 0, 0, 1])] {
                for slot in 0..32 {
                    let report = of(&batches(2, &[(slot, &[word ^ flips])]));
                    let [unchanged, one, two, lost] = class;
                    let mut expected = idle(2).frames;
                    expected[slot % 16 / 2] = words(3 + unchanged, one, two, lost);
                    assert_eq!((report.frames, report.sync), (expected, idle(2).sync), "{word:08X} {flips:08X} {slot}");
                }
            }
        }
    }

    #[test]
    fn a_lost_word_is_in_no_other_class() {
        let one_or_two = (0..32).flat_map(|i| (0..=i).map(move |j| 1u32 << i | 1 << j));
        let patterns: Vec<u32> = [0].into_iter().chain(one_or_two).collect();
        for word in RESERVED.iter().flat_map(|upper| (0..4).map(move |function| encode(upper << 2 | function))) {
            for flips in &patterns {
                let expected = match flips.count_ones() {
                    _ if word != IDLE => words(1, 0, 0, 1),
                    0 => words(2, 0, 0, 0),
                    1 => words(1, 1, 0, 0),
                    _ => words(1, 0, 1, 0),
                };
                assert_eq!(of(&batches(1, &[(5, &[word ^ flips])])).frames[2], expected, "{word:08X} {flips:08X}");
            }
        }
    }

    #[test]
    fn syncs_by_their_wrong_bits() {
        for i in 0..32 {
            for j in 0..=i {
                let mut three = batches(3, &[]);
                three[BATCH_WORDS] ^= 1 << i | 1 << j;
                let report = of(&three);
                let expected = if i == j { words(2, 1, 0, 0) } else { words(2, 0, 1, 0) };
                assert_eq!((report.sync, report.frames), (expected, idle(3).frames));
            }
        }
    }

    #[test]
    fn pages_by_the_frame_of_their_address() {
        let m = message(TWELVE);
        // the address's own upper bits end in 1: a frame is never taken from them
        for slot in 0..16 {
            let frame = slot / 2;
            for (part, counts) in [
                (&[address(8, 0)][..], (1, 0)),
                (&[address(8, 1), m], (1, 0)),
                (&[address(8, 0), LOST], (0, 1)),
                (&[address(8, 3), m, m, m, m, m, m, m, SYNC], (0, 1)),
                (&[address(8, 3), m, m, m, m, m, m, m, IDLE ^ 1, LOST], (1, 0)),
                (&[address(8, 2), m ^ 7, m], (0, 1)),
            ] {
                assert_eq!(pages(&of(&batches(2, &[(slot, part)]))), some(&[(frame, counts)]), "{slot} {part:08X?}");
            }
        }
        // to the end, through every sync
        let long = [&[address(0, 1)], &[m; 41][..]].concat();
        assert_eq!(pages(&of(&batches(3, &[(6, &long)]))), some(&[(3, (1, 0))]));
        // one ends another; in every slot
        assert_eq!(pages(&of(&batches(1, &[(0, &[address(0, 0); 16])]))), vec![(2, 0); 8]);
        assert_eq!(pages(&of(&batches(300, &[(0, &[address(0, 0); 4800])]))), vec![(600, 0); 8]);
        // orphans are no pages
        assert_eq!(pages(&of(&batches(1, &[(0, &[m, m, LOST, m, IDLE, m])]))), some(&[]));
    }

    #[test]
    fn a_refused_listing_is_counted_by_its_number_alone() {
        let good = batches(3, &[(2, &[address(0, 0), LOST, message(0) ^ 3])]);
        let mut bad_sync = good.clone();
        bad_sync[2 * BATCH_WORDS] ^= 7;
        let listing = listed(&good);
        let cases = [
            (vec![], [1, 0, 0]),
            (listing[..listing.len() - 1].to_vec(), [1, 0, 0]),
            ([&listing[..], b"\n"].concat(), [1, 0, 0]),
            (listed(&bad_sync), [0, 1, 0]),
            (listed(&batches(301, &[])), [0, 0, 1]),
        ];
        let mut all = vec![];
        for (listing, refused) in cases {
            assert_eq!(of_listing(&listing), Coverage { listings: 1, refused, ..Coverage::default() });
            all.push(listing);
        }
        all.push(listing.clone());
        let expected = Coverage { listings: 6, refused: [3, 1, 1], ..of_listing(&listing) };
        assert_eq!(month(&all), Ok(expected));
    }

    #[test]
    fn the_same_for_any_order_and_the_sum_of_the_single_ones() {
        let mut listings: Vec<Vec<u8>> = (0..8)
            .map(|i| {
                let mut words = batches(1 + i % 3, &[(i, &[address(0, 0), message(TWELVE), LOST][..1 + i % 3])]);
                words.iter_mut().for_each(|word| *word ^= (1 << i | 1 << (2 * i % 7)) & 0x11);
                listed(&words)
            })
            .collect();
        listings.extend([vec![], b"x".to_vec()]);
        let expected = month(&listings).unwrap();
        let sum = listings.iter().map(|listing| alone(listing)).fold(Coverage::default(), |sum, single| sum.plus(&single));
        assert_eq!((sum, expected.listings, expected.refused), (expected, 10, [2, 0, 0]));
        for turn in 0..listings.len() {
            listings.rotate_left(turn);
            assert_eq!(month(&listings), Ok(expected));
            listings.reverse();
            assert_eq!(month(&listings), Ok(expected));
        }
    }

    /// Number and place, 0 and 0 where a listing is added; both for a good one and for one that is refused.
    fn answered(numbers: [u32; NUMBERS]) -> (u32, usize) {
        let report = Coverage::of_numbers(&numbers);
        let answer = |listing: &[u8]| with(&report, listing).map_or_else(|refusal| (refusal.number, refusal.place), |_| (0, 0));
        let good = answer(&listed(&batches(1, &[])));
        assert_eq!(answer(b""), good);
        good
    }

    #[test]
    fn reports_out_of_bounds() {
        for listings in [0, 1, 2, 999, 1000, 1001, 1002, 65_536, 7_158_279, u32::MAX] {
            let mut numbers = [0; NUMBERS];
            numbers[0] = listings;
            let within = match listings {
                0..1000 => (0, 0),
                1000 => (23, 1001),
                _ => (11, 0),
            };
            assert_eq!(answered(numbers), within);
            let Some(most) = listings.checked_mul(600) else { continue };
            for at in 1..NUMBERS {
                for (count, expected) in [(most, within), (most + 1, (11, 0)), (u32::MAX, (11, 0))] {
                    numbers[at] = count;
                    assert_eq!(answered(numbers), expected, "{listings} {at} {count}");
                }
                numbers[at] = 0;
            }
            // every count at its limit, each alone
            let full: [u32; NUMBERS] = std::array::from_fn(|at| if at == 0 { listings } else { most });
            assert_eq!(answered(full), within);
        }
    }

    #[test]
    fn a_thousand_listings() {
        let good = listed(&batches(300, &[(0, &[address(0, 0); 4800])]));
        let single = of_listing(&good);
        let almost = (0..999).fold(Coverage::default(), |sum, _| sum.plus(&single));
        let report = with(&almost, &good).unwrap();
        // every true report keeps within the bounds
        assert_eq!((report.listings, report.frames), (1000, [words(600_000, 0, 0, 0); 8]));
        assert_eq!((report.sync.unchanged, pages(&report)), (300_000, vec![(600_000, 0); 8]));
        for listing in [&good[..], b""] {
            assert_eq!(with(&report, listing), Err(Refusal::new(23, 1001)));
        }
        assert_eq!(month(&vec![b""; 1000]).unwrap().refused, [1000, 0, 0]);
        assert_eq!(month(&vec![b""; 1001]), Err(Refusal::new(23, 1001)));
    }

    /// The rate of a frame and that of sync with the same words, in both ways the same.
    fn rate(words: Words) -> (u64, u64) {
        let mut report = Coverage::default();
        report.frames[3] = words;
        report.sync = words;
        for row in (0..12).chain([16, 256, 264, 1 << 31, u32::MAX]) {
            let Rate { rate, remainder } = report.rate(row);
            assert_eq!(report.rate_by_digits(row), Rate { rate, remainder });
            assert_eq!((rate, remainder) == (0, 0), !matches!(row, 3 | 8) || (words.one, words.two) == (0, 0));
        }
        let Rate { rate, remainder } = report.rate(3);
        assert_eq!(report.rate(SYNC_ROW), Rate { rate, remainder });
        (rate, remainder)
    }

    #[test]
    fn rates_by_hand() {
        assert_eq!(rate(words(0, 0, 0, 0)), (0, 0));
        assert_eq!(rate(words(5, 0, 0, 0)), (0, 0));
        assert_eq!(rate(words(0, 1, 0, 0)), (31_250, 0));
        assert_eq!(rate(words(0, 0, 1, 0)), (62_500, 0));
        // a lost word's bits are received
        assert_eq!(rate(words(0, 0, 0, 9)), (0, 0));
        assert_eq!(rate(words(0, 1, 0, 1)), (15_625, 0));
        // 1,000,000 of 96 bits, and 3,000,000 of 224
        assert_eq!(rate(words(2, 1, 0, 0)), (10_416, 64));
        assert_eq!(rate(words(3, 1, 1, 2)), (13_392, 192));
        // under one in a million
        assert_eq!(rate(words(31_249, 1, 0, 0)), (1, 0));
        assert_eq!(rate(words(31_250, 1, 0, 0)), (0, 1_000_000));
        // the most a report within the bounds has, and the most of all
        assert_eq!(rate(words(0, 0, 600_000, 0)), (62_500, 0));
        assert_eq!(rate(words(600_000, 600_000, 600_000, 600_000)), (23_437, 38_400_000));
        let most = u32::MAX;
        assert_eq!(rate(words(most, most, most, most)), (23_437, 64 * u64::from(most)));
        assert_eq!(rate(words(0, 0, most, 0)), (62_500, 0));
    }

    #[test]
    fn the_lines_of_a_report() {
        let mut three = batches(3, &[(2, &[address(0, 0), LOST]), (7, &[IDLE ^ 1, IDLE ^ 3]), (30, &[address(0, 0)])]);
        three[0] ^= 0x8000_0001;
        let idle = |frame: u32| format!("frame {frame} unchanged 6 one 0 two 0 lost 0 whole 0 cut 0 rate 0 remainder 0\n");
        let expected = [
            idle(0),
            "frame 1 unchanged 5 one 0 two 0 lost 1 whole 0 cut 1 rate 0 remainder 0\n".into(),
            idle(2),
            "frame 3 unchanged 5 one 1 two 0 lost 0 whole 0 cut 0 rate 5208 remainder 64\n".into(),
            "frame 4 unchanged 5 one 0 two 1 lost 0 whole 0 cut 0 rate 10416 remainder 128\n".into(),
            idle(5),
            idle(6),
            "frame 7 unchanged 6 one 0 two 0 lost 0 whole 1 cut 0 rate 0 remainder 0\n".into(),
            "sync unchanged 2 one 0 two 1 rate 20833 remainder 32\n".into(),
            "listings 2 refused21 1 refused22 0 refused23 0\n".into(),
        ];
        assert_eq!(month(&[listed(&three), vec![]]).unwrap().text(), expected.concat());
    }
}
