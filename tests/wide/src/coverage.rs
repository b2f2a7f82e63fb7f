//! A month of listings in numbers. What a listing does to a report, which may be any, must be what it does to the independent one,
//! in each of its two ways. What it adds to an empty report must be what the library itself reads in it. Of several listings the order
//! doesn't matter, and the report is the sum of the single ones.

use crate::compare::{differs, same_buffer, shown, Comparison, Difference, Outcome};
use crate::lent::Lent;
use card::coverage::{self, PageCounts};
use card::steps;
use generate::months::{self, Numbers};
use generate::Random;
use independent::coverage::{with_another, Coverage, Rate, NUMBERS, SYNC_ROW};
use independent::Refusal;

const ADD: &str = "add listing";
const RATE: &str = "coverage rate";
const READ: &str = "coverage and read listing";

const EMPTY: Numbers = [0; NUMBERS];

/// Rows, and numbers that are none.
const ROWS: [u32; 17] = [0, 1, 2, 3, 4, 5, 6, 7, SYNC_ROW, 9, 10, 15, 16, 256, 264, 1 << 31, u32::MAX];

impl Comparison {
    /// Reports and listings about the limits, the same in every run.
    pub fn coverage_limits(&mut self) -> Outcome {
        let [good, short, bad_sync, _] = months::one_of_each();
        for (number, report) in months::edges().iter().enumerate() {
            self.add(report, [&good, &short, &good, &bad_sync][number % 4])?;
            if number % 3 == 0 {
                self.rates(report)?;
            }
        }
        for listing in months::limits() {
            self.add(&EMPTY, &listing)?;
        }
        let whole = self.month(&months::whole())?;
        for listing in months::one_of_each() {
            self.add(&whole, &listing)?;
        }
        Ok(())
    }

    pub fn coverage_round(&mut self, random: &mut Random) -> Outcome {
        self.month(&months::month(random))?;
        for _ in 0..15 {
            let report = months::report(random);
            self.add(&report, &months::any(random))?;
            self.rates(&report)?;
        }
        Ok(())
    }

    /// What a listing adds to an empty report, which must be what the library reads in it, and to another.
    pub fn covered(&mut self, listing: &[u8]) -> Outcome {
        let mut single = self.add(&EMPTY, listing)?;
        let number = as_read(listing, coverage::Coverage::of(&mut single))?;
        self.count(READ, number);
        let other = months::report(&mut self.random);
        self.add(&other, listing)?;
        Ok(())
    }

    /// Listings one after the other, then in another order, and each alone: the report, the same report, and its summands.
    fn month(&mut self, listings: &[Vec<u8>]) -> Result<Numbers, Difference> {
        let (mut report, mut sum) = (EMPTY, EMPTY);
        for listing in listings {
            report = self.add(&report, listing)?;
            let single = self.add(&EMPTY, listing)?;
            sum.iter_mut().zip(single).for_each(|(sum, number)| *sum += number);
            self.rates(&report)?;
        }
        let mut order: Vec<usize> = (0..listings.len()).collect();
        months::shuffle(&mut self.random, &mut order);
        let mut shuffled = EMPTY;
        for &number in &order {
            coverage::add(&listings[number], coverage::Coverage::of(&mut shuffled));
        }
        for (how, other) in [("the sum of the single reports", sum), ("in another order", shuffled)] {
            if other != report {
                let all: Vec<String> = listings.iter().map(|listing| shown(listing)).collect();
                differs(&format!("{ADD}: {how}"), other, report, &format!("order {order:?}, listings:\n{}", all.join("\n\n")))?;
            }
        }
        self.count("month of listings", 0);
        Ok(report)
    }

    /// Adds a listing to a report, which may be any: what is answered, and every number of the report afterwards.
    fn add(&mut self, before: &Numbers, listing: &[u8]) -> Result<Numbers, Difference> {
        let input = || format!("report {before:?}, listing:\n{}", shown(listing));
        let mut report = Coverage::of_numbers(before);
        let plainly = with_another(&report, listing);
        let answer = report.add(listing);
        if plainly != answer.map(|()| report) {
            differs(&format!("{ADD}: the independent report in the plain way"), plainly, (answer, report), &input())?;
        }
        let expected = answer.map_or_else(
            |Refusal { number, place, position }| steps::Refusal { place, position, number },
            |()| steps::Refusal::NONE,
        );
        let mut lent = self.lent(before);
        let mut after = lent.clone();
        after.slice().copy_from_slice(&report.numbers());
        let got = coverage::add(listing, coverage::Coverage::of(numbers(&mut lent)));
        if got != expected {
            differs(ADD, got, expected, &input())?;
        }
        same_buffer(&format!("{ADD}: of the report's numbers"), &lent, &after, input)?;
        self.count(ADD, expected.number);
        Ok(*numbers(&mut lent))
    }

    /// The rate of every row, and of what is none.
    fn rates(&mut self, report: &Numbers) -> Outcome {
        let before = self.lent(report);
        let mut lent = before.clone();
        let expected = Coverage::of_numbers(report);
        for row in ROWS {
            let input = || format!("row {row}, report {report:?}");
            let (right, by_digits) = (expected.rate(row), expected.rate_by_digits(row));
            if by_digits != right {
                differs(&format!("{RATE}: the independent one by digits"), by_digits, right, &input())?;
            }
            let coverage::Rate { rate, remainder } = coverage::rate(coverage::Coverage::of(numbers(&mut lent)), row);
            let got = Rate { rate, remainder };
            if got != right {
                differs(RATE, got, right, &input())?;
            }
            self.count(RATE, 0);
        }
        same_buffer(RATE, &lent, &before, || format!("report {report:?}"))
    }

    /// A report in the midst of sentinels.
    fn lent(&mut self, report: &Numbers) -> Lent<u32> {
        let mut lent = Lent::new(&mut self.random, NUMBERS);
        lent.slice().copy_from_slice(report);
        lent
    }
}

/// The report that is lent.
fn numbers(lent: &mut Lent<u32>) -> &mut Numbers {
    lent.slice().try_into().expect("as many as are lent")
}

/// A listing's own report against the library's reading of it: by which number it is refused, if it is, the pages that are printed, the
/// words lost, and the bits changed in the slots and in the syncs. Answers the number.
fn as_read(listing: &[u8], report: &coverage::Coverage) -> Result<u32, Difference> {
    let mut lines = vec![0; card::LINES_BYTES];
    let card::Reading { bytes, number, lost, changed, .. } = card::read_listing(listing, &mut lines);
    let mut pages = [PageCounts::default(); 8];
    for line in lines[..bytes].split_inclusive(|&byte| byte == b'\n') {
        let frame = (line[5] as char).to_digit(16).map_or(0, |digit| digit as usize % 8);
        match line {
            [.., b'-', _] => pages[frame].cut += 1,
            _ => pages[frame].whole += 1,
        }
    }
    let refused = [21, 22, 23].map(|each| u32::from(number == each));
    let frames = report.frames.iter();
    let in_slots = frames.clone().map(|words| words.one + 2 * words.two).sum();
    let mended = card::Changes { slots: in_slots, syncs: report.sync.one + 2 * report.sync.two };
    let got = (report.refused, report.pages, frames.map(|words| words.lost).sum::<u32>(), mended);
    let expected = (refused, pages, lost, changed);
    if got != expected {
        differs(READ, got, expected, &format!("listing:\n{}", shown(listing)))?;
    }
    Ok(number)
}
