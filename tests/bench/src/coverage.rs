//! A listing added to a coverage report, beside the independent one and beside the library's reading of the same listing; and the
//! rate of a frame.

use crate::measure::row;
use crate::{largest, Bench};
use card::coverage;
use generate::words::Damage;
use generate::{jobs, listings, words, Random};
use independent::book::NO_BOOK;
use independent::coverage::{month, Coverage, Rate, MOST_LISTINGS, SYNC_ROW};
use independent::send::Accepted;
use std::hint::black_box;

/// A listing.
pub struct Case {
    name: &'static str,
    listing: Vec<u8>,
}

pub fn cases() -> Vec<Case> {
    let mut random = Random::new(1);
    let tones = jobs::pages(&mut random, 48, &[5], &[0]);
    let tones = Accepted::new(&tones, NO_BOOK).expect("good job").words().split_off(18);
    let full = words::full_batches(&mut random, 300);
    let mut damaged = full.clone();
    words::damage(&mut random, &mut damaged, Damage::Three(12));
    let mut refused = full.clone();
    refused[17 * 299] ^= 7;
    let case = |name, batches: &[u32]| Case { name, listing: listings::listing(9, 0xAAAA_AAAA, batches) };
    vec![
        case("one full batch", &words::full_batches(&mut random, 1)),
        case("48 tones in one frame", &tones),
        case("the largest job", &largest(&mut random)),
        case("300 full batches", &full),
        case("300 full batches, with none to three wrong bits a word", &damaged),
        case("300 full batches, refused at the last sync", &refused),
        case("300 idle batches", &listings::idle_batches(300)),
    ]
}

impl Bench {
    /// Adding, beside the independent implementation: single listings to reports of zeros, a whole month, and the rate of a frame.
    pub fn covering(&mut self, cases: &[Case]) {
        for Case { name, listing } in cases {
            self.month_row(&format!("add to a report the listing of {name}"), listing, 1);
        }
        self.month_row("add to a report each of 1,000 listings of one full batch", &cases[0].listing, MOST_LISTINGS as usize);
        let listings: Vec<&[u8]> = cases.iter().map(|case| &case.listing[..]).collect();
        let report = month(&listings).expect("not many");
        let mut numbers = report.numbers();
        let lent = coverage::Coverage::of(&mut numbers);
        for row in 0..=SYNC_ROW {
            let coverage::Rate { rate, remainder } = coverage::rate(lent, row);
            assert_eq!(report.rate(row), Rate { rate, remainder });
        }
        let mut library = || _ = black_box(coverage::rate(black_box(lent), black_box(3)));
        let mut independent = || _ = black_box(rate_alone(black_box(&report), black_box(3)));
        row(self.effort, "the rate of a frame", 1, &mut library, &mut independent);
    }

    /// The same listing so many times.
    fn month_row(&mut self, name: &str, listing: &[u8], times: usize) {
        let listings = vec![listing; times];
        let report = month(&listings).expect("not too many");
        assert_eq!(*added(&listings).numbers(), report.numbers());
        let mut library = || _ = black_box(added(black_box(&listings)));
        let mut independent = || _ = black_box(month(black_box(&listings)));
        row(self.effort, name, times, &mut library, &mut independent);
    }

    /// Adding, beside the reading of the same listing, both the library's own.
    pub fn covering_and_reading(&mut self, cases: &[Case]) {
        for Case { name, listing } in cases {
            let number = card::read_listing(listing, &mut self.bytes).number;
            assert_eq!(added(&[listing]).refused, [21, 22, 23].map(|each| u32::from(each == number)));
            let mut adding = || _ = black_box(added(&[black_box(listing)]));
            let mut reading = || _ = black_box(card::read_listing(black_box(listing), &mut self.bytes));
            row(self.effort, &format!("the listing of {name}"), 1, &mut adding, &mut reading);
        }
    }
}

/// The report of listings.
fn added(listings: &[&[u8]]) -> coverage::Coverage {
    let mut report = coverage::Coverage::default();
    for listing in listings {
        assert_eq!(coverage::add(listing, &mut report).number, 0);
    }
    report
}

/// One call, as the library is called.
#[inline(never)]
fn rate_alone(report: &Coverage, row: u32) -> Rate {
    report.rate(row)
}
