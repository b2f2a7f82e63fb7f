//! The desk receiver, beside the independent one and beside the library's full reading.

use crate::measure::row;
use crate::{largest, Bench};
use generate::{followed, listings, Random};
use independent::book::NO_BOOK;
use independent::send::Accepted;
use independent::{follow, reader, Refusal};
use std::hint::black_box;

/// An identity, the batches in which it is followed, and their listing.
pub struct Case {
    name: &'static str,
    identity: u32,
    words: Vec<u32>,
    listing: Vec<u8>,
}

pub fn cases() -> Vec<Case> {
    let mut random = Random::new(1);
    let short = Accepted::new(b"000009 4 3132\n", NO_BOOK).expect("good job").words().split_off(18);
    let largest = largest(&mut random);
    let lines = reader::log_of_words(&largest).expect("can be read").lines;
    let present = followed::identities(&mut random, &lines)[0];
    let is_absent = |&identity: &u32| follow::lines_of_words(identity, &largest).is_ok_and(|followed| followed.count == 0);
    let absent = (1..).map(|i| present ^ i << 3).find(is_absent).expect("48 are present");
    let cases = [
        ("one batch, its identity", 0x00_0009, short),
        ("the largest job, one of its identities", present, largest.clone()),
        ("the largest job, an identity that it doesn't have", absent, largest),
        ("300 idle batches, any identity", present, listings::idle_batches(300)),
    ];
    let case = |(name, identity, words): (_, _, Vec<u32>)| {
        let listing = listings::listing(9, 0xAAAA_AAAA, &words);
        Case { name, identity, words, listing }
    };
    cases.map(case).into()
}

impl Bench {
    /// Following, beside the independent implementation.
    pub fn following(&mut self, cases: &[Case]) {
        for case in cases {
            self.follow_words_row(case);
            self.follow_listing_row(case);
        }
    }

    fn follow_words_row(&mut self, &Case { name, identity, ref words, .. }: &Case) {
        let mut bytes = self.bytes.clone();
        same(card::follow_words(identity, words, &mut self.bytes), follow::follow_words(identity, words, &mut bytes));
        assert!(bytes == self.bytes);
        row(
            self.effort,
            &format!("follow in the words of {name}"),
            1,
            &mut || _ = black_box(card::follow_words(identity, black_box(words), &mut self.bytes)),
            &mut || _ = black_box(follow::follow_words(identity, black_box(words), &mut bytes)),
        );
    }

    fn follow_listing_row(&mut self, &Case { name, identity, ref listing, .. }: &Case) {
        let mut bytes = self.bytes.clone();
        same(card::follow_listing(identity, listing, &mut self.bytes), follow::follow_listing(identity, listing, &mut bytes));
        assert!(bytes == self.bytes);
        row(
            self.effort,
            &format!("follow in the listing of {name}"),
            1,
            &mut || _ = black_box(card::follow_listing(identity, black_box(listing), &mut self.bytes)),
            &mut || _ = black_box(follow::follow_listing(identity, black_box(listing), &mut bytes)),
        );
    }

    /// Following, beside the full reading, both the library's own; what is followed is compared above.
    pub fn following_and_reading(&mut self, cases: &[Case]) {
        let mut bytes = self.bytes.clone();
        for &Case { name, identity, ref words, ref listing } in cases {
            row(
                self.effort,
                &format!("the words of {name}"),
                1,
                &mut || _ = black_box(card::follow_words(identity, black_box(words), &mut self.bytes)),
                &mut || _ = black_box(card::read_words(black_box(words), &mut bytes)),
            );
            row(
                self.effort,
                &format!("the listing of {name}"),
                1,
                &mut || _ = black_box(card::follow_listing(identity, black_box(listing), &mut self.bytes)),
                &mut || _ = black_box(card::read_listing(black_box(listing), &mut bytes)),
            );
        }
    }
}

fn same(library: card::Following, independent: Result<follow::Following, Refusal>) {
    let card::Following { bytes, number, lines, .. } = library;
    assert_eq!((number, follow::Following { bytes, lines }), (0, independent.expect("can be followed")));
}
