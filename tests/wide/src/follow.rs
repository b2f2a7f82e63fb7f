//! The desk receiver: one identity in words or in a listing. The library must answer what the independent receiver answers, and
//! that must be the lines of the full reading that have the identity.

use crate::compare::{differs, same_buffer, shown, shown_words, Comparison, Outcome};
use crate::lent::Lent;
use generate::{buffer_length, followed, listings, Random};
use independent::book::NO_BOOK;
use independent::follow::{self, Followed};
use independent::reader::{self, Log};
use independent::send::Accepted;
use independent::Refusal;

/// What an identity is followed in.
#[derive(Clone, Copy)]
pub enum Received<'a> {
    Words(&'a [u32]),
    Listing(&'a [u8]),
}

impl Received<'_> {
    fn call(&self) -> &'static str {
        match self {
            Received::Words(_) => "follow words",
            Received::Listing(_) => "follow listing",
        }
    }

    fn read(&self) -> Result<Log, Refusal> {
        match self {
            Received::Words(words) => reader::log_of_words(words),
            Received::Listing(listing) => reader::log_of_listing(listing),
        }
    }

    fn independent(&self, identity: u32) -> Result<Followed, Refusal> {
        match self {
            Received::Words(words) => follow::lines_of_words(identity, words),
            Received::Listing(listing) => follow::lines_of_listing(identity, listing),
        }
    }

    fn library(&self, identity: u32, out: &mut [u8]) -> card::Following {
        match self {
            Received::Words(words) => card::follow_words(identity, words, out),
            Received::Listing(listing) => card::follow_listing(identity, listing, out),
        }
    }

    fn shown(&self, identity: u32) -> String {
        match self {
            Received::Words(words) => format!("identity {identity:06X}, words:\n{}", shown_words(words)),
            Received::Listing(listing) => format!("identity {identity:06X}, listing:\n{}", shown(listing)),
        }
    }
}

impl Comparison {
    /// Identities about the limits and in every place, the same in every run.
    pub fn follow_limits(&mut self) -> Outcome {
        for (identity, words) in followed::limits() {
            self.follow_both(identity, &words)?;
        }
        // every length of a buffer about that of a short answer
        let words = Accepted::new(b"000009 4 3132\n000001 1\n000009 2\n", NO_BOOK).expect("good job").words().split_off(18);
        let listing = listings::listing(9, 0xAAAA_AAAA, &words);
        for received in [Received::Words(&words), Received::Listing(&listing)] {
            for length in 0..60 {
                self.follow_into(received, 0x00_0009, &received.independent(0x00_0009), length)?;
            }
        }
        Ok(())
    }

    pub fn follow_round(&mut self, random: &mut Random) -> Outcome {
        for _ in 0..20 {
            let (identity, words) = followed::batches(random);
            self.follow_both(identity, &words)?;
        }
        Ok(())
    }

    /// An identity in words and in their listing.
    fn follow_both(&mut self, identity: u32, words: &[u32]) -> Outcome {
        let listing = listings::listing(9, 0xAAAA_AAAA, words);
        for received in [Received::Words(words), Received::Listing(&listing)] {
            self.follow_identity(received, &received.read(), identity)?;
        }
        Ok(())
    }

    /// Some identities of what was read, or was declined, and some others.
    pub fn follow_some(&mut self, received: Received, read: &Result<Log, Refusal>) -> Outcome {
        let lines = read.as_ref().map_or(&[][..], |log| &log.lines);
        for identity in followed::identities(&mut self.random, lines) {
            self.follow_identity(received, read, identity)?;
        }
        Ok(())
    }

    /// An identity in what was read, or was declined, with buffers of several lengths.
    pub fn follow_identity(&mut self, received: Received, read: &Result<Log, Refusal>, identity: u32) -> Outcome {
        let expected = follow::among(identity, read);
        let independent = received.independent(identity);
        if independent != expected {
            let what = format!("{}: the independent receiver", received.call());
            return differs(&what, independent, expected, &received.shown(identity));
        }
        let exact = expected.as_ref().map_or_else(|_| self.random.below(100), |followed| followed.lines.len());
        let other = buffer_length(&mut self.random, exact);
        for length in [exact, other] {
            self.follow_into(received, identity, &expected, length)?;
        }
        Ok(())
    }

    fn follow_into(&mut self, received: Received, identity: u32, expected: &Result<Followed, Refusal>, length: usize) -> Outcome {
        let before: Lent<u8> = Lent::new(&mut self.random, length);
        let (mut out, mut out_got) = (before.clone(), before);
        let expected = following(expected.as_ref().map_err(|&refusal| refusal).and_then(|lines| lines.hand_over(out.slice())));
        let got = received.library(identity, out_got.slice());
        let input = || format!("out {length}, {}", received.shown(identity));
        if got != expected {
            return differs(received.call(), got, expected, &input());
        }
        same_buffer(received.call(), &out_got, &out, input)?;
        self.count(received.call(), expected.number);
        Ok(())
    }
}

/// What the independent implementation answers where an identity is followed.
fn following(result: Result<follow::Following, Refusal>) -> card::Following {
    match result {
        Ok(follow::Following { bytes, lines }) => card::Following { place: 0, bytes, number: 0, lines },
        Err(Refusal { number, place, .. }) => card::Following { place, bytes: 0, number, lines: 0 },
    }
}
