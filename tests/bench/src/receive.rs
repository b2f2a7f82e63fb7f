//! The receiver, beside the independent one and beside the library's reading of the same batches.

use crate::measure::row;
use crate::{largest, Bench};
use generate::{recordings, words, Random};
use independent::receive::{self, bits_of_words, recorded, Receiving, MOST_BYTES};
use independent::{reader, Refusal};
use std::hint::black_box;

/// A recording, and the batches in it, which are none where they aren't read for comparison.
pub struct Case {
    name: &'static str,
    recording: Vec<u8>,
    batches: Vec<u32>,
}

pub fn cases() -> Vec<Case> {
    let mut random = Random::new(1);
    let one = words::full_batches(&mut random, 1);
    let full = words::full_batches(&mut random, 300);
    let mut damaged = full.clone();
    words::damage(&mut random, &mut damaged, words::Damage::Light);
    let largest = largest(&mut random);
    let alone = recorded(&recordings::in_runs(&full, 1));
    let case = |name, batches: Vec<u32>| Case { name, recording: recorded(&bits_of_words(&batches)), batches };
    vec![
        case("one full batch", one),
        case("300 full batches in a run", full),
        case("300 full batches in a run, with none to two wrong bits a word", damaged),
        Case { name: "300 full batches, each a run of its own", recording: alone, batches: vec![] },
        Case { name: "the largest job behind 576 bits of noise", recording: behind_noise(&mut random, &largest), batches: largest },
    ]
}

/// Batches behind as many bits as a preamble has.
fn behind_noise(random: &mut Random, batches: &[u32]) -> Vec<u8> {
    recorded(&[recordings::noise(random, 576), bits_of_words(batches)].concat())
}

impl Bench {
    /// Receiving, beside the independent implementation: noise as a whole and for each bit of it, then batches.
    pub fn receiving(&mut self, cases: &[Case]) {
        let noise = recorded(&recordings::noise(&mut Random::new(1), 8 * MOST_BYTES));
        assert_eq!(receive::log_of_recording(&noise).map(|received| received.batches), Ok(0));
        self.receive_row("receive 65,536 bytes of noise", &noise, 1);
        self.receive_row("receive a bit of 65,536 bytes of noise", &noise, 8 * MOST_BYTES);
        for Case { name, recording, .. } in cases {
            self.receive_row(&format!("receive {name}"), recording, 1);
        }
    }

    fn receive_row(&mut self, name: &str, recording: &[u8], units: usize) {
        let mut bytes = self.bytes.clone();
        same(card::receive(recording, &mut self.bytes), receive::receive(recording, &mut bytes));
        assert!(bytes == self.bytes);
        let mut library = || _ = black_box(card::receive(black_box(recording), &mut self.bytes));
        let mut independent = || _ = black_box(receive::receive(black_box(recording), &mut bytes));
        row(self.effort, name, units, &mut library, &mut independent);
    }

    /// Receiving, beside the reading of the words of the same batches, both the library's own.
    pub fn receiving_and_reading(&mut self, cases: &[Case]) {
        let mut bytes = self.bytes.clone();
        for Case { name, recording, batches } in cases.iter().filter(|case| !case.batches.is_empty()) {
            assert_eq!(card::receive(recording, &mut self.bytes).bytes, card::read_words(batches, &mut bytes).bytes);
            let mut receiving = || _ = black_box(card::receive(black_box(recording), &mut self.bytes));
            let mut reading = || _ = black_box(card::read_words(black_box(batches), &mut bytes));
            row(self.effort, name, 1, &mut receiving, &mut reading);
        }
    }
}

fn same(library: card::Receiving, independent: Result<Receiving, Refusal>) {
    let card::Receiving { bytes, number, batches, pages, lost, orphans, changed: card::Changes { slots, syncs }, .. } = library;
    let reading = reader::Reading { bytes, pages, lost, orphans, changed: reader::Changes { slots, syncs } };
    assert_eq!((number, Receiving { batches, reading }), (0, independent.expect("can be received")));
}
