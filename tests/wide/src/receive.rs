//! The receiver: a recording's page lines. The library must answer what the independent receiver answers, in each of its two ways;
//! and of batches that come whole it must receive what it reads of their words.

use crate::compare::{differs, same_buffer, shown, shown_words, Comparison, Difference, Outcome};
use crate::lent::Lent;
use generate::{buffer_length, recordings, Random};
use independent::placement::BATCH_WORDS;
use independent::reader::Reading;
use independent::receive::{self, Received, Receiving};
use independent::Refusal;

const CALL: &str = "receive";

impl Comparison {
    /// Recordings about the limits, the same in every run.
    pub fn receive_limits(&mut self) -> Outcome {
        for recording in recordings::limits() {
            self.recording(&recording)?;
        }
        // every length of a buffer about that of a short answer, and the one that suffices for all
        let short = recordings::short();
        for length in 0..60 {
            self.receive_into(&short, &receive::log_of_recording(&short), length)?;
        }
        let longest = recordings::longest();
        self.receive_into(&longest, &receive::log_of_recording(&longest), card::RECEIVED_BYTES)
    }

    pub fn receive_round(&mut self, random: &mut Random) -> Outcome {
        for _ in 0..10 {
            self.recording(&recordings::any(random))?;
        }
        Ok(())
    }

    /// Receives a recording, with buffers that just suffice, that are one too short, and of another length.
    pub fn recording(&mut self, recording: &[u8]) -> Outcome {
        let expected = receive::log_of_recording(recording);
        let plainly = receive::run_by_run(recording);
        if plainly != expected {
            return differs("receive: the independent receiver run by run", plainly, expected, &shown_recording(recording));
        }
        let exact = expected.as_ref().map_or_else(|_| self.random.below(100), |received| received.log.lines.len());
        let other = buffer_length(&mut self.random, exact);
        for length in [exact, exact.saturating_sub(1), other] {
            self.receive_into(recording, &expected, length)?;
        }
        Ok(())
    }

    fn receive_into(&mut self, recording: &[u8], expected: &Result<Received, Refusal>, length: usize) -> Outcome {
        let before: Lent<u8> = Lent::new(&mut self.random, length);
        let (mut out, mut out_got) = (before.clone(), before);
        let expected = receiving(expected.as_ref().map_err(|&refusal| refusal).and_then(|lines| lines.hand_over(out.slice())));
        let got = card::receive(recording, out_got.slice());
        let input = || format!("out {length}, {}", shown_recording(recording));
        if got != expected {
            return differs(CALL, got, expected, &input());
        }
        same_buffer(CALL, &out_got, &out, input)?;
        self.count(CALL, expected.number);
        Ok(())
    }

    /// R-10's promise: batches that come whole, behind bits that are nowhere near sync and with at most seven behind, are received as the
    /// library reads their words.
    pub fn received_whole(&mut self, batches: &[u32]) -> Outcome {
        let recording = recordings::whole(&mut self.random, batches);
        self.recording(&recording)?;
        let (mut lines, mut lines_got) = (vec![0; card::LINES_BYTES], vec![0; card::LINES_BYTES]);
        let card::Reading { place, bytes, number, pages, lost, orphans, changed } = card::read_words(batches, &mut lines);
        let count = (batches.len() / BATCH_WORDS) as u32;
        let expected = card::Receiving { place, bytes, number, batches: count, pages, lost, orphans, changed };
        let got = card::receive(&recording, &mut lines_got);
        let input = || format!("words:\n{}\n{}", shown_words(batches), shown_recording(&recording));
        if got != expected {
            return differs("receive and read words", got, expected, &input());
        }
        if lines_got != lines {
            let both = format!("{}\nread:\n{}", shown(&lines_got[..bytes]), shown(&lines[..bytes]));
            return Err(Difference(format!("receive and read words: received:\n{both}\n{}", input())));
        }
        self.count("receive and read words", number);
        Ok(())
    }
}

/// What the independent implementation answers for a recording.
fn receiving(result: Result<Receiving, Refusal>) -> card::Receiving {
    match result {
        Ok(Receiving { batches, reading: Reading { bytes, pages, lost, orphans, changed } }) => {
            let changed = card::Changes { slots: changed.slots, syncs: changed.syncs };
            card::Receiving { place: 0, bytes, number: 0, batches, pages, lost, orphans, changed }
        }
        Err(Refusal { number, place, .. }) => {
            let changed = card::Changes { slots: 0, syncs: 0 };
            card::Receiving { place, bytes: 0, number, batches: 0, pages: 0, lost: 0, orphans: 0, changed }
        }
    }
}

/// A recording as digits, 34 bytes a line.
fn shown_recording(recording: &[u8]) -> String {
    let line = |bytes: &[u8]| bytes.iter().map(|byte| format!("{byte:02X}")).collect::<String>() + "\n";
    format!("recording of {} bytes:\n{}", recording.len(), recording.chunks(34).map(line).collect::<String>())
}
