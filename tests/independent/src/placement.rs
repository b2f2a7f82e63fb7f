//! Placement: which slot each page's address goes to, and how many batches that takes.

use crate::job::Page;
use std::collections::VecDeque;

pub const BATCH_SLOTS: u32 = 16;
pub const BATCH_WORDS: usize = 17;
pub const PREAMBLE_WORDS: usize = 18;

#[derive(Clone, Debug, PartialEq, Eq)]
pub struct Placement {
    /// Address slots, in job order.
    pub slots: Vec<u32>,
    pub batches: u32,
}

impl Placement {
    /// How many words the transmission has.
    pub fn words(&self) -> usize {
        PREAMBLE_WORDS + BATCH_WORDS * self.batches as usize
    }
}

/// Where the pages of a job go. Each frame has its own queue, in job order; in the pause after a message only a tone may leave it.
pub fn place(pages: &[Page]) -> Placement {
    let mut queues: [VecDeque<usize>; 8] = Default::default();
    for (index, page) in pages.iter().enumerate() {
        queues[page.frame() as usize].push_back(index);
    }
    let mut slots = vec![0; pages.len()];
    let mut unsent = pages.len();
    let mut slot = 0;
    let mut pause = false;
    while unsent > 0 {
        let queue = &mut queues[(slot % BATCH_SLOTS / 2) as usize];
        let next = if pause {
            let tone = queue.iter().position(|&index| pages[index].message_words() == 0);
            tone.and_then(|place| queue.remove(place))
        } else {
            queue.pop_front()
        };
        match next {
            Some(index) => {
                let message_words = pages[index].message_words() as u32;
                slots[index] = slot;
                slot += 1 + message_words;
                pause = message_words > 0;
                unsent -= 1;
            }
            None => {
                slot += 1;
                pause = false;
            }
        }
    }
    // where the pause would open a new batch, a message codeword has the last slot
    let batches = slot.div_ceil(BATCH_SLOTS) + u32::from(pause && slot % BATCH_SLOTS == 0);
    Placement { slots, batches }
}

/// Where a slot's word stands in the transmission, counted from 0.
pub fn word_index(slot: u32) -> usize {
    let batch = (slot / BATCH_SLOTS) as usize;
    let in_batch = (slot % BATCH_SLOTS) as usize;
    PREAMBLE_WORDS + BATCH_WORDS * batch + 1 + in_batch
}

#[cfg(test)]
mod tests {
    use super::*;
    use crate::job::{ALPHANUMERIC, DATA_1};

    fn tone(frame: u32) -> Page {
        Page { identity: frame, kind: 0, text: vec![] }
    }

    fn numeric(frame: u32, message_words: usize) -> Page {
        Page { identity: frame, kind: 4, text: vec![b'1'; 5 * message_words] }
    }

    fn alphanumeric(frame: u32, message_words: usize) -> Page {
        Page { identity: frame, kind: ALPHANUMERIC, text: vec![b'A'; 20 * message_words / 7] }
    }

    fn data(frame: u32, message_words: usize) -> Page {
        Page { identity: frame, kind: DATA_1, text: vec![b'1'; 5 * message_words] }
    }

    fn placed(pages: &[Page]) -> (Vec<u32>, u32) {
        let placement = place(pages);
        (placement.slots, placement.batches)
    }

    #[test]
    fn examples() {
        assert_eq!(placed(&[tone(7)]), (vec![14], 1));
        assert_eq!(placed(&[tone(7), tone(7)]), (vec![14, 15], 1));
        assert_eq!(placed(&[numeric(7, 1)]), (vec![14], 2));
        assert_eq!(placed(&[tone(0), tone(0), tone(0)]), (vec![0, 1, 16], 2));
        assert_eq!(placed(&[alphanumeric(1, 15), tone(0), tone(1)]), (vec![2, 0, 18], 2));
        assert!((1..=84).all(|words| alphanumeric(0, words).message_words() == words));
    }

    #[test]
    fn the_last_slot() {
        // slot 14 and one message word in 15: a batch of idles follows; two message words run on into it
        assert_eq!(placed(&[numeric(7, 2)]).1, 2);
        assert_eq!(placed(&[numeric(7, 12)]).1, 2);
        assert_eq!(placed(&[tone(7), numeric(7, 1)]), (vec![14, 15], 2));
        // frame 3, slot 6 and nine message words end in slot 15
        assert_eq!(placed(&[numeric(3, 8)]).1, 1);
        assert_eq!(placed(&[numeric(3, 9)]).1, 2);
        assert_eq!(placed(&[numeric(3, 10)]).1, 2);
        // behind a message that ends in slot 14 an address in slot 15 needs no batch of idles
        assert_eq!(placed(&[numeric(3, 8), tone(7)]), (vec![6, 15], 1));
        // a message doesn't get that slot: it is the pause. In 30 and 31 it takes a batch of idles again
        assert_eq!(placed(&[numeric(3, 8), numeric(7, 1)]), (vec![6, 30], 3));
        assert_eq!(placed(&[numeric(3, 8), numeric(7, 2)]), (vec![6, 30], 3));
        assert_eq!(placed(&[numeric(3, 8), numeric(7, 1), tone(7)]), (vec![6, 30, 15], 3));
    }

    #[test]
    fn the_pause() {
        // message in slot 3, pause in 4: another message takes the frame's second slot, a tone the pause
        assert_eq!(placed(&[numeric(1, 1), numeric(2, 1)]), (vec![2, 5], 1));
        assert_eq!(placed(&[numeric(1, 1), tone(2)]), (vec![2, 4], 1));
        // message in slots 3 and 4, pause in 5: the frame has no slot left in this batch
        assert_eq!(placed(&[numeric(1, 2), numeric(2, 1)]), (vec![2, 20], 2));
        assert_eq!(placed(&[numeric(1, 2), tone(2)]), (vec![2, 5], 1));
        // the same frame again
        assert_eq!(placed(&[alphanumeric(1, 15), numeric(1, 1)]), (vec![2, 19], 2));
        assert_eq!(placed(&[alphanumeric(1, 16), numeric(1, 1)]), (vec![2, 34], 3));
        assert_eq!(placed(&[alphanumeric(1, 16), tone(1)]), (vec![2, 19], 2));
        // a frame further on isn't held up
        assert_eq!(placed(&[numeric(1, 1), numeric(3, 1)]), (vec![2, 6], 1));
        // a tone is followed by no pause
        assert_eq!(placed(&[tone(1), numeric(1, 1)]), (vec![2, 3], 1));
        // a data page is a message like any other
        assert_eq!(placed(&[data(1, 1), data(2, 1)]), (vec![2, 5], 1));
        assert_eq!(placed(&[data(1, 84), tone(2)]), (vec![2, 100], 7));
    }

    #[test]
    fn a_tone_overtakes_in_the_pause() {
        assert_eq!(placed(&[numeric(1, 1), numeric(2, 1), tone(2)]), (vec![2, 5, 4], 1));
        assert_eq!(placed(&[numeric(1, 1), tone(2), numeric(2, 1)]), (vec![2, 4, 5], 1));
        assert_eq!(placed(&[numeric(1, 2), numeric(2, 1), tone(2)]), (vec![2, 20, 5], 2));
        // any number of messages, but only one tone: behind it the job's order holds again
        assert_eq!(placed(&[numeric(1, 1), numeric(2, 1), numeric(2, 1), tone(2), tone(2)]), (vec![2, 5, 20, 4, 36], 3));
        assert_eq!(placed(&[numeric(1, 1), tone(2), tone(2), numeric(2, 1)]), (vec![2, 4, 5, 20], 2));
        // a tone of another frame doesn't
        assert_eq!(placed(&[numeric(1, 1), numeric(2, 1), tone(3)]), (vec![2, 5, 7], 1));
    }

    #[test]
    fn the_pause_behind_a_sync() {
        // the message ends in slot 15, the pause is slot 16
        assert_eq!(placed(&[alphanumeric(0, 15)]), (vec![0], 2));
        assert_eq!(placed(&[alphanumeric(0, 15), numeric(0, 1)]), (vec![0, 17], 2));
        assert_eq!(placed(&[alphanumeric(0, 15), tone(0)]), (vec![0, 16], 2));
        assert_eq!(placed(&[alphanumeric(0, 15), numeric(0, 1), tone(0)]), (vec![0, 17, 16], 2));
        // a slot earlier and a slot later
        assert_eq!(placed(&[alphanumeric(0, 14), numeric(0, 1)]), (vec![0, 16], 2));
        assert_eq!(placed(&[alphanumeric(0, 16), numeric(0, 1)]), (vec![0, 32], 3));
    }

    #[test]
    fn as_late_as_can_be() {
        // each pause is the second slot of frame 7: the k-th address and the batches are at demand 3's bounds
        for count in [1, 2, 3, 47, 48] {
            let slots = (1..=count).map(|k| 16 * k - 2 + 80 * (k - 1)).collect();
            let pages = vec![alphanumeric(7, 80); count as usize];
            assert_eq!(placed(&pages), (slots, (16 * count + 80 * count - 1) / 16 + 1));
        }
    }

    #[test]
    fn word_indices() {
        assert_eq!([0, 15, 16, 4799].map(word_index), [19, 34, 36, 18 + 17 * 299 + 16]);
    }
}
