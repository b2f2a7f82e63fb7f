//! The sender's state: what a step may do to it, and number 11 for states that no job leads to.

use crate::compare::{Comparison, Difference, Outcome};
use crate::lent::Unit;
use card::steps::{self, Sender, Step};
use generate::{jobs, Random};
use independent::state;

const GUARDS: usize = 32;

/// A state that the caller keeps, with sentinels before and behind.
#[repr(C)]
#[derive(Clone)]
pub struct Kept {
    before: [u32; GUARDS],
    pub sender: Sender,
    behind: [u32; GUARDS],
}

impl Kept {
    /// A state of random bytes.
    pub fn rubbish(random: &mut Random) -> Box<Kept> {
        let mut sender = Sender::boxed();
        let length = sender.bytes().len();
        sender.bytes_mut().copy_from_slice(&u8::rubbish(random, length));
        let guard = || [0x5E47_1E15; GUARDS];
        Box::new(Kept { before: guard(), sender: *sender, behind: guard() })
    }

    /// Where two states or their sentinels differ, if anywhere.
    pub fn difference(&self, other: &Kept) -> Option<String> {
        self.difference_in(other, &[(0, 16_628)])
    }

    /// The same, of all that a step leaves: everything but the cursor and the sent flags.
    fn difference_in_rest(&self, other: &Kept) -> Option<String> {
        self.difference_in(other, &[(16, 452), (500, 16_628)])
    }

    fn difference_in(&self, other: &Kept, parts: &[(usize, usize)]) -> Option<String> {
        if self.before != other.before || self.behind != other.behind {
            return Some("outside the state".into());
        }
        let (one, other) = (self.sender.bytes(), other.sender.bytes());
        // whether slices are equal is found faster than where they differ
        let &(from, to) = parts.iter().find(|&&(from, to)| one[from..to] != other[from..to])?;
        let at = (from..to).find(|&at| one[at] != other[at])?;
        Some(format!("byte {at} of the state"))
    }
}

fn reasons(sender: &Sender) -> [bool; 6] {
    let Sender { cursor, pages, .. } = sender;
    state::reasons(&state::State {
        slot: cursor.slot,
        running: (cursor.running != 0).then_some((cursor.page, cursor.word)),
        count: pages.count,
        starts: &pages.starts,
        lengths: &pages.lengths,
        frames: &pages.frames,
    })
}

impl Comparison {
    /// One step of any state. Number 11 is given exactly when the table says so; a step declined or done leaves the state as it was,
    /// and any other moves only the cursor and the sent flags.
    pub fn step(&mut self, kept: &mut Kept, what: &'static str, input: &mut dyn FnMut() -> String) -> Result<Step, Difference> {
        let mut before = self.scratch.take().unwrap_or_else(|| Box::new(kept.clone()));
        (*before).clone_from(kept);
        let got = steps::step(&mut kept.sender);
        let reasons = reasons(&before.sender);
        let held = || (0..6).filter(|&at| reasons[at]).map(|at| state::REASONS[at]);
        let mut wrong = |text: String| {
            let Sender { cursor, pages, sent, .. } = &before.sender;
            Err(Difference(format!(
                "{what}: {text}\nanswer {got:X?}; reasons for 11: {:?}\nstate before: {cursor:?}\n{pages:X?}\nsent {sent:?}\n{}",
                held().collect::<Vec<_>>(),
                input()
            )))
        };
        let declined = reasons.contains(&true);
        let formed = match got {
            Step { number: 0, done: 0, .. } => !declined,
            Step::DONE => !declined,
            Step::DECLINED => declined,
            _ => false,
        };
        if !formed {
            return wrong("not the answer".into());
        }
        let ended = got.done == 1 || declined;
        if let Some(place) = if ended { before.difference(kept) } else { before.difference_in_rest(kept) } {
            return wrong(format!("writes {place}"));
        }
        self.scratch = Some(before);
        self.count(what, got.number);
        let mut held = held();
        let single = match (held.next(), held.next()) {
            (Some(reason), None) => Some(reason),
            _ => None,
        };
        if let Some(name) = single.or((got.done == 1).then_some("done")) {
            *self.among.entry(name).or_default() += 1;
        }
        Ok(got)
    }

    /// Steps of a state that may be any, until one is declined or done, or there were many.
    fn follow(&mut self, kept: &Kept, most: usize, how: &str) -> Outcome {
        let mut kept = kept.clone();
        for i in 0..most {
            let got = self.step(&mut kept, "step of a hostile state", &mut || format!("{how}, step {i}"))?;
            if got.done == 1 || got.number != 0 {
                break;
            }
        }
        Ok(())
    }

    /// States that are the same in every run.
    pub fn state_limits(&mut self) -> Outcome {
        let mut random = Random::new(0);
        let mut kept = Kept::rubbish(&mut random);
        for byte in 0..=255 {
            kept.sender.bytes_mut().fill(byte);
            self.follow(&kept, 6000, "equal bytes")?;
        }
        let book = b"4142434445464748494A4B4C\n";
        let jobs = [&b"000009 4 3132\n"[..], b"000000 0\n000007 9 00\n000000 4 31\n", &jobs::latest(&mut random)];
        for job in jobs {
            for steps in [0, 1, 17, 18, 19, 20, 21, 22, 23, 26, 34, 35, 36, 40, 52, 119, 120, 600, 5100, 5118] {
                let reached = reached(&mut random, job, book, steps);
                // every value of every byte of the cursor and the page count
                for at in 0..20 {
                    for byte in 0..=255 {
                        let mut kept = reached.clone();
                        kept.sender.bytes_mut()[at] = byte;
                        self.follow(&kept, 2, "one byte")?;
                    }
                }
                for field in 0..FIELDS {
                    for page in [0, 1, 2, 3, 46, 47] {
                        for value in near(&reached.sender, field, page) {
                            let mut kept = reached.clone();
                            set(&mut kept.sender, field, page, value);
                            self.follow(&kept, 2, "one field")?;
                        }
                    }
                }
            }
        }
        Ok(())
    }

    pub fn state_round(&mut self, random: &mut Random) -> Outcome {
        let (job, book) = jobs::good(random);
        let steps = if random.once_in(4) { random.below(5200) } else { random.below(100) };
        let reached = reached(random, &job, &book, steps);
        for _ in 0..300 {
            let mut kept = reached.clone();
            for _ in 0..random.pick(&[1, 1, 1, 2, 3, 8]) {
                let (field, page) = (random.below(FIELDS), a_page(random, &kept.sender));
                let values = near(&kept.sender, field, page);
                let value = if random.once_in(8) { random.word() } else { random.pick(&values) };
                set(&mut kept.sender, field, page, value);
            }
            self.follow(&kept, 4, "changed fields")?;
        }
        for _ in 0..100 {
            // random bytes, in the cursor, in the page table, and in both
            let mut kept = reached.clone();
            let (from, to) =
                random.pick(&[(0, 16), (0, 12), (12, 16), (16, 452), (20, 212), (212, 404), (404, 452), (452, 500), (0, 500)]);
            kept.sender.bytes_mut()[from..to].copy_from_slice(&u8::rubbish(random, to - from));
            self.follow(&kept, 4, "random bytes")?;
            // one byte
            let mut kept = reached.clone();
            kept.sender.bytes_mut()[random.below(500)] = random.byte();
            self.follow(&kept, 4, "a random byte")?;
        }
        let mut kept = reached;
        for _ in 0..100 {
            within(random, &mut kept.sender);
            self.follow(&kept, 4, "random fields within limits")?;
            let (field, page) = (random.below(FIELDS), a_page(random, &kept.sender));
            let value = random.pick(&near(&kept.sender, field, page));
            set(&mut kept.sender, field, page, value);
            self.follow(&kept, 4, "random fields within limits and one changed")?;
        }
        within(random, &mut kept.sender);
        self.follow(&kept, 6000, "random fields within limits, to the end")
    }
}

/// The state after some steps of a job with its book.
fn reached(random: &mut Random, job: &[u8], book: &[u8], steps: usize) -> Box<Kept> {
    let mut kept = Kept::rubbish(random);
    steps::start(job, book, &mut kept.sender);
    for _ in 0..steps {
        steps::step(&mut kept.sender);
    }
    kept
}

/// A page, likely one that matters.
fn a_page(random: &mut Random, sender: &Sender) -> usize {
    let last = (sender.pages.count as usize).clamp(1, 48) - 1;
    match random.below(4) {
        0 => last,
        1 => (last + 1).min(47),
        2 => random.below(last + 1),
        _ => random.below(48),
    }
}

const FIELDS: usize = 14;

/// Writes one field; where the field has an entry for each page, that of the page.
fn set(sender: &mut Sender, field: usize, page: usize, value: u32) {
    let Sender { cursor, pages, sent, words } = sender;
    match field {
        0 => cursor.slot = value,
        1 => cursor.page = value,
        2 => cursor.word = value,
        3 => cursor.preamble = value as u8,
        4 => cursor.synced = value as u8,
        5 => cursor.running = value as u8,
        6 => cursor.message = value as u8,
        7 => pages.count = value,
        8 => pages.addresses[page] = value,
        9 => pages.starts[page] = value as u16,
        10 => pages.lengths[page] = value as u16,
        11 => pages.frames[page] = value as u8,
        12 => sent[page] = value as u8,
        _ => words[value as usize % words.len()] = value,
    }
}

/// Values about the limits of a field, as this state has them.
fn near(sender: &Sender, field: usize, page: usize) -> Vec<u32> {
    let Sender { cursor, pages, .. } = sender;
    let about = |limit: u32| [limit.wrapping_sub(2), limit.wrapping_sub(1), limit, limit.wrapping_add(1), limit.wrapping_add(2)];
    let running = pages.lengths.get(cursor.page as usize).map_or(0, |&length| u32::from(length));
    let (start, length) = (u32::from(pages.starts[page]), u32::from(pages.lengths[page]));
    let limits: &[u32] = match field {
        0 => &[0, 16, 4784, 4800, 4816, 1 << 16, (1 << 16) + 4800, 1 << 31, cursor.slot],
        1 => &[0, pages.count, 48, 1 << 8, 1 << 16, 1 << 31, cursor.page],
        2 => &[0, running, 4032, 1 << 8, 1 << 16, (1 << 16) + running, 1 << 31, cursor.word],
        7 => &[0, pages.count, 48, cursor.page, 1 << 8, (1 << 8) + 48, 1 << 16, 1 << 31, page as u32],
        9 => &[0, 4032, 4032u32.wrapping_sub(length), start, 1 << 15, (1 << 16) - length, 1 << 16],
        10 => &[0, 4032, 4032u32.wrapping_sub(start), length, cursor.word, 1 << 15, (1 << 16) - start, 1 << 16],
        3 | 4 | 5 | 6 | 11 | 12 => &[0, 7, 18, 128, 256],
        _ => &[0, 1 << 31],
    };
    limits.iter().flat_map(|&limit| about(limit)).collect()
}

/// A state whose fields are all random and, but rarely, within what the table allows.
fn within(random: &mut Random, sender: &mut Sender) {
    let Sender { cursor, pages, sent, words } = sender;
    pages.count = random.pick(&[0, 1, 2, 3, 47, 48, random.clone().below(49) as u32]);
    for (page, flag) in sent.iter_mut().enumerate() {
        let start = random.below(4033);
        let most = (4032 - start).min(random.pick(&[0, 1, 2, 20, 4032]));
        pages.addresses[page] = random.word();
        pages.starts[page] = start as u16;
        pages.lengths[page] = random.between(0, most) as u16;
        pages.frames[page] = random.below(8) as u8;
        *flag = if random.once_in(2) { 0 } else { random.byte() };
        words[random.below(4032)] = random.word();
    }
    cursor.slot = random.pick(&[0, 16 * random.clone().below(301), random.clone().below(4801)]) as u32;
    cursor.page = random.below(pages.count as usize + 1) as u32;
    let length = pages.lengths.get(cursor.page as usize).map_or(0, |&length| usize::from(length));
    cursor.word = random.below(length.max(1)) as u32;
    cursor.preamble = if random.once_in(4) { random.byte() } else { 0 };
    cursor.synced = random.pick(&[0, 0, 1, 2, 128, 255]);
    cursor.message = random.pick(&[0, 0, 1, 2, 128, 255]);
    let could_run = cursor.page < pages.count && length > 0;
    cursor.running = if could_run || random.once_in(50) { random.pick(&[0, 1, 2, 128, 255]) } else { 0 };
}
