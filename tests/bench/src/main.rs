//! The library and the independent implementation on the same work, in one run, as a Markdown table; then the library's slow engine
//! and its fast one, its following of one identity and its full reading, its receiving and its reading, and its adding
//! of a listing to a coverage report and its reading.
//!
//!     bench [RUNS [MILLISECONDS]]
//!
//! Each row is timed RUNS times for at least MILLISECONDS each, the two in turn. The ratio is the first's time over the second's:
//! the median of the runs, the least and the greatest. Before a row is timed, both must give the same answer, but for following and adding
//! beside reading. Lent buffers are made once, have the sizes that the header names, and aren't cleared before a call; a report is made
//! anew for each call.

mod clock;
mod coverage;
mod follow;
mod measure;
mod receive;

use generate::words::Damage;
use generate::{books, jobs, listings, words, Random};
use independent::book::NO_BOOK;
use independent::send::Accepted;
use independent::{codeword, reader, send, Refusal};
use measure::{print_head, row, Effort};
use std::hint::black_box;
use std::time::Duration;

fn main() {
    let arguments: Vec<u64> = std::env::args().skip(1).map(|text| text.parse().expect("bench [RUNS [MILLISECONDS]]")).collect();
    let runs = arguments.first().map_or(21, |&runs| runs.max(1) as usize);
    let milliseconds = arguments.get(1).copied().unwrap_or(10);
    let effort = Effort { runs, at_least: Duration::from_millis(milliseconds) };

    if card::STAND_IN {
        println!("**Stand-in: the library is not linked, the independent implementation is timed against itself.**\n");
    }
    println!(
        "Ratio: time of the library over time of the independent implementation, the median of {runs} runs; then the least and the"
    );
    println!(
        "greatest. Processor time of the thread, at least {milliseconds} ms a timing. Lent buffers aren't cleared before a call.\n"
    );
    print_head("Library", "Independent");
    let mut bench = Bench::new(effort);
    bench.correcting();
    bench.sending();
    bench.reading();
    let followed = follow::cases();
    bench.following(&followed);
    let recorded = receive::cases();
    bench.receiving(&recorded);
    let covered = coverage::cases();
    bench.covering(&covered);
    println!("\nThe library's slow engine: ratio of its time to that of the fast one, measured in the same way.\n");
    print_head("Slow", "Fast");
    bench.correcting_slowly();
    bench.reading_slowly();
    println!(
        "\nThe library's following of one identity: ratio of its time to that of the full reading, measured in the same way.\n"
    );
    print_head("Following", "Reading");
    bench.following_and_reading(&followed);
    println!(
        "\nThe library's receiving of a recording: ratio of its time to that of reading its batches as words, measured in the same way.\n"
    );
    print_head("Receiving", "Reading");
    bench.receiving_and_reading(&recorded);
    println!(
        "\nThe library's adding of a listing to a report: ratio of its time to that of reading the listing, measured in the same way.\n"
    );
    print_head("Adding", "Reading");
    bench.covering_and_reading(&covered);
}

struct Bench {
    effort: Effort,
    random: Random,
    words: Vec<u32>,
    slots: Vec<u32>,
    bytes: Vec<u8>,
}

/// How many words a row of single words has.
const COUNT: usize = 4096;

type WrongBits = fn(&mut Random) -> u32;

/// How single words are damaged.
const DAMAGES: [(&str, WrongBits); 5] = [
    ("no wrong bit", |_| 0),
    ("one wrong bit", |random| random.ones(1)),
    ("two wrong bits", |random| random.ones(2)),
    ("none to two wrong bits", |random| {
        let count = random.below(3) as u32;
        random.ones(count)
    }),
    ("any words", |random| random.word()),
];

/// The damages of the largest job that both engines read.
const CLEAN: (&str, Damage) = ("clean", Damage::None);
const LIGHT: (&str, Damage) = ("with none to two wrong bits a word", Damage::Light);

/// Corrects each word.
fn each<A>(words: &[u32], correct: impl Fn(u32) -> A) {
    words.iter().for_each(|&word| _ = black_box(correct(black_box(word))));
}

/// One call for each word, as the library is called: the codeword, and how many bits are changed.
#[inline(never)]
fn correct_alone(word: u32) -> Option<(u32, u32)> {
    codeword::correct(word).map(|near| (near, codeword::changed(word, near)))
}

impl Bench {
    fn new(effort: Effort) -> Self {
        let longest = card::LISTING_BYTES.max(card::RECEIVED_BYTES);
        Bench { effort, random: Random::new(1), words: vec![0; card::WORDS], slots: vec![0; card::PAGES], bytes: vec![0; longest] }
    }

    fn damaged_words(&mut self, wrong_bits: WrongBits) -> Vec<u32> {
        (0..COUNT).map(|_| words::codeword(&mut self.random) ^ wrong_bits(&mut self.random)).collect()
    }

    fn correcting(&mut self) {
        for (name, wrong_bits) in DAMAGES {
            let words = self.damaged_words(wrong_bits);
            for &word in &words {
                let answer = card::correct(word);
                assert_eq!((answer.number == 0).then_some((answer.word, answer.changed)), correct_alone(word));
            }
            let name = format!("correct a word, {name}");
            row(self.effort, &name, COUNT, &mut || each(&words, card::correct), &mut || each(&words, correct_alone));
        }
    }

    fn correcting_slowly(&mut self) {
        for (name, wrong_bits) in DAMAGES {
            let words = self.damaged_words(wrong_bits);
            assert!(words.iter().all(|&word| card::correct_slowly(word) == card::correct(word)));
            let name = format!("correct a word, {name}");
            row(self.effort, &name, COUNT, &mut || each(&words, card::correct_slowly), &mut || each(&words, card::correct));
        }
    }

    fn sending(&mut self) {
        let maximal = jobs::maximal(&mut self.random, &[3]);
        let mixed = jobs::pages(&mut self.random, 48, &[0, 1, 2, 3, 4, 5, 6, 7], &[0, 1, 2, 3, 4, 5, 6, 7]);
        let data = jobs::maximal_data(&mut self.random, &[3]);
        let tones = jobs::pages(&mut self.random, 48, &[5], &[0]);
        let sentences = jobs::phrases(&mut self.random, 30, &[3]);
        let thirty = books::of_length(&mut self.random, 30, 40);
        let (phrases, longest) = jobs::maximal_phrases(&mut self.random, &[3]);
        for (name, job, book) in [
            ("1 numeric page of 10 characters", &b"12D687 4 30313233343536373839\n"[..], NO_BOOK),
            ("48 tones in one frame", &tones, NO_BOOK),
            ("48 pages of every kind", &mixed, NO_BOOK),
            ("48 alphanumeric pages of 240 characters in one frame", &maximal, NO_BOOK),
            ("48 data pages of 84 groups in one frame", &data, NO_BOOK),
            ("1 phrase of a short book", b"12D687 9 04\n", books::SHORT),
            ("48 phrases of 40 characters in one frame, a book of 30", &sentences, &thirty),
            ("48 phrases of 240 characters in one frame, the longest book", &phrases, &longest),
        ] {
            self.send_row(name, job, book);
            self.list_row(name, job, book);
            self.steps_rows(name, job, book);
        }
        for pages in [1, 12, 48] {
            let job = jobs::alphanumeric(&mut self.random, pages, 240, &[0, 1, 2, 3, 4, 5, 6, 7]);
            self.send_row(&format!("by size: {pages} alphanumeric pages of 240 characters in any frames"), &job, NO_BOOK);
        }
        let faulty = [&maximal[..maximal.len() - 1], b"0\n"].concat();
        self.send_row("declined: the largest job with a fault at its end", &faulty, NO_BOOK);
    }

    fn send_row(&mut self, name: &str, job: &[u8], book: &[u8]) {
        let mut words = self.words.clone();
        let mut slots = self.slots.clone();
        let card::Report { place, position, number, batches, words: count } =
            card::send(job, book, &mut self.words, &mut self.slots);
        match send::send(job, book, &mut words, &mut slots) {
            Ok(answer) => assert_eq!((number, answer), (0, send::Report { batches, words: count })),
            Err(refusal) => assert_eq!(refusal, Refusal { number, place, position }),
        }
        assert!(words == self.words && slots == self.slots);
        row(
            self.effort,
            &format!("send {name}"),
            1,
            &mut || _ = black_box(card::send(black_box(job), black_box(book), &mut self.words, &mut self.slots)),
            &mut || _ = black_box(send::send(black_box(job), black_box(book), &mut words, &mut slots)),
        );
    }

    fn list_row(&mut self, name: &str, job: &[u8], book: &[u8]) {
        let mut bytes = self.bytes.clone();
        let listed = send::list(job, book, &mut bytes).expect("good job");
        assert_eq!(card::list(job, book, &mut self.bytes), card::Bytes { place: 0, position: 0, bytes: listed, number: 0 });
        assert!(bytes == self.bytes);
        row(
            self.effort,
            &format!("list {name}"),
            1,
            &mut || _ = black_box(card::list(black_box(job), black_box(book), &mut self.bytes)),
            &mut || _ = black_box(send::list(black_box(job), black_box(book), &mut bytes)),
        );
    }

    /// A start and every step of a job, and the start alone. The library's state is lent; the independent implementation makes its own.
    fn steps_rows(&mut self, name: &str, job: &[u8], book: &[u8]) {
        use card::steps::{self, start, step, Sender};
        let mut state = Sender::boxed();
        let start = |state: &mut Sender| black_box(start(black_box(job), black_box(book), state));
        let start_alone = || send::Sender::start(black_box(job), black_box(book)).expect("good job");
        assert_eq!(start(&mut state), steps::Refusal::NONE);
        assert!(start_alone().all(|word| step(&mut state).word == word));
        assert_eq!(step(&mut state).done, 1);
        row(self.effort, &format!("start {name}"), 1, &mut || _ = start(&mut state), &mut || _ = black_box(start_alone()));
        row(
            self.effort,
            &format!("start and all steps of {name}"),
            1,
            &mut || {
                start(&mut state);
                while black_box(step(&mut state)).done == 0 {}
            },
            &mut || {
                for word in start_alone() {
                    black_box(word);
                }
            },
        );
    }

    fn reading(&mut self) {
        let batches = largest(&mut self.random);
        for (name, damage) in [CLEAN, LIGHT, ("with lost words", Damage::Spots)] {
            let mut received = batches.clone();
            words::damage(&mut self.random, &mut received, damage);
            self.read_listing_row(&format!("of the largest job, {name}"), &listings::listing(9, 0xAAAA_AAAA, &received));
            self.read_words_row(&format!("of the largest job, {name}"), &received);
        }
        for count in [1, 30, 300] {
            let mut full = words::full_batches(&mut self.random, count);
            self.read_listing_row(&format!("by size: {count} full batches, clean"), &listings::listing(9, 0xAAAA_AAAA, &full));
            words::damage(&mut self.random, &mut full, Damage::Light);
            self.read_listing_row(&format!("by size: {count} full batches, damaged"), &listings::listing(9, 0xAAAA_AAAA, &full));
        }
        let idle = listings::listing(9, 0xAAAA_AAAA, &listings::idle_batches(300));
        self.read_listing_row("of 300 idle batches", &idle);
    }

    fn reading_slowly(&mut self) {
        let batches = largest(&mut self.random);
        for (name, damage) in [CLEAN, LIGHT] {
            let mut received = batches.clone();
            words::damage(&mut self.random, &mut received, damage);
            self.slow_row(&format!("of the largest job, {name}"), &listings::listing(9, 0xAAAA_AAAA, &received));
        }
        let any = words::any_batches(&mut self.random, 300);
        self.slow_row("of 300 batches of any words", &listings::listing(9, 0xAAAA_AAAA, &any));
    }

    fn slow_row(&mut self, name: &str, listing: &[u8]) {
        let mut bytes = self.bytes.clone();
        assert_eq!(card::read_listing_slowly(listing, &mut self.bytes), card::read_listing(listing, &mut bytes));
        assert!(bytes == self.bytes);
        row(
            self.effort,
            &format!("read the listing {name}"),
            1,
            &mut || _ = black_box(card::read_listing_slowly(black_box(listing), &mut self.bytes)),
            &mut || _ = black_box(card::read_listing(black_box(listing), &mut bytes)),
        );
    }

    fn read_listing_row(&mut self, name: &str, listing: &[u8]) {
        let mut bytes = self.bytes.clone();
        same(card::read_listing(listing, &mut self.bytes), reader::read_listing(listing, &mut bytes));
        assert!(bytes == self.bytes);
        row(
            self.effort,
            &format!("read the listing {name}"),
            1,
            &mut || _ = black_box(card::read_listing(black_box(listing), &mut self.bytes)),
            &mut || _ = black_box(reader::read_listing(black_box(listing), &mut bytes)),
        );
    }

    fn read_words_row(&mut self, name: &str, words: &[u32]) {
        let mut bytes = self.bytes.clone();
        same(card::read_words(words, &mut self.bytes), reader::read_words(words, &mut bytes));
        assert!(bytes == self.bytes);
        row(
            self.effort,
            &format!("read the words {name}"),
            1,
            &mut || _ = black_box(card::read_words(black_box(words), &mut self.bytes)),
            &mut || _ = black_box(reader::read_words(black_box(words), &mut bytes)),
        );
    }
}

/// The batches of the largest job.
fn largest(random: &mut Random) -> Vec<u32> {
    let maximal = jobs::maximal(random, &[3]);
    Accepted::new(&maximal, NO_BOOK).expect("good job").words().split_off(18)
}

fn same(library: card::Reading, independent: Result<reader::Reading, Refusal>) {
    let expected = independent.expect("can be read");
    let card::Reading { bytes, number, pages, lost, orphans, changed: card::Changes { slots, syncs }, .. } = library;
    let got = reader::Reading { bytes, pages, lost, orphans, changed: reader::Changes { slots, syncs } };
    assert_eq!((number, got), (0, expected));
}
