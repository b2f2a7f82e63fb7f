//! The wide comparison: the library and the independent implementation on the same generated inputs.
//!
//!     wide [ROUNDS [SEED [SENDING_PROGRAM READING_PROGRAM [SLOW_READING_PROGRAM [FOLLOWING_PROGRAM [RECEIVING_PROGRAM
//!         [COVERAGE_PROGRAM]]]]]]]
//!     wide programs SEED SENDING_PROGRAM READING_PROGRAM [..]
//!     wide all-words
//!
//! The second has the programs alone, about the limits. The third corrects every 32-bit word, one in 4,099 by the slow engine
//! too, and compares nothing else. Prints how many comparisons it made of each sort; at the first difference prints the input and both
//! answers and ends with 1.
//! What is compared: the answer, every unit of every lent buffer and the sentinels around it, and, for a declined call, that
//! the buffers are as before. In whatever is read some identities are followed, and every listing is added to coverage reports
//! . What the library reads of a transmission with up to three wrong bits a word is judged by R-9, and received from a recording
//!

mod bad_day;
mod compare;
mod coverage;
mod engine;
mod follow;
mod lent;
mod programs;
mod receive;
mod states;

use compare::{Comparison, Difference, Outcome};
use generate::{books, jobs, listings, words, Random};
use independent::book::NO_BOOK;
use independent::codeword::{address, message, IDLE, SYNC};
use programs::Programs;
use std::process::ExitCode;

const USAGE: &str = "wide [ROUNDS [SEED [SENDING_PROGRAM READING_PROGRAM [SLOW_READING_PROGRAM [FOLLOWING_PROGRAM \
                     [RECEIVING_PROGRAM [COVERAGE_PROGRAM]]]]]]], with programs in place of ROUNDS the programs alone; \
                     or wide all-words";

const ROUNDS: u64 = 3000;
const SEED: u64 = 1;

/// Of all words the slow engine corrects the multiples of this number, some million of them.
const SLOW_STEP: u32 = 4_099;

fn main() -> ExitCode {
    let arguments: Vec<String> = std::env::args().skip(1).collect();
    if arguments == ["all-words"] {
        say_if_stand_in();
        return all_words();
    }
    let alone = arguments.first().is_some_and(|word| word == "programs");
    let number = |at: usize, default: u64| arguments.get(at).map_or(Ok(default), |text| text.parse());
    let programs = Programs::named(&arguments[arguments.len().min(2)..]);
    let rounds = if alone { Ok(0) } else { number(0, ROUNDS) };
    let (Ok(rounds), Ok(seed), Ok(programs)) = (rounds, number(1, SEED), programs) else {
        eprintln!("{USAGE}");
        return ExitCode::from(2);
    };
    println!("{rounds} rounds, seed {seed}");
    say_if_stand_in();
    let mut comparison = Comparison::new(seed);
    let about_the_limits = if alone { Ok(()) } else { limits(&mut comparison) };
    let outcome = about_the_limits.and_then(|()| run(&mut comparison, rounds, seed, programs.as_ref()));
    print_counts(&comparison);
    match outcome {
        Ok(()) => {
            println!("no difference in {} comparisons", comparison.counts.values().sum::<u64>());
            ExitCode::SUCCESS
        }
        Err(Difference(text)) => {
            println!("DIFFERENCE\n{text}");
            ExitCode::FAILURE
        }
    }
}

fn say_if_stand_in() {
    if card::STAND_IN {
        println!("STAND-IN: the library is not linked, the independent implementation is compared with itself");
    }
}

/// Every 32-bit word, corrected by the library and the independent implementation.
fn all_words() -> ExitCode {
    let (mut answered, mut slowly) = (0u64, 0u64);
    for word in 0..=u32::MAX {
        let expected = compare::corrected(word);
        let slow_too = word % SLOW_STEP == 0;
        for engine in engine::engines(slow_too) {
            if let Err(Difference(text)) = compare::corrects(engine, word, expected) {
                println!("DIFFERENCE\n{text}");
                return ExitCode::FAILURE;
            }
        }
        answered += u64::from(expected.number == 0);
        slowly += u64::from(slow_too);
    }
    println!("no difference in {} words, {answered} of them answered; {slowly} corrected slowly too", 1u64 << 32);
    ExitCode::SUCCESS
}

fn run(comparison: &mut Comparison, rounds: u64, seed: u64, programs: Option<&Programs>) -> Outcome {
    if let Some(programs) = programs {
        programs.limits(comparison)?;
    }
    for number in 0..rounds {
        // each round can be had alone by its own seed
        let mut random = Random::new(seed.wrapping_mul(0x1_0000_0000).wrapping_add(number));
        round(comparison, &mut random)
            .and_then(|()| programs.map_or(Ok(()), |programs| programs.round(comparison, &mut random)))
            .map_err(|Difference(text)| Difference(format!("round {number} of seed {seed}\n{text}")))?;
    }
    Ok(())
}

/// Inputs that are the same in every run.
fn limits(comparison: &mut Comparison) -> Outcome {
    comparison.coverage_limits()?;
    for codeword in [0, SYNC, IDLE, u32::MAX, address(0x1F_FFFF, 3), message(0), message(0x84333)] {
        all_near(comparison, codeword)?;
    }
    comparison.follow_limits()?;
    comparison.receive_limits()?;
    for (number, job) in jobs::limits().iter().enumerate() {
        comparison.job(job, NO_BOOK)?;
        // to other jobs a book makes no difference, so that some of them are enough
        if jobs::names_a_phrase(job) || number % 8 == 0 {
            comparison.job(job, books::SHORT)?;
        }
    }
    book_limits(comparison)?;
    for listing in listings::limits() {
        comparison.listing(&listing)?;
    }
    for words in words::slice_limits() {
        comparison.words(&words)?;
    }
    // every pair of buffer lengths about the exact ones, and every length of a short answer
    for job in [&b"000009 4 3132\n"[..], b"000007 0\n000007 1\n00000F 4 31\n"] {
        for words in 0..56 {
            for slots in 0..5 {
                comparison.send(job, NO_BOOK, words, slots)?;
            }
        }
        for bytes in 0..480 {
            comparison.list(job, NO_BOOK, bytes)?;
        }
    }
    largest(comparison)?;
    // from here on the slow engine gets a share
    comparison.slow_always = false;
    comparison.bad_day_limits()?;
    comparison.state_limits()
}

/// Phrase books: those about each limit with jobs of every sort, and each number of a phrase with books of several sizes.
fn book_limits(comparison: &mut Comparison) -> Outcome {
    for book in books::limits() {
        for job in jobs::FOR_BOOKS {
            comparison.job(job, &book)?;
        }
    }
    let mut random = Random::new(0);
    for phrases in [1, 2, 10, 99, 100] {
        let book = books::good(&mut random, phrases);
        for job in jobs::phrase_numbers() {
            comparison.job(&job, &book)?;
        }
    }
    Ok(())
}

/// The largest jobs, and the reading that takes the slow engine longest.
fn largest(comparison: &mut Comparison) -> Outcome {
    let mut random = Random::new(0);
    let mut largest: Vec<Vec<u8>> = (0..8).map(|frame| jobs::maximal(&mut random, &[frame])).collect();
    largest.push(jobs::maximal_data(&mut random, &[7]));
    largest.push(jobs::latest(&mut random));
    let mut largest: Vec<(Vec<u8>, Vec<u8>)> = largest.into_iter().map(|job| (job, NO_BOOK.to_vec())).collect();
    largest.push(jobs::maximal_phrases(&mut random, &[7]));
    for (job, book) in largest {
        comparison.job(&job, &book)?;
        comparison.send(&job, &book, card::WORDS, card::PAGES)?;
        comparison.list(&job, &book, card::LISTING_BYTES)?;
        comparison.round_trip(&job, &book)?;
        comparison.bad_day(&job, &book)?;
    }
    let any = words::any_batches(&mut random, words::MOST_BATCHES);
    comparison.words(&any)?;
    comparison.listing(&listings::listing(9, 0xAAAA_AAAA, &any))
}

/// A word with every pattern of at most three wrong bits.
fn all_near(comparison: &mut Comparison, word: u32) -> Outcome {
    comparison.correct(word)?;
    for i in 0..32 {
        comparison.correct(word ^ 1 << i)?;
        for j in 0..i {
            comparison.correct(word ^ 1 << i ^ 1 << j)?;
            for k in 0..j {
                comparison.correct(word ^ 1 << i ^ 1 << j ^ 1 << k)?;
            }
        }
    }
    Ok(())
}

fn round(comparison: &mut Comparison, random: &mut Random) -> Outcome {
    let near = words::codeword(random);
    all_near(comparison, near)?;
    for _ in 0..2000 {
        comparison.correct(random.word())?;
        let flips = random.below(5) as u32;
        let near = words::codeword(random) ^ random.ones(flips);
        comparison.correct(near)?;
    }
    for _ in 0..10 {
        let (job, book) = jobs::good(random);
        comparison.job(&job, &book)?;
        comparison.round_trip(&job, &book)?;
        comparison.bad_day(&job, &book)?;
    }
    for _ in 0..40 {
        let (job, book) = jobs::bad(random);
        comparison.job(&job, &book)?;
    }
    for job in jobs::FOR_BOOKS {
        comparison.job(job, &books::bad(random))?;
    }
    for _ in 0..20 {
        comparison.listing(&listings::any(random))?;
        comparison.words(&words::slice(random))?;
    }
    comparison.follow_round(random)?;
    comparison.receive_round(random)?;
    comparison.coverage_round(random)?;
    comparison.state_round(random)
}

/// How many comparisons there were of each call, by the number that it answered.
fn print_counts(comparison: &Comparison) {
    let mut last = ("", "");
    for ((what, how, number), count) in &comparison.counts {
        if (*what, *how) != last {
            println!("{what}{how}");
            last = (what, how);
        }
        match number {
            0 => println!("    answered     {count:>12}"),
            _ => println!("    declined, {number:>2} {count:>12}"),
        }
    }
    println!("among the steps: done, and 11 for one reason alone");
    for (what, count) in &comparison.among {
        println!("    {what:<40} {count:>12}");
    }
}
