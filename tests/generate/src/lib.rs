//! Seeded inputs for the comparison and the benchmarks: the same seed gives the same inputs on every machine.

pub mod books;
pub mod bytes;
pub mod followed;
pub mod jobs;
pub mod listings;
pub mod months;
pub mod random;
pub mod recordings;
pub mod words;

pub use random::Random;

/// Lengths of a lent buffer around the length of an answer: exact, one short, one long, and others.
pub fn buffer_length(random: &mut Random, exact: usize) -> usize {
    match random.below(10) {
        0..=2 => exact,
        3 | 4 => exact.saturating_sub(1),
        5 | 6 => exact + 1,
        7 => random.below(exact + 1),
        8 => exact + random.below(100),
        _ => 0,
    }
}
