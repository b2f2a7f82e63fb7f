//! The library's two engines, each with the calls that correct words.

pub struct Engine {
    /// What stands behind the name of a call.
    pub how: &'static str,
    pub correct: fn(u32) -> card::Word,
    pub read_words: fn(&[u32], &mut [u8]) -> card::Reading,
    pub read_listing: fn(&[u8], &mut [u8]) -> card::Reading,
}

static ENGINES: [Engine; 2] = [
    Engine { how: "", correct: card::correct, read_words: card::read_words, read_listing: card::read_listing },
    Engine {
        how: " slowly",
        correct: card::correct_slowly,
        read_words: card::read_words_slowly,
        read_listing: card::read_listing_slowly,
    },
];

/// The fast engine, and the slow one where it is asked too.
pub fn engines(slow_too: bool) -> &'static [Engine] {
    &ENGINES[..1 + usize::from(slow_too)]
}
