//! The sender's state as the caller keeps it: when document 01's table declines it with number 11.

/// What the table speaks of. The slices have an entry for each page that there is room for.
pub struct State<'a> {
    pub slot: u32,
    /// The page and the word of the message that is running, if one is.
    pub running: Option<(u32, u32)>,
    pub count: u32,
    pub starts: &'a [u16],
    pub lengths: &'a [u16],
    pub frames: &'a [u8],
}

/// Why number 11 is given, in the table's order.
pub const REASONS: [&str; 6] = [
    "over 48 pages",
    "a frame over 7",
    "message words ending beyond 4,032",
    "a running page it doesn't count",
    "a running word its page doesn't have",
    "a slot over 4,800",
];

/// Which of the reasons hold. Number 11 is given exactly when at least one does.
pub fn reasons(state: &State) -> [bool; 6] {
    let counted = state.starts.len().min(state.count as usize);
    let ends = (0..counted).map(|page| u32::from(state.starts[page]) + u32::from(state.lengths[page]));
    let uncounted = state.running.is_some_and(|(page, _)| page >= state.count);
    let no_word = state.running.is_some_and(|(page, word)| {
        state.lengths.get(page as usize).is_some_and(|&length| page < state.count && word >= u32::from(length))
    });
    [
        state.count > 48,
        state.frames[..counted].iter().any(|&frame| frame > 7),
        ends.max() > Some(4032),
        uncounted,
        no_word,
        state.slot > 4800,
    ]
}

#[cfg(test)]
mod tests {
    use super::*;

    fn found(slot: u32, running: Option<(u32, u32)>, count: u32, page: usize, entry: (u16, u16, u8)) -> Vec<usize> {
        let (mut starts, mut lengths, mut frames) = ([0; 48], [0; 48], [0; 48]);
        (starts[page], lengths[page], frames[page]) = entry;
        let state = State { slot, running, count, starts: &starts, lengths: &lengths, frames: &frames };
        let reasons = reasons(&state);
        (0..6).filter(|&at| reasons[at]).collect()
    }

    #[test]
    fn both_sides_of_each_limit() {
        let none: Vec<usize> = vec![];
        assert_eq!(found(0, None, 0, 0, (0, 0, 0)), none);
        assert_eq!(found(0, None, 48, 0, (0, 0, 0)), none);
        assert_eq!(found(0, None, 49, 0, (0, 0, 0)), [0]);
        assert_eq!(found(0, None, u32::MAX, 0, (0, 0, 0)), [0]);
        assert_eq!(found(0, None, 3, 2, (0, 0, 7)), none);
        assert_eq!(found(0, None, 3, 2, (0, 0, 8)), [1]);
        assert_eq!(found(0, None, 2, 2, (0, 0, 8)), none);
        assert_eq!(found(0, None, 3, 2, (4000, 32, 0)), none);
        assert_eq!(found(0, None, 3, 2, (4000, 33, 0)), [2]);
        assert_eq!(found(0, None, 3, 2, (0xFFFF, 1, 0)), [2]);
        assert_eq!(found(0, None, 2, 2, (0xFFFF, 0xFFFF, 0)), none);
        assert_eq!(found(0, Some((2, 4)), 3, 2, (0, 5, 0)), none);
        assert_eq!(found(0, Some((2, 5)), 3, 2, (0, 5, 0)), [4]);
        assert_eq!(found(0, Some((2, 4)), 2, 2, (0, 5, 0)), [3]);
        assert_eq!(found(0, Some((u32::MAX, 0)), 48, 2, (0, 5, 0)), [3]);
        assert_eq!(found(4800, None, 1, 0, (0, 0, 0)), none);
        assert_eq!(found(4801, None, 1, 0, (0, 0, 0)), [5]);
    }
}
