//! Buffers to lend: filled with rubbish, and with sentinels before and behind.

use generate::Random;

/// What a buffer may hold.
pub trait Unit: Copy + PartialEq + std::fmt::Debug {
    fn rubbish(random: &mut Random, count: usize) -> Vec<Self>;
}

impl Unit for u8 {
    fn rubbish(random: &mut Random, count: usize) -> Vec<u8> {
        let mut bytes = Vec::with_capacity(count + 8);
        while bytes.len() < count {
            bytes.extend(random.number().to_le_bytes());
        }
        bytes.truncate(count);
        bytes
    }
}

impl Unit for u32 {
    fn rubbish(random: &mut Random, count: usize) -> Vec<u32> {
        (0..count).map(|_| random.word()).collect()
    }
}

/// A lent slice in the midst of sentinels.
#[derive(Clone)]
pub struct Lent<T> {
    whole: Vec<T>,
    before: usize,
    length: usize,
}

const BEHIND: usize = 24;

impl<T: Unit> Lent<T> {
    pub fn new(random: &mut Random, length: usize) -> Self {
        // an odd number now and then, so that slices of bytes begin anywhere
        let before = random.between(9, 24);
        Lent { whole: T::rubbish(random, before + length + BEHIND), before, length }
    }

    /// What is lent.
    pub fn slice(&mut self) -> &mut [T] {
        &mut self.whole[self.before..self.before + self.length]
    }

    /// The first place where two buffers differ, sentinels included; 0 is the first lent one.
    pub fn difference(&self, expected: &Lent<T>) -> Option<String> {
        let pairs = self.whole.iter().zip(&expected.whole);
        let at = pairs.clone().position(|(one, other)| one != other)?;
        let place = at as isize - self.before as isize;
        Some(format!("at {place} of {} stands {:X?}, expected {:X?}", self.length, self.whole[at], expected.whole[at]))
    }
}

#[cfg(test)]
mod tests {
    use super::*;

    #[test]
    fn every_place_is_seen() {
        let mut random = Random::new(1);
        for length in [0, 1, 7] {
            let lent: Lent<u32> = Lent::new(&mut random, length);
            assert_eq!(lent.difference(&lent.clone()), None);
            for at in 0..lent.whole.len() {
                let mut other = lent.clone();
                other.whole[at] ^= 1;
                assert!(other.difference(&lent).is_some());
            }
        }
        let mut lent: Lent<u8> = Lent::new(&mut random, 5);
        let before = lent.clone();
        assert_eq!(lent.slice().len(), 5);
        lent.slice()[2] ^= 0xFF;
        assert!(lent.difference(&before).unwrap().starts_with("at 2 of 5"));
    }
}
