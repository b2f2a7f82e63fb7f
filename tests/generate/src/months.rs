//! Months of listings: lists of listings of every sort, and reports that a listing may be added to.

use crate::listings::{self, idle_batches, listing};
use crate::words::{self, reserved, Damage, BATCH, MOST_BATCHES};
use crate::Random;
use independent::codeword::{address, message, IDLE, SYNC};
use independent::coverage::{MOST_A_LISTING, MOST_LISTINGS, NUMBERS};

/// A report as its numbers, in the order of `Coverage::numbers`: first the listings, then the counts.
pub type Numbers = [u32; NUMBERS];

/// How many listings a report may have: about each limit, with 600 times as many about 32 bits, and with low bits that are few.
const LISTINGS: &[u32] =
    &[0, 1, 2, 999, 1000, 1001, 1002, 65_535, 65_536, 65_537, 66_536, 7_158_278, 7_158_279, 0x8000_0001, u32::MAX];

/// A report with so many listings and nothing else.
fn empty(listings: u32) -> Numbers {
    let mut numbers = [0; NUMBERS];
    numbers[0] = listings;
    numbers
}

/// The most that a count may be, in as many bits as it has.
fn most(listings: u32) -> u32 {
    listings.wrapping_mul(MOST_A_LISTING)
}

/// Reports on both sides of every limit, the same in every run: each count alone, all of them, and all with one that is over.
pub fn edges() -> Vec<Numbers> {
    let mut all = vec![];
    for &listings in LISTINGS {
        let most = most(listings);
        all.push(empty(listings));
        let full: Numbers = std::array::from_fn(|at| if at == 0 { listings } else { most });
        all.push(full);
        for at in 1..NUMBERS {
            for count in [most.wrapping_sub(1), most, most.wrapping_add(1), u32::MAX] {
                let mut numbers = empty(listings);
                numbers[at] = count;
                all.push(numbers);
            }
            let mut over = full;
            over[at] = over[at].wrapping_add(1);
            all.push(over);
        }
    }
    all
}

/// Any report: within the bounds, at them, over them in a single count, or of any numbers.
pub fn report(random: &mut Random) -> Numbers {
    let listings = match random.below(4) {
        0 => random.pick(LISTINGS),
        1 => MOST_LISTINGS - random.below(3) as u32,
        _ => random.below(MOST_LISTINGS as usize) as u32,
    };
    let mut numbers = empty(listings);
    let most = most(listings.min(MOST_LISTINGS));
    match random.below(8) {
        0 => numbers.fill_with(|| random.word()),
        1 => numbers[1..].fill(most),
        2 => numbers[1..].fill_with(|| random.pick(&[0, 1, most.saturating_sub(1), most])),
        sort => {
            numbers[1..].fill_with(|| random.below(most as usize + 1) as u32);
            if sort < 5 {
                numbers[random.between(1, NUMBERS - 1)] = random.pick(&[most, most + 1, most + 2, 2 * most + 1, u32::MAX]);
            }
        }
    }
    numbers
}

/// Batches with these words from this slot on, as far as there is room, and idle everywhere else.
fn batches(count: usize, slot: usize, part: &[u32]) -> Vec<u32> {
    let mut words = idle_batches(count);
    for (slot, &word) in (slot..16 * count).zip(part) {
        words[slot / 16 * BATCH + 1 + slot % 16] = word;
    }
    words
}

/// A listing of these batches behind the shortest preamble.
pub fn of_batches(batches: &[u32]) -> Vec<u8> {
    listing(9, 0xAAAA_AAAA, batches)
}

/// A good listing, and one for each number by which it may be refused.
pub fn one_of_each() -> [Vec<u8>; 4] {
    let good = batches(2, 3, &[address(8, 1), message(0x84333) ^ 1, 7, address(8, 0) ^ 3]);
    let mut bad_sync = good.clone();
    bad_sync[BATCH] ^= 7;
    let listing = of_batches(&good);
    let short = listing[..listing.len() - 1].to_vec();
    [listing, short, of_batches(&bad_sync), of_batches(&idle_batches(MOST_BATCHES + 1))]
}

/// The longest that a listing can be before it shows what it is: the 301st sync behind the longest preamble. With a byte less it is
/// malformed, and what stands behind changes nothing.
pub fn longest_front() -> Vec<Vec<u8>> {
    let long = listing(36, 0, &idle_batches(2 * MOST_BATCHES));
    let settled = 36 * 18 + MOST_BATCHES * BATCH * 9 + 9;
    [settled - 10, settled - 9, settled - 1, settled, settled + 1, 65_535, 65_536, 65_537, long.len()]
        .map(|length| long[..length].to_vec())
        .into()
}

/// Listings with words of every sort in every slot, wrong bits in every class, and pages that end in every way and every frame.
pub fn limits() -> Vec<Vec<u8>> {
    let mut all = vec![];
    let m = message(0x84333);
    let sorts: Vec<u32> = reserved().chain([address(8, 1), m, 7]).collect();
    for slot in 0..32 {
        for (number, &word) in sorts.iter().enumerate() {
            for flips in [0, [1, 0x8000_0000, 0x0001_0001, 0x8001_0001][(slot + number) % 4]] {
                // behind nothing, and behind a page that is open
                all.push(batches(2, slot, &[word ^ flips]));
                if slot > 1 {
                    all.push(batches(2, slot - 2, &[address(0x10, 3), m, word ^ flips, m]));
                }
            }
        }
    }
    for i in 0..32 {
        for j in 0..=i {
            let mut two = idle_batches(2);
            two[BATCH] ^= 1 << i | 1 << j;
            all.push(two);
        }
    }
    // as many of a kind as there can be, in as many batches
    for word in [IDLE, IDLE ^ 1, IDLE ^ 3, 7, SYNC, address(8, 0), m, address(8, 0) ^ 0x8000_0001] {
        all.push(batches(MOST_BATCHES, 0, &[word; 16 * MOST_BATCHES]));
    }
    let mut all: Vec<Vec<u8>> = all.iter().map(|words| of_batches(words)).collect();
    all.extend(longest_front());
    all.extend(one_of_each());
    all.push(vec![]);
    all
}

/// A listing of any sort, mostly a short one: good, with up to three wrong bits a word, reserved values, malformed, without sync, of too
/// many batches, or empty.
pub fn any(random: &mut Random) -> Vec<u8> {
    match random.below(20) {
        0..=3 => listings::any(random),
        4..=9 => {
            let count = random.between(1, 5);
            let mut words = words::free_batches(random, count);
            let once_in = random.pick(&[2, 5, 20]);
            words::damage(random, &mut words, Damage::Three(once_in));
            of_batches(&words)
        }
        10..=13 => {
            let mut words = words::sent_batches(random);
            let damage = random.pick(&[Damage::Light, Damage::Rare, Damage::Spots, Damage::Three(10)]);
            words::damage(random, &mut words, damage);
            of_batches(&words)
        }
        14 | 15 => {
            let count = random.between(1, 5);
            let mut words = words::free_batches(random, count);
            words[BATCH * random.between(0, count - 1)] ^= random.ones(3);
            of_batches(&words)
        }
        16 => {
            let count = random.between(1, 5);
            let words = words::free_batches(random, count);
            let mut listing = of_batches(&words);
            crate::bytes::mutate(random, &mut listing);
            listing
        }
        17 | 18 => random.pick(&[&b""[..], b"\n", b"x", b"7CD215D8\n", b"AAAAAAAA AAAAAAAA\n"]).to_vec(),
        _ if random.once_in(4) => {
            let count = random.pick(&[299, 300, 301, 302]);
            let mut words = words::free_batches(random, count);
            words::damage(random, &mut words, Damage::Three(5));
            of_batches(&words)
        }
        _ => of_batches(&idle_batches(random.between(1, 30))),
    }
}

/// A few listings, some of them the same.
pub fn month(random: &mut Random) -> Vec<Vec<u8>> {
    let mut all: Vec<Vec<u8>> = (0..random.pick(&[0, 1, 2, 3, 5, 8])).map(|_| any(random)).collect();
    if !all.is_empty() && random.once_in(3) {
        let again = all[random.below(all.len())].clone();
        all.push(again);
    }
    all
}

/// As many listings as a report may have, of every sort, but short ones.
pub fn whole() -> Vec<Vec<u8>> {
    let mut random = Random::new(1);
    let some: Vec<Vec<u8>> = (0..200).map(|_| any(&mut random)).filter(|listing| listing.len() < 1000).collect();
    some.iter().cycle().take(MOST_LISTINGS as usize).cloned().collect()
}

/// In another order.
pub fn shuffle<T>(random: &mut Random, all: &mut [T]) {
    for at in (1..all.len()).rev() {
        all.swap(at, random.below(at + 1));
    }
}

#[cfg(test)]
mod tests {
    use super::*;
    use independent::coverage::{alone, with_another, Coverage, Words};
    use std::collections::BTreeMap;

    /// How often each number is answered where a listing is added, in both ways the same.
    fn answered(reports: impl Iterator<Item = Numbers>, listings: &[Vec<u8>]) -> BTreeMap<u32, usize> {
        let mut met = BTreeMap::new();
        for numbers in reports {
            let report = Coverage::of_numbers(&numbers);
            for listing in listings {
                let mut added = report;
                let answer = added.add(listing).map(|()| added);
                assert_eq!(with_another(&report, listing), answer, "{numbers:?}");
                *met.entry(answer.map_or_else(|refusal| refusal.number, |_| 0)).or_insert(0) += 1;
            }
        }
        met
    }

    #[test]
    fn every_answer_is_about_the_limits_and_drawn() {
        let short = [vec![], of_batches(&idle_batches(1))];
        let met = answered(edges().into_iter(), &short);
        assert_eq!(met.keys().copied().collect::<Vec<_>>(), [0, 11, 23]);
        assert!(met.values().all(|&count| count > 200), "{met:?}");
        let mut random = Random::new(1);
        let met = answered((0..1000).map(|_| report(&mut random)), &short);
        assert_eq!(met.keys().copied().collect::<Vec<_>>(), [0, 11, 23]);
        assert!(met.values().all(|&count| count > 50), "{met:?}");
    }

    /// The reports of listings, added up; both ways of counting them agree.
    fn added_up(listings: impl Iterator<Item = Vec<u8>>) -> Coverage {
        let mut sum = Coverage::default();
        for listing in listings {
            let mut single = Coverage::default();
            single.add(&listing).unwrap();
            assert_eq!(alone(&listing), single);
            sum = sum.plus(&single);
        }
        sum
    }

    #[test]
    fn every_count_is_met() {
        let mut random = Random::new(1);
        for sum in [added_up(limits().into_iter()), added_up((0..500).map(|_| any(&mut random)))] {
            assert!(!sum.numbers().contains(&0), "{sum:?}");
            let often = |Words { unchanged, one, two, lost }: &Words| [unchanged, one, two, lost].iter().all(|&&count| count > 100);
            assert!(sum.frames.iter().all(often) && sum.pages.iter().all(|pages| pages.whole > 20 && pages.cut > 20), "{sum:?}");
        }
    }

    #[test]
    fn the_order_does_not_matter() {
        let mut random = Random::new(2);
        let mut orders = 0;
        for _ in 0..30 {
            let listings = month(&mut random);
            let mut other = listings.clone();
            shuffle(&mut random, &mut other);
            orders += usize::from(listings != other);
            assert_eq!(independent::coverage::month(&listings), independent::coverage::month(&other));
        }
        assert!(orders > 10, "{orders}");
        let mut all: Vec<usize> = (0..100).collect();
        shuffle(&mut random, &mut all);
        let mut sorted = all.clone();
        sorted.sort();
        assert!(all != sorted && sorted == (0..100).collect::<Vec<_>>());
    }

    #[test]
    fn a_whole_month() {
        let report = independent::coverage::month(&whole()).unwrap();
        assert_eq!(report.listings, MOST_LISTINGS);
        let unmet = report.numbers().iter().filter(|&&count| count < 5).count();
        // none has over 300 batches
        assert!(unmet == 1 && report.refused[2] == 0, "{report:?}");
    }
}
