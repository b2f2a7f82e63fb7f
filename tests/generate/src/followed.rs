//! What is followed: identities, and batches full of one identity's pages.

use crate::words::{self, reserved, Damage, BATCH, DAMAGES, MOST_BATCHES};
use crate::{jobs, Random};
use independent::codeword::{address, encode, message, IDLE, RESERVED, SYNC};

/// Identities about each limit: what is refused with 2 or 3, what isn't, and what would be with fewer bits.
pub const EDGES: &[u32] = &[
    0x00_0000,
    0x00_0007,
    0x00_0008,
    0x1E_A26F,
    0x1E_A270,
    0x1E_A277,
    0x1E_A278,
    0x1F_347F,
    0x1F_3480,
    0x1F_3487,
    0x1F_3488,
    0x1F_FFF8,
    0x1F_FFFF,
    0x20_0000,
    0x20_0001,
    0x20_0009,
    0x3E_A26F,
    0x3E_A270,
    0x3F_3487,
    0x3F_FFFF,
    0xFF_FFFF,
    0x100_0000,
    0x100_0009,
    0x801E_A270,
    u32::MAX,
];

/// Any identity that a page may have.
fn identity(random: &mut Random) -> u32 {
    loop {
        let identity = random.word() & 0x1F_FFFF;
        if !jobs::is_reserved(identity) {
            return identity;
        }
    }
}

/// The identity of one of these page lines, any where there are none.
fn of_lines(random: &mut Random, lines: &[u8]) -> u32 {
    let count = lines.iter().filter(|&&byte| byte == b'\n').count();
    if count == 0 {
        return identity(random);
    }
    let line = lines.split(|&byte| byte == b'\n').nth(random.below(count)).expect("a line");
    line[..6].iter().fold(0, |value, &digit| value << 4 | (digit as char).to_digit(16).expect("a digit"))
}

/// Another identity, which may have one's lines by a mistake.
fn near(random: &mut Random, identity: u32) -> u32 {
    match random.below(4) {
        // in another frame
        0 | 1 => identity ^ random.between(1, 7) as u32,
        // in the same frame
        2 => identity ^ 8 << random.below(18),
        // of too many bits
        _ => identity | 1 << random.between(21, 31),
    }
}

/// Identities to follow where these page lines are read: one of them, one that is nearly so, and one about a limit.
pub fn identities(random: &mut Random, lines: &[u8]) -> [u32; 3] {
    let one = of_lines(random, lines);
    [one, near(random, one), random.pick(EDGES)]
}

/// An identity and the words in which it is followed.
pub type Case = (u32, Vec<u32>);

/// The word index of a slot in batches.
fn at(slot: usize) -> usize {
    slot / 16 * BATCH + 1 + slot % 16
}

/// The first slot of an identity's frame.
fn first_slot(identity: u32) -> usize {
    2 * (identity as usize & 7)
}

/// So many batches with a word in every slot.
fn filled(batches: usize, word: u32) -> Vec<u32> {
    [&[SYNC][..], &[word; BATCH - 1]].concat().repeat(batches)
}

/// What may stand in a slot when pages of an identity are followed: its address, another's in the same frame, a message word, idle, a
/// lost word and one with a reserved value.
fn sorts(identity: u32, function: u32) -> [u32; 6] {
    let reserved = encode(RESERVED[function as usize % 2] << 2 | (1 + function / 2));
    [address(identity, function), address(identity ^ 8, 3 - function), message(0x84333), IDLE, 7, reserved]
}

/// Identities about each limit, with a page of each or of its low bits, in words that are read and in words that are declined with each
/// number.
fn edges() -> Vec<Case> {
    let mut cases = vec![];
    for &identity in EDGES {
        let first = at(first_slot(identity));
        for count in [1, 2, MOST_BATCHES + 1] {
            let mut words = filled(count, IDLE);
            (words[first], words[first + 1]) = (address(identity & 0x1F_FFFF, 1), message(0x84333));
            let mut bad_sync = words.clone();
            bad_sync[BATCH * (count - 1)] = IDLE;
            cases.extend([(identity, words[1..].to_vec()), (identity, bad_sync), (identity, words)]);
        }
        cases.push((identity, vec![]));
    }
    cases
}

/// Two batches with words of every sort, in every order, in the four slots of the identity's frame; in all others stand message words,
/// idle, or the identity's own address, which there is another's.
fn in_its_frame() -> Vec<Case> {
    let mut cases = vec![];
    for identity in [0x0A_BCD0, 0x0A_BCD3, 0x0A_BCD7] {
        let first = first_slot(identity);
        for filling in [message(0x55555), IDLE, address(identity, 2)] {
            for order in 0..6usize.pow(4) {
                let mut words = filled(2, filling);
                for (i, slot) in [first, first + 1, first + 16, first + 17].into_iter().enumerate() {
                    words[at(slot)] = sorts(identity, i as u32)[order / 6usize.pow(i as u32) % 6];
                }
                cases.push((identity, words));
            }
        }
    }
    cases
}

/// A page that runs through three batches, but for one word, which is of every sort and stands in every slot.
fn along_its_message() -> Vec<Case> {
    let mut page = filled(3, IDLE);
    (0..48).for_each(|slot| page[at(slot)] = message(0x33333 + slot as u32));
    let mut cases = vec![];
    for identity in [0x15_4320, 0x15_4323, 0x15_4327] {
        for word in sorts(identity, 1).into_iter().chain(reserved()).chain([address(0x0A_BCD0, 0), message(0) ^ 7]) {
            for slot in 0..48 {
                let mut words = page.clone();
                words[at(first_slot(identity))] = address(identity, slot as u32 % 4);
                words[at(slot)] = word;
                cases.push((identity, words));
            }
        }
    }
    cases
}

/// A page whose address, message word or end has one or two wrong bits, in every way.
fn mended() -> Vec<Case> {
    let identity = 0x00_0001;
    let mut page = filled(1, IDLE);
    (page[3], page[4]) = (address(identity, 0), message(0x84333));
    let mut cases = vec![];
    for i in 0..32 {
        for j in 0..=i {
            for at in 3..=5 {
                let mut words = page.clone();
                words[at] ^= 1 << i | 1 << j;
                cases.push((identity, words));
            }
        }
    }
    cases
}

/// As many batches as there may be, with each function: one page through all of them, and a page in every slot.
fn longest() -> Vec<Case> {
    let mut cases = vec![];
    for function in 0..4 {
        let mut one = filled(MOST_BATCHES, message(if function == 3 { 0xF_FFFF } else { 0 }));
        one[1] = address(0x00_0008, function);
        cases.extend([(0x00_0008, one), (0x00_000F, filled(MOST_BATCHES, address(0x00_0008, function)))]);
    }
    cases
}

/// Identities about the limits, and words of every sort in every place, the same in every run.
pub fn limits() -> Vec<Case> {
    [edges(), in_its_frame(), along_its_message(), mended(), longest()].concat()
}

/// Arguments of the following program that name no identity: none, digits too few or too many, bytes that are no upper-case digit at
/// every place, and a second argument.
pub fn no_identities() -> Vec<Vec<Vec<u8>>> {
    let good = b"000009";
    let single: [&[u8]; 12] = [
        b"",
        b"9",
        b"00009",
        b"0000009",
        b"000009 ",
        b" 000009",
        b"000009\n",
        b"0x000009",
        b"-000009",
        b"0000-9",
        b"++++++",
        b"--help",
    ];
    let mut all: Vec<Vec<Vec<u8>>> = vec![vec![]];
    all.extend(single.map(|argument| vec![argument.to_vec()]));
    for at in 0..good.len() {
        for byte in *b"/:@G`ag +\xB0\xFF" {
            let mut over = good.to_vec();
            over[at] = byte;
            all.push(vec![over]);
        }
    }
    let several: [&[&[u8]]; 5] = [&[good, good], &[good, b""], &[b"", good], &[b"000", b"009"], &[good, good, good]];
    all.extend(several.map(|arguments| arguments.iter().map(|argument| argument.to_vec()).collect()));
    all
}

/// An identity and a few batches in which its pages stand close to others, damaged or not.
pub fn batches(random: &mut Random) -> Case {
    let identity = if random.once_in(4) { random.pick(&[0, 7, 0x1F_FFF8, 0x1F_FFFF]) } else { identity(random) };
    let mut words = filled(random.between(1, 6), IDLE);
    let once_in = random.pick(&[1, 4, 12]);
    for slot in 0..words.len() / BATCH * 16 {
        let sorts = sorts(identity, random.below(4) as u32);
        let own_frame = slot % 16 / 2 == first_slot(identity) / 2;
        words[at(slot)] = match own_frame && random.once_in(2) {
            true => sorts[0],
            false if random.once_in(once_in) => random.pick(&sorts),
            false => message(random.word() & 0xF_FFFF),
        };
    }
    let damage = if random.once_in(2) { Damage::None } else { random.pick(DAMAGES) };
    words::damage(random, &mut words, damage);
    (identity, words)
}

#[cfg(test)]
mod tests {
    use super::*;
    use independent::follow::{among, lines_of_words, Followed};
    use independent::reader::log_of_words;
    use std::collections::BTreeMap;

    /// Follows in both ways, which must agree, and counts by the number, or by the lines up to five; cut ones apart.
    fn count(all: impl Iterator<Item = Case>) -> (BTreeMap<u32, usize>, [usize; 6], usize) {
        let (mut declined, mut lines, mut cut) = (BTreeMap::new(), [0; 6], 0);
        for (identity, words) in all {
            let followed = lines_of_words(identity, &words);
            assert_eq!(followed, among(identity, &log_of_words(&words)), "{identity:06X} {words:08X?}");
            match followed {
                Ok(Followed { lines: bytes, count }) => {
                    lines[(count as usize).min(5)] += 1;
                    cut += bytes.iter().filter(|&&byte| byte == b'-').count();
                }
                Err(refusal) => *declined.entry(refusal.number).or_default() += 1,
            }
        }
        (declined, lines, cut)
    }

    #[test]
    fn both_ways_of_following_agree() {
        let (declined, lines, cut) = count(limits().into_iter());
        assert_eq!(declined.keys().copied().collect::<Vec<_>>(), [2, 3, 21, 22, 23]);
        assert!(lines.iter().all(|&count| count > 0) && cut > 1000, "{lines:?} {cut}");
        let mut random = Random::new(1);
        let (declined, lines, cut) = count((0..3000).map(|_| batches(&mut random)));
        assert_eq!(declined.keys().copied().collect::<Vec<_>>(), [22]);
        assert!(lines.iter().all(|&count| count > 100) && cut > 1000, "{lines:?} {cut}");
    }

    #[test]
    fn identities_of_lines() {
        let mut random = Random::new(1);
        let mut met = BTreeMap::new();
        for _ in 0..1000 {
            let [one, near, edge] = identities(&mut random, b"000009 4 3132\n1FFFFF 0-\n00000F 6 12345\n");
            assert!(near != one && EDGES.contains(&edge));
            *met.entry(one).or_insert(0) += 1;
        }
        assert_eq!(met.keys().copied().collect::<Vec<_>>(), [0x00_0009, 0x00_000F, 0x1F_FFFF]);
        assert!(met.values().all(|&count| count > 200), "{met:?}");
        assert!((0..1000).all(|_| lines_of_words(identities(&mut random, b"")[0], &filled(1, IDLE)).is_ok()));
    }
}
