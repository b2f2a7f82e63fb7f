//! The sending, the reading, the following and the receiving program: what each prints for its standard input, the sending program for a
//! phrase book too, and the following program for an identity. And the coverage program, which prints for the files that it is given.

use crate::book::NO_BOOK;
use crate::listing::{self, BYTES_A_WORD};
use crate::send::Accepted;
use crate::{coverage, follow, number, reader, receive, Refusal};
use std::ffi::{OsStr, OsString};
use std::fs::File;
use std::io::{self, Read, Write};

pub const MOST_INPUT: usize = 65_536;

/// What the sending program prints for a job with its book.
pub fn sending(input: &[u8], book: &[u8]) -> Vec<u8> {
    answer(input, |job| {
        let words = Accepted::new(job, book)?.words();
        let mut out = vec![0; BYTES_A_WORD * words.len()];
        listing::write(&words, &mut out);
        Ok(out)
    })
}

/// What the reading program prints for a listing.
pub fn reading(input: &[u8]) -> Vec<u8> {
    answer(input, |listing| Ok(reader::log_of_listing(listing)?.lines))
}

/// What the following program prints for an identity and a listing.
pub fn following(identity: u32, input: &[u8]) -> Vec<u8> {
    answer(input, |listing| Ok(follow::lines_of_listing(identity, listing)?.lines))
}

/// What the receiving program prints for a recording.
pub fn receiving(input: &[u8]) -> Vec<u8> {
    answer(input, |recording| Ok(receive::log_of_recording(recording)?.log.lines))
}

/// What the coverage program prints for the listings of its files.
pub fn covering(listings: &[impl AsRef<[u8]>]) -> Vec<u8> {
    coverage::month(listings).map_or_else(refused, |report| report.text()).into_bytes()
}

fn answer(input: &[u8], work: impl FnOnce(&[u8]) -> Result<Vec<u8>, Refusal>) -> Vec<u8> {
    let result = if input.len() > MOST_INPUT { Err(Refusal::new(24, 0)) } else { work(input) };
    result.unwrap_or_else(|refusal| refused(refusal).into_bytes())
}

/// The line of a refusal; the position is in that of number 6 alone.
fn refused(Refusal { number, place, position }: Refusal) -> String {
    match number {
        6 => format!("refused {number} place {place} {position}\n"),
        _ => format!("refused {number} place {place}\n"),
    }
}

/// The book that the sending program's arguments name: that of a file, or none.
pub fn named_book(arguments: &[OsString]) -> io::Result<Vec<u8>> {
    match arguments {
        [] => Ok(NO_BOOK.to_vec()),
        [path] => std::fs::read(path),
        _ => Err(io::Error::other("at most one book")),
    }
}

/// What the following program says on standard error where its arguments name no identity.
pub const FOLLOWING_USAGE: &str = "page_follow: usage: page_follow IDENTITY\n";

/// The identity that the following program's arguments name: a single argument, of six upper-case hexadecimal digits.
pub fn named_identity(arguments: &[OsString]) -> Option<u32> {
    match arguments {
        [digits] if digits.len() == 6 => number(digits.as_encoded_bytes()),
        _ => None,
    }
}

/// What the coverage program says on standard error of an argument that can't name a file.
pub const NO_NAME: &str = "page_coverage: a file's name is empty or over 4,095 bytes\n";

const LONGEST_NAME: usize = 4095;

/// What it says of a file that can't be read.
pub fn unread(name: &OsStr) -> Vec<u8> {
    [b"page_coverage: ", name.as_encoded_bytes(), b" can't be read\n"].concat()
}

/// The listings of the coverage program's files, or what it says of the first that it doesn't get. Of a file the front is enough.
pub fn named_listings(names: &[OsString]) -> Result<Vec<Vec<u8>>, Vec<u8>> {
    names.iter().map(|name| named_listing(name)).collect()
}

fn named_listing(name: &OsStr) -> Result<Vec<u8>, Vec<u8>> {
    if name.is_empty() || name.len() > LONGEST_NAME {
        return Err(NO_NAME.into());
    }
    let mut listing = vec![];
    let read = File::open(name).and_then(|file| file.take(MOST_INPUT as u64).read_to_end(&mut listing));
    read.map_or(Err(unread(name)), |_| Ok(listing))
}

/// Prints for standard input what a program prints.
pub fn run(program: impl Fn(&[u8]) -> Vec<u8>) -> io::Result<()> {
    let mut input = Vec::new();
    io::stdin().take(MOST_INPUT as u64 + 1).read_to_end(&mut input)?;
    io::stdout().write_all(&program(&input))
}

/// The same of the following program; without an identity it reads nothing and prints nothing.
pub fn run_following(identity: Option<u32>, program: impl Fn(u32, &[u8]) -> Vec<u8>) -> io::Result<()> {
    match identity {
        Some(identity) => run(|listing| program(identity, listing)),
        None => io::stderr().write_all(FOLLOWING_USAGE.as_bytes()),
    }
}

/// The same of the coverage program, which reads no standard input.
pub fn run_covering(listings: Result<Vec<Vec<u8>>, Vec<u8>>, program: impl Fn(&[Vec<u8>]) -> Vec<u8>) -> io::Result<()> {
    match listings {
        Ok(listings) => io::stdout().write_all(&program(&listings)),
        Err(said) => io::stderr().write_all(&said),
    }
}

#[cfg(test)]
mod tests {
    use super::*;

    #[test]
    fn the_example() {
        let job = b"000009 4 3132\n";
        let idle = "7A89C197 7A89C197\n";
        let expected = "AAAAAAAA AAAAAAAA\n".repeat(9) + "7CD215D8\n" + idle + "000026EC C2199DEA\n" + &idle.repeat(6);
        let listing = sending(job, NO_BOOK);
        assert_eq!(String::from_utf8(listing.clone()).unwrap(), expected);
        assert_eq!(expected.lines().count(), 18);
        assert_eq!(reading(&listing), job);
    }

    #[test]
    fn a_phrase_there_and_back() {
        let listing = sending(b"00000F 9 00\n000009 9 01\n", b"4F4B\n48656C6C6F\n");
        assert_eq!(reading(&listing), b"000009 5 48656C6C6F\n00000F 5 4F4B\n");
    }

    #[test]
    fn page_lines_in_slot_order() {
        let listing = sending(b"000006 1\n000000 0\n000003 4 31\n000005 7 00000\n000002 6 12345\n", NO_BOOK);
        assert_eq!(reading(&listing), b"000000 0\n000002 6 12345\n000003 4 31\n000005 7 00000\n000006 1\n");
    }

    #[test]
    fn refusals() {
        let sent = |job: &[u8]| sending(job, NO_BOOK);
        assert_eq!(sent(b""), b"refused 9 place 0\n");
        assert_eq!(sent(b"000009 4 3132"), b"refused 1 place 1\n");
        assert_eq!(sent(b"000009 0\n1EA270 0\n"), b"refused 3 place 2\n");
        assert_eq!(sent(b"000009 0\n000009 3 31\n"), b"refused 12 place 2\n");
        assert_eq!(sent(b"000009 4\n"), b"refused 13 place 1\n");
        assert_eq!(sent(format!("000009 4 {}\n", "2A".repeat(61)).as_bytes()), b"refused 14 place 1\n");
        assert_eq!(sent(b"000009 0\n000009 6 3132\n"), b"refused 25 place 2\n");
        assert_eq!(sent(b"000009 0\n000009 4 31322A2A20\n"), b"refused 6 place 2 3\n");
        assert_eq!(sent(b"000009 4 3120\n"), b"refused 7 place 1\n");
        assert_eq!(sent(b"000009 9 00\n"), b"refused 4 place 1\n");
        assert_eq!(sending(b"000009 9 00\n000009 9 01\n", b"41\n"), b"refused 18 place 2\n");
        assert_eq!(sending(b"", b"41\n42"), b"refused 19 place 2\n");
        assert_eq!(reading(b""), b"refused 21 place 1\n");
        let listing = sending(b"000009 0\n", NO_BOOK);
        let bad_sync = String::from_utf8(listing).unwrap().replace("7CD215D8", "7CD215DF");
        assert_eq!(reading(bad_sync.as_bytes()), b"refused 22 place 1\n");
        assert_eq!(following(9, bad_sync.as_bytes()), b"refused 22 place 1\n");
        assert_eq!(following(0x1F_FFFF, b""), b"refused 21 place 1\n");
        assert_eq!(following(0x20_0000, b""), b"refused 2 place 0\n");
        assert_eq!(following(0x1F_3487, bad_sync.as_bytes()), b"refused 3 place 0\n");
    }

    #[test]
    fn an_identity_is_followed() {
        let listing = sending(b"000009 4 3132\n00000F 1\n000009 2\n", NO_BOOK);
        assert_eq!(following(9, &listing), b"000009 4 3132\n000009 2\n");
        assert_eq!(following(0xF, &listing), b"00000F 1\n");
        assert_eq!(following(1, &listing), b"");
    }

    #[test]
    fn a_recording_is_received() {
        let job = b"000009 4 3132\n00000F 1\n";
        let words = Accepted::new(job, NO_BOOK).unwrap().words();
        let mut recording: Vec<u8> = words.iter().flat_map(|word| word.to_be_bytes()).collect();
        assert_eq!(receiving(&recording), job);
        assert_eq!(receiving(&recording[1..]), job);
        assert_eq!(receiving(&recording[..recording.len() - 1]), b"");
        assert_eq!(receiving(b""), b"");
        recording.resize(MOST_INPUT, 0);
        assert_eq!(receiving(&recording), job);
        let batch = &recording[72..72 + 68];
        assert_eq!(receiving(&batch.repeat(300)).len(), 300 * job.len());
        assert_eq!(receiving(&batch.repeat(301)), b"refused 23 place 0\n");
    }

    #[test]
    fn a_month_of_listings() {
        let listing = sending(b"000009 4 3132\n", NO_BOOK);
        let report = |files: &[&[u8]]| String::from_utf8(covering(files)).unwrap();
        let idle = |frame: u32, words: u32| {
            format!("frame {frame} unchanged {words} one 0 two 0 lost 0 whole 0 cut 0 rate 0 remainder 0\n")
        };
        let none: String = (0..8).map(|frame| idle(frame, 0)).collect();
        let sync = "sync unchanged 0 one 0 two 0 rate 0 remainder 0\n";
        assert_eq!(report(&[]), none.clone() + sync + "listings 0 refused21 0 refused22 0 refused23 0\n");
        assert_eq!(report(&[b""]), none + sync + "listings 1 refused21 1 refused22 0 refused23 0\n");
        let page = idle(1, 4).replace("whole 0", "whole 2");
        let two: String = [idle(0, 4), page].into_iter().chain((2..8).map(|frame| idle(frame, 4))).collect();
        let sync = "sync unchanged 2 one 0 two 0 rate 0 remainder 0\n";
        assert_eq!(report(&[&listing, &listing]), two + sync + "listings 2 refused21 0 refused22 0 refused23 0\n");
        assert!(report(&[&listing[..]; 1000]).ends_with("listings 1000 refused21 0 refused22 0 refused23 0\n"));
        assert_eq!(report(&[&listing[..]; 1001]), "refused 23 place 1001\n");
        assert_eq!(report(&[&b""[..]; 1001]), "refused 23 place 1001\n");
    }

    #[test]
    fn what_a_listing_is_shows_in_its_front() {
        let batch = "7CD215D8\n".to_owned() + &"7A89C197 7A89C197\n".repeat(8);
        let long = "AAAAAAAA AAAAAAAA\n".repeat(36) + &batch.repeat(500);
        let read = |bytes: usize| reading(&long.as_bytes()[..bytes]);
        assert_eq!(read(46_548), b"");
        for bytes in 46_549..46_557 {
            assert_eq!(read(bytes), b"refused 21 place 2737\n");
        }
        for bytes in [46_557, 46_558, 65_535, 65_536] {
            assert_eq!(read(bytes), b"refused 23 place 2737\n");
        }
        let front = |bytes: usize| covering(&[&long.as_bytes()[..bytes]]);
        assert_eq!(front(46_557), covering(&[&long]));
        assert_ne!(front(46_556), covering(&[&long]));
    }

    #[test]
    fn names_of_files() {
        let said = |name: &str| String::from_utf8(named_listings(&[name.into()]).unwrap_err()).unwrap();
        assert_eq!(said(""), NO_NAME);
        assert_eq!(said(&"/".repeat(4096)), NO_NAME);
        for name in ["/", &"/".repeat(4095), "/none/such", "/none/\u{e9} %s\n"] {
            assert_eq!(said(name), format!("page_coverage: {name} can't be read\n"));
        }
        assert_eq!(named_listings(&[]), Ok(vec![]));
        assert_eq!(named_listings(&["/dev/null".into(), "/dev/zero".into()]), Ok(vec![vec![], vec![0; MOST_INPUT]]));
        assert_eq!(named_listings(&["/dev/null".into(), "".into(), "/".into()]), Err(NO_NAME.into()));
    }

    #[test]
    fn arguments_that_name_an_identity() {
        let named = |arguments: &[&str]| named_identity(&arguments.iter().map(OsString::from).collect::<Vec<_>>());
        assert_eq!(named(&["000009"]), Some(9));
        assert_eq!(named(&["1FFFFF"]), Some(0x1F_FFFF));
        assert_eq!(named(&["FFFFFF"]), Some(0xFF_FFFF));
        for none in ["", "9", "00009", "0000009", "00000a", "00000G", "+00009", "0x0009", " 00009", "000009\n", "0000\u{e9}"] {
            assert_eq!(named(&[none]), None, "{none:?}");
        }
        assert_eq!(named(&[]), None);
        assert_eq!(named(&["000009", "000009"]), None);
        assert_eq!(named(&["000009", ""]), None);
    }

    #[test]
    fn long_inputs() {
        let most = [b'x'; MOST_INPUT + 1];
        let programs: [fn(&[u8]) -> Vec<u8>; 6] = [
            |job| sending(job, NO_BOOK),
            |job| sending(job, b"4"),
            reading,
            |listing| following(9, listing),
            |listing| following(0x20_0000, listing),
            receiving,
        ];
        for program in programs {
            assert_ne!(program(&most[1..]), b"refused 24 place 0\n");
            assert_eq!(program(&most), b"refused 24 place 0\n");
        }
    }
}
