//! The programs on top of the independent implementation, and the mistakes in the line of a refusal, with a book, with an
//! identity, with a recording and with files of listings.

use super::is;
use independent::book::{phrases, NO_BOOK};
use independent::program::{self, FOLLOWING_USAGE, MOST_INPUT, NO_NAME};
use std::ffi::{OsStr, OsString};
use std::io::{self, Read, Write};

/// Prints for standard input what the reading program prints.
pub fn reading() -> io::Result<()> {
    program::run(|listing| printed(program::reading(listing)))
}

/// Prints for standard input what the sending program prints, with the book that the arguments name.
pub fn sending() -> io::Result<()> {
    let arguments: Vec<OsString> = std::env::args_os().skip(1).collect();
    let mut book = program::named_book(if is("program-without-book") { &[] } else { &arguments });
    if is("program-without-a-missing-book") && arguments.len() == 1 {
        book = book.or(Ok(NO_BOOK.to_vec()));
    }
    let mut book = book?;
    if is("program-short-book") {
        book.truncate(MOST_INPUT / 2);
    }
    program::run(|job| match &book {
        bad if is("program-19-before-24") && phrases(bad).is_err() => program::sending(b"", bad),
        long if is("program-long-book-is-24") && long.len() > MOST_INPUT => program::sending(long, NO_BOOK),
        _ => printed(program::sending(job, &book)),
    })
}

/// Prints for standard input what the following program prints for the identity that the arguments name.
pub fn following() -> io::Result<()> {
    let mut arguments: Vec<OsString> = std::env::args_os().skip(1).collect();
    if is("program-follow-two-arguments") {
        arguments.truncate(1);
    }
    if is("program-follow-lower-case") {
        arguments.iter_mut().for_each(|argument| argument.make_ascii_uppercase());
    }
    if is("program-follow-five-digits") && arguments.len() == 1 && arguments[0].len() == 5 {
        arguments[0] = [OsStr::new("0"), &arguments[0]].into_iter().collect();
    }
    match program::named_identity(&arguments) {
        None if is("program-follow-usage-printed") => io::stdout().write_all(FOLLOWING_USAGE.as_bytes()),
        None if is("program-follow-without-usage") => Ok(()),
        identity => program::run_following(identity, |identity, listing| match program::following(identity, listing) {
            _ if is("program-follow-all-lines") => program::reading(listing),
            _ if is("program-follow-2-before-24") && identity > 0x1F_FFFF => program::following(identity, b""),
            right => right,
        }),
    }
}

/// Prints for standard input what the receiving program prints.
pub fn receiving() -> io::Result<()> {
    program::run(|recording| {
        let up_to = |end: u8| recording.split(|&byte| byte == end).next().unwrap_or_default();
        match program::receiving(recording) {
            _ if is("program-receive-28-for-24") && recording.len() > MOST_INPUT => b"refused 28 place 0\n".to_vec(),
            _ if is("program-receive-65536-refused") && recording.len() == MOST_INPUT => b"refused 24 place 0\n".to_vec(),
            _ if is("program-receive-up-to-a-zero") => program::receiving(up_to(0)),
            _ if is("program-receive-up-to-a-newline") => program::receiving(up_to(b'\n')),
            _ if is("program-receive-without-the-last-byte") => program::receiving(&recording[..recording.len().saturating_sub(1)]),
            none if is("program-receive-no-batch-refused") && none.is_empty() => b"refused 22 place 0\n".to_vec(),
            many if is("program-receive-nothing-for-23") && many.starts_with(b"refused 23") => vec![],
            right => right,
        }
    })
}

/// Prints for the files that the arguments name what the coverage program prints.
pub fn covering() -> io::Result<()> {
    let mut names: Vec<OsString> = std::env::args_os().skip(1).collect();
    let is_missing = |name: &OsString| !name.is_empty() && program::named_listings(std::slice::from_ref(name)).is_err();
    match () {
        _ if is("program-coverage-without-a-missing-file") => names.retain(|name| !is_missing(name)),
        _ if is("program-coverage-missing-is-21") => {
            names.iter_mut().filter(|name| is_missing(name)).for_each(|name| *name = "/dev/null".into())
        }
        _ if is("program-coverage-each-file-once") => names.dedup(),
        _ if is("program-coverage-1001-files") && names.len() == 1001 => names.truncate(1000),
        _ => {}
    }
    let mut listings = program::named_listings(&names);
    let longest = names.iter().map(|name| name.len()).max().unwrap_or(0);
    match &mut listings {
        Ok(_) if is("program-coverage-4095-bytes-refused") && longest == 4095 => listings = Err(NO_NAME.into()),
        Ok(all) if is("program-coverage-46556-bytes") => all.iter_mut().for_each(|listing| listing.truncate(46_556)),
        Ok(all) if is("program-coverage-last-file-alone") => _ = all.drain(..all.len().saturating_sub(1)),
        Ok(all) if is("program-coverage-reads-input") && all.is_empty() => {
            let mut input = vec![];
            io::stdin().read_to_end(&mut input)?;
            all.extend((!input.is_empty()).then_some(input));
        }
        Err(said) if is("program-coverage-without-the-name") && said != NO_NAME.as_bytes() => {
            *said = b"page_coverage: a file can't be read\n".to_vec();
        }
        Err(said) if is("program-coverage-empty-name-unread") && said == NO_NAME.as_bytes() => {
            *said = program::unread(OsStr::new(""))
        }
        Err(_) if is("program-coverage-printed-when-missing") => {
            names.retain(|name| !is_missing(name));
            io::stdout().write_all(&program::covering(&program::named_listings(&names).unwrap_or_default()))?;
        }
        _ => {}
    }
    program::run_covering(listings, |listings| covered(listings, program::covering(listings)))
}

/// What is printed for listings, as it is right or, for some mistakes, wrong.
fn covered(listings: &[Vec<u8>], right: Vec<u8>) -> Vec<u8> {
    match listings.len() {
        0 if is("program-coverage-nothing-without-files") => vec![],
        1000 if is("program-coverage-1000-files-refused") => b"refused 23 place 1001\n".to_vec(),
        1001.. if is("program-coverage-report-and-refusal") => [program::covering(&listings[..1000]), right].concat(),
        _ if is("program-coverage-long-is-24") && listings.iter().any(|listing| listing.len() == MOST_INPUT) => {
            b"refused 24 place 0\n".to_vec()
        }
        _ if is("program-coverage-without-remainders") => {
            let text = String::from_utf8_lossy(&right);
            let short = |line: &str| line.split(" remainder ").next().unwrap_or_default().to_owned() + "\n";
            text.lines().map(short).collect::<String>().into_bytes()
        }
        _ => right,
    }
}

/// What is printed, as it is right or, for some mistakes, wrong.
fn printed(right: Vec<u8>) -> Vec<u8> {
    let text = String::from_utf8_lossy(&right);
    let words: Vec<&str> = text.trim_end().split(' ').collect();
    match words[..] {
        ["refused", "6", "place", line, _] if is("program-without-position") => format!("refused 6 place {line}\n").into_bytes(),
        ["refused", _, "place", _] if is("program-with-0") => format!("{} 0\n", text.trim_end()).into_bytes(),
        _ => right,
    }
}
