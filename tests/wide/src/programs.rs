//! The programs, run as they are: what each prints for an input must be what the independent implementation says.

use crate::compare::{shown, Comparison, Difference, Outcome};
use generate::{books, followed, jobs, listings, months, recordings, Random};
use independent::book::NO_BOOK;
use independent::{program, reader};
use std::ffi::{OsStr, OsString};
use std::io::Write;
use std::os::unix::ffi::OsStringExt;
use std::path::{Path, PathBuf};
use std::process::{Command, Output, Stdio};

/// Paths of the sending and of the reading program, and perhaps of the reading program on the slow engine, of the following program, of
/// the receiving program and of the coverage program.
pub struct Programs {
    sending: String,
    reading: String,
    slow_reading: Option<String>,
    following: Option<String>,
    receiving: Option<String>,
    coverage: Option<String>,
    /// The file that phrase books are written to.
    book: PathBuf,
    /// The folder for files of listings.
    folder: PathBuf,
}

impl Drop for Programs {
    fn drop(&mut self) {
        // they are there only if something was written
        _ = std::fs::remove_file(&self.book);
        _ = std::fs::remove_dir_all(&self.folder);
    }
}

impl Programs {
    /// No programs, or two to six.
    pub fn named(paths: &[String]) -> Result<Option<Self>, ()> {
        let (sending, reading, others) = match paths {
            [] => return Ok(None),
            [sending, reading, others @ ..] if others.len() <= 4 => (sending.clone(), reading.clone(), others),
            _ => return Err(()),
        };
        let other = |number: usize| others.get(number).cloned();
        let (slow_reading, following, receiving, coverage) = (other(0), other(1), other(2), other(3));
        let named = |what: &str| std::env::temp_dir().join(format!("wide-{}.{what}", std::process::id()));
        let (book, folder) = (named("book"), named("listings"));
        Ok(Some(Programs { sending, reading, slow_reading, following, receiving, coverage, book, folder }))
    }

    /// Inputs around the most that is read, and small ones; the same in every run.
    pub fn limits(&self, comparison: &mut Comparison) -> Outcome {
        for length in [0, 1, 65_535, 65_536, 65_537, 70_000, 200_000] {
            for filling in [&b"000009 0\n"[..], b"7CD215D8 7CD215D8\n", b"\n", b"x", b"\0", b"\xFF"] {
                let input: Vec<u8> = filling.iter().copied().cycle().take(length).collect();
                self.send(comparison, &input, NO_BOOK)?;
                self.read(comparison, &input)?;
                self.receive(comparison, &input)?;
            }
        }
        self.coverage_limits(comparison)?;
        self.send(comparison, b"000009 4 3132\n", NO_BOOK)?;
        for job in jobs::texts() {
            self.send(comparison, &job, NO_BOOK)?;
        }
        self.book_limits(comparison)?;
        for batches in [1, 299, 300, 301] {
            for lines in [8, 9, 36, 37] {
                self.read(comparison, &listings::listing(lines, 0, &listings::idle_batches(batches)))?;
            }
        }
        let mut random = Random::new(0);
        for frame in 0..8 {
            self.send(comparison, &jobs::maximal(&mut random, &[frame]), NO_BOOK)?;
        }
        self.send(comparison, &jobs::maximal_data(&mut random, &[7]), NO_BOOK)?;
        self.send(comparison, &jobs::latest(&mut random), NO_BOOK)?;
        let (job, book) = jobs::maximal_phrases(&mut random, &[7]);
        self.send(comparison, &job, &book)?;
        let longest = generate::words::one_long_page(&mut random, 300);
        self.read(comparison, &listings::listing(36, 0, &longest))?;
        self.follow_limits(comparison)?;
        for recording in recordings::few() {
            self.receive(comparison, &recording)?;
        }
        Ok(())
    }

    /// The sending program with books: numbers of phrases, books about the most that is looked at, and what is no book's file.
    fn book_limits(&self, comparison: &mut Comparison) -> Outcome {
        for job in jobs::phrase_numbers() {
            self.send(comparison, &job, books::SHORT)?;
        }
        let longest = books::longest(&mut Random::new(0));
        let mut some = vec![longest.clone(), b"41\n42".to_vec(), b"\n".to_vec()];
        for length in [48_101, 65_535, 65_536, 65_537, 70_000, 200_000] {
            for filling in [b'4', b'\n'] {
                let mut book = longest.clone();
                book.resize(length, filling);
                some.extend([book, vec![filling; length]]);
            }
        }
        // with an input of more than is read 24 comes before 19
        let long = [b'x'; program::MOST_INPUT + 1];
        for book in some {
            for job in jobs::FOR_BOOKS.into_iter().chain([&long[1..], &long]) {
                self.send(comparison, job, &book)?;
            }
        }
        // an empty file is no book; of what can't be read, and of two books, nothing is printed
        self.write_book(NO_BOOK)?;
        let missing = self.book.with_extension("missing");
        let folder = std::env::temp_dir();
        for job in jobs::FOR_BOOKS {
            self.send_with(comparison, &[&self.book], job, &program::sending(job, NO_BOOK))?;
            for arguments in [&[&*missing][..], &[&folder], &[Path::new("")], &[&self.book, &self.book]] {
                self.send_with(comparison, arguments, job, b"")?;
            }
        }
        Ok(())
    }

    /// The following program: identities about each limit, and arguments that name none, whatever is there to be read.
    fn follow_limits(&self, comparison: &mut Comparison) -> Outcome {
        let listing = program::sending(b"000009 4 3132\n00000F 1\n1FFFFF 5 41\n000009 2\n000000 7 12345\n", NO_BOOK);
        let mut bad_sync = listing.clone();
        bad_sync[9 * 18] = b'0';
        let long = [b'x'; program::MOST_INPUT + 1];
        for input in [&listing[..], &bad_sync, b"", &long[1..], &long] {
            for identity in of_six_digits(followed::EDGES).into_iter().chain([0x00_0001, 0x00_0009, 0x00_000F]) {
                self.follow(comparison, identity, input)?;
            }
            for arguments in followed::no_identities() {
                let arguments: Vec<OsString> = arguments.into_iter().map(OsString::from_vec).collect();
                self.follow_with(comparison, &arguments, input, b"", program::FOLLOWING_USAGE)?;
            }
        }
        Ok(())
    }

    /// The coverage program: no files and many, long ones, and those of refused listings.
    fn coverage_limits(&self, comparison: &mut Comparison) -> Outcome {
        if self.coverage.is_none() {
            return Ok(());
        }
        let each = months::one_of_each();
        let long = months::longest_front();
        let fillings = [b'x', b'\n', 0].map(|byte| vec![byte; program::MOST_INPUT + 1]);
        for files in [&[][..], &each, &long, &fillings] {
            self.cover(comparison, files)?;
        }
        for file in each.iter().chain(&long).chain(&fillings) {
            self.cover(comparison, std::slice::from_ref(file))?;
        }
        // the same file again and again
        self.write(&each[..2])?;
        for (number, count) in [(0, 2), (0, 999), (0, 1000), (0, 1001), (0, 2000), (1, 1000), (1, 1001)] {
            let printed = program::covering(&vec![&each[number]; count]);
            self.cover_with(comparison, &vec![&self.file(number); count], &printed, b"")?;
        }
        self.coverage_names(comparison, &each[0])
    }

    /// Names of the most bytes and of one more, and what can't be read: alone, first, last and between others.
    fn coverage_names(&self, comparison: &mut Comparison, listing: &[u8]) -> Outcome {
        let good = self.file(0);
        let slashes = |count: usize| OsString::from_vec([&b"/".repeat(count - good.len()), good.as_encoded_bytes()].concat());
        self.cover_with(comparison, &[&slashes(4095)], &program::covering(&[listing]), b"")?;
        let missing = [&b"none"[..], b" ", b"-", b"--help", b"\xFF %s\n\x01", b"/none/such", b"/"];
        let missing = missing.map(|name| OsString::from_vec(name.to_vec()));
        let unread = missing.into_iter().map(|name| (program::unread(&name), name));
        let no_names = [OsString::new(), slashes(4096)].map(|name| (program::NO_NAME.into(), name));
        for (said, name) in unread.chain(no_names) {
            for names in [&[&name][..], &[&good, &name], &[&name, &good], &[&good, &name, &good]] {
                self.cover_with(comparison, names, b"", &said)?;
            }
        }
        Ok(())
    }

    pub fn round(&self, comparison: &mut Comparison, random: &mut Random) -> Outcome {
        let (job, book) = match random.below(5) {
            0 | 1 => jobs::good(random),
            2 | 3 => jobs::bad(random),
            _ => (random.pick(&jobs::FOR_BOOKS).to_vec(), books::bad(random)),
        };
        self.send(comparison, &job, &book)?;
        let listing = listings::any(random);
        self.read(comparison, &listing)?;
        self.receive(comparison, &recordings::any(random))?;
        self.cover(comparison, &months::month(random))
    }

    /// Without an argument where there is no book.
    fn send(&self, comparison: &mut Comparison, input: &[u8], book: &[u8]) -> Outcome {
        let expected = program::sending(input, book);
        if book.is_empty() {
            return self.send_with(comparison, &[], input, &expected);
        }
        self.write_book(book)?;
        self.send_with(comparison, &[&self.book], input, &expected)
            .map_err(|Difference(text)| Difference(format!("{text}\nbook:\n{}", shown(book))))
    }

    fn send_with(&self, comparison: &mut Comparison, arguments: &[&Path], input: &[u8], expected: &[u8]) -> Outcome {
        compare(&self.sending, arguments, input, expected, None)?;
        comparison.count("sending program", 0);
        Ok(())
    }

    fn write_book(&self, book: &[u8]) -> Outcome {
        std::fs::write(&self.book, book).map_err(|error| Difference(format!("{}: {error}", self.book.display())))
    }

    /// Reads a listing, and follows an identity in it.
    fn read(&self, comparison: &mut Comparison, input: &[u8]) -> Outcome {
        let expected = program::reading(input);
        compare(&self.reading, NO_ARGUMENTS, input, &expected, None)?;
        comparison.count("reading program", 0);
        if let Some(path) = &self.slow_reading {
            compare(path, NO_ARGUMENTS, input, &expected, None)?;
            comparison.count("slow reading program", 0);
        }
        let lines = reader::log_of_listing(input).map_or(vec![], |log| log.lines);
        let identities = followed::identities(&mut comparison.random, &lines);
        let identity = comparison.random.pick(&of_six_digits(&identities));
        self.follow(comparison, identity, input)
    }

    /// Follows an identity of six digits.
    fn follow(&self, comparison: &mut Comparison, identity: u32, input: &[u8]) -> Outcome {
        let digits = OsString::from(format!("{identity:06X}"));
        self.follow_with(comparison, &[digits], input, &program::following(identity, input), "")
    }

    fn follow_with(
        &self,
        comparison: &mut Comparison,
        arguments: &[OsString],
        input: &[u8],
        printed: &[u8],
        said: &str,
    ) -> Outcome {
        let Some(path) = &self.following else { return Ok(()) };
        compare(path, arguments, input, printed, Some(said.as_bytes()))?;
        comparison.count("following program", 0);
        Ok(())
    }

    /// Receives a recording.
    fn receive(&self, comparison: &mut Comparison, input: &[u8]) -> Outcome {
        let Some(path) = &self.receiving else { return Ok(()) };
        compare(path, NO_ARGUMENTS, input, &program::receiving(input), Some(b""))?;
        comparison.count("receiving program", 0);
        Ok(())
    }

    /// Adds up files with these listings.
    fn cover(&self, comparison: &mut Comparison, listings: &[Vec<u8>]) -> Outcome {
        if self.coverage.is_none() {
            return Ok(());
        }
        self.write(listings)?;
        let names: Vec<OsString> = (0..listings.len()).map(|number| self.file(number)).collect();
        let names: Vec<&OsString> = names.iter().collect();
        self.cover_with(comparison, &names, &program::covering(listings), b"").map_err(|Difference(text)| {
            let listings: Vec<String> = listings.iter().map(|listing| shown(listing)).collect();
            Difference(format!("{text}\nlistings:\n{}", listings.join("\n\n")))
        })
    }

    /// Standard input has a listing too, which isn't read.
    fn cover_with(&self, comparison: &mut Comparison, names: &[&OsString], printed: &[u8], said: &[u8]) -> Outcome {
        let Some(path) = &self.coverage else { return Ok(()) };
        compare(path, names, &months::one_of_each()[0], printed, Some(said))?;
        comparison.count("coverage program", 0);
        Ok(())
    }

    /// The name of a listing's file.
    fn file(&self, number: usize) -> OsString {
        self.folder.join(number.to_string()).into_os_string()
    }

    fn write(&self, listings: &[Vec<u8>]) -> Outcome {
        let written = std::fs::create_dir_all(&self.folder).and_then(|()| {
            let mut files = listings.iter().enumerate();
            files.try_for_each(|(number, listing)| std::fs::write(self.file(number), listing))
        });
        written.map_err(|error| Difference(format!("{}: {error}", self.folder.display())))
    }
}

const NO_ARGUMENTS: &[&OsStr] = &[];

/// Identities that an argument can name.
fn of_six_digits(identities: &[u32]) -> Vec<u32> {
    identities.iter().copied().filter(|&identity| identity <= 0xFF_FFFF).collect()
}

/// What a program prints and, if that is compared too, what it says on standard error.
fn compare(path: &str, arguments: &[impl AsRef<OsStr>], input: &[u8], printed: &[u8], said: Option<&[u8]>) -> Outcome {
    let got = run(path, arguments, input).map_err(|error| Difference(format!("{path}: {error}")))?;
    let same = got.stdout == printed && said.is_none_or(|said| got.stderr == said);
    if same {
        return Ok(());
    }
    let arguments: Vec<&OsStr> = arguments.iter().map(AsRef::as_ref).collect();
    let outputs = |printed: &[u8], said: &[u8]| format!("prints\n{}\nsays\n{}", shown(printed), shown(said));
    Err(Difference(format!(
        "{path} {}\nexpected: {}\narguments {arguments:?}, input:\n{}",
        outputs(&got.stdout, &got.stderr),
        outputs(printed, said.unwrap_or(b"anything")),
        shown(input)
    )))
}

fn run(path: &str, arguments: &[impl AsRef<OsStr>], input: &[u8]) -> std::io::Result<Output> {
    let mut command = Command::new(path);
    let mut child = command.args(arguments).stdin(Stdio::piped()).stdout(Stdio::piped()).stderr(Stdio::piped()).spawn()?;
    let mut stdin = child.stdin.take().expect("piped");
    std::thread::scope(|scope| {
        // a program may stop reading when it has seen enough
        scope.spawn(move || _ = stdin.write_all(input));
        child.wait_with_output()
    })
}
