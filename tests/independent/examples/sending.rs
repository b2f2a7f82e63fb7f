//! The sending program: a job on standard input, its listing on standard output; the argument, if there is one, names a phrase book.

use independent::program::{named_book, run, sending};

fn main() -> std::io::Result<()> {
    let book = named_book(&std::env::args_os().skip(1).collect::<Vec<_>>())?;
    run(|job| sending(job, &book))
}
