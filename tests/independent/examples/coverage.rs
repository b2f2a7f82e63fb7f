//! The coverage program: the files of listings that the arguments name, and what they have in numbers on standard output.

use independent::program::{covering, named_listings, run_covering};

fn main() -> std::io::Result<()> {
    run_covering(named_listings(&std::env::args_os().skip(1).collect::<Vec<_>>()), covering)
}
