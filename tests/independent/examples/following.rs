//! The following program: a listing on standard input, the page lines of one identity on standard output; the argument is the identity,
//! six upper-case hexadecimal digits.

use independent::program::{following, named_identity, run_following};

fn main() -> std::io::Result<()> {
    let identity = named_identity(&std::env::args_os().skip(1).collect::<Vec<_>>());
    run_following(identity, following)
}
