//! The receiving program: a recording on standard input, its page lines on standard output.

use independent::program::{receiving, run};

fn main() -> std::io::Result<()> {
    run(receiving)
}
