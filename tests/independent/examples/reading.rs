//! The reading program: a listing on standard input, its page lines on standard output.

use independent::program::{reading, run};

fn main() -> std::io::Result<()> {
    run(reading)
}
