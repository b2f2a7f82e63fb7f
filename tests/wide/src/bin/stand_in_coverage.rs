//! The coverage program of the stand-in.

fn main() -> std::io::Result<()> {
    card::stand_in::program::covering()
}
