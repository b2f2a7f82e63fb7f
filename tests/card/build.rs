//! Says where the library's archive is: the folder in CARD_LIB, or target/staticlib of the repository. A relative folder counts
//! from this crate.

use std::env;
use std::path::PathBuf;

fn main() {
    println!("cargo:rerun-if-env-changed=CARD_LIB");
    println!("cargo:rerun-if-changed=build.rs");
    if env::var_os("CARGO_FEATURE_STAND_IN").is_some() {
        return;
    }
    let crate_folder = PathBuf::from(env::var_os("CARGO_MANIFEST_DIR").expect("set by cargo"));
    let folder = crate_folder.join(env::var_os("CARD_LIB").unwrap_or_else(|| "../../target/staticlib".into()));
    let archive = folder.join("libcard.a");
    println!("cargo:rerun-if-changed={}", archive.display());
    if !archive.exists() {
        eprintln!("{} isn't there: make it with `tools/build`,", archive.display());
        eprintln!("name its folder in CARD_LIB, or build with --features stand-in");
        std::process::exit(1);
    }
    println!("cargo:rustc-link-search=native={}", folder.display());
    println!("cargo:rustc-link-lib=static=card");
}
