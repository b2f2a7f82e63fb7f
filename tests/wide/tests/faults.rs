//! The comparison finds each mistake that the stand-in can make, and none where it makes none.
#![cfg(feature = "stand-in")]

use std::process::{Command, Output};

fn wide(fault: &str) -> Output {
    let reading = env!("CARGO_BIN_EXE_stand_in_reading");
    let sending = env!("CARGO_BIN_EXE_stand_in_sending");
    let (following, receiving) = (env!("CARGO_BIN_EXE_stand_in_following"), env!("CARGO_BIN_EXE_stand_in_receiving"));
    let coverage = env!("CARGO_BIN_EXE_stand_in_coverage");
    let rounds = if fault.starts_with("program-") { "programs" } else { "5" };
    let arguments = [rounds, "1", sending, reading, reading, following, receiving, coverage];
    Command::new(env!("CARGO_BIN_EXE_wide")).args(arguments).env("CARD_FAULT", fault).output().expect("wide runs")
}

#[test]
fn without_a_mistake() {
    let output = wide("");
    assert!(output.status.success(), "{}", String::from_utf8_lossy(&output.stdout));
}

/// Those that the judge finds before anything else does.
const JUDGED: &[&str] =
    &["reads-31-bits", "whole-before-a-lost-word", "joined-behind-a-lost-word", "cut-keeps-its-kind", "cut-within-a-group"];

/// One core has every second mistake, the other the rest: a run of the comparison takes one core.
#[test]
fn with_each_mistake() {
    std::thread::scope(|scope| {
        for core in 0..2 {
            scope.spawn(move || card::stand_in::FAULTS.iter().skip(core).step_by(2).for_each(|fault| is_found(fault)));
        }
    });
}

fn is_found(fault: &str) {
    let output = wide(fault);
    let text = String::from_utf8_lossy(&output.stdout);
    assert_eq!(output.status.code(), Some(1), "{fault} isn't found");
    assert!(text.contains("DIFFERENCE"), "{fault}: {text}");
    if JUDGED.contains(&fault) {
        assert!(text.contains("broken: "), "{fault}: {text}");
    }
    // the programs' own mistakes, and no others, are found in what they print
    assert_eq!(text.contains(" prints\n"), fault.starts_with("program-"), "{fault}: {text}");
    // the slow engine's own mistakes, and no others, are found in what it answers
    let (_, difference) = text.split_once("DIFFERENCE").expect("seen above");
    assert_eq!(difference.contains("slowly: "), fault.starts_with("slow-"), "{fault}: {text}");
    // and so are the desk receiver's
    let followed = difference.contains("follow words: ") || difference.contains("follow listing: ");
    assert_eq!(followed, fault.starts_with("follow-"), "{fault}: {text}");
    // and the receiver's
    assert_eq!(difference.contains("receive: "), fault.starts_with("receive-"), "{fault}: {text}");
    // and the coverage report's
    let covered = difference.contains("add listing: ") || difference.contains("coverage rate: ");
    assert_eq!(covered, fault.starts_with("coverage-"), "{fault}: {text}");
}
