//! Two pieces of work timed in turn, and the table row that comes of it.

use crate::clock;
use std::time::Duration;

/// How long one timing lasts at least, and how many there are.
#[derive(Clone, Copy)]
pub struct Effort {
    pub runs: usize,
    pub at_least: Duration,
}

fn time(work: &mut dyn FnMut(), times: u32) -> Duration {
    let start = clock::now();
    for _ in 0..times {
        work();
    }
    clock::now() - start
}

/// How often a piece of work is to be done so that a timing lasts long enough.
fn calibrate(work: &mut dyn FnMut(), at_least: Duration) -> u32 {
    let mut times = 1;
    while time(work, times) < at_least {
        times *= 2;
    }
    times
}

fn median(values: &mut [f64]) -> f64 {
    values.sort_by(f64::total_cmp);
    values[values.len() / 2]
}

/// Nanoseconds in a unit that fits.
fn shown(nanoseconds: f64) -> String {
    match nanoseconds {
        n if n < 1_000.0 => format!("{n:.2} ns"),
        n if n < 1_000_000.0 => format!("{:.2} µs", n / 1e3),
        n => format!("{:.2} ms", n / 1e6),
    }
}

pub fn print_head(one: &str, other: &str) {
    println!("| Work | {one} | {other} | Ratio | Least | Greatest |");
    println!("|---|---:|---:|---:|---:|---:|");
}

/// Times both, one after the other in each run and the order changed from run to run, and prints the row. A call of either does
/// `units` pieces of what the times are given for.
pub fn row(effort: Effort, name: &str, units: usize, one: &mut dyn FnMut(), other: &mut dyn FnMut()) {
    let times = [calibrate(one, effort.at_least), calibrate(other, effort.at_least)];
    let mut nanoseconds = [vec![], vec![]];
    let mut ratios = vec![];
    for run in 0..effort.runs {
        let mut taken = [0.0; 2];
        for turn in 0..2 {
            let which = (run + turn) % 2;
            let total = if which == 0 { time(one, times[0]) } else { time(other, times[1]) };
            taken[which] = total.as_nanos() as f64 / times[which] as f64 / units as f64;
        }
        ratios.push(taken[0] / taken[1]);
        nanoseconds[0].push(taken[0]);
        nanoseconds[1].push(taken[1]);
    }
    let middle = median(&mut ratios);
    let [one, other] = nanoseconds.map(|mut values| shown(median(&mut values)));
    println!("| {name} | {one} | {other} | {middle:.2} | {:.2} | {:.2} |", ratios[0], ratios[ratios.len() - 1]);
}
