//! Compares the proved engine with the reference: `compare CALLS SEED`.
//!
//! It prints the seed, how often each call on books of each version got each
//! number, the time and the number of differences; the status is 1 if there were any. Books of
//! differences are written to the folder that it is run in.

#![forbid(unsafe_code)]

use std::env;
use std::path::Path;
use std::process::ExitCode;
use std::time::Instant;

use compare::Comparison;

fn main() -> ExitCode {
    let arguments: Vec<u64> = env::args()
        .skip(1)
        .filter_map(|word| word.parse().ok())
        .collect();
    let [calls, seed] = arguments[..] else {
        eprintln!("usage: compare CALLS SEED");
        return ExitCode::from(2);
    };
    println!("seed {seed}");
    let start = Instant::now();
    let mut comparison = Comparison::new("program", seed, Path::new("."));
    comparison.random_calls(calls);
    println!("{}", comparison.counts);
    println!("{} calls compared", comparison.counts.all());
    println!("{} returns of shrinkage", comparison.returns);
    for (version, name, number) in comparison.counts.not_reached() {
        println!("not reached: {name} on {version} with number {number}");
    }
    println!("{} seconds", start.elapsed().as_secs());
    println!("{} differences", comparison.differences);
    ExitCode::from(u8::from(comparison.differences > 0))
}
