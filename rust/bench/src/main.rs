//! Times of the engine against those of the tuned implementation: the same
//! calls on the same books, on the same machine, in turns.
//!
//! `daybook-bench --help` says what can be chosen.

#![forbid(unsafe_code)]

mod calls;
mod conversions;
mod forms;
mod groups;
mod hard;
mod limit;
mod logs;
mod measure;
mod options;
mod parties;
mod questions;
mod subjects;
mod table;
mod wide;

use std::env;
use std::fs;
use std::process::ExitCode;

use options::Options;

fn main() -> ExitCode {
    let options = match Options::parse(env::args().skip(1)) {
        Ok(options) => options,
        Err(message) => {
            eprintln!("{message}");
            return ExitCode::from(2);
        }
    };
    print_machine("before");
    for subject in subjects::usual_books(&options) {
        calls::print_table(&subject, &options);
        limit::print_table(&subject, &options);
        logs::print_table(&subject, &options);
        forms::print_table(&subject, &options);
        conversions::print_table(&subject, &options);
        parties::print_table(&subject, &options);
        if subject.version == 1 {
            conversions::print_table(&conversions::raised(&subject), &options);
        }
    }
    for subject in subjects::books_for_groups(&options) {
        groups::print_table(&subject, &options);
        let third = groups::in_groups(&subject);
        limit::print_table(&third, &options);
        forms::print_table(&third, &options);
        conversions::print_table(&third, &options);
        parties::print_table(&third, &options);
    }
    for version in options.versions.iter().filter(|version| **version < 3) {
        if options.has_book("wide") {
            let wide = subjects::wide(*version);
            wide::print_beyond(&wide, &options);
            wide::print_cancellations(&wide, &options);
            logs::print_table(&wide, &options);
        }
    }
    hard::print_tables(&options);
    print_machine("after");
    ExitCode::SUCCESS
}

/// The processor and the load of the machine.
fn print_machine(when: &str) {
    let processors = fs::read_to_string("/proc/cpuinfo").unwrap_or_default();
    let model = processors
        .lines()
        .find_map(|line| line.strip_prefix("model name"))
        .map_or("", |rest| rest.trim_start_matches([' ', '\t', ':']));
    let count = std::thread::available_parallelism().map_or(0, usize::from);
    let load = fs::read_to_string("/proc/loadavg").unwrap_or_default();
    println!("{model}, {count} processors, load {when}: {}", load.trim());
}
