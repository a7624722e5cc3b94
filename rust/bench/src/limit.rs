//! The questions 1 to 7 by the engine beside those by `limit`, the quickest scalar
//! Rust found for them, on books of every version.

use std::hint::black_box;

use crate::measure::times;
use crate::options::Options;
use crate::questions;
use crate::subjects::Subject;
use crate::table::print_head_of;

/// Prints the times of both sides and the ratio engine / limit.
pub fn print_table(subject: &Subject, options: &Options) {
    println!(
        "\n{} book, version {}: questions 1 to 7 beside the limit; microseconds, {} samples of {} calls",
        subject.name, subject.version, options.samples, options.batch
    );
    print_head_of("limit", "");
    let mut room = ::limit::Room::NEW;
    let times = times(
        &subject.book,
        (options.samples, options.batch),
        questions::asked,
        |book| assert_eq!(::limit::ask(black_box(book), &mut room), 0),
    );
    let ratio = times.engine / times.tuned;
    println!(
        "{:<31}{:>11.3}{:>11.3}{:>8.2}{:>11.3}{:>11.3}{:>8.2}",
        "questions",
        times.engine.median,
        times.tuned.median,
        ratio.median,
        times.engine.least,
        times.tuned.least,
        ratio.least
    );
}
