//! The times of the field-wise form of a book and of its inverse, beside those of the
//! book's questions and, in versions 1 and 2, of a loop over fields and records in
//! Rust, which asks the same questions in its own way.

use std::hint::black_box;

use daybook::archive::{self, OPERATOR};
use daybook::IMAGE_LENGTH;

use crate::calls::{accept, expect};
use crate::measure::{sample_time, Time};
use crate::options::Options;
use crate::questions::asked;
use crate::subjects::Subject;

/// A call on a book or on a form.
type Call = fn(&mut [u8]);

/// A line of the table: whether it is given the form, and the call.
const LINES: [(&str, bool, Call); 5] = [
    ("questions 1 to 7", false, asked),
    ("form", false, |book| {
        expect(archive::form(
            black_box(book),
            OPERATOR,
            &mut [0; IMAGE_LENGTH],
        ));
    }),
    ("restore", true, |form| {
        expect(archive::restore(black_box(form), &mut [0; IMAGE_LENGTH]));
    }),
    ("form by a loop in Rust", false, |book| {
        accept(tuned::form(black_box(book), &mut [0; IMAGE_LENGTH]));
    }),
    ("restore by a loop in Rust", true, |form| {
        accept(tuned::restore(black_box(form), &mut [0; IMAGE_LENGTH]));
    }),
];

/// The lines of the engine, with which the table begins.
const OF_ENGINE: usize = 3;

/// Prints the times of each line, measured in turns, and what they are of each other.
pub fn print_table(subject: &Subject, options: &Options) {
    println!(
        "\n{} book, version {}: field-wise form; microseconds, {} samples of {} calls",
        subject.name, subject.version, options.samples, options.batch
    );
    let lines = match subject.version {
        3 => &LINES[..OF_ENGINE],
        _ => &LINES[..],
    };
    let mut form = vec![0; subject.book.len()];
    expect(archive::form(&subject.book, OPERATOR, &mut form));
    let mut samples = vec![Vec::new(); lines.len()];
    let mut copies = vec![form.clone(); options.batch];
    for sample in 0..options.samples {
        for turn in 0..lines.len() {
            let place = (sample + turn) % lines.len();
            let (_, of_form, mut call) = lines[place];
            let bytes = if of_form { &form } else { &subject.book };
            samples[place].push(sample_time(bytes, &mut copies, &mut call));
        }
    }
    let times: Vec<Time> = samples.into_iter().map(Time::new).collect();
    println!("{:<31}{:>11}{:>11}", "call", "median", "least");
    for ((name, _, _), time) in lines.iter().zip(&times) {
        println!("{name:<31}{:>11.3}{:>11.3}", time.median, time.least);
    }
    for place in 1..OF_ENGINE {
        let name = lines[place].0;
        print_multiple(name, times[place] / times[0], "the questions");
        if let Some(other) = times.get(place + OF_ENGINE - 1) {
            print_multiple(name, times[place] / *other, "the loop");
        }
    }
}

fn print_multiple(name: &str, multiple: Time, of: &str) {
    println!(
        "  {name}: {:.2} times {of} (median), {:.2} times (least)",
        multiple.median, multiple.least
    );
}
