//! The times of conversions of a book into each version, beside those of its
//! questions.

use std::hint::black_box;

use books::conversions::length_as;
use books::versions::VERSIONS;
use daybook::archive::{self, OPERATOR};
use daybook::IMAGE_LENGTH;

use crate::calls::expect;
use crate::measure::{sample_time, Time};
use crate::options::Options;
use crate::questions::asked;
use crate::subjects::Subject;

/// Prints the times of the questions and of each conversion that loses nothing,
/// measured in turns, and how many times the questions a conversion takes.
pub fn print_table(subject: &Subject, options: &Options) {
    println!(
        "\n{} book, version {}: conversions of {} bytes; microseconds, {} samples of {} calls",
        subject.name,
        subject.version,
        subject.book.len(),
        options.samples,
        options.batch
    );
    let mut output = [0; IMAGE_LENGTH];
    let versions = VERSIONS.map(u32::from).into_iter();
    let versions: Vec<u32> = versions
        .filter(|version| archive::convert(&subject.book, OPERATOR, *version, &mut output) == 0)
        .collect();
    let mut copies = vec![subject.book.clone(); options.batch];
    let mut questions = Vec::new();
    let mut samples = vec![Vec::new(); versions.len()];
    for sample in 0..options.samples {
        for turn in 0..=versions.len() {
            let place = (sample + turn) % (versions.len() + 1);
            match versions.get(place) {
                None => questions.push(sample_time(&subject.book, &mut copies, &mut asked)),
                Some(version) => {
                    let length = length_as(&subject.book, *version);
                    let mut convert = |book: &mut [u8]| {
                        let output = &mut output[..length];
                        expect(archive::convert(
                            black_box(book),
                            OPERATOR,
                            *version,
                            output,
                        ));
                    };
                    let time = sample_time(&subject.book, &mut copies, &mut convert);
                    samples[place].push(time);
                }
            }
        }
    }
    println!("{:<31}{:>11}{:>11}", "call", "median", "least");
    let questions = Time::new(questions);
    print_line("questions 1 to 7", questions);
    let times: Vec<Time> = samples.into_iter().map(Time::new).collect();
    for (version, time) in versions.iter().zip(&times) {
        print_line(&format!("conversion into version {version}"), *time);
    }
    for (version, time) in versions.iter().zip(&times) {
        let multiple = *time / questions;
        println!(
            "  into version {version}: {:.2} times the questions (median), {:.2} times (least)",
            multiple.median, multiple.least
        );
    }
}

/// The book of version 1 as one of version 3, of which nothing is lost downward.
pub fn raised(subject: &Subject) -> Subject {
    let mut book = vec![0; length_as(&subject.book, 3)];
    expect(archive::convert(&subject.book, OPERATOR, 3, &mut book));
    Subject {
        version: 3,
        book,
        ..*subject
    }
}

fn print_line(name: &str, time: Time) {
    println!("{name:<31}{:>11.3}{:>11.3}", time.median, time.least);
}
