//! The times of runs that take many reductions.

use books::hard::{
    chain, crawler, many_sellers, one_seller, rising, to_and_fro, two_sellers, widest,
};
use daybook::archive;
use reference::book::Book;

use crate::calls::expect;
use crate::measure::{sample_time, Time};
use crate::options::Options;
use crate::subjects::in_version;
use crate::table::{print_head, print_times};

/// A hard book by its name, for sales of some MWh, and its last version: a credit
/// that grows with each cut ends the run of a seller that is long.
type Hard = (&'static str, fn(i128) -> Book, u16);

const BOOKS: [Hard; 8] = [
    ("one-seller", one_seller, 1),
    ("many-sellers", many_sellers, 1),
    ("chain", chain, 2),
    ("two-sellers", two_sellers, 2),
    ("crawler", crawler, 2),
    ("to-and-fro", to_and_fro, 1),
    ("widest", widest, 2),
    ("rising", rising, 2),
];

/// Prints the times of the runs of the hard books of each version.
pub fn print_tables(options: &Options) {
    for version in &options.versions {
        let books = BOOKS.iter().filter(|(name, _, _)| options.has_book(name));
        let books: Vec<&Hard> = books.filter(|(_, _, last)| version <= last).collect();
        if !books.is_empty() {
            print_table(*version, &books, options);
        }
    }
}

fn print_table(version: u16, books: &[&Hard], options: &Options) {
    println!(
        "\nruns of hard books, version {version}; microseconds a reduction, {} runs; the engine's where there are at most {} reductions",
        options.hard_samples, options.engine_most
    );
    print_head(&format!("{:<12}{:>7}{:>12}", "book", "MWh", "reductions"));
    for (name, book, _) in books {
        for mwh in &options.hard_mwh {
            let book = in_version(version, book(*mwh));
            print_row(name, *mwh, &book.to_bytes(), options);
        }
    }
}

/// Runs the book by both sides in turns and prints their times.
fn print_row(name: &str, mwh: i128, book: &[u8], options: &Options) {
    let mut after = book.to_vec();
    let expected = tuned::run(&mut after).expect("an accepted book");
    let reductions = expected.reductions;
    let has_engine = reductions <= options.engine_most;
    let mut copies = [book.to_vec()];
    let (mut engine_samples, mut tuned_samples) = (Vec::new(), Vec::new());
    for _ in 0..options.hard_samples {
        if has_engine {
            let mut answer = [0; 3];
            let mut call = |book: &mut [u8]| {
                expect(archive::run(
                    book,
                    archive::OPERATOR,
                    None,
                    None,
                    &mut answer,
                ))
            };
            engine_samples.push(sample_time(book, &mut copies, &mut call) / reductions as f64);
            assert_eq!(answer[0], reductions, "{name}: reductions");
            assert_eq!(copies[0], after, "{name}: the book afterwards");
        }
        let mut call = |book: &mut [u8]| assert_eq!(tuned::run(book), Ok(expected));
        tuned_samples.push(sample_time(book, &mut copies, &mut call) / reductions as f64);
    }
    let engine = has_engine.then(|| Time::new(engine_samples));
    let start = format!("{name:<12}{mwh:>7}{reductions:>12}");
    print_times(&start, engine, Time::new(tuned_samples));
}
