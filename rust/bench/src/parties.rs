//! The times of the queries of ask 9, and of the levels of all users, beside that of a
//! level, by the operator and by the shipper itself; by the engine alone.

use std::hint::black_box;

use daybook::archive::{self, OPERATOR};
use daybook::{MOST_USERS, TRADE_LENGTH};

use crate::calls::expect;
use crate::measure::{sample_time, Time};
use crate::options::Options;
use crate::subjects::Subject;

/// A query on a book by a party for a user, with an ordinal.
type Query = fn(&[u8], u64, u32, u32) -> u32;

/// That of all users is the operator's: a shipper is refused by 26.
const ALL_USERS: &str = "levels of all users";
const FORBIDDEN: u32 = 26;

/// The queries of the table, the level first.
const QUERIES: [(&str, Query); 6] = [
    ("afternoon level", |book, party, id, _| {
        archive::afternoon_level(book, party, None, id, &mut [0])
    }),
    (ALL_USERS, |book, party, _, _| {
        archive::levels(book, party, None, &mut [0; 4 * MOST_USERS])
    }),
    ("flag", |book, party, id, _| {
        archive::flag(book, party, None, id, &mut [0])
    }),
    ("count of trades", |book, party, id, _| {
        archive::trade_count(book, party, None, id, &mut [0])
    }),
    ("first trade", |book, party, id, _| {
        trade(book, party, id, 0)
    }),
    ("last trade", trade),
];

fn trade(book: &[u8], party: u64, id: u32, ordinal: u32) -> u32 {
    let (mut record, mut length) = ([0; TRADE_LENGTH], [0]);
    archive::trade(book, party, None, id, ordinal, &mut record, &mut length)
}

/// Prints the times of each query by either party, measured in turns, and how many
/// times the operator's level it takes.
pub fn print_table(subject: &Subject, options: &Options) {
    let id = subject.called;
    let mut count = [0];
    expect(archive::trade_count(
        &subject.book,
        OPERATOR,
        None,
        id,
        &mut count,
    ));
    println!(
        "\n{} book, version {}: queries of a shipper that may see {} trades; microseconds, {} samples of {} calls",
        subject.name, subject.version, count[0], options.samples, options.batch
    );
    let last = u32::try_from(count[0].saturating_sub(1)).unwrap_or(0);
    let parties = [OPERATOR, u64::from(id)];
    let lines: Vec<(&str, Query, u64)> = QUERIES
        .into_iter()
        .flat_map(|(name, query)| parties.map(|party| (name, query, party)))
        .collect();
    let mut samples = vec![Vec::new(); lines.len()];
    let mut copies = vec![subject.book.clone(); options.batch];
    for sample in 0..options.samples {
        for turn in 0..lines.len() {
            let place = (sample + turn) % lines.len();
            let (name, query, party) = lines[place];
            let number = number_of(name, party);
            let mut asked = |book: &mut [u8]| {
                assert_eq!(query(black_box(book), black_box(party), id, last), number);
            };
            samples[place].push(sample_time(&subject.book, &mut copies, &mut asked));
        }
    }
    println!(
        "{:<37}{:>11}{:>11}  times the operator's level (median, least)",
        "query", "median", "least"
    );
    let times: Vec<Time> = samples.into_iter().map(Time::new).collect();
    for ((name, _, party), time) in lines.iter().zip(&times) {
        let by = match number_of(name, *party) {
            0 if *party == OPERATOR => "by the operator",
            0 => "by the shipper",
            _ => "refused",
        };
        let multiple = *time / times[0];
        println!(
            "{:<37}{:>11.3}{:>11.3}  {:.2}, {:.2}",
            format!("{name}, {by}"),
            time.median,
            time.least,
            multiple.median,
            multiple.least
        );
    }
}

/// The number of a query by a party.
fn number_of(name: &str, party: u64) -> u32 {
    match name == ALL_USERS && party != OPERATOR {
        true => FORBIDDEN,
        false => 0,
    }
}
