//! Writes calls of document 02 that the program `try_calls` of the engine makes,
//! after those of document 01, in the files `calls` and `calls.index` of the
//! folder that is the argument; what parties are told stays behind them. `answers`
//! prints what has to be printed for all of them.
//!
//! A call is its kind (1 byte), id (4), area or number of tries (4), amount (8),
//! the length of its book (2), and the book.

mod cancellations;
mod groups;
mod levels;
mod runs;

use books::{answer, Call};
use reference::book::Book;
use reference::party::Given;
use reference::units::Price;
use std::fmt::Write;

use cancellations::cancellations;
use groups::groups;
use levels::{guarantees, levels};
use runs::runs;

/// The calls of document 01, which no program writes.
const OF_DOCUMENT_01: usize = 138;

/// A call, what it shows, and the first of what it has to answer.
struct Shown {
    shows: &'static str,
    expected: Vec<i128>,
    call: Call,
    book: Vec<u8>,
}

/// A call that has to give this number and these fields, at least the first.
fn on(shows: &'static str, expected: &[i128], call: Call, book: &Book) -> Shown {
    Shown {
        shows,
        expected: expected.to_vec(),
        call,
        book: book.to_bytes(),
    }
}

/// The book in version 2, with these selling tariffs.
fn selling([s, u]: [i128; 2], book: Book) -> Book {
    let mut book = book;
    book.version = 2;
    (book.prices.s, book.prices.u) = (Price(s), Price(u));
    book
}

/// The selling tariffs of the calls.
const TARIFFS: [i128; 2] = [1_500, 700];

/// The kind of a call, its id, and its area or number of tries, with its amount.
fn arguments(call: &Call) -> (u8, u32, u32, i64) {
    match *call {
        Call::Posting { id, area, amount } => (0, id, area, amount),
        Call::MorningLevel { id } => (1, id, 0, 0),
        Call::AfternoonLevel { id } => (2, id, 0, 0),
        Call::Warning { id } => (3, id, 0, 0),
        Call::MorningCall { id } => (4, id, 0, 0),
        Call::AfternoonCall { id } => (5, id, 0, 0),
        Call::Run => (6, 1, 0, 0),
        Call::Cancellation { id, tries } => (7, id, tries, 0),
        _ => panic!("no call of the file: {}", call.name()),
    }
}

fn bytes_of(call: &Call, book: &[u8]) -> Vec<u8> {
    let (kind, id, area, amount) = arguments(call);
    let mut bytes = vec![kind];
    bytes.extend_from_slice(&id.to_le_bytes());
    bytes.extend_from_slice(&area.to_le_bytes());
    bytes.extend_from_slice(&amount.to_le_bytes());
    let length = u16::try_from(book.len()).expect("a book's length");
    bytes.extend_from_slice(&length.to_le_bytes());
    bytes.extend_from_slice(book);
    bytes
}

/// The length of this many calls at the start of a file.
fn length_of(calls: usize, file: &[u8]) -> usize {
    let mut length = 0;
    for _ in 0..calls {
        let book = u16::from_le_bytes([file[length + 17], file[length + 18]]);
        length += 19 + usize::from(book);
    }
    length
}

/// The kind of what a party is told.
const TOLD: u8 = 8;

/// What parties are told, which no program writes: each call and what it shows.
fn told(file: &[u8], index: &str) -> Vec<(Vec<u8>, String)> {
    let mut told = Vec::new();
    let mut rest = file;
    for line in index.lines() {
        let (call, after) = rest.split_at(length_of(1, rest));
        if call[0] == TOLD {
            let (_, shows) = line.split_once(' ').expect("a place and words");
            told.push((call.to_vec(), shows.to_string()));
        }
        rest = after;
    }
    told
}

fn main() -> std::io::Result<()> {
    let folder = std::env::args().nth(1).expect("a folder");
    let mut file = std::fs::read(format!("{folder}/calls"))?;
    let index = std::fs::read_to_string(format!("{folder}/calls.index"))?;
    let told = told(&file, &index);
    file.truncate(length_of(OF_DOCUMENT_01, &file));
    let lines = index.split_inclusive('\n').take(OF_DOCUMENT_01);
    let mut index: String = lines.collect();
    let calls = [levels(), guarantees(), runs(), cancellations(), groups()];
    let mut places = OF_DOCUMENT_01..;
    for (call, place) in calls.iter().flatten().zip(&mut places) {
        let given = answer(&mut call.book.clone(), Given::OPERATOR, None, &call.call);
        let mut answers = vec![i128::from(given.number)];
        answers.extend(&given.fields);
        assert!(
            answers.starts_with(&call.expected),
            "{place} {}: {answers:?}",
            call.shows
        );
        file.extend_from_slice(&bytes_of(&call.call, &call.book));
        let _ = writeln!(index, "{place} {}", call.shows);
    }
    for ((call, shows), place) in told.iter().zip(&mut places) {
        file.extend_from_slice(call);
        let _ = writeln!(index, "{place} {shows}");
    }
    assert!(file.len() <= 65_536, "more than the program reads");
    std::fs::write(format!("{folder}/calls"), file)?;
    std::fs::write(format!("{folder}/calls.index"), index)
}
