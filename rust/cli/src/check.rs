//! `daybook check`: the verdict on each book, and where it fails.

use std::path::Path;

use daybook::{Book, Operator, Refusal};

use crate::arguments::Arguments;
use crate::files;
use crate::form::{csv_row, Form};
use crate::outcome::{Failure, Outcome, Status};
use crate::reasons::{reason, Asked};
use crate::refusals;
use crate::source::{accepted, given, verdict, Given, Source, Store, Verdict};
use daybook_text::draft::Spot;
use daybook_text::faults::Fault;
use daybook_text::fields::Place;
use daybook_text::json::Object;
use daybook_text::words::{counted, date};

/// The columns of a verdict; a refused book has a row for each field at fault, a text
/// that cannot be read one for each mistake.
const COLUMNS: [&str; 14] = [
    "book", "accepted", "number", "version", "date", "users", "trades", "file", "line", "column",
    "record", "place", "field", "reason",
];

pub fn check(arguments: &Arguments) -> Result<Outcome, Failure> {
    let usage = "check BOOK.. [--csv|--json] [--store FILE]";
    arguments.expect(1, usize::MAX, usage)?;
    let store = Store::open(arguments.path("--store").as_deref())?;
    let form = Form::of(arguments)?;
    let mut outcome = Outcome::default();
    for file in arguments.rest(0) {
        let path = Path::new(file);
        let name = files::shown(path);
        let given = match given(path) {
            Ok(given) => given,
            Err(failure) => {
                outcome.fail(&failure, false);
                continue;
            }
        };
        if form == Form::Csv {
            table(&mut outcome, &name, given, &store);
            continue;
        }
        let verdict = accepted(&name, given).and_then(|source| with_store(source, &store));
        let json = form == Form::Json;
        match verdict {
            Err(failure) => outcome.answer(&failure, json),
            Ok(source) => {
                outcome.note(&source);
                outcome.line(told(&source, json));
            }
        }
    }
    Ok(outcome)
}

/// An accepted book whose store is not refused.
fn with_store(source: Source, store: &Store) -> Result<Source, Failure> {
    match store_refusal(&source, store) {
        Some((refusal, reason)) => Err(refusals::of_store(&source.name, refusal, &reason)),
        None => Ok(source),
    }
}

/// Why the store is refused for a book, if it is: 0 is the id of no user, so that a
/// shown record asks all the questions before the eighth, and is refused by it.
fn store_refusal(source: &Source, store: &Store) -> Option<(Refusal, String)> {
    let refusal = store.operator().record(&source.bytes, 0).err();
    let refusal = refusal.filter(|refusal| *refusal != Refusal::Id)?;
    let reason = reason(&source.bytes, store, 0, Asked::Plain, refusal);
    Some((refusal, reason))
}

/// An accepted book in a line.
fn told(source: &Source, json: bool) -> String {
    let name = &source.name;
    let book = Operator::new().read(&source.bytes).unwrap_or_default();
    if json {
        let object = Object::new().string("book", name).put("accepted", true);
        let object = object.put("number", 0).put("version", book.version);
        let object = object.string("date", &date(book.date));
        let object = object.put("users", book.users.len());
        return object.put("trades", book.trades.len()).end();
    }
    format!("{name}: accepted: {}", described(&book))
}

/// The rows of a verdict.
fn table(outcome: &mut Outcome, name: &str, given: Given, store: &Store) {
    if outcome.out.is_empty() {
        outcome.line(csv_row(COLUMNS));
    }
    let mut row = |number: String, book: Option<&Book>, at: [String; 6], reason: String| {
        let is_accepted = number == "0";
        let counts = book.map_or_else(Default::default, |book| {
            [
                book.version.to_string(),
                date(book.date),
                book.users.len().to_string(),
                book.trades.len().to_string(),
            ]
        });
        let mut cells = vec![name.to_string(), is_accepted.to_string(), number];
        cells.extend(counts.into_iter().chain(at));
        cells.push(reason);
        outcome.line(csv_row(cells));
        if !is_accepted {
            outcome.status = outcome.status.max(Status::Refused);
        }
    };
    let nowhere = Default::default;
    match verdict(name, given) {
        Verdict::Accepted(source) => {
            let book = Operator::new().read(&source.bytes).unwrap_or_default();
            match store_refusal(&source, store) {
                None => row("0".to_string(), Some(&book), nowhere(), String::new()),
                Some((refusal, reason)) => {
                    let number = refusal.number().to_string();
                    row(number, Some(&book), nowhere(), reason);
                }
            }
        }
        Verdict::Refused(refusal, faults) => {
            let number = refusal.number().to_string();
            for (spot, fault) in &faults {
                let at = place_cells(spot.as_ref(), Some(fault));
                row(number.clone(), None, at, fault.to_string());
            }
            if faults.is_empty() {
                row(number, None, nowhere(), refusals::question(refusal));
            }
        }
        Verdict::Unread(mistakes) => {
            for mistake in mistakes {
                let at = place_cells(Some(&mistake.spot), None);
                row(String::new(), None, at, mistake.reason);
            }
        }
    }
}

/// Where something is written, and the record and field.
fn place_cells(spot: Option<&Spot>, fault: Option<&Fault>) -> [String; 6] {
    let (file, line, column) = spot.map_or_else(Default::default, |spot| {
        let (line, column) = (spot.line.to_string(), spot.column.to_string());
        (spot.file.to_string(), line, column)
    });
    let (record, place, field) = fault.map_or_else(Default::default, |fault| {
        let (record, place) = match fault.place {
            Place::Header => ("header", String::new()),
            Place::User(place) => ("user", (place + 1).to_string()),
            Place::Trade(place) => ("trade", (place + 1).to_string()),
        };
        (record.to_string(), place, fault.field.to_string())
    });
    [file, line, column, record, place, field]
}

/// A book in a few words; the version is told where it is not the first.
pub fn described(book: &Book) -> String {
    let version = match book.version {
        1 => String::new(),
        version => format!("version {version}, "),
    };
    let users = counted(book.users.len(), "user");
    let trades = counted(book.trades.len(), "trade");
    format!("{version}{}, {users}, {trades}", date(book.date))
}
