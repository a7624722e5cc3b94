//! `daybook table`: many books side by side, a row each, over all cores.

use std::fs;
use std::io::{self, IsTerminal, Write};
use std::path::{Path, PathBuf};
use std::sync::atomic::{AtomicUsize, Ordering};
use std::sync::mpsc;
use std::thread;

use crate::arguments::Arguments;
use crate::day::{totals, Totals};
use crate::files;
use crate::form::{csv_row, or_null, Form};
use crate::outcome::{Failure, Outcome, Status};
use crate::source::{given, is_tables, verdict, Store, Verdict};
use daybook_text::json::Object;
use daybook_text::text::aligned;
use daybook_text::words::{counted, date, euros, grouped, plain_euros, wide};

/// The columns of a row.
const COLUMNS: [&str; 13] = [
    "book",
    "number",
    "date",
    "users",
    "trades",
    "reductions",
    "mwh",
    "worth",
    "short",
    "uncovered",
    "calls",
    "to_call",
    "deposit",
];

/// What is told of a book.
#[derive(Clone, Debug, PartialEq, Eq)]
pub enum Found {
    /// An accepted book: date, users, trades, and the day's totals.
    Day(u32, usize, usize, Totals),
    /// The number of the question that refused it.
    Refused(u32),
    /// A text that is none.
    Unread,
}

/// A row of the table.
#[derive(Clone, Debug, PartialEq, Eq)]
pub struct Row {
    pub name: String,
    pub found: Found,
}

pub fn table(arguments: &Arguments) -> Result<Outcome, Failure> {
    let usage = "table BOOK..|DIR [--csv|--json] [--store FILE]";
    arguments.expect(1, usize::MAX, usage)?;
    let form = Form::of(arguments)?;
    let store = Store::open(arguments.path("--store").as_deref())?;
    let mut paths = Vec::new();
    for word in arguments.rest(0) {
        paths.extend(books(Path::new(word))?);
    }
    let mut outcome = Outcome::default();
    let mut found = Vec::new();
    for row in rows(&paths, &store) {
        match row {
            Ok(row) => {
                if !matches!(row.found, Found::Day(..)) {
                    outcome.status = outcome.status.max(Status::Refused);
                }
                found.push(row);
            }
            // A file that cannot be read is no book of the table.
            Err(failure) => outcome.fail(&failure, false),
        }
    }
    let rows = found;
    match form {
        _ if rows.is_empty() => {}
        Form::Words => words(&mut outcome, &rows),
        Form::Csv => lines(&mut outcome, &rows),
        Form::Json => rows.iter().for_each(|row| outcome.line(object(row))),
    }
    Ok(outcome)
}

/// The books of a folder by name, files and folders of CSV files, hidden ones and other
/// folders in it left out; any other file, and a folder of CSV files, is one by itself.
pub fn books(path: &Path) -> Result<Vec<PathBuf>, Failure> {
    if files::is_standard(path) || !path.is_dir() || is_tables(path) {
        return Ok(vec![path.to_path_buf()]);
    }
    let failed = |error: io::Error| files::unread(path, &error);
    let mut paths = Vec::new();
    for file in fs::read_dir(path).map_err(failed)? {
        let file = file.map_err(failed)?;
        let hidden = file.file_name().as_encoded_bytes().starts_with(b".");
        if !hidden && (file.path().is_file() || is_tables(&file.path())) {
            paths.push(file.path());
        }
    }
    paths.sort();
    Ok(paths)
}

/// The rows of files, in their order, found by as many threads as there are cores.
pub fn rows(paths: &[PathBuf], store: &Store) -> Vec<Result<Row, Failure>> {
    let cores = thread::available_parallelism().map_or(1, usize::from);
    let next = AtomicUsize::new(0);
    let (sender, receiver) = mpsc::channel();
    let mut rows: Vec<Option<Result<Row, Failure>>> = vec![None; paths.len()];
    thread::scope(|scope| {
        for _ in 0..cores.min(paths.len()) {
            let (sender, next) = (sender.clone(), &next);
            scope.spawn(move || {
                let take = || next.fetch_add(1, Ordering::Relaxed);
                let mut place = take();
                while let Some(path) = paths.get(place) {
                    // The receiver stays as long as the threads do.
                    let _ = sender.send((place, row(path, store)));
                    place = take();
                }
            });
        }
        drop(sender);
        let mut progress = Progress::new(paths.len());
        for (place, row) in receiver {
            rows[place] = Some(row);
            progress.step();
        }
        progress.end();
    });
    rows.into_iter().flatten().collect()
}

fn row(path: &Path, store: &Store) -> Result<Row, Failure> {
    let name = files::shown(path);
    let found = match verdict(&name, given(path)?) {
        Verdict::Unread(_) => Found::Unread,
        Verdict::Refused(refusal, _) => Found::Refused(refusal.number()),
        Verdict::Accepted(source) => day(&source.bytes, store),
    };
    Ok(Row { name, found })
}

fn day(bytes: &[u8], store: &Store) -> Found {
    let found = daybook::Operator::new().read(bytes).and_then(|book| {
        let totals = totals(&store.operator(), bytes, &book)?;
        let (users, trades) = (book.users.len(), book.trades.len());
        Ok(Found::Day(book.date, users, trades, totals))
    });
    found.unwrap_or_else(|refusal| Found::Refused(refusal.number()))
}

/// How far it is, told on a terminal alone.
struct Progress {
    done: usize,
    all: usize,
    is_shown: bool,
}

impl Progress {
    fn new(all: usize) -> Progress {
        Progress {
            done: 0,
            all,
            is_shown: all > 1 && io::stderr().is_terminal(),
        }
    }

    fn step(&mut self) {
        self.done += 1;
        if self.is_shown && (self.done.is_multiple_of(16) || self.done == self.all) {
            let (done, all) = (grouped(wide(self.done)), grouped(wide(self.all)));
            let _ = write!(io::stderr(), "\r{done} of {all} books");
        }
    }

    fn end(&self) {
        if self.is_shown {
            let _ = write!(io::stderr(), "\r\x1b[K");
        }
    }
}

fn cents(cents: u128) -> i128 {
    i128::try_from(cents).unwrap_or(i128::MAX)
}

/// The cells of a row, its amounts written as the form has them.
fn cells(
    row: &Row,
    whole: impl Fn(i128) -> String,
    money: impl Fn(i128) -> String,
    none: &str,
) -> Vec<String> {
    let mut cells = vec![row.name.clone()];
    match &row.found {
        Found::Day(day, users, trades, it) => cells.extend([
            "0".to_string(),
            date(*day),
            whole(wide(*users)),
            whole(wide(*trades)),
            whole(i128::from(it.run.reductions)),
            whole(i128::from(it.run.mwh)),
            money(i128::from(it.run.worth)),
            whole(wide(it.short)),
            money(cents(it.uncovered)),
            whole(wide(it.calls)),
            money(cents(it.to_call)),
            it.deposit
                .map_or_else(|| none.to_string(), |it| money(cents(it))),
        ]),
        Found::Refused(number) => cells.push(number.to_string()),
        Found::Unread => cells.push("unread".to_string()),
    }
    cells.resize(COLUMNS.len(), none.to_string());
    cells
}

fn words(outcome: &mut Outcome, rows: &[Row]) {
    let names = COLUMNS.map(|name| name.replace('_', " "));
    let mut table = vec![names.to_vec()];
    table.extend(rows.iter().map(|row| cells(row, grouped, euros, "-")));
    outcome.text(&aligned(&table));
    let days = rows.iter().filter_map(|row| match &row.found {
        Found::Day(_, _, _, totals) => Some(totals),
        _ => None,
    });
    let days: Vec<&Totals> = days.collect();
    let sum = |of: fn(&Totals) -> u128| days.iter().map(|it| of(it)).sum::<u128>();
    let reductions = grouped(cents(sum(|it| u128::from(it.run.reductions))));
    let mwh = grouped(cents(sum(|it| u128::from(it.run.mwh))));
    let worth = euros(cents(sum(|it| u128::from(it.run.worth))));
    let uncovered = euros(cents(sum(|it| it.uncovered)));
    let refused = match rows.len() - days.len() {
        0 => String::new(),
        count => format!(", {} of them refused or unread", grouped(wide(count))),
    };
    let books = counted(rows.len(), "book");
    let run = format!("reductions {reductions}, {mwh} MWh cut, worth {worth} EUR");
    outcome.line(format!(
        "{books}{refused}: {run}; uncovered {uncovered} EUR"
    ));
}

fn lines(outcome: &mut Outcome, rows: &[Row]) {
    outcome.line(csv_row(COLUMNS));
    for row in rows {
        outcome.line(csv_row(cells(row, |it| it.to_string(), plain_euros, "")));
    }
}

fn object(row: &Row) -> String {
    let object = Object::new().string("book", &row.name);
    match &row.found {
        Found::Day(day, users, trades, it) => {
            let object = object.put("accepted", true).put("number", 0);
            let object = object.string("date", &date(*day));
            object
                .put("users", users)
                .put("trades", trades)
                .put("reductions", it.run.reductions)
                .put("mwh", it.run.mwh)
                .put("worth_cents", it.run.worth)
                .put("short", it.short)
                .put("uncovered_cents", it.uncovered)
                .put("calls", it.calls)
                .put("to_call_cents", it.to_call)
                .put("deposit_cents", or_null(it.deposit))
                .end()
        }
        Found::Refused(number) => object.put("accepted", false).put("number", number).end(),
        Found::Unread => object.put("accepted", false).put("unread", true).end(),
    }
}
