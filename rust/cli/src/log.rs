//! `daybook log`: a log of reductions started for a book, told, and the book that it
//! holds written out.

use std::path::Path;

use daybook::{Book, Log, Operator, Refusal};

use crate::arguments::Arguments;
use crate::check::described;
use crate::files;
use crate::form::{csv_row, Form};
use crate::log_file::{noted, together, LogFile, Noted, CUTS};
use crate::made::{hold, put, read};
use crate::outcome::{Failure, Outcome};
use crate::refusals;
use crate::source::{accepted, open, Given, Source};
use daybook_text::json::Object;
use daybook_text::text;
use daybook_text::words::{date, grouped, wide};

const USAGE: &str = "log BOOK -o LOG [--force], log LOG [BOOK] [--csv|--json], \
                     or log --held LOG -o BOOK [--force]";

pub fn log(arguments: &Arguments) -> Result<Outcome, Failure> {
    let output = arguments.path("-o");
    let is_told = output.is_none() && !arguments.has("--held");
    arguments.expect(1, if is_told { 2 } else { 1 }, USAGE)?;
    if !is_told && (arguments.has("--csv") || arguments.has("--json")) {
        return Err(Failure::misuse("--csv and --json tell a log, without -o"));
    }
    match output {
        None if is_told => tell(arguments),
        None => Err(Failure::misuse(format!("usage: daybook {USAGE}"))),
        Some(output) if files::are_one(arguments.file(0), &output) => {
            let reason = "is the file itself; book and log are files of their own";
            Err(Failure::misuse(format!(
                "-o: {} {reason}",
                output.display()
            )))
        }
        Some(output) if arguments.has("--held") => write_held(arguments, &output),
        Some(output) => start(arguments, &output),
    }
}

/// Starts a log for an accepted book.
fn start(arguments: &Arguments, output: &Path) -> Result<Outcome, Failure> {
    let path = arguments.file(0);
    let held = hold(arguments, output)?;
    let given = read(path, &held)?;
    if given.bytes().starts_with(b"GDL") {
        let name = files::shown(path);
        let hint = "is a log; --held writes the book that it holds";
        return Err(Failure::misuse(format!("{name}: {hint}")));
    }
    let source = accepted(&files::shown(path), given)?;
    let log = Log::start(&source.bytes)
        .map_err(|refusal| refusals::of_book(&source.name, refusal, &[]))?;
    let mut outcome = put(arguments, output, log.as_bytes(), &held)?;
    outcome.note(&source);
    Ok(outcome)
}

/// Writes the book that a log holds, where it is an accepted one.
fn write_held(arguments: &Arguments, output: &Path) -> Result<Outcome, Failure> {
    let path = arguments.file(0);
    let held = hold(arguments, output)?;
    let log = LogFile::new(path, read(path, &held)?.into_bytes());
    let book = held_book(&log)?;
    let mut outcome = put(arguments, output, &book.bytes, &held)?;
    if !log.is_for(&book.bytes) {
        let hint = format!("`daybook log {}` says why", files::quoted(path));
        outcome.message(format!("{}: is not one for this book; {hint}", log.name));
    }
    Ok(outcome)
}

/// The book that a log holds, or why it is none. A log that is broken behind the held
/// book may still hold one.
fn held_book(log: &LogFile) -> Result<Source, Failure> {
    if !log.log.as_bytes().starts_with(b"GDL\0") {
        return Err(refusals::of_held(log, Refusal::LogForm));
    }
    let bytes = log.log.held().to_vec();
    match Operator::new().read(&bytes) {
        Ok(_) => accepted(&format!("{}, the held book", log.name), Given::File(bytes)),
        Err(refusal) => Err(refusals::of_held(log, refusal)),
    }
}

/// Tells a log: what it holds, what it has noted, and whether it is one for a book.
fn tell(arguments: &Arguments) -> Result<Outcome, Failure> {
    let form = Form::of(arguments)?;
    let path = arguments.file(0);
    let log = LogFile::open(path)?;
    let bytes = log.log.as_bytes();
    if bytes.starts_with(b"GDB") || text::is_text(bytes) {
        let hint = "is a book; -o FILE starts a log for it";
        return Err(Failure::misuse(format!("{}: {hint}", log.name)));
    }
    let held = held_book(&log)?;
    let book = Operator::new().read(&held.bytes);
    let book = book.map_err(|refusal| refusals::of_held(&log, refusal))?;
    let reductions = log.reductions();
    let reductions = reductions.map_err(|refusal| refusals::of_held(&log, refusal))?;
    let given = match arguments.count() {
        2 => Some(open(arguments.file(1))?),
        _ => None,
    };
    let told = Told {
        log: &log,
        book: &book,
        length: held.bytes.len(),
        reductions: &reductions,
        given: given.as_ref().map(|it| (it, log.is_for(&it.bytes))),
    };
    let mut outcome = Outcome::default();
    told.told(&mut outcome, form);
    Ok(outcome)
}

/// What is told of a log.
struct Told<'a> {
    log: &'a LogFile,
    /// The book that it holds, and its length.
    book: &'a Book,
    length: usize,
    reductions: &'a [Noted],
    /// A book that is given beside it, and whether the log is one for it.
    given: Option<(&'a Source, bool)>,
}

impl Told<'_> {
    fn told(&self, outcome: &mut Outcome, form: Form) {
        match form {
            Form::Words => {
                outcome.text(&self.summary());
                let words = self.reductions.iter().map(|it| it.words("cut"));
                words.for_each(|words| outcome.text(&words));
            }
            Form::Csv => {
                outcome.line(csv_row(CUTS));
                let rows = self.reductions.iter().flat_map(Noted::rows);
                rows.for_each(|row| outcome.line(csv_row(row)));
                outcome.messages.push_str(&self.summary());
            }
            Form::Json => {
                let objects = self.reductions.iter().map(Noted::object);
                let named = objects.map(|object| object.about("log", &self.log.name));
                named.for_each(|object| outcome.line(object.end()));
                outcome.line(self.object());
            }
        }
        match self.given {
            Some((given, true)) if form != Form::Json => {
                let line = format!("{}: is one for {}", self.log.name, given.name);
                match form {
                    Form::Csv => outcome.message(line),
                    _ => outcome.line(line),
                }
            }
            Some((given, false)) => {
                let failure = refusals::of_log(given, self.log, None, None, Refusal::LogForm);
                outcome.fail(&failure, form == Form::Json);
            }
            _ => {}
        }
    }

    fn summary(&self) -> String {
        let name = &self.log.name;
        let count = noted(name, self.reductions.len());
        let figures = match self.reductions {
            [] => String::new(),
            some => format!(", {}", together(some, "cut")),
        };
        let room = daybook::MOST_ENTRIES.saturating_sub(self.reductions.len());
        let (room, length) = (grouped(wide(room)), grouped(wide(self.length)));
        let book = described(self.book);
        format!("{count}{figures}; room for {room} more\n{name}: holds a book: {book}, {length} bytes\n")
    }

    fn object(&self) -> String {
        let sum = |of: fn(&Noted) -> u64| self.reductions.iter().map(of).sum::<u64>();
        let object = Object::new().string("log", &self.log.name).put("number", 0);
        let object = match self.given {
            Some((given, is_for)) => object
                .string("book", &given.name)
                .put("is_for_book", is_for),
            None => object,
        };
        object
            .put("noted", self.reductions.len())
            .put("mwh", sum(|it| it.mwh))
            .put("worth_cents", sum(|it| it.worth))
            .string("date", &date(self.book.date))
            .put("version", self.book.version)
            .put("users", self.book.users.len())
            .put("trades", self.book.trades.len())
            .put("bytes", self.length)
            .end()
    }
}
