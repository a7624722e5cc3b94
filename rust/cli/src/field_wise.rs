//! `daybook fields`: a book field by field, as an archive keeps it, and back; and one
//! field of all records.

use std::path::Path;

use daybook::{Operator, Refusal};

use crate::arguments::Arguments;
use crate::columns::{has, named, names, Column};
use crate::files;
use crate::form::Form;
use crate::form_bytes::in_records;
use crate::made::{hold, put, read};
use crate::outcome::{Failure, Outcome};
use crate::refusals;
use crate::source::{accepted, given, Given};
use crate::table;
use daybook_text::faults::faults;
use daybook_text::fields::{Field, FORM_MARK};

const USAGE: &str = "fields BOOK|FORM -o FILE [--force], \
                     or fields --column NAME FORM|BOOK|DIR.. [--csv|--json]";

pub fn fields(arguments: &Arguments) -> Result<Outcome, Failure> {
    if arguments.has("--column") {
        return column(arguments);
    }
    arguments.expect(1, 1, USAGE)?;
    if arguments.has("--csv") || arguments.has("--json") {
        return Err(Failure::misuse("--csv and --json go with --column"));
    }
    let Some(target) = arguments.path("-o") else {
        return Err(Failure::misuse(format!("usage: daybook {USAGE}")));
    };
    let path = arguments.file(0);
    let held = hold(arguments, &target)?;
    let (name, given) = (files::shown(path), read(path, &held)?);
    if is_form(&given) {
        let book = book_of(&name, given.bytes())?;
        return put(arguments, &target, &book, &held);
    }
    let source = accepted(&name, given)?;
    let refused = |refusal| refusals::of_book(&name, refusal, &[]);
    let form = Operator::new().field_wise(&source.bytes).map_err(refused)?;
    let mut outcome = put(arguments, &target, &form, &held)?;
    outcome.note(&source);
    Ok(outcome)
}

/// Whether what was given is meant as a form: the mark says so.
fn is_form(given: &Given) -> bool {
    given.bytes().starts_with(FORM_MARK)
}

/// The book of a form, or where it fails: its records' bytes, put together again, are
/// asked which question they fail.
fn book_of(name: &str, form: &[u8]) -> Result<Vec<u8>, Failure> {
    daybook::record_wise(form).map_err(|refusal| {
        let book = in_records(form);
        let of_book = Operator::new().read(&book).err();
        let faults = of_book.map_or_else(Vec::new, |it| faults(&book, it.number()));
        refusals::of_form(name, refusal, of_book, &faults)
    })
}

/// Prints one field of all records, of each file.
fn column(arguments: &Arguments) -> Result<Outcome, Failure> {
    arguments.expect(1, usize::MAX, USAGE)?;
    if arguments.has("-o") || arguments.has("--force") {
        return Err(Failure::misuse(
            "--column prints a field; -o writes a whole form or book",
        ));
    }
    let form = Form::of(arguments)?;
    let name = arguments.path("--column").unwrap_or_default();
    let name = name.display().to_string();
    let Some(field) = named(&name) else {
        let reason = format!("no such field; {}", names());
        return Err(Failure::misuse(format!("--column {name}: {reason}")));
    };
    let mut paths = Vec::new();
    for word in arguments.rest(0) {
        paths.extend(table::books(Path::new(word))?);
    }
    let mut outcome = Outcome::default();
    for path in &paths {
        let is_one = paths.len() == 1;
        if let Err(failure) = tell(&mut outcome, path, is_one, field, form) {
            outcome.fail(&failure, form == Form::Json);
        }
    }
    Ok(outcome)
}

/// Adds a field of all records of a file; where there are several files, with its name.
fn tell(
    outcome: &mut Outcome,
    path: &Path,
    is_one: bool,
    field: Field,
    form: Form,
) -> Result<(), Failure> {
    let (name, given) = (files::shown(path), given(path)?);
    let book = match is_form(&given) {
        true => book_of(&name, given.bytes())?,
        false => {
            let source = accepted(&name, given)?;
            outcome.note(&source);
            source.bytes
        }
    };
    let refused = |refusal: Refusal| refusals::of_book(&name, refusal, &[]);
    let book = Operator::new().read(&book).map_err(refused)?;
    if !has(book.version, field) {
        let reason = format!("has no {field}: it is of version {}", book.version);
        return Err(Failure::misuse(format!("{name}: {reason}")));
    }
    let column = Column::new(&book, field);
    match form {
        Form::Words if is_one => outcome.text(&column.lines()),
        Form::Words => {
            for line in column.lines().lines() {
                outcome.line(format!("{name}: {line}"));
            }
        }
        form => {
            for object in column.objects(&name) {
                outcome.object(form, object);
            }
        }
    }
    Ok(())
}
