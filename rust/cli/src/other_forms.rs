//! `daybook text`, `book`, `csv` and `from-csv`: a book in its other forms.

use std::fs;
use std::path::PathBuf;

use crate::arguments::Arguments;
use crate::files;
use crate::outcome::{Failure, Outcome};
use crate::refusals::{self, noted};
use crate::source::{open, tables};
use crate::write::{self, New};
use daybook_text::csv::{self, Dates, Style};
use daybook_text::draft::Draft;
use daybook_text::text;

pub fn text(arguments: &Arguments) -> Result<Outcome, Failure> {
    arguments.expect(1, 1, "text BOOK [--positions] [-o FILE [--force]]")?;
    let source = open(arguments.file(0))?;
    let book = daybook::Operator::new()
        .read(&source.bytes)
        .map_err(|refusal| refusals::of_book(&source.name, refusal, &[]))?;
    let text = text::write(&book, arguments.has("--positions"));
    let mut outcome = output(arguments, text.as_bytes())?;
    outcome.note(&source);
    Ok(outcome)
}

pub fn book(arguments: &Arguments) -> Result<Outcome, Failure> {
    let usage = "book TEXT -o FILE [--force]";
    arguments.expect(1, 1, usage)?;
    let path = arguments.file(0);
    let bytes = files::read(path)?;
    let name = files::shown(path);
    let draft = text::read(&bytes).map_err(|mistakes| refusals::of_text(&name, &mistakes))?;
    made(arguments, &name, draft, usage)
}

pub fn csv(arguments: &Arguments) -> Result<Outcome, Failure> {
    arguments.expect(2, 2, "csv BOOK DIR [--semicolon] [--force]")?;
    let source = open(arguments.file(0))?;
    let book = daybook::Operator::new()
        .read(&source.bytes)
        .map_err(|refusal| refusals::of_book(&source.name, refusal, &[]))?;
    let folder = arguments.file(1);
    let over = arguments.has("--force");
    let style = match arguments.has("--semicolon") {
        true => Style::Semicolons,
        false => Style::Commas,
    };
    let texts = csv::write_in(&book, style);
    let files = csv::FILES.iter().zip(&texts);
    let files: Vec<(&str, &[u8])> = files.map(|(file, text)| (*file, text.as_bytes())).collect();
    match fs::symlink_metadata(folder) {
        Err(_) => write::write_folder(folder, &files)?,
        Ok(_) if over && folder.is_dir() => write::write_over(folder, &files)?,
        Ok(_) => {
            let paths = files.iter().map(|(file, _)| folder.join(file));
            let paths: Vec<PathBuf> = paths.collect();
            let new = paths.iter().zip(&files);
            let new = new.map(|(path, (_, bytes))| New { path, bytes, over });
            write::write_all(&new.collect::<Vec<New>>(), &[])?;
        }
    }
    let mut outcome = Outcome::default();
    outcome.note(&source);
    Ok(outcome)
}

pub fn from_csv(arguments: &Arguments) -> Result<Outcome, Failure> {
    let usage = "from-csv DIR -o FILE [--dates dmy] [--force]";
    arguments.expect(1, 1, usage)?;
    let dates = match arguments.path("--dates") {
        None => Dates::default(),
        Some(order) if order.as_os_str() == "dmy" => Dates::DayFirst,
        Some(order) => {
            let reason = "the only order is dmy, day/month/year";
            let order = order.display();
            return Err(Failure::misuse(format!("--dates {order}: {reason}")));
        }
    };
    let folder = arguments.file(0);
    let tables = tables(folder)?;
    let name = folder.display().to_string();
    let draft = csv::read_dated(tables.each_ref().map(Vec::as_slice), dates)
        .map_err(|mistakes| refusals::of_text(&name, &mistakes))?;
    let notes: Vec<String> = draft.notes.iter().map(|it| noted(&name, it)).collect();
    let mut outcome = made(arguments, &name, draft, usage)?;
    notes.iter().for_each(|note| outcome.message(note));
    Ok(outcome)
}

/// Writes the book of a draft to the file that is asked for.
fn made(arguments: &Arguments, name: &str, draft: Draft, usage: &str) -> Result<Outcome, Failure> {
    if !arguments.has("-o") {
        return Err(Failure::misuse(format!("usage: daybook {usage}")));
    }
    let bytes = draft.into_bytes().map_err(|it| {
        let faults = it
            .faults
            .into_iter()
            .map(|(spot, fault)| (Some(spot), fault));
        refusals::of_book(name, it.refusal, &faults.collect::<Vec<_>>())
    })?;
    output(arguments, &bytes)
}

/// Writes to the file that is asked for, or to standard output.
pub fn output(arguments: &Arguments, bytes: &[u8]) -> Result<Outcome, Failure> {
    let mut outcome = Outcome::default();
    match arguments.path("-o") {
        Some(path) if !files::is_standard(&path) => {
            write::write(&path, bytes, arguments.has("--force"))?;
        }
        _ => outcome.out.extend(bytes),
    }
    Ok(outcome)
}
