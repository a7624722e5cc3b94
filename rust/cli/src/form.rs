//! How an answer is printed: in words, as CSV, or as JSON.

use std::fmt::Display;

use crate::arguments::Arguments;
use crate::outcome::Failure;
use daybook_text::words::{read_euros, read_whole};

/// The form that is asked for.
#[derive(Clone, Copy, Debug, PartialEq, Eq)]
pub enum Form {
    Words,
    Csv,
    Json,
}

impl Form {
    pub fn of(arguments: &Arguments) -> Result<Form, Failure> {
        match (arguments.has("--csv"), arguments.has("--json")) {
            (true, true) => Err(Failure::misuse("--csv and --json: give one of them")),
            (true, false) => Ok(Form::Csv),
            (false, true) => Ok(Form::Json),
            (false, false) => Ok(Form::Words),
        }
    }
}

/// A row of a CSV file; a field that has a mark of the form in it stands in quotes.
pub fn csv_row(fields: impl IntoIterator<Item = impl Display>) -> String {
    let field = |field: String| match field.contains(['"', ',', ';', '\n', '\r']) {
        true => format!("\"{}\"", field.replace('"', "\"\"")),
        false => field,
    };
    let fields = fields.into_iter().map(|it| field(it.to_string()));
    fields.collect::<Vec<String>>().join(",")
}

/// An amount without the commas before every three digits; other words as they are.
pub fn plain(words: &str) -> String {
    match read_whole(words).or_else(|| read_euros(words)) {
        Some(_) => words.replace(',', ""),
        None => words.to_string(),
    }
}

/// A number, or null where there is none.
pub fn or_null(value: Option<impl Display>) -> String {
    value.map_or_else(|| "null".to_string(), |value| value.to_string())
}
