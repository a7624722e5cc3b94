//! How a command ends: what it prints, what it says on standard error, and its
//! exit status.

use std::fmt::Display;

use crate::explain_all::AllOf;
use crate::form::{csv_row, Form};
use crate::source::Source;
use daybook_text::json::Object;

/// The exit status; of two the later one counts.
#[derive(Clone, Copy, Debug, Default, PartialEq, Eq, PartialOrd, Ord)]
pub enum Status {
    /// 0: accepted, done.
    #[default]
    Accepted,
    /// 4: a run met a full log and stopped; its cuts count.
    Stopped,
    /// 1: a book, a store or a text was refused.
    Refused,
    /// 2: the command cannot be done as it was given.
    Misuse,
    /// 3: a file was written, but what is said about it could not be.
    Untold,
}

impl Status {
    pub fn code(self) -> u8 {
        match self {
            Status::Accepted => 0,
            Status::Stopped => 4,
            Status::Refused => 1,
            Status::Misuse => 2,
            Status::Untold => 3,
        }
    }
}

/// What a command gives back.
#[derive(Clone, Debug, Default, PartialEq, Eq)]
pub struct Outcome {
    /// For standard output.
    pub out: Vec<u8>,
    /// For standard error.
    pub messages: String,
    pub status: Status,
    /// A changed book for standard output, which then has nothing else.
    pub book: Option<Vec<u8>>,
    /// What was written, in words, where something was.
    pub written: Option<String>,
    /// What is still to be found, and written behind `out` as it is.
    pub stream: Option<Box<AllOf>>,
}

impl Outcome {
    /// The same with all that is still to be found.
    pub fn whole(mut self) -> Outcome {
        if let Some(stream) = self.stream.take() {
            // A vector takes whatever is written.
            let messages = stream.write(&mut self.out).unwrap_or_default();
            self.messages.push_str(&messages);
        }
        self
    }

    /// Adds a line to standard output.
    pub fn line(&mut self, line: impl Display) {
        self.out.extend(format!("{line}\n").into_bytes());
    }

    /// Adds an object to standard output, or its row, before the first of which stand
    /// the names of the columns.
    pub fn object(&mut self, form: Form, object: Object) {
        if form != Form::Csv {
            return self.line(object.end());
        }
        let (names, fields): (Vec<String>, Vec<String>) = object.columns().into_iter().unzip();
        if self.out.is_empty() {
            self.line(csv_row(names));
        }
        self.line(csv_row(fields));
    }

    /// Adds the names of the columns of an object's row.
    pub fn heads(&mut self, object: &Object) {
        let names = object.columns().into_iter().map(|(name, _)| name);
        self.line(csv_row(names.collect::<Vec<String>>()));
    }

    /// Adds text to standard output as it is.
    pub fn text(&mut self, text: &str) {
        self.out.extend(text.as_bytes());
    }

    /// Adds a line to standard error.
    pub fn message(&mut self, line: impl Display) {
        self.messages.push_str(&format!("{line}\n"));
    }

    /// Adds what was skipped in reading a book to standard error.
    pub fn note(&mut self, source: &Source) {
        source.notes.iter().for_each(|note| self.message(note));
    }

    /// Leaves standard output to the changed book: what is told goes to standard
    /// error.
    pub fn tell_beside(&mut self) {
        let told = std::mem::replace(&mut self.out, self.book.take().unwrap_or_default());
        let told = String::from_utf8_lossy(&told).to_string();
        self.messages.insert_str(0, &told);
    }

    /// Takes in a failure that is an answer where it is a refusal: a verdict, which
    /// stands on standard output with the others.
    pub fn answer(&mut self, failure: &Failure, json: bool) {
        match failure {
            Failure::Refused(Told { message, .. }) if !json => self.line(message),
            _ => return self.fail(failure, json),
        }
        self.status = self.status.max(failure.status());
    }

    /// Takes in a failure: its message, or its object where that is wanted, and its
    /// status where it is the worse.
    pub fn fail(&mut self, failure: &Failure, json: bool) {
        match failure {
            Failure::Refused(Told { object, .. }) if json => self.line(object),
            _ => self.message(failure.message()),
        }
        self.status = self.status.max(failure.status());
    }
}

/// A refusal in words, and as an object.
#[derive(Clone, Debug, PartialEq, Eq)]
pub struct Told {
    pub message: String,
    pub object: String,
}

/// Why a command stops.
#[derive(Clone, Debug, PartialEq, Eq)]
pub enum Failure {
    /// A book, a store or a text is refused.
    Refused(Told),
    /// The arguments are not what the command takes.
    Misuse(String),
    /// A file cannot be read or written.
    File(String),
}

impl Failure {
    pub fn misuse(message: impl Display) -> Failure {
        Failure::Misuse(message.to_string())
    }

    /// A file that cannot be read or written: why, and what to do.
    pub fn file(name: impl Display, reason: impl Display, advice: impl Display) -> Failure {
        Failure::File(format!("{name}: {reason}\n{name}: what to do: {advice}"))
    }

    pub fn message(&self) -> &str {
        match self {
            Failure::Refused(Told { message, .. }) => message,
            Failure::Misuse(message) | Failure::File(message) => message,
        }
    }

    pub fn status(&self) -> Status {
        match self {
            Failure::Refused(_) => Status::Refused,
            Failure::Misuse(_) | Failure::File(_) => Status::Misuse,
        }
    }
}

impl From<Failure> for Outcome {
    fn from(failure: Failure) -> Outcome {
        let mut outcome = Outcome::default();
        outcome.fail(&failure, false);
        outcome
    }
}
