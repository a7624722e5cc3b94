//! A book that a command is given: in bytes, as text, or as a folder of CSV files; and
//! the verdict on it.

use std::path::Path;

use daybook::{Operator, Refusal};

use crate::files;
use crate::outcome::Failure;
use crate::parameters::from_file;
use crate::refusals;
use crate::together;
use daybook_text::csv;
use daybook_text::draft::{Draft, Mistake, Spot};
use daybook_text::faults::{faults, Fault};
use daybook_text::text;

/// An accepted book, and how it was given.
#[derive(Clone, Debug, PartialEq, Eq)]
pub struct Source {
    /// The file's name, for messages.
    pub name: String,
    pub bytes: Vec<u8>,
    /// Whether it was given as text or CSV.
    pub is_text: bool,
    /// The names of users by id, where CSV files have them.
    pub names: Vec<(u32, String)>,
    /// What was skipped in reading, a line each.
    pub notes: Vec<String>,
}

impl Source {
    /// The name of a user; nothing where it has none.
    pub fn name_of(&self, id: u32) -> &str {
        let named = self.names.iter().find(|(it, _)| *it == id);
        named.map_or("", |(_, name)| name.as_str())
    }
}

/// A book as it was given.
#[derive(Clone, Debug, PartialEq, Eq)]
pub enum Given {
    /// A file: a book in bytes, or its text form.
    File(Vec<u8>),
    /// A folder's `header.csv`, `users.csv` and `trades.csv`.
    Tables([Vec<u8>; 3]),
}

impl Given {
    /// The bytes of a file; none of a folder.
    pub fn bytes(&self) -> &[u8] {
        match self {
            Given::File(bytes) => bytes,
            Given::Tables(_) => &[],
        }
    }

    /// The same, given away.
    pub fn into_bytes(self) -> Vec<u8> {
        match self {
            Given::File(bytes) => bytes,
            Given::Tables(_) => Vec::new(),
        }
    }
}

/// What a file or a folder has; a folder with one of the three CSV files is meant as
/// a book.
pub fn given(path: &Path) -> Result<Given, Failure> {
    match is_tables(path) {
        true => tables(path).map(Given::Tables),
        false => files::read(path).map(Given::File),
    }
}

/// Whether a folder is meant as a book.
pub fn is_tables(path: &Path) -> bool {
    let has = |file: &&str| path.join(file).exists();
    let is_book = || csv::FILES.iter().any(has) || together::is_left(path);
    !files::is_standard(path) && path.is_dir() && is_book()
}

/// The three CSV files of a folder.
pub fn tables(folder: &Path) -> Result<[Vec<u8>; 3], Failure> {
    together::read(folder, csv::FILES)
}

/// What the engine says of a file.
#[derive(Clone, Debug, PartialEq, Eq)]
pub enum Verdict {
    Accepted(Source),
    /// The questions' number, and the fields at fault: where they are written,
    /// for a text or CSV.
    Refused(Refusal, Vec<(Option<Spot>, Fault)>),
    /// A text that cannot be read.
    Unread(Vec<Mistake>),
}

/// The verdict on what was given.
pub fn verdict(name: &str, given: Given) -> Verdict {
    match given {
        Given::File(bytes) if !text::is_text(&bytes) => of_bytes(name, bytes),
        Given::File(bytes) => of_draft(name, text::read(&bytes)),
        Given::Tables(files) => {
            let files = files.each_ref().map(Vec::as_slice);
            of_draft(name, csv::read(files))
        }
    }
}

fn of_draft(name: &str, read: Result<Draft, Vec<Mistake>>) -> Verdict {
    let mut draft = match read {
        Ok(draft) => draft,
        Err(mistakes) => return Verdict::Unread(mistakes),
    };
    let names = std::mem::take(&mut draft.names);
    let notes = draft.notes.iter().map(|it| refusals::noted(name, it));
    let notes = notes.collect();
    match draft.into_bytes() {
        Ok(bytes) => Verdict::Accepted(Source {
            name: name.to_string(),
            bytes,
            is_text: true,
            names,
            notes,
        }),
        Err(refused) => {
            let faults = refused.faults.into_iter();
            let faults = faults.map(|(spot, fault)| (Some(spot), fault)).collect();
            Verdict::Refused(refused.refusal, faults)
        }
    }
}

fn of_bytes(name: &str, bytes: Vec<u8>) -> Verdict {
    match Operator::new().read(&bytes) {
        Ok(_) => Verdict::Accepted(Source {
            name: name.to_string(),
            bytes,
            is_text: false,
            names: Vec::new(),
            notes: Vec::new(),
        }),
        Err(refusal) => {
            let faults = faults(&bytes, refusal.number());
            Verdict::Refused(refusal, faults.into_iter().map(|it| (None, it)).collect())
        }
    }
}

/// The accepted book of a file or a folder, or why it is none.
pub fn open(path: &Path) -> Result<Source, Failure> {
    accepted(&files::shown(path), given(path)?)
}

/// The accepted book of what was given, or why it is none.
pub fn accepted(name: &str, given: Given) -> Result<Source, Failure> {
    match verdict(name, given) {
        Verdict::Accepted(source) => Ok(source),
        Verdict::Refused(refusal, faults) => Err(refusals::of_book(name, refusal, &faults)),
        Verdict::Unread(mistakes) => Err(refusals::of_text(name, &mistakes)),
    }
}

/// The store of a command, or none.
#[derive(Clone, Debug, Default, PartialEq, Eq)]
pub struct Store {
    pub bytes: Option<Vec<u8>>,
}

impl Store {
    /// The store of a file, in bytes or as text.
    pub fn open(path: Option<&Path>) -> Result<Store, Failure> {
        let read = |path: &Path| from_file(&files::shown(path), files::read(path)?);
        let bytes = path.map(read).transpose()?;
        Ok(Store { bytes })
    }

    /// The operator with this store, or without one.
    pub fn operator(&self) -> Operator<'_> {
        match &self.bytes {
            Some(bytes) => Operator::new().store(bytes),
            None => Operator::new(),
        }
    }
}
