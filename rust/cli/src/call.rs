//! A call on a book: what it is given, how its answer is told, and where the
//! changed book is kept.

use std::path::{Path, PathBuf};

use daybook::{Log, Operator, Refusal, User};

use crate::arguments::{id, Arguments};
use crate::files::{self, Held};
use crate::form::Form;
use crate::log_file::{noted, LogFile};
use crate::outcome::{Failure, Outcome};
use crate::reasons::Asked;
use crate::refusals;
use crate::source::{accepted, open, Given, Source, Store};
use crate::write::{self, New};
use daybook_text::json::Object;
use daybook_text::words::{grouped, wide};

/// What every call is given.
pub struct Call {
    pub source: Source,
    pub store: Store,
    pub form: Form,
    /// The shipper in whose name the call is made; none for the operator.
    pub party: Option<u32>,
    /// The log as it was read.
    pub log: Option<LogFile>,
    /// Where the changed book is written; nowhere unless that is asked for.
    pub target: Option<PathBuf>,
    /// The files that are written over, held until they are.
    held: Vec<Held>,
}

/// The book and the log as a call leaves them.
pub struct Changed {
    pub book: Vec<u8>,
    pub log: Option<Log>,
}

impl Call {
    pub fn new(arguments: &Arguments) -> Result<Call, Failure> {
        keeping(arguments)?;
        let party = arguments.path("--as");
        let party = party.map(|word| id(word.as_os_str())).transpose()?;
        let store = Store::open(arguments.path("--store").as_deref())?;
        let form = Form::of(arguments)?;
        let book = arguments.file(0);
        let (target, option) = match arguments.has("--in-place") {
            true => (Some(book.to_path_buf()), "--in-place"),
            false => (arguments.path("-o"), "--force"),
        };
        let log = arguments.path("--log");
        if let Some(log) = &log {
            apart(log, book, target.as_deref())?;
        }
        let is_over =
            |path: &&Path| option == "--in-place" || arguments.has(option) && path.is_file();
        let over = target.as_deref().filter(is_over).map(|it| (it, option));
        let logged = log.as_deref().map(|it| (it, "--log"));
        // Held before the book is read: target and book may be one file.
        let held = Held::all(&over.into_iter().chain(logged).collect::<Vec<_>>())?;
        let of = |path: &Path| held.iter().find(|held| held.is_named(path));
        let source = match of(book) {
            Some(held) => accepted(&files::shown(book), Given::File(held.read(book)?)),
            None => open(book),
        };
        // The fields at fault are not a shipper's to know.
        let source = source.map_err(|failure| match party {
            Some(_) => refusals::without_faults(&files::shown(book), failure),
            None => failure,
        })?;
        let log = log.map(|path| match of(&path) {
            Some(held) => Ok(LogFile::new(&path, held.read(&path)?)),
            None => LogFile::open(&path),
        });
        Ok(Call {
            source,
            store,
            form,
            party,
            log: log.transpose()?,
            target,
            held,
        })
    }

    /// The book and the log before the call.
    pub fn unchanged(&self) -> Changed {
        Changed {
            book: self.source.bytes.clone(),
            log: self.log.as_ref().map(|it| it.log.clone()),
        }
    }

    /// The operator with the store, and with this log.
    pub fn operator<'a>(&'a self, log: &'a mut Option<Log>) -> Operator<'a> {
        let operator = self.store.operator();
        match log {
            Some(log) => operator.log(log),
            None => operator,
        }
    }

    /// The ids that are asked for; where none is, the party's own, for the operator
    /// those of all users.
    fn ids(&self, arguments: &Arguments) -> Result<Vec<u32>, Failure> {
        let asked = arguments.rest(1);
        if !asked.is_empty() {
            return asked.iter().map(|word| id(word)).collect();
        }
        if let Some(party) = self.party {
            return Ok(vec![party]);
        }
        Ok(self.users().iter().map(|user| user.id).collect())
    }

    /// The version of the book, which its header has.
    pub fn version(&self) -> u16 {
        match self.source.bytes.get(3..5) {
            Some([low, high]) => u16::from_le_bytes([*low, *high]),
            _ => 0,
        }
    }

    fn users(&self) -> Vec<User> {
        Operator::new()
            .read(&self.source.bytes)
            .map_or_else(|_| Vec::new(), |book| book.users)
    }

    /// Answers a question for each user; a refused one does not stop the others.
    /// Where no id is given, users who cannot be asked are passed over.
    pub fn each(
        &self,
        arguments: &Arguments,
        answer: impl Fn(u32) -> Result<(String, Object), Refusal>,
    ) -> Result<Outcome, Failure> {
        let mut outcome = Outcome::default();
        outcome.note(&self.source);
        for id in self.ids(arguments)? {
            match answer(id) {
                Ok((line, object)) => self.tell(&mut outcome, line, object),
                Err(Refusal::Shipper) if arguments.count() == 1 => {}
                Err(refusal) => self.refuse(&mut outcome, Some(id), Asked::Plain, refusal),
            }
        }
        Ok(outcome)
    }

    /// An answer in words, as an object with the book's name, or as a row, before the
    /// first of which stand the names of the columns.
    pub fn tell(&self, outcome: &mut Outcome, line: String, object: Object) {
        match self.form {
            Form::Words => outcome.line(line),
            Form::Csv => outcome.object(Form::Csv, object),
            Form::Json => outcome.line(object.of_book(&self.source.name).end()),
        }
    }

    /// An answer with how many reductions the log has noted after it, where a log is
    /// given.
    pub fn noting(&self, object: Object, changed: &Changed) -> Object {
        match &changed.log {
            Some(log) => object.put("noted", log.entries()),
            None => object,
        }
    }

    /// The same in words. A call that empties the log tells what it has forgotten.
    pub fn log_line(&self, changed: &Changed) -> Option<String> {
        let (before, after) = (self.log.as_ref()?, changed.log.as_ref()?);
        let (was, is) = (before.log.entries(), after.entries());
        let noted = noted(&before.name, is);
        Some(match is == 0 && was > 0 {
            true => format!("{noted}, {} forgotten", grouped(wide(was))),
            false => noted,
        })
    }

    /// Adds it to an answer in words; objects and rows have it among their fields.
    pub fn tell_log(&self, outcome: &mut Outcome, changed: &Changed) {
        if let (Form::Words, Some(line)) = (self.form, self.log_line(changed)) {
            outcome.line(line);
        }
    }

    /// Adds it to an answer in words, and to a table without such a field on standard
    /// error.
    pub fn tell_log_beside(&self, outcome: &mut Outcome, changed: &Changed) {
        match (self.form, self.log_line(changed)) {
            (Form::Csv, Some(line)) => outcome.message(line),
            _ => self.tell_log(outcome, changed),
        }
    }

    /// A refusal: in words on standard error, or as an object.
    pub fn refuse(&self, outcome: &mut Outcome, id: Option<u32>, asked: Asked, refusal: Refusal) {
        let failure = match (&self.log, refusal) {
            (Some(log), Refusal::LogEmpty | Refusal::LogForm | Refusal::LogFull) => {
                refusals::of_log(&self.source, log, self.target.as_deref(), id, refusal)
            }
            (_, Refusal::Party) => {
                refusals::of_party(&self.source.name, self.party.unwrap_or(0), id.unwrap_or(0))
            }
            _ => refusals::of_call(&self.source, &self.store, id, asked, refusal),
        };
        outcome.fail(&failure, self.form == Form::Json);
    }

    /// Keeps the changed book where it is asked for, and the log together with it:
    /// both are written, the log first, or neither is.
    pub fn keep(
        &self,
        arguments: &Arguments,
        changed: &Changed,
        outcome: &mut Outcome,
    ) -> Result<(), Failure> {
        outcome.note(&self.source);
        let Some(target) = &self.target else {
            let (what, them) = match &self.log {
                Some(_) => ("book and log are", "them"),
                None => ("book is", "it"),
            };
            if changed.book != self.source.bytes {
                let hint = format!("-o FILE or --in-place keeps {them}");
                outcome.message(format!("the changed {what} not kept; {hint}"));
            }
            return Ok(());
        };
        if files::is_standard(target) {
            outcome.book = Some(changed.book.clone());
            return Ok(());
        }
        let is_in_place = arguments.has("--in-place");
        if is_in_place && self.source.is_text {
            let reason = "is text, whose comments would be lost; -o FILE writes the book";
            let name = &self.source.name;
            return Err(Failure::misuse(format!("--in-place: {name} {reason}")));
        }
        let book = New {
            path: target,
            bytes: &changed.book,
            over: is_in_place || arguments.has("--force"),
        };
        let shown = files::shown(target);
        let (new, written) = match (&self.log, &changed.log) {
            (Some(file), Some(log)) => {
                let log = New {
                    path: &file.path,
                    bytes: log.as_bytes(),
                    over: true,
                };
                let written = format!("{shown} and {} are written", file.name);
                (vec![log, book], written)
            }
            _ => (vec![book], format!("{shown} is written")),
        };
        write::write_all(&new, &self.held)?;
        outcome.written = Some(written);
        Ok(())
    }
}

/// The options about the changed book go together.
fn keeping(arguments: &Arguments) -> Result<(), Failure> {
    let output = arguments.path("-o");
    let is_standard = output.as_deref().is_some_and(files::is_standard);
    match (arguments.has("-o"), arguments.has("--in-place")) {
        (true, true) => Err(Failure::misuse("-o and --in-place: give one of them")),
        (_, true) if files::is_standard(arguments.file(0)) => {
            Err(Failure::misuse("--in-place needs a file"))
        }
        (false, _) if arguments.has("--force") => Err(Failure::misuse("--force goes with -o")),
        _ if is_standard && arguments.has("--log") => Err(Failure::misuse(
            "--log needs -o FILE or --in-place: book and log are written together",
        )),
        _ => Ok(()),
    }
}

/// A log is a file, and neither the book nor the one that the changed book goes to.
fn apart(log: &Path, book: &Path, target: Option<&Path>) -> Result<(), Failure> {
    if files::is_standard(log) {
        return Err(Failure::misuse("--log needs a file"));
    }
    if !log.exists() {
        let advice = "`daybook log BOOK -o FILE` starts a log";
        return Err(Failure::file(log.display(), "is not there", advice));
    }
    let is_book = files::are_one(log, book) || target.is_some_and(|it| files::are_one(log, it));
    match is_book {
        true => {
            let reason = "is the book itself; a log is a file of its own";
            Err(Failure::misuse(format!(
                "--log: {} {reason}",
                log.display()
            )))
        }
        false => Ok(()),
    }
}

/// An answer starts with its number, and the user that it is about.
pub fn answer(id: u32) -> Object {
    Object::new().put("number", 0).put("id", id)
}
