//! A file that is made of another one: the one that is read and the one that is
//! written over are held meanwhile, so that no change of either comes between.

use std::path::Path;

use crate::arguments::Arguments;
use crate::files::{self, Held};
use crate::outcome::{Failure, Outcome};
use crate::source::{given, Given};
use crate::write::{self, New};

/// Holds the files of a command: the one that is read, where it is a regular file,
/// and the one that is written over.
pub fn hold(arguments: &Arguments, output: &Path) -> Result<Vec<Held>, Failure> {
    let given = arguments.file(0);
    let read = Some((given, "-o")).filter(|(path, _)| path.is_file());
    let is_over = arguments.has("--force") && output.is_file();
    let over = is_over.then_some((output, "--force"));
    let over = over.filter(|_| !files::are_one(given, output));
    Held::all(&read.into_iter().chain(over).collect::<Vec<_>>())
}

/// What a file has, which may be held, or a folder of CSV files.
pub fn read(path: &Path, held: &[Held]) -> Result<Given, Failure> {
    match held.iter().find(|held| held.is_named(path)) {
        Some(held) => held.read(path).map(Given::File),
        None => given(path),
    }
}

/// Writes what is made to the file that is asked for, or to standard output.
pub fn put(
    arguments: &Arguments,
    output: &Path,
    bytes: &[u8],
    held: &[Held],
) -> Result<Outcome, Failure> {
    let mut outcome = Outcome::default();
    let new = New {
        path: output,
        bytes,
        over: arguments.has("--force"),
    };
    match files::is_standard(output) {
        true => outcome.out.extend(bytes),
        false => write::write_all(&[new], held)?,
    }
    Ok(outcome)
}
