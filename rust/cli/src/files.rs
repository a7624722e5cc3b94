//! Files that are read: whole, and held from reading to rename where they are
//! written over. How files are written is in `write.rs`.

use std::fs::{self, File, Metadata};
use std::io::{self, Read};
use std::path::Path;

use crate::advice::of_reading;
use crate::outcome::Failure;

/// The longest file that is read, far above the longest book in bytes.
const LONGEST: u64 = 64 << 20;

/// A file name as it is shown in messages.
pub fn shown(path: &Path) -> String {
    if is_standard(path) {
        return "standard input".to_string();
    }
    path.display().to_string()
}

/// A file name as a shell takes it in a command.
pub fn quoted(path: &Path) -> String {
    let name = path.display().to_string();
    let is_plain = |it: char| it.is_ascii_alphanumeric() || "._-/+,:=@%".contains(it);
    match !name.is_empty() && !name.starts_with('-') && name.chars().all(is_plain) {
        true => name,
        false => format!("'{}'", name.replace('\'', "'\\''")),
    }
}

/// Whether `-` stands for standard input or output.
pub fn is_standard(path: &Path) -> bool {
    path.as_os_str() == "-"
}

/// The bytes of a file, or of standard input for `-`.
pub fn read(path: &Path) -> Result<Vec<u8>, Failure> {
    let read = if is_standard(path) {
        bytes(io::stdin().lock())
    } else {
        File::open(path).and_then(bytes)
    };
    whole(path, read)
}

/// What was read of a file, or why it cannot be.
fn whole(path: &Path, read: io::Result<Vec<u8>>) -> Result<Vec<u8>, Failure> {
    let name = shown(path);
    match read {
        Ok(bytes) if bytes.len() as u64 > LONGEST => {
            let most = LONGEST >> 20;
            let reason = format!("cannot be read: it is longer than {most} MB");
            let advice = "give a book, a text or a table: none of them is so long";
            Err(Failure::file(name, reason, advice))
        }
        Ok(bytes) => Ok(bytes),
        Err(error) if error.kind() == io::ErrorKind::IsADirectory => {
            let advice =
                "give a file; a folder with header.csv, users.csv and trades.csv is a book";
            Err(Failure::file(name, "is a folder", advice))
        }
        Err(error) => Err(unread(path, &error)),
    }
}

/// A file or a folder that cannot be read.
pub fn unread(path: &Path, error: &io::Error) -> Failure {
    let reason = format!("cannot be read: {error}");
    Failure::file(shown(path), reason, of_reading(error.kind()))
}

fn bytes(source: impl Read) -> io::Result<Vec<u8>> {
    let mut bytes = Vec::new();
    source.take(LONGEST + 1).read_to_end(&mut bytes)?;
    Ok(bytes)
}

/// A regular file that nobody else of the program writes over while this lives.
#[derive(Debug)]
pub struct Held {
    /// The lock goes with the file.
    file: File,
    identity: Metadata,
}

impl Held {
    /// Holds a regular file, as the option asks. Who waits for it meets the file that
    /// has taken its name in the meantime: a rename leaves the lock with the old file,
    /// so that the name is looked up again once the lock is there.
    pub fn new(path: &Path, option: &str) -> Result<Held, Failure> {
        loop {
            let named = fs::metadata(path).map_err(|error| unread(path, &error))?;
            if !named.is_file() {
                let advice = format!("give a regular file; {option} needs one");
                return Err(Failure::file(shown(path), "is no regular file", advice));
            }
            let file = File::open(path).map_err(|error| unread(path, &error))?;
            let locked = file.lock().and_then(|()| file.metadata());
            let identity = locked.map_err(|error| {
                let reason = format!("cannot be locked: {error}");
                Failure::file(shown(path), reason, "copy it to a disk that has locks")
            })?;
            let held = Held { file, identity };
            // Gone while it was waited for: the next turn says so.
            if held.is_named(path) {
                return Ok(held);
            }
        }
    }

    /// Holds files, no two of which are one, each with its option. They are waited
    /// for in the order of their full names: nobody holds one and waits for another
    /// who waits for the first.
    pub fn all(files: &[(&Path, &str)]) -> Result<Vec<Held>, Failure> {
        let mut order: Vec<&(&Path, &str)> = files.iter().collect();
        order.sort_by_key(|(path, _)| fs::canonicalize(path).ok());
        let held = order.iter().map(|(path, option)| Held::new(path, option));
        held.collect()
    }

    /// Whether a name leads to this file.
    pub fn is_named(&self, path: &Path) -> bool {
        fs::metadata(path).is_ok_and(|named| is_same(&named, &self.identity))
    }

    /// The bytes of the file, which is told by this name.
    pub fn read(&self, path: &Path) -> Result<Vec<u8>, Failure> {
        whole(path, bytes(&self.file))
    }
}

/// Whether two names lead to one file.
pub fn are_one(one: &Path, other: &Path) -> bool {
    match (fs::metadata(one), fs::metadata(other)) {
        (Ok(one), Ok(other)) => is_same(&one, &other),
        _ => false,
    }
}

/// Whether both are of one file.
#[cfg(unix)]
pub fn is_same(one: &Metadata, other: &Metadata) -> bool {
    use std::os::unix::fs::MetadataExt;

    (one.dev(), one.ino()) == (other.dev(), other.ino())
}

/// Elsewhere a file has no number: its length and its times stand for it.
#[cfg(not(unix))]
pub fn is_same(one: &Metadata, other: &Metadata) -> bool {
    let about = |it: &Metadata| (it.len(), it.created().ok(), it.modified().ok());
    about(one) == about(other)
}
