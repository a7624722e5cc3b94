//! Files and folders on their way: each is made under a name of its own beside its
//! place, `.daybook.PID.N.new`, and takes its place in one step. Whoever makes one
//! holds it; one that nobody holds is left from a killed process and is removed.

use std::fs::{self, File, OpenOptions};
use std::io;
use std::path::{Path, PathBuf};
use std::process;

use crate::files::{is_same, Held};

/// How many names are tried; each is the first that is not there.
const MOST_NAMES: u32 = 1_000;

/// A file or a folder beside another; it goes with this value, unless it has taken
/// its place.
#[derive(Debug)]
pub struct Beside {
    pub path: PathBuf,
    has_taken_its_place: bool,
}

impl Beside {
    /// An empty file beside another, locked as long as it is open; others may not
    /// read it where it is to be private.
    pub fn file(place: &Path, is_private: bool) -> io::Result<(Beside, File)> {
        let mut options = OpenOptions::new();
        options.write(true).create_new(true);
        if is_private {
            for_oneself(&mut options);
        }
        Beside::new(place, |path| options.open(path), is_locked)
    }

    /// An empty folder beside another; not everywhere can one be opened and locked.
    pub fn folder(place: &Path) -> io::Result<(Beside, Option<File>)> {
        let make = |path: &Path| fs::create_dir(path).map(|()| File::open(path).ok());
        Beside::new(place, make, |file, path| {
            file.as_ref().is_none_or(|file| is_locked(file, path))
        })
    }

    /// A second name beside a file, for the file itself, which the caller holds.
    pub fn second_name(file: &Path) -> io::Result<Beside> {
        let make = |path: &Path| fs::hard_link(file, path);
        Beside::new(file, make, |(), _| true).map(|(beside, ())| beside)
    }

    /// Makes something under the first name that is not there. Somebody may take it
    /// for a left one before it is locked, and remove it: then the next name is tried.
    fn new<T>(
        place: &Path,
        make: impl Fn(&Path) -> io::Result<T>,
        is_kept: impl Fn(&T, &Path) -> bool,
    ) -> io::Result<(Beside, T)> {
        for number in 0..MOST_NAMES {
            let path = place.with_file_name(format!(".daybook.{}.{number}.new", process::id()));
            match make(&path) {
                Err(error) if error.kind() == io::ErrorKind::AlreadyExists => {}
                Err(error) => return Err(error),
                Ok(made) if is_kept(&made, &path) => {
                    let has_taken_its_place = false;
                    let beside = Beside {
                        path,
                        has_taken_its_place,
                    };
                    return Ok((beside, made));
                }
                Ok(_) => {}
            }
        }
        Err(io::Error::other("every name beside it is taken"))
    }

    /// Puts it where it belongs, over what is there.
    pub fn take_place(mut self, path: &Path) -> io::Result<()> {
        self.try_place(path)
    }

    /// The same, where it may be tried again.
    pub fn try_place(&mut self, path: &Path) -> io::Result<()> {
        fs::rename(&self.path, path)?;
        self.has_taken_its_place = true;
        sync_folder(path);
        Ok(())
    }
}

impl Drop for Beside {
    fn drop(&mut self) {
        if !self.has_taken_its_place {
            remove(&self.path);
        }
    }
}

fn remove(path: &Path) {
    let _ = match fs::symlink_metadata(path).is_ok_and(|it| it.is_dir()) {
        true => fs::remove_dir_all(path),
        false => fs::remove_file(path),
    };
}

/// Locks a new file, and tells whether its name still leads to it. Where there are
/// no locks nothing is removed as left.
fn is_locked(file: &File, path: &Path) -> bool {
    if let Err(fs::TryLockError::WouldBlock) = file.try_lock() {
        return false;
    }
    names(path, file)
}

fn names(path: &Path, file: &File) -> bool {
    match (fs::symlink_metadata(path), file.metadata()) {
        (Ok(named), Ok(open)) => is_same(&named, &open),
        _ => false,
    }
}

/// Removes what killed processes have left beside a file: nobody holds it, or it is a
/// second name of a file that the caller holds, and only who holds a file gives it one.
pub fn sweep(place: &Path, held: &[&Held]) {
    let Ok(files) = fs::read_dir(folder_of(place)) else {
        return;
    };
    for found in files.flatten().filter(|it| is_name(&it.file_name())) {
        let path = found.path();
        // A pipe, which could be waited for, is none that was left.
        let is_ours = found
            .file_type()
            .is_ok_and(|it| it.is_file() || it.is_dir());
        if !is_ours {
            continue;
        }
        let is_second_name = held.iter().any(|held| held.is_named(&path));
        if is_second_name || is_free(&path) {
            remove(&path);
        }
    }
}

/// Whether nobody holds a file, and its name still leads to it.
fn is_free(path: &Path) -> bool {
    File::open(path).is_ok_and(|file| file.try_lock().is_ok() && names(path, &file))
}

/// Whether a name is one of those beside: `.daybook.PID.N.new`.
fn is_name(name: &std::ffi::OsStr) -> bool {
    let numbers = name.to_str().and_then(|name| {
        let name = name.strip_prefix(".daybook.")?;
        name.strip_suffix(".new")?.split_once('.')
    });
    let is_number = |text: &str| !text.is_empty() && text.bytes().all(|it| it.is_ascii_digit());
    numbers.is_some_and(|(process, number)| is_number(process) && is_number(number))
}

fn folder_of(path: &Path) -> &Path {
    let parent = path.parent().filter(|it| !it.as_os_str().is_empty());
    parent.unwrap_or(Path::new("."))
}

/// Has a new name written down before anything else is: after a power cut, too, a
/// later rename is not there without an earlier one. Not everywhere can it be had.
pub fn sync_folder(path: &Path) {
    let _ = File::open(folder_of(path)).and_then(|folder| folder.sync_all());
}

#[cfg(unix)]
fn for_oneself(options: &mut OpenOptions) {
    use std::os::unix::fs::OpenOptionsExt;

    options.mode(0o600);
}

#[cfg(not(unix))]
fn for_oneself(_options: &mut OpenOptions) {}

#[cfg(test)]
mod tests {
    use super::*;

    #[test]
    fn names_beside() {
        for name in [".daybook.1.0.new", ".daybook.4194304.999.new"] {
            assert!(is_name(name.as_ref()), "{name}");
        }
        for name in [
            ".daybook.new",
            ".daybook..0.new",
            ".daybook.1.new",
            ".daybook.1.x.new",
            ".daybook.1.0.new~",
            "daybook.1.0.new",
        ] {
            assert!(!is_name(name.as_ref()), "{name}");
        }
    }
}
