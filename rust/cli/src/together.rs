//! Files of one folder that belong together: they are written over all at once or not at
//! all, after a kill too. The new ones are whole in a folder of their own, which gets the
//! name `.daybook.together` in one step. From then on they count: whoever reads or writes
//! the folder next moves to their places what a killed process has left there.

use std::fs;
use std::io;
use std::path::{Path, PathBuf};
use std::time::SystemTime;

use crate::beside::sync_folder;
use crate::files;
use crate::outcome::Failure;

/// The folder of new files that count and are not in their places yet.
pub const TOGETHER: &str = ".daybook.together";

/// How often files are read that somebody writes over meanwhile.
const MOST_TIMES: u32 = 1_000;

/// Whether new files wait for their places.
pub fn is_left(folder: &Path) -> bool {
    fs::symlink_metadata(folder.join(TOGETHER)).is_ok_and(|it| it.is_dir())
}

/// Moves the new files to their places, where any wait. Two may do so at once.
pub fn complete(folder: &Path, names: &[&str]) -> io::Result<()> {
    if !is_left(folder) {
        return Ok(());
    }
    let together = folder.join(TOGETHER);
    let gone = |moved: io::Result<()>| match moved {
        Err(error) if error.kind() == io::ErrorKind::NotFound => Ok(()),
        moved => moved,
    };
    for name in names {
        gone(fs::rename(together.join(name), folder.join(name)))?;
    }
    sync_folder(&together);
    gone(fs::remove_dir(&together))
}

/// Where the file of a name is that counts.
fn place(folder: &Path, name: &str) -> PathBuf {
    let new = folder.join(TOGETHER).join(name);
    match new.exists() {
        true => new,
        false => folder.join(name),
    }
}

/// The bytes of files that belong together: all old ones or all new ones, also where
/// somebody writes them meanwhile. Where they cannot be moved they are read where they
/// are.
pub fn read<const N: usize>(folder: &Path, names: [&str; N]) -> Result<[Vec<u8>; N], Failure> {
    let _ = complete(folder, &names);
    let mut tries = 0;
    loop {
        let before = names.map(|name| stamp(folder, name));
        let read = names.map(|name| files::read(&place(folder, name)));
        tries += 1;
        if before == names.map(|name| stamp(folder, name)) || tries == MOST_TIMES {
            let mut whole = [const { Vec::new() }; N];
            for (bytes, read) in whole.iter_mut().zip(read) {
                *bytes = read?;
            }
            return Ok(whole);
        }
    }
}

/// What tells a file from the one that takes its place.
fn stamp(folder: &Path, name: &str) -> Option<(PathBuf, u64, Option<SystemTime>, u64)> {
    let path = place(folder, name);
    let file = fs::metadata(&path).ok()?;
    Some((path, number(&file), file.modified().ok(), file.len()))
}

#[cfg(unix)]
fn number(file: &fs::Metadata) -> u64 {
    std::os::unix::fs::MetadataExt::ino(file)
}

/// Elsewhere a file has no number.
#[cfg(not(unix))]
fn number(_file: &fs::Metadata) -> u64 {
    0
}
