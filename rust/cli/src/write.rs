//! Files that are written: whole under another name beside their own, which they
//! then take in one step (`beside.rs`). A reader sees the old file or the new one,
//! and after a kill or on a full disk nothing half-written stands under a file's
//! own name. A file that is written over is held meanwhile.

use std::fs::{self, File, Metadata};
use std::io::{self, Write};
use std::path::{Path, PathBuf};

use crate::advice::of_writing;
use crate::beside::{sweep, sync_folder, Beside};
use crate::files::Held;
use crate::outcome::Failure;
use crate::together::{self, TOGETHER};

/// A file that is to be written: one that is not there yet, or, where that is asked
/// for, over the old one.
#[derive(Clone, Copy, Debug)]
pub struct New<'a> {
    pub path: &'a Path,
    pub bytes: &'a [u8],
    pub over: bool,
}

/// Writes a file.
pub fn write(path: &Path, bytes: &[u8], over: bool) -> Result<(), Failure> {
    write_all(&[New { path, bytes, over }], &[])
}

/// Writes files, all of them or none: each is whole beside its place before the
/// first takes it, and where one cannot, those before it go back. They take their
/// places in this order, after a kill or a power cut too. Files that the caller
/// holds are not waited for.
pub fn write_all(files: &[New], held: &[Held]) -> Result<(), Failure> {
    let mut staged = Vec::new();
    for file in files {
        staged.push(Staged::new(file, held)?);
    }
    place_all(staged)
}

/// Puts whole files in their places, in order; where one cannot take its own, those
/// before it go back.
fn place_all(staged: Vec<Staged>) -> Result<(), Failure> {
    let may_go_back = staged.len() > 1;
    let mut done = Vec::new();
    for file in staged {
        match file.place(may_go_back) {
            Ok(placed) => done.push(placed),
            Err(failure) => {
                done.into_iter().rev().for_each(Placed::undo);
                return Err(failure);
            }
        }
    }
    Ok(())
}

/// Writes files over those of a folder that belong together, all of them or none, after
/// a kill too (`together.rs`). Where one is a link to another folder, or the disk has no
/// such rename, they are written as any others.
pub fn write_over(folder: &Path, files: &[(&str, &[u8])]) -> Result<(), Failure> {
    let failed = |error: io::Error| unwritten(folder, &error);
    let names: Vec<&str> = files.iter().map(|(name, _)| *name).collect();
    together::complete(folder, &names).map_err(failed)?;
    let mut staged = Vec::new();
    for (name, bytes) in files {
        let path = &folder.join(name);
        let over = true;
        staged.push(Staged::new(&New { path, bytes, over }, &[])?);
    }
    let is_inside = |(file, name): (&Staged, &&str)| file.path == folder.join(name);
    if !staged.iter().zip(&names).all(is_inside) {
        return place_all(staged);
    }
    let together = folder.join(TOGETHER);
    let (mut ready, _locked) = Beside::folder(&together).map_err(failed)?;
    // The files that were there, and the new ones, are held until all is done.
    let mut held = Vec::new();
    for (file, name) in staged.into_iter().zip(&names) {
        let moved = file.beside.take_place(&ready.path.join(name));
        moved.map_err(failed)?;
        held.push((file.file, file.held));
    }
    // Somebody else's new files go first.
    while let Err(error) = ready.try_place(&together) {
        if !together::is_left(folder) {
            return Err(failed(error));
        }
        together::complete(folder, &names).map_err(failed)?;
    }
    together::complete(folder, &names).map_err(failed)
}

/// Writes a folder that is not there yet, with files in it: all is whole beside its
/// place, which it takes in one step.
pub fn write_folder(folder: &Path, files: &[(&str, &[u8])]) -> Result<(), Failure> {
    let failed = |error: io::Error| unwritten(folder, &error);
    let parent = folder.parent().filter(|it| !it.as_os_str().is_empty());
    fs::create_dir_all(parent.unwrap_or(Path::new("."))).map_err(failed)?;
    sweep(folder, &[]);
    let (beside, _locked) = Beside::folder(folder).map_err(failed)?;
    for (name, bytes) in files {
        write(&beside.path.join(name), bytes, false)?;
    }
    beside.take_place(folder).map_err(failed)
}

/// A whole file that has yet to take its place.
struct Staged {
    beside: Beside,
    /// Locked until then.
    file: File,
    path: PathBuf,
    /// Whether a file is there, which it is put over.
    over: bool,
    /// That file, where the caller does not hold it.
    held: Option<Held>,
}

/// A file in its place, and the one that stood there, where a second name could be
/// had for it.
struct Placed {
    path: PathBuf,
    is_new: bool,
    old: Option<Beside>,
    _held: Option<Held>,
}

impl Staged {
    fn new(new: &New, callers: &[Held]) -> Result<Staged, Failure> {
        let (path, is_there) = place(new.path, new.over)?;
        let failed = |error: io::Error| unwritten(&path, &error);
        let is_held = callers.iter().any(|held| held.is_named(&path));
        let held = (is_there && !is_held).then(|| Held::new(&path, "--force"));
        let held = held.transpose()?;
        let old = is_there.then(|| fs::metadata(&path));
        let old = old.transpose().map_err(failed)?;
        let all_held: Vec<&Held> = callers.iter().chain(&held).collect();
        sweep(&path, &all_held);
        // The bytes of a file that others may not read are never open to them.
        let (beside, mut file) = Beside::file(&path, is_there).map_err(failed)?;
        let written = (|| {
            if let Some(old) = &old {
                keep_owner(&file, old);
                file.set_permissions(old.permissions())?;
            }
            file.write_all(new.bytes)?;
            file.sync_all()
        })();
        written.map_err(failed)?;
        Ok(Staged {
            beside,
            file,
            path,
            over: is_there,
            held,
        })
    }

    fn place(self, may_go_back: bool) -> Result<Placed, Failure> {
        let Staged {
            beside,
            file: _file,
            path,
            over,
            held,
        } = self;
        let failed = |error: io::Error| match error.kind() {
            io::ErrorKind::AlreadyExists => there(&path),
            _ => unwritten(&path, &error),
        };
        let mut old = None;
        if over {
            // A second name keeps the old file until all are placed.
            if may_go_back {
                old = Beside::second_name(&path).ok();
            }
            beside.take_place(&path).map_err(failed)?;
        } else {
            put_new(beside, &path).map_err(failed)?;
        }
        Ok(Placed {
            path,
            is_new: !over,
            old,
            _held: held,
        })
    }
}

impl Placed {
    fn undo(self) {
        let _ = match self.old {
            Some(old) => old.take_place(&self.path),
            None if self.is_new => fs::remove_file(&self.path),
            None => Ok(()),
        };
    }
}

/// Gives a file its name, unless that is taken. Where there are no second names,
/// an empty file takes it first.
fn put_new(beside: Beside, path: &Path) -> io::Result<()> {
    match fs::hard_link(&beside.path, path) {
        Ok(()) => {
            sync_folder(path);
            Ok(())
        }
        Err(error) if error.kind() == io::ErrorKind::AlreadyExists => Err(error),
        Err(_) => {
            File::create_new(path)?;
            let taken = beside.take_place(path);
            if taken.is_err() {
                let _ = fs::remove_file(path);
            }
            taken
        }
    }
}

/// The file that is meant, and whether it is there already: a link stays a link,
/// and only a regular file is written over.
fn place(path: &Path, over: bool) -> Result<(PathBuf, bool), Failure> {
    let Ok(named) = fs::symlink_metadata(path) else {
        return Ok((path.to_path_buf(), false));
    };
    if !over {
        return Err(there(path));
    }
    let refused = |reason: &str| {
        let advice = "give another name; --force writes over regular files alone";
        Err(Failure::file(path.display(), reason, advice))
    };
    let meant = match named.is_symlink() {
        true => fs::canonicalize(path),
        false => Ok(path.to_path_buf()),
    };
    match meant.and_then(|meant| fs::metadata(&meant).map(|old| (meant, old))) {
        Ok((_, old)) if old.is_file() && old.permissions().readonly() => {
            let reason = "is read-only, and is not written over";
            let advice = "give another name, or make the file writable";
            Err(Failure::file(path.display(), reason, advice))
        }
        Ok((meant, old)) if old.is_file() => Ok((meant, true)),
        Ok((_, old)) if old.is_dir() => refused("is a folder"),
        Ok(_) => refused("is a device, a pipe or the like"),
        Err(_) => refused("is a link to no file"),
    }
}

fn there(path: &Path) -> Failure {
    let advice = "give another name; --force puts the new one over it";
    Failure::file(path.display(), "is there already", advice)
}

/// The owner and the group of the old file, where one may give them.
#[cfg(unix)]
fn keep_owner(file: &File, old: &Metadata) {
    use std::os::unix::fs::{fchown, MetadataExt};

    let (owner, group) = (old.uid(), old.gid());
    if fchown(file, Some(owner), Some(group)).is_err() {
        let _ = fchown(file, None, Some(group));
    }
}

#[cfg(not(unix))]
fn keep_owner(_file: &File, _old: &Metadata) {}

fn unwritten(path: &Path, error: &io::Error) -> Failure {
    let reason = format!("cannot be written: {error}");
    Failure::file(path.display(), reason, of_writing(error.kind()))
}

#[cfg(test)]
mod tests {
    use super::*;

    /// The name of the second is taken after both are staged: the first is again what
    /// it was, whether it was there or not, and nothing is left beside.
    #[test]
    fn those_placed_go_back() {
        let folder = std::env::temp_dir().join(format!("daybook-write-{}", std::process::id()));
        fs::create_dir_all(&folder).expect("a folder");
        let (first, second) = (folder.join("first"), folder.join("second"));
        for is_there in [false, true] {
            if is_there {
                fs::write(&first, b"old").expect("a file");
            }
            let staged = |path: &Path, over: bool| {
                let bytes = b"new";
                Staged::new(&New { path, bytes, over }, &[]).expect("a file beside")
            };
            let both = vec![staged(&first, is_there), staged(&second, false)];
            fs::write(&second, b"another").expect("a file");
            assert!(place_all(both).is_err());
            let left = fs::read(&first).ok();
            assert_eq!(left.as_deref(), is_there.then_some(b"old".as_slice()));
            assert_eq!(fs::read(&second).expect("a file"), b"another");
            fs::remove_file(&second).expect("a file");
            let names = fs::read_dir(&folder).expect("a folder").count();
            assert_eq!(names, usize::from(is_there));
        }
        fs::remove_dir_all(&folder).expect("a folder");
    }
}
