//! A folder in which the program is called by a shell. No test needs all of it.

#![allow(dead_code)]

use std::fs;
use std::path::{Path, PathBuf};
use std::process::Command;

/// A folder of its own for a test, with a book and its text.
pub struct Folder(pub PathBuf);

impl Folder {
    pub fn new(name: &str) -> Folder {
        let path = Path::new(env!("CARGO_TARGET_TMPDIR")).join(name);
        let _ = fs::remove_dir_all(&path);
        fs::create_dir_all(&path).expect("a folder");
        let sample = concat!(env!("CARGO_MANIFEST_DIR"), "/../../samples/chain.txt");
        fs::copy(sample, path.join("chain.txt")).expect("a sample");
        let folder = Folder(path);
        assert_eq!(folder.shell("daybook book chain.txt -o chain.gdb").0, 0);
        folder
    }

    /// The status, standard output and standard error of a shell's line.
    pub fn shell(&self, line: &str) -> (i32, String, String) {
        let program = Path::new(env!("CARGO_BIN_EXE_daybook"));
        let beside = program.parent().expect("a folder").display().to_string();
        let path = std::env::var("PATH").unwrap_or_default();
        let output = Command::new("sh")
            .args(["-c", line])
            .current_dir(&self.0)
            .env("PATH", format!("{beside}:{path}"))
            .output()
            .expect("a shell");
        let text = |bytes: &[u8]| String::from_utf8_lossy(bytes).to_string();
        let status = output.status.code().unwrap_or(-1);
        (status, text(&output.stdout), text(&output.stderr))
    }

    pub fn bytes(&self, name: &str) -> Vec<u8> {
        fs::read(self.0.join(name)).expect("a file")
    }

    /// The names in the folder, hidden ones too.
    pub fn names(&self) -> Vec<String> {
        let files = fs::read_dir(&self.0).expect("a folder");
        let name = |file: std::io::Result<fs::DirEntry>| file.expect("a file").file_name();
        let mut names: Vec<String> = files.map(name).map(|it| it.display().to_string()).collect();
        names.sort();
        names
    }
}
