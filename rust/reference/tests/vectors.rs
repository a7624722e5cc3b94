//! Replays every printed day of `vectors/`, `vectors/version-1/`,
//! `vectors/version-2/` and `vectors/asks/`.

#![forbid(unsafe_code)]

use std::fs;
use std::io::Write;
use std::path::PathBuf;
use std::process::{Command, Stdio};

fn folder() -> PathBuf {
    PathBuf::from(concat!(env!("CARGO_MANIFEST_DIR"), "/../vectors"))
}

#[test]
fn every_printed_day() {
    let mut replayed = 0;
    let folders = ["", "version-1", "version-2", "asks"].map(|name| folder().join(name));
    let entries = folders
        .iter()
        .flat_map(|folder| fs::read_dir(folder).expect("folder of the test data"));
    for entry in entries {
        let path = entry.expect("entry of the folder").path();
        if path.extension().is_some_and(|extension| extension == "gdb") {
            let book = fs::read(&path).expect("book");
            let expected = fs::read(path.with_extension("out")).expect("printed day");
            assert_eq!(
                reference::day(&book).into_bytes(),
                expected,
                "{}",
                path.display()
            );
            assert_eq!(program_day(&book), expected, "{}", path.display());
            replayed += 1;
        }
    }
    println!("printed days replayed: {replayed}");
    assert_eq!(replayed, 154 + 32);
}

/// What the program `day` prints for this input.
fn program_day(input: &[u8]) -> Vec<u8> {
    let mut program = Command::new(env!("CARGO_BIN_EXE_day"))
        .stdin(Stdio::piped())
        .stdout(Stdio::piped())
        .spawn()
        .expect("program");
    let mut standard_input = program.stdin.take().expect("standard input");
    // The program need not read a longer input to its end.
    let _ = standard_input.write_all(input);
    drop(standard_input);
    program.wait_with_output().expect("output").stdout
}
