//! The program of `examples/corrections.rs` on the sample book and the sample
//! file of corrections.

#![forbid(unsafe_code)]

use std::env;
use std::fs;
use std::path::{Path, PathBuf};
use std::process::{Command, Output};

use daybook::Operator;

fn sample(name: &str) -> PathBuf {
    Path::new(concat!(env!("CARGO_MANIFEST_DIR"), "/../../samples")).join(name)
}

/// A file of this name beside the compiled tests.
fn beside(name: &str) -> PathBuf {
    let test = env::current_exe().expect("path of the test");
    test.with_file_name(name)
}

/// Runs the example, which is compiled into a folder beside that of the tests.
fn corrections(arguments: &[&Path]) -> Output {
    let program = beside("../examples/corrections");
    let output = Command::new(&program).args(arguments).output();
    output.unwrap_or_else(|error| panic!("{}: {error}", program.display()))
}

fn text(bytes: &[u8]) -> &str {
    std::str::from_utf8(bytes).expect("text")
}

/// What is printed is as stored, and the book is that of the postings one after
/// another.
#[test]
fn the_sample_file() {
    let after = beside("corrections-after.gdb");
    let output = corrections(&[&sample("day.gdb"), &sample("corrections.csv"), &after]);
    let expected = include_str!("../examples/corrections.out");
    assert_eq!(text(&output.stdout), expected);
    assert_eq!(output.status.code(), Some(1), "some lines are refused");

    let mut book = fs::read(sample("day.gdb")).expect("the sample book");
    for line in expected.lines().skip(1) {
        let words: Vec<i64> = line.split(',').map(|word| word.parse().unwrap()).collect();
        let id = u32::try_from(words[0]).expect("id");
        let area = u32::try_from(words[1]).expect("area");
        let number = Operator::new()
            .posting(&mut book, id, area, words[2])
            .map_or_else(|no| no.number(), |()| 0);
        assert_eq!(i64::from(number), words[3], "{line}");
    }
    assert_eq!(fs::read(after).expect("the book afterwards"), book);
}

/// Files that cannot be posted: too many lines, a line that is no correction, no
/// book.
#[test]
fn other_files() {
    let csv = beside("corrections-other.csv");
    let run = |book: &Path, lines: &str| {
        fs::write(&csv, format!("id,area,MWh\n{lines}")).expect("a file");
        let output = corrections(&[book, &csv]);
        (
            output.status.code(),
            text(&output.stdout).to_string() + text(&output.stderr),
        )
    };
    let day = sample("day.gdb");
    let head = "id,area,MWh,number\n";
    assert_eq!(run(&day, ""), (Some(0), head.to_string()));
    assert_eq!(
        run(&day, "102, 1, -7\r\n\n"),
        (Some(0), format!("{head}102,1,-7,0\n"))
    );
    let (status, told) = run(&day, &"102,0,1\n".repeat(513));
    assert_eq!(status, Some(1));
    assert!(told.starts_with("refused by question 15: "), "{told}");
    let (status, told) = run(&csv, "102,0,1\n");
    assert_eq!(status, Some(1));
    assert!(told.starts_with("refused by question 1: "), "{told}");
    for line in [
        "102,0",
        "102,0,1,0",
        "102,PVB,1",
        "4294967296,0,1",
        "102,0,1.5",
    ] {
        let (status, told) = run(&day, &format!("102,0,1\n{line}\n"));
        assert_eq!(status, Some(2), "{line}");
        assert!(
            told.contains(&format!("line 3: no id, area, MWh: {line}")),
            "{told}"
        );
    }
}

#[test]
fn wrong_words() {
    assert_eq!(corrections(&[]).status.code(), Some(2));
    assert_eq!(
        corrections(&[Path::new("none"), Path::new("none")])
            .status
            .code(),
        Some(2)
    );
}
