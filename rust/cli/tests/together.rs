//! The three CSV files of a folder are all old or all new, after a kill at any moment.

#![forbid(unsafe_code)]

mod shell;

use std::fs;
use std::process::{Command, Stdio};
use std::thread::sleep;
use std::time::Duration;

use cli::together::TOGETHER;
use shell::Folder;

const FILES: [&str; 3] = ["header.csv", "users.csv", "trades.csv"];

/// Two books that differ in each of the three files, and the folder of the first.
fn folder(name: &str) -> Folder {
    let folder = Folder::new(name);
    let change = "daybook change chain.gdb 'prices P 22.00' 'user 101 assigned +1.00' \
                  'trade 1 standing 0' -o other.gdb";
    assert_eq!(folder.shell(change).0, 0);
    assert_eq!(folder.shell("daybook csv chain.gdb tables").0, 0);
    folder
}

/// Which of the two books the folder is.
fn is_other(folder: &Folder) -> bool {
    let (status, _, messages) = folder.shell("daybook from-csv tables -o now.gdb --force");
    assert_eq!(status, 0, "{messages}");
    let now = folder.bytes("now.gdb");
    let (old, new) = (folder.bytes("chain.gdb"), folder.bytes("other.gdb"));
    assert!(now == old || now == new, "files of two books");
    now == new
}

/// Killed again and again: whoever reads then has one book or the other, and whoever
/// writes next leaves nothing behind.
#[test]
fn killed_while_writing() {
    let folder = folder("together-killed");
    let (mut killed, mut seen) = (0, [0, 0]);
    for round in 0..120_u64 {
        let book = ["other.gdb", "chain.gdb"][usize::from(round % 2 == 1)];
        let mut child = Command::new(env!("CARGO_BIN_EXE_daybook"))
            .args(["csv", book, "tables", "--force"])
            .current_dir(&folder.0)
            .stderr(Stdio::null())
            .spawn()
            .expect("the program");
        sleep(Duration::from_micros(round * 397 % 6_000));
        child.kill().expect("a process");
        let status = child.wait().expect("a status");
        killed += usize::from(status.code().is_none());
        seen[usize::from(is_other(&folder))] += 1;
    }
    println!("{killed} of 120 killed; old and new seen {seen:?}");
    assert!(killed > 0, "none was killed before its end");
    assert_eq!(folder.shell("daybook csv chain.gdb tables --force").0, 0);
    let names = fs::read_dir(folder.0.join("tables")).expect("a folder");
    assert_eq!(names.count(), 3);
}

/// Every state that a kill can leave behind the step after which the new files count: so
/// many of them are in their places.
#[test]
fn what_a_kill_leaves() {
    for moved in 0..=3 {
        for by_writer in [false, true] {
            let folder = folder("together-left");
            assert_eq!(folder.shell("daybook csv other.gdb new").0, 0);
            let tables = folder.0.join("tables");
            fs::rename(folder.0.join("new"), tables.join(TOGETHER)).expect("a folder");
            for name in &FILES[..moved] {
                let from = tables.join(TOGETHER).join(name);
                fs::rename(from, tables.join(name)).expect("a file");
            }
            if by_writer {
                let write = "daybook csv chain.gdb tables --force";
                assert_eq!(folder.shell(write).0, 0);
            }
            assert_eq!(is_other(&folder), !by_writer, "{moved}");
            assert!(!tables.join(TOGETHER).exists());
        }
    }
}

/// Who reads while others write has the files of one book.
#[test]
fn read_while_written() {
    let folder = folder("together-read");
    let write = "for i in $(seq 40); do daybook csv other.gdb tables --force; \
                 daybook csv chain.gdb tables --force; done";
    let read = "for i in $(seq 60); do daybook from-csv tables -o - | sha256sum; done";
    let (status, out, messages) = folder.shell(&format!("({write}) & {read}; wait"));
    assert_eq!((status, messages.as_str()), (0, ""));
    let (_, known, _) = folder.shell("sha256sum <chain.gdb; sha256sum <other.gdb");
    for line in out.lines() {
        assert!(known.lines().any(|it| it == line), "{line}");
    }
}
