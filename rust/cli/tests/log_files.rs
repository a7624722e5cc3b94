//! A book and its log on the disk: both are written or neither is, whatever happens.

#![cfg(unix)]
#![forbid(unsafe_code)]

use std::fs;
use std::os::unix::fs::{symlink, PermissionsExt};
use std::process::{Command, Stdio};
use std::thread;
use std::time::Duration;

use daybook::{Log, Operator};

mod shell;

use shell::Folder;

/// A folder with a book and a log of it.
fn folder(name: &str) -> Folder {
    let folder = Folder::new(&format!("log-files-{name}"));
    assert_eq!(folder.shell("daybook log chain.gdb -o chain.log").0, 0);
    folder
}

fn pair(folder: &Folder) -> (Vec<u8>, Vec<u8>) {
    (folder.bytes("chain.gdb"), folder.bytes("chain.log"))
}

/// A change interrupted between the two renames leaves the new log and the old book:
/// the next call is refused and tells the command that completes it.
#[test]
fn an_interrupted_change_is_completed() {
    for (kept, file) in [("--in-place", "chain.gdb"), ("-o new.gdb", "new.gdb")] {
        let folder = folder("interrupted");
        let old = folder.bytes("chain.gdb");
        let run = format!("daybook run chain.gdb --log chain.log {kept}");
        assert_eq!(folder.shell(&run).0, 0);
        let new = folder.bytes(file);
        // As a kill leaves them.
        fs::remove_file(folder.0.join(file)).expect("a book");
        fs::write(folder.0.join("chain.gdb"), &old).expect("a book");
        let before = pair(&folder);
        let (status, _, messages) = folder.shell(&run);
        assert_eq!(status, 1);
        assert!(messages.contains("refused by question 19"), "{messages}");
        assert!(messages.contains("26 of 412 bytes differ"), "{messages}");
        assert_eq!(pair(&folder), before);
        let (_, line) = messages.split_once("interrupted? `").expect("advice");
        let (line, _) = line.split_once('`').expect("advice");
        let (status, _, messages) = folder.shell(line);
        assert_eq!(status, 0, "{line}: {messages}");
        assert_eq!(folder.bytes(file), new);
        let withdraw = format!("daybook withdraw {file} --log chain.log --all --in-place");
        assert_eq!(folder.shell(&withdraw).0, 0);
        assert_eq!(folder.bytes(file), old);
    }
}

/// The other case: a book changed without its log needs a new one.
#[test]
fn a_book_changed_without_its_log() {
    let folder = folder("without");
    assert_eq!(
        folder
            .shell("daybook post chain.gdb 101 PVB 1 --in-place")
            .0,
        0
    );
    let (status, _, messages) = folder.shell("daybook run chain.gdb --log chain.log --in-place");
    assert_eq!(status, 1);
    let (_, line) = messages.split_once("without the log? `").expect("advice");
    let (line, _) = line.split_once('`').expect("advice");
    assert_eq!(folder.shell(line).0, 0, "{line}");
    assert_eq!(
        folder
            .shell("daybook run chain.gdb --log chain.log --in-place")
            .0,
        0
    );
}

/// Killed at any moment: both are old, both are new, or the log alone is new, and
/// then it holds the new book.
#[test]
fn killed_at_any_moment() {
    let folder = folder("killed");
    let (mut made, mut between) = (0, 0);
    for round in 0..200_u64 {
        let (book, log) = pair(&folder);
        let mut child = Command::new(env!("CARGO_BIN_EXE_daybook"))
            .args(["post", "chain.gdb", "101", "PVB", "1"])
            .args(["--log", "chain.log", "--in-place"])
            .current_dir(&folder.0)
            .stdout(Stdio::null())
            .spawn()
            .expect("the program");
        thread::sleep(Duration::from_micros(500 + 37 * round));
        let _ = child.kill();
        child.wait().expect("an end");
        let (new_book, new_log) = pair(&folder);
        let held = Log::from_bytes(new_log.clone()).held().to_vec();
        if new_log == log {
            assert_eq!(new_book, book);
        } else if new_book == book {
            between += 1;
            let line = "daybook log --held chain.log -o chain.gdb --force";
            assert_eq!(folder.shell(line).0, 0);
            assert_eq!(folder.bytes("chain.gdb"), held);
        } else {
            made += 1;
            assert_eq!(held, new_book);
        }
    }
    println!("200 killed: {made} made, {between} between book and log");
    let (status, _, messages) = folder.shell("daybook run chain.gdb --log chain.log --in-place");
    assert_eq!(status, 0, "{messages}");
    assert_eq!(folder.names(), ["chain.gdb", "chain.log", "chain.txt"]);
}

/// A second name of the book or of the log that a killed process has left goes with
/// the next write.
#[test]
fn left_second_names() {
    let folder = folder("second_names");
    for (number, file) in ["chain.gdb", "chain.log"].iter().enumerate() {
        let left = folder.0.join(format!(".daybook.9122.{number}.new"));
        fs::hard_link(folder.0.join(file), left).expect("a second name");
        let line = "daybook post chain.gdb 101 PVB 1 --log chain.log --in-place";
        let (status, _, messages) = folder.shell(line);
        assert_eq!(status, 0, "{messages}");
        assert_eq!(folder.names(), ["chain.gdb", "chain.log", "chain.txt"]);
    }
}

/// Under a limit on the size of files, which the log exceeds and the book does not,
/// and with a log that is read-only, neither is written.
#[test]
fn both_or_neither() {
    let folder = folder("neither");
    let (before, names) = (pair(&folder), folder.names());
    let run = "daybook run chain.gdb --log chain.log";
    for limit in ["ulimit -f 0", "ulimit -f 100"] {
        for kept in ["--in-place", "-o new.gdb", "-o chain.txt --force"] {
            let line = format!("trap '' XFSZ; {limit}; {run} {kept}");
            let (status, _, messages) = folder.shell(&line);
            assert_eq!(status, 2, "{line}: {messages}");
            assert!(messages.contains("cannot be written"), "{messages}");
            assert_eq!(
                (pair(&folder), folder.names()),
                (before.clone(), names.clone())
            );
        }
    }
    let log = folder.0.join("chain.log");
    fs::set_permissions(&log, fs::Permissions::from_mode(0o444)).expect("permissions");
    let (status, _, messages) = folder.shell(&format!("{run} --in-place"));
    assert_eq!(status, 2);
    assert!(messages.contains("chain.log: is read-only"), "{messages}");
    assert_eq!((pair(&folder), folder.names()), (before, names.clone()));
    // A book that is there already keeps the log from being written, too.
    fs::set_permissions(&log, fs::Permissions::from_mode(0o644)).expect("permissions");
    let (status, _, messages) = folder.shell(&format!("{run} -o chain.txt"));
    assert_eq!(status, 2);
    assert!(
        messages.contains("chain.txt: is there already"),
        "{messages}"
    );
    assert_eq!(folder.names(), names);
}

/// A log is a regular file and another one than the book.
#[test]
fn what_is_no_log() {
    let folder = folder("none");
    assert_eq!(folder.shell("mkfifo pipe; mkdir folder").0, 0);
    fs::hard_link(folder.0.join("chain.gdb"), folder.0.join("same.gdb")).expect("a name");
    symlink("chain.log", folder.0.join("link.log")).expect("a link");
    let before = pair(&folder);
    for (words, told) in [
        ("run chain.gdb --log chain.gdb", "is the book itself"),
        (
            "run chain.gdb --log same.gdb --in-place",
            "is the book itself",
        ),
        (
            "run chain.gdb --log chain.log -o chain.log --force",
            "is the book itself",
        ),
        (
            "run chain.gdb --log link.log -o chain.log --force",
            "is the book itself",
        ),
        (
            "run chain.gdb --log pipe",
            "pipe: what to do: give a regular file; --log needs one",
        ),
        ("run chain.gdb --log folder", "folder: is no regular file"),
        (
            "run chain.gdb --log /dev/null",
            "/dev/null: is no regular file",
        ),
        (
            "run chain.gdb --log none.log",
            "none.log: is not there\nnone.log: what to do: `daybook log",
        ),
        ("run chain.gdb --log -", "--log needs a file"),
        (
            "run chain.gdb --log chain.log -o -",
            "--log needs -o FILE or --in-place",
        ),
        ("level chain.gdb --log chain.log", "--log: no such option"),
        ("check chain.gdb --log chain.log", "--log: no such option"),
        (
            "change chain.gdb 'date 2026-03-19' --log chain.log",
            "--log: no such option",
        ),
        ("withdraw chain.gdb --in-place", "usage: daybook withdraw"),
        ("log chain.gdb -o chain.gdb --force", "is the file itself"),
        (
            "log --held chain.log -o link.log --force",
            "is the file itself",
        ),
        ("log chain.log -o x", "is a log; --held writes"),
        ("log chain.gdb", "is a book; -o FILE starts a log for it"),
        (
            "log chain.gdb -o pipe --force",
            "is a device, a pipe or the like",
        ),
        ("log --held chain.log", "usage: daybook log"),
        ("log --held chain.log -o x --json", "tell a log, without -o"),
    ] {
        let (status, out, messages) = folder.shell(&format!("daybook {words}"));
        assert_eq!((status, out.as_str()), (2, ""), "{words}: {messages}");
        assert!(messages.contains(told), "{words}: {messages}");
    }
    assert_eq!(pair(&folder), before);
    // A link to a log stays one.
    assert_eq!(
        folder
            .shell("daybook run chain.gdb --log link.log -o new.gdb")
            .0,
        0
    );
    assert!(folder.0.join("link.log").is_symlink());
    let held = Log::from_bytes(folder.bytes("chain.log"));
    assert_eq!(
        (held.entries(), held.held()),
        (4, folder.bytes("new.gdb").as_slice())
    );
}

/// Forty calls at once with one log: all of them count, and the pair stays one.
#[test]
fn at_once() {
    let folder = folder("at-once");
    let post = "daybook post chain.gdb 101 PVB 1 --log chain.log --in-place";
    let line = format!("for i in $(seq 40); do {post} & done; wait");
    let (_, out, messages) = folder.shell(&line);
    assert_eq!((out.lines().count(), messages.as_str()), (80, ""));
    let (book, log) = pair(&folder);
    assert_eq!(Log::from_bytes(log).held(), book);
    let book = Operator::new().read(&book).expect("a book");
    assert_eq!(book.users[0].physical[0], -10_000 + 40);
    assert_eq!(folder.names(), ["chain.gdb", "chain.log", "chain.txt"]);
}

/// What could not be told of a change of both names both.
#[test]
fn a_change_that_could_not_be_told() {
    let folder = folder("untold");
    let line = "daybook run chain.gdb --log chain.log --in-place > /dev/full";
    let (status, _, messages) = folder.shell(line);
    assert_eq!(status, 3);
    assert!(
        messages.contains("chain.gdb and chain.log are written"),
        "{messages}"
    );
}
