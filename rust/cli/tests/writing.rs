//! Files that are written: whole or not at all, nothing unasked, nothing lost to
//! somebody who writes at the same time.

#![cfg(unix)]
#![forbid(unsafe_code)]

use std::fs;
use std::os::unix::fs::{symlink, FileTypeExt, PermissionsExt};

mod shell;

use shell::Folder;

/// `-o -`: the book to standard output, what is told to standard error, objects
/// and refusals too.
#[test]
fn a_changed_book_to_standard_output() {
    let folder = Folder::new("writing-output");
    fs::write(folder.0.join("list.csv"), "id,area,MWh\n101,PVB,5\n").expect("a file");
    for (call, told) in [
        ("post chain.gdb 101 PVB 5", "101: 5 MWh posted"),
        ("reduce chain.gdb 101", "101: 15,000 MWh cut"),
        ("run chain.gdb", "4 reductions"),
        ("list chain.gdb list.csv", "line 2: 101 PVB"),
        ("call chain.txt 104 --morning", "104: 50,000.00 EUR added"),
    ] {
        for json in ["", " --json"] {
            let file = format!("daybook {call}{json} -o file.gdb --force");
            let (status, out, _) = folder.shell(&file);
            assert_eq!(status, 0, "{call}");
            let line = format!("daybook {call}{json} -o - > standard.gdb");
            let (status, _, messages) = folder.shell(&line);
            assert_eq!(status, 0, "{call}: {messages}");
            assert_eq!(messages, out, "{call}");
            assert!(!json.is_empty() || messages.starts_with(told), "{messages}");
            assert_eq!(folder.bytes("standard.gdb"), folder.bytes("file.gdb"));
        }
    }
    for json in ["", " --json"] {
        let (status, out, messages) =
            folder.shell(&format!("daybook reduce chain.gdb 105{json} -o -"));
        assert_eq!((status, out.as_str()), (1, ""));
        assert!(messages.contains("10,000.00 EUR"), "{messages}");
    }
    assert!(!folder.0.join("-").exists());
}

/// Only a regular file is written over; a link stays one.
#[test]
fn force_writes_over_regular_files_alone() {
    let folder = Folder::new("writing-force");
    assert_eq!(folder.shell("mkfifo pipe").0, 0);
    symlink("nowhere", folder.0.join("dangling")).expect("a link");
    symlink("/dev/null", folder.0.join("device")).expect("a link");
    fs::create_dir(folder.0.join("folder")).expect("a folder");
    fs::write(folder.0.join("kept"), b"kept").expect("a file");
    symlink("kept", folder.0.join("link")).expect("a link");
    let before = folder.names();
    for (name, told) in [
        ("pipe", "is a device, a pipe or the like"),
        ("device", "is a device, a pipe or the like"),
        ("dangling", "is a link to no file"),
        ("folder", "is a folder"),
    ] {
        let (status, _, messages) =
            folder.shell(&format!("daybook run chain.gdb -o {name} --force"));
        assert_eq!(status, 2, "{name}");
        assert!(messages.contains(told), "{name}: {messages}");
    }
    assert_eq!(folder.names(), before);
    let kind = fs::symlink_metadata(folder.0.join("pipe")).expect("a pipe");
    assert!(kind.file_type().is_fifo());
    assert_eq!(folder.shell("daybook run chain.gdb -o link --force").0, 0);
    let link = fs::symlink_metadata(folder.0.join("link")).expect("a link");
    assert!(link.is_symlink());
    assert!(folder.bytes("kept").starts_with(b"GDB"));
    // A pipe in place is not waited for.
    let (status, _, messages) = folder.shell("daybook run pipe --in-place");
    assert_eq!(status, 2);
    assert!(messages.contains("no regular file"), "{messages}");
}

/// Under a limit on the size of files nothing stands under the new file's name,
/// and the old file stays; whoever ignores the signal leaves nothing at all.
#[test]
fn nothing_half_written() {
    let folder = Folder::new("writing-half");
    let (before, names) = (folder.bytes("chain.gdb"), folder.names());
    let limit = "trap '' XFSZ; ulimit -f 0;";
    for call in [
        "run chain.gdb -o new.gdb",
        "report chain.gdb -o new.html",
        "csv chain.gdb new",
        "run chain.gdb --in-place",
        "run chain.gdb -o chain.txt --force",
    ] {
        let (status, _, messages) = folder.shell(&format!("{limit} daybook {call}"));
        assert_eq!(status, 2, "{call}: {messages}");
        assert!(messages.contains("cannot be written"), "{messages}");
        assert_eq!(folder.names(), names, "{call}");
    }
    // Killed by the signal: the part has a name of its own.
    let (_, _, _) = folder.shell("ulimit -f 0; daybook run chain.gdb -o new.gdb; true");
    assert!(!folder.0.join("new.gdb").exists());
    assert_eq!(folder.bytes("chain.gdb"), before);
}

/// A name may be as long as the disk takes it.
#[test]
fn the_longest_name() {
    let folder = Folder::new("writing-long");
    let name = "n".repeat(255);
    for force in ["", " --force"] {
        let (status, _, messages) =
            folder.shell(&format!("daybook run chain.gdb -o {name}{force}"));
        assert_eq!(status, 0, "{messages}");
    }
    assert!(folder.bytes(&name).starts_with(b"GDB"));
}

/// A file beside that another process holds is not touched, nor one of a name that
/// is not the program's; another name is taken.
#[test]
fn the_name_beside_is_ones_own() {
    let folder = Folder::new("writing-beside");
    let line = "for n in .chain.gdb.$$.new .daybook.$$.0.new; do echo kept > $n; done; \
                exec 9< .daybook.$$.0.new; flock 9; exec daybook run chain.gdb --in-place";
    let (status, _, messages) = folder.shell(line);
    assert_eq!(status, 0, "{messages}");
    let names = folder.names();
    let hidden: Vec<&String> = names.iter().filter(|name| name.starts_with('.')).collect();
    assert_eq!(hidden.len(), 2);
    for name in hidden {
        assert_eq!(folder.bytes(name), b"kept\n");
    }
}

/// What a killed process has left beside is removed by the next that writes there;
/// a pipe of such a name is not waited for.
#[test]
fn what_a_kill_leaves_is_removed() {
    let folder = Folder::new("writing-left");
    let names = folder.names();
    folder.shell("ulimit -f 0; daybook run chain.gdb --in-place; true");
    assert_eq!(folder.names().len(), names.len() + 1);
    let left = "mkdir .daybook.7.1.new; echo x > .daybook.7.1.new/users.csv; \
                mkfifo .daybook.7.2.new";
    assert_eq!(folder.shell(left).0, 0);
    let (status, _, messages) = folder.shell("daybook run chain.gdb -o new.gdb");
    assert_eq!(status, 0, "{messages}");
    let hidden: Vec<String> = folder
        .names()
        .into_iter()
        .filter(|it| it.starts_with('.'))
        .collect();
    assert_eq!(hidden, [".daybook.7.2.new"]);
}

/// Killed at any moment: the old book or the new one stands under its name, and the
/// next call leaves nothing beside it.
#[test]
fn killed_at_any_moment() {
    let folder = Folder::new("writing-killed");
    let mut book = daybook::Operator::new()
        .read(&folder.bytes("chain.gdb"))
        .expect("a book");
    let mut changed = 0;
    for round in 0..60 {
        let line = format!(
            "daybook post chain.gdb 101 PVB 1 --in-place & sleep 0.00{}; kill -9 $!; wait $!",
            round % 10
        );
        folder.shell(&line);
        let now = daybook::Operator::new()
            .read(&folder.bytes("chain.gdb"))
            .expect("a book");
        let more = now.users[0].physical[0] - book.users[0].physical[0];
        assert!(more == 0 || more == 1, "{more}");
        changed += more;
        book = now;
    }
    println!("60 postings killed, {changed} of them made");
    assert_eq!(
        folder
            .shell("daybook post chain.gdb 101 PVB 1 --in-place")
            .0,
        0
    );
    assert_eq!(folder.names(), ["chain.gdb", "chain.txt"]);
}

#[test]
fn permissions_are_kept() {
    let folder = Folder::new("writing-mode");
    let file = folder.0.join("chain.gdb");
    fs::set_permissions(&file, fs::Permissions::from_mode(0o604)).expect("permissions");
    for call in [
        "run chain.gdb --in-place",
        "run chain.txt -o chain.gdb --force",
    ] {
        let (status, _, messages) = folder.shell(&format!("umask 077; daybook {call}"));
        assert_eq!(status, 0, "{messages}");
        let mode = fs::metadata(&file).expect("a file").permissions().mode();
        assert_eq!(mode & 0o777, 0o604, "{call}");
    }
    // They are there before the first byte: whoever is killed leaves nothing open.
    fs::set_permissions(&file, fs::Permissions::from_mode(0o600)).expect("permissions");
    folder.shell("ulimit -f 0; daybook post chain.gdb 101 PVB 1 --in-place; true");
    let names = folder.names();
    let left = names.iter().find(|name| name.starts_with('.'));
    let left = folder.0.join(left.expect("a part"));
    let mode = fs::metadata(left).expect("a part").permissions().mode();
    assert_eq!(mode & 0o777, 0o600);
}

/// Three tables or none: one that is there, or that cannot be written over, keeps
/// the others from being made.
#[test]
fn tables_all_or_nothing() {
    let folder = Folder::new("writing-tables");
    fs::create_dir_all(folder.0.join("one")).expect("a folder");
    fs::write(folder.0.join("one/trades.csv"), b"kept").expect("a file");
    let (status, _, messages) = folder.shell("daybook csv chain.gdb one");
    assert_eq!(status, 2);
    assert!(
        messages.contains("one/trades.csv: is there already"),
        "{messages}"
    );
    let inside = |name: &str| fs::read_dir(folder.0.join(name)).expect("a folder").count();
    assert_eq!(inside("one"), 1);
    assert_eq!(folder.shell("daybook csv chain.gdb two").0, 0);
    fs::write(folder.0.join("two/header.csv"), b"kept").expect("a file");
    fs::remove_file(folder.0.join("two/trades.csv")).expect("a file");
    fs::create_dir(folder.0.join("two/trades.csv")).expect("a folder");
    let (status, _, messages) = folder.shell("daybook csv chain.gdb two --force");
    assert_eq!(status, 2, "{messages}");
    assert_eq!(folder.bytes("two/header.csv"), b"kept");
    assert_eq!(inside("two"), 3);
    fs::remove_dir(folder.0.join("two/trades.csv")).expect("a folder");
    assert_eq!(folder.shell("daybook csv chain.gdb two --force").0, 0);
    assert_eq!(inside("two"), 3);
}

/// Forty postings at once, in place or over the book by `-o`, by another name of it
/// too: all of them count.
#[test]
fn postings_at_once() {
    let folder = Folder::new("writing-at-once");
    symlink("chain.gdb", folder.0.join("link.gdb")).expect("a link");
    for (round, kept) in ["--in-place", "-o chain.gdb --force", "-o link.gdb --force"]
        .into_iter()
        .enumerate()
    {
        let post = format!("daybook post chain.gdb 101 PVB 1 {kept}");
        let line = format!("for i in $(seq 40); do {post} & done; wait");
        let (_, out, messages) = folder.shell(&line);
        assert_eq!((out.lines().count(), messages.as_str()), (40, ""), "{kept}");
        let book = daybook::Operator::new()
            .read(&folder.bytes("chain.gdb"))
            .expect("a book");
        let posted = 40 * i32::try_from(round + 1).expect("a number");
        assert_eq!(book.users[0].physical[0], -10_000 + posted, "{kept}");
    }
    assert_eq!(folder.names(), ["chain.gdb", "chain.txt", "link.gdb"]);
}

/// What could not be told of a change has a status of its own.
#[test]
fn a_change_that_could_not_be_told() {
    let folder = Folder::new("writing-untold");
    let (status, _, messages) =
        folder.shell("daybook post chain.gdb 101 PVB 1 --in-place > /dev/full");
    assert_eq!(status, 3, "{messages}");
    assert!(messages.contains("chain.gdb is written"), "{messages}");
    let book = daybook::Operator::new()
        .read(&folder.bytes("chain.gdb"))
        .expect("a book");
    assert_eq!(book.users[0].physical[0], -9_999);
    for call in [
        "post chain.gdb 101 PVB 1",
        "post chain.gdb 101 PVB 1 -o -",
        "check chain.gdb",
    ] {
        let (status, _, _) = folder.shell(&format!("daybook {call} > /dev/full"));
        assert_eq!(status, 2, "{call}");
    }
    assert!(cli::commands::perform(&["help".into()])
        .out
        .windows(2)
        .any(|two| two == b"3 "));
}
