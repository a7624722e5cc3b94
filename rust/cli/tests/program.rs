//! The program as a user meets it: exit status, messages, files that stay.

#![forbid(unsafe_code)]

use std::fs;
use std::io::Write;
use std::path::{Path, PathBuf};
use std::process::{Command, Output, Stdio};

/// A folder of its own for a test, empty, with the samples beside it.
struct Folder(PathBuf);

impl Folder {
    fn new(name: &str) -> Folder {
        let path = Path::new(env!("CARGO_TARGET_TMPDIR")).join(name);
        let _ = fs::remove_dir_all(&path);
        fs::create_dir_all(&path).expect("a folder");
        Folder(path)
    }

    /// The status, standard output and standard error of the program in the folder.
    fn run(&self, words: &str) -> (i32, String, String) {
        ended(&self.start(words).output().expect("the program"))
    }

    fn start(&self, words: &str) -> Command {
        let mut command = Command::new(env!("CARGO_BIN_EXE_daybook"));
        command.current_dir(&self.0).args(words.split_whitespace());
        command
    }

    /// Copies a sample into the folder, as a book in bytes.
    fn book(&self, sample: &str, name: &str) {
        let sample = format!("{}/../../samples/{sample}.txt", env!("CARGO_MANIFEST_DIR"));
        fs::copy(sample, self.0.join("sample.txt")).expect("a sample");
        assert_eq!(self.run(&format!("book sample.txt -o {name}")).0, 0);
    }

    fn bytes(&self, name: &str) -> Vec<u8> {
        fs::read(self.0.join(name)).expect("a file")
    }

    fn files(&self) -> usize {
        fs::read_dir(&self.0).expect("a folder").count()
    }
}

fn ended(output: &Output) -> (i32, String, String) {
    let text = |bytes: &[u8]| String::from_utf8_lossy(bytes).to_string();
    let status = output.status.code().expect("an exit");
    (status, text(&output.stdout), text(&output.stderr))
}

#[test]
fn accepted_is_0_refused_1_and_misuse_2() {
    let folder = Folder::new("status");
    folder.book("chain", "chain.gdb");
    fs::write(folder.0.join("no.gdb"), b"GDB").expect("a file");
    for (words, status) in [
        ("check chain.gdb", 0),
        ("check no.gdb", 1),
        ("check chain.gdb no.gdb", 1),
        ("check no.gdb missing.gdb", 2),
        ("check", 2),
        ("check --quick chain.gdb", 2),
        ("check .", 2),
        ("sum chain.gdb", 2),
        ("", 2),
        ("help", 0),
        ("help sum", 2),
        ("--version", 0),
        ("run chain.gdb", 0),
        ("run no.gdb", 1),
        ("run chain.gdb -o x --in-place", 2),
        ("run chain.gdb --force", 2),
        ("reduce chain.gdb 101", 0),
        ("reduce chain.gdb 105", 1),
        ("reduce chain.gdb 4294967296", 2),
        ("show chain.gdb 7", 1),
        ("show chain.gdb --store no.gdb", 1),
        ("show chain.gdb --store=no.gdb", 1),
        ("show chain.gdb --store", 2),
        ("show chain.gdb --json=yes", 2),
        ("call chain.gdb 101", 2),
        ("call chain.gdb 101 --morning --afternoon", 2),
        ("call chain.gdb 101 --morning", 1),
        ("post chain.gdb 101 PVB -5", 0),
        ("post chain.gdb 101 XYZ 5", 2),
        ("post chain.gdb 101 3 5", 1),
        ("post chain.gdb 101 AVB -1000001", 1),
        ("text no.gdb", 1),
        ("book no.gdb -o x", 1),
        ("book sample.txt", 2),
        ("from-csv . -o x", 2),
        ("warn chain.gdb -- 101", 0),
    ] {
        let (ended, out, messages) = folder.run(words);
        assert_eq!(ended, status, "{words}: {out} {messages}");
        // A changed book that is not kept is told, too.
        let unkept = ["run ", "reduce ", "post "]
            .iter()
            .any(|it| words.starts_with(it));
        // A verdict is an answer, whatever it says.
        let is_verdict = words.starts_with("check ") && words.contains("no.gdb");
        assert_eq!(
            messages.is_empty(),
            status == 0 && !unkept || status == 1 && is_verdict,
            "{words}: {messages}"
        );
        assert_eq!(out.is_empty(), status != 0 && !is_verdict, "{words}: {out}");
    }
    assert!(!folder.0.join("x").exists());
}

#[test]
fn every_command_has_a_page() {
    let folder = Folder::new("pages");
    let (_, overview, _) = folder.run("help");
    for command in cli::commands::COMMANDS {
        let name = command.name;
        assert!(overview.contains(&format!("\n  {name} ")), "{name}");
        assert!(command.page.starts_with(&format!("daybook {name} ")));
        for words in [
            format!("help {name}"),
            format!("{name} --help"),
            format!("{name} x -h"),
        ] {
            assert_eq!(
                folder.run(&words),
                (0, command.page.to_string(), String::new())
            );
        }
        let usage = folder.run(&format!("{name} a b c d e f g --json --json")).2;
        assert!(
            usage.ends_with(&format!("`daybook help {name}` says more\n")),
            "{usage}"
        );
    }
}

#[test]
fn nothing_is_written_over_without_being_asked() {
    let folder = Folder::new("over");
    folder.book("chain", "chain.gdb");
    let before = folder.bytes("chain.gdb");
    fs::write(folder.0.join("kept"), b"kept").expect("a file");
    for words in [
        "run chain.gdb -o kept",
        "book sample.txt -o kept",
        "text chain.gdb -o kept",
        "run chain.gdb -o chain.gdb",
        "run sample.txt --in-place",
        "run - --in-place",
    ] {
        let (status, _, messages) = folder.run(words);
        assert!(status > 0 && !messages.is_empty(), "{words}");
        assert_eq!(folder.bytes("kept"), b"kept", "{words}");
        assert_eq!(folder.bytes("chain.gdb"), before, "{words}");
    }
    assert_eq!(folder.run("run chain.gdb -o kept --force").0, 0);
    let after = folder.bytes("kept");
    assert_eq!(folder.run("run chain.gdb --in-place").0, 0);
    assert_eq!(folder.bytes("chain.gdb"), after);
    let mut run = before;
    daybook::Operator::new().run(&mut run).expect("a run");
    assert_eq!(after, run);
    // A refused call leaves the file, and nothing is left beside it.
    assert_eq!(folder.run("reduce chain.gdb 105 --in-place").0, 1);
    assert_eq!(folder.bytes("chain.gdb"), after);
    assert_eq!(folder.files(), 3);
    assert_eq!(folder.run("csv chain.gdb tables").0, 0);
    let (status, _, messages) = folder.run("csv chain.gdb tables");
    assert_eq!(status, 2);
    assert!(
        messages.contains("tables/header.csv: is there already"),
        "{messages}"
    );
    assert_eq!(folder.run("csv chain.gdb tables --force").0, 0);
    assert_eq!(folder.run("from-csv tables -o back.gdb").0, 0);
    assert_eq!(folder.bytes("back.gdb"), after);
}

#[cfg(unix)]
#[test]
fn in_place_keeps_links_and_permissions() {
    use std::os::unix::fs::{symlink, PermissionsExt};

    let folder = Folder::new("links");
    folder.book("chain", "chain.gdb");
    let (file, link) = (folder.0.join("chain.gdb"), folder.0.join("link"));
    fs::set_permissions(&file, fs::Permissions::from_mode(0o640)).expect("permissions");
    symlink("chain.gdb", &link).expect("a link");
    assert_eq!(folder.run("run link --in-place").0, 0);
    assert!(fs::symlink_metadata(&link).expect("a link").is_symlink());
    let mode = fs::metadata(&file).expect("a file").permissions().mode();
    assert_eq!(mode & 0o777, 0o640);
}

#[test]
fn standard_input_and_output() {
    let folder = Folder::new("standard");
    folder.book("chain", "chain.gdb");
    let mut child = folder
        .start("text -")
        .stdin(Stdio::piped())
        .stdout(Stdio::piped())
        .spawn()
        .expect("the program");
    let mut input = child.stdin.take().expect("standard input");
    input
        .write_all(&folder.bytes("chain.gdb"))
        .expect("written");
    drop(input);
    let output = child.wait_with_output().expect("an end");
    assert_eq!(ended(&output).1, folder.run("text chain.gdb").1);
    let made = folder
        .start("book sample.txt -o -")
        .output()
        .expect("a book");
    assert_eq!(made.stdout, folder.bytes("chain.gdb"));
}

/// One object a line, refused or not, and the status tells.
#[test]
fn answers_as_objects() {
    let folder = Folder::new("objects");
    folder.book("reduction", "day.gdb");
    for (words, status, out) in [
        (
            "check day.gdb --json",
            0,
            r#"{"book":"day.gdb","accepted":true,"number":0,"version":1,"date":"2026-03-18","users":2,"trades":1}"#,
        ),
        (
            "level day.gdb 101 --json",
            0,
            r#"{"book":"day.gdb","number":0,"id":101,"morning_cents":80000000,"afternoon_cents":80000000}"#,
        ),
        (
            "warn day.gdb 102 --json",
            0,
            r#"{"book":"day.gdb","number":0,"id":102,"warned":true}"#,
        ),
        (
            "show day.gdb 101 --json",
            0,
            r#"{"book":"day.gdb","number":0,"id":101,"role":"shipper","physical_mwh":[-10000,0,0],"position_mwh":[-40000,0,0],"charges_cents":0,"assigned_cents":50000000,"blocked_cents":10000000}"#,
        ),
        (
            "post day.gdb 101 pvb 20,000 --json -o posted.gdb",
            0,
            r#"{"book":"day.gdb","number":0,"id":101,"area":"PVB","mwh":20000,"physical_mwh":10000,"position_mwh":-20000}"#,
        ),
        (
            "call posted.gdb 101 --morning --json -o called.gdb",
            0,
            r#"{"book":"posted.gdb","number":0,"id":101,"level_cents":40000000,"added_cents":30000000}"#,
        ),
        (
            "reduce day.gdb 101 --json -o reduced.gdb",
            0,
            r#"{"book":"day.gdb","number":0,"id":101,"mwh":15000,"worth_cents":30000000,"target_cents":30000000,"short_cents":0,"over_cents":0}"#,
        ),
        (
            "reduce day.gdb 102 --json",
            1,
            r#"{"book":"day.gdb","number":11,"id":102,"question":"level − blocked > 10,000.00 EUR (with a store, its figure), and, but for the morning call, user called in?","reason":"user 2, id 102: level 100,000.00 - blocked 100,000.00 = 0.00 EUR, not above 10,000.00 EUR","advice":["nothing: neither a call nor a cut is due"]}"#,
        ),
    ] {
        assert_eq!(
            folder.run(words),
            (status, format!("{out}\n"), String::new()),
            "{words}"
        );
    }
    fs::write(folder.0.join("no.txt"), "daybook 1\nuser x").expect("a file");
    fs::write(folder.0.join("no.gdb"), "GDB").expect("a file");
    for (words, out) in [
        (
            "run no.txt --json",
            r#"{"book":"no.txt","accepted":false,"mistakes":[{"line":2,"column":6,"reason":"the id is a whole number, not `x`"}],"advice":["write these places as they have to be, then give the command again"]}"#,
        ),
        (
            "level no.gdb 1 --json",
            r#"{"book":"no.gdb","accepted":false,"number":1,"question":"at least 32 bytes, starting with the mark?","faults":[{"record":"header","field":"length","reason":"header: 3 bytes, a header has at least 32"}],"advice":["the file is cut off, or goes on behind its book: fetch it again"]}"#,
        ),
        (
            "run day.gdb --store no.gdb --json",
            r#"{"book":"day.gdb","number":16,"question":"is the store well formed?","reason":"store: 3 bytes, the start alone has 6","advice":["`daybook store TEXT -o FILE` makes a store of text"]}"#,
        ),
        (
            "check day.gdb --store no.gdb --json",
            r#"{"book":"day.gdb","accepted":false,"number":16,"question":"is the store well formed?","reason":"store: 3 bytes, the start alone has 6","advice":["`daybook store TEXT -o FILE` makes a store of text"]}"#,
        ),
    ] {
        assert_eq!(
            folder.run(words),
            (1, format!("{out}\n"), String::new()),
            "{words}"
        );
    }
    let (_, out, _) = folder.run("run day.gdb --json -o run.gdb");
    assert_eq!(
        out,
        "{\"book\":\"day.gdb\",\"number\":0,\"reductions\":1,\"mwh\":15000,\"worth_cents\":30000000}\n\
         {\"book\":\"day.gdb\",\"id\":101,\"state\":\"call\",\"afternoon_cents\":50000000,\"position_mwh\":[-25000,0,0]}\n\
         {\"book\":\"day.gdb\",\"id\":102,\"state\":\"quiet\",\"afternoon_cents\":10000000,\"position_mwh\":[15000,0,0]}\n"
    );
    assert_eq!(folder.bytes("run.gdb"), folder.bytes("reduced.gdb"));
}

#[test]
fn shrinkage_of_a_file() {
    let folder = Folder::new("shrinkage");
    fs::write(
        folder.0.join("kwh"),
        "# balances\nNorth -100\n50\nSouth East -25 # kWh\n",
    )
    .expect("a file");
    let told = "H 37 kWh returned, as much kept, odd kWh 1, rest 1 kWh\n\
                North      -100 share 29 remainder 75\n\
                \x20        2   50 share  0 remainder  0\n\
                South East  -25 share  7 remainder 50\n";
    assert_eq!(
        folder.run("shrinkage kwh"),
        (0, told.to_string(), String::new())
    );
    let (status, out, _) = folder.run("shrinkage kwh --json --days");
    assert_eq!(status, 0);
    assert!(
        out.contains(
            r#"{"file":"kwh","name":"North","balance_kwh":-100,"share_kwh":29,"remainder":75,"days_kwh":[1,1,"#
        ),
        "{out}"
    );
    for (text, status, told) in [
        ("500,000,001", 1, "refused by question 27"),
        (&"1\n".repeat(65), 1, "refused by question 28"),
        (
            "North x",
            1,
            "kwh:1:7: a balance is a whole number of kWh, not `x`",
        ),
    ] {
        fs::write(folder.0.join("kwh"), text).expect("a file");
        let (ended, _, messages) = folder.run("shrinkage kwh");
        assert_eq!(ended, status);
        assert!(messages.contains(told), "{messages}");
    }
}

/// The states of the printed day, by the reference.
#[test]
fn states_are_those_of_the_printed_day() {
    let mut generator = books::Generator::new(51);
    for kind in [
        books::Kind::Small,
        books::Kind::Chain,
        books::Kind::Midday,
        books::Kind::Usual,
    ] {
        for _ in 0..200 {
            let mut book = generator.book(kind);
            let printed = reference::day(&book);
            daybook::Operator::new().run(&mut book).expect("a run");
            let users = daybook::Operator::new().read(&book).expect("a book").users;
            let states = cli::state::states(&daybook::Operator::new(), &book).expect("states");
            assert_eq!(states.len(), users.len());
            for ((line, user), state) in printed.lines().skip(1).zip(&users).zip(states) {
                let [a, b, c] = user.position;
                let level = state.level.unwrap_or(0);
                let told = format!("{} {} {level} {a} {b} {c}", user.id, state.word);
                assert_eq!(told, line);
            }
        }
    }
}
