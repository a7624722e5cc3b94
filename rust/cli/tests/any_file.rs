//! Every command on any file: a status that tells, and no panic.

#![forbid(unsafe_code)]

use std::ffi::OsString;
use std::fs;
use std::path::Path;

use books::Generator;
use cli::commands::{perform, COMMANDS};
use cli::outcome::Outcome;
use reference::party::{Act, Given};
use reference::questions::opening_questions;

/// How many books are tried, and how many with logs.
const BOOKS: usize = 400;
const LOGS: usize = 200;

fn done(words: &str) -> Outcome {
    perform(
        &words
            .split(' ')
            .map(OsString::from)
            .collect::<Vec<OsString>>(),
    )
}

/// The words of each command on a book: those after which 0 or 1 follows from the
/// opening questions alone, and those that have questions of their own.
fn lines(id: u32, area: u32, amount: i64) -> (Vec<String>, Vec<String>) {
    let opening = [
        "check BOOK",
        "run BOOK",
        "explain BOOK --steps 300",
        "report BOOK --steps 300 -o -",
        "status BOOK",
        "status BOOK --after",
        "calls BOOK --morning",
        "calls BOOK --afternoon -o -",
        "table BOOK BOOK",
        "compare BOOK BOOK --run",
    ];
    let of_user = [
        format!("show BOOK {id}"),
        format!("level BOOK {id}"),
        format!("flag BOOK {id}"),
        format!("trades BOOK {id}"),
        format!("show BOOK --as {id}"),
        format!("level BOOK --as {id}"),
        format!("flag BOOK --as {id}"),
        format!("trades BOOK --as {id}"),
        format!("trades BOOK {} --as {id}", id ^ 1),
        format!("status BOOK --why {id}"),
        format!("warn BOOK {id}"),
        format!("call BOOK {id} --morning"),
        format!("call BOOK {id} --afternoon"),
        format!("post BOOK {id} {area} {amount}"),
        format!("reduce BOOK {id}"),
    ];
    (opening.map(String::from).to_vec(), of_user.to_vec())
}

#[test]
fn every_command_on_any_book_and_store() {
    let folder = Path::new(env!("CARGO_TARGET_TMPDIR")).join("any");
    let _ = fs::remove_dir_all(&folder);
    fs::create_dir_all(&folder).expect("a folder");
    let (book, store) = (folder.join("book"), folder.join("store"));
    let mut generator = Generator::new(81);
    let mut statuses = [0; 3];
    for place in 0..BOOKS {
        let bytes = generator.any_book();
        let lent = generator.store(&bytes);
        let arguments = generator.arguments(&bytes);
        fs::write(&book, &bytes).expect("a book");
        let with_store = match &lent {
            Some(lent) => {
                fs::write(&store, lent).expect("a store");
                format!(" --store {}", store.display())
            }
            None => String::new(),
        };
        let refused = opening_number(&bytes, lent.as_deref()) != 0;
        let (opening, of_user) = lines(arguments.id, arguments.area, arguments.amount);
        let json = if place % 2 == 0 { " --json" } else { "" };
        for line in opening.iter().chain(&of_user) {
            let json = match line.starts_with("report") || line.starts_with("compare") {
                true => "",
                false => json,
            };
            let words = line.replace("BOOK", &book.display().to_string());
            let outcome = done(&format!("{words}{with_store}{json}"));
            let status = outcome.status.code();
            statuses[usize::from(status)] += 1;
            let told = String::from_utf8_lossy(&outcome.out).to_string() + &outcome.messages;
            assert!(!told.is_empty(), "{line}");
            if opening.contains(line) {
                assert_eq!(status, u8::from(refused), "{line}: {told}");
            } else {
                assert!(status == 1 || !refused, "{line}: {told}");
                assert!(status < 2, "{line}: {told}");
            }
        }
        fs_unchanged(&book, &bytes);
        converted(&folder, &book, &bytes);
    }
    assert!(statuses[0] > 1_000 && statuses[1] > 1_000, "{statuses:?}");
}

/// Every command with a log on any book with any log: a status that tells, both files
/// as they were where the call is refused, and no panic.
#[test]
fn every_command_with_any_log() {
    let folder = Path::new(env!("CARGO_TARGET_TMPDIR")).join("any-log");
    let _ = fs::remove_dir_all(&folder);
    fs::create_dir_all(&folder).expect("a folder");
    let (book, log) = (folder.join("book"), folder.join("log"));
    let mut generator = Generator::new(82);
    let mut statuses = [0; 5];
    for place in 0..LOGS {
        let bytes = generator.any_book();
        let noted = any_log(&mut generator, &bytes);
        let given = generator.arguments(&bytes);
        let (id, area, amount) = (given.id, given.area, given.amount);
        let json = if place % 2 == 0 { " --json" } else { "" };
        for line in [
            "run BOOK --log LOG --in-place".to_string(),
            "withdraw BOOK --log LOG --in-place".to_string(),
            "withdraw BOOK --log LOG --all".to_string(),
            "calls BOOK --afternoon --log LOG".to_string(),
            format!("post BOOK {id} {area} {amount} --log LOG --in-place"),
            format!("call BOOK {id} --morning --log LOG --in-place"),
            format!("reduce BOOK {id} --log LOG --in-place"),
            "log LOG".to_string(),
            "log LOG BOOK".to_string(),
            "log --held LOG -o -".to_string(),
        ] {
            fs::write(&book, &bytes).expect("a book");
            fs::write(&log, &noted).expect("a log");
            let words = line.replace("BOOK", &book.display().to_string());
            let words = words.replace("LOG", &log.display().to_string());
            let outcome = match line.contains("--held") {
                true => done(&words),
                false => done(&format!("{words}{json}")),
            };
            let status = outcome.status.code();
            statuses[usize::from(status)] += 1;
            let told = String::from_utf8_lossy(&outcome.out).to_string() + &outcome.messages;
            assert!(!told.is_empty(), "{line}");
            assert!(
                status < 2 || status == 4 || is_no_log(&noted),
                "{line}: {told}"
            );
            if status == 1 || status == 2 || !line.contains("--in-place") {
                fs_unchanged(&book, &bytes);
                fs_unchanged(&log, &noted);
            }
        }
    }
    println!("statuses {statuses:?}");
    assert!(statuses[0] > 250 && statuses[1] > 1_000, "{statuses:?}");
}

/// A log of a book, as calls leave it, damaged, of another book, or any bytes.
fn any_log(generator: &mut Generator, book: &[u8]) -> Vec<u8> {
    let mut log = match daybook::Log::start(book) {
        Ok(log) => log.into_bytes(),
        Err(_) => return generator.any_book(),
    };
    let entries = 9_524;
    match generator.random().below(8) {
        0 => return generator.any_book(),
        1 => log = vec![0; log.len()],
        2 => log.truncate(entries),
        3 => log[4] = 1,
        4 => {
            let other = generator.any_book();
            let other = daybook::Log::start(&other);
            return other.map_or_else(|_| Vec::new(), daybook::Log::into_bytes);
        }
        // A reduction of one MWh noted, which the book may bear or not.
        5 => {
            let place = generator.random().below(8);
            log[4] = 1;
            log[entries + 4 * place] = 1;
        }
        6 => {
            let place = generator.random().below(log.len());
            log[place] ^= 1 << generator.random().below(8);
        }
        _ => {}
    }
    log
}

/// What `daybook log` takes for a book, and tells so.
fn is_no_log(bytes: &[u8]) -> bool {
    bytes.starts_with(b"GDB")
}

/// The number of the questions before the eighth.
fn opening_number(book: &[u8], store: Option<&[u8]>) -> u32 {
    let opened = opening_questions(book, Given::by_operator(store), Act::Operators);
    opened.map_or_else(|number| number, |_| 0)
}

fn fs_unchanged(file: &Path, bytes: &[u8]) {
    assert_eq!(fs::read(file).expect("the book"), bytes);
}

/// Text and CSV of any file, and any file as a text or a list of balances.
fn converted(folder: &Path, book: &Path, bytes: &[u8]) {
    let refused = u8::from(reference::check(bytes) != 0);
    let (book, tables) = (book.display(), folder.join("tables"));
    let tables = tables.display();
    assert_eq!(done(&format!("text {book}")).status.code(), refused);
    assert_eq!(
        done(&format!("csv {book} {tables} --force")).status.code(),
        refused
    );
    if refused == 0 {
        let made = done(&format!("from-csv {tables} -o -"));
        assert_eq!((made.status.code(), made.out.as_slice()), (0, bytes));
    }
    assert_eq!(done(&format!("book {book} -o -")).status.code(), 1);
    let copied = done(&format!("convert {book} --to 3 -o -"));
    assert_eq!(copied.status.code(), refused);
    let made = done(&format!("fields {book} -o -"));
    assert_eq!(made.status.code(), refused);
    let column = done(&format!("fields --column standing {book}"));
    assert_eq!(column.status.code(), refused);
    as_form(folder, bytes, made.out);
    assert!(done(&format!("shrinkage {book}")).status.code() < 2);
}

/// The form of an accepted book gives it back; any other bytes with a form's mark are
/// refused, and the question that their book fails is told.
fn as_form(folder: &Path, bytes: &[u8], form: Vec<u8>) {
    let is_form = !form.is_empty();
    let form = match is_form {
        true => form,
        false => [b"GDF", bytes.get(3..).unwrap_or_default()].concat(),
    };
    let file = folder.join("form");
    fs::write(&file, form).expect("a form");
    let file = file.display();
    let made = done(&format!("fields {file} -o -"));
    match is_form {
        true => assert_eq!((made.status.code(), made.out.as_slice()), (0, bytes)),
        false => {
            assert_eq!((made.status.code(), made.out.len()), (1, 0));
            let told = &made.messages;
            assert!(
                told.contains(": its book is refused by question "),
                "{told}"
            );
            assert!(told.lines().count() > 2, "{told}");
        }
    }
}

/// Words that no command takes, and missing ones, are misuse.
#[test]
fn odd_words() {
    for command in COMMANDS {
        for words in [
            "",
            " --",
            " -x",
            " --json=1",
            " a b c d e f g h",
            " -o",
            " --store",
            " \u{fffd}",
        ] {
            let outcome = done(&format!("{}{words}", command.name));
            assert_eq!(outcome.status.code(), 2, "{} {words}", command.name);
            assert!(outcome.out.is_empty() && !outcome.messages.is_empty());
        }
    }
}
