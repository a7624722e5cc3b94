//! `log`, `withdraw` and `--log`: what is told is what the engine answers.

#![forbid(unsafe_code)]

use std::ffi::OsString;
use std::fs;
use std::path::{Path, PathBuf};

use books::{Generator, Kind};
use cli::commands::perform;
use cli::log_file::LogFile;
use cli::outcome::{Outcome, Status};
use daybook::{Log, Operator, MOST_ENTRIES};

fn folder(name: &str) -> PathBuf {
    let folder = Path::new(env!("CARGO_TARGET_TMPDIR")).join(format!("logs-{name}"));
    let _ = fs::remove_dir_all(&folder);
    fs::create_dir_all(&folder).expect("a folder");
    folder
}

/// A book and its log in a folder, by the names that commands take.
struct Pair {
    book: String,
    log: String,
}

impl Pair {
    fn new(name: &str) -> Pair {
        let folder = folder(name);
        let shown = |file: &str| folder.join(file).display().to_string();
        Pair {
            book: shown("book"),
            log: shown("log"),
        }
    }

    /// A command, in which BOOK and LOG stand for the files.
    fn done(&self, words: &str) -> Outcome {
        let words = words.replace("BOOK", &self.book).replace("LOG", &self.log);
        let words: Vec<OsString> = words.split(' ').map(OsString::from).collect();
        perform(&words)
    }

    fn put(&self, book: &[u8]) {
        fs::write(&self.book, book).expect("a book");
    }

    fn book(&self) -> Vec<u8> {
        fs::read(&self.book).expect("a book")
    }

    fn log(&self) -> Log {
        Log::from_bytes(fs::read(&self.log).expect("a log"))
    }
}

fn out(outcome: &Outcome) -> String {
    String::from_utf8_lossy(&outcome.out).to_string()
}

/// The numbers of a key, in each object that has it.
fn numbers(outcome: &Outcome, key: &str) -> Vec<u64> {
    let key = format!("\"{key}\":");
    let value = |line: &str| {
        let rest = line.split(&key).nth(1)?;
        let digits = rest.split(|it: char| !it.is_ascii_digit()).next()?;
        digits.parse().ok()
    };
    out(outcome).lines().filter_map(value).collect()
}

const KINDS: [Kind; 4] = [Kind::Small, Kind::Chain, Kind::Usual, Kind::Shares];

/// A run with a log, told, and withdrawn again: the engine's figures, and the first
/// bytes of book and log.
#[test]
fn a_run_and_all_of_it_withdrawn() {
    let pair = Pair::new("withdrawn");
    let mut generator = Generator::new(301);
    let mut reductions = 0;
    for round in 0..100 {
        let before = generator.book(KINDS[round % KINDS.len()]);
        pair.put(&before);
        assert_eq!(
            pair.done("log BOOK -o LOG --force").status,
            Status::Accepted
        );
        let started = pair.log();
        assert_eq!(started, Log::start(&before).expect("a log"));
        let (mut book, mut log) = (before.clone(), started.clone());
        let run = Operator::new().log(&mut log).run(&mut book).expect("a run");
        let told = pair.done("run BOOK --log LOG --in-place --json");
        let full = if run.log_full {
            Status::Stopped
        } else {
            Status::Accepted
        };
        assert_eq!(told.status, full, "{}", told.messages);
        assert_eq!((pair.book(), pair.log()), (book, log.clone()));
        assert_eq!(numbers(&told, "noted"), [log.entries() as u64]);
        let told = pair.done("log LOG BOOK --json");
        assert_eq!(told.status, Status::Accepted, "{}", told.messages);
        let (mwh, worth) = (numbers(&told, "mwh"), numbers(&told, "worth_cents"));
        assert_eq!(mwh.len(), log.entries() + 1);
        assert_eq!(
            (mwh.last(), worth.last()),
            (Some(&run.mwh), Some(&run.worth))
        );
        assert!(out(&told).contains("\"is_for_book\":true"));
        cuts_add_up(&LogFile::open(Path::new(&pair.log)).expect("a log"));
        reductions += log.entries();
        let told = pair.done("withdraw BOOK --log LOG --all --in-place --json");
        match log.entries() {
            0 => assert_eq!(told.status, Status::Refused),
            count => {
                let left: Vec<u64> = (0..count as u64).rev().collect();
                assert_eq!(numbers(&told, "noted"), left);
                assert_eq!(numbers(&told, "mwh").iter().sum::<u64>(), run.mwh);
            }
        }
        assert_eq!((pair.book(), pair.log()), (before, started));
    }
    println!("{reductions} reductions noted and withdrawn");
    assert!(reductions > 200, "{reductions}");
}

/// The cuts of each reduction give the engine's MWh and worth.
fn cuts_add_up(file: &LogFile) {
    for noted in file.reductions().expect("reductions") {
        let mwh: u64 = noted.cuts.iter().map(|cut| cut.mwh).sum();
        let worth: u64 = noted.cuts.iter().map(|cut| cut.worth).sum();
        assert_eq!((mwh, worth), (noted.mwh, noted.worth));
    }
}

/// Every call with a log leaves the engine's book and log; a refused one leaves both.
#[test]
fn calls_with_a_log() {
    let pair = Pair::new("calls");
    let mut generator = Generator::new(302);
    let (mut accepted, mut emptied) = (0, 0);
    let list = folder("calls-list").join("list.csv").display().to_string();
    for round in 0..60 {
        let book = generator.book(KINDS[round % KINDS.len()]);
        let given = generator.arguments(&book);
        pair.put(&book);
        pair.done("log BOOK -o LOG --force");
        pair.done("run BOOK --log LOG --in-place");
        let (book, log) = (pair.book(), pair.log());
        let id = Operator::new().read(&book).expect("a book").users[0].id;
        let row = format!("id,area,MWh\n{id},0,{}\n", given.amount.clamp(-9, 9));
        fs::write(&list, row).expect("a list");
        let (id, area, amount) = (given.id, given.area, given.amount);
        for (words, empties) in [
            (format!("post BOOK {id} {area} {amount}"), true),
            (format!("list BOOK {list}"), true),
            (format!("call BOOK {id} --morning"), true),
            (format!("call BOOK {id} --afternoon"), true),
            ("calls BOOK --afternoon".to_string(), true),
            (format!("reduce BOOK {id}"), false),
            ("run BOOK".to_string(), false),
        ] {
            pair.put(&book);
            fs::write(&pair.log, log.as_bytes()).expect("a log");
            let plain = pair.done(&format!("{words} --log LOG"));
            assert_eq!(
                (pair.book(), pair.log()),
                (book.clone(), log.clone()),
                "{words}"
            );
            let kept = pair.done(&format!("{words} --log LOG --in-place"));
            assert_eq!((&kept.out, kept.status), (&plain.out, plain.status));
            let (left, noted) = (pair.book(), pair.log());
            let is_made = kept.status != Status::Refused && !out(&kept).contains("no call is");
            if words.starts_with("list") || is_made {
                accepted += 1;
                assert_eq!(noted.held(), left, "{words}");
                assert_eq!(
                    noted.entries() == 0,
                    empties || log.entries() == 0,
                    "{words}"
                );
                emptied += usize::from(log.entries() > 0 && noted.entries() == 0);
            } else if kept.status == Status::Refused {
                assert_eq!((left, noted), (book.clone(), log.clone()), "{words}");
            }
        }
    }
    println!("{accepted} calls with a log accepted, {emptied} of them emptied one");
    assert!(accepted > 150 && emptied > 50, "{accepted} {emptied}");
}

/// A run that meets a full log ends in status 4 with 256 noted, and is run on with a
/// new one; a reduction is refused with 20.
#[test]
fn a_full_log() {
    let pair = Pair::new("full");
    let book = books::hard::one_seller(60);
    pair.put(&book.to_bytes());
    pair.done("log BOOK -o LOG");
    let told = pair.done("run BOOK --log LOG --in-place --json");
    assert_eq!(told.status.code(), 4);
    assert!(out(&told).contains("\"number\":20,\"reductions\":256,\"mwh\":256,"));
    assert!(told
        .messages
        .contains("is full, and one more reduction is due"));
    assert!(told
        .messages
        .contains("starts a new one, which forgets those noted"));
    assert_eq!(pair.log().entries(), MOST_ENTRIES);
    let told = pair.done("reduce BOOK 1 --log LOG --in-place");
    assert_eq!(told.status, Status::Refused);
    assert!(
        told.messages.contains("refused by question 20"),
        "{}",
        told.messages
    );
    assert!(
        told.messages.contains("is full: 256 reductions noted"),
        "{}",
        told.messages
    );
    let told = pair.done("run BOOK --log LOG --in-place");
    assert!(out(&told).starts_with("0 reductions"), "{}", out(&told));
    assert_eq!(told.status, Status::Stopped);
    let mut noted = 256;
    loop {
        assert_eq!(
            pair.done("log BOOK -o LOG --force").status,
            Status::Accepted
        );
        let told = pair.done("run BOOK --log LOG --in-place");
        noted += pair.log().entries();
        if told.status == Status::Accepted {
            break;
        }
    }
    assert_eq!(noted, 599);
    for words in [
        "run BOOK --log LOG --csv",
        "calls BOOK --morning --log LOG --csv",
    ] {
        let told = pair.done(words);
        assert!(told.messages.contains("noted"), "{}", told.messages);
    }
    let told = pair.done("withdraw BOOK --log LOG --csv");
    assert_eq!(told.status, Status::Accepted);
    assert!(out(&told).starts_with("reduction,trade,seller,buyer,area,mwh,worth\n"));
}

/// What is said of logs that are none, and of files in wrong places.
#[test]
fn logs_in_words() {
    let pair = Pair::new("words");
    let mut generator = Generator::new(304);
    let (book, other) = (generator.book(Kind::Chain), generator.book(Kind::Usual));
    pair.put(&book);
    pair.done("log BOOK -o LOG");
    let log = pair.log();
    let refused = |bytes: &[u8], told: &str| {
        fs::write(&pair.log, bytes).expect("a log");
        for words in ["run BOOK --log LOG --in-place", "withdraw BOOK --log LOG"] {
            let outcome = pair.done(words);
            assert_eq!(outcome.status, Status::Refused, "{told}");
            assert!(outcome.messages.contains("refused by question 19"));
            assert!(outcome.messages.contains(told), "{}", outcome.messages);
        }
        assert_eq!(fs::read(&pair.log).expect("a log"), bytes);
        assert_eq!(pair.book(), book);
        let outcome = pair.done("log LOG BOOK");
        assert_ne!(outcome.status, Status::Accepted);
    };
    let with = |place: usize, byte: u8| {
        let mut bytes = log.as_bytes().to_vec();
        bytes[place] = byte;
        bytes
    };
    refused(&other, "is a book, not a log");
    refused(b"", "is no log: 0 bytes, not 271,668");
    refused(&with(0, b'x'), "does not start with GDL");
    refused(&with(3, 1), "does not start with GDL");
    refused(&with(6, 1), "65,536 entries, and it has room for 256");
    refused(&with(10, 1), "the length of the held book is");
    refused(&with(9_523, 7), "byte 9,523 is not used, and not 0");
    refused(&with(271_667, 7), "byte 271,667 is not used, and not 0");
    refused(&with(9_524, 7), "byte 9,524 is not used, and not 0");
    // Of another length or date it is the log of another book; no interrupted change.
    let held = Log::start(&other).expect("a log");
    refused(held.as_bytes(), "it is the log of another book");
    let mut dated = Operator::new().read(&book).expect("a book");
    dated.date = if dated.date == 20_260_318 {
        20_260_319
    } else {
        20_260_318
    };
    let mut bytes = vec![0; dated.length()];
    daybook::write(&dated, &mut bytes).expect("a book");
    let held = Log::start(&bytes).expect("a log");
    refused(held.as_bytes(), "holds a book of another date");
    refused(held.as_bytes(), "it is the log of another book");
    let mut posted = book.clone();
    let id = dated.users[0].id;
    Operator::new()
        .posting(&mut posted, id, 0, 1)
        .expect("a posting");
    let held = Log::start(&posted).expect("a log");
    refused(held.as_bytes(), "puts the held book in its place");
    let mut forged = with(4, 1);
    forged[9_526] = 9;
    refused(&forged, "are noted");
    forged[9_526] = 0;
    forged[9_524 + 1_020] = 1;
    refused(
        &forged,
        "reduction 1 cuts trade 256, which the book does not have",
    );
}

/// The book that a log holds comes out of a log that is broken behind it, too, which
/// is told; not out of a file without the mark.
#[test]
fn the_held_book() {
    let pair = Pair::new("held");
    let book = Generator::new(305).book(Kind::Chain);
    let log = Log::start(&book).expect("a log").into_bytes();
    let held = |place: usize, byte: u8| {
        let mut bytes = log.clone();
        bytes[place] = byte;
        fs::write(&pair.log, bytes).expect("a log");
        pair.done("log --held LOG -o -")
    };
    let whole = held(3, 0);
    assert_eq!((whole.out, whole.messages.as_str()), (book.clone(), ""));
    let broken = held(271_667, 1);
    assert_eq!((broken.status, &broken.out), (Status::Accepted, &book));
    assert!(broken.messages.contains("is not one for this book"));
    for (place, byte) in [(0, b'x'), (3, 1), (8, 3), (12, b'x'), (11, 9)] {
        let refused = held(place, byte);
        assert_eq!((refused.status, refused.out.len()), (Status::Refused, 0));
        assert!(
            refused.messages.contains("refused by question"),
            "{}",
            refused.messages
        );
    }
    fs::write(&pair.log, &book).expect("a file");
    let refused = pair.done("log --held LOG -o -");
    assert!(
        refused.messages.contains("is a book, not a log"),
        "{}",
        refused.messages
    );
}
