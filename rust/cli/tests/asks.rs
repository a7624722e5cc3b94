//! `list` and `cancel`: what is told is what the engine answers, and what is
//! computed beside it agrees with it.

#![forbid(unsafe_code)]

use std::ffi::OsString;
use std::fs;
use std::path::{Path, PathBuf};

use books::{Call, Generator, Kind};
use cli::commands::perform;
use cli::outcome::Outcome;
use daybook::{Line, Operator, Refusal};

fn folder(name: &str) -> PathBuf {
    let folder = Path::new(env!("CARGO_TARGET_TMPDIR")).join(name);
    let _ = fs::remove_dir_all(&folder);
    fs::create_dir_all(&folder).expect("a folder");
    folder
}

fn done(words: &str) -> Outcome {
    perform(
        &words
            .split(' ')
            .map(OsString::from)
            .collect::<Vec<OsString>>(),
    )
}

/// The value of a key that is a number, in each object of the answer.
fn numbers(outcome: &Outcome, key: &str) -> Vec<u64> {
    let text = String::from_utf8(outcome.out.clone()).expect("a text");
    let key = format!("\"{key}\":");
    let value = |line: &str| {
        let rest = line.split(&key).nth(1)?;
        let digits = rest.split(|it: char| !it.is_ascii_digit()).next()?;
        digits.parse().ok()
    };
    text.lines().filter_map(value).collect()
}

#[test]
fn lists_are_answered_line_by_line() {
    let folder = folder("lists");
    let (book, file, after) = (
        folder.join("book"),
        folder.join("list.csv"),
        folder.join("after"),
    );
    let mut generator = Generator::new(91);
    let mut refused = 0;
    for _ in 0..120 {
        let bytes = generator.book(Kind::Small);
        let lines: Vec<Line> = (0..generator.random().below(40))
            .map(|_| {
                let given = generator.arguments(&bytes);
                Line {
                    id: given.id,
                    area: given.area,
                    amount: given.amount,
                }
            })
            .collect();
        let rows = lines
            .iter()
            .map(|it| format!("{},{},{}\n", it.id, it.area, it.amount));
        let text: String = std::iter::once("id,area,MWh\n".to_string())
            .chain(rows)
            .collect();
        fs::write(&book, &bytes).expect("a book");
        fs::write(&file, text).expect("a list");
        let _ = fs::remove_file(&after);
        let (book, file, kept) = (book.display(), file.display(), after.display());
        let outcome = done(&format!("list {book} {file} -o {kept} --json"));
        let mut engine = bytes.clone();
        let answers = Operator::new()
            .list(&mut engine, &lines)
            .expect("an accepted list");
        let answers = answers
            .into_iter()
            .map(|it| it.map_or_else(Refusal::number, |()| 0));
        let answers: Vec<u64> = answers.map(u64::from).collect();
        assert_eq!(numbers(&outcome, "number"), answers);
        assert_eq!(
            outcome.status.code(),
            u8::from(answers.iter().any(|it| *it > 0))
        );
        assert_eq!(fs::read(&after).expect("the book after"), engine);
        let told = String::from_utf8(outcome.out).expect("a text");
        let reasons = told.matches("\"reason\":\"").count();
        assert_eq!(reasons, answers.iter().filter(|it| **it > 0).count());
        refused += reasons;
    }
    assert!(refused > 100);
}

#[test]
fn long_lists_and_odd_files() {
    let folder = folder("odd-lists");
    let book = folder.join("book");
    let bytes = Generator::new(92).book(Kind::Small);
    fs::write(&book, bytes).expect("a book");
    let file = folder.join("list.csv");
    let (book, shown) = (book.display().to_string(), file.display().to_string());
    for (text, status, told) in [
        (
            "id,area,MWh\n".to_string() + &"1,PVB,0\n".repeat(513),
            1,
            "refused by question 15",
        ),
        (
            "id,area,MWh\n1,XYZ,0\n".to_string(),
            1,
            ":2:3: area is one of PVB, TVB, AVB, not `XYZ`",
        ),
        (
            "id,area\n1,0\n".to_string(),
            1,
            ":1:1: the column MWh is missing",
        ),
        (
            String::new(),
            1,
            ":1:1: the first line has the names id,area,MWh",
        ),
    ] {
        fs::write(&file, text).expect("a list");
        let outcome = done(&format!("list {book} {shown}"));
        assert_eq!(outcome.status.code(), status);
        assert!(outcome.messages.contains(told), "{}", outcome.messages);
    }
}

/// The worth that is told, less the excess, is the target of the reduction.
#[test]
fn cancellations_reach_the_target() {
    let folder = folder("cancellations");
    let book = folder.join("book");
    let mut generator = Generator::new(93);
    let (mut found, mut refusals) = (0, [0; 30]);
    for _ in 0..600 {
        let kind = generator
            .random()
            .pick(&[Kind::Chain, Kind::Shares, Kind::Small]);
        let bytes = generator.book(kind);
        let Call::Cancellation { id, tries } = generator.cancellation(&bytes, None) else {
            continue;
        };
        fs::write(&book, &bytes).expect("a book");
        let words = format!("cancel {} {id} --tries {tries} --json", book.display());
        let outcome = done(&words);
        match Operator::new().cancellation(&bytes, id, tries) {
            Err(refusal) => {
                let told = String::from_utf8(outcome.out.clone()).expect("a text");
                assert_eq!(numbers(&outcome, "number"), [u64::from(refusal.number())]);
                assert!(!told.contains("\"reason\":\"\""), "{told}");
                refusals[usize::try_from(refusal.number()).expect("a number")] += 1;
            }
            Ok(answer) => {
                let target = Operator::new()
                    .reduction(&mut bytes.clone(), id)
                    .expect("a reduction")
                    .target;
                let worth = numbers(&outcome, "worth_cents");
                let excess = numbers(&outcome, "excess_cents");
                assert_eq!((worth[0] - excess[0], excess[0]), (target, answer.excess));
                assert_eq!(numbers(&outcome, "tries"), [answer.tries]);
                found += 1;
            }
        }
        fs::write(&book, &bytes).expect("a book");
    }
    assert!(found > 50, "{found} {refusals:?}");
    for number in [11, 24, 25] {
        assert!(refusals[number] > 0, "{refusals:?}");
    }
}
