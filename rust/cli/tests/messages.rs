//! What is told: verdicts in one place, mistakes with range and advice, all of
//! them; nothing dropped without a word.

#![forbid(unsafe_code)]

use std::fs;
use std::path::{Path, PathBuf};

use cli::commands::perform;
use cli::outcome::{Outcome, Status};
use cli::shrinkage;
use daybook_text::{csv, text};

fn file(name: &str, bytes: &[u8]) -> PathBuf {
    let folder = Path::new(env!("CARGO_TARGET_TMPDIR")).join("messages");
    fs::create_dir_all(&folder).expect("a folder");
    let path = folder.join(name);
    fs::write(&path, bytes).expect("a file");
    path
}

fn daybook(words: &[&str]) -> Outcome {
    let words: Vec<std::ffi::OsString> = words.iter().map(Into::into).collect();
    perform(&words)
}

fn out(outcome: &Outcome) -> String {
    String::from_utf8_lossy(&outcome.out).to_string()
}

fn sample(name: &str) -> String {
    format!("{}/../../samples/{name}", env!("CARGO_MANIFEST_DIR"))
}

/// A verdict is the answer: accepted and refused stand in one place, in the order
/// of the books; a file that cannot be read is no verdict.
#[test]
fn verdicts_in_one_place() {
    let names = [sample("refused.txt"), sample("day.gdb"), sample("none.gdb")];
    let outcome = daybook(&["check", &names[0], &names[1], &names[2]]);
    let told = out(&outcome);
    let lines: Vec<&str> = told.lines().collect();
    assert_eq!(lines.len(), 4, "{told}");
    assert!(lines[0].contains("refused by question 5"));
    assert!(lines[3].contains("accepted"));
    assert!(outcome.messages.contains("none.gdb: cannot be read"));
    assert_eq!(outcome.status, Status::Misuse);
}

#[test]
fn a_folder_is_no_book() {
    let folder = sample("");
    let outcome = daybook(&["run", &folder]);
    assert!(outcome.messages.contains(
        "what to do: give a file; a folder with header.csv, users.csv and trades.csv is a book"
    ));
    assert_eq!(outcome.status, Status::Misuse);
}

/// A long name is no panic; a gap in a number is not read as another number.
#[test]
fn balances() {
    let long = "n".repeat(70_000);
    let path = file("long", format!("{long} -100\nb 50\n").as_bytes());
    let outcome = daybook(&["shrinkage", &path.display().to_string()]);
    assert_eq!(outcome.status, Status::Accepted);
    assert!(out(&outcome).contains(&long));
    for (text, place) in [
        ("-1 500", "f:1:1: `-1 500`"),
        ("x -1\n -1\u{a0}500", "f:2:2: `-1\\u{a0}500`"),
        ("North -1\u{202f}500", "f:1:7: `-1\\u{202f}500`"),
        ("North 12 500", "f:1:7: `12 500`"),
    ] {
        let failure = shrinkage::read("f", text.as_bytes()).err().expect(text);
        assert!(
            failure.message().starts_with(place),
            "{}",
            failure.message()
        );
    }
    for (text, name, kwh) in [
        ("101: 500", "101", 500),
        ("101\t500", "101", 500),
        ("101 -500", "101", -500),
        ("101 1,500", "101", 1_500),
        ("North 5000", "North", 5_000),
    ] {
        let read = shrinkage::read("f", text.as_bytes()).expect(text);
        assert_eq!((read[0].name.as_str(), read[0].kwh), (name, kwh));
    }
}

/// What is longer than a megabyte is no text of any kind.
#[test]
fn long_texts() {
    let user = "user 1 shipper\n".repeat(80_000);
    let long = format!("daybook 1\n{user}").into_bytes();
    let told = |reason: &str| reason.contains("longer than 1 MB");
    assert!(text::read(&long).is_err_and(|it| it.len() == 1 && told(&it[0].reason)));
    assert!(csv::read([&long, &long, &long]).is_err_and(|it| told(&it[0].reason)));
    assert!(cli::parameters::read(&long).is_err_and(|it| told(&it[0].reason)));
    assert!(shrinkage::read("f", &long).is_err_and(|it| told(it.message())));
    let path = file("long.txt", &long).display().to_string();
    for words in [["check", path.as_str()], ["run", path.as_str()]] {
        let outcome = daybook(&words);
        assert_eq!(outcome.status, Status::Refused);
        let told = format!("{}{}", out(&outcome), outcome.messages);
        assert!(told.contains("longer than 1 MB"), "{told}");
    }
}

/// Every field of a row that cannot be read, with its range.
#[test]
fn all_mistakes_of_a_row() {
    let header = b"version,date,P,Q,L,X,I\n1,2026-03-18,20,21,3,1,0.5\n".as_slice();
    let users = "id,role,physical_PVB,physical_TVB,physical_AVB,charges,assigned,blocked\n\
                 x,broker,1.5,0,99999999999,0,1,2\n";
    let trades = "seller,buyer,area,kind,day,notified\n1,2,PVB,bilateral,d,99999999999\n";
    let mistakes = csv::read([header, users.as_bytes(), trades.as_bytes()]).expect_err("mistakes");
    let told: Vec<String> = mistakes
        .iter()
        .map(|it| format!("{}: {}", it.spot, it.reason))
        .collect();
    assert_eq!(
        told,
        [
            "/users.csv:2:1: id is a whole number, not `x`",
            "/users.csv:2:3: role is one of shipper, clearing-house, not `broker`",
            "/users.csv:2:10: physical_PVB is a whole number, not `1.5`",
            "/users.csv:2:16: physical_AVB is within -1,000,000 to 1,000,000 MWh, not `99999999999`",
            "/trades.csv:2:21: notified is within 1 to 100,000 MWh, not `99999999999`",
        ]
    );
    let comma = "id,role,physical_PVB,physical_TVB,physical_AVB,charges,assigned,blocked\n\
                 1,shipper,0,0,0,0,100,50,0\n";
    let mistakes = csv::read([header, comma.as_bytes(), trades.as_bytes()]).expect_err("mistakes");
    assert!(mistakes[0].reason.ends_with("Euros are written as 1234.50"));
    let line = "daybook 1\ndate 2026-03-18\nprices P 20.00 Q 21.00 L 3.00 X 1.00 I 0.50\n\
                user 99999999999 shipper physical PVB 1.5 charges 12,5 assigned 1.00\n";
    let mistakes = text::read(line.as_bytes()).expect_err("mistakes");
    let columns: Vec<usize> = mistakes.iter().map(|it| it.spot.column).collect();
    assert_eq!(columns, [6, 39, 51], "{mistakes:?}");
    assert!(mistakes[0]
        .reason
        .ends_with("is not within 1 to 4,294,967,295"));
}

/// An id that is there twice is told as that, with both lines.
#[test]
fn an_id_twice() {
    let book = "daybook 1\ndate 2026-03-18\nprices P 20.00 Q 21.00 L 3.00 X 1.00 I 0.50\n\
                user 1 shipper\nuser 2 shipper\nuser 3 shipper\nuser 2 shipper\nuser 1 shipper\n";
    let path = file("twice.txt", book.as_bytes()).display().to_string();
    let told = out(&daybook(&["check", &path]));
    assert!(
        told.contains("twice.txt:7:6: user 4, id 2: the id of user 2, in line 5"),
        "{told}"
    );
    assert!(
        told.contains("twice.txt:8:6: user 5, id 1: the id of user 1, in line 4"),
        "{told}"
    );
}

/// The run's object says how many reductions are shown; the counts and the MWh by
/// user past `--steps` are of one span.
#[test]
fn what_explain_leaves_out() {
    let mut book =
        b"daybook 1\ndate 2026-03-18\nprices P 20.00 Q 21.00 L 3.00 X 1.00 I 0.50\n".to_vec();
    for id in 1..=12 {
        book.extend(
            format!(
                "user {id} shipper physical PVB -40,000 assigned 100,000.00 blocked 100,000.00\n"
            )
            .bytes(),
        );
    }
    for id in 1..=11 {
        book.extend(format!("trade {id} to {} PVB bilateral d 1,000\n", id + 1).bytes());
    }
    let path = file("steps.txt", &book).display().to_string();
    let told = out(&daybook(&["explain", &path, "--json"]));
    let last = told.lines().last().expect("a line");
    assert!(
        last.contains(r#","reductions":11,"shown":8,"taken_apart":11,"#),
        "{last}"
    );
    assert_eq!(told.lines().count(), 9);
    let told = out(&daybook(&["explain", &path, "--steps", "3"]));
    let (_, tail) = told.split_once("run: ").expect("a run");
    let wanted = "11 reductions, 11,000 MWh cut, worth 220,000.00 EUR\n\
                  the first 3 reductions taken apart (--steps N), the last of the run are not shown; in these:\n\
                  \x20 user 1: 1 reduction, 1,000 MWh cut\n\
                  \x20 user 2: 1 reduction, 1,000 MWh cut\n\
                  \x20 user 3: 1 reduction, 1,000 MWh cut\n";
    assert_eq!(tail, wanted);
}

/// One seller and sixty buyers: pictures of at most seven users, each with ids and
/// a label of its own.
#[test]
fn pictures_of_many_buyers() {
    let mut book = b"daybook 1\ndate 2026-03-18\nprices P 20.00 Q 21.00 L 3.00 X 1.00 I 0.50\n\
                     user 1 shipper physical PVB -60,000 assigned 100,000.00 blocked 100,000.00\n"
        .to_vec();
    for id in 2..=61 {
        book.extend(format!("user {id} shipper\n").bytes());
    }
    for sale in 0..256 {
        book.extend(format!("trade 1 to {} PVB bilateral d 100\n", 2 + sale % 60).bytes());
    }
    let path = file("star.txt", &book).display().to_string();
    let page = out(&daybook(&["report", &path, "-o", "-"]));
    let pictures: Vec<&str> = page.split("<svg").skip(1).collect();
    assert_eq!(pictures.len(), 10);
    for (place, picture) in pictures.iter().enumerate() {
        assert!(picture.matches("class=\"name\"").count() <= 7);
        let number = place + 1;
        assert!(picture.contains(&format!(
            "Picture {number} of 10, who cut whom: reduction 1"
        )));
        assert!(picture.contains(&format!("id=\"head-{number}-PVB\"")));
        assert!(picture.contains(&format!("url(#head-{number}-PVB)")));
        let (_, width) = picture.split_once("--width:").expect("a width");
        let (width, _) = width.split_once('"').expect("a width");
        assert!(width.parse::<u32>().is_ok_and(|it| it < 1_000), "{width}");
    }
    let cuts = page.matches("class=\"cut PVB\"").count();
    assert_eq!(cuts, 60);
}

/// Every answer as a table: the names of the columns, then as many fields a row as
/// there are names, as many rows as objects.
#[test]
fn answers_as_tables() {
    let list = file("list.csv", b"id,area,MWh\n101,PVB,5\n7,PVB,5\n");
    let list = list.display().to_string();
    let (chain, credit) = (sample("chain.txt"), sample("credit.txt"));
    for words in [
        &["show", &chain][..],
        &["level", &credit],
        &["warn", &chain],
        &["call", &chain, "104", "--morning"],
        &["post", &chain, "101", "PVB", "5"],
        &["reduce", &chain, "101"],
        &["cancel", &chain, "101"],
        &["list", &chain, &list],
    ] {
        let told = |form: &str| out(&daybook(&[words, &[form]].concat()));
        let (table, objects) = (told("--csv"), told("--json"));
        let rows: Vec<&str> = table.lines().collect();
        assert_eq!(rows.len(), 1 + objects.lines().count(), "{words:?}");
        // A field in quotes may have commas in it.
        let outside = |row: &str| row.split('"').step_by(2).collect::<String>();
        let counts = rows.iter().map(|row| outside(row).matches(',').count());
        let counts: Vec<usize> = counts.collect();
        assert!(counts.iter().all(|it| *it == counts[0]), "{table}");
        assert!(rows[0].split(',').all(|name| !name.contains("cents")));
    }
    let told = out(&daybook(&["level", &chain, "101", "--csv"]));
    assert_eq!(
        told,
        "number,id,morning,afternoon\n0,101,800000.00,800000.00\n"
    );
    let told = out(&daybook(&["run", &chain, "--csv"]));
    assert_eq!(told.lines().count(), 6);
}
