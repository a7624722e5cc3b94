//! Groups of version 3: managers in text, CSV and faults, and what is computed beside
//! the engine for books with groups, held to it.

#![forbid(unsafe_code)]

use std::ffi::OsString;
use std::fs;
use std::path::Path;

use books::{Generator, Kind};
use cli::commands::perform;
use cli::outcome::Outcome;
use cli::why::{why, Part};
use daybook::{Book, Level, Operator};
use daybook_text::credit::{by_area, credited};
use daybook_text::groups::{bearer, has_groups};
use daybook_text::store::{figures, TODAY};
use daybook_text::trace::{trace, Extent, Walk};
use daybook_text::{csv, text};

const KINDS: [Kind; 6] = [
    Kind::Small,
    Kind::Chain,
    Kind::Midday,
    Kind::Usual,
    Kind::Shares,
    Kind::Credit,
];

/// A book of the generator that has a group.
fn grouped(generator: &mut Generator) -> (Vec<u8>, Book) {
    loop {
        let kind = generator.random().pick(&KINDS);
        let bytes = generator.book(kind);
        let book = Operator::new().read(&bytes).expect("a book");
        if has_groups(&book) {
            return (bytes, book);
        }
    }
}

fn file(name: &str, bytes: &[u8]) -> String {
    let file = Path::new(env!("CARGO_TARGET_TMPDIR")).join(name);
    fs::write(&file, bytes).expect("a file");
    file.display().to_string()
}

fn done(words: &[&str]) -> Outcome {
    let words: Vec<OsString> = words.iter().map(Into::into).collect();
    perform(&words)
}

fn out(words: &[&str]) -> String {
    let outcome = done(words);
    assert_eq!(outcome.status.code(), 0, "{}", outcome.messages);
    String::from_utf8(outcome.out).expect("a text")
}

#[test]
fn books_with_groups_come_back_from_text_and_csv() {
    let mut generator = Generator::new(101);
    for _ in 0..600 {
        let (bytes, book) = grouped(&mut generator);
        for positions in [false, true] {
            let text = text::write(&book, positions);
            let read = text::read(text.as_bytes()).expect("a text").into_bytes();
            assert_eq!(read.as_deref(), Ok(bytes.as_slice()), "{text}");
        }
        let files = csv::write(&book);
        let read = csv::read([&files[0], &files[1], &files[2]].map(|it| it.as_bytes()));
        let read = read.expect("files").into_bytes();
        assert_eq!(read.as_deref(), Ok(bytes.as_slice()));
    }
}

/// The parts of every level, the credit and the state are the engine's.
#[test]
fn levels_in_their_parts() {
    let mut generator = Generator::new(102);
    let longest = books::stores::longest();
    let (mut told, mut managed, mut through) = (0, 0, 0);
    for round in 0..500 {
        let (mut bytes, _) = grouped(&mut generator);
        if round % 2 == 1 {
            Operator::new().run(&mut bytes).expect("a run");
        }
        let book = Operator::new().read(&bytes).expect("a book");
        let store = (round % 3 == 0).then_some(longest.as_slice());
        let operator = store.map_or(Operator::new(), |it| Operator::new().store(it));
        let figures = figures(store, book.date);
        for user in &book.users {
            let Ok(Level(level)) = operator.afternoon_level(&bytes, user.id) else {
                continue;
            };
            let why = why(&operator, &figures, &bytes, user.id).expect("a level");
            let why = why.expect("the engine's level and state");
            let parts: i128 = why.parts.iter().map(Part::cents).sum();
            assert_eq!(why.sum, parts + i128::from(user.charges));
            let credit = credited(&operator, &book, user).expect("a level");
            let credit = credit.expect("version 3 has credit");
            let cents: u64 = by_area(&credit.credits).into_iter().sum();
            let wanted = credit.without.saturating_sub(cents);
            assert_eq!(level, wanted.max(figures.least_level));
            told += 1;
            managed += usize::from(user.managers != [0; 3]);
            through += usize::from(!why.called_in.members.is_empty());
        }
    }
    assert!(
        told > 1_000 && managed > 300 && through > 50,
        "{told} {managed} {through}"
    );
}

/// The reductions taken apart are those of the run, and each cut is of a sale whose
/// risk the reduced user bears.
#[test]
fn runs_taken_apart() {
    let mut generator = Generator::new(103);
    let all = Extent {
        first: usize::MAX,
        last: 0,
        chapters: (usize::MAX, 0),
        most: 3_000,
    };
    let (mut reductions, mut of_members) = (0, 0);
    for _ in 0..600 {
        let (bytes, book) = grouped(&mut generator);
        let mut after = bytes.clone();
        let run = Operator::new().run(&mut after).expect("a run");
        if run.reductions > all.most {
            continue;
        }
        let mut walk = Walk::new(Operator::new(), &bytes, &book);
        while walk.advance().is_some() {}
        assert_eq!(walk.bytes, after);
        let trace = trace(Operator::new(), &TODAY, &bytes, all).expect("a run");
        assert_eq!((trace.run, trace.taken), (run, run.reductions));
        for step in &trace.first {
            assert!(step.called_in.is_flagged() || step.called_in.is_party());
            assert_eq!(step.answer.target, step.level - step.user.assigned);
            let sales = step.tiers.iter().flat_map(|tier| &tier.sales);
            let cut: u64 = sales.clone().map(|sale| u64::from(sale.cut)).sum();
            assert_eq!(cut, step.answer.mwh);
            for sale in sales {
                let of = |id: u32| bearer(&book, id, usize::from(sale.trade.area));
                assert_eq!(of(sale.trade.seller), step.user.id);
                assert_ne!(of(sale.trade.buyer), step.user.id);
                of_members += usize::from(sale.cut > 0 && sale.trade.seller != step.user.id);
            }
            for tier in &step.tiers {
                let shares: u64 = tier.sales.iter().map(|sale| sale.share).sum();
                let cut: u64 = tier.sales.iter().map(|sale| u64::from(sale.cut)).sum();
                let count = tier.sales.iter().filter(|sale| sale.remainder > 0).count();
                assert!((shares..=shares + count as u64).contains(&cut), "{step:?}");
            }
        }
        let cuts = trace.chapters.0.iter().flat_map(|it| &it.cuts);
        assert_eq!(cuts.map(|cut| cut.mwh).sum::<u64>(), run.mwh);
        reductions += run.reductions;
    }
    assert!(
        reductions > 500 && of_members > 100,
        "{reductions} {of_members}"
    );
}

/// A refused call on a book with groups has its reason, and what a cancellation tells
/// is the engine's.
#[test]
fn calls_on_books_with_groups() {
    let mut generator = Generator::new(104);
    let (mut cancelled, mut refused) = (0, 0);
    for _ in 0..300 {
        let (bytes, book) = grouped(&mut generator);
        let name = file("grouped.gdb", &bytes);
        for user in book.users.iter().take(6) {
            let id = user.id.to_string();
            for words in [["reduce", &name, &id], ["cancel", &name, &id]] {
                let outcome = done(&[&words[..], &["--json"]].concat());
                let told = String::from_utf8(outcome.out).expect("a text");
                assert!(!told.contains("\"reason\":\"\""), "{told}");
                refused += usize::from(outcome.status.code() == 1);
            }
            let Ok(found) = Operator::new().cancellation(&bytes, user.id, 65_535) else {
                continue;
            };
            let target = Operator::new()
                .reduction(&mut bytes.clone(), user.id)
                .expect("a reduction");
            let places: Vec<usize> = found.trades().collect();
            let worth = cli::cancel::worth(&book, &places);
            assert_eq!(worth - found.excess, target.target);
            cancelled += 1;
        }
        assert!(out(&["status", &name]).contains("borne by"));
    }
    assert!(cancelled > 20 && refused > 500, "{cancelled} {refused}");
}

const START: &str =
    "daybook 3\ndate 2026-03-18\nprices P 20.00 Q 21.00 L 3.00 X 1.00 I 0.50 S 18.00 U 19.00\n";

/// Three shippers and a clearing house, the line of the second as it is given.
fn with(line: &str) -> String {
    format!("{START}user 101 shipper\nuser 102 {line}\nuser 103 shipper\nuser 900 clearing-house\n")
}

#[test]
fn bad_managers() {
    let place = ":5:";
    for (line, told) in [
        (
            "shipper manager PVB 104",
            "30: user 2, id 102: manager PVB 104 is no user of the book",
        ),
        (
            "shipper manager AVB 102",
            "30: user 2, id 102: manager AVB 102 is the user itself",
        ),
        (
            "shipper manager PVB 101 TVB 900",
            "38: user 2, id 102: manager TVB 900 is a clearing house; a manager is a shipper",
        ),
        (
            "clearing-house manager PVB 101",
            "37: user 2, id 102: manager PVB 101 is given to a clearing house; shippers alone are managed",
        ),
    ] {
        let draft = text::read(with(line).as_bytes()).expect("a text");
        let refused = draft.into_bytes().expect_err("a refusal");
        let (spot, fault) = &refused.faults[0];
        assert_eq!(refused.refusal.number(), 5);
        assert_eq!(format!("{spot}: {fault}"), format!("{place}{told}"));
    }
    let chain = with("shipper manager PVB 101 TVB 103").replace(
        "user 103 shipper",
        "user 103 shipper manager PVB 102 AVB 102",
    );
    let refused = text::read(chain.as_bytes()).expect("a text").into_bytes();
    let refused = refused.expect_err("a refusal");
    let told: Vec<String> = refused.faults.iter().map(|it| it.1.to_string()).collect();
    assert_eq!(
        told,
        ["user 3, id 103: manager PVB 102 is itself managed there, by 101"]
    );
}

#[test]
fn mistakes_about_managers() {
    for (line, told) in [
        ("shipper manager", ":5:25: the area is missing"),
        ("shipper manager PVB", ":5:29: manager PVB is missing"),
        (
            "shipper manager PVB x",
            ":5:30: manager PVB is a whole number, not `x`",
        ),
        (
            "shipper manager PVB 5,000,000,000",
            ":5:30: manager PVB 5,000,000,000 is not within 1 to 4,294,967,295",
        ),
        (
            "shipper manager PVB 101 PVB 103",
            ":5:34: a second manager PVB",
        ),
        (
            "shipper boss 101",
            ":5:18: `boss`: a field is `physical`, `position`, `charges`, `assigned`, `blocked` or `manager`",
        ),
    ] {
        let mistakes = text::read(with(line).as_bytes()).expect_err("a mistake");
        assert_eq!(format!("{}: {}", mistakes[0].spot, mistakes[0].reason), told);
    }
    let none = text::read(with("shipper manager PVB none TVB 0 AVB 101").as_bytes());
    let book = none.expect("a text").book;
    assert_eq!(book.users[1].managers, [0, 0, 101]);
    let earlier = with("shipper manager PVB 101").replace("daybook 3", "daybook 2");
    let mistakes = text::read(earlier.as_bytes()).expect_err("a mistake");
    assert_eq!(
        format!("{}: {}", mistakes[0].spot, mistakes[0].reason),
        ":5:18: manager: version 2 has no place for managers; version 3 has them"
    );
}

#[test]
fn managers_of_csv_files() {
    let header = |version: &str| {
        format!("version,date,P,Q,L,X,I,S,U\n{version},2026-03-18,20,21,3,1,0.5,18,19\n")
    };
    let columns = "id,role,physical_PVB,physical_TVB,physical_AVB,charges,assigned,blocked";
    let trades = "seller,buyer,area,kind,day,notified\n";
    let users = |managers: &str, second: &str| {
        format!("{columns}{managers}\n101,shipper,0,0,0,0,0,0\n102,shipper,0,0,0,0,0,0{second}\n")
    };
    let read = |version: &str, users: &str| {
        let header = header(version);
        let files = [header.as_str(), users, trades];
        csv::read(files.map(str::as_bytes))
    };
    let managers = |version: &str, users: &str| {
        let draft = read(version, users).expect("files");
        draft.book.users[1].managers
    };
    assert_eq!(managers("3", &users("", "")), [0; 3]);
    assert_eq!(managers("3", &users(",manager_TVB", ",101")), [0, 101, 0]);
    assert_eq!(
        managers("3", &users(",manager_AVB,manager_PVB", ",101,0")),
        [0, 0, 101]
    );
    assert_eq!(managers("2", &users(",manager_PVB", ",")), [0; 3]);
    let mistakes = read("2", &users(",manager_PVB", ",0")).expect_err("a mistake");
    assert_eq!(
        format!("{}: {}", mistakes[0].spot, mistakes[0].reason),
        "/users.csv:3:25: manager_PVB: version 2 has no place for managers; version 3 has them"
    );
    let refused = read("3", &users(",manager_PVB", ",102")).expect("files");
    let refused = refused.into_bytes().expect_err("a refusal");
    assert_eq!(
        format!("{}: {}", refused.faults[0].0, refused.faults[0].1),
        "/users.csv:3:25: user 2, id 102: manager PVB 102 is the user itself"
    );
}
