//! What a day asks of people, held to the engine: deposits, levels in their parts,
//! calls that are due, many books, two books.

#![forbid(unsafe_code)]

use std::ffi::OsString;
use std::fs;
use std::path::{Path, PathBuf};

use books::{Generator, Kind};
use cli::commands::perform;
use cli::day::{deposits, standings, totals, Confirmed};
use cli::outcome::{Outcome, Status};
use cli::source::Store;
use cli::table::{rows, Found};
use cli::why::{why, Part};
use daybook::{Book, Operator, Refusal};
use daybook_text::store::figures;

const KINDS: [Kind; 4] = [Kind::Small, Kind::Chain, Kind::Midday, Kind::Usual];

/// Books of every kind, of every version.
fn books(seed: u64, each: usize) -> Vec<Vec<u8>> {
    let mut generator = Generator::new(seed);
    let kinds = KINDS.into_iter().cycle().take(each * KINDS.len());
    kinds.map(|kind| generator.book(kind)).collect()
}

fn written(book: &Book) -> Result<Vec<u8>, Refusal> {
    let mut bytes = vec![0; book.length()];
    daybook::write(book, &mut bytes)?;
    Ok(bytes)
}

fn folder(name: &str) -> PathBuf {
    let path = Path::new(env!("CARGO_TARGET_TMPDIR")).join(format!("day-{name}"));
    let _ = fs::remove_dir_all(&path);
    fs::create_dir_all(&path).expect("a folder");
    path
}

fn done(words: &[&str]) -> Outcome {
    let words: Vec<OsString> = words.iter().map(Into::into).collect();
    perform(&words)
}

fn out(outcome: &Outcome) -> String {
    String::from_utf8_lossy(&outcome.out).to_string()
}

/// Where T is deposited by each user that is short of cover and has a sale to cut,
/// a run cuts nothing; a cent less of any of them, and it does.
#[test]
fn deposits_stop_every_cut_and_nothing_less_does() {
    let (mut cut, mut beyond) = (0, 0);
    for bytes in books(71, 150) {
        let book = Operator::new().read(&bytes).expect("a book");
        let mut operator = Operator::new();
        let day = standings(&operator, &bytes, &book).expect("standings");
        let found = deposits(&operator, &book, &day);
        let run = operator.run(&mut bytes.clone()).expect("a run");
        assert_eq!(found.by_user.is_empty(), run.reductions == 0);
        match found.confirmed {
            Confirmed::Yes => cut += usize::from(run.reductions > 0),
            Confirmed::Beyond(refusal) => {
                assert_eq!(refusal, Refusal::Users);
                beyond += 1;
                continue;
            }
            Confirmed::No => panic!("a run cuts in spite of the deposits"),
        }
        for (lacking, _) in &found.by_user {
            let mut other = book.clone();
            for user in &mut other.users {
                let deposit = found.by_user.iter().find(|(id, _)| *id == user.id);
                let less = u64::from(user.id == *lacking);
                user.assigned += deposit.map_or(0, |(_, cents)| cents - less);
            }
            let mut bytes = written(&other).expect("a book");
            assert!(operator.run(&mut bytes).expect("a run").reductions > 0);
        }
    }
    println!("books that are cut {cut}, beyond a book {beyond}");
    assert!(cut > 100, "{cut}");
}

/// The parts of every level are those of the engine, with a store and without, before
/// a run and after it.
#[test]
fn levels_in_their_parts() {
    let longest = books::stores::longest();
    let (mut told, mut credited) = (0, 0);
    for (place, mut bytes) in books(72, 60).into_iter().enumerate() {
        if place % 2 == 1 {
            Operator::new().run(&mut bytes).expect("a run");
        }
        let book = Operator::new().read(&bytes).expect("a book");
        for store in [None, Some(longest.as_slice())] {
            let operator = store.map_or(Operator::new(), |it| Operator::new().store(it));
            let figures = figures(store, book.date);
            for user in &book.users {
                match why(&operator, &figures, &bytes, user.id) {
                    Ok(why) => {
                        let why = why.expect("the engine's level and state");
                        let parts: i128 = why.parts.iter().map(Part::cents).sum();
                        assert_eq!(why.sum, parts + i128::from(user.charges));
                        told += 1;
                        credited += usize::from(why.parts.iter().any(|it| it.name == "credit"));
                    }
                    Err(refusal) => {
                        let plain = operator.afternoon_level(&bytes, user.id);
                        assert_eq!(plain.err(), Some(refusal));
                    }
                }
            }
        }
    }
    assert!(told > 1_000 && credited > 100, "{told} {credited}");
}

/// All calls at once are the engine's calls one after another.
#[test]
fn calls_that_are_due() {
    let folder = folder("calls");
    let mut made = 0;
    for (place, bytes) in books(73, 40).into_iter().enumerate() {
        let file = folder.join(format!("{place}.gdb"));
        fs::write(&file, &bytes).expect("a file");
        let file = file.display().to_string();
        for morning in [true, false] {
            let when = if morning { "--morning" } else { "--afternoon" };
            let mut wanted = bytes.clone();
            let mut count = 0;
            for user in Operator::new().read(&bytes).expect("a book").users {
                let called = match morning {
                    true => Operator::new().morning_call(&mut wanted, user.id),
                    false => Operator::new().afternoon_call(&mut wanted, user.id),
                };
                count += usize::from(called.is_ok());
            }
            let outcome = done(&["calls", &file, when, "-o", "-", "--json"]);
            assert_eq!(outcome.out, wanted);
            let last = outcome.messages.lines().last().expect("a line");
            assert!(last.contains(&format!("\"calls\":{count},")), "{last}");
            made += count;
        }
    }
    assert!(made > 50, "{made}");
}

/// The rows of a folder are those of its books one by one, in their order.
#[test]
fn many_books() {
    let folder = folder("table");
    let books = books(74, 25);
    for (place, bytes) in books.iter().enumerate() {
        fs::write(folder.join(format!("{place:04}.gdb")), bytes).expect("a file");
    }
    fs::write(folder.join(".hidden"), b"x").expect("a file");
    let name = folder.display().to_string();
    let outcome = done(&["table", &name, "--json"]);
    assert_eq!(
        (outcome.status, outcome.messages.as_str()),
        (Status::Accepted, "")
    );
    assert_eq!(out(&outcome).lines().count(), books.len());
    let paths: Vec<PathBuf> = (0..books.len())
        .map(|place| folder.join(format!("{place:04}.gdb")))
        .collect();
    for (row, bytes) in rows(&paths, &Store::default()).iter().zip(&books) {
        let book = Operator::new().read(bytes).expect("a book");
        let totals = totals(&Operator::new(), bytes, &book).expect("totals");
        let (users, trades) = (book.users.len(), book.trades.len());
        let found = row.as_ref().map(|row| row.found.clone());
        let day = Found::Day(book.date, users, trades, totals);
        assert_eq!(found, Ok(day));
    }
    fs::write(folder.join("x.gdb"), b"GDB").expect("a file");
    fs::write(folder.join("y.txt"), b"daybook one\n").expect("a file");
    let outcome = done(&["table", &name, "--csv"]);
    assert_eq!(outcome.status, Status::Refused);
    let told = out(&outcome);
    assert!(told.contains("x.gdb,1,,,,"), "{told}");
    assert!(told.contains("y.txt,unread,,,,"), "{told}");
    let outcome = done(&["table", &name, "nothing.gdb"]);
    assert_eq!(outcome.status, Status::Misuse);
    assert!(outcome.messages.starts_with("nothing.gdb: cannot be read"));
    assert!(out(&outcome).ends_with("EUR\n"));
}

/// A book is no other than itself, and a changed field is told.
#[test]
fn two_books() {
    let folder = folder("compare");
    let file = |name: &str, bytes: &[u8]| {
        fs::write(folder.join(name), bytes).expect("a file");
        folder.join(name).display().to_string()
    };
    for bytes in books(75, 10) {
        let one = file("one", &bytes);
        for run in [
            &["compare", &one, &one][..],
            &["compare", &one, &one, "--run"],
        ] {
            assert_eq!(out(&done(run)), "no difference\n");
        }
        let mut book = Operator::new().read(&bytes).expect("a book");
        book.users[0].assigned += 100;
        let Ok(changed) = written(&book) else {
            continue;
        };
        let other = file("other", &changed);
        let told = out(&done(&["compare", &one, &other]));
        let id = book.users[0].id;
        assert!(told.contains(&format!("user {id}: ")), "{told}");
        assert!(told.contains("assigned "), "{told}");
        let told = out(&done(&["compare", &one, &other, "--csv"]));
        assert!(told.starts_with("about,field,before,after\n"), "{told}");
    }
}

/// What the answers say of one day, in words.
#[test]
fn a_day_in_words() {
    let sample = concat!(env!("CARGO_MANIFEST_DIR"), "/../../samples/chain.txt");
    let told = out(&done(&["status", sample]));
    assert!(told.ends_with(
        "deposit 300,000.00 EUR so that no trade is cut: 101 300,000.00\n\
         otherwise 4 reductions, 22,000 MWh cut, worth 440,000.00 EUR\n"
    ));
    let told = out(&done(&["status", sample, "--after", "--why", "103"]));
    assert!(told.contains("  called in: trade 2, 102 to 103 PVB, stands at 16,667 of 20,000 MWh\n"));
    for words in [
        &["status", sample, "--csv", "--json"][..],
        &["status", sample, "--why", "x"],
        &["calls", sample],
        &["calls", sample, "--morning", "--afternoon"],
        &["compare", sample],
    ] {
        assert_eq!(done(words).status, Status::Misuse, "{words:?}");
    }
    let outcome = done(&["status", sample, "--why", "999"]);
    assert_eq!(outcome.status, Status::Refused);
    assert!(outcome.messages.contains("refused by question 8"));
}

/// A change in words is the change of the field, positions with it; a change that
/// changes nothing leaves the bytes.
#[test]
fn changes() {
    let folder = folder("change");
    let mut kept = 0;
    for bytes in books(76, 30) {
        let one = folder.join("one");
        fs::write(&one, &bytes).expect("a file");
        let one = one.display().to_string();
        let mut book = Operator::new().read(&bytes).expect("a book");
        let id = book.users[0].id;
        let nothing = format!("user {id} assigned +0.00 physical PVB +0");
        assert_eq!(done(&["change", &one, &nothing, "-o", "-"]).out, bytes);
        let words = [
            format!("user {id} physical PVB +7 TVB +-3 assigned +2.00"),
            "prices P +0.01".to_string(),
        ];
        let outcome = done(&["change", &one, &words[0], &words[1], "-o", "-"]);
        let user = &mut book.users[0];
        for (area, more) in [(0, 7), (1, -3)] {
            user.physical[area] += more;
            user.position[area] += more;
        }
        user.assigned += 200;
        book.prices.pvb_tariff += 1;
        match written(&book) {
            Ok(wanted) => {
                assert_eq!(outcome.out, wanted);
                assert_eq!(outcome.messages.lines().count(), 4, "{}", outcome.messages);
                kept += 1;
            }
            Err(refusal) => {
                assert_eq!(outcome.status, Status::Refused);
                let number = format!("refused by question {}", refusal.number());
                assert!(outcome.messages.contains(&number), "{}", outcome.messages);
            }
        }
    }
    assert!(kept > 50, "{kept}");
    let sample = concat!(env!("CARGO_MANIFEST_DIR"), "/../../samples/chain.txt");
    for (words, told) in [
        (
            "trade 9 standing 0",
            "change:1:7: trade 9 is none of 1 to 5",
        ),
        (
            "user 7 assigned 1.00",
            "change:1:6: 7 is no user of the book",
        ),
        ("user 101 level 1.00", "change:1:10: `level`: a field is"),
        (
            "prices S 1.00",
            "change:1:8: `S`: a price is one of P, Q, L, X, I",
        ),
        ("user 101 assigned +-600,000.00", "is not within 0.00 to"),
        ("date 2026-02-30", "refused by question 4"),
        ("trade 1 standing 30,001", "refused by question 6"),
        ("users", "change:1:1: `users`: a change starts with"),
        ("", "change:1:1: a change is missing"),
        ("prices", "change:1:7: a price is missing"),
        ("user 101", "change:1:9: a field is missing"),
        ("trade 1 ", "change:1:9: a field is missing"),
        ("user 101 assigned", "change:1:18: assigned is missing"),
    ] {
        let outcome = done(&["change", sample, words]);
        assert_eq!(outcome.status, Status::Refused, "{words}");
        assert!(outcome.messages.contains(told), "{}", outcome.messages);
    }
    let outcome = done(&["change", sample, "trade 9 standing 0", "user 101 blocked x"]);
    let places: Vec<&str> = outcome.messages.lines().map(|line| &line[..11]).collect();
    assert_eq!(places, ["change:1:7:", "change:2:18", "change: wha"]);
    let outcome = done(&["change", sample, "date 2026-03-19", "-o", "-"]);
    assert_eq!(outcome.messages, "date 2026-03-18 -> 2026-03-19\n");
}
