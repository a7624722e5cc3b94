//! `--as`, `flag` and `trades`: what a shipper is told, and what it is not.

#![forbid(unsafe_code)]

use std::ffi::OsString;
use std::fs;
use std::path::{Path, PathBuf};

use books::Generator;
use cli::commands::perform;
use daybook::{Book, Level, Operator, Shipper};

const BOOKS: usize = 60;

/// Standard output, standard error and the status of a command line.
fn done(words: &[&str]) -> (String, String, u8) {
    let words: Vec<OsString> = words.iter().map(OsString::from).collect();
    let outcome = perform(&words);
    let out = String::from_utf8(outcome.out).expect("text");
    (out, outcome.messages, outcome.status.code())
}

fn folder(name: &str) -> PathBuf {
    let folder = Path::new(env!("CARGO_TARGET_TMPDIR")).join(name);
    let _ = fs::remove_dir_all(&folder);
    fs::create_dir_all(&folder).expect("a folder");
    folder
}

/// Accepted books of each version, most of version 3 with groups, as files.
fn each_book(name: &str, mut look: impl FnMut(&str, &[u8], &Book)) {
    let path = folder(name).join("book");
    let shown = path.display().to_string();
    let mut generator = Generator::new(91);
    let mut looked = 0;
    while looked < BOOKS {
        let bytes = generator.any_book();
        if let Ok(book) = Operator::new().read(&bytes) {
            fs::write(&path, &bytes).expect("a book");
            look(&shown, &bytes, &book);
            looked += 1;
        }
    }
}

#[test]
fn a_shipper_is_told_what_its_calls_answer() {
    each_book("told", |file, bytes, book| {
        for user in book.users.iter().filter(|user| user.role == 0).take(6) {
            let (shipper, id) = (Shipper::new(user.id), user.id.to_string());
            let words = |command| [command, file, "--as", &id];
            let flagged = shipper.flag(bytes).expect("a shipper");
            let told = if flagged { "flagged" } else { "not flagged" };
            assert_eq!(done(&words("flag")).0, format!("{id}: {told}\n"));
            assert_eq!(done(&["flag", file, &id]), done(&words("flag")));
            assert_eq!(done(&["show", file, &id]), done(&words("show")));
            assert_eq!(done(&["trades", file, &id]), done(&words("trades")));

            let (out, messages, status) = done(&["level", file, "--as", &id, "--json"]);
            let Level(morning) = shipper.morning_level(bytes).expect("a level");
            let Level(afternoon) = shipper.afternoon_level(bytes).expect("a level");
            let object = format!(
                "{{\"book\":\"{file}\",\"number\":0,\"id\":{id},\"morning_cents\":{morning},\
                 \"afternoon_cents\":{afternoon}}}\n"
            );
            assert_eq!((out, messages.as_str(), status), (object, "", 0));

            let trades = shipper.trades(bytes).expect("trades");
            let (out, ..) = done(&["trades", file, "--as", &id, "--json"]);
            assert_eq!(out.lines().count(), 1 + trades.len());
            assert!(out.starts_with(&format!(
                "{{\"book\":\"{file}\",\"number\":0,\"id\":{id},\"trades\":{}}}\n",
                trades.len()
            )));
            for (line, trade) in out.lines().skip(1).zip(&trades) {
                let parties = format!("\"seller\":{},\"buyer\":{},", trade.seller, trade.buyer);
                assert!(line.contains(&parties), "{line}");
                assert!(line.ends_with(&format!("\"standing_mwh\":{}}}", trade.standing)));
            }
            let (out, ..) = done(&["trades", file, "--as", &id, "--csv"]);
            assert_eq!(out.lines().count(), 1 + trades.len());
            assert!(out.starts_with("number,id,ordinal,seller,buyer,area,kind,day,"));
        }
    });
}

/// Whoever is no shipper of the book, and whoever asks for another.
#[test]
fn others_are_told_the_two_ids_and_the_question() {
    each_book("others", |file, _, book| {
        let Some(shipper) = book.users.iter().find(|user| user.role == 0) else {
            return;
        };
        let house = book.users.iter().find(|user| user.role == 1);
        let nobody = (1..).find(|id| book.users.iter().all(|user| user.id != *id));
        let nobody = nobody.expect("an id");
        let house = house.map_or(nobody, |user| user.id);
        for command in ["show", "level", "flag", "trades"] {
            for (party, id) in [
                (nobody, nobody),
                (house, house),
                (0, 0),
                (shipper.id, nobody),
                (shipper.id, house),
                (nobody, shipper.id),
            ] {
                let (asked, acts) = (id.to_string(), party.to_string());
                let (out, messages, status) = done(&[command, file, &asked, "--as", &acts]);
                let reason = match party == id {
                    true => format!("{party} is no shipper of the book"),
                    false => {
                        format!("a shipper is told of itself alone, and {party} asks for {id}")
                    }
                };
                let question = "refused by question 26: may the party make this call?";
                let advice = cli::advice::of_party(party, id);
                let told =
                    format!("{file}: {question}\n{file}: {reason}\n{file}: what to do: {advice}\n");
                assert_eq!((out.as_str(), messages, status), ("", told, 1));
                let words = [command, file, &asked, "--as", &acts, "--json"];
                let (out, messages, _) = done(&words);
                let start = format!("{{\"book\":\"{file}\",\"number\":26,\"id\":{id},");
                assert!(out.starts_with(&start), "{out}");
                assert_eq!((out.lines().count(), messages.as_str()), (1, ""));
            }
        }
    });
}

/// Of a refused book a shipper is told the question and no field, of a text that cannot
/// be read that it cannot.
#[test]
fn no_field_at_fault_is_told_to_a_shipper() {
    let folder = folder("faults");
    let samples = Path::new(env!("CARGO_MANIFEST_DIR")).join("../../samples");
    let refused = samples.join("refused.txt").display().to_string();
    let (_, faults, status) = done(&["show", &refused, "101"]);
    assert!((faults.lines().count(), status) > (1, 0), "{faults}");
    for command in ["show", "level", "flag", "trades"] {
        let (out, messages, status) = done(&[command, &refused, "--as", "101"]);
        let question = "refused by question 5: every user field valid, managers too, positions \
                        apart?";
        let advice = "what to do: tell the operator, who holds the book";
        let told = format!("{refused}: {question}\n{refused}: {advice}\n");
        assert_eq!((out.as_str(), messages, status), ("", told, 1));
        let (out, ..) = done(&[command, &refused, "--as", "101", "--json"]);
        assert!(
            out.contains("\"number\":5,") && !out.contains("faults"),
            "{out}"
        );
    }
    let text = folder.join("book.txt").display().to_string();
    fs::write(&text, "daybook 1\nuser 101 secret 5\n").expect("a text");
    let (_, messages, _) = done(&["flag", &text]);
    assert!(messages.contains("secret"), "{messages}");
    for more in [&[][..], &["--json"]] {
        let words = ["flag", &text, "--as", "101"];
        let (out, messages, status) = done(&[&words[..], more].concat());
        assert!(!(out + &messages).contains("secret"));
        assert_eq!(status, 1);
    }
    let (_, messages, _) = done(&["flag", &text, "--as", "101"]);
    let advice = "what to do: tell the operator, who holds the book";
    assert_eq!(
        messages,
        format!("{text}: cannot be read\n{text}: {advice}\n")
    );
}

#[test]
fn what_goes_with_as() {
    let samples = Path::new(env!("CARGO_MANIFEST_DIR")).join("../../samples");
    let book = samples.join("day.gdb").display().to_string();
    for words in [
        &["trades", &book][..],
        &["trades", &book, "101", "102"],
        &["flag", &book, "--as", "x"],
        &["flag", &book, "--as", "4294967296"],
        &["flag", &book, "--as"],
        &["run", &book, "--as", "101"],
        &["warn", &book, "--as", "101"],
        &["post", &book, "101", "PVB", "1", "--as", "101"],
        &["check", &book, "--as", "101"],
    ] {
        let (out, messages, status) = done(words);
        assert_eq!((out.as_str(), status), ("", 2), "{words:?}");
        assert!(!messages.is_empty());
    }
    let store = samples.join("parameters.txt").display().to_string();
    let words = ["level", &book, "--as", "102", "--store", &store];
    assert_eq!(
        done(&words).0,
        done(&["level", &book, "102", "--store", &store]).0
    );
}
