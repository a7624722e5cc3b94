//! A book in its other forms and back: text and CSV give the same book, and what
//! cannot be read is told with its line and column.

#![forbid(unsafe_code)]

use std::collections::BTreeSet;

use books::{Generator, Kind};
use daybook_text::draft::Mistake;
use daybook_text::{csv, text};

/// Accepted books of every kind.
fn accepted(seed: u64, of_each: usize) -> Vec<Vec<u8>> {
    let mut generator = Generator::new(seed);
    let kinds = Kind::ACCEPTED.into_iter();
    kinds
        .flat_map(|kind| (0..of_each).map(move |_| kind))
        .map(|kind| generator.book(kind))
        .collect()
}

fn from_text(text: &str) -> Vec<u8> {
    let draft = text::read(text.as_bytes()).expect("a text");
    draft.into_bytes().expect("an accepted book")
}

#[test]
fn book_to_text_to_book_and_back() {
    let mut versions = BTreeSet::new();
    for bytes in accepted(31, 40) {
        let book = daybook::Operator::new()
            .read(&bytes)
            .expect("an accepted book");
        versions.insert(book.version);
        for positions in [false, true] {
            let written = text::write(&book, positions);
            assert!(text::is_text(written.as_bytes()));
            let read = from_text(&written);
            assert_eq!(read, bytes, "{written}");
            let again = text::write(
                &daybook::Operator::new().read(&read).expect("a book"),
                positions,
            );
            assert_eq!(again, written);
        }
    }
    assert_eq!(versions, BTreeSet::from([1, 2, 3]));
}

#[test]
fn book_to_csv_to_book_and_back() {
    for bytes in accepted(32, 40) {
        let book = daybook::Operator::new()
            .read(&bytes)
            .expect("an accepted book");
        let files = csv::write(&book);
        for changed in [files.clone(), files.clone().map(|file| spanish(&file))] {
            let [header, users, trades] = changed.each_ref().map(String::as_bytes);
            let draft = csv::read([header, users, trades]).expect("three files");
            assert_eq!(draft.into_bytes().as_deref(), Ok(bytes.as_slice()));
        }
        assert_eq!(csv::write(&book), files);
    }
}

/// What a Spanish spreadsheet writes: semicolons, decimal commas, a mark before
/// the text, lines that end in two characters, zeros at the end dropped.
fn spanish(file: &str) -> String {
    let file = file
        .replace(',', ";")
        .replace(".00", "")
        .replace(".50", ",5");
    let file = file.replace('.', ",").replace('\n', "\r\n");
    format!("\u{feff}{file}")
}

#[test]
fn comments_blanks_and_fields_left_out() {
    let written = from_text(
        "# a comment\n\n  daybook 1 # one\r\nprices I 0.50 X 1.00 L 3.00 Q 21.00 P 20.00\n\
         user 7 Shipper\n\tuser 1,008 clearing-house position pvb 500 charges -0.01\n\
         trade 7 to 1008 pvb Platform d 500\ndate 2024-02-29",
    );
    let book = daybook::Operator::new().read(&written).expect("a book");
    assert_eq!(book.date, 20_240_229);
    assert_eq!(book.prices.pvb_tariff, 2_000);
    assert_eq!(book.users[0].position, [-500, 0, 0]);
    assert_eq!((book.users[1].id, book.users[1].charges), (1_008, -1));
    assert_eq!(book.trades[0].standing, 500);
}

/// The mistakes of a text, as `line:column: reason`.
fn mistakes(text: &[u8]) -> Vec<String> {
    let shown = |it: &Mistake| format!("{}: {}", it.spot, it.reason);
    text::read(text)
        .expect_err("mistakes")
        .iter()
        .map(shown)
        .collect()
}

const START: &str = "daybook 1\ndate 2026-03-18\nprices P 20.00 Q 21.00 L 3.00 X 1.00 I 0.50\n";

#[test]
fn mistakes_are_told_with_line_and_column() {
    for (line, told) in [
        ("user x shipper", ":4:6: the id is a whole number, not `x`"),
        ("user", ":4:5: the id is missing"),
        ("user 1", ":4:7: the role is missing"),
        (
            "user 4294967296 shipper",
            ":4:6: the id 4294967296 is not within 1 to 4,294,967,295",
        ),
        (
            "  user -1 shipper",
            ":4:8: the id -1 is not within 1 to 4,294,967,295",
        ),
        (
            "user 1 buyer",
            ":4:8: the role is one of shipper, clearing-house, not `buyer`",
        ),
        ("user 1 shipper physical", ":4:24: the area is missing"),
        (
            "user 1 shipper physical 5",
            ":4:25: the area is one of PVB, TVB, AVB, not `5`",
        ),
        (
            "user 1 shipper physical PVB",
            ":4:28: physical PVB is missing",
        ),
        (
            "user 1 shipper physical PVB 1 PVB 2",
            ":4:31: a second physical PVB",
        ),
        (
            "user 1 shipper physical PVB 1.5",
            ":4:29: physical PVB is a whole number, not `1.5`",
        ),
        (
            "user 1 shipper blocked 12",
            ":4:24: blocked is euros with two decimals, as 1,234.50, not `12`",
        ),
        (
            "user 1 shipper blocked 1.00 blocked 1.00",
            ":4:29: a second blocked",
        ),
        (
            "user 1 shipper ä x",
            ":4:16: `ä`: a field is `physical`, `position`, `charges`, `assigned` or `blocked`",
        ),
        ("trade 1 2", ":4:9: `2` instead of `to`"),
        (
            "trade 1 to 2 PVB bilateral d 5 stands 4",
            ":4:32: `stands` instead of `standing`",
        ),
        (
            "trade 1 to 2 PVB bilateral d 5 standing 4 x",
            ":4:43: `x` after the line's end",
        ),
        (
            "trade 1 to 2 PVB bilateral d+2 5",
            ":4:28: the day is one of d, d+1, not `d+2`",
        ),
        ("date 2026-03-19", ":4:1: a second line `date`"),
        ("prices P 1.00", ":4:1: a second line `prices`"),
        (
            "sale 1 to 2",
            ":4:1: `sale`: a line starts with `date`, `prices`, `user` or `trade`",
        ),
    ] {
        assert_eq!(
            mistakes(format!("{START}{line}\n").as_bytes()),
            [told],
            "{line}"
        );
    }
    for (text, told) in [
        ("", ":1:1: the text has no line `daybook`"),
        (
            "user 1 shipper",
            ":1:1: a text starts with the line `daybook 1`, `daybook 2` or `daybook 3`",
        ),
        ("daybook 1\nprices P 20.00\n", ":2:15: Q is missing"),
        ("daybook 1\nprices P 20.00 P 1.00\n", ":2:16: a second P"),
        (
            "daybook 1\nprices R 20.00\n",
            ":2:8: `R`: a price is one of P, Q, L, X, I",
        ),
        (
            "daybook 1\ndate 18.3.2026\n",
            ":2:6: the date is written as 2026-03-18, not `18.3.2026`",
        ),
        (
            "daybook 70000\n",
            ":1:9: the version 70000 is not within 1 to 3",
        ),
    ] {
        assert_eq!(mistakes(text.as_bytes())[0], told, "{text}");
    }
    assert_eq!(
        mistakes(b"daybook 1\n# \xff"),
        [":2:3: the text is not in UTF-8 here"]
    );
}

#[test]
fn every_line_with_a_mistake_is_told_up_to_twenty() {
    let lines = "user x shipper\n".repeat(3) + "user 1 shipper\n" + &"trade\n".repeat(30);
    let told = mistakes(format!("{START}{lines}").as_bytes());
    assert_eq!(told.len(), 20);
    assert_eq!(told[3], ":8:6: the seller's id is missing");
}

/// The engine's number, and where the field at fault is written.
fn refused(text: &str) -> (u32, String) {
    let refused = text::read(text.as_bytes()).expect("a text").into_bytes();
    let refused = refused.expect_err("a refusal");
    let (spot, fault) = &refused.faults[0];
    (refused.refusal.number(), format!("{spot}: {fault}"))
}

#[test]
fn refusals_are_told_with_line_and_column() {
    let users = "user 1 shipper assigned 1.00\nuser 2 shipper\n";
    for (text, number, told) in [
        (START.replace("daybook 1", "daybook 4") + users, 2, ":1:1: header: version 4, the engine knows versions 1, 2 and 3"),
        (START.to_string(), 3, ":1:1: header: 0 users, a book has 1 to 64"),
        (START.replace("03-18", "02-30") + users, 4, ":2:1: header: date 2026-02-30 is no day, its month has 28"),
        (START.replace("X 1.00", "X 1000.01") + users, 4, ":3:33: header: X 1,000.01 EUR/MWh is not within 0.00 to 1,000.00 EUR/MWh"),
        (format!("{START}{users}user 2 shipper\n"), 5, ":6:6: user 3, id 2: the id of user 2, in line 5"),
        (format!("{START}user 1 shipper assigned 1.00 blocked 1.01\n"), 5, ":4:38: user 1, id 1: blocked 1.01 EUR exceeds assigned 1.00 EUR"),
        (format!("{START}{users}trade 1 to 3 PVB bilateral d 5\n"), 6, ":6:12: trade 1, 1 to 3: buyer 3 is no user of the book"),
        (format!("{START}{users}trade 1 to 2 PVB platform d 5 standing 4\n"), 6, ":6:40: trade 1, 1 to 2: standing 4 MWh is below notified 5 MWh, and only a bilateral trade for d may"),
        (format!("{START}user 1 shipper position TVB 5\n"), 7, ":4:29: user 1, id 1: position TVB 5 MWh is not 0 = 0 physical + 0 bought - 0 sold for d"),
    ] {
        assert_eq!(refused(&text), (number, told.to_string()));
    }
    let many: String = (1..=70).map(|id| format!("user {id} shipper\n")).collect();
    let told = ":68:1: header: 70 users, a book has 1 to 64";
    assert_eq!(refused(&format!("{START}{many}")), (3, told.to_string()));
}

/// The seven samples: six accepted, one refused, each with a line about it; a
/// text loses nothing but its comments and blanks.
#[test]
fn the_samples() {
    for (name, number) in [
        ("quiet", 0),
        ("call", 0),
        ("reduction", 0),
        ("chain", 0),
        ("tiers", 0),
        ("credit", 0),
        ("refused", 5),
    ] {
        let path = format!("{}/../../samples/{name}.txt", env!("CARGO_MANIFEST_DIR"));
        let sample = std::fs::read_to_string(path).expect("a sample");
        assert!(sample.starts_with("# "));
        let made = text::read(sample.as_bytes()).expect("a text").into_bytes();
        let made = match made {
            Err(refused) => {
                assert_eq!(refused.refusal.number(), number, "{name}");
                continue;
            }
            Ok(made) => made,
        };
        assert_eq!(number, 0, "{name}");
        let words = |text: &str| -> Vec<String> {
            let lines = text
                .lines()
                .map(|line| line.split('#').next().unwrap_or(""));
            let words = lines.flat_map(str::split_whitespace).map(str::to_string);
            words.collect()
        };
        let written = text::write(
            &daybook::Operator::new().read(&made).expect("a book"),
            false,
        );
        assert_eq!(words(&written), words(&sample), "{name}");
    }
}

/// The seconds of processor that this thread has had, so that other work on the
/// machine does not count.
fn processor() -> f64 {
    let told = std::fs::read_to_string("/proc/thread-self/schedstat").unwrap_or_default();
    let nanoseconds = told.split(' ').next().and_then(|word| word.parse().ok());
    nanoseconds.unwrap_or(0.0) / 1e9
}

/// The longest texts are read quickly, and longer ones are not read.
#[test]
fn long_texts_are_read_quickly() {
    let users: String = (1..=160_000)
        .map(|id| format!("user {id} shipper physical PVB 1 assigned 1.00 blocked 1.00\n"))
        .collect();
    let trades: String = "trade 1 to 2 PVB bilateral d 5\n".repeat(60_000);
    let text = format!("{START}{users}{trades}");
    assert!(text.len() > 10_000_000);
    let one_line = format!(
        "{START}user 1 shipper {}",
        "physical PVB 1 ".repeat(700_000)
    );
    let blanks = format!(
        "{START}user 1 shipper{}assigned 1.00",
        " ".repeat(10_000_000)
    );
    for text in [
        text,
        one_line,
        blanks,
        " ".repeat(10_000_000),
        "\n".repeat(10_000_000),
        "#\n".repeat(5_000_000),
    ] {
        for text in [&text[..daybook_text::draft::LONGEST], &text] {
            let start = processor();
            drop(text::read(text.as_bytes()).map(daybook_text::draft::Draft::into_bytes));
            let between = processor();
            assert!(csv::read([text.as_bytes(); 3]).is_err());
            let spent = (between - start, processor() - between);
            assert!(spent.0 < 1.0 && spent.1 < 1.0, "{spent:?}");
        }
    }
}
