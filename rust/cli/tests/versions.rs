//! Books of each version: the selling tariffs in text and CSV, what is said of a
//! fault by version, and the credit beside the engine's levels.

#![forbid(unsafe_code)]

use std::collections::BTreeSet;
use std::ffi::OsString;
use std::fs;

use books::{Generator, Kind};
use cli::commands::perform;
use daybook::{Level, Operator, Refusal};
use daybook_text::credit::{by_area, credited};
use daybook_text::draft::{Draft, Mistake};
use daybook_text::faults::faults;
use daybook_text::store::{figures, TODAY};
use daybook_text::words::euros;
use daybook_text::{csv, text};

const ONE: &str = "daybook 1\ndate 2026-03-18\nprices P 20.00 Q 21.00 L 3.00 X 1.00 I 0.50\n";
const TWO: &str =
    "daybook 2\ndate 2026-03-18\nprices P 20.00 Q 21.00 L 3.00 X 1.00 I 0.50 S 18.00 U 19.00\n";
const USER: &str = "user 7 shipper physical PVB 100 AVB 9 assigned 1.00\n";

/// The first mistake, as `line:column: reason`.
fn told(mistakes: &[Mistake]) -> String {
    format!("{}: {}", mistakes[0].spot, mistakes[0].reason)
}

/// The engine's number, and where the first field at fault is written.
fn refused(draft: Draft) -> (u32, String) {
    let refused = draft.into_bytes().expect_err("a refusal");
    let (spot, fault) = &refused.faults[0];
    (refused.refusal.number(), format!("{spot}: {fault}"))
}

#[test]
fn the_selling_tariffs_of_a_text() {
    let read = |text: &str| text::read(text.as_bytes());
    let bytes = |text: &str| read(text).expect("a text").into_bytes().expect("a book");
    let (one, two) = (
        bytes(&format!("{ONE}{USER}")),
        bytes(&format!("{TWO}{USER}")),
    );
    assert_eq!((one.len(), two.len()), (32 + 56, 40 + 56));
    let three = bytes(&format!("daybook 3{}{USER}", &TWO[9..]));
    assert_eq!((three.len(), &three[5..96]), (40 + 68, &two[5..]));
    assert_eq!(two[32..36], 1_800_u32.to_le_bytes());
    assert_eq!(two[36..40], 1_900_u32.to_le_bytes());
    assert_eq!((&one[..3], &one[5..32]), (&two[..3], &two[5..32]));
    assert_eq!(one[32..], two[40..]);
    for (text, reason) in [
        (
            ONE.replace("I 0.50", "I 0.50 S 18.00"),
            ":3:45: S: version 1 has no place for selling tariffs; versions 2 and 3 have S and U",
        ),
        (
            ONE.replace("P 20.00", "U 0.00 P 20.00"),
            ":3:8: U: version 1 has no place for selling tariffs; versions 2 and 3 have S and U",
        ),
        (TWO.replace(" S 18.00", ""), ":3:52: S is missing"),
        (TWO.replace(" U 19.00", ""), ":3:52: U is missing"),
        (TWO.replace("U 19.00", "S 19.00"), ":3:53: a second S"),
        (
            TWO.replace("U 19.00", "V 19.00"),
            ":3:53: `V`: a price is one of P, Q, L, X, I, S, U",
        ),
        (
            ONE.replace("I 0.50", "V 0.50"),
            ":3:38: `V`: a price is one of P, Q, L, X, I",
        ),
    ] {
        let mistakes = read(&format!("{text}{USER}")).expect_err("a mistake");
        assert_eq!((mistakes.len(), told(&mistakes)), (1, reason.to_string()));
    }
    let draft = read(&(TWO.replace("19.00", "1000.01") + USER)).expect("a text");
    let range = "U 1,000.01 EUR/MWh is not within 0.00 to 1,000.00 EUR/MWh";
    assert_eq!(refused(draft), (4, format!(":3:55: header: {range}")));
    // A version that the engine does not know is refused by it, with S and U or without.
    for start in [ONE, TWO] {
        let draft = read(&(format!("daybook 7{}", &start[9..]) + USER)).expect("a text");
        let known = ":1:1: header: version 7, the engine knows versions 1, 2 and 3";
        assert_eq!(refused(draft), (2, known.to_string()));
    }
}

#[test]
fn the_selling_tariffs_of_csv_files() {
    let users = "id,role,physical_PVB,physical_TVB,physical_AVB,charges,assigned,blocked\n\
                 7,shipper,100,0,9,0,1,0\n";
    let trades = "seller,buyer,area,kind,day,notified\n";
    let read = |header: &str| csv::read([header, users, trades].map(str::as_bytes));
    let bytes = |header: &str| read(header).expect("files").into_bytes();
    let start = "version,date,P,Q,L,X,I";
    let row = "2026-03-18,20,21,3,1,0.5";
    let text = |text: &str| text::read(text.as_bytes()).expect("a text").into_bytes();
    let (one, two) = (text(&format!("{ONE}{USER}")), text(&format!("{TWO}{USER}")));
    assert_eq!(bytes(&format!("{start}\n1,{row}\n")), one);
    assert_eq!(bytes(&format!("{start},S,U\n1,{row},,\n")), one);
    assert_eq!(bytes(&format!("{start},S,U\n2,{row},18,19\n")), two);
    assert_eq!(bytes(&format!("U,S,{start}\n19.00,18,2,{row}\n")), two);
    for (header, reason) in [
        (
            format!("{start},S,U\n1,{row},18,19\n"),
            "/header.csv:2:28: S: version 1 has no place for selling tariffs; versions 2 and 3 have S and U",
        ),
        (
            format!("{start},S,U\n1,{row},,0\n"),
            "/header.csv:2:29: U: version 1 has no place for selling tariffs; versions 2 and 3 have S and U",
        ),
        (
            format!("{start}\n2,{row}\n"),
            "/header.csv:2:1: S is missing, which version 2 has",
        ),
        (
            format!("{start},S,U\n2,{row},18,\n"),
            "/header.csv:2:31: U is missing, which version 2 has",
        ),
        (
            format!("{start},S,U\n2,{row},18,x\n"),
            "/header.csv:2:31: U is euros, as 1234.50, not `x`",
        ),
    ] {
        assert_eq!(told(&read(&header).expect_err("a mistake")), reason);
    }
    for header in [
        format!("{start}\n7,{row}\n"),
        format!("{start},S\n7,{row},18\n"),
    ] {
        let draft = read(&header).expect("files");
        let known = "/header.csv:2:1: header: version 7, the engine knows versions 1, 2 and 3";
        assert_eq!(refused(draft), (2, known.to_string()));
    }
    let header =
        |bytes: &[u8]| csv::write(&Operator::new().read(bytes).expect("a book"))[0].clone();
    let money = "20.00,21.00,3.00,1.00,0.50";
    let written = [one, two].map(|bytes| header(&bytes.expect("a book")));
    assert_eq!(written[0], format!("{start}\n1,2026-03-18,{money}\n"));
    assert_eq!(
        written[1],
        format!("{start},S,U\n2,2026-03-18,{money},18.00,19.00\n")
    );
}

/// Lengths and ranges are those of the version.
#[test]
fn faults_by_version() {
    let bytes = |text: &str| {
        let draft = text::read(format!("{text}{USER}").as_bytes()).expect("a text");
        draft.into_bytes().expect("a book")
    };
    let (one, two) = (bytes(ONE), bytes(TWO));
    let told = |bytes: &[u8]| {
        let number = Operator::new().read(bytes).expect_err("a refusal").number();
        format!("{number} {}", faults(bytes, number)[0])
    };
    let with = |bytes: &[u8], at: usize, value: &[u8]| {
        let mut changed = bytes.to_vec();
        changed[at..at + value.len()].copy_from_slice(value);
        changed
    };
    for (bytes, words) in [
        (
            two[..31].to_vec(),
            "1 header: 31 bytes, a header has at least 32",
        ),
        (
            with(&two, 3, &[4]),
            "2 header: version 4, the engine knows versions 1, 2 and 3",
        ),
        (
            with(&two, 3, &[0]),
            "2 header: version 0, the engine knows versions 1, 2 and 3",
        ),
        (
            two[..39].to_vec(),
            "3 header: 39 bytes, but a version 2 book of 1 user and 0 trades has 96 bytes",
        ),
        (
            with(&two, 3, &[1]),
            "3 header: 96 bytes, but a version 1 book of 1 user and 0 trades has 88 bytes",
        ),
        (
            with(&one, 3, &[2]),
            "3 header: 88 bytes, but a version 2 book of 1 user and 0 trades has 96 bytes",
        ),
        (
            with(&two, 3, &[3]),
            "3 header: 96 bytes, but a version 3 book of 1 user and 0 trades has 108 bytes",
        ),
        (
            with(&two, 32, &100_001_u32.to_le_bytes()),
            "4 header: S 1,000.01 EUR/MWh is not within 0.00 to 1,000.00 EUR/MWh",
        ),
        (
            with(&two, 36, &u32::MAX.to_le_bytes()),
            "4 header: U 42,949,672.95 EUR/MWh is not within 0.00 to 1,000.00 EUR/MWh",
        ),
        (
            with(&two, 45, &[9]),
            "5 user 1, id 7: byte 5 of the record is 9 instead of 0",
        ),
    ] {
        assert_eq!(told(&bytes), words);
    }
}

/// The level is the one without credit, less the credits, and at least the floor.
#[test]
fn credits_are_what_the_engine_takes_off() {
    let mut generator = Generator::new(71);
    let mut seen = BTreeSet::new();
    for _ in 0..2_000 {
        let kind = generator
            .random()
            .pick(&[Kind::Small, Kind::Credit, Kind::Chain, Kind::Midday]);
        let bytes = generator.book(kind);
        let store = generator.store(&bytes);
        let operator = match &store {
            Some(store) => Operator::new().store(store),
            None => Operator::new(),
        };
        let book = Operator::new().read(&bytes).expect("a book");
        let floor = figures(store.as_deref(), book.date).least_level;
        for user in &book.users {
            let Ok(Level(level)) = operator.afternoon_level(&bytes, user.id) else {
                continue;
            };
            let credit = credited(&operator, &book, user).expect("a level");
            assert_eq!(credit.is_some(), book.version > 1);
            let without = credit.as_ref().map_or(level, |credit| credit.without);
            let cents = credit.map_or([0; 3], |credit| by_area(&credit.credits));
            let cents: u64 = cents.into_iter().sum();
            assert_eq!(level, without.saturating_sub(cents).max(floor));
            seen.insert((book.version, cents > 0, level > floor));
        }
    }
    for above in [false, true] {
        for (version, is_credited) in [(1, false), (2, false), (2, true), (3, false), (3, true)] {
            let kind = (version, is_credited, above);
            assert!(seen.contains(&kind), "{kind:?} of {seen:?}");
        }
    }
}

fn sample(name: &str) -> String {
    format!("{}/../../samples/{name}", env!("CARGO_MANIFEST_DIR"))
}

fn done(words: &str) -> String {
    let words: Vec<OsString> = words.split(' ').map(OsString::from).collect();
    let outcome = perform(&words);
    assert_eq!(outcome.status.code(), 0, "{}", outcome.messages);
    String::from_utf8(outcome.out).expect("a text")
}

/// The sample of version 2: its bytes and its text are one book, and its credit
/// stands in every answer.
#[test]
fn the_sample_of_version_2() {
    let bytes = fs::read(sample("credit.gdb")).expect("a sample");
    let written = fs::read(sample("credit.txt")).expect("a sample");
    let read = text::read(&written).expect("a text").into_bytes();
    assert_eq!(read.as_deref(), Ok(bytes.as_slice()));
    let book = Operator::new().read(&bytes).expect("a book");
    assert_eq!(book.version, 2);
    let file = sample("credit.gdb");
    let level = done(&format!("level {file} 201"));
    assert_eq!(
        level,
        "201: morning level 1,260,000.00 EUR, afternoon level 1,165,000.00 EUR\n  \
         credit TVB 5,000 MWh long x U 19.00 = 95,000.00 EUR\n"
    );
    let object = done(&format!("level {file} 201 --json"));
    assert!(object.ends_with("\"credit_cents\":[0,9500000,0]}\n"));
    let explained = done(&format!("explain {file}"));
    assert!(explained.contains(
        "  level without credit 1,260,000.00 EUR\n  \
         credit TVB 5,000 MWh long x U 19.00 = 95,000.00 EUR\n  \
         afternoon level 1,165,000.00 - assigned 1,000,000.00 = target T 165,000.00 EUR\n"
    ));
    let object = done(&format!("explain {file} --json"));
    let cents = "\"level_without_credit_cents\":126000000,\"credit_cents\":[0,9500000,0],";
    assert!(object.contains(cents), "{object}");
    let page = done(&format!("report {file} -o -"));
    assert!(page.contains(
        "<th scope=\"col\">level</th><th scope=\"col\">credit</th><th scope=\"col\">assigned</th>"
    ));
    assert!(page.contains("<td>95,000.00</td>"));
    assert!(page.contains("I 0.50, S 18.00, U 19.00. Level"));
    assert!(page.contains("at S in PVB and at U in TVB and AVB"));
    let old = done(&format!("report {} -o -", sample("tiers.txt")));
    assert!(!old.contains("credit") && old.contains("I 0.50. Level"));
    assert!(!done(&format!("explain {}", sample("tiers.txt"))).contains("credit"));
}

/// A user who is long nowhere has no credit, and a level at the floor says so.
#[test]
fn no_credit_and_the_floor() {
    let explained = |line: &str| {
        let text = format!(
            "{TWO}user 1 shipper {line}\nuser 2 shipper\ntrade 1 to 2 PVB bilateral d 40,000\n"
        );
        let bytes = text::read(text.as_bytes()).expect("a text").into_bytes();
        let file = std::path::Path::new(env!("CARGO_TARGET_TMPDIR")).join("credit.gdb");
        fs::write(&file, bytes.expect("a book")).expect("a file");
        done(&format!("explain {}", file.display()))
    };
    let told = explained("assigned 500,000.00");
    assert!(
        told.contains("  no credit: it is long in no area\n"),
        "{told}"
    );
    let least = euros(TODAY.least_level);
    for (mwh, credit) in [("90,000", "1,710,000.00"), ("40,000", "760,000.00")] {
        let told = explained(&format!("physical AVB {mwh} charges -10,000.00"));
        let floor = format!(
            "  level without credit 790,000.00 EUR\n  \
             credit AVB {mwh} MWh long x U 19.00 = {credit} EUR\n  \
             a level is at least {least} EUR\n  \
             afternoon level {least} - assigned 0.00"
        );
        assert!(told.contains(&floor), "{told}");
    }
}

/// The engine refuses by the number, whatever the version is.
#[test]
fn an_unknown_version_is_question_2() {
    let bytes = fs::read(sample("credit.gdb")).expect("a sample");
    for version in [0_u16, 4, 0xFFFF] {
        let mut changed = bytes.clone();
        changed[3..5].copy_from_slice(&version.to_le_bytes());
        assert_eq!(Operator::new().read(&changed), Err(Refusal::Version));
        assert_eq!(faults(&changed, 2).len(), 1);
    }
}
