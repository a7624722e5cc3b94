//! `daybook convert`: books between versions, and what a lower one has no place for.

#![forbid(unsafe_code)]

mod shell;

use std::fs;

use books::{Generator, Kind};
use cli::convert::lost;
use daybook::{Operator, Refusal, Version};
use shell::Folder;

/// A folder with a book of each version as text: `1.txt`, `2.txt` and `3.txt`.
fn folder(name: &str) -> Folder {
    let folder = Folder::new(name);
    for (sample, version) in [("tiers", 1), ("credit", 2), ("group", 3)] {
        let samples = concat!(env!("CARGO_MANIFEST_DIR"), "/../../samples");
        let text = fs::read(format!("{samples}/{sample}.txt")).expect("a sample");
        fs::write(folder.0.join(format!("{version}.txt")), text).expect("a file");
        let line = format!("daybook book {version}.txt -o {version}.gdb");
        assert_eq!(folder.shell(&line).0, 0);
    }
    folder
}

#[test]
fn up_and_back() {
    let folder = folder("convert");
    let quiet = (0, String::new(), String::new());
    for from in 1..=3 {
        for to in from..=3 {
            for line in [
                format!("daybook convert {from}.gdb --to {to} -o up"),
                format!("daybook convert up --to {from} -o - | cmp {from}.gdb"),
                format!("daybook convert {from}.txt --to={to} -o - | cmp up"),
                format!("daybook convert - --to {to} -o - <{from}.gdb | cmp up; rm up"),
            ] {
                assert_eq!(folder.shell(&line), quiet, "{line}");
            }
        }
    }
    // Over the book itself, and back.
    for line in [
        "cp 1.gdb first; daybook convert 1.gdb --to 3 -o 1.gdb --force",
        "daybook check 1.gdb | grep -q 'accepted: version 3, '",
        "daybook convert 1.gdb --to 1 -o 1.gdb --force; cmp 1.gdb first",
    ] {
        assert_eq!(folder.shell(line), quiet, "{line}");
    }
}

/// What would be lost is told, each field with the change that drops it.
#[test]
fn lost_information() {
    let folder = folder("convert-lost");
    let question = Refusal::InformationLost.question();
    let advice = "and its answers may then be others";
    for (words, told) in [
        (
            "2.gdb --to 1",
            format!(
                "2.gdb: refused by question 21: {question}\n\
                 2.gdb: header: S 18.00 EUR/MWh would be lost\n\
                 2.gdb: header: U 19.00 EUR/MWh would be lost\n\
                 2.gdb: what to do: `daybook change 2.gdb 'prices S 0.00' 'prices U 0.00' -o FILE` drops them, \
                 {advice}\n"
            ),
        ),
        (
            "3.gdb --to 2",
            format!(
                "3.gdb: refused by question 21: {question}\n\
                 3.gdb: user 4, id 204: manager PVB 201 would be lost\n\
                 3.gdb: what to do: `daybook change 3.gdb 'user 204 manager PVB none' -o FILE` drops it, \
                 {advice}\n"
            ),
        ),
        (
            "3.txt --to 1",
            format!(
                "3.txt: refused by question 21: {question}\n\
                 3.txt: header: S 18.00 EUR/MWh would be lost\n\
                 3.txt: header: U 19.00 EUR/MWh would be lost\n\
                 3.txt: user 4, id 204: manager PVB 201 would be lost\n\
                 3.txt: what to do: `daybook change BOOK 'prices S 0.00' 'prices U 0.00' \
                 'user 204 manager PVB none' -o FILE` drops them, {advice}\n"
            ),
        ),
    ] {
        let line = format!("daybook convert {words} -o x");
        assert_eq!(folder.shell(&line), (1, String::new(), told), "{line}");
        assert!(!folder.names().contains(&"x".to_string()));
    }
    // The change that is told lets the conversion pass.
    let line = "daybook change 3.gdb 'prices S 0.00' 'prices U 0.00' 'user 204 manager PVB none' \
                -o - 2>/dev/null | daybook convert - --to 1 -o - | daybook check -";
    let (status, out, _) = folder.shell(line);
    assert_eq!(status, 0);
    assert_eq!(
        out,
        "standard input: accepted: 2026-03-18, 4 users, 6 trades\n"
    );
}

#[test]
fn other_refusals() {
    let folder = folder("convert-refused");
    fs::write(folder.0.join("kept"), b"kept").expect("a file");
    for (words, status, told) in [
        ("1.gdb --to 4 -o x", 1, "1.gdb: refused by question 23: "),
        (
            "1.gdb --to 65537 -o x",
            1,
            "1.gdb: version 65537, the engine knows versions 1, 2 and 3",
        ),
        ("2.gdb --to 0 -o x", 1, "2.gdb: refused by question 23: "),
        (
            "1.gdb --to three -o x",
            2,
            "--to three: needs a whole number",
        ),
        (
            "1.gdb -o x",
            2,
            "usage: daybook convert BOOK --to VERSION -o",
        ),
        (
            "1.gdb --to 2",
            2,
            "usage: daybook convert BOOK --to VERSION -o",
        ),
        ("1.gdb --to 2 -o kept", 2, "kept: is there already"),
        ("kept --to 7 -o x", 1, "kept: refused by question 1: "),
        ("none --to 2 -o x", 2, "none: cannot be read"),
    ] {
        let (ended, out, messages) = folder.shell(&format!("daybook convert {words}"));
        assert_eq!((ended, out.as_str()), (status, ""), "{words}: {messages}");
        assert!(messages.contains(told), "{words}: {messages}");
        assert_eq!(folder.bytes("kept"), b"kept", "{words}");
        assert!(!folder.names().contains(&"x".to_string()), "{words}");
    }
}

/// A field is told as lost exactly where the engine refuses with 21; the unknown
/// version is 23 as the engine says.
#[test]
fn lost_fields_are_the_engines() {
    let mut generator = Generator::new(73);
    let mut refused = 0;
    for kind in Kind::ACCEPTED {
        for _ in 0..40 {
            let bytes = generator.book(kind);
            let book = Operator::new().read(&bytes).expect("a book");
            for version in Version::ALL {
                let found = lost(&book, version.number());
                match Operator::new().convert(&bytes, version) {
                    Ok(_) => assert_eq!(found, []),
                    Err(refusal) => {
                        assert_eq!(refusal, Refusal::InformationLost);
                        assert!(!found.is_empty());
                        refused += 1;
                    }
                }
            }
            let mut part = [0; daybook::IMAGE_LENGTH];
            for version in [0, 4, 65_537] {
                let number = daybook::archive::convert(
                    &bytes,
                    daybook::archive::OPERATOR,
                    version,
                    &mut part,
                );
                assert_eq!(number, Refusal::TargetVersion.number());
            }
        }
    }
    assert!(refused > 100, "{refused}");
}
