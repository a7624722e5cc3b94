//! The program measures every book; the two sides have to agree on the book
//! after each call.

#![forbid(unsafe_code)]

use std::process::{Command, Output};

fn bench(arguments: &[&str]) -> Output {
    Command::new(env!("CARGO_BIN_EXE_daybook-bench"))
        .args(arguments)
        .output()
        .expect("program")
}

#[test]
fn every_book_is_measured() {
    let arguments = "--samples 1 --batch 1 --hard-samples 1 --hard-mwh 3";
    let output = bench(&arguments.split(' ').collect::<Vec<&str>>());
    assert!(output.status.success());
    let text = String::from_utf8(output.stdout).expect("text");
    for word in [
        "small book, version 1",
        "usual book, version 1",
        "largest book, version 1",
        "wide book, version 1",
        "small book, version 2",
        "usual book, version 2",
        "largest book, version 2",
        "wide book, version 2",
        "small book, versions 2 and 3",
        "usual book, versions 2 and 3",
        "largest book, versions 2 and 3",
        "runs of hard books, version 1",
        "runs of hard books, version 2",
        "cancellation, tries: 100",
        "one-seller",
        "many-sellers",
        "chain",
        "two-sellers",
        "crawler",
        "to-and-fro",
        "widest",
        "rising",
        "list of 512 lines",
        "a list of 512 lines takes the time of",
        "cancellation, 65535",
        "largest book, version 1: field-wise form",
        "largest book, version 2: field-wise form",
        "largest book, version 3: field-wise form",
        "restore by a loop in Rust",
        "largest book, version 1: conversions",
        "largest book, version 2: conversions",
        "largest book, version 3: conversions",
        "conversion into version 1",
        "conversion into version 3",
        "largest book, version 1: queries of a shipper",
        "largest book, version 3: queries of a shipper",
        "last trade, by the shipper",
        "levels of all users, refused",
        "largest book, version 1: questions 1 to 7 beside the limit",
        "largest book, version 3: questions 1 to 7 beside the limit",
    ] {
        assert!(text.contains(word), "{word} in\n{text}");
    }
}

#[test]
fn wrong_words_are_refused() {
    for arguments in [
        &["--help"][..],
        &["--books", "none"],
        &["--samples", "0"],
        &["--hard-mwh", "100,100001"],
        &["--versions", "4"],
        &["--slow", "1"],
    ] {
        let output = bench(arguments);
        assert_eq!(output.status.code(), Some(2), "{arguments:?}");
        let text = String::from_utf8(output.stderr).expect("text");
        assert!(text.contains("usage: daybook-bench"), "{text}");
    }
}
