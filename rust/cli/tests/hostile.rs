//! Hostile texts, CSV files, stores and balances: any input is read or told what is wrong with it,
//! without a panic, and what is accepted is the same book again.
//!
//! DAYBOOK_INPUTS is how many inputs of each form are tried (20,000 where it is
//! not said), DAYBOOK_SEED where they start.

#![forbid(unsafe_code)]

use std::env;

use books::{Generator, Kind, Random};
use cli::parameters;
use cli::source::{verdict, Given, Verdict};
use daybook::Book;
use daybook_text::csv::Style;
use daybook_text::draft::{Mistake, Refused, Spot, MOST_MISTAKES};
use daybook_text::{csv, text};

fn setting(name: &str, else_this: u64) -> u64 {
    env::var(name).map_or(else_this, |value| value.parse().expect("a number"))
}

/// Words that a text or a table may have, and some that it may not.
const WORDS: [&str; 71] = [
    "daybook",
    "date",
    "prices",
    "user",
    "trade",
    "to",
    "standing",
    "physical",
    "position",
    "charges",
    "assigned",
    "blocked",
    "manager",
    "none",
    "manager_PVB",
    "manager_AVB",
    "shipper",
    "clearing-house",
    "PVB",
    "TVB",
    "AVB",
    "bilateral",
    "platform",
    "counterparty",
    "d",
    "d+1",
    "P",
    "Q",
    "L",
    "X",
    "I",
    "S",
    "U",
    "0",
    "1",
    "2",
    "-1",
    "101",
    "4294967295",
    "4294967296",
    "-2147483648",
    "2147483648",
    "18446744073709551615",
    "99999999999999999999999999999999",
    "0.00",
    "0.01",
    "-0.01",
    "1,000",
    "1,000.00",
    "1,0",
    "10000000000.00",
    "10000000000.01",
    "92233720368547758.08",
    "184467440737095516.16",
    "2026-03-18",
    "2026-02-30",
    "0000-00-00",
    "9999-99-99",
    "#",
    "\"",
    "\"\"",
    ",",
    ";",
    "\t",
    "\r",
    "\u{feff}",
    "\u{a0}",
    "−5",
    "ñ",
    "\0",
    "$",
];

/// A text changed at random: bytes, words or lines put in, taken out, doubled.
fn changed(random: &mut Random, text: &[u8]) -> Vec<u8> {
    let mut bytes = text.to_vec();
    for _ in 0..random.pick(&[1, 1, 1, 2, 5]) {
        let at = random.below(bytes.len() + 1);
        match random.below(10) {
            0 => bytes.truncate(at),
            1 => bytes.insert(at, random.byte()),
            2 if at < bytes.len() => bytes[at] = random.byte(),
            3 if at < bytes.len() => drop(bytes.remove(at)),
            4 => {
                let end = (at + random.below(40)).min(bytes.len());
                bytes.drain(at..end);
            }
            5 => {
                let end = (at + random.below(80)).min(bytes.len());
                let piece = bytes[at..end].to_vec();
                let to = random.below(bytes.len() + 1);
                bytes.splice(to..to, piece);
            }
            6 => bytes = swapped_lines(random, &bytes),
            7 => {
                let length = random.below(12);
                let noise = random.bytes(length);
                bytes.splice(at..at, noise);
            }
            _ => bytes = changed_word(random, &bytes),
        }
    }
    bytes
}

/// One word of the text replaced by another, or one put before it.
fn changed_word(random: &mut Random, bytes: &[u8]) -> Vec<u8> {
    let word = random.pick(&WORDS).as_bytes();
    let separator = |byte: &u8| b" ,;\n".contains(byte);
    let at = random.below(bytes.len() + 1);
    let start = bytes[..at]
        .iter()
        .rposition(separator)
        .map_or(0, |place| place + 1);
    let end = bytes[at..]
        .iter()
        .position(separator)
        .map_or(bytes.len(), |place| at + place);
    let end = if random.one_in(4) { start } else { end };
    [&bytes[..start], word, &bytes[end.max(start)..]].concat()
}

/// Two lines in each other's place, or one of them twice.
fn swapped_lines(random: &mut Random, bytes: &[u8]) -> Vec<u8> {
    let mut lines: Vec<&[u8]> = bytes.split(|byte| *byte == b'\n').collect();
    let (one, two) = (random.below(lines.len()), random.below(lines.len()));
    match random.one_in(2) {
        true => lines.swap(one, two),
        false => lines.insert(one, lines[two]),
    }
    lines.join(&b'\n')
}

/// A text of words and lines without any order.
fn soup(random: &mut Random) -> Vec<u8> {
    let mut text = random
        .pick(&["daybook 1\n", "daybook 2\n", "daybook 3\n", ""])
        .to_string();
    for _ in 0..random.below(60) {
        text.push_str(random.pick(&WORDS));
        text.push(random.pick(&[' ', ' ', ' ', ',', ';', '\n', '\t']));
    }
    text.into_bytes()
}

/// An accepted book: its bytes and its forms.
fn book(generator: &mut Generator) -> Vec<u8> {
    let kind = generator
        .random()
        .pick(&[Kind::Small, Kind::Small, Kind::Chain, Kind::Usual]);
    generator.book(kind)
}

/// Mistakes are told, within the text, and not more than are told.
fn are_told(mistakes: &[Mistake], lines: usize) {
    assert!((1..=3 * MOST_MISTAKES).contains(&mistakes.len()));
    for Mistake { spot, reason } in mistakes {
        is_within(spot, lines);
        assert!(!reason.is_empty() && reason.len() < 700, "{reason}");
    }
}

fn is_within(spot: &Spot, lines: usize) {
    assert!(
        (1..=lines + 1).contains(&spot.line) && spot.column > 0,
        "{spot}"
    );
}

/// A book is the same after text, or after CSV.
fn is_the_same(bytes: &[u8]) {
    let fields = daybook::Operator::new()
        .read(bytes)
        .expect("an accepted book");
    let again = text::read(text::write(&fields, true).as_bytes()).expect("a text");
    assert_eq!(again.into_bytes().as_deref(), Ok(bytes));
    let files = csv::write(&fields);
    let again = csv::read(files.each_ref().map(String::as_bytes)).expect("files");
    assert_eq!(again.into_bytes().as_deref(), Ok(bytes));
}

#[test]
fn texts() {
    let (inputs, seed) = (
        setting("DAYBOOK_INPUTS", 20_000),
        setting("DAYBOOK_SEED", 1),
    );
    let mut generator = Generator::new(seed);
    let mut counts = [0; 3];
    let mut written = Vec::new();
    for input in 0..inputs {
        if input % 16 == 0 {
            let fields = daybook::Operator::new()
                .read(&book(&mut generator))
                .expect("a book");
            written = text::write(&fields, generator.random().one_in(2)).into_bytes();
        }
        let random = generator.random();
        let bytes = match random.below(8) {
            0 => soup(random),
            _ => changed(random, &written),
        };
        let lines = bytes.split(|byte| *byte == b'\n').count();
        // `book` takes any file as text, `check` those that start as one.
        if let Err(mistakes) = text::read(&bytes) {
            are_told(&mistakes, lines);
        }
        match verdict("a text", Given::File(bytes)) {
            Verdict::Accepted(source) => {
                is_the_same(&source.bytes);
                counts[0] += 1;
            }
            Verdict::Refused(_, faults) => {
                assert!(!faults.is_empty());
                faults
                    .iter()
                    .filter_map(|(spot, _)| *spot)
                    .for_each(|spot| is_within(&spot, lines));
                counts[1] += 1;
            }
            Verdict::Unread(mistakes) => {
                are_told(&mistakes, lines);
                counts[2] += 1;
            }
        }
    }
    println!("{inputs} texts from seed {seed}: accepted, refused, unread {counts:?}");
    assert!(
        counts.iter().all(|count| *count > inputs / 100),
        "{counts:?}"
    );
}

#[test]
fn tables() {
    let (inputs, seed) = (
        setting("DAYBOOK_INPUTS", 20_000),
        setting("DAYBOOK_SEED", 1),
    );
    let mut generator = Generator::new(seed ^ 0xC5F);
    let mut counts = [0; 3];
    let mut written: [Vec<u8>; 3] = Default::default();
    for input in 0..inputs {
        if input % 16 == 0 {
            let fields = daybook::Operator::new()
                .read(&book(&mut generator))
                .expect("a book");
            written = spelt(generator.random(), &fields);
        }
        let random = generator.random();
        let mut files = written.clone();
        let place = random.below(3);
        files[place] = match random.below(8) {
            0 => soup(random),
            _ => changed(random, &files[place]),
        };
        let lines = files
            .iter()
            .map(|file| file.split(|byte| *byte == b'\n').count())
            .max();
        let lines = lines.unwrap_or(0);
        match csv::read(files.each_ref().map(Vec::as_slice)) {
            Err(mistakes) => {
                are_told(&mistakes, lines);
                counts[2] += 1;
            }
            Ok(draft) => match draft.into_bytes() {
                Ok(bytes) => {
                    is_the_same(&bytes);
                    counts[0] += 1;
                }
                Err(Refused { faults, .. }) => {
                    assert!(!faults.is_empty());
                    faults.iter().for_each(|(spot, _)| is_within(spot, lines));
                    counts[1] += 1;
                }
            },
        }
    }
    println!("{inputs} tables from seed {seed}: accepted, refused, unread {counts:?}");
    assert!(
        counts.iter().all(|count| *count > inputs / 100),
        "{counts:?}"
    );
}

/// Stores as text, and files of balances.
#[test]
fn stores_and_balances() {
    let (inputs, seed) = (
        setting("DAYBOOK_INPUTS", 20_000),
        setting("DAYBOOK_SEED", 1),
    );
    let mut generator = Generator::new(seed ^ 0x570);
    let mut counts = [0; 3];
    let longest = books::stores::longest();
    for input in 0..inputs {
        let sets = 1 + usize::try_from(input % 4).unwrap_or(0);
        let mut store = longest[..6 + 24 * sets].to_vec();
        store[5] = u8::try_from(sets).unwrap_or(0);
        let written = parameters::write(&store);
        let bytes = changed(generator.random(), written.as_bytes());
        let lines = bytes.split(|byte| *byte == b'\n').count();
        match parameters::read(&bytes) {
            Err(mistakes) => {
                are_told(&mistakes, lines);
                counts[2] += 1;
            }
            Ok(made) => {
                let refused = parameters::refusal(&made).is_some();
                assert_eq!(refused, daybook_text::store::malformed(&made).is_some());
                if !refused {
                    let again = parameters::read(parameters::write(&made).as_bytes());
                    assert_eq!(again.as_deref(), Ok(made.as_slice()));
                }
                counts[usize::from(refused)] += 1;
            }
        }
        let balances = changed(
            generator.random(),
            b"North -100\n50\nSouth East -25 # kWh\n",
        );
        if let Ok(balances) = cli::shrinkage::read("a file", &balances) {
            assert!(balances.iter().all(|balance| !balance.name.is_empty()));
        }
    }
    println!("{inputs} stores from seed {seed}: well formed, refused, unread {counts:?}");
    assert!(
        counts.iter().all(|count| *count > inputs / 100),
        "{counts:?}"
    );
}

/// The files of a book as one spreadsheet or another writes them: commas, semicolons
/// with a decimal comma, tabs, a column of its own, or UTF-16.
fn spelt(random: &mut Random, fields: &Book) -> [Vec<u8>; 3] {
    let mut files = match random.below(4) {
        0 => csv::write_in(fields, Style::Semicolons),
        1 => csv::write(fields).map(|file| file.replace(',', ";")),
        2 => csv::write(fields).map(|file| file.replace(',', "\t")),
        _ => csv::write(fields),
    };
    if random.one_in(4) {
        let users = files[1].trim_start_matches('\u{feff}');
        let apart = users
            .find([',', ';', '\t'])
            .map_or(",", |it| &users[it..=it]);
        let named = [format!("name{apart}"), format!("Norte{apart}")];
        let lines = users.lines().enumerate();
        let lines = lines.map(|(place, line)| format!("{}{line}\n", named[place.min(1)]));
        files[1] = lines.collect();
    }
    match random.one_in(8) {
        true => files.map(|file| {
            let units = std::iter::once(0xfeff).chain(file.encode_utf16());
            units.flat_map(u16::to_le_bytes).collect()
        }),
        false => files.map(String::into_bytes),
    }
}
