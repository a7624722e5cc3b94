//! The places of faults agree with the engine's number: a book has a field at
//! fault for the number that it is refused with, and none for one before.

#![forbid(unsafe_code)]

use books::{Damage, Generator, Kind};
use daybook::{header_length, user_length, Operator};
use daybook_text::faults::faults;
use daybook_text::fields::{Field, Place};

const MANAGERS: [Field; 3] = [Field::Manager(0), Field::Manager(1), Field::Manager(2)];

/// The engine's number.
fn number(book: &[u8]) -> u32 {
    Operator::new()
        .read(book)
        .map_or_else(|refusal| refusal.number(), |_| 0)
}

/// Asks the agreement of one book.
fn agree(book: &[u8]) -> u32 {
    let number = number(book);
    let before = if number == 0 { 7 } else { number - 1 };
    for other in 1..=before {
        let none = faults(book, other);
        assert!(none.is_empty(), "{other} of {number}: {none:?} of {book:?}");
    }
    if number > 0 {
        let found = faults(book, number);
        assert!(!found.is_empty(), "{number} of {book:?}");
        let places: Vec<Place> = found.iter().map(|fault| fault.place).collect();
        assert!(places.is_sorted(), "{found:?}");
    }
    number
}

#[test]
fn the_damaged_books_of_the_engine() {
    let file = concat!(
        env!("CARGO_MANIFEST_DIR"),
        "/../../crates/try_books/data/books"
    );
    let bytes = std::fs::read(file).expect("books");
    let mut rest = bytes.as_slice();
    let mut count = 0;
    while let Some(([low, high], after)) = rest.split_first_chunk() {
        let (book, after) = after.split_at(usize::from(u16::from_le_bytes([*low, *high])));
        agree(book);
        (rest, count) = (after, count + 1);
    }
    assert_eq!(count, 151);
}

/// The books of the outside vectors, many of them damaged.
#[test]
fn the_outside_vectors() {
    let vectors = concat!(env!("CARGO_MANIFEST_DIR"), "/../vectors");
    let mut numbers = [0; 8];
    for folder in [
        "",
        "/books",
        "/version-1",
        "/version-1/books",
        "/version-2",
        "/version-2/books",
        "/asks",
    ] {
        let files = std::fs::read_dir(format!("{vectors}{folder}")).expect("a folder");
        let paths = files.map(|file| file.expect("a file").path());
        for path in paths.filter(|path| path.is_file()) {
            let bytes = std::fs::read(&path).expect("a file");
            numbers[usize::try_from(agree(&bytes)).expect("number")] += 1;
        }
    }
    assert!(numbers.iter().all(|count| *count > 10), "{numbers:?}");
}

#[test]
fn books_of_every_kind() {
    let mut generator = Generator::new(21);
    let mut numbers = [0; 8];
    for kind in Kind::ALL {
        for _ in 0..300 {
            let book = generator.book(kind);
            numbers[usize::try_from(agree(&book)).expect("number")] += 1;
        }
    }
    for book in generator.dated_books() {
        agree(&book);
    }
    assert!(numbers.iter().all(|count| *count > 0), "{numbers:?}");
}

/// Each byte of a small book, changed by itself.
#[test]
fn every_byte_of_a_book() {
    let mut generator = Generator::new(22);
    let small = [(); 3].map(|()| generator.book(Kind::Small));
    let sized = [1, 2, 3, 3].map(|version| generator.sized(version, 4, 3).to_bytes());
    for book in small.into_iter().chain(sized) {
        for place in 0..book.len() {
            for change in [1, 2, 3, 0x80, 0xFF] {
                let mut changed = book.clone();
                changed[place] ^= change;
                agree(&changed);
            }
        }
    }
}

/// The field at fault is the one that was damaged.
#[test]
fn the_damaged_field_is_the_one_at_fault() {
    let mut generator = Generator::new(23);
    for damage in Damage::ALL {
        for _ in 0..50 {
            let accepted = generator.book(Kind::Small);
            let mut damaged = accepted.clone();
            let counts = books::damage::counts(&accepted);
            if !damage.apply(generator.random(), &mut damaged, counts) {
                continue;
            }
            assert_eq!(agree(&damaged), damage.number(), "{damage:?}");
            let found = faults(&damaged, damage.number());
            let wanted = fields(damage);
            let place = changed_record(&accepted, &damaged, counts.0);
            // The next id may be the one that does not rise, and a position is at
            // fault at both parties of a trade.
            let at_fault = found.iter().any(|fault| {
                wanted.contains(&fault.field) && (place.is_none() || place == Some(fault.place))
            });
            let next = matches!(damage, Damage::IdNotRising | Damage::StandingAlone);
            // A manager whose id is another one now is no user of the book.
            let of_field = found
                .iter()
                .all(|fault| wanted.contains(&fault.field) || MANAGERS.contains(&fault.field));
            assert!(
                at_fault || next && of_field,
                "{damage:?} {place:?} {found:?}"
            );
        }
    }
}

fn fields(damage: Damage) -> Vec<Field> {
    match damage {
        Damage::Cut | Damage::CutHeader | Damage::OtherVersion => vec![Field::Length],
        Damage::Mark => vec![Field::Mark],
        Damage::Version => vec![Field::Version],
        Damage::NoUsers => vec![Field::UserCount],
        Damage::UserCount => vec![Field::UserCount, Field::Length],
        Damage::TradeCount => vec![Field::TradeCount, Field::Length],
        Damage::Longer | Damage::Shorter => vec![Field::Length],
        Damage::Date => vec![Field::Date],
        Damage::Price(place) => vec![Field::Price(place)],
        Damage::IdZero | Damage::IdNotRising => vec![Field::Id],
        Damage::Role => vec![Field::Role],
        Damage::UserZeroByte(_) | Damage::TradeZeroByte => vec![Field::ZeroBytes],
        Damage::Physical(area) => vec![Field::Physical(area)],
        Damage::Charges => vec![Field::Charges],
        Damage::Assigned => vec![Field::Assigned],
        Damage::Blocked => vec![Field::Blocked],
        Damage::Manager(_) => MANAGERS.to_vec(),
        Damage::Seller => vec![Field::Seller],
        Damage::Buyer | Damage::SameParties => vec![Field::Buyer],
        Damage::TradeArea => vec![Field::Area],
        Damage::TradeKind => vec![Field::Kind],
        Damage::TradeDay => vec![Field::Day],
        Damage::NotifiedZero | Damage::NotifiedLarge => vec![Field::Notified],
        Damage::StandingAbove | Damage::StandingBelow => vec![Field::Standing],
        Damage::Position(area) => vec![Field::Position(area)],
        Damage::StandingAlone => (0..3).map(Field::Position).collect(),
    }
}

/// The record of the first byte that differs; none where the lengths do.
fn changed_record(before: &[u8], after: &[u8], users: usize) -> Option<Place> {
    let place = before.iter().zip(after).position(|(a, b)| a != b)?;
    let version = u16::from_le_bytes([before[3], before[4]]);
    let (header, user) = (header_length(version), user_length(version));
    let trades = header + user * users;
    Some(match place {
        _ if place < header => Place::Header,
        _ if place < trades => Place::User((place - header) / user),
        _ => Place::Trade((place - trades) / 20),
    })
}

/// What is said of a fault, word by word.
#[test]
fn the_words() {
    let mut book = Generator::new(24).sized(1, 3, 2).to_bytes();
    book[32 + 56 * 2 + 48..][..8].copy_from_slice(&20_000_000_u64.to_le_bytes());
    book[32 + 56 * 2 + 40..][..8].copy_from_slice(&10_000_000_u64.to_le_bytes());
    book[32 + 56 * 2..][..4].copy_from_slice(&u32::MAX.to_le_bytes());
    let found = faults(&book, 5);
    assert_eq!(number(&book), 5);
    let words = "user 3, id 4294967295: blocked 200,000.00 EUR exceeds assigned 100,000.00 EUR";
    assert_eq!(found[0].to_string(), words);
}

#[test]
fn refused_bytes_of_any_length_have_words() {
    for version in [1, 2, 3] {
        let book = Generator::new(25).sized(version, 4, 4).to_bytes();
        for length in 0..book.len() {
            let number = agree(&book[..length]);
            assert_eq!(number, if length < 32 { 1 } else { 3 });
        }
    }
}
