//! Version 2 of the book (document 02, ask 3): its questions, its fields and the
//! credit for long positions.

#![forbid(unsafe_code)]

use reference::book::{length, Book, User, LONGEST};
use reference::party::{Given, Party};
use reference::units::{Cents, Mwh, Price, Prices};
use reference::{afternoon_level, check, day, morning_level, read, show, warning, write};

/// A shipper long by 1,000 MWh in PVB, 200 in TVB and 30 in AVB, with charges of
/// 20,000,000 cents, in a book of this version.
fn book(version: u16) -> Book {
    let amounts = [1_000, 200, 30].map(Mwh);
    Book {
        version,
        date: 20_260_318,
        prices: Prices {
            p: Price(2000),
            q: Price(2100),
            l: Price(300),
            x: Price(100),
            i: Price(50),
            s: Price(1500),
            u: Price(70),
        },
        users: vec![User {
            id: 101,
            physical: amounts,
            position: amounts,
            charges: Cents(20_000_000),
            ..User::default()
        }],
        trades: Vec::new(),
    }
}

#[test]
fn lengths() {
    assert_eq!(length(1, 1, 0), 88);
    assert_eq!(length(2, 1, 0), 96);
    assert_eq!(LONGEST, 9_512);
    assert_eq!(book(1).to_bytes().len(), 88);
    assert_eq!(book(2).to_bytes().len(), 96);
}

/// Questions 2, 3 and 4 admit the versions, their lengths and their ranges.
#[test]
fn questions() {
    for version in [0, 4, 257, 258, 259, 512, u16::MAX] {
        assert_eq!(check(&book(version).to_bytes()), 2, "{version}");
    }
    for version in [1, 2] {
        let bytes = book(version).to_bytes();
        assert_eq!(check(&bytes), 0, "{version}");
        for length in 0..bytes.len() {
            let number = if length < 32 { 1 } else { 3 };
            assert_eq!(check(&bytes[..length]), number, "{version}, {length} bytes");
        }
        let mut other = bytes.clone();
        other[3] = 3 - other[3];
        assert_eq!(check(&other), 3, "{version}, the other's header");
    }
    for (s, u, number) in [
        (0, 0, 0),
        (100_000, 100_000, 0),
        (100_001, 0, 4),
        (0, 100_001, 4),
        (i128::from(u32::MAX), 0, 4),
    ] {
        let mut book = book(2);
        (book.prices.s, book.prices.u) = (Price(s), Price(u));
        assert_eq!(check(&book.to_bytes()), number, "{s} {u}");
        book.version = 1;
        assert_eq!(check(&book.to_bytes()), 0, "version 1 has neither");
    }
}

/// The credit is 1,000 × 1,500 + 200 × 70 + 30 × 70 = 1,516,100, in the afternoon
/// of version 2 alone.
#[test]
fn credit() {
    let level =
        |version: u16| afternoon_level(&book(version).to_bytes(), Given::OPERATOR, 101).level;
    assert_eq!(level(1), 20_000_000);
    assert_eq!(level(2), 18_483_900);
    for version in [1, 2] {
        let bytes = book(version).to_bytes();
        assert_eq!(
            morning_level(&bytes, Given::OPERATOR, 101).level,
            20_000_000
        );
        assert!(!warning(&bytes, Given::OPERATOR, 101).warned);
        assert_eq!(
            show(&bytes, Given::OPERATOR, 101).1[..4],
            101_u32.to_le_bytes()
        );
    }
    assert_eq!(
        day(&book(2).to_bytes()),
        "run 0 0 0\n101 quiet 18483900 1000 200 30\n"
    );
}

/// The credit is taken from the whole sum, charges included, and then comes the
/// floor.
#[test]
fn floor() {
    let mut book = book(2);
    for (charges, level) in [
        (11_516_101, 10_000_001),
        (11_516_100, 10_000_000),
        (11_516_099, 10_000_000),
        (-1_000_000_000_000, 10_000_000),
    ] {
        book.users[0].charges = Cents(charges);
        assert_eq!(
            afternoon_level(&book.to_bytes(), Given::OPERATOR, 101).level,
            level,
            "{charges}"
        );
    }
}

/// The header of an image has 40 bytes, a user 68; S and U of version 1 are 0 when read, and
/// are neither written nor looked at.
#[test]
fn fields() {
    for version in [1, 2] {
        let bytes = book(version).to_bytes();
        let (number, image) = read(&bytes, Party::Operator);
        assert_eq!(number, 0);
        let tariffs = &image[32..40];
        assert_eq!(tariffs.iter().all(|byte| *byte == 0), version == 1);
        assert_eq!(image[40..96], bytes[bytes.len() - 56..]);
        let mut part = vec![0xAA; bytes.len()];
        assert_eq!(write(&image, &mut part), 0);
        assert_eq!(part, bytes);
        let mut image = image;
        image[32..40].fill(0xFF);
        let mut part = vec![0xAA; bytes.len()];
        let number = write(&image, &mut part);
        match version {
            1 => assert_eq!((number, &part), (0, &bytes)),
            _ => assert_eq!((number, part), (4, vec![0xAA; bytes.len()])),
        }
    }
}
