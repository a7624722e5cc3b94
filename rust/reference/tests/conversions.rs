//! Document 02, ask 7, with bytes written out by hand.

#![forbid(unsafe_code)]

mod common;

use common::{book, for_tomorrow, house, one_below, sale, shipper};
use reference::book::Book;
use reference::party::{Given, Party};
use reference::units::Price;
use reference::{afternoon_level, check, convert};

/// Three users and two trades; no tariff of sale and no manager.
fn of_version(version: u16) -> Book {
    let users = vec![
        shipper(101, [1, 2, 3], [0; 3]),
        shipper(102, [4, 5, 6], [0; 3]),
        house(103),
    ];
    let trades = vec![
        one_below(sale(101, 102, 2, 9)),
        for_tomorrow(sale(102, 103, 0, 5)),
    ];
    Book {
        version,
        ..book(users, trades)
    }
}

/// The number, and an output of this length.
fn converted(bytes: &[u8], version: u32, length: usize) -> (u32, Vec<u8>) {
    let mut output = vec![0xAA; length];
    let number = convert(bytes, Party::Operator, version, &mut output);
    (number, output)
}

/// "Upward, new fields are 0": S and U behind the header of version 1, three manager
/// ids behind each user of versions 1 and 2.
#[test]
fn bytes_of_each_version() {
    let first = of_version(1).to_bytes();
    let (header, records) = first.split_at(32);
    let (users, trades) = records.split_at(3 * 56);
    let version = |bytes: &[u8], version: u8| {
        let mut bytes = bytes.to_vec();
        bytes[3] = version;
        bytes
    };
    let second = [&version(header, 2), &[0; 8][..], users, trades].concat();
    let members = users.chunks(56).map(|user| [user, &[0; 12]].concat());
    let members: Vec<u8> = members.flatten().collect();
    let third = [&version(header, 3), &[0; 8][..], &members, trades].concat();
    assert_eq!([second.len(), third.len()], [248, 284]);
    let books = [first, second, third];
    for from in &books {
        for (to, version) in books.iter().zip(1..) {
            assert_eq!(converted(from, version, to.len()), (0, to.clone()));
        }
    }
}

/// "Converting up and back gives the first bytes." "A longer output keeps its rest."
#[test]
fn up_and_back() {
    let lengths = [240, 248, 284];
    for from in 1..=3_u16 {
        let bytes = of_version(from).to_bytes();
        for to in 1..=3_u16 {
            let length = lengths[usize::from(to - 1)];
            let (number, output) = converted(&bytes, u32::from(to), length + 2);
            assert_eq!((number, &output[length..]), (0, &[0xAA; 2][..]));
            assert_eq!(output[..length], of_version(to).to_bytes());
            assert_eq!(check(&output[..length]), 0);
            let back = converted(&output[..length], u32::from(from), bytes.len());
            assert_eq!(back, (0, bytes.clone()));
            let short = converted(&bytes, u32::from(to), length - 1);
            assert_eq!(short, (22, vec![0xAA; length - 1]));
        }
    }
}

/// "Asked after question 7 in the order 23, 21, 22."
#[test]
fn refusals() {
    let mut managed = of_version(3);
    managed.users[1].managers = [0, 0, 101];
    let mut tariffs = [of_version(3), of_version(3)];
    tariffs[0].prices.s = Price(1);
    tariffs[1].prices.u = Price(1);
    let managed = managed.to_bytes();
    let numbers =
        |bytes: &[u8], length| [1, 2, 3].map(|version| converted(bytes, version, length).0);
    assert_eq!(numbers(&managed, 500), [21, 21, 0]);
    assert_eq!(numbers(&managed, 0), [21, 21, 22], "21 before 22");
    for book in tariffs {
        assert_eq!(numbers(&book.to_bytes(), 500), [21, 0, 0]);
        let second = Book { version: 2, ..book };
        assert_eq!(numbers(&second.to_bytes(), 500), [21, 0, 0]);
    }
    for version in [0, 4, 257, 258, 65_537, 65_539, u32::MAX] {
        let refused = converted(&managed, version, 3);
        assert_eq!(refused, (23, vec![0xAA; 3]), "{version}, before 21 and 22");
    }
    assert_eq!(converted(&managed[1..], 0, 0).0, 1, "before 23");
    assert_eq!(converted(&managed[..100], 0, 0).0, 3, "before 23");
}

/// "Going from 1 to 2 or 3 no level .. may answer otherwise": by hand, 11,000 MWh long
/// in PVB at a selling tariff of 0 earn nothing in any version.
#[test]
fn no_credit_by_conversion() {
    let users = vec![shipper(101, [11_000, -4_000, 0], [0; 3])];
    let first = Book {
        version: 1,
        ..book(users, Vec::new())
    };
    let level = 10_000_000 + 4_000 * (2_100 + 300);
    for version in 1..=3 {
        let (number, output) = converted(&first.to_bytes(), version, 200);
        assert_eq!(number, 0);
        let length = [88, 96, 108][version as usize - 1];
        let answer = afternoon_level(&output[..length], Given::OPERATOR, 101);
        assert_eq!((answer.number, answer.level), (0, level));
    }
}
