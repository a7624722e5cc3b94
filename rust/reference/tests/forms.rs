//! Document 02, ask 13, with bytes written out by hand.

#![forbid(unsafe_code)]

mod common;

use common::{book, for_tomorrow, house, one_below, sale, shipper};
use reference::book::Book;
use reference::party::Party;
use reference::{form, restore};

/// Two shippers and a sale of 9 MWh in AVB.
fn of_version(version: u16) -> Book {
    let users = vec![
        shipper(101, [1, 2, 3], [0; 3]),
        shipper(102, [4, 5, 6], [0; 3]),
    ];
    Book {
        version,
        ..book(users, vec![sale(101, 102, 2, 9)])
    }
}

fn fours(words: &[i32]) -> Vec<u8> {
    words.iter().flat_map(|word| word.to_le_bytes()).collect()
}

fn eights(words: &[i64]) -> Vec<u8> {
    words.iter().flat_map(|word| word.to_le_bytes()).collect()
}

/// The columns that the users have in every version.
fn user_columns() -> Vec<u8> {
    [
        fours(&[101, 102]),
        vec![0, 0],
        vec![0; 6],
        fours(&[1, 4]),
        fours(&[2, 5]),
        fours(&[3, 6]),
        fours(&[1, 4]),
        fours(&[2, 5]),
        fours(&[3 - 9, 6 + 9]),
        eights(&[10_000_000, 10_000_000]),
        eights(&[0, 0]),
        eights(&[0, 0]),
    ]
    .concat()
}

/// The columns of the one trade: its bytes as they stand.
fn trade_columns() -> Vec<u8> {
    [fours(&[101, 102]), vec![2, 0, 0, 0], fours(&[9, 9])].concat()
}

/// The form, and the book back, into outputs of two bytes more.
fn there_and_back(book: &Book, expected: &[u8]) {
    let bytes = book.to_bytes();
    let mut output = vec![0xAA; bytes.len() + 2];
    assert_eq!(form(&bytes, Party::Operator, &mut output), 0);
    assert_eq!(output, [expected, &[0xAA; 2]].concat());
    let mut back = vec![0xAA; bytes.len() + 2];
    assert_eq!(restore(expected, &mut back), 0);
    assert_eq!(back, [&bytes[..], &[0xAA; 2]].concat());
}

/// "Its header with mark `GDF` in place of `GDB`, all ids, all roles, and so on
/// through the user and then the trade fields."
#[test]
fn form_of_version_1() {
    let book = of_version(1);
    let header = [b"GDF", &book.to_bytes()[3..32]].concat();
    let expected = [header, user_columns(), trade_columns()].concat();
    assert_eq!(expected.len(), 32 + 2 * 56 + 20);
    there_and_back(&book, &expected);
}

/// S and U are of the header.
#[test]
fn form_of_version_2() {
    let mut book = of_version(2);
    book.prices.s = reference::units::Price(7);
    let header = [b"GDF", &book.to_bytes()[3..40]].concat();
    assert_eq!(header[32..], [7, 0, 0, 0, 0, 0, 0, 0]);
    let expected = [header, user_columns(), trade_columns()].concat();
    there_and_back(&book, &expected);
}

/// The managers are three columns behind the blocked guarantees, and before the
/// trades.
#[test]
fn form_of_version_3() {
    let mut book = of_version(3);
    book.users[1].managers = [101, 0, 0];
    let header = [b"GDF", &book.to_bytes()[3..40]].concat();
    let managers = [fours(&[0, 101]), fours(&[0, 0]), fours(&[0, 0])].concat();
    let expected = [header, user_columns(), managers, trade_columns()].concat();
    assert_eq!(expected.len(), 40 + 2 * 68 + 20);
    there_and_back(&book, &expected);
}

/// Areas, kinds, days and zero bytes are four columns of one byte; notified stands
/// before standing, and a clearing house has role 1.
#[test]
fn columns_of_two_trades() {
    let trades = vec![
        one_below(sale(101, 102, 2, 9)),
        for_tomorrow(sale(102, 101, 1, 500)),
    ];
    let users = vec![
        shipper(101, [0; 3], [0; 3]),
        shipper(102, [0; 3], [0; 3]),
        house(103),
    ];
    let book = Book {
        version: 1,
        ..book(users, trades)
    };
    let expected = [
        [b"GDF", &book.to_bytes()[3..32]].concat(),
        fours(&[101, 102, 103]),
        vec![0, 0, 1],
        vec![0; 9],
        vec![0; 3 * 12],
        fours(&[0; 6]),
        fours(&[-8, 8, 0]),
        eights(&[10_000_000, 10_000_000, 0]),
        vec![0; 2 * 24],
        fours(&[101, 102]),
        fours(&[102, 101]),
        vec![2, 1],
        vec![0, 0],
        vec![0, 1],
        vec![0, 0],
        fours(&[9, 500]),
        fours(&[8, 500]),
    ];
    there_and_back(&book, &expected.concat());
}

/// "A form that yields no accepted book gives 29, and then an output too short 30,
/// asked last; a refusal leaves the output unchanged."
#[test]
fn refusals() {
    for version in 1..=3 {
        let bytes = of_version(version).to_bytes();
        let mut short = vec![0xAA; bytes.len() - 1];
        assert_eq!(form(&bytes, Party::Operator, &mut short), 30);
        assert_eq!(
            form(&bytes[..40], Party::Operator, &mut short),
            3,
            "before 30"
        );
        let mut whole = vec![0; bytes.len()];
        assert_eq!(form(&bytes, Party::Operator, &mut whole), 0);
        assert_eq!(restore(&whole, &mut short), 30);
        for length in 0..whole.len() {
            let number = restore(&whole[..length], &mut short);
            assert_eq!(number, 29, "{length} bytes, before 30");
        }
        let longer = [&whole[..], &[0]].concat();
        assert_eq!(restore(&longer, &mut short), 29);
        assert_eq!(restore(&bytes, &mut short), 29, "a book is no form");
        assert_eq!(
            form(&whole, Party::Operator, &mut short),
            1,
            "and a form no book"
        );
        assert_eq!(short, vec![0xAA; bytes.len() - 1], "left by each refusal");
    }
}

/// "Accepts only the form that its book yields."
#[test]
fn only_its_form() {
    for version in 1..=3 {
        let bytes = of_version(version).to_bytes();
        let mut whole = vec![0; bytes.len()];
        assert_eq!(form(&bytes, Party::Operator, &mut whole), 0);
        let (mut taken, mut refused) = (0, 0);
        for place in 0..whole.len() {
            let mut other = whole.clone();
            other[place] ^= 1;
            let mut output = vec![0xAA; bytes.len()];
            if restore(&other, &mut output) == 0 {
                let mut again = vec![0; bytes.len()];
                assert_eq!(form(&output, Party::Operator, &mut again), 0);
                assert_eq!(again, other);
                taken += 1;
            } else {
                assert_eq!(output, vec![0xAA; bytes.len()]);
                refused += 1;
            }
        }
        assert!(taken > 20 && refused > 80, "{taken} and {refused}");
    }
}
