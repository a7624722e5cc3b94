//! Writes the lists of postings that the program `try_calls` of the engine
//! makes, and prints by the reference what it has to print for them. The folder
//! for the files `lists` and `lists.index` is the argument.
//!
//! A list is how many ids, areas, amounts and places it has and the length of its
//! book (2 bytes each), the ids and the areas (4 each), the amounts (8 each), and
//! the book.

use books::versions::in_version_2;
use books::written::{book, covered, house, printed_example, sale, shipper};
use books::{answer, Call};
use reference::book::Book;
use reference::list::MOST_LINES;
use reference::party::Given;
use std::fmt::Write;

/// A line: id, area and amount.
type Line = (u32, u32, i64);

/// A list, what it shows, and the number that it has to give.
struct Shown {
    shows: &'static str,
    number: u32,
    book: Vec<u8>,
    call: Call,
}

fn shown(shows: &'static str, number: u32, book: Vec<u8>, call: Call) -> Shown {
    Shown {
        shows,
        number,
        book,
        call,
    }
}

/// The list of these lines, with as many places.
fn list(lines: &[Line]) -> Call {
    counted(lines, [lines.len(); 4])
}

/// The list of as many ids, areas, amounts and places of these lines.
fn counted(lines: &[Line], [ids, areas, amounts, places]: [usize; 4]) -> Call {
    Call::List {
        ids: lines[..ids].iter().map(|line| line.0).collect(),
        areas: lines[..areas].iter().map(|line| line.1).collect(),
        amounts: lines[..amounts].iter().map(|line| line.2).collect(),
        places,
    }
}

/// Shippers 1 and 2, of which 1 has an entry in each area and sells to 2, and the
/// clearing house 7.
fn three_users() -> Book {
    book(
        vec![
            shipper(1, [10, -20, 999_999], 0, 0, 0),
            covered(2),
            house(7),
        ],
        vec![sale(1, 2, 0, 5)],
    )
}

fn accepted() -> Vec<Shown> {
    let first = || three_users().to_bytes();
    let second = || in_version_2(&three_users()).to_bytes();
    let managed = || {
        let mut book = in_version_2(&three_users());
        book.version = 3;
        book.users[1].managers = [1, 0, 1];
        book.to_bytes()
    };
    let each = [(1, 0, 5), (2, 1, -7), (7, 2, 9)];
    let refused = [
        (1, 0, 5),
        (3, 0, 5),
        (1, 3, 5),
        (1, 2, 2),
        (1, 2, 1),
        (1, 2, 1),
        (0, 3, 5),
        (2, 1, -1_000_000),
    ];
    let back = [(1, 2, 2), (1, 2, -1), (1, 2, 2), (1, 2, 1)];
    let widest = [
        (1, 0, i64::MIN),
        (1, 0, i64::MAX),
        (1, u32::MAX, 0),
        (u32::MAX, 0, 0),
        (1, 0, 999_990),
        (1, 0, -2_000_000),
    ];
    let many = (0_u32..).zip([1, 2, 7].into_iter().cycle());
    let many = many.map(|(line, id)| (id, line % 4, i64::from(line) - 200));
    let most: Vec<Line> = many.take(MOST_LINES).collect();
    vec![
        shown("no line", 0, first(), list(&[])),
        shown("one line of 0", 0, first(), list(&[(1, 0, 0)])),
        shown("a line for each user and area", 0, first(), list(&each)),
        shown("refused lines among them", 0, first(), list(&refused)),
        shown("every line refused", 0, first(), list(&refused[1..4])),
        shown("a line refused, then accepted", 0, first(), list(&back)),
        shown("the widest arguments", 0, first(), list(&widest)),
        shown("512 lines", 0, first(), list(&most)),
        shown("version 2, no line", 0, second(), list(&[])),
        shown("version 2, each user", 0, second(), list(&each)),
        shown("version 2, refused lines", 0, second(), list(&refused)),
        shown("version 3, each user", 0, managed(), list(&each)),
    ]
}

fn refused() -> Vec<Shown> {
    let first = || three_users().to_bytes();
    let lines = [(1, 0, 5), (2, 1, -7), (7, 2, 9)];
    let above = vec![(1, 0, 1); MOST_LINES + 1];
    let mut damaged = printed_example();
    damaged.users[1].position[2].0 += 1;
    let damaged = || damaged.to_bytes();
    let [third, unknown] = [3, 4].map(|version| {
        let mut bytes = first();
        bytes[3] = version;
        bytes
    });
    vec![
        shown("513 lines", 15, first(), list(&above)),
        shown("513 places", 15, first(), counted(&above, [3, 3, 3, 513])),
        shown("an id too few", 15, first(), counted(&lines, [2, 3, 3, 3])),
        shown(
            "an area too few",
            15,
            first(),
            counted(&lines, [3, 2, 3, 3]),
        ),
        shown(
            "an amount too few",
            15,
            first(),
            counted(&lines, [3, 3, 2, 3]),
        ),
        shown(
            "a place too few",
            15,
            first(),
            counted(&lines, [3, 3, 3, 2]),
        ),
        shown(
            "a place too many",
            15,
            first(),
            counted(&lines, [3, 3, 3, 4]),
        ),
        shown("places alone", 15, first(), counted(&[], [0, 0, 0, 1])),
        shown(
            "version 2, an id too few",
            15,
            in_version_2(&three_users()).to_bytes(),
            counted(&lines, [2, 3, 3, 3]),
        ),
        shown("a position is not as defined", 7, damaged(), list(&lines)),
        shown("the same and 513 lines", 7, damaged(), list(&above)),
        shown("version 3, length of version 1", 3, third, list(&lines)),
        shown("version 4", 2, unknown, list(&lines)),
        shown("no book", 1, Vec::new(), list(&lines)),
    ]
}

/// The bytes of a list in the file.
fn bytes_of(book: &[u8], call: &Call) -> Vec<u8> {
    let Call::List {
        ids,
        areas,
        amounts,
        places,
    } = call
    else {
        panic!("a list");
    };
    let mut bytes = Vec::new();
    for count in [ids.len(), areas.len(), amounts.len(), *places, book.len()] {
        let count = u16::try_from(count).expect("a number of two bytes");
        bytes.extend_from_slice(&count.to_le_bytes());
    }
    for number in ids.iter().chain(areas) {
        bytes.extend_from_slice(&number.to_le_bytes());
    }
    for amount in amounts {
        bytes.extend_from_slice(&amount.to_le_bytes());
    }
    bytes.extend_from_slice(book);
    bytes
}

fn main() -> std::io::Result<()> {
    let folder = std::env::args().nth(1).expect("a folder");
    let (mut file, mut index) = (Vec::new(), String::new());
    for (place, list) in accepted().iter().chain(&refused()).enumerate() {
        file.extend_from_slice(&bytes_of(&list.book, &list.call));
        let mut book = list.book.clone();
        let given = answer(&mut book, Given::OPERATOR, None, &list.call);
        assert_eq!(given.number, list.number, "{place} {}", list.shows);
        let _ = writeln!(index, "{place} {}: {}", list.shows, given.number);
        print!("{place} {}", given.number);
        for number in &given.fields {
            print!(" {number}");
        }
        print!("\nbook ");
        for byte in &book {
            print!("{byte:02x}");
        }
        println!();
    }
    assert!(file.len() <= 65_536, "more than the program reads");
    std::fs::write(format!("{folder}/lists"), file)?;
    std::fs::write(format!("{folder}/lists.index"), index)
}
