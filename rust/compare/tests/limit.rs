//! The quickest scalar Rust found for the questions 1 to 7 (`limit`), which the
//! engine's times are held against: the same number as the engine's for any bytes, and
//! where that is 0 the sums of the book's trades as the reference reads them.

#![forbid(unsafe_code)]

use books::damage::version_of;
use books::{Generator, Random};
use compare::settings::{books, seed};
use daybook::archive::{self, OPERATOR};
use daybook::RECORD_LENGTH;
use limit::{ask, Room};
use reference::book::{Book, Header};

/// Each drawn book is also asked with this many damages of some bytes.
const DAMAGES: u64 = 31;

/// Books of other ids.
const RENAMED: usize = 12_000;

/// The engine's number of the questions 1 to 7: a record shown of no user's id ends
/// with question 8.
fn by_engine(book: &[u8]) -> u32 {
    match archive::show(book, OPERATOR, None, 0, &mut [0; RECORD_LENGTH]) {
        8 => 0,
        number => number,
    }
}

/// The sums as `limit` has them, from the trades of an accepted book.
fn sums(book: &Book) -> Vec<[u32; 16]> {
    let mut sums = vec![[0; 16]; book.users.len()];
    for trade in &book.trades {
        let sum = 4 * usize::from(trade.day) + usize::from(trade.area);
        let standing = u32::try_from(trade.standing.0).expect("at most 100,000");
        for (party, side) in [(trade.seller, 0), (trade.buyer, 8)] {
            let place = book.place_of(party).expect("a user of the book");
            sums[place][side + sum] += standing;
        }
    }
    sums
}

/// Asks these bytes on both sides; the number.
fn asked(bytes: &[u8], room: &mut Room) -> u32 {
    let number = ask(bytes, room);
    assert_eq!(number, by_engine(bytes), "{bytes:?}");
    if number == 0 {
        let book = Book::from_bytes(&Header::from_bytes(bytes), bytes);
        assert_eq!(room.rows[..book.users.len()], sums(&book), "{bytes:?}");
    }
    number
}

/// Changes one to three bytes: a bit, the value, or that of another place.
fn damage(random: &mut Random, bytes: &mut [u8]) {
    if bytes.is_empty() {
        return;
    }
    for _ in 0..=random.below(3) {
        let place = random.below(bytes.len());
        bytes[place] = match random.below(4) {
            0 => bytes[place] ^ 1 << random.below(8),
            1 => random.pick(&[0, 1, 2, 3, 127, 128, 255]),
            2 => random.byte(),
            _ => bytes[random.below(bytes.len())],
        };
    }
}

/// The generator's books of every kind, and each of them with damages.
#[test]
fn books_of_every_kind() {
    let mut generator = Generator::new(seed());
    let mut room = Room::NEW;
    let (mut numbers, mut versions) = ([0_u64; 8], [0_u64; 4]);
    let mut count = 0;
    while count < books() {
        let book = generator.any_book();
        for damaged in 0..=DAMAGES {
            let mut bytes = book.clone();
            if damaged > 0 {
                damage(generator.random(), &mut bytes);
            }
            let number = asked(&bytes, &mut room);
            numbers[number as usize] += 1;
            if number == 0 {
                versions[usize::from(version_of(&bytes))] += 1;
            }
            count += 1;
        }
    }
    println!("{count} books, by number: {numbers:?}, accepted by version: {versions:?}");
    assert!(numbers.iter().all(|count| *count > 0));
    assert!(versions[1..].iter().all(|count| *count > 100));
}

/// Books of 64 users and any ids: for some of them no hash is found that keeps the ids
/// apart.
#[test]
fn books_of_any_ids() {
    let mut random = Random::new(seed().wrapping_add(1));
    let mut room = Room::NEW;
    let mut generator = Generator::new(seed());
    let drawn: Vec<Book> = (0..30)
        .map(|place| generator.sized(1 + place % 3, 64, 60))
        .collect();
    for place in 0..RENAMED {
        let book = renamed(&mut random, &drawn[place % drawn.len()]);
        assert_eq!(asked(&book.to_bytes(), &mut room), 0);
    }
}

/// The book with other ids, in the same order.
fn renamed(random: &mut Random, book: &Book) -> Book {
    let mut ids: Vec<u32> = (0..book.users.len()).map(|_| random.word()).collect();
    ids.sort_unstable();
    ids.dedup();
    if ids.len() < book.users.len() || ids[0] == 0 {
        return book.clone();
    }
    let renamed = |id: u32| book.place_of(id).map_or(0, |place| ids[place]);
    let mut other = book.clone();
    for user in &mut other.users {
        user.id = renamed(user.id);
        user.managers = user.managers.map(renamed);
    }
    for trade in &mut other.trades {
        (trade.seller, trade.buyer) = (renamed(trade.seller), renamed(trade.buyer));
    }
    other
}
