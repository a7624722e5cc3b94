//! Accepted kinds are accepted; each damage alone fails its question.

#![forbid(unsafe_code)]

use books::{Damage, Generator, Kind};
use reference::party::Party;

#[test]
fn accepted_kinds_are_accepted() {
    let mut generator = Generator::new(1);
    for kind in Kind::ACCEPTED {
        for _ in 0..100 {
            let book = generator.book(kind);
            assert_eq!(reference::check(&book), 0, "{kind:?}");
        }
    }
}

#[test]
fn each_damage_fails_its_question() {
    let mut generator = Generator::new(2);
    for damage in Damage::ALL {
        for _ in 0..100 {
            let book = generator.damaged_by(damage);
            assert_eq!(reference::check(&book), damage.number(), "{damage:?}");
        }
    }
}

/// The dates among those drawn that are real days of 2020 to 2099, counted by
/// month: 1, 28, 29, 30 and 31 where the month has them.
#[test]
fn dated_books_are_accepted_on_real_days() {
    let mut generator = Generator::new(7);
    let books = generator.dated_books();
    let accepted = books
        .iter()
        .filter(|book| reference::check(book) == 0)
        .count();
    assert!(books
        .iter()
        .all(|book| [0, 4].contains(&reference::check(book))));
    // Six years, three of them leap years; 7 months of 31 days, 4 of 30.
    assert_eq!(accepted, 6 * (7 * 5 + 4 * 4 + 2) + 3);
}

#[test]
fn an_accepted_book_is_read_and_written_back() {
    let mut generator = Generator::new(3);
    for kind in Kind::ACCEPTED {
        for _ in 0..20 {
            let book = generator.book(kind);
            let (number, image) = reference::read(&book, Party::Operator);
            assert_eq!(number, 0);
            let mut part = vec![0xAA; book.len()];
            assert_eq!(reference::write(&image, &mut part), 0);
            assert_eq!(part, book);
        }
    }
}

#[test]
fn the_same_seed_gives_the_same_books_and_calls() {
    let mut first = Generator::new(4);
    let mut second = Generator::new(4);
    for _ in 0..200 {
        let book = first.any_book();
        assert_eq!(second.any_book(), book);
        assert_eq!(first.call(&book, None), second.call(&book, None));
    }
}
