//! Group portfolios (ask 5): every manager id, and what the ask says of members and
//! of books without managers, by the engine alone.

#![forbid(unsafe_code)]

use books::groups::{lower, split, Split};
use books::{Answer, Call, Random};
use compare::engine;
use compare::settings::{comparison, seed};
use reference::book::{length, Book, USER_LENGTH};
use reference::party::{Given, Party};
use reference::version::LAST;

/// Books of versions 1 and 2 that get groups.
const BOOKS: usize = 400;

/// Each user's manager in each area one after the other: nobody, each id of the book,
/// those next to them and others. In the fields of versions 1 and 2 they are not
/// looked at.
#[test]
fn manager_ids() {
    let mut comparison = comparison("manager_ids");
    let (mut accepted, mut refused) = (0, 0);
    for version in [1, 2, 3, 3, 3, 3] {
        let book = comparison.generator().sized(version, 5, 9);
        let bytes = book.to_bytes();
        let near = |id: u32| [id.wrapping_sub(1), id, id.wrapping_add(1)];
        let own = book.users.iter().flat_map(|user| near(user.id));
        let ids: Vec<u32> = own.chain([0, 1 << 31, u32::MAX]).collect();
        let places = (0..5).flat_map(|user| [0, 1, 2].map(|area| (user, area)));
        for ((user, area), id) in places.flat_map(|place| ids.iter().map(move |id| (place, *id))) {
            let (_, mut image) = reference::read(&bytes, Party::Operator);
            let at = length(LAST, user, 0) + USER_LENGTH + 4 * area;
            image[at..at + 4].copy_from_slice(&id.to_le_bytes());
            let mut part = vec![0xAA; bytes.len()];
            let number = reference::write(&image, &mut part);
            match (version, number) {
                (1 | 2, _) => assert_eq!((number, &part), (0, &bytes)),
                (_, 0) => accepted += 1,
                _ => refused += 1,
            }
            let write = Call::Write {
                image: Box::new(image),
                length: part.len(),
            };
            comparison.call(&mut [], &write);
            if version == LAST {
                let mut book = book.clone();
                book.users[user].managers[area] = id;
                comparison.every_call(&book.to_bytes(), (book.users[user].id, 0, 1));
            }
        }
    }
    println!("{accepted} manager ids accepted, {refused} refused");
    assert!(accepted > 50 && refused > 50);
    comparison.expect_none();
}

/// The calls that answer for one user, and the run.
fn calls(id: u32) -> [Call; 8] {
    [
        Call::MorningLevel { id },
        Call::AfternoonLevel { id },
        Call::MorningCall { id },
        Call::AfternoonCall { id },
        Call::Reduction { id },
        Call::Cancellation { id, tries: 300 },
        Call::Warning { id },
        Call::Run,
    ]
}

fn answered(book: &Book, call: &Call) -> (Answer, Vec<u8>) {
    let mut bytes = book.to_bytes();
    let answer = engine::answer(&mut bytes, Given::OPERATOR, None, call);
    (answer, bytes)
}

/// "Version 3 reads as version 2": where nobody is managed, every call answers as in
/// the version of the book, S and U being 0 in version 1, and leaves the same fields.
#[test]
fn without_managers() {
    let mut random = Random::new(seed());
    for _ in 0..BOOKS {
        let book = lower(&mut random);
        let third = Book {
            version: LAST,
            ..book.clone()
        };
        for call in book.users.iter().flat_map(|user| calls(user.id)) {
            let ((expected, left), (found, left_by_third)) =
                (answered(&book, &call), answered(&third, &call));
            assert_eq!(found, expected, "{call:?}");
            let [left, left_by_third] = [left, left_by_third].map(|bytes| {
                let fields = daybook::Operator::new()
                    .read(&bytes)
                    .expect("an accepted book");
                (fields.users, fields.trades)
            });
            assert_eq!(left_by_third, left, "{call:?}");
        }
    }
}

/// Members who take over a part of what a shipper has leave its answers, and those of
/// everybody else, what they were; the warnings are those of the buyers.
#[test]
fn members() {
    let mut random = Random::new(seed());
    let mut groups = 0;
    for _ in 0..BOOKS {
        let book = lower(&mut random);
        let Split { book: split, .. } = split(&mut random, &book);
        groups += usize::from(split.users.len() > book.users.len());
        for call in book.users.iter().flat_map(|user| calls(user.id)) {
            if !matches!(call, Call::Warning { .. }) {
                let (expected, found) = (answered(&book, &call).0, answered(&split, &call).0);
                assert_eq!(found, expected, "{call:?}");
            }
        }
    }
    assert!(groups > BOOKS / 4, "{groups} books with groups");
}
