//! The times of calls on a book of version 3 with groups beside those on the same
//! book in version 2, by the engine alone: the tuned implementation knows versions 1
//! and 2.

use std::hint::black_box;

use daybook::{archive, IMAGE_LENGTH, RECORD_LENGTH};
use reference::book::Book;
use reference::questions::questions_1_to_7;

use crate::calls::expect;
use crate::measure::{sample_time, Time};
use crate::options::Options;
use crate::subjects::Subject;

/// Each manager has this many members, less one, in an area.
const GROUP: usize = 4;

/// A call on a book for a user.
type Call = fn(&mut [u8], u32) -> u32;

/// The calls of the table.
const CALLS: [(&str, Call); 10] = [
    ("read to an image", |book, _| {
        archive::read(black_box(book), archive::OPERATOR, &mut [0; IMAGE_LENGTH])
    }),
    ("show", |book, id| {
        archive::show(
            black_box(book),
            archive::OPERATOR,
            None,
            id,
            &mut [0; RECORD_LENGTH],
        )
    }),
    ("posting", |book, id| {
        archive::posting(book, archive::OPERATOR, None, None, id, 0, 1)
    }),
    ("morning level", |book, id| {
        archive::morning_level(black_box(book), archive::OPERATOR, None, id, &mut [0; 1])
    }),
    ("afternoon level", |book, id| {
        archive::afternoon_level(black_box(book), archive::OPERATOR, None, id, &mut [0; 1])
    }),
    ("morning call", |book, id| {
        archive::morning_call(book, archive::OPERATOR, None, None, id, &mut [0; 2])
    }),
    ("afternoon call", |book, id| {
        archive::afternoon_call(book, archive::OPERATOR, None, None, id, &mut [0; 2])
    }),
    ("warning", |book, id| {
        archive::warning(black_box(book), archive::OPERATOR, None, id, &mut [0; 1])
    }),
    ("reduction", |book, id| {
        archive::reduction(book, archive::OPERATOR, None, None, id, &mut [0; 5])
    }),
    ("run", |book, _| {
        archive::run(book, archive::OPERATOR, None, None, &mut [0; 3])
    }),
];

/// Prints the times of each call that some user's is accepted of, in version 2 and in
/// version 3, in turns.
pub fn print_table(subject: &Subject, options: &Options) {
    let second = questions_1_to_7(&subject.book).expect("an accepted book");
    let third = grouped(&second);
    let members = third.users.iter().flat_map(|user| user.managers);
    println!(
        "\n{} book, versions 2 and 3: {} users, {} trades, {} and {} bytes, {} managers told; microseconds, {} samples of {} calls",
        subject.name,
        second.users.len(),
        second.trades.len(),
        subject.book.len(),
        third.to_bytes().len(),
        members.filter(|id| *id != 0).count(),
        options.samples,
        options.batch
    );
    println!("{:<31}{:^30}{:^30}", "", "median", "least");
    let columns = format!("{:>11}{:>11}{:>8}", "version 2", "version 3", "ratio");
    println!("{:<31}{columns}{columns}", "call");
    for (name, call) in CALLS {
        let ids = [&second, &third].map(|book| accepted(book, call));
        if let [Some(one), Some(other)] = ids {
            print_row(name, [(&second, one), (&third, other)], call, options);
        }
    }
}

/// The first user, managers before the others, whose call is accepted.
fn accepted(book: &Book, call: Call) -> Option<u32> {
    let manages = |id: u32| book.users.iter().any(|user| user.managers.contains(&id));
    let mut ids: Vec<u32> = book.users.iter().map(|user| user.id).collect();
    ids.sort_by_key(|id| !manages(*id));
    ids.into_iter()
        .find(|id| call(&mut book.to_bytes(), *id) == 0)
}

fn print_row(name: &str, books: [(&Book, u32); 2], call: Call, options: &Options) {
    let bytes = books.map(|(book, _)| book.to_bytes());
    let mut copies = [0, 1].map(|side| vec![bytes[side].clone(); options.batch]);
    let mut samples = [Vec::new(), Vec::new()];
    for sample in 0..options.samples {
        for turn in 0..2 {
            let side = (sample + turn) % 2;
            let id = books[side].1;
            let mut accepted = |book: &mut [u8]| expect(call(book, black_box(id)));
            samples[side].push(sample_time(&bytes[side], &mut copies[side], &mut accepted));
        }
    }
    let [second, third] = samples.map(Time::new);
    let ratio = third / second;
    println!(
        "{name:<31}{:>11.3}{:>11.3}{:>8.2}{:>11.3}{:>11.3}{:>8.2}",
        second.median, third.median, ratio.median, second.least, third.least, ratio.least
    );
}

/// The subject of version 2 as one of version 3, with groups.
pub fn in_groups(subject: &Subject) -> Subject {
    let second = questions_1_to_7(&subject.book).expect("an accepted book");
    Subject {
        version: 3,
        book: grouped(&second).to_bytes(),
        ..*subject
    }
}

/// The book in version 3: shippers one after the other in groups, in each area
/// another one of them the manager, so that a manager is managed in other areas.
fn grouped(book: &Book) -> Book {
    let mut book = Book {
        version: 3,
        ..book.clone()
    };
    let places = 0..book.users.len();
    let shippers: Vec<usize> = places
        .filter(|place| book.users[*place].is_shipper())
        .collect();
    for group in shippers.chunks(GROUP) {
        for (area, manager) in group.iter().take(3).enumerate() {
            let id = book.users[*manager].id;
            for member in group.iter().filter(|member| *member != manager) {
                book.users[*member].managers[area] = id;
            }
        }
    }
    book
}
