//! Corrections in another order (ask 12): accepted postings in shuffled orders,
//! one by one and as the lines of a list, and two postings against the posting of
//! their sum.

#![forbid(unsafe_code)]

use books::{Generator, Kind};
use compare::settings::seed;
use daybook::{Line, Operator};

/// Books of each kind, and orders of the postings on each.
const BOOKS: usize = 60;
const ORDERS: usize = 8;

/// The most postings that are drawn for a book.
const MOST_POSTINGS: usize = 40;

/// A posting: the user's id, an area and an amount.
type Posting = (u32, u32, i64);

/// A posting on a user of the book: a small amount, one that takes a physical
/// entry next to its limits, or arguments that the generator draws.
fn drawn(generator: &mut Generator, book: &[u8]) -> Posting {
    let users = Operator::new().read(book).expect("an accepted book").users;
    let arguments = generator.arguments(book);
    let random = generator.random();
    let user = random.pick(&users);
    let area = random.below(3);
    let entry = i64::from(user.physical[area]);
    let small = i64::from(random.byte()) - 128;
    let most = 1_000_000 - entry - i64::from(random.byte());
    let least = -1_000_000 - entry + i64::from(random.byte());
    let area = u32::try_from(area).expect("0 to 2");
    match random.below(8) {
        0 => (arguments.id, arguments.area, arguments.amount),
        1 => (user.id, area, most),
        2 => (user.id, area, least),
        _ => (user.id, area, small),
    }
}

/// The bytes after postings from a book, and whether all were accepted.
fn posted(book: &[u8], postings: &[Posting]) -> (Vec<u8>, bool) {
    let mut book = book.to_vec();
    let mut all = true;
    for (id, area, amount) in postings {
        all &= Operator::new()
            .posting(&mut book, *id, *area, *amount)
            .is_ok();
    }
    (book, all)
}

/// The same by one list.
fn listed(book: &[u8], postings: &[Posting]) -> (Vec<u8>, bool) {
    let mut book = book.to_vec();
    let line = |(id, area, amount): &Posting| Line {
        id: *id,
        area: *area,
        amount: *amount,
    };
    let lines: Vec<Line> = postings.iter().map(line).collect();
    let answers = Operator::new()
        .list(&mut book, &lines)
        .expect("an accepted list");
    let all = answers.iter().all(|answer| answer.is_ok());
    (book, all)
}

/// Postings that are accepted one after the other.
fn accepted(generator: &mut Generator, book: &[u8]) -> Vec<Posting> {
    let mut left = book.to_vec();
    let mut accepted = Vec::new();
    for _ in 0..generator.random().below(MOST_POSTINGS) {
        let (id, area, amount) = drawn(generator, &left);
        if Operator::new().posting(&mut left, id, area, amount).is_ok() {
            accepted.push((id, area, amount));
        }
    }
    accepted
}

/// The postings in another order, each as likely as any other.
fn shuffled(generator: &mut Generator, postings: &[Posting]) -> Vec<Posting> {
    let mut postings = postings.to_vec();
    for place in (1..postings.len()).rev() {
        postings.swap(place, generator.random().below(place + 1));
    }
    postings
}

#[test]
fn any_order_ends_in_the_same_bytes() {
    let mut generator = Generator::new(seed());
    let (mut same, mut refused) = (0, 0);
    for kind in Kind::ACCEPTED {
        for _ in 0..BOOKS {
            let book = generator.book(kind);
            let postings = accepted(&mut generator, &book);
            let (expected, all) = posted(&book, &postings);
            assert!(all);
            for _ in 0..ORDERS {
                let other = shuffled(&mut generator, &postings);
                let left = posted(&book, &other);
                assert!(left == listed(&book, &other), "{other:?}");
                match left {
                    (left, true) => {
                        assert!(left == expected, "{postings:?} and {other:?}");
                        same += 1;
                    }
                    (_, false) => refused += 1,
                }
            }
        }
    }
    println!("{same} orders with the same bytes, {refused} with a refused posting");
    assert!(same > 1_000 && refused > 100);
}

#[test]
fn two_postings_are_the_posting_of_their_sum() {
    let mut generator = Generator::new(seed());
    let mut pairs = 0;
    for kind in Kind::ACCEPTED {
        for _ in 0..BOOKS {
            let book = generator.book(kind);
            let (id, area, first) = drawn(&mut generator, &book);
            let (one, _) = posted(&book, &[(id, area, first)]);
            let second = drawn(&mut generator, &one).2;
            let (two, true) = posted(&book, &[(id, area, first), (id, area, second)]) else {
                continue;
            };
            let sum = (id, area, first + second);
            assert_eq!(posted(&book, &[sum]), (two, true), "{first} and {second}");
            assert!(sum.2.abs() <= 2_000_000);
            pairs += 1;
        }
    }
    println!("{pairs} pairs of accepted postings");
    assert!(pairs > 100);
}
