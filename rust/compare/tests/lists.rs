//! Lists of postings (ask 1): columns and places of every count, hostile lines,
//! and the engine's list against its own postings one after another.

#![forbid(unsafe_code)]

use books::answers::PLACE_BEFORE;
use books::{Call, Generator, Kind};
use compare::settings::{comparison, seed};
use daybook::{archive, Line, Operator, MOST_LINES};

/// Counts next to none and to the most.
const COUNTS: [usize; 6] = [0, 1, 2, MOST_LINES - 1, MOST_LINES, MOST_LINES + 1];

/// The list with columns and places of these counts; lines past its own are 0.
fn counted(list: &Call, counts: [usize; 4]) -> Call {
    let mut list = list.clone();
    if let Call::List {
        ids,
        areas,
        amounts,
        places,
    } = &mut list
    {
        ids.resize(counts[0], 0);
        areas.resize(counts[1], 0);
        amounts.resize(counts[2], 0);
        *places = counts[3];
    }
    list
}

#[test]
fn every_count() {
    let mut comparison = comparison("every_count");
    let book = comparison.generator().book(Kind::Small);
    let list = comparison.generator().list_of(&book, MOST_LINES + 1);
    for ids in COUNTS {
        for areas in COUNTS {
            for amounts in COUNTS {
                for places in COUNTS {
                    let list = counted(&list, [ids, areas, amounts, places]);
                    comparison.call(&mut book.clone(), &list);
                }
            }
        }
    }
    let even = u64::try_from(COUNTS.len() - 1).unwrap_or(0);
    assert_eq!(comparison.counts.of("list", 0), even);
    assert_eq!(comparison.counts.of("list", 15), 6 * 6 * 6 * 6 - even);
    comparison.expect_none();
}

/// A wrong count of places is 15, whatever the book's store, and never 255; 1 to
/// 7 come before it. Book and places stay.
#[test]
fn wrong_counts_of_places() {
    let mut generator = Generator::new(seed());
    for kind in [Kind::Small, Kind::Largest, Kind::Damaged, Kind::Raw] {
        let before = generator.book(kind);
        let refused = reference::check(&before);
        for count in [0, 1, 3, 255, 511, 513, 8_736] {
            let mut book = before.clone();
            let mut places = vec![PLACE_BEFORE; count];
            let number = archive::list(
                &mut book,
                archive::OPERATOR,
                Some(&[]),
                None,
                &[1; 2],
                &[0; 2],
                &[1; 2],
                &mut places,
            );
            assert_eq!(number, if refused == 0 { 15 } else { refused });
            assert_eq!(places, vec![PLACE_BEFORE; count]);
            assert_eq!(book, before);
        }
    }
}

/// Lists of up to 512 lines on books of every kind, with and without a store.
#[test]
fn long_lists() {
    let mut comparison = comparison("long_lists");
    for kind in Kind::ALL {
        for lines in [MOST_LINES, MOST_LINES - 1, 300, 100, 30] {
            let mut book = comparison.generator().book(kind);
            let store = comparison.generator().store(&book);
            let list = comparison.generator().list_of(&book, lines);
            comparison.operator(&mut book, store.as_deref(), &list);
            comparison.call(&mut book, &list);
        }
    }
    comparison.expect_none();
}

/// The engine's list does what the engine's postings do one after another.
#[test]
fn a_list_is_its_postings() {
    let mut generator = Generator::new(seed());
    let (mut accepted, mut refused) = (0, 0);
    for kind in Kind::ACCEPTED {
        for lines in 0..60 {
            let mut listed = generator.book(kind);
            let mut posted = listed.clone();
            let drawn: Vec<Line> = (0..lines)
                .map(|_| {
                    let line = generator.arguments(&posted);
                    Line {
                        id: line.id,
                        area: line.area,
                        amount: line.amount,
                    }
                })
                .collect();
            let singles: Vec<_> = drawn
                .iter()
                .map(|line| Operator::new().posting(&mut posted, line.id, line.area, line.amount))
                .collect();
            accepted += singles.iter().filter(|single| single.is_ok()).count();
            refused += singles.iter().filter(|single| single.is_err()).count();
            assert_eq!(Operator::new().list(&mut listed, &drawn), Ok(singles));
            assert_eq!(listed, posted);
        }
    }
    println!("{accepted} accepted lines, {refused} refused ones");
    assert!(accepted > 1_000 && refused > 1_000);
}
