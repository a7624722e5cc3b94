//! Document 02, ask 5, on random books: what members take over of a shipper's
//! entries, sales and purchases leaves the answers of their manager, and those of
//! everybody else, what they were; manager ids that are refused.

#![forbid(unsafe_code)]

use books::groups::{grouped, lower, split, BadManager, Split};
use books::Random;
use reference::book::Book;
use reference::group::position;
use reference::levels::{afternoon_level_of, called_in, flagged, morning_level_of};
use reference::party::Given;
use reference::questions::Opened;
use reference::reduction::{questions_8_to_14, tiers};
use reference::run::run_book;
use reference::store::Limits;
use reference::units::Area;
use reference::warning::warned_by_seller;
use reference::{cancellation, check};

const LIMITS: Limits = Limits::TODAY;

#[test]
fn members_change_nothing_for_their_manager() {
    let mut random = Random::new(51);
    let (mut groups, mut reductions, mut inside) = (0, 0, 0);
    for _ in 0..1_500 {
        let book = lower(&mut random);
        let split = split(&mut random, &book);
        assert_eq!(check(&split.book.to_bytes()), 0);
        groups += usize::from(!split.members.is_empty());
        inside += split.inside;
        users_as_before(&book, &split);
        reductions += run_as_before(&book, &split);
    }
    println!("{groups} books with groups, {reductions} reductions, {inside} sales inside");
    assert!(groups > 500 && reductions > 1_000 && inside > 300);
}

/// Each user who was there before has the same levels, flag, eligible trades and
/// whole cancellations; who is warned buys by itself or by a member.
fn users_as_before(book: &Book, split: &Split) {
    let opened = |book: &Book| Opened {
        book: book.clone(),
        limits: LIMITS,
    };
    let (one, other) = (opened(book), opened(&split.book));
    let (first, second) = (book.to_bytes(), split.book.to_bytes());
    for user in &book.users {
        let place = split.book.place_of(user.id).expect("the user");
        let (after, user_after) = (&split.book, &split.book.users[place]);
        let level = afternoon_level_of(&LIMITS, book, user);
        assert_eq!(level, afternoon_level_of(&LIMITS, after, user_after));
        let level = morning_level_of(&LIMITS, book, user);
        assert_eq!(level, morning_level_of(&LIMITS, after, user_after));
        assert_eq!(
            flagged(&LIMITS, book, user),
            flagged(&LIMITS, after, user_after)
        );
        assert_eq!(
            called_in(&LIMITS, book, user),
            called_in(&LIMITS, after, user_after)
        );
        assert_eq!(tiers(book, user), tiers(after, user_after));
        let numbers = [&one, &other].map(|opened| questions_8_to_14(opened, user.id).err());
        assert_eq!(numbers[0], numbers[1]);
        let [one, other] =
            [&first, &second].map(|book| cancellation(book, Given::OPERATOR, user.id, 300));
        assert_eq!(one, other);
        if split.inside == 0 {
            let members = split
                .members
                .iter()
                .filter(|(_, manager)| *manager == user.id);
            let ids = members.map(|(member, _)| *member).chain([user.id]);
            let mut places = ids.filter_map(|id| after.place_of(id));
            let warned = places.any(|place| warned_by_seller(&LIMITS, after, &after.users[place]));
            assert_eq!(warned_by_seller(&LIMITS, book, user), warned);
        }
    }
    for (member, _) in &split.members {
        let place = split.book.place_of(*member).expect("the member");
        let user = &split.book.users[place];
        assert!(!flagged(&LIMITS, &split.book, user));
        assert_eq!(tiers(&split.book, user), (vec![], vec![]));
    }
}

/// The runs report the same and cut the same; positions are those of the groups.
fn run_as_before(book: &Book, split: &Split) -> u64 {
    let [(run, before), (other, after)] = [book, &split.book].map(|book| {
        let mut opened = Opened {
            book: book.clone(),
            limits: LIMITS,
        };
        let run = run_book(&mut opened, None);
        (run, opened.book)
    });
    assert_eq!(run, other);
    let standing = |book: &Book| -> Vec<i128> {
        let trades = book.trades.iter().take(before.trades.len());
        trades.map(|trade| trade.standing.0).collect()
    };
    assert_eq!(standing(&before), standing(&after));
    for user in &before.users {
        let place = after.place_of(user.id).expect("the user");
        for area in Area::ALL {
            let sum = position(&after, &after.users[place], area);
            assert_eq!(user.position[area.index()], sum);
        }
    }
    run.reductions
}

#[test]
fn drawn_books_are_accepted_and_bad_managers_are_not() {
    let mut random = Random::new(52);
    let mut refused = [0; BadManager::ALL.len()];
    for _ in 0..1_000 {
        let book = grouped(&mut random);
        assert_eq!(check(&book.to_bytes()), 0);
        for (count, bad) in refused.iter_mut().zip(BadManager::ALL) {
            if let Some((user, area, id)) = bad.drawn(&mut random, &book) {
                let mut book = book.clone();
                book.users[user].managers[area] = id;
                assert_eq!(check(&book.to_bytes()), 5, "{bad:?}");
                *count += 1;
            }
        }
    }
    println!("refused manager ids: {refused:?}");
    assert!(refused.iter().all(|count| *count > 50), "{refused:?}");
}
