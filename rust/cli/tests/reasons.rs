//! The reasons of refused calls agree with the engine: a store is malformed in
//! words exactly where question 16 says so, its figures are those of the
//! reference, and a refusal of every number has its reason.

#![forbid(unsafe_code)]

use std::collections::BTreeSet;

use books::{Generator, Kind};
use cli::parameters;
use cli::reasons::{reason, Asked};
use cli::source::Store;
use daybook::{Operator, Refusal};
use daybook_text::store::{figures, malformed, not_in_force};
use reference::party::{Act, Given};
use reference::questions::opening_questions;

#[test]
fn stores_are_malformed_where_question_16_says_so() {
    let mut generator = Generator::new(41);
    let mut seen = BTreeSet::new();
    for _ in 0..20_000 {
        let book = generator.book(Kind::Small);
        let Some(bytes) = generator.store(&book) else {
            continue;
        };
        let operator = daybook::Operator::new().store(&bytes);
        let refusal = operator
            .record(&book, 0)
            .expect_err("0 is the id of no user");
        assert_eq!(
            refusal == Refusal::StoreForm,
            malformed(&bytes).is_some(),
            "{bytes:?}"
        );
        let date = Operator::new().read(&book).expect("a book").date;
        if refusal == Refusal::Id {
            let limits = reference::store::limits(Some(&bytes), date).expect("a set in force");
            let figures = figures(Some(&bytes), date);
            assert_eq!(i128::from(figures.flag_mwh), limits.flag_energy.0);
            assert_eq!(i128::from(figures.margin), limits.margin.0);
            assert_eq!(i128::from(figures.least_level), limits.least_level.0);
        } else {
            assert!(!not_in_force(&bytes, date).is_empty());
        }
        seen.insert(refusal.number());
    }
    assert_eq!(seen, BTreeSet::from([8, 16, 17]));
}

/// A store as text and back; the engine's word on its form is the same by itself
/// as with a book.
#[test]
fn stores_as_text_and_back() {
    let mut generator = Generator::new(43);
    let mut seen = [0; 2];
    for _ in 0..4_000 {
        let book = generator.book(Kind::Small);
        let Some(bytes) = generator.store(&book) else {
            continue;
        };
        let refused = daybook::Operator::new().store(&bytes).record(&book, 0);
        let is_malformed = refused == Err(Refusal::StoreForm);
        assert_eq!(parameters::refusal(&bytes).is_some(), is_malformed);
        if !is_malformed {
            let text = parameters::write(&bytes);
            assert_eq!(parameters::read(text.as_bytes()), Ok(bytes));
        }
        seen[usize::from(is_malformed)] += 1;
    }
    assert!(seen.iter().all(|count| *count > 100), "{seen:?}");
    for (text, told) in [
        ("parameter 1", ":1:1: `parameter` instead of `parameters`"),
        (
            "parameters 1\nfrom 2026-1-1",
            ":2:6: the date is written as 2026-03-18, not `2026-1-1`",
        ),
        (
            "parameters 1\nfrom 2026-01-01 flag 1",
            ":2:23: a set has `flag MWH`, `margin EUR` and `least EUR`",
        ),
        (
            "parameters 1\nfrom 2026-01-01 flag 1 flag 1",
            ":2:24: a second flag",
        ),
        (
            "parameters 1\nfrom 2026-01-01 limit 1",
            ":2:17: a figure is `flag`, `margin` or `least`",
        ),
        (
            "parameters 1\nfrom 2026-01-01 margin 5",
            ":2:24: margin is euros with two decimals, as 1,234.50, not `5`",
        ),
    ] {
        let mistakes = parameters::read(text.as_bytes()).expect_err("a mistake");
        assert_eq!(
            format!("{}: {}", mistakes[0].spot, mistakes[0].reason),
            told
        );
    }
}

#[test]
fn every_refusal_of_a_call_has_its_reason() {
    let mut generator = Generator::new(42);
    let mut seen = BTreeSet::new();
    for round in 0..30_000 {
        let kind = generator
            .random()
            .pick(&[Kind::Small, Kind::Midday, Kind::Chain, Kind::Shares]);
        let book = generator.book(kind);
        let store = Store {
            bytes: generator.store(&book),
        };
        let arguments = generator.arguments(&book);
        let (id, area, amount) = (arguments.id, arguments.area, arguments.amount);
        let mut operator = store.operator();
        let mut copy = book.clone();
        let (asked, refusal) = match round % 4 {
            0 => (
                Asked::MorningCall,
                operator.morning_call(&mut copy, id).err(),
            ),
            1 => (
                Asked::AfternoonCall,
                operator.afternoon_call(&mut copy, id).err(),
            ),
            2 => (Asked::Reduction, operator.reduction(&mut copy, id).err()),
            _ => (
                Asked::Posting { area, amount },
                operator.posting(&mut copy, id, area, amount).err(),
            ),
        };
        if let Some(refusal) = refusal {
            let told = reason(&book, &store, id, asked, refusal);
            assert!(!told.is_empty(), "{asked:?} {refusal}");
            if refusal == Refusal::CalledIn {
                margin_agrees(&book, &store, id, asked, &told);
            }
            seen.insert(refusal.number());
        }
    }
    assert_eq!(seen, BTreeSet::from([8, 9, 10, 11, 12, 13, 14, 16, 17]));
}

/// Question 11 asks two things; the one that is told is the one that fails.
fn margin_agrees(book: &[u8], store: &Store, id: u32, asked: Asked, told: &str) {
    let opened = opening_questions(
        book,
        Given::by_operator(store.bytes.as_deref()),
        Act::Operators,
    );
    let opened = opened.unwrap_or_else(|number| panic!("refused {number}"));
    let (limits, fields) = (&opened.limits, &opened.book);
    let place = fields.place_of(id).expect("a user");
    let user = &fields.users[place];
    let level = match asked {
        Asked::MorningCall => reference::levels::morning_level_of(limits, fields, user),
        _ => reference::levels::afternoon_level_of(limits, fields, user),
    };
    let above = reference::levels::above_margin(limits, user, level);
    assert_eq!(above, told.contains("is not called in"), "{told}");
}
