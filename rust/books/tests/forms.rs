//! Field-wise forms (ask 13) on random books: there and back, each damage of a form,
//! and which numbers are met.

#![forbid(unsafe_code)]

use std::collections::BTreeMap;

use books::forms::{columns, form_of, FormDamage};
use books::versions::VERSIONS;
use books::{answer, Call, Generator, Kind};
use reference::book::Header;
use reference::party::{Given, Party};
use reference::{form, restore};

/// "The inverse gives the book back": for accepted books of every kind; all others
/// are refused by the questions of a book, and their forms with 29.
#[test]
fn there_and_back() {
    let mut generator = Generator::new(81);
    let (mut rearranged, mut refused) = (0, 0);
    for _ in 0..3_000 {
        let book = generator.any_book();
        let mut output = vec![0xAA; book.len()];
        let number = form(&book, Party::Operator, &mut output);
        assert_eq!(number, reference::check(&book));
        let mut back = vec![0xAA; book.len()];
        if number != 0 {
            assert_eq!(output, back, "an output left by the refusal");
            // A form has a mark of its own, whatever the book's is.
            if number != 1 {
                assert_eq!(restore(&form_of(&book), &mut back), 29);
            }
            refused += 1;
            continue;
        }
        assert_eq!(output, form_of(&book));
        let mut sorted = [book.clone(), output.clone()];
        sorted[1][2] = b'B';
        sorted.iter_mut().for_each(|bytes| bytes.sort_unstable());
        assert_eq!(sorted[0], sorted[1], "the same bytes in another order");
        assert_eq!((restore(&output, &mut back), &back), (0, &book));
        rearranged += 1;
    }
    println!("{rearranged} books there and back, {refused} refused");
    assert!(rearranged > 2_000 && refused > 300);
}

/// The columns stand one after the other behind the header, up to the end; each one
/// has the field of each record.
#[test]
fn columns_of_fields() {
    let mut generator = Generator::new(82);
    for version in VERSIONS {
        let book = generator.sized(version, 5, 7);
        let form = form_of(&book.to_bytes());
        let columns = columns(&Header::from_bytes(&form));
        assert_eq!(columns.len(), if version == 3 { 15 + 8 } else { 12 + 8 });
        let mut end = if version == 1 { 32 } else { 40 };
        for column in &columns {
            assert_eq!(column.start, end);
            end += column.width * column.count;
        }
        assert_eq!(end, form.len());
        let word = |at: usize| reference::book::u32_at(&form, at);
        for (place, user) in book.users.iter().enumerate() {
            assert_eq!(word(columns[0].start + 4 * place), user.id);
            assert_eq!(form[columns[1].start + place], user.role);
        }
        let standing = columns.last().expect("standing").start;
        for (place, trade) in book.trades.iter().enumerate() {
            assert_eq!(i128::from(word(standing + 4 * place)), trade.standing.0);
        }
    }
}

/// What a damaged form is answered by: 29, or the book whose form it is.
#[test]
fn every_damage() {
    let mut generator = Generator::new(83);
    let mut met: BTreeMap<String, [u32; 2]> = BTreeMap::new();
    for damage in FormDamage::ALL {
        for _ in 0..200 {
            let book = generator.book(Kind::Small);
            let damaged = damage.applied(generator.random(), &book);
            let mut output = vec![0xAA; damaged.len()];
            let number = restore(&damaged, &mut output);
            let mut again = vec![0xAA; damaged.len()];
            if number == 0 {
                assert_eq!(
                    (form(&output, Party::Operator, &mut again), &again),
                    (0, &damaged)
                );
            } else {
                assert_eq!((number, &output), (29, &again));
            }
            met.entry(format!("{damage:?}")).or_default()[usize::from(number == 0)] += 1;
        }
    }
    println!("{met:?}");
    let taken = [
        "AnyByte",
        "Book",
        "Columns",
        "Records",
        "RecordWise",
        "Shifted",
    ];
    for (damage, [refused, accepted]) in met {
        assert!(refused > 0, "{damage}");
        assert!(accepted == 0 || taken.contains(&&damage[..]), "{damage}");
    }
}

/// Drawn calls meet each number, in each version that can give it.
#[test]
fn every_number() {
    let mut generator = Generator::new(84);
    let mut met: BTreeMap<(&str, u8, u32), u32> = BTreeMap::new();
    for _ in 0..6_000 {
        let book = generator.any_book();
        let form = (book.clone(), generator.form(&book));
        for (bytes, call) in [form, generator.restore(&book)] {
            let number = answer(&mut bytes.clone(), Given::OPERATOR, None, &call).number;
            let version = bytes.get(3).copied().unwrap_or(0);
            *met.entry((call.name(), version, number)).or_default() += 1;
        }
    }
    for version in [1, 2, 3] {
        for number in [0, 3, 4, 5, 6, 7, 30] {
            assert!(met.contains_key(&("form", version, number)), "{number}");
        }
        for number in [0, 29, 30] {
            assert!(met.contains_key(&("restore", version, number)), "{number}");
        }
    }
    let known = |(name, _, number): &(&str, u8, u32)| match *name {
        "form" => *number <= 7 || *number == 30,
        _ => [0, 29, 30].contains(number),
    };
    assert!(met.keys().all(known), "{met:?}");
}

/// A call on a longer output keeps its rest; one that is too short, even by one byte,
/// or empty is left.
#[test]
fn outputs() {
    let mut generator = Generator::new(85);
    for version in VERSIONS {
        let mut book = generator.book_of(version, Kind::Usual);
        let mut form = form_of(&book);
        let bytes = [form.clone(), book.clone()];
        for length in [0, 1, form.len() - 1, form.len(), form.len() + 1, 20_000] {
            let calls = [Call::Form { length }, Call::Restore { length }];
            for ((call, given), expected) in calls.iter().zip([&mut book, &mut form]).zip(&bytes) {
                let found = answer(given, Given::OPERATOR, None, call);
                let short = length < expected.len();
                let mut output = vec![0xAA; length];
                if !short {
                    output[..expected.len()].copy_from_slice(expected);
                }
                assert_eq!(found.number, if short { 30 } else { 0 });
                assert_eq!(found.part, output, "{length}");
            }
        }
    }
}
