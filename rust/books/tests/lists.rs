//! Lists of postings (ask 1) by the reference: what the ask says of them, on
//! lists written out and on drawn ones.

#![forbid(unsafe_code)]

use std::collections::BTreeMap;

use books::answers::PLACE_BEFORE;
use books::written::printed_example;
use books::{answer, Answer, Call, Generator, Kind};
use reference::book::User;
use reference::list::MOST_LINES;
use reference::party::Given;
use reference::questions::questions_1_to_7;
use reference::units::Mwh;

/// A list of these lines, with as many places.
fn list(lines: &[(u32, u32, i64)]) -> Call {
    Call::List {
        ids: lines.iter().map(|line| line.0).collect(),
        areas: lines.iter().map(|line| line.1).collect(),
        amounts: lines.iter().map(|line| line.2).collect(),
        places: lines.len(),
    }
}

/// The same line so many times in each column, and so many places.
fn counted([ids, areas, amounts, places]: [usize; 4]) -> Call {
    Call::List {
        ids: vec![101; ids],
        areas: vec![0; areas],
        amounts: vec![1; amounts],
        places,
    }
}

fn user(book: &[u8], place: usize) -> User {
    let book = questions_1_to_7(book).expect("an accepted book");
    book.users[place].clone()
}

/// Each line is judged on the book that the lines before it left, and a refused
/// line stops none after it.
#[test]
fn a_list_written_out() {
    let mut book = printed_example().to_bytes();
    let lines = [
        (101, 0, 1_000_000),
        (101, 0, 20_000),
        (103, 0, 1),
        (101, 3, 1),
        (101, 0, -1_000_000),
        (101, 0, 20_000),
        (102, 2, -7),
        (102, 1, i64::MIN),
    ];
    let given = answer(&mut book, Given::OPERATOR, None, &list(&lines));
    assert_eq!(given.number, 0);
    assert_eq!(given.fields, [0, 10, 8, 10, 0, 0, 0, 10]);
    assert_eq!(user(&book, 0).physical, [10_000, 0, 0].map(Mwh));
    assert_eq!(user(&book, 0).position, [-20_000, 0, 0].map(Mwh));
    assert_eq!(user(&book, 1).position, [30_000, 0, -7].map(Mwh));
}

/// 512 lines are taken and 513 are not; a column or the places of another count
/// are refused with 15. Places and book then stay.
#[test]
fn counts() {
    let opening = printed_example().to_bytes();
    let most = MOST_LINES;
    for count in [0, 1, 2, most - 1, most, most + 1, 2 * most] {
        let mut book = opening.clone();
        let given = answer(&mut book, Given::OPERATOR, None, &counted([count; 4]));
        assert_eq!(given.number, if count <= most { 0 } else { 15 });
        for column in 0..4 {
            for other in [count + 1, count.saturating_sub(1), 0, most] {
                let mut counts = [count; 4];
                counts[column] = other;
                let mut book = opening.clone();
                let given = answer(&mut book, Given::OPERATOR, None, &counted(counts));
                if other == count && count <= most {
                    assert_eq!(given.number, 0, "{counts:?}");
                } else {
                    let places = vec![PLACE_BEFORE; counts[3]];
                    assert_eq!(given.number, 15, "{counts:?}");
                    assert_eq!(
                        given.fields,
                        places.into_iter().map(i128::from).collect::<Vec<i128>>()
                    );
                    assert_eq!(book, opening);
                }
            }
        }
    }
}

/// 15 is asked after 7 and before 16.
#[test]
fn the_order_of_the_questions() {
    let opening = printed_example().to_bytes();
    let mut moved = opening.clone();
    moved[32 + 20] ^= 1;
    let uneven = counted([1, 1, 1, 0]);
    let number = |book: &[u8], store: Option<&[u8]>, list: &Call| {
        answer(&mut book.to_vec(), Given::by_operator(store), None, list).number
    };
    let store = b"GPS\x01\x00\x00";
    assert_eq!(number(&moved, Some(&[]), &uneven), 7);
    assert_eq!(number(&opening, Some(&[]), &uneven), 15);
    assert_eq!(number(&opening, Some(&[]), &counted([1; 4])), 16);
    assert_eq!(number(&opening, Some(store), &uneven), 15);
    assert_eq!(number(&opening, Some(store), &counted([1; 4])), 17);
    assert_eq!(number(&opening, None, &counted([0; 4])), 0);
}

/// The numbers and the book are those of the postings made one after another.
fn postings(book: &mut [u8], store: Option<&[u8]>, list: &Call) -> Vec<i128> {
    let Call::List {
        ids,
        areas,
        amounts,
        ..
    } = list
    else {
        return Vec::new();
    };
    let lines = ids.iter().zip(areas).zip(amounts);
    let posting = |((id, area), amount): ((&u32, &u32), &i64)| Call::Posting {
        id: *id,
        area: *area,
        amount: *amount,
    };
    let numbers =
        lines.map(|line| answer(book, Given::by_operator(store), None, &posting(line)).number);
    numbers.map(i128::from).collect()
}

#[test]
fn drawn_lists() {
    let mut generator = Generator::new(9);
    let (mut calls, mut lines) = (BTreeMap::new(), BTreeMap::new());
    for _ in 0..3_000 {
        let opening = generator.any_book();
        let store = generator.store(&opening);
        let store = store.as_deref();
        let call = generator.list(&opening);
        let mut book = opening.clone();
        let Answer { number, fields, .. } =
            answer(&mut book, Given::by_operator(store), None, &call);
        *calls.entry(number).or_insert(0) += 1;
        if number == 0 {
            let mut other = opening.clone();
            assert_eq!(fields, postings(&mut other, store, &call));
            assert_eq!(book, other);
            for number in fields {
                *lines.entry(number).or_insert(0) += 1;
            }
        } else {
            assert!(fields
                .iter()
                .all(|place| *place == i128::from(PLACE_BEFORE)));
            assert_eq!(book, opening);
        }
    }
    println!("calls {calls:?}, lines {lines:?}");
    let reached: Vec<u32> = calls.into_keys().collect();
    assert_eq!(reached, [0, 1, 2, 3, 4, 5, 6, 7, 15, 16, 17]);
    assert_eq!(lines.into_keys().collect::<Vec<i128>>(), [0, 8, 10]);
}

/// A line's number depends on the lines before it: some differ from the number
/// on the opening book, either way.
#[test]
fn lines_that_depend_on_others() {
    let mut generator = Generator::new(10);
    let (mut accepted, mut refused) = (0, 0);
    for _ in 0..500 {
        let opening = generator.book(Kind::Small);
        let list = generator.list_of(&opening, 20);
        let fields = answer(&mut opening.clone(), Given::OPERATOR, None, &list).fields;
        let Call::List {
            ids,
            areas,
            amounts,
            ..
        } = list
        else {
            continue;
        };
        for (line, number) in fields.into_iter().enumerate() {
            let (id, area, amount) = (ids[line], areas[line], amounts[line]);
            let alone = reference::posting(
                &mut opening.clone(),
                Given::OPERATOR,
                None,
                id,
                area,
                amount,
            );
            accepted += u32::from(number == 0 && alone != 0);
            refused += u32::from(number != 0 && alone == 0);
        }
    }
    println!("accepted only after others: {accepted}, refused only after others: {refused}");
    assert!(accepted > 100 && refused > 100);
}
