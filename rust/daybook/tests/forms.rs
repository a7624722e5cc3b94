//! Field-wise forms of the sample books, and where their columns stand.

use std::fs;
use std::path::Path;

use daybook::{record_wise, record_wise_into, Book, Column, Columns, Field, Operator, Refusal};

/// The sample books of versions 1, 2 and 3.
fn samples() -> [Vec<u8>; 3] {
    ["day.gdb", "day-2.gdb", "day-3.gdb"].map(|name| {
        let folder = Path::new(env!("CARGO_MANIFEST_DIR")).join("../../samples");
        fs::read(folder.join(name)).expect("a sample")
    })
}

/// A field of the record at a place, as reading the book tells it.
fn number(book: &Book, field: Field, place: usize) -> i128 {
    let (users, trades) = (&book.users, &book.trades);
    match field {
        Field::Id => users[place].id.into(),
        Field::Role => users[place].role.into(),
        Field::UserZeros | Field::TradeZero => 0,
        Field::PhysicalPvb => users[place].physical[0].into(),
        Field::PhysicalTvb => users[place].physical[1].into(),
        Field::PhysicalAvb => users[place].physical[2].into(),
        Field::PositionPvb => users[place].position[0].into(),
        Field::PositionTvb => users[place].position[1].into(),
        Field::PositionAvb => users[place].position[2].into(),
        Field::Charges => users[place].charges.into(),
        Field::Assigned => users[place].assigned.into(),
        Field::Blocked => users[place].blocked.into(),
        Field::ManagerPvb => users[place].managers[0].into(),
        Field::ManagerTvb => users[place].managers[1].into(),
        Field::ManagerAvb => users[place].managers[2].into(),
        Field::Seller => trades[place].seller.into(),
        Field::Buyer => trades[place].buyer.into(),
        Field::Area => trades[place].area.into(),
        Field::Kind => trades[place].kind.into(),
        Field::Day => trades[place].day.into(),
        Field::Notified => trades[place].notified.into(),
        Field::Standing => trades[place].standing.into(),
    }
}

/// The numbers of a column, with their sign where the field has one.
fn numbers(field: Field, column: Column, form: &[u8]) -> Vec<i128> {
    match field.is_signed() {
        true => column.signed(form).map(i128::from).collect(),
        false => column.unsigned(form).map(i128::from).collect(),
    }
}

#[test]
fn a_form_gives_its_book_back() {
    for book in samples() {
        let form = Operator::new()
            .field_wise(&book)
            .expect("the form of a sample");
        assert_eq!(form.len(), book.len());
        assert_eq!((&form[..3], &form[3..8]), (&b"GDF"[..], &book[3..8]));
        assert_eq!(record_wise(&form), Ok(book));
    }
}

#[test]
fn each_column_has_its_field_of_all_records() {
    for bytes in samples() {
        let (form, book) = (
            Operator::new().field_wise(&bytes).unwrap(),
            Operator::new().read(&bytes).unwrap(),
        );
        let columns = Columns::of(&form).unwrap();
        assert_eq!(columns.version, book.version);
        for (field, column) in columns.all() {
            let records = match field.is_of_trades() {
                true => book.trades.len(),
                false => book.users.len(),
            };
            let told: Vec<i128> = (0..records).map(|it| number(&book, field, it)).collect();
            assert_eq!(numbers(field, column, &form), told, "{field:?}");
        }
    }
}

#[test]
fn columns_fill_the_form() {
    for version in 1..=3 {
        for (users, trades) in [(1, 0), (2, 1), (64, 0), (64, 256)] {
            let columns = Columns {
                version,
                users,
                trades,
            };
            let mut end = if version == 1 { 32 } else { 40 };
            for (field, column) in columns.all() {
                assert_eq!((column.offset, column.width), (end, field.width()));
                end = column.range().end;
            }
            let user = if version == 3 { 68 } else { 56 };
            let header = if version == 1 { 32 } else { 40 };
            assert_eq!(end, header + user * users + 20 * trades);
            assert_eq!(columns.length(), Some(end));
            let managers = columns.column(Field::ManagerTvb).map(|it| it.offset);
            assert_eq!(managers, (version == 3).then_some(40 + 60 * users));
        }
    }
    for version in [0, 4, 257] {
        let (users, trades) = (2, 1);
        let unknown = Columns {
            version,
            users,
            trades,
        };
        assert_eq!((unknown.all().count(), unknown.length()), (0, None));
    }
    assert_eq!(Field::from_name("blocked"), Some(Field::Blocked));
    assert!(Field::ALL
        .into_iter()
        .all(|it| Field::from_name(it.name()) == Some(it)));
    assert_eq!(Field::from_name("level"), None);
}

#[test]
fn columns_of_other_bytes() {
    let [book, ..] = samples();
    let form = Operator::new().field_wise(&book).unwrap();
    assert_eq!(Columns::of(&form[..8]), Columns::of(&form));
    assert_eq!((Columns::of(&form[..7]), Columns::of(&book)), (None, None));
    let standing = Columns::of(&form).unwrap().column(Field::Standing).unwrap();
    let short = &form[..form.len() - 1];
    assert_eq!(standing.bytes(short), None);
    assert_eq!(standing.unsigned(short).count(), 0);
}

#[test]
fn refusals_leave_the_part() {
    for book in samples() {
        let form = Operator::new().field_wise(&book).unwrap();
        let mut part = vec![7; book.len() + 3];
        Operator::new().field_wise_into(&book, &mut part).unwrap();
        assert_eq!(
            (&part[..form.len()], &part[form.len()..]),
            (&form[..], &[7; 3][..])
        );
        record_wise_into(&form, &mut part).unwrap();
        assert_eq!(
            (&part[..form.len()], &part[form.len()..]),
            (&book[..], &[7; 3][..])
        );

        let mut short = vec![7; book.len() - 1];
        assert_eq!(
            Operator::new().field_wise_into(&book, &mut short),
            Err(Refusal::FormRoom)
        );
        assert_eq!(record_wise_into(&form, &mut short), Err(Refusal::FormRoom));
        // asked before the room
        assert_eq!(
            Operator::new().field_wise_into(&form, &mut short),
            Err(Refusal::Mark)
        );
        assert_eq!(record_wise_into(&book, &mut short), Err(Refusal::Form));
        assert!(short.iter().all(|byte| *byte == 7));
    }
}

#[test]
fn only_the_form_of_an_accepted_book_is_one() {
    for book in samples() {
        let form = Operator::new().field_wise(&book).unwrap();
        assert_eq!(record_wise(&form[..form.len() - 1]), Err(Refusal::Form));
        assert_eq!(record_wise(&[&form[..], &[0]].concat()), Err(Refusal::Form));
        assert_eq!(record_wise(&vec![0; 20_000]), Err(Refusal::Form));
        assert_eq!(record_wise(&[]), Err(Refusal::Form));
        let columns = Columns::of(&form).unwrap();
        for field in [Field::UserZeros, Field::PositionTvb, Field::TradeZero] {
            let mut wrong = form.clone();
            wrong[columns.column(field).unwrap().offset] ^= 1;
            assert_eq!(record_wise(&wrong), Err(Refusal::Form), "{field:?}");
        }
    }
}
