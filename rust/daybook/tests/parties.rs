//! Who may see and do what (document 02, ask 9).

use std::fs;
use std::path::Path;

use daybook::archive::{self, OPERATOR, WRONG_LENGTH};
use daybook::{
    Book, Log, Operator, Refusal, Shipper, Trade, User, IMAGE_LENGTH, MOST_TRADES, RECORD_LENGTH,
    TRADE_LENGTH,
};

/// The sample books of versions 1, 2 and 3; the last has a group.
fn samples() -> [Vec<u8>; 3] {
    ["day.gdb", "day-2.gdb", "day-3.gdb"].map(|name| {
        let folder = Path::new(env!("CARGO_MANIFEST_DIR")).join("../../samples");
        fs::read(folder.join(name)).expect("a sample")
    })
}

fn bytes(book: &Book) -> Vec<u8> {
    let mut bytes = vec![0; book.length()];
    daybook::write(book, &mut bytes).expect("a book");
    bytes
}

/// A book with a clearing house, 900.
fn with_clearing_house() -> Vec<u8> {
    let mut book = Operator::new().read(&samples()[2]).expect("a book");
    let (id, role) = (900, 1);
    book.users.push(User {
        id,
        role,
        ..User::default()
    });
    bytes(&book)
}

/// The trades that a shipper may see, by the words of the document.
fn seen(book: &Book, id: u32) -> Vec<Trade> {
    let managed = |party: u32, area: u8| {
        let mut users = book.users.iter();
        users.any(|user| user.id == party && user.managers[usize::from(area)] == id)
    };
    let may = |trade: &&Trade| {
        let parties = [trade.seller, trade.buyer];
        parties.contains(&id) || parties.iter().any(|party| managed(*party, trade.area))
    };
    book.trades.iter().filter(may).copied().collect()
}

#[test]
fn a_shipper_is_told_of_itself_what_the_operator_is_told() {
    let operator = Operator::new();
    for book in samples() {
        let fields = operator.read(&book).expect("a book");
        for user in &fields.users {
            let (id, shipper) = (user.id, Shipper::new(user.id));
            assert_eq!(shipper.id(), id);
            assert_eq!(shipper.record(&book), Ok(*user));
            assert_eq!(operator.record(&book, id), Ok(*user));
            assert_eq!(shipper.record_picked(&[], &book, true), Ok(*user));
            let picked = shipper.record_picked(&[], &book, false);
            assert_eq!(picked, Err(Refusal::Mark));
            let levels = (
                operator.morning_level(&book, id),
                operator.afternoon_level(&book, id),
            );
            assert_eq!(
                (shipper.morning_level(&book), shipper.afternoon_level(&book)),
                levels
            );
            assert_eq!(shipper.flag(&book), operator.flag(&book, id));
            let trades = seen(&fields, id);
            assert_eq!(shipper.trades(&book).as_ref(), Ok(&trades));
            assert_eq!(operator.trades(&book, id).as_ref(), Ok(&trades));
            let count = u32::try_from(trades.len()).expect("a count");
            assert_eq!(shipper.trade_count(&book), Ok(count));
            assert_eq!(operator.trade_count(&book, id), Ok(count));
            for (ordinal, trade) in (0..).zip(&trades) {
                assert_eq!(shipper.trade(&book, ordinal), Ok(Some(*trade)));
            }
            for past in [count, count + 1, u32::MAX] {
                assert_eq!(shipper.trade(&book, past), Ok(None));
                assert_eq!(operator.trade(&book, id, past), Ok(None));
            }
        }
    }
}

/// The manager of 103 in PVB sees its trades there, and not the trade of 103 in TVB
/// that is put in; 103 sees both, 101 keeps its own.
#[test]
fn a_manager_sees_its_members_trades_in_that_area() {
    let mut book = Operator::new().read(&samples()[2]).expect("a book");
    assert_eq!(book.users[2].managers, [101, 0, 0]);
    let sold = |area| Trade {
        seller: 103,
        buyer: 102,
        area,
        notified: 7,
        standing: 7,
        ..Trade::default()
    };
    let before = seen(&book, 101).len();
    book.trades.extend([sold(1), sold(0)]);
    for area in 0..2 {
        book.users[2].position[area] -= 7;
        book.users[1].position[area] += 7;
    }
    let bytes = bytes(&book);
    let trades = Shipper::new(101).trades(&bytes).expect("trades");
    assert_eq!(trades.len(), before + 1);
    assert_eq!(trades.last(), Some(&sold(0)));
    let own = Shipper::new(103).trades(&bytes).expect("trades");
    assert_eq!(own[own.len() - 2..], [sold(1), sold(0)]);
    let member = Operator::new().record(&bytes, 103);
    assert_eq!(member, Ok(book.users[2]));
}

#[test]
fn nobody_else_is_told_anything() {
    let malformed = [];
    let book = with_clearing_house();
    for id in [0, 1, 100, 104, 899, 900, 901, u32::MAX] {
        for shipper in [Shipper::new(id), Shipper::new(id).store(&malformed)] {
            let party = Some(Refusal::Party);
            assert_eq!(shipper.record(&book).err(), party);
            assert_eq!(shipper.record_picked(&book, &[], false).err(), party);
            assert_eq!(shipper.morning_level(&book).err(), party);
            assert_eq!(shipper.afternoon_level(&book).err(), party);
            assert_eq!(shipper.flag(&book).err(), party);
            assert_eq!(shipper.trade_count(&book).err(), party);
            assert_eq!(shipper.trade(&book, 0).err(), party);
            assert_eq!(shipper.trades(&book).err(), party);
            // the questions 1 to 7 come before
            assert_eq!(shipper.flag(&book[..40]), Err(Refusal::CountsAndLength));
        }
    }
    let shipper = Shipper::new(101).store(&malformed);
    assert_eq!(shipper.flag(&book), Err(Refusal::StoreForm));
    // the operator is asked 8 and 9
    let operator = Operator::new();
    assert_eq!(operator.flag(&book, 899), Err(Refusal::Id));
    assert_eq!(operator.flag(&book, 900), Err(Refusal::Shipper));
    assert_eq!(operator.trades(&book, 900), Err(Refusal::Shipper));
    assert_eq!(operator.record(&book, 900).map(|user| user.role), Ok(1));
}

/// The number of every call on a book by this party, for this id; each is made on a
/// copy, which an answer of 26 has to leave.
fn numbers(book: &[u8], party: u64, id: u32) -> Vec<(&'static str, u32)> {
    let log = Log::start(book).expect("a log").into_bytes();
    let changing = |call: &dyn Fn(&mut [u8], &mut [u8], &mut [u64]) -> u32, fields: usize| {
        let (mut copy, mut lent, mut answer) = (book.to_vec(), log.clone(), vec![7; fields]);
        let number = call(&mut copy, &mut lent, &mut answer);
        if number == Refusal::Party.number() {
            assert_eq!((&copy[..], &lent[..]), (book, &log[..]));
            assert!(answer.iter().all(|number| *number == 0));
        }
        number
    };
    let number = |call: &dyn Fn(&mut [u64]) -> u32| {
        let mut answer = [7];
        let number = call(&mut answer);
        assert!(number == 0 || answer == [0]);
        number
    };
    let part = |call: &dyn Fn(&mut [u8]) -> u32, length: usize| {
        let mut part = vec![7; length];
        let number = call(&mut part);
        assert!(number == 0 || part.iter().all(|byte| *byte == 0));
        number
    };
    let mut form = vec![7; book.len()];
    let formed = archive::form(book, party, &mut form);
    assert!(formed == 0 || form.iter().all(|byte| *byte == 7));
    let mut converted = vec![7; IMAGE_LENGTH];
    let version = archive::convert(book, party, 3, &mut converted);
    assert!(version == 0 || converted.iter().all(|byte| *byte == 7));
    let mut places = [7];
    let listed = archive::list(
        &mut book.to_vec(),
        party,
        None,
        None,
        &[id],
        &[0],
        &[1],
        &mut places,
    );
    assert!(listed == 0 || places == [7]);
    let mut marks = [7; MOST_TRADES];
    let cancelled = archive::cancellation(book, party, None, id, 9, &mut marks, &mut [0; 3]);
    assert!(cancelled == 0 || marks == [0; MOST_TRADES]);
    vec![
        (
            "read",
            part(&|it| archive::read(book, party, it), IMAGE_LENGTH),
        ),
        ("convert", version),
        ("form", formed),
        (
            "record",
            part(
                &|it| archive::show(book, party, None, id, it),
                RECORD_LENGTH,
            ),
        ),
        (
            "record_picked",
            part(
                &|it| archive::show_picked(&[], book, party, None, 1, id, it),
                RECORD_LENGTH,
            ),
        ),
        (
            "morning_level",
            number(&|it| archive::morning_level(book, party, None, id, it)),
        ),
        (
            "afternoon_level",
            number(&|it| archive::afternoon_level(book, party, None, id, it)),
        ),
        (
            "warning",
            number(&|it| archive::warning(book, party, None, id, it)),
        ),
        (
            "flag",
            number(&|it| archive::flag(book, party, None, id, it)),
        ),
        (
            "trade_count",
            number(&|it| archive::trade_count(book, party, None, id, it)),
        ),
        (
            "trade",
            part(
                &|it| archive::trade(book, party, None, id, 0, it, &mut [7]),
                TRADE_LENGTH,
            ),
        ),
        (
            "posting",
            changing(
                &|book, log, _| archive::posting(book, party, None, Some(log), id, 0, 1),
                0,
            ),
        ),
        ("list", listed),
        (
            "morning_call",
            changing(
                &|book, log, it| archive::morning_call(book, party, None, Some(log), id, it),
                2,
            ),
        ),
        (
            "afternoon_call",
            changing(
                &|book, log, it| archive::afternoon_call(book, party, None, Some(log), id, it),
                2,
            ),
        ),
        (
            "reduction",
            changing(
                &|book, log, it| archive::reduction(book, party, None, Some(log), id, it),
                5,
            ),
        ),
        ("cancellation", cancelled),
        (
            "run",
            changing(
                &|book, log, it| archive::run(book, party, None, Some(log), it),
                3,
            ),
        ),
        (
            "withdrawal",
            changing(
                &|book, log, it| archive::withdrawal(book, party, None, log, it),
                2,
            ),
        ),
    ]
}

/// The calls that a shipper may make for its own id.
const SHIPPERS: [&str; 7] = [
    "record",
    "record_picked",
    "morning_level",
    "afternoon_level",
    "flag",
    "trade_count",
    "trade",
];

#[test]
fn every_call_by_parties_of_any_kind() {
    let book = with_clearing_house();
    let operators = numbers(&book, OPERATOR, 101);
    assert!(operators.iter().all(|(_, number)| *number != 26));
    for (place, (call, number)) in numbers(&book, 101, 101).into_iter().enumerate() {
        let may = SHIPPERS.contains(&call);
        assert_eq!(number, if may { operators[place].1 } else { 26 }, "{call}");
    }
    let ends = [0, 1, 900, OPERATOR - 1, OPERATOR + 1, OPERATOR + 101];
    let beyond = [101 << 32, 1 << 63, u64::MAX, 102, 103];
    for party in ends.into_iter().chain(beyond) {
        for (call, number) in numbers(&book, party, 101) {
            assert_eq!(number, 26, "{call} by {party}");
        }
    }
    // a clearing house may not even ask for itself, a manager not for its member
    for (party, id) in [(900, 900), (101, 103)] {
        for (call, number) in numbers(&book, party, id) {
            assert_eq!(number, 26, "{call} by {party} for {id}");
        }
    }
}

#[test]
fn parts_of_other_lengths_are_told_first() {
    let [book, ..] = samples();
    for party in [0, 101, OPERATOR, u64::MAX] {
        for length in [0, TRADE_LENGTH - 1, TRADE_LENGTH + 1] {
            let mut part = vec![7; length];
            let number = archive::trade(&book, party, None, 101, 0, &mut part, &mut [7]);
            assert_eq!(number, WRONG_LENGTH);
            assert!(part.iter().all(|byte| *byte == 7));
        }
        for mut answer in [vec![], vec![7, 7]] {
            let number = archive::flag(&book, party, None, 101, &mut answer);
            assert_eq!(number, WRONG_LENGTH);
            let number = archive::trade_count(&book, party, None, 101, &mut answer);
            assert_eq!(number, WRONG_LENGTH);
            let mut part = [7; TRADE_LENGTH];
            let number = archive::trade(&book, party, None, 101, 0, &mut part, &mut answer);
            assert_eq!((number, part), (WRONG_LENGTH, [7; TRADE_LENGTH]));
            assert!(answer.iter().all(|number| *number == 7));
        }
    }
}
