//! Document 02, ask 9: who may see and do what. 101 manages 102 in PVB, 103 trades
//! with both, 104 is a clearing house.

#![forbid(unsafe_code)]

mod common;

use common::{book, for_tomorrow, house, one_below, sale, shipper};
use reference::list::Columns;
use reference::log::LOG_LENGTH;
use reference::party::{Given, Party};
use reference::{flag, trade, trade_count};

fn bytes() -> Vec<u8> {
    book(
        vec![
            shipper(101, [-40_000, 0, 0], [0; 3]),
            shipper(102, [0; 3], [101, 0, 0]),
            shipper(103, [0; 3], [0; 3]),
            house(104),
        ],
        vec![
            sale(102, 103, 0, 1),
            sale(102, 103, 1, 2),
            sale(103, 104, 0, 3),
            for_tomorrow(sale(103, 102, 0, 4)),
            sale(101, 104, 2, 5),
            one_below(sale(101, 102, 0, 6)),
        ],
    )
    .to_bytes()
}

/// A party by its number, without a store.
fn by(number: u64) -> Given<'static> {
    Given {
        party: Party::of(number),
        store: None,
    }
}

/// The operator is 2^32, a shipper its id.
#[test]
fn numbers_of_parties() {
    assert_eq!(Party::of(1 << 32), Party::Operator);
    assert_eq!(Party::of(101), Party::Shipper(101));
    for number in [0, 101, (1 << 32) - 1, 1 << 32, (1 << 32) + 101, u64::MAX] {
        assert_eq!(Party::of(number).number(), number);
    }
}

/// Its own trades, "and for an area where it manages others .. their trades in that
/// area"; each of them once, in book order, whatever its kind, day and standing.
#[test]
fn trades() {
    let bytes = bytes();
    let trades = 40 + 4 * 68;
    for (id, seen) in [
        (101, &[0, 3, 4, 5][..]),
        (102, &[0, 1, 3, 5]),
        (103, &[0, 1, 2, 3]),
    ] {
        for given in [Given::OPERATOR, by(id.into())] {
            let answer = trade_count(&bytes, given, id);
            assert_eq!((answer.number, answer.count), (0, 4), "{id}");
            for (ordinal, place) in (0..).zip(seen) {
                let part = &bytes[trades + 20 * place..][..20];
                assert_eq!(trade(&bytes, given, id, ordinal), (0, part));
            }
            for past in [4, 5, 256, u32::MAX] {
                assert_eq!(trade(&bytes, given, id, past), (0, &[][..]));
            }
        }
    }
    assert_eq!(trade_count(&bytes, Given::OPERATOR, 104).number, 9);
    assert_eq!(trade(&bytes, Given::OPERATOR, 104, 0).0, 9);
    assert_eq!(flag(&bytes, Given::OPERATOR, 104).number, 9);
    assert_eq!(trade_count(&bytes, Given::OPERATOR, 7).number, 8);
}

/// The numbers that the calls which a shipper may make give for this id: record,
/// record of two books, levels, flag, count, trade.
fn own(bytes: &[u8], given: Given<'_>, id: u32) -> [u32; 7] {
    [
        reference::show(bytes, given, id).0,
        reference::show_picked(b"", bytes, given, true, id).0,
        reference::morning_level(bytes, given, id).number,
        reference::afternoon_level(bytes, given, id).number,
        flag(bytes, given, id).number,
        trade_count(bytes, given, id).number,
        trade(bytes, given, id, 0).0,
    ]
}

/// "A forbidden act, or a call for another id, a member's too, gives 26."
#[test]
fn own_calls() {
    let bytes = bytes();
    assert_eq!(own(&bytes, by(101), 101), [0; 7]);
    assert_eq!(own(&bytes, by(101), 102), [26; 7], "a member's");
    assert_eq!(own(&bytes, by(102), 101), [26; 7], "the manager's");
    assert_eq!(own(&bytes, by(101), 7), [26; 7], "never 8");
    assert_eq!(own(&bytes, by(104), 104), [26; 7], "no shipper, never 9");
    assert_eq!(own(&bytes, by(7), 7), [26; 7], "no user");
    assert_eq!(own(&bytes, by(0), 0), [26; 7]);
    assert_eq!(own(&bytes, by((1 << 32) + 101), 101), [26; 7], "of 33 bits");
    assert_eq!(own(&bytes, by(u64::MAX), u32::MAX), [26; 7]);
    assert_eq!(own(&bytes[1..], by(7), 7), [1; 7], "after question 7");
    let with_bad_store = |number| Given {
        party: Party::of(number),
        store: Some(b""),
    };
    assert_eq!(own(&bytes, with_bad_store(101), 102), [26; 7], "before 16");
    assert_eq!(own(&bytes, with_bad_store(101), 101), [16; 7]);
    assert!(flag(&bytes, by(101), 101).flagged);
    assert!(!flag(&bytes, by(102), 102).flagged);
}

/// The party of a record from two books is judged in the picked one.
#[test]
fn the_picked_book() {
    let here = bytes();
    let without = book(vec![house(101), shipper(102, [0; 3], [0; 3])], Vec::new());
    let elsewhere = without.to_bytes();
    let numbers = [false, true].map(|pick| {
        let shown = reference::show_picked(&elsewhere, &here, by(101), pick, 101);
        shown.0
    });
    assert_eq!(numbers, [26, 0]);
}

/// "All else is the operator's": nothing is changed, and 26 is asked before 15, 16, 19,
/// 23, 25 and 30.
#[test]
fn the_operators_calls() {
    let before = bytes();
    for party in [101, 103, 104, 7, 0, (1 << 32) + 1, u64::MAX] {
        let (mut bytes, given) = (bytes(), by(party));
        let columns = Columns {
            ids: &[1],
            areas: &[],
            amounts: &[],
        };
        let (mut places, mut output) = ([99], [0xAA; 3]);
        let mut log = vec![0xAA; LOG_LENGTH];
        let id = u32::try_from(party).unwrap_or(101);
        let numbers = [
            reference::read(&bytes, given.party).0,
            reference::posting(&mut bytes, given, None, id, 0, 1),
            reference::list(&mut bytes, given, None, columns, &mut places),
            reference::morning_call(&mut bytes, given, None, id).number,
            reference::afternoon_call(&mut bytes, given, None, id).number,
            reference::warning(&bytes, given, id).number,
            reference::reduction(&mut bytes, given, Some(&mut []), id).number,
            reference::run(&mut bytes, given, Some(&mut log)).number,
            reference::withdrawal(&mut bytes, given, &mut log).number,
            reference::cancellation(&bytes, given, id, 0).number,
            reference::convert(&bytes, given.party, 9, &mut output),
            reference::form(&bytes, given.party, &mut output),
        ];
        assert_eq!(numbers, [26; 12], "{party}");
        assert_eq!((bytes, places), (before.clone(), [99]));
        assert_eq!((log, output), (vec![0xAA; LOG_LENGTH], [0xAA; 3]));
    }
}
