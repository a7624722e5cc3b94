//! Acting parties (ask 9), engine against reference: every call by every party of a
//! book and by numbers of nobody; every trade that a shipper may see. By the engine
//! alone: twins of a book that agree on what a party may see answer it alike, and a
//! shipper is told of itself what the operator is told.

#![forbid(unsafe_code)]

use books::logs::{forged, started};
use books::parties::{twin, view};
use books::versions::VERSIONS;
use books::{Answer, Call, Generator, Kind};
use compare::settings::{comparison, pairs, seed};
use compare::{engine, typed, Comparison};
use reference::book::Book;
use reference::party::{Given, Party};
use reference::questions::questions_1_to_7;

/// The numbers of the users of a book and next to them, with a bit above the 32 of an
/// id, of the operator and next to it, and others.
fn parties(book: &Book) -> Vec<u64> {
    let operator = Party::Operator.number();
    let mut numbers = vec![0, 1, operator - 1, operator, operator + 1];
    numbers.extend([1 << 31, 1 << 33, 1 << 63, u64::MAX - 1, u64::MAX]);
    for user in &book.users {
        let id = u64::from(user.id);
        numbers.extend([id - 1, id, id + 1, id + operator, id | 1 << 63]);
    }
    numbers.sort_unstable();
    numbers.dedup();
    numbers
}

/// Every call for an id that has a party. A run is left out.
fn calls(generator: &mut Generator, book: &[u8], id: u32) -> Vec<Call> {
    let mut calls = own_calls(book, id, &[0, 1, 7, 255, u32::MAX]);
    calls.extend([
        Call::Posting {
            id,
            area: 0,
            amount: 1,
        },
        generator.list_of(book, 2),
        Call::MorningCall { id },
        Call::AfternoonCall { id },
        Call::Warning { id },
        Call::Reduction { id },
        Call::Cancellation { id, tries: 9 },
        Call::Withdrawal,
        Call::Read,
        Call::Convert {
            version: 3,
            length: 9_512,
        },
        Call::Form { length: 9_512 },
    ]);
    calls
}

/// The calls that a shipper may make for itself, with trades of these ordinals. Of two
/// books this one is picked, and then one that is none.
fn own_calls(book: &[u8], id: u32, ordinals: &[u32]) -> Vec<Call> {
    let picked = [(book, true), (&[][..], false), (&[][..], true)];
    let picked = picked.map(|(afternoon, pick)| Call::ShowPicked {
        afternoon: afternoon.to_vec(),
        pick,
        id,
    });
    let mut calls = vec![
        Call::Show { id },
        Call::MorningLevel { id },
        Call::AfternoonLevel { id },
        Call::Flag { id },
        Call::TradeCount { id },
    ];
    calls.extend(picked);
    let trades = ordinals.iter().map(|ordinal| Call::Trade {
        id,
        ordinal: *ordinal,
    });
    calls.extend(trades);
    calls
}

/// Each call with each party, for the party's own id and for the ids of the book.
#[test]
fn every_party() {
    let mut comparison = comparison("every_party");
    for version in VERSIONS {
        for kind in [Kind::Small, Kind::Midday, Kind::Group] {
            if kind == Kind::Group && version < 3 {
                continue;
            }
            let bytes = loop {
                let bytes = comparison.generator().book_of(version, kind);
                if bytes.len() < 1_000 {
                    break bytes;
                }
            };
            every_party_of(&mut comparison, &bytes);
        }
    }
    comparison.expect_none();
}

fn every_party_of(comparison: &mut Comparison, bytes: &[u8]) {
    let book = questions_1_to_7(bytes).expect("an accepted book");
    let store = comparison.generator().store(bytes);
    for number in parties(&book) {
        let party = Party::of(number);
        let mut ids: Vec<u32> = book.users.iter().map(|user| user.id).collect();
        ids.extend(u32::try_from(number));
        ids.truncate(6);
        ids.extend([0, u32::try_from(number & 0xFFFF_FFFF).unwrap_or(0)]);
        for id in ids {
            for call in calls(comparison.generator(), bytes, id) {
                for store in [None, store.as_deref()] {
                    let given = Given { party, store };
                    let mut log = (call == Call::Withdrawal).then(|| started(bytes));
                    comparison.acted(&mut bytes.to_vec(), given, log.as_mut(), &call);
                }
            }
        }
    }
}

/// Whatever else is wrong with the call of a shipper that is the operator's, 26 comes
/// before it: lists that do not fit, malformed stores, logs of any form, versions that
/// there are not, outputs of no length; book, log, places and outputs stay.
#[test]
fn forbidden_acts() {
    let mut comparison = comparison("forbidden_acts");
    for _ in 0..400 {
        let bytes = comparison.generator().any_book();
        let generator = comparison.generator();
        let id = generator.arguments(&bytes).id;
        let call = generator.changing_call(&bytes, None);
        let log = match generator.random().one_in(2) {
            true => forged(generator.random(), &bytes),
            false => vec![7; generator.random().below(40)],
        };
        let party = Party::Shipper(id.into());
        let calls = [
            call,
            Call::Run,
            Call::Withdrawal,
            generator.list(&bytes),
            Call::Cancellation { id, tries: 0 },
            Call::Warning { id },
            Call::Read,
            Call::Convert {
                version: 9,
                length: 0,
            },
            Call::Form { length: 0 },
        ];
        for call in calls {
            for store in [None, Some(&b"GPS"[..])] {
                let given = Given { party, store };
                let mut log = call.takes_log().then(|| log.clone());
                comparison.acted(&mut bytes.clone(), given, log.as_mut(), &call);
            }
        }
    }
    comparison.expect_none();
}

/// Every trade that each shipper of a book may see, by itself and by the operator, one
/// past the last too.
#[test]
fn every_trade() {
    let mut comparison = comparison("every_trade");
    for kind in [Kind::Usual, Kind::Group, Kind::Group, Kind::Largest] {
        for _ in 0..6 {
            let bytes = comparison.generator().book(kind);
            let book = questions_1_to_7(&bytes).expect("an accepted book");
            for user in book.users.iter().take(12) {
                let id = user.id;
                let count = reference::trade_count(&bytes, Given::OPERATOR, id).count;
                let count = u32::try_from(count).expect("at most 256");
                for ordinal in 0..=count {
                    let call = Call::Trade { id, ordinal };
                    for party in [Party::Operator, Party::Shipper(id.into())] {
                        let given = Given { party, store: None };
                        comparison.acted(&mut bytes.clone(), given, None, &call);
                    }
                }
            }
        }
    }
    comparison.expect_none();
}

/// An answer by the C interface, which the Rust types have to give too where a shipper
/// has the call.
fn told(bytes: &[u8], given: Given<'_>, call: &Call) -> Answer {
    let mut book = bytes.to_vec();
    let answer = engine::answer(&mut book, given, None, call);
    if typed::has(call, given.party, None) {
        assert_eq!(typed::answer(&mut book, given, None, call), answer);
    }
    assert_eq!(book, bytes, "a shipper changes no book");
    answer
}

/// "Over two books that pass the opening questions and agree on the header and, in book
/// order, on what a party may see, its answers to the same call agree."
#[test]
fn twins() {
    let mut generator = Generator::new(seed());
    let (mut held, mut books, mut answers) = (0, 0, 0);
    while held < pairs() {
        let kind = match generator.random().below(8) {
            0 | 1 => Kind::Usual,
            2 => Kind::Midday,
            3 => Kind::Small,
            4 => Kind::Chain,
            _ => Kind::Group,
        };
        let bytes = generator.book(kind);
        let book = questions_1_to_7(&bytes).expect("an accepted book");
        books += 1;
        let shippers = book.users.iter().filter(|user| user.is_shipper());
        for id in shippers.map(|user| user.id).take(4).collect::<Vec<u32>>() {
            let other = twin(generator.random(), &book, id);
            let two = other.to_bytes();
            if two == bytes {
                continue;
            }
            let count = view(&book, id).2.len();
            let last = u32::try_from(count).expect("at most 256");
            let ordinals: Vec<u32> = (0..=last.min(5)).chain([last]).collect();
            let store = generator.store(&bytes);
            let given = Given {
                party: Party::Shipper(id.into()),
                store: store.as_deref().filter(|_| held % 2 == 0),
            };
            let calls = own_calls(&[], id, &ordinals);
            let others = calls_of_the_operator(&mut generator, &bytes, id);
            for call in calls.iter().chain(&others) {
                let [one, two] = [&bytes, &two].map(|book| told(book, given, call));
                assert_eq!(one, two, "{call:?} of {id}, pair {held}");
                answers += 1;
            }
            held += 1;
        }
    }
    println!("{held} pairs of twins of {books} books, {answers} answers alike");
}

/// Some of what a shipper may not do, which has to be told by 26 alone.
fn calls_of_the_operator(generator: &mut Generator, bytes: &[u8], id: u32) -> Vec<Call> {
    let other = generator.arguments(bytes).id;
    let changing = generator.changing_call(bytes, None);
    let other = if other == id { 0 } else { other };
    let refused = [Call::Show { id: other }, Call::Flag { id: other }];
    let acts = [
        changing,
        Call::Warning { id },
        Call::Read,
        Call::Form { length: 9_512 },
    ];
    refused.into_iter().chain(acts).collect()
}

/// "A shipper may have its own record, levels and flag, the count of the trades it may
/// see": what the operator is told of its id, without 26.
#[test]
fn own_answers() {
    let mut generator = Generator::new(seed());
    let mut answers = 0;
    for _ in 0..3_000 {
        let bytes = generator.any_book();
        let store = generator.store(&bytes);
        let Ok(book) = questions_1_to_7(&bytes) else {
            continue;
        };
        for user in book.users.iter().take(6) {
            for call in own_calls(&bytes, user.id, &[0, 3]) {
                let by = |party| {
                    let store = store.as_deref();
                    told(&bytes, Given { party, store }, &call)
                };
                let told = by(Party::Shipper(user.id.into()));
                if user.is_shipper() && !matches!(call, Call::ShowPicked { .. }) {
                    assert_eq!(told, by(Party::Operator), "{call:?}");
                    assert_ne!(told.number, 26);
                } else if !user.is_shipper() {
                    assert!([1, 26].contains(&told.number), "{call:?}");
                }
                answers += 1;
            }
        }
    }
    println!("{answers} answers of shippers to themselves");
}
