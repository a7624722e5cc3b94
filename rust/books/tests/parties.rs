//! Acting parties (ask 9) on random books: which numbers are met, what a party's
//! answers may depend on, and how twins of a book differ.

#![forbid(unsafe_code)]

use std::collections::BTreeMap;

use books::damage::version_of;
use books::parties::{twin, view};
use books::{answer, Call, Generator, Kind};
use reference::party::{Given, Party};
use reference::questions::questions_1_to_7;

/// Drawn parties: each call that has one meets 26, and those that a shipper may make
/// are accepted for it.
#[test]
fn every_call_reaches_26() {
    let mut generator = Generator::new(90);
    let mut met: BTreeMap<(&str, bool, u32), u32> = BTreeMap::new();
    for _ in 0..20_000 {
        let mut book = generator.any_book();
        let call = match generator.random().below(12) {
            0 => generator.conversion(&book).1,
            1 => Call::Withdrawal,
            _ => generator.call(&book, None),
        };
        let party = generator.party(&book, &call);
        let store = None;
        let mut log = (call == Call::Withdrawal).then(|| books::logs::started(&book));
        let given = Given { party, store };
        let found = answer(&mut book, given, log.as_mut(), &call);
        let shipper = party != Party::Operator;
        *met.entry((call.name(), shipper, found.number)).or_default() += 1;
        if shipper && call.takes_party() {
            let own = call.own_id().map(u64::from) == Some(party.number());
            let known = [0, 26].contains(&found.number) || found.number <= 7;
            assert!(known && (own || found.number != 0), "{call:?} {party:?}");
        }
    }
    let calls = Call::NAMES.iter();
    for name in calls.filter(|name| !["start", "write", "restore", "day"].contains(name)) {
        assert!(met.contains_key(&(*name, true, 26)), "{name}: 26");
        assert!(!met.contains_key(&(*name, false, 26)), "{name}: 26");
    }
    for name in [
        "show",
        "show picked",
        "morning level",
        "afternoon level",
        "flag",
    ] {
        assert!(met.contains_key(&(name, true, 0)), "{name}");
    }
    for name in ["trade count", "trade"] {
        assert!(met.contains_key(&(name, true, 0)), "{name}");
    }
}

/// "Over two books that pass the opening questions and agree on the header and, in
/// book order, on what a party may see, its answers to the same call agree": twins
/// differ in every way that the party does not see.
#[test]
fn a_party_learns_nothing_else() {
    let mut generator = Generator::new(91);
    let mut ways: BTreeMap<&str, u32> = BTreeMap::new();
    let mut held = 0;
    while held < 3_000 {
        let kind = generator
            .random()
            .pick(&[Kind::Group, Kind::Group, Kind::Usual]);
        let bytes = generator.book(kind);
        let book = questions_1_to_7(&bytes).expect("an accepted book");
        let shippers = book.users.iter().filter(|user| user.is_shipper());
        let ids: Vec<u32> = shippers.map(|user| user.id).collect();
        if ids.is_empty() {
            continue;
        }
        let id = generator.random().pick(&ids);
        let other = twin(generator.random(), &book, id);
        assert_eq!(view(&book, id), view(&other, id));
        let two = other.to_bytes();
        if two == bytes {
            continue;
        }
        held += 1;
        let mut count = |yes: bool, way| *ways.entry(way).or_default() += u32::from(yes);
        let ids = |book: &reference::book::Book| -> Vec<u32> {
            book.users.iter().map(|user| user.id).collect()
        };
        let place = |book: &reference::book::Book| book.place_of(id);
        count(version_of(&bytes) == 3, "version 3");
        count(ids(&book) != ids(&other), "other ids");
        count(place(&book) != place(&other), "another place of its record");
        count(book.trades != other.trades, "other trades");
        let managers = |book: &reference::book::Book| -> Vec<[u32; 3]> {
            book.users.iter().map(|user| user.managers).collect()
        };
        count(managers(&book) != managers(&other), "other managers");
        let roles = |book: &reference::book::Book| -> Vec<u8> {
            book.users.iter().map(|user| user.role).collect()
        };
        count(roles(&book) != roles(&other), "other roles");
        let members = book.users.iter().any(|user| user.managers.contains(&id));
        count(members, "a manager's view");
        count(view(&book, id).2.len() > 1, "trades seen");
        let given = Given {
            party: Party::Shipper(id.into()),
            store: None,
        };
        let calls = [
            Call::Show { id },
            Call::MorningLevel { id },
            Call::AfternoonLevel { id },
            Call::Flag { id },
            Call::TradeCount { id },
            Call::Trade { id, ordinal: 0 },
            Call::Trade { id, ordinal: 1 },
            Call::Warning { id },
            Call::Read,
        ];
        for call in calls {
            let answers =
                [&bytes, &two].map(|bytes| answer(&mut bytes.clone(), given, None, &call));
            assert_eq!(answers[0], answers[1], "{call:?} of {id}");
        }
    }
    println!("{held} pairs, {ways:?}");
    assert_eq!(ways.len(), 8);
    assert!(ways.values().all(|count| *count > 100), "{ways:?}");
}
