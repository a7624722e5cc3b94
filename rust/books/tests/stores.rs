//! The stores that are drawn: each kind has its number, and calls reach 16, 17
//! and 0 with a store.

#![forbid(unsafe_code)]

use std::collections::BTreeMap;

use books::random::Random;
use books::stores::{any_store, longest, store, StoreDamage, StoreKind};
use books::{answer, Call, Generator};
use reference::party::Given;
use reference::store::{limits, to_bytes, Limits, ParameterSet};
use reference::units::{Cents, Mwh};

const DATE: u32 = 20_260_318;

/// The number that a store gets on a date.
fn number(store: &[u8], date: u32) -> u32 {
    limits(Some(store), date).err().unwrap_or(0)
}

#[test]
fn every_kind_has_its_number() {
    let mut random = Random::new(1);
    for date in [DATE, 20_200_101, 20_240_229, 20_991_231] {
        for _ in 0..200 {
            let mut expect = |kind: StoreKind, expected: u32| {
                let store = store(&mut random, kind, date);
                assert_eq!(number(&store, date), expected, "{kind:?} {store:02x?}");
            };
            expect(StoreKind::Good, 0);
            expect(StoreKind::Late, 17);
            expect(StoreKind::Empty, 17);
            expect(StoreKind::Raw, 16);
            for damage in StoreDamage::ALL {
                expect(StoreKind::Malformed(damage), 16);
            }
        }
    }
}

#[test]
fn the_last_set_begun_is_in_force() {
    let set = |first_date: u32, energy: u32| ParameterSet {
        first_date,
        energy,
        margin: u64::from(energy) + 1,
        least_level: u64::from(energy) + 2,
    };
    let sets = [set(20_260_101, 1), set(20_260_318, 2), set(20_260_319, 3)];
    let found = |date: u32| limits(Some(&to_bytes(&sets)), date);
    let figures = |energy: i128| Limits {
        flag_energy: Mwh(energy),
        margin: Cents(energy + 1),
        least_level: Cents(energy + 2),
    };
    assert_eq!(found(20_251_231), Err(17));
    assert_eq!(found(20_260_101), Ok(figures(1)));
    assert_eq!(found(20_260_317), Ok(figures(1)));
    assert_eq!(found(20_260_318), Ok(figures(2)));
    assert_eq!(found(20_260_319), Ok(figures(3)));
    assert_eq!(found(20_991_231), Ok(figures(3)));
    assert_eq!(limits(None, DATE), Ok(Limits::TODAY));
}

#[test]
fn the_longest_store_has_todays_figures() {
    let store = longest();
    assert_eq!(store.len(), 6 + 24 * 32);
    assert_eq!(limits(Some(&store), DATE), Ok(Limits::TODAY));
}

/// A store of any kind with one byte of it changed, or cut: a number, never a
/// panic.
#[test]
fn any_bytes_have_a_number() {
    let mut random = Random::new(2);
    for _ in 0..20_000 {
        let Some(mut store) = any_store(&mut random, DATE) else {
            continue;
        };
        if !store.is_empty() {
            let place = random.below(store.len());
            store[place] = random.byte();
            store.truncate(random.below(store.len() + 1));
        }
        assert!([0, 16, 17].contains(&number(&store, DATE)));
    }
}

#[test]
fn every_call_reaches_16_and_17() {
    let mut generator = Generator::new(7);
    let mut reached = BTreeMap::new();
    for _ in 0..4_000 {
        let mut bytes = generator.any_book();
        let store = generator.store(&bytes);
        for _ in 0..4 {
            let call = generator.call(&bytes, store.as_deref());
            let answer = answer(
                &mut bytes,
                Given::by_operator(store.as_deref()),
                None,
                &call,
            );
            if store.is_some() && call.takes_store() {
                *reached.entry((call.name(), answer.number)).or_insert(0) += 1;
            }
        }
    }
    println!("{reached:?}");
    for name in Call::NAMES {
        let others = [
            "withdrawal",
            "start",
            "read",
            "write",
            "convert",
            "form",
            "restore",
            "day",
        ];
        let takes_store = !others.contains(&name);
        for number in [0, 16, 17] {
            assert_eq!(
                reached.contains_key(&(name, number)),
                takes_store,
                "{name} {number}"
            );
        }
    }
}
