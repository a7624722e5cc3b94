//! The return of shrinkage, engine against reference, by the C interface and
//! by the Rust types, and the outside vectors.

#![forbid(unsafe_code)]

use books::shrinkage::{balances, replay, share, LINES};
use books::Random;
use compare::settings::seed;
use compare::shrinkage::{archived, archived_days};
use daybook::archive::{self, WRONG_LENGTH};
use daybook::shrinkage::{self, Kwh, DAYS, RETURN_NUMBERS};
use reference::shrinkage::{over_days, shrinkage_return, ShrinkageAnswer};

/// Returns and shares that are drawn.
const DRAWN: usize = 100_000;

/// The Rust types hold what the C interface answered.
fn expect_typed(balances: &[i64], expected: &ShrinkageAnswer) {
    let number = |kwh: Kwh| i128::from(kwh.0);
    match shrinkage::shrinkage_return(balances) {
        Err(refusal) => assert_eq!(refusal.number(), expected.number, "{balances:?}"),
        Ok(found) => {
            assert_eq!(expected.number, 0, "{balances:?}");
            assert_eq!(number(found.half), expected.half.0, "{balances:?}");
            assert_eq!(number(found.odd), expected.odd.0, "{balances:?}");
            assert_eq!(number(found.rest), expected.rest.0, "{balances:?}");
            assert_eq!(found.shares.len(), balances.len());
            for (place, share) in found.shares.iter().enumerate() {
                assert_eq!(number(share.kwh), expected.shares[place].0, "{balances:?}");
                assert_eq!(i128::from(share.remainder), expected.remainders[place]);
            }
        }
    }
}

fn compared(balances: &[i64]) -> ShrinkageAnswer {
    let expected = shrinkage_return(balances);
    assert_eq!(archived(balances), expected, "{balances:?}");
    expect_typed(balances, &expected);
    expected
}

#[test]
fn random_returns() {
    let mut random = Random::new(seed());
    let (mut given, mut none, mut refused) = (0, 0, [0, 0]);
    for _ in 0..DRAWN {
        match compared(&balances(&mut random)) {
            answer if answer.number == 27 => refused[0] += 1,
            answer if answer.number == 28 => refused[1] += 1,
            answer if answer.half.0 > 0 => given += 1,
            _ => none += 1,
        }
    }
    println!("{given} returns, {none} of nothing, {refused:?} refused by 27 and 28");
    assert!([given, none, refused[0], refused[1]]
        .iter()
        .all(|count| *count > 1_000));
}

/// Every number of users, each with the largest balance, with the smallest one,
/// and with one outside the range.
#[test]
fn every_number_of_users() {
    for users in 0..=130 {
        for balance in [-500_000_000, -1, 0, 1, 500_000_000, i64::MIN, i64::MAX] {
            compared(&vec![balance; users]);
        }
    }
}

#[test]
fn random_days() {
    let mut random = Random::new(seed());
    for share in (0..1_000).chain((0..DRAWN).map(|_| share(&mut random))) {
        let expected = over_days(share);
        assert_eq!(archived_days(share), expected, "{share}");
        let typed = shrinkage::over_days(Kwh(share)).map(|kwh| i128::from(kwh.0));
        assert_eq!(typed, expected.map(|kwh| kwh.0), "{share}");
    }
}

/// A part of another length gets 255, and is left.
#[test]
fn wrong_lengths() {
    for length in (0..200).chain([1_000]) {
        let mut part = vec![7; length];
        if length != RETURN_NUMBERS {
            assert_eq!(archive::shrinkage_return(&[-5], &mut part), WRONG_LENGTH);
        }
        if length != DAYS {
            assert_eq!(archive::shrinkage_days(31, &mut part), WRONG_LENGTH);
        }
        assert_eq!(part, vec![7; length]);
    }
}

#[test]
fn every_vector() {
    assert_eq!(replay(archived, archived_days), LINES);
}
