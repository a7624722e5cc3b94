//! A small return of shrinkage, and its refusals.

#![forbid(unsafe_code)]

use daybook::shrinkage::{over_days, shrinkage_return, Kwh, Refusal, Return, Share};

fn share(kwh: u64, remainder: u64) -> Share {
    let kwh = Kwh(kwh);
    Share { kwh, remainder }
}

/// A total of −75: 37 are returned, 37 kept, and one is odd. The sum is 125.
#[test]
fn a_negative_total() {
    let expected = Return {
        half: Kwh(37),
        odd: Kwh(1),
        shares: vec![share(29, 75), share(0, 0), share(7, 50)],
        rest: Kwh(1),
    };
    assert_eq!(shrinkage_return(&[-100, 50, -25]), Ok(expected));
}

#[test]
fn a_total_of_0_or_above() {
    assert_eq!(shrinkage_return(&[]), Ok(Return::default()));
    let nothing = Return {
        shares: vec![share(0, 0); 2],
        ..Return::default()
    };
    assert_eq!(shrinkage_return(&[-5, 5]), Ok(nothing.clone()));
    assert_eq!(shrinkage_return(&[-5, 6]), Ok(nothing));
}

/// Too many users are asked before the balances.
#[test]
fn refusals() {
    assert_eq!(shrinkage_return(&[500_000_001]), Err(Refusal::Balance));
    assert_eq!(shrinkage_return(&[i64::MIN]), Err(Refusal::Balance));
    assert_eq!(shrinkage_return(&[i64::MIN; 65]), Err(Refusal::Users));
    for refusal in [Refusal::Balance, Refusal::Users] {
        assert_eq!(Refusal::from_number(refusal.number()), Some(refusal));
    }
    assert_eq!(Refusal::from_number(0), None);
    assert_eq!(
        Refusal::Users.to_string(),
        "refused by question 28: at most 64 users?"
    );
}

#[test]
fn days_of_a_share() {
    let days = over_days(Kwh(45)).map(|kwh| kwh.0);
    assert_eq!(days[..15], [2; 15]);
    assert_eq!(days[15..], [1; 15]);
}
