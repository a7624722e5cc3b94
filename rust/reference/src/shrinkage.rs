//! "Return of retained shrinkage" (document 02, ask 11). No book is involved.

use std::iter::Sum;

use crate::questions::{ask, ACCEPTED};

/// "At most 64 users": an answer has a place for each.
pub const PLACES: usize = 64;

/// "Over 30 days".
pub const DAYS: usize = 30;

/// "Balances are signed, within ±500,000,000".
const LARGEST: Kwh = Kwh(500_000_000);

/// Whole kWh.
#[derive(Clone, Copy, Debug, Default, PartialEq, Eq, PartialOrd, Ord)]
pub struct Kwh(pub i128);

impl Kwh {
    const ZERO: Kwh = Kwh(0);

    /// Absolute value.
    fn abs(self) -> Kwh {
        Kwh(self.0.abs())
    }
}

impl Sum for Kwh {
    fn sum<I: Iterator<Item = Kwh>>(amounts: I) -> Kwh {
        Kwh(amounts.map(|amount| amount.0).sum())
    }
}

/// The answer, "all 0 after a refusal". A place past the users is 0.
#[derive(Clone, Copy, Debug, PartialEq, Eq)]
pub struct ShrinkageAnswer {
    pub number: u32,
    pub half: Kwh,
    pub odd: Kwh,
    pub shares: [Kwh; PLACES],
    pub remainders: [i128; PLACES],
    pub rest: Kwh,
}

impl ShrinkageAnswer {
    fn nothing(number: u32) -> ShrinkageAnswer {
        ShrinkageAnswer {
            number,
            half: Kwh::ZERO,
            odd: Kwh::ZERO,
            shares: [Kwh::ZERO; PLACES],
            remainders: [0; PLACES],
            rest: Kwh::ZERO,
        }
    }
}

/// The return for the users' balances in kWh.
pub fn shrinkage_return(balances: &[i64]) -> ShrinkageAnswer {
    let balances: Vec<Kwh> = balances.iter().map(|kwh| Kwh(i128::from(*kwh))).collect();
    match asked(&balances) {
        Ok(()) => returned(&balances),
        Err(number) => ShrinkageAnswer::nothing(number),
    }
}

/// "A balance out of range gives 27 and more than 64 users 28, asked 28
/// first."
fn asked(balances: &[Kwh]) -> Result<(), u32> {
    ask(28, balances.len() <= PLACES)?;
    ask(27, balances.iter().all(|balance| balance.abs() <= LARGEST))
}

fn returned(balances: &[Kwh]) -> ShrinkageAnswer {
    let mut answer = ShrinkageAnswer::nothing(ACCEPTED);
    // "The total is the sum of the users' balances; positive or zero, it
    // returns nothing."
    let total: Kwh = balances.iter().copied().sum();
    if total >= Kwh::ZERO {
        return answer;
    }
    // "Take H, half the total's absolute value rounded down, with the odd kWh
    // reported."
    answer.half = Kwh(total.abs().0.div_euclid(2));
    answer.odd = Kwh(total.abs().0.rem_euclid(2));
    // "Each user gets the whole part of H × own / sum, where own and sum are
    // absolute values over negative balances, with the exact remainder of that
    // division beside it."
    let negative = |balance: &Kwh| (*balance).min(Kwh::ZERO).abs();
    let sum: Kwh = balances.iter().map(negative).sum();
    for (place, own) in balances.iter().map(negative).enumerate() {
        let dividend = answer.half.0 * own.0;
        answer.shares[place] = Kwh(dividend.div_euclid(sum.0));
        answer.remainders[place] = dividend.rem_euclid(sum.0);
    }
    // "What the shares leave of H stays in the system account and is
    // reported."
    let shared: Kwh = answer.shares.iter().copied().sum();
    answer.rest = Kwh(answer.half.0 - shared.0);
    answer
}

/// "A user's share over 30 days is the whole part per day, the remainder
/// spread one kWh a day from the first."
pub fn over_days(share: u64) -> [Kwh; DAYS] {
    let (days, share) = (DAYS as i128, i128::from(share));
    let mut spread = [Kwh(share.div_euclid(days)); DAYS];
    let mut remainder = share.rem_euclid(days);
    for day in &mut spread {
        if remainder > 0 {
            *day = Kwh(day.0 + 1);
            remainder -= 1;
        }
    }
    spread
}
