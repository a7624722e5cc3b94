//! Return of retained shrinkage: half of a negative total of the users'
//! balances goes back to the users whose own balance is negative, in
//! proportion to it, over 30 days. All amounts are kWh, and no book is
//! involved.
//!
//! ```
//! use daybook::shrinkage::{over_days, shrinkage_return, Kwh};
//!
//! let returned = shrinkage_return(&[-100, 50, -25])?;
//! assert_eq!((returned.half, returned.odd, returned.rest), (Kwh(37), Kwh(1), Kwh(1)));
//! let shares = returned.shares.iter().map(|share| share.kwh);
//! assert_eq!(shares.collect::<Vec<Kwh>>(), [Kwh(29), Kwh(0), Kwh(7)]);
//! assert_eq!(over_days(Kwh(31))[..3], [Kwh(2), Kwh(1), Kwh(1)]);
//! # Ok::<(), daybook::shrinkage::Refusal>(())
//! ```

use std::error::Error;
use std::fmt::{self, Display, Formatter};

use crate::archive;

/// The most users of a return.
pub const MOST_USERS: usize = 64;

/// The days over which a share is returned.
pub const DAYS: usize = 30;

/// Numbers of a return in the C interface: H, the odd kWh, the rest, then the
/// shares and the remainders of 64 users.
pub const RETURN_NUMBERS: usize = 3 + 2 * MOST_USERS;

/// An energy in kWh.
#[derive(Clone, Copy, Debug, Default, PartialEq, Eq, PartialOrd, Ord, Hash)]
pub struct Kwh(pub u64);

/// What is given back of a total; all of it is 0 for a total of 0 or above.
#[derive(Clone, Debug, Default, PartialEq, Eq)]
pub struct Return {
    /// H, half the total's absolute value rounded down. As much is kept.
    pub half: Kwh,
    /// The odd kWh of the total.
    pub odd: Kwh,
    /// What each user gets, in the order of the balances.
    pub shares: Vec<Share>,
    /// What the shares leave of H, for the system account.
    pub rest: Kwh,
}

/// What a user gets.
#[derive(Clone, Copy, Debug, Default, PartialEq, Eq)]
pub struct Share {
    /// The whole part of H × own / sum.
    pub kwh: Kwh,
    /// The remainder of that division, in kWh × kWh.
    pub remainder: u64,
}

/// The first question that was answered by no.
#[derive(Clone, Copy, Debug, PartialEq, Eq, PartialOrd, Ord, Hash)]
#[non_exhaustive]
#[repr(u32)]
pub enum Refusal {
    /// Question 27: every balance within ±500,000,000 kWh?
    Balance = 27,
    /// Question 28: at most 64 users?
    Users = 28,
}

impl Refusal {
    /// The number of the question.
    pub fn number(self) -> u32 {
        self as u32
    }

    /// The refusal of this number; none for any other.
    pub fn from_number(number: u32) -> Option<Refusal> {
        match number {
            27 => Some(Refusal::Balance),
            28 => Some(Refusal::Users),
            _ => None,
        }
    }

    /// The question.
    pub fn question(self) -> &'static str {
        match self {
            Refusal::Balance => "every balance within ±500,000,000 kWh?",
            Refusal::Users => "at most 64 users?",
        }
    }
}

impl Display for Refusal {
    fn fmt(&self, formatter: &mut Formatter<'_>) -> fmt::Result {
        let (number, question) = (self.number(), self.question());
        write!(formatter, "refused by question {number}: {question}")
    }
}

impl Error for Refusal {}

/// The return for the users' balances in kWh: at most 64, each within
/// ±500,000,000. Any slice is taken, and refused where it is not of that kind.
pub fn shrinkage_return(balances: &[i64]) -> Result<Return, Refusal> {
    let mut answer = [0; RETURN_NUMBERS];
    let number = archive::shrinkage_return(balances, &mut answer);
    match Refusal::from_number(number) {
        Some(refusal) => return Err(refusal),
        None => assert_eq!(number, 0, "no number of a return"),
    }
    let [half, odd, rest, users @ ..] = answer;
    let (shares, remainders) = users.split_at(MOST_USERS);
    let shares = shares.iter().zip(remainders).take(balances.len());
    Ok(Return {
        half: Kwh(half),
        odd: Kwh(odd),
        shares: shares
            .map(|(kwh, remainder)| share(*kwh, *remainder))
            .collect(),
        rest: Kwh(rest),
    })
}

fn share(kwh: u64, remainder: u64) -> Share {
    Share {
        kwh: Kwh(kwh),
        remainder,
    }
}

/// A share over 30 days: the whole part per day, and one kWh more on as many
/// days from the first as the remainder has.
pub fn over_days(share: Kwh) -> [Kwh; DAYS] {
    let mut days = [0; DAYS];
    let number = archive::shrinkage_days(share.0, &mut days);
    assert_eq!(number, 0, "no number of the days of a share");
    days.map(Kwh)
}
