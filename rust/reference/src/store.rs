//! Document 02, ask 4, "Parameters with a start date": the store of parameter
//! sets, and the figures that a call takes from it.

use crate::questions::{ask, date_in_range};
use crate::units::{Cents, Mwh};

/// The mark that a store starts with.
const MARK: &[u8; 3] = b"GPS";

/// "Version 16 bits = 1."
const VERSION: u16 = 1;

/// Mark, version and count.
const START_LENGTH: usize = 6;

/// A first date and three figures: "32, 64 and 64 bits".
const SET_LENGTH: usize = 24;

/// "A store of 0 to 32 parameter sets."
const MOST_SETS: usize = 32;

/// "The MWh figure is 0 to 1,000,000."
const MOST_ENERGY: u32 = 1_000_000;

/// "The other two are 0 to 10^12 cents."
const MOST_MONEY: u64 = 1_000_000_000_000;

/// The three figures of document 01 that a store can replace.
#[derive(Clone, Copy, Debug, PartialEq, Eq)]
pub struct Limits {
    /// Flagged above this energy at the least reference price.
    pub flag_energy: Mwh,
    /// A level counts above blocked by more than this (question 11).
    pub margin: Cents,
    /// Either level is at least this.
    pub least_level: Cents,
}

impl Limits {
    /// "Calls without a store use today's figures."
    pub const TODAY: Limits = Limits {
        flag_energy: Mwh(30_000),
        margin: Cents(1_000_000),
        least_level: Cents(10_000_000),
    };
}

/// One parameter set, as its bytes have it.
#[derive(Clone, Copy, Debug, PartialEq, Eq)]
pub struct ParameterSet {
    pub first_date: u32,
    pub energy: u32,
    pub margin: u64,
    pub least_level: u64,
}

impl ParameterSet {
    fn from_bytes(bytes: &[u8; SET_LENGTH]) -> ParameterSet {
        let four = |at: usize| [bytes[at], bytes[at + 1], bytes[at + 2], bytes[at + 3]];
        let eight = |at: usize| {
            let ([a, b, c, d], [e, f, g, h]) = (four(at), four(at + 4));
            u64::from_le_bytes([a, b, c, d, e, f, g, h])
        };
        ParameterSet {
            first_date: u32::from_le_bytes(four(0)),
            energy: u32::from_le_bytes(four(4)),
            margin: eight(8),
            least_level: eight(16),
        }
    }

    pub fn to_bytes(self) -> Vec<u8> {
        let mut bytes = self.first_date.to_le_bytes().to_vec();
        bytes.extend(self.energy.to_le_bytes());
        bytes.extend(self.margin.to_le_bytes());
        bytes.extend(self.least_level.to_le_bytes());
        bytes
    }

    /// A real day, and each figure in its range.
    fn is_valid(&self) -> bool {
        date_in_range(self.first_date)
            && self.energy <= MOST_ENERGY
            && self.margin <= MOST_MONEY
            && self.least_level <= MOST_MONEY
    }

    fn limits(&self) -> Limits {
        Limits {
            flag_energy: Mwh(i128::from(self.energy)),
            margin: Cents(i128::from(self.margin)),
            least_level: Cents(i128::from(self.least_level)),
        }
    }
}

/// The figures of a call on a book of this date. "A malformed store is refused
/// with 16 and then a store with no set in force with 17."
pub fn limits(store: Option<&[u8]>, date: u32) -> Result<Limits, u32> {
    match store {
        None => Ok(Limits::TODAY),
        Some(bytes) => {
            let sets = sets(bytes).ok_or(16_u32)?;
            ask(
                16,
                sets.iter().all(ParameterSet::is_valid) && dates_rise(&sets),
            )?;
            let set = in_force(&sets, date).ok_or(17_u32)?;
            Ok(set.limits())
        }
    }
}

/// The sets of a store of the right form: "mark `GPS`, version 16 bits = 1,
/// count 8 bits, then per set ..., with nothing after".
fn sets(bytes: &[u8]) -> Option<Vec<ParameterSet>> {
    let (start, rest) = bytes.split_first_chunk::<START_LENGTH>()?;
    let [_, _, _, low, high, count] = *start;
    let count = usize::from(count);
    let formed = start.starts_with(MARK)
        && u16::from_le_bytes([low, high]) == VERSION
        && count <= MOST_SETS
        && rest.len() == SET_LENGTH * count;
    formed.then(|| {
        let sets = rest.as_chunks::<SET_LENGTH>().0;
        sets.iter().map(ParameterSet::from_bytes).collect()
    })
}

/// "A first date (..., strictly rising)."
fn dates_rise(sets: &[ParameterSet]) -> bool {
    sets.windows(2)
        .all(|pair| pair[0].first_date < pair[1].first_date)
}

/// "The last set whose date isn't after the book's."
fn in_force(sets: &[ParameterSet], date: u32) -> Option<&ParameterSet> {
    sets.iter().rev().find(|set| set.first_date <= date)
}

/// A store of these sets.
pub fn to_bytes(sets: &[ParameterSet]) -> Vec<u8> {
    let mut bytes = MARK.to_vec();
    bytes.extend(VERSION.to_le_bytes());
    bytes.push(u8::try_from(sets.len()).unwrap_or(u8::MAX));
    bytes.extend(sets.iter().flat_map(|set| set.to_bytes()));
    bytes
}
