//! Document 02, ask 4: the figures of a store of parameter sets, found in one
//! way through its sets.

use crate::records::{ask, is_day};
use crate::units::{Cents, Limits, Mwh};

const MARK: &[u8; 3] = b"GPS";

/// Mark, version and count.
const START_LENGTH: usize = 6;

/// A first date and three figures.
const SET_LENGTH: usize = 24;
const MOST_SETS: u8 = 32;
const MOST_ENERGY: u32 = 1_000_000;
const MOST_CENTS: u64 = 1_000_000_000_000;

/// The figures of the last set whose date is not after the book's: 16 for a
/// malformed store, 17 where there is no such set.
pub fn limits(store: &[u8], date: u32) -> Result<Limits, u32> {
    let (start, rest) = store.split_first_chunk::<START_LENGTH>().ok_or(16_u32)?;
    let count = start[5];
    let (sets, behind) = rest.as_chunks::<SET_LENGTH>();
    let formed = start.starts_with(MARK)
        && u16::from_le_bytes([start[3], start[4]]) == 1
        && count <= MOST_SETS
        && sets.len() == usize::from(count)
        && behind.is_empty();
    ask(16, formed)?;
    let mut found = None;
    let mut before = 0;
    for set in sets {
        let first = u32::from_le_bytes(part(set, 0));
        let energy = u32::from_le_bytes(part(set, 4));
        let margin = u64::from_le_bytes(part(set, 8));
        let least_level = u64::from_le_bytes(part(set, 16));
        let valid = before < first
            && is_day(first)
            && energy <= MOST_ENERGY
            && margin <= MOST_CENTS
            && least_level <= MOST_CENTS;
        ask(16, valid)?;
        before = first;
        if first <= date {
            found = Some(Limits {
                flag_energy: Mwh(i64::from(energy)),
                margin: Cents(margin.cast_signed()),
                least_level: Cents(least_level.cast_signed()),
            });
        }
    }
    found.ok_or(17)
}

/// The bytes of a field.
#[inline]
fn part<const WIDTH: usize>(set: &[u8; SET_LENGTH], at: usize) -> [u8; WIDTH] {
    std::array::from_fn(|place| set[at + place])
}
