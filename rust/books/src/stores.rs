//! Random stores of parameter sets for the date of a book: good ones, and such
//! as questions 16 and 17 refuse.

use reference::questions::date_in_range;
use reference::store::{to_bytes, ParameterSet};

use crate::random::Random;

const MOST_SETS: usize = 32;
const SET_LENGTH: usize = 24;
const START_LENGTH: usize = 6;

#[derive(Clone, Copy, Debug, PartialEq, Eq)]
pub enum StoreKind {
    /// A set is in force.
    Good,
    /// Well formed, but every set starts after the book's date: 17.
    Late,
    /// Well formed, no set: 17.
    Empty,
    /// One thing is wrong: 16.
    Malformed(StoreDamage),
    /// A good store with one bit turned round: any number.
    Turned,
    /// Bytes that are no store: 16.
    Raw,
}

/// What is wrong with a malformed store.
#[derive(Clone, Copy, Debug, PartialEq, Eq)]
pub enum StoreDamage {
    Cut,
    Mark,
    Version,
    CountAbove,
    CountBelow,
    TooManySets,
    Longer,
    Shorter,
    NoDay,
    SameDay,
    FallingDay,
    Energy,
    Margin,
    LeastLevel,
}

impl StoreDamage {
    pub const ALL: [StoreDamage; 14] = [
        StoreDamage::Cut,
        StoreDamage::Mark,
        StoreDamage::Version,
        StoreDamage::CountAbove,
        StoreDamage::CountBelow,
        StoreDamage::TooManySets,
        StoreDamage::Longer,
        StoreDamage::Shorter,
        StoreDamage::NoDay,
        StoreDamage::SameDay,
        StoreDamage::FallingDay,
        StoreDamage::Energy,
        StoreDamage::Margin,
        StoreDamage::LeastLevel,
    ];
}

/// The date of a book in bytes; another day where there are none.
pub fn date_of(book: &[u8]) -> u32 {
    let date = book.get(8..12).and_then(|bytes| bytes.try_into().ok());
    date.map_or(20_260_318, u32::from_le_bytes)
}

/// No store, or a store of any kind, good ones more often.
pub fn any_store(random: &mut Random, date: u32) -> Option<Vec<u8>> {
    let kind = match random.below(16) {
        0..=5 => return None,
        6..=11 => StoreKind::Good,
        12 => StoreKind::Late,
        13 => StoreKind::Empty,
        14 => StoreKind::Malformed(random.pick(&StoreDamage::ALL)),
        _ => random.pick(&[StoreKind::Turned, StoreKind::Raw]),
    };
    Some(store(random, kind, date))
}

/// The longest store: 32 sets with today's figures, all begun in 2020.
pub fn longest() -> Vec<u8> {
    let set = |first_date: u32| ParameterSet {
        first_date,
        energy: 30_000,
        margin: 1_000_000,
        least_level: 10_000_000,
    };
    let days = (20_200_101..=20_200_131).chain([20_200_201]);
    to_bytes(&days.map(set).collect::<Vec<ParameterSet>>())
}

/// A store of this kind for a book of this date.
pub fn store(random: &mut Random, kind: StoreKind, date: u32) -> Vec<u8> {
    match kind {
        StoreKind::Good => to_bytes(&good(random, date)),
        StoreKind::Late => to_bytes(&late(random, date)),
        StoreKind::Empty => to_bytes(&[]),
        StoreKind::Malformed(damage) => malformed(random, damage, date),
        StoreKind::Turned => {
            let mut bytes = to_bytes(&good(random, date));
            let place = random.below(bytes.len());
            bytes[place] ^= 1 << random.below(8);
            bytes
        }
        StoreKind::Raw => {
            let length = random.pick(&[0, 1, 5, 6, 29, 30, 31, 774, 775]);
            random.bytes(length)
        }
    }
}

/// Sets of which at least one is in force on a date; that day and the days
/// beside it are often among the first dates.
fn good(random: &mut Random, date: u32) -> Vec<ParameterSet> {
    let count = set_count(random);
    let mut dates = dates(random, count, date);
    if dates.first().is_none_or(|first| *first > date) {
        // A book whose date is no day has no set of that day.
        let first = if date_in_range(date) {
            date
        } else {
            20_200_101
        };
        dates.pop();
        dates.insert(0, first);
    }
    dates.into_iter().map(|date| set(random, date)).collect()
}

/// Sets that start after a date; none after the last day of all.
fn late(random: &mut Random, date: u32) -> Vec<ParameterSet> {
    let count = set_count(random);
    let later = dates(random, count, date)
        .into_iter()
        .filter(|first| *first > date)
        .collect::<Vec<u32>>();
    later.into_iter().map(|date| set(random, date)).collect()
}

fn set_count(random: &mut Random) -> usize {
    match random.below(4) {
        0 => 1,
        1 => random.pick(&[2, MOST_SETS - 1, MOST_SETS]),
        _ => 1 + random.below(MOST_SETS),
    }
}

/// At most this many days, strictly rising, some of them next to a date.
fn dates(random: &mut Random, count: usize, date: u32) -> Vec<u32> {
    let mut dates = Vec::new();
    while dates.len() < count {
        let day = match random.below(6) {
            0 => date,
            1 => date.wrapping_add(1),
            2 => date.wrapping_sub(1),
            3 => random.pick(&[20_200_101, 20_200_229, 20_991_231, 20_240_229]),
            _ => {
                let year = 2_020 + random.below(80);
                let day = 10_000 * year + 100 * (1 + random.below(12)) + 1 + random.below(28);
                u32::try_from(day).unwrap_or(date)
            }
        };
        if date_in_range(day) && !dates.contains(&day) {
            dates.push(day);
        }
    }
    dates.sort_unstable();
    dates
}

/// A set with figures at their ends, next to today's, or any in range.
fn set(random: &mut Random, first_date: u32) -> ParameterSet {
    let energy = match random.below(4) {
        0 => random.pick(&[0, 1, 999_999, 1_000_000]),
        1 => random.pick(&[29_999, 30_000, 30_001]),
        2 => random.below(1_000_001),
        _ => random.below(100),
    };
    ParameterSet {
        first_date,
        energy: u32::try_from(energy).unwrap_or(0),
        margin: cents(random, 1_000_000),
        least_level: cents(random, 10_000_000),
    }
}

/// A sum of money of a set, often next to today's figure.
fn cents(random: &mut Random, today: i128) -> u64 {
    let most = 1_000_000_000_000;
    let cents = match random.below(6) {
        0 => random.pick(&[0, 1, most - 1, most]),
        1 | 2 => random.between(today - 1, today + 1),
        3 => random.between(0, most),
        4 => random.between(0, 100_000_000),
        _ => random.between(0, 10_000),
    };
    u64::try_from(cents).unwrap_or(0)
}

/// A good store with one thing wrong.
fn malformed(random: &mut Random, damage: StoreDamage, date: u32) -> Vec<u8> {
    let mut sets = good(random, date);
    if matches!(damage, StoreDamage::SameDay | StoreDamage::FallingDay) && sets.len() == 1 {
        let next = if sets[0].first_date < 20_991_231 {
            20_991_231
        } else {
            20_200_101
        };
        sets.push(set(random, next));
        sets.sort_unstable_by_key(|set| set.first_date);
    }
    let place = random.below(sets.len());
    match damage {
        StoreDamage::NoDay => {
            let days = [
                0, 20_191_231, 20_210_229, 20_220_431, 20_301_301, 21_000_101,
            ];
            sets[place].first_date = random.pick(&days);
        }
        StoreDamage::SameDay => {
            let place = place.max(1);
            sets[place].first_date = sets[place - 1].first_date;
        }
        StoreDamage::FallingDay => {
            let place = place.max(1);
            sets.swap(place - 1, place);
        }
        StoreDamage::Energy => sets[place].energy = random.pick(&[1_000_001, u32::MAX]),
        StoreDamage::Margin => sets[place].margin = above(random),
        StoreDamage::LeastLevel => sets[place].least_level = above(random),
        StoreDamage::TooManySets => {
            sets = dates(random, MOST_SETS + 1, date)
                .into_iter()
                .map(|date| set(random, date))
                .collect();
        }
        _ => {}
    }
    let mut bytes = to_bytes(&sets);
    match damage {
        StoreDamage::Cut => bytes.truncate(random.below(START_LENGTH)),
        StoreDamage::Mark => bytes[random.below(3)] ^= 0x20,
        StoreDamage::Version => bytes[3 + random.below(2)] ^= random.pick(&[1, 2, 128]),
        StoreDamage::CountAbove => bytes[5] += 1,
        StoreDamage::CountBelow => bytes[5] -= 1,
        StoreDamage::Longer => {
            let more = random.pick(&[1, 7, SET_LENGTH]);
            bytes.extend(random.bytes(more));
        }
        StoreDamage::Shorter => {
            let fewer = random.pick(&[1, 7, SET_LENGTH]);
            bytes.truncate(bytes.len() - fewer);
        }
        _ => {}
    }
    bytes
}

fn above(random: &mut Random) -> u64 {
    random.pick(&[1_000_000_000_001, u64::MAX, 1 << 63])
}
