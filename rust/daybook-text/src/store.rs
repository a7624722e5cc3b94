//! The store of parameter sets in bytes: its sets, the figures that are in force
//! on a date, shown beside the engine's answers, and why the engine refuses one.

use crate::fields::date_fault;
use crate::words::{counted, date, grouped};

const MARK: &[u8] = b"GPS";
const START_LENGTH: usize = 6;
const SET_LENGTH: usize = 24;
const MOST_SETS: usize = 32;
const MOST_ENERGY: u32 = 1_000_000;
const MOST_MONEY: u64 = 1_000_000_000_000;

/// The figures of a call.
#[derive(Clone, Copy, Debug, PartialEq, Eq)]
pub struct Figures {
    /// Flagged above this many MWh at the least reference price.
    pub flag_mwh: u32,
    /// A level counts above blocked by more than this, in cents.
    pub margin: u64,
    /// Either level is at least this, in cents.
    pub least_level: u64,
}

/// Without a store.
pub const TODAY: Figures = Figures {
    flag_mwh: 30_000,
    margin: 1_000_000,
    least_level: 10_000_000,
};

/// A set of a store: its first date, and its figures.
#[derive(Clone, Copy, Debug, PartialEq, Eq)]
pub struct Set {
    pub first_date: u32,
    pub figures: Figures,
}

/// The figures in force on a date; today's without a store, and where the store
/// has none, which the engine then refuses.
pub fn figures(store: Option<&[u8]>, on: u32) -> Figures {
    let sets = store.map_or_else(Vec::new, sets);
    let in_force = sets.iter().rev().find(|set| set.first_date <= on);
    in_force.map_or(TODAY, |set| set.figures)
}

/// The sets that stand in the bytes, well formed or not.
pub fn sets(bytes: &[u8]) -> Vec<Set> {
    let records = bytes.get(START_LENGTH..).unwrap_or(&[]);
    let (records, _) = records.as_chunks::<SET_LENGTH>();
    records.iter().map(set).collect()
}

fn set(record: &[u8; SET_LENGTH]) -> Set {
    let four = |at: usize| u32::from_le_bytes(std::array::from_fn(|byte| record[at + byte]));
    let eight = |at: usize| u64::from_le_bytes(std::array::from_fn(|byte| record[at + byte]));
    Set {
        first_date: four(0),
        figures: Figures {
            flag_mwh: four(4),
            margin: eight(8),
            least_level: eight(16),
        },
    }
}

/// The bytes of a store of these sets; too many are counted as 255, which is out of
/// range.
pub fn to_bytes(version: u16, sets: &[Set]) -> Vec<u8> {
    let mut bytes = MARK.to_vec();
    bytes.extend(version.to_le_bytes());
    bytes.push(u8::try_from(sets.len()).unwrap_or(u8::MAX));
    for set in sets {
        bytes.extend(set.first_date.to_le_bytes());
        bytes.extend(set.figures.flag_mwh.to_le_bytes());
        bytes.extend(set.figures.margin.to_le_bytes());
        bytes.extend(set.figures.least_level.to_le_bytes());
    }
    bytes
}

/// Why question 16 refuses a store; none where it does not.
pub fn malformed(bytes: &[u8]) -> Option<String> {
    if bytes.len() < START_LENGTH {
        let length = counted(bytes.len(), "byte");
        return Some(format!("{length}, the start alone has {START_LENGTH}"));
    }
    if !bytes.starts_with(MARK) {
        return Some("it does not start with the mark GPS".to_string());
    }
    let version = u16::from_le_bytes([bytes[3], bytes[4]]);
    if version != 1 {
        return Some(format!("version {version} instead of 1"));
    }
    let count = usize::from(bytes[5]);
    if count > MOST_SETS {
        return Some(format!("{count} sets, a store has at most {MOST_SETS}"));
    }
    let length = START_LENGTH + SET_LENGTH * count;
    if bytes.len() != length {
        let (has, count) = (counted(bytes.len(), "byte"), counted(count, "set"));
        return Some(format!("{has}, but a store of {count} has {length}"));
    }
    let sets = sets(bytes);
    let faulty = |place: usize| {
        let before = place.checked_sub(1).map(|place| sets[place].first_date);
        let reason = set_fault(&sets[place], before)?;
        Some(format!("set {}: {reason}", place + 1))
    };
    (0..sets.len()).find_map(faulty)
}

fn set_fault(set: &Set, before: Option<u32>) -> Option<String> {
    let Figures {
        flag_mwh,
        margin,
        least_level,
    } = set.figures;
    if let Some(reason) = date_fault(set.first_date) {
        return Some(reason);
    }
    if before.is_some_and(|before| set.first_date <= before) {
        let first = date(set.first_date);
        return Some(format!(
            "date {first} is not after the one of the set before"
        ));
    }
    if flag_mwh > MOST_ENERGY {
        let (mwh, most) = (grouped(flag_mwh), grouped(MOST_ENERGY));
        return Some(format!("{mwh} MWh exceed {most} MWh"));
    }
    let above = [margin, least_level]
        .into_iter()
        .find(|it| *it > MOST_MONEY)?;
    let (above, most) = (grouped(above), grouped(MOST_MONEY));
    Some(format!("{above} cents exceed {most} cents"))
}

/// Why question 17 refuses a well formed store.
pub fn not_in_force(bytes: &[u8], on: u32) -> String {
    match sets(bytes).first() {
        None => "it has no set".to_string(),
        Some(set) => {
            let (first, on) = (date(set.first_date), date(on));
            format!("its first set begins on {first}, after the book's date {on}")
        }
    }
}
