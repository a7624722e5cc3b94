//! How often each call got each number, by the version of the book.

use std::fmt::{self, Display, Formatter};

use books::Call;
use reference::book::{Header, MARK};
use reference::form::FORM_MARK;
use reference::version::FIRST_HEADER_LENGTH;

/// The numbers: 0 for an accepted call, 1 to 14 for a refusal of document 01, 15
/// for one of ask 1, 16 and 17 of ask 4, 18 to 20 of ask 6, 21 to 23 of ask 7, 24
/// and 25 of ask 8, 26 of ask 9, 29 and 30 of ask 13.
pub const NUMBERS: usize = 31;

/// What a call is made on.
#[derive(Clone, Copy, Debug, PartialEq, Eq)]
pub enum Version {
    One,
    Two,
    Three,
    /// No book of a version that is known: questions 1 and 2.
    Other,
}

impl Version {
    pub const ALL: [Version; 4] = [Version::One, Version::Two, Version::Three, Version::Other];

    /// The version of the bytes that are questioned: the book, the picked one of
    /// two, the form, or the fields to write, of which the mark is not looked at.
    pub fn of(book: &[u8], call: &Call) -> Version {
        let (bytes, mark) = match call {
            Call::Write { image, .. } => return Version::of_header(&image[..]),
            Call::ShowPicked {
                afternoon,
                pick: true,
                ..
            } => (&afternoon[..], MARK),
            Call::Restore { .. } => (book, FORM_MARK),
            _ => (book, MARK),
        };
        if bytes.len() >= FIRST_HEADER_LENGTH && bytes.starts_with(mark) {
            Version::of_header(bytes)
        } else {
            Version::Other
        }
    }

    fn of_header(bytes: &[u8]) -> Version {
        match Header::from_bytes(bytes).version {
            1 => Version::One,
            2 => Version::Two,
            3 => Version::Three,
            _ => Version::Other,
        }
    }
}

impl Display for Version {
    fn fmt(&self, formatter: &mut Formatter<'_>) -> fmt::Result {
        formatter.write_str(match self {
            Version::One => "version 1",
            Version::Two => "version 2",
            Version::Three => "version 3",
            Version::Other => "other bytes",
        })
    }
}

/// Calls that were compared, by version, kind and number.
#[derive(Clone, Debug, Default, PartialEq, Eq)]
pub struct Counts {
    counts: [[[u64; NUMBERS]; Call::NAMES.len()]; Version::ALL.len()],
    all: u64,
}

impl Counts {
    /// One more call on a book of this version with this answer's number.
    pub fn add(&mut self, version: Version, call: &Call, number: u32) {
        let number = usize::try_from(number).unwrap_or(NUMBERS);
        self.counts[version as usize][kind(call.name())][number.min(NUMBERS - 1)] += 1;
        self.all += 1;
    }

    /// The calls of all kinds.
    pub fn all(&self) -> u64 {
        self.all
    }

    /// The calls of a kind with a number, on books of every version.
    pub fn of(&self, name: &str, number: usize) -> u64 {
        let versions = Version::ALL.into_iter();
        versions
            .map(|version| self.of_version(version, name, number))
            .sum()
    }

    /// Those on books of a version.
    pub fn of_version(&self, version: Version, name: &str, number: usize) -> u64 {
        self.counts[version as usize][kind(name)][number]
    }

    /// The kinds and numbers that the documents allow and that did not occur.
    pub fn not_reached(&self) -> Vec<(Version, &'static str, usize)> {
        let allowed =
            every().filter(|(version, name, number)| possible(*version, name).contains(number));
        allowed
            .filter(|(version, name, number)| self.of_version(*version, name, *number) == 0)
            .collect()
    }

    /// The kinds and numbers that occurred although the documents do not allow
    /// them.
    pub fn not_allowed(&self) -> Vec<(Version, &'static str, usize)> {
        let occurred =
            every().filter(|(version, name, number)| self.of_version(*version, name, *number) > 0);
        occurred
            .filter(|(version, name, number)| !possible(*version, name).contains(number))
            .collect()
    }
}

/// Every version, kind and number.
fn every() -> impl Iterator<Item = (Version, &'static str, usize)> {
    Version::ALL.into_iter().flat_map(|version| {
        Call::NAMES.into_iter().flat_map(move |name| {
            let numbers = 0..NUMBERS;
            numbers.map(move |number| (version, name, number))
        })
    })
}

/// The place of a kind of call among the names.
fn kind(name: &str) -> usize {
    let place = Call::NAMES.iter().position(|known| *known == name);
    place.expect("a kind of call")
}

/// The numbers that a kind of call can get on a book of this version.
pub fn possible(version: Version, name: &str) -> Vec<usize> {
    let (last, more): (usize, &[usize]) = match name {
        "posting" => (8, &[10, 16, 17, 19, 26]),
        "list" => (7, &[15, 16, 17, 19, 26]),
        "show" | "show picked" => (8, &[16, 17, 26]),
        "morning level" | "afternoon level" | "warning" => (9, &[16, 17, 26]),
        "flag" | "trade count" | "trade" => (9, &[16, 17, 26]),
        "levels" => (7, &[16, 17, 26]),
        "morning call" | "afternoon call" => (9, &[11, 12, 16, 17, 19, 26]),
        "reduction" => (9, &[11, 13, 14, 16, 17, 19, 20, 26]),
        "cancellation" => (9, &[11, 13, 14, 16, 17, 24, 25, 26]),
        "run" => (7, &[16, 17, 19, 20, 26]),
        "withdrawal" => (7, &[16, 17, 18, 19, 26]),
        "read" => (7, &[26]),
        // It asks nothing of the book but its length.
        "start" => return vec![0, 19],
        // Version 1 has nothing to lose.
        "convert" if version == Version::One => (7, &[22, 23, 26]),
        "convert" => (7, &[21, 22, 23, 26]),
        "form" => (7, &[26, 30]),
        // Whatever is wrong with a form has one number.
        "restore" if version == Version::Other => return vec![29],
        "restore" => return vec![0, 29, 30],
        _ => (7, &[]),
    };
    let mut numbers: Vec<usize> = (0..=last).chain(more.iter().copied()).collect();
    // The questions 1 and 2 are failed where no version is known, and only there.
    let unknown = |number: &usize| [1, 2].contains(number);
    numbers.retain(|number| unknown(number) == (version == Version::Other));
    // Writing puts the mark itself.
    numbers.retain(|number| name != "write" || *number != 1);
    numbers
}

impl Display for Counts {
    /// A table for each version: a line for each kind of call, a column for each
    /// number that some call can get, or got.
    fn fmt(&self, formatter: &mut Formatter<'_>) -> fmt::Result {
        for (place, version) in Version::ALL.into_iter().enumerate() {
            if place > 0 {
                writeln!(formatter)?;
            }
            self.table(version, formatter)?;
        }
        Ok(())
    }
}

impl Counts {
    fn table(&self, version: Version, formatter: &mut Formatter<'_>) -> fmt::Result {
        let told = |number: &usize| {
            let names = Call::NAMES.iter();
            names
                .clone()
                .any(|name| possible(version, name).contains(number))
                || names
                    .clone()
                    .any(|name| self.of_version(version, name, *number) > 0)
        };
        let numbers: Vec<usize> = (0..NUMBERS).filter(told).collect();
        write!(formatter, "{:<16}", version.to_string())?;
        for number in &numbers {
            write!(formatter, "{number:>9}")?;
        }
        for name in Call::NAMES {
            write!(formatter, "\n{name:<16}")?;
            for number in &numbers {
                let count = self.of_version(version, name, *number);
                if possible(version, name).contains(number) || count > 0 {
                    write!(formatter, "{count:>9}")?;
                } else {
                    write!(formatter, "{:>9}", "-")?;
                }
            }
        }
        Ok(())
    }
}
