//! How a file writes its amounts, by what stands between its columns; and its dates.
//!
//! | columns apart by | 1,234 euros and a half |
//! |---|---|
//! | commas | `1234.50`, in quotes also `"1,234.50"` |
//! | semicolons | `1234,50`, `1.234,50`, and `1234.50` |
//! | tabs | any of these; `1.234` and `1,234` alone may mean two things, and are none |

use std::borrow::Cow;

use crate::words::{read_date, read_euros, read_whole};

/// What stands between the columns of a file.
#[derive(Clone, Copy, Debug, PartialEq, Eq)]
pub enum Convention {
    Commas,
    Semicolons,
    Tabs,
}

impl Convention {
    /// That of a file, by the line with its names.
    pub fn of(names: &str) -> Convention {
        match names {
            _ if names.contains(';') => Convention::Semicolons,
            _ if names.contains('\t') => Convention::Tabs,
            _ => Convention::Commas,
        }
    }

    pub fn separator(self) -> char {
        match self {
            Convention::Commas => ',',
            Convention::Semicolons => ';',
            Convention::Tabs => '\t',
        }
    }

    /// How euros are written, for messages about a text that is none; a spreadsheet
    /// with a decimal comma has to save with other separators.
    pub fn example(self, text: &str) -> &'static str {
        match self {
            Convention::Commas
                if text.contains(',') && Convention::Semicolons.euros(text).is_some() =>
            {
                "1234.50, or 1234,50 with semicolons between the columns"
            }
            Convention::Commas => "1234.50",
            Convention::Semicolons => "1234,50",
            Convention::Tabs => "1234.50 or 1234,50",
        }
    }

    pub fn whole(self, text: &str) -> Option<i128> {
        read_whole(&self.pointed(text)?)
    }

    /// Euros with at most two decimals, in cents; spreadsheets drop zeros at the end.
    pub fn euros(self, text: &str) -> Option<i128> {
        let pointed = self.pointed(text)?;
        let padded = match pointed.split_once('.') {
            None => format!("{pointed}.00"),
            Some((_, decimals)) if decimals.len() == 1 => format!("{pointed}0"),
            Some(_) => pointed.to_string(),
        };
        read_euros(&padded)
    }

    /// The amount with a decimal point, and commas before every three digits; none
    /// where it may mean two things.
    fn pointed(self, text: &str) -> Option<Cow<'_, str>> {
        let is_turned = match self {
            Convention::Commas => false,
            Convention::Semicolons => text.contains(',') || !has_decimals(text, '.'),
            Convention::Tabs => match (text.rfind('.'), text.rfind(',')) {
                (Some(point), Some(comma)) => point < comma,
                (Some(_), None) => is_grouped(text, '.')?,
                (None, Some(_)) => !is_grouped(text, ',')?,
                (None, None) => false,
            },
        };
        Some(match is_turned {
            true => Cow::Owned(turned(text)),
            false => Cow::Borrowed(text),
        })
    }
}

/// Whether the one such mark of an amount stands before one or two digits, its last.
fn has_decimals(text: &str, mark: char) -> bool {
    let (_, decimals) = text.rsplit_once(mark).unwrap_or_default();
    text.matches(mark).count() == 1 && (1..=2).contains(&decimals.len())
}

/// Whether such marks, the only ones of an amount, stand before every three digits; none
/// where that cannot be told.
fn is_grouped(text: &str, mark: char) -> Option<bool> {
    match (text.matches(mark).count(), has_decimals(text, mark)) {
        (1, true) => Some(false),
        (1, false) => None,
        _ => Some(true),
    }
}

/// The amount with point for comma, and comma for point.
fn turned(text: &str) -> String {
    let turn = |it: char| match it {
        ',' => '.',
        '.' => ',',
        other => other,
    };
    text.chars().map(turn).collect()
}

/// Which dates with slashes are read.
#[derive(Clone, Copy, Debug, Default, PartialEq, Eq)]
pub enum Dates {
    /// None of them: day or month may stand first.
    #[default]
    NoSlashes,
    /// Day, month, year, of which the last two digits may stand alone: the years of a
    /// book are 2020 to 2099.
    DayFirst,
}

impl Dates {
    /// A date as the number of the book: 2026-03-18, 18.03.2026, and 18/03/2026 where
    /// the day is known to stand first, then 18/03/26 too, which spreadsheets make of it.
    /// It need not be a real day.
    pub fn read(self, text: &str) -> Option<u32> {
        let mark = match self {
            _ if text.contains('.') => '.',
            Dates::DayFirst if text.contains('/') => '/',
            _ => return read_date(text),
        };
        let parts: Vec<&str> = text.split(mark).collect();
        let [day, month, year] = parts.as_slice() else {
            return None;
        };
        let number = |text: &str, digits: std::ops::RangeInclusive<usize>| {
            let formed = digits.contains(&text.len()) && text.bytes().all(|it| it.is_ascii_digit());
            formed.then(|| text.parse::<u32>().ok())?
        };
        let (day, month) = (number(day, 1..=2)?, number(month, 1..=2)?);
        let year = match self {
            Dates::DayFirst if year.len() == 2 => 2000 + number(year, 2..=2)?,
            _ => number(year, 4..=4)?,
        };
        Some(year * 10_000 + month * 100 + day)
    }
}

#[cfg(test)]
mod tests {
    use super::*;

    #[test]
    fn amounts_by_their_separator() {
        let all = [Convention::Commas, Convention::Semicolons, Convention::Tabs];
        for (text, cents) in [
            ("1234.50", [Some(123_450); 3]),
            ("1234.5", [Some(123_450); 3]),
            ("-7", [Some(-700); 3]),
            ("1,234.50", [Some(123_450), None, Some(123_450)]),
            ("1.234,50", [None, Some(123_450), Some(123_450)]),
            ("1234,50", [None, Some(123_450), Some(123_450)]),
            (
                "-1.234.567,8",
                [None, Some(-123_456_780), Some(-123_456_780)],
            ),
            ("1,234,567", [Some(123_456_700), None, Some(123_456_700)]),
            ("1.234.567", [None, Some(123_456_700), Some(123_456_700)]),
            ("1.234", [None, Some(123_400), None]),
            ("1,234", [Some(123_400), None, None]),
            ("1.23.456", [None; 3]),
            ("1 234,50", [None; 3]),
            (".5", [None; 3]),
            ("1.", [None; 3]),
            ("", [None; 3]),
        ] {
            assert_eq!(all.map(|it| it.euros(text)), cents, "{text}");
        }
        for (text, number) in [
            ("30000", [Some(30_000); 3]),
            ("30.000", [None, Some(30_000), None]),
            ("30,000", [Some(30_000), None, None]),
            ("1.5", [None; 3]),
            ("1,5", [None; 3]),
            ("30000.00", [None; 3]),
        ] {
            assert_eq!(all.map(|it| it.whole(text)), number, "{text}");
        }
    }

    #[test]
    fn dates_with_points_and_slashes() {
        for (text, number) in [
            ("2026-03-18", [Some(20_260_318); 2]),
            ("18.03.2026", [Some(20_260_318); 2]),
            ("8.3.2026", [Some(20_260_308); 2]),
            ("18/03/2026", [None, Some(20_260_318)]),
            ("18.03.26", [None, Some(20_260_318)]),
            ("18/03/26", [None, Some(20_260_318)]),
            ("18/03/126", [None; 2]),
            ("03/18/2026", [None, Some(20_261_803)]),
            ("2026/03/18", [None; 2]),
            ("1.2.3.2026", [None; 2]),
            ("+1.02.2026", [None; 2]),
            ("..", [None; 2]),
            ("", [None; 2]),
        ] {
            let read = [Dates::NoSlashes, Dates::DayFirst].map(|it| it.read(text));
            assert_eq!(read, number, "{text}");
        }
    }
}
