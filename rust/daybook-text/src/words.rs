//! Amounts, dates and codes in words: how they are written, and how they are
//! read back.

use daybook::{Area, Kind, Role};

/// The areas, by their codes.
pub const AREAS: [&str; 3] = [Area::Pvb.name(), Area::Tvb.name(), Area::Avb.name()];

/// The roles, by their codes.
pub const ROLES: [&str; 2] = [Role::Shipper.name(), Role::ClearingHouse.name()];

/// The kinds of trade, by their codes.
pub const KINDS: [&str; 3] = [
    Kind::Bilateral.name(),
    Kind::Platform.name(),
    Kind::Counterparty.name(),
];

/// The days of a trade, by their codes.
pub const DAYS: [&str; 2] = ["d", "d+1"];

/// The word of a code, or the number itself where there is none.
pub fn word(words: &[&str], code: u8) -> String {
    match words.get(usize::from(code)) {
        Some(word) => (*word).to_string(),
        None => code.to_string(),
    }
}

/// The code of a word, in whatever case.
pub fn code(words: &[&str], word: &str) -> Option<u8> {
    let place = words.iter().position(|it| it.eq_ignore_ascii_case(word))?;
    u8::try_from(place).ok()
}

/// A whole number with a comma before every three digits.
pub fn grouped(number: impl Into<i128>) -> String {
    let number = number.into();
    let digits = number.unsigned_abs().to_string();
    let mut text = String::new();
    if number < 0 {
        text.push('-');
    }
    for (place, digit) in digits.chars().enumerate() {
        if place > 0 && (digits.len() - place).is_multiple_of(3) {
            text.push(',');
        }
        text.push(digit);
    }
    text
}

/// Cents as euros with two decimals and commas: 1,234.50.
pub fn euros(cents: impl Into<i128>) -> String {
    let cents = cents.into();
    let sign = if cents < 0 { "-" } else { "" };
    let (whole, part) = (cents.unsigned_abs() / 100, cents.unsigned_abs() % 100);
    let whole = i128::try_from(whole).map_or_else(|_| whole.to_string(), grouped);
    format!("{sign}{whole}.{part:02}")
}

/// Cents as euros with two decimals and no commas: 1234.50.
pub fn plain_euros(cents: impl Into<i128>) -> String {
    let cents = cents.into();
    let sign = if cents < 0 { "-" } else { "" };
    let (whole, part) = (cents.unsigned_abs() / 100, cents.unsigned_abs() % 100);
    format!("{sign}{whole}.{part:02}")
}

/// A date as year-month-day; a number that is no such date may look odd.
pub fn date(number: u32) -> String {
    let (year, month, day) = (number / 10_000, number / 100 % 100, number % 100);
    format!("{year:04}-{month:02}-{day:02}")
}

/// `1 user`, `2 users`.
pub fn counted(count: usize, one: &str) -> String {
    let ending = if count == 1 { "" } else { "s" };
    format!("{} {one}{ending}", grouped(wide(count)))
}

/// A count in 128 bits.
pub fn wide(count: usize) -> i128 {
    i128::try_from(count).unwrap_or(i128::MAX)
}

/// The digits of a number without its commas, which stand before every three
/// digits or nowhere.
fn digits(text: &str) -> Option<String> {
    let groups: Vec<&str> = text.split(',').collect();
    let (first, rest) = groups.split_first()?;
    let is_digits = |group: &&str| group.bytes().all(|byte| byte.is_ascii_digit());
    let formed = if rest.is_empty() {
        !first.is_empty()
    } else {
        (1..=3).contains(&first.len()) && rest.iter().all(|group| group.len() == 3)
    };
    (formed && groups.iter().all(is_digits)).then(|| groups.concat())
}

/// A whole number, with or without commas; none for any other text, and for one
/// of more than 30 digits.
pub fn read_whole(text: &str) -> Option<i128> {
    let (sign, rest) = match text.strip_prefix('-') {
        Some(rest) => (-1, rest),
        None => (1, text),
    };
    let digits = digits(rest)?;
    (digits.len() <= 30)
        .then(|| digits.parse::<i128>().ok())?
        .map(|number| sign * number)
}

/// Euros with two decimals, in cents.
pub fn read_euros(text: &str) -> Option<i128> {
    let (whole, part) = text.rsplit_once('.')?;
    let two = part.len() == 2 && part.bytes().all(|byte| byte.is_ascii_digit());
    let cents = two.then(|| part.parse::<i128>().ok())??;
    let euros = read_whole(whole)?;
    let sign = if whole.starts_with('-') { -1 } else { 1 };
    Some(euros * 100 + sign * cents)
}

/// A date as year-month-day, as the number of the book. It need not be a real day.
pub fn read_date(text: &str) -> Option<u32> {
    let mut parts = text.split('-');
    let mut part = |width: usize| {
        let digits = parts.next()?;
        let formed = digits.len() == width && digits.bytes().all(|byte| byte.is_ascii_digit());
        formed.then(|| digits.parse::<u32>().ok())?
    };
    let (year, month, day) = (part(4)?, part(2)?, part(2)?);
    let number = year * 10_000 + month * 100 + day;
    parts.next().is_none().then_some(number)
}

#[cfg(test)]
mod tests {
    use super::*;

    #[test]
    fn amounts_are_written_and_read_back() {
        for (cents, text) in [
            (0, "0.00"),
            (7, "0.07"),
            (-7, "-0.07"),
            (-123, "-1.23"),
            (100_000, "1,000.00"),
            (-99_999_999, "-999,999.99"),
            (100_000_000_000_000, "1,000,000,000,000.00"),
        ] {
            assert_eq!(euros(cents), text);
            assert_eq!(read_euros(text), Some(cents));
            assert_eq!(read_euros(&plain_euros(cents)), Some(cents));
        }
        for (number, text) in [(0, "0"), (999, "999"), (-1_000, "-1,000")] {
            assert_eq!(grouped(number), text);
            assert_eq!(read_whole(text), Some(number));
        }
    }

    #[test]
    fn other_texts_are_no_amounts() {
        for text in [
            "", "-", "1,0", ",100", "1,000,00", "1000,000", "+1", "1 0", "0x1", "--1",
        ] {
            assert_eq!(read_whole(text), None, "{text}");
        }
        for text in [
            "", "1", "1.5", "1.500", ".50", "1.-5", "1,00", "1.2.34", "-.50",
        ] {
            assert_eq!(read_euros(text), None, "{text}");
        }
        assert_eq!(read_whole(&"9".repeat(31)), None);
    }

    #[test]
    fn dates_are_written_and_read_back() {
        assert_eq!(date(20_260_318), "2026-03-18");
        assert_eq!(read_date("2026-03-18"), Some(20_260_318));
        assert_eq!(read_date("2026-02-30"), Some(20_260_230));
        for text in [
            "2026-3-18",
            "20260318",
            "2026-03-18-1",
            "2026/03/18",
            "26-03-18",
            "",
        ] {
            assert_eq!(read_date(text), None, "{text}");
        }
    }
}
