//! The fields of a book by name, and where they stand in its bytes.

use std::fmt::{self, Display, Formatter};

use daybook::{header_length, user_length, Book, Prices, Trade, User, RECORD_LENGTH};

use crate::words::{self, AREAS};

/// The mark that a book starts with.
pub const MARK: &[u8] = b"GDB";

/// The mark that the field-wise form of a book starts with.
pub const FORM_MARK: &[u8] = b"GDF";

/// Bytes of the shortest header, that of version 1.
pub const SHORT_HEADER: usize = 32;

/// The versions that the engine knows.
pub const VERSIONS: &str = "versions 1, 2 and 3";

/// How a text of each version starts.
pub const FIRST_LINES: &str = "`daybook 1`, `daybook 2` or `daybook 3`";

/// Whether a book of a version has the selling tariffs; nothing is said of a
/// version that the engine does not know.
pub fn has_selling_tariffs(version: u16) -> Option<bool> {
    match version {
        1 => Some(false),
        2 | 3 => Some(true),
        _ => None,
    }
}

/// Whether a book of a version has managers; nothing is said of a version that the
/// engine does not know.
pub fn has_managers(version: u16) -> Option<bool> {
    match version {
        1 | 2 => Some(false),
        3 => Some(true),
        _ => None,
    }
}

/// A record of a book; places count from 0.
#[derive(Clone, Copy, Debug, PartialEq, Eq, PartialOrd, Ord)]
pub enum Place {
    Header,
    User(usize),
    Trade(usize),
}

/// A field of a record. Areas and prices are told by their places.
#[derive(Clone, Copy, Debug, PartialEq, Eq, PartialOrd, Ord)]
pub enum Field {
    Mark,
    Length,
    Version,
    UserCount,
    TradeCount,
    Date,
    Price(usize),
    Id,
    Role,
    ZeroBytes,
    Physical(usize),
    Position(usize),
    Charges,
    Assigned,
    Blocked,
    Manager(usize),
    Seller,
    Buyer,
    Area,
    Kind,
    Day,
    Notified,
    Standing,
}

/// The names of the prices, in the order of the header: those that every version
/// has, then the selling tariffs.
pub const PRICES: [&str; 7] = ["P", "Q", "L", "X", "I", "S", "U"];

/// How many of them every version has.
pub const COMMON_PRICES: usize = 5;

impl Display for Field {
    fn fmt(&self, formatter: &mut Formatter<'_>) -> fmt::Result {
        let name = match self {
            Field::Mark => "mark",
            Field::Length => "length",
            Field::Version => "version",
            Field::UserCount => "user count",
            Field::TradeCount => "trade count",
            Field::Date => "date",
            Field::Price(place) => PRICES.get(*place).copied().unwrap_or("price"),
            Field::Id => "id",
            Field::Role => "role",
            Field::ZeroBytes => "zero bytes",
            Field::Physical(area) => return write!(formatter, "physical {}", area_name(*area)),
            Field::Position(area) => return write!(formatter, "position {}", area_name(*area)),
            Field::Charges => "charges",
            Field::Assigned => "assigned",
            Field::Blocked => "blocked",
            Field::Manager(area) => return write!(formatter, "manager {}", area_name(*area)),
            Field::Seller => "seller",
            Field::Buyer => "buyer",
            Field::Area => "area",
            Field::Kind => "kind",
            Field::Day => "day",
            Field::Notified => "notified",
            Field::Standing => "standing",
        };
        formatter.write_str(name)
    }
}

fn area_name(area: usize) -> &'static str {
    AREAS.get(area).copied().unwrap_or("area")
}

/// The prices that a book of its version has, in the order of the header.
pub fn prices(book: &Book) -> Vec<u32> {
    let prices = &book.prices;
    let mut listed = vec![
        prices.pvb_tariff,
        prices.tank_and_store_tariff,
        prices.liquefaction_toll,
        prices.exit_toll,
        prices.injection_toll,
    ];
    if has_selling_tariffs(book.version) == Some(true) {
        listed.push(prices.pvb_selling_tariff);
        listed.push(prices.tank_and_store_selling_tariff);
    }
    listed
}

/// Sets a price by its place in the header.
pub fn put_price(book: &mut Book, place: usize, price: u32) {
    let prices = &mut book.prices;
    match place {
        0 => prices.pvb_tariff = price,
        1 => prices.tank_and_store_tariff = price,
        2 => prices.liquefaction_toll = price,
        3 => prices.exit_toll = price,
        4 => prices.injection_toll = price,
        5 => prices.pvb_selling_tariff = price,
        _ => prices.tank_and_store_selling_tariff = price,
    }
}

/// The fields of bytes that are long enough for their user count, accepted or
/// not; none of other bytes.
pub fn fields(bytes: &[u8]) -> Option<Book> {
    let version = two(bytes, 3)?;
    let users = usize::from(*bytes.get(5)?);
    let records = bytes.get(header_length(version)..)?;
    let (users, trades) = records.split_at_checked(user_length(version) * users)?;
    let mut book = Book {
        version,
        date: four(bytes, 8)?,
        prices: Prices::default(),
        users: users.chunks_exact(user_length(version)).map(user).collect(),
        trades: trades.as_chunks().0.iter().map(Trade::from_bytes).collect(),
    };
    for place in 0..prices(&book).len() {
        put_price(&mut book, place, four(bytes, 12 + 4 * place)?);
    }
    Some(book)
}

/// The fields of a user's record of any version.
fn user(record: &[u8]) -> User {
    let mut bytes = [0; RECORD_LENGTH];
    bytes[..record.len()].copy_from_slice(record);
    User::from_bytes(&bytes)
}

/// Two bytes at a place as a number.
pub fn two(bytes: &[u8], at: usize) -> Option<u16> {
    let field = bytes.get(at..)?.first_chunk()?;
    Some(u16::from_le_bytes(*field))
}

/// Four bytes at a place as a number.
pub fn four(bytes: &[u8], at: usize) -> Option<u32> {
    let field = bytes.get(at..)?.first_chunk()?;
    Some(u32::from_le_bytes(*field))
}

/// Why a date is no real Gregorian day of 2020 to 2099.
pub fn date_fault(date: u32) -> Option<String> {
    let (year, month, day) = (date / 10_000, date / 100 % 100, date % 100);
    let shown = words::date(date);
    if !(2020..=2099).contains(&year) {
        return Some(format!("date {shown} is not of the years 2020 to 2099"));
    }
    let leap = year.is_multiple_of(4);
    let days = match month {
        4 | 6 | 9 | 11 => 30,
        2 => 28 + u32::from(leap),
        1..=12 => 31,
        _ => return Some(format!("date {shown} has no month {month}")),
    };
    (!(1..=days).contains(&day)).then(|| format!("date {shown} is no day, its month has {days}"))
}
