//! "The book in bytes": the records, read from bytes and written to them, and
//! what the questions 4 to 6 ask of one record.

use crate::units::Prices;
use crate::version::LONGEST_HEADER;

pub const MARK: &[u8; 3] = b"GDB";

/// Bytes of the header of version 1, with which that of version 2 begins.
pub const HEADER_LENGTH: usize = 32;

pub const USER_LENGTH: usize = 56;
pub const TRADE_LENGTH: usize = 20;
pub const MOST_USERS: usize = 64;
pub const MOST_TRADES: usize = 256;

/// Bytes of an image: the longest header, 64 users and 256 trades.
pub const IMAGE_LENGTH: usize = length(LONGEST_HEADER, MOST_USERS, MOST_TRADES);

pub type UserBytes = [u8; USER_LENGTH];
pub type TradeBytes = [u8; TRADE_LENGTH];

const SHIPPER: u8 = 0;
const CLEARING_HOUSE: u8 = 1;
const MONTH_LENGTHS: [u32; 12] = [31, 28, 31, 30, 31, 30, 31, 31, 30, 31, 30, 31];
const MOST_PRICE: u32 = 100_000;
const MOST_ENTRY: i64 = 1_000_000;
const MOST_CENTS: i64 = 1_000_000_000_000;
const MOST_ENERGY: u32 = 100_000;

/// Bytes of the header + 56 × users + 20 × trades.
pub const fn length(header: usize, users: usize, trades: usize) -> usize {
    header + USER_LENGTH * users + TRADE_LENGTH * trades
}

/// The fields of the header, but for the mark.
#[derive(Clone, Copy, Debug, Default, PartialEq, Eq)]
pub struct Header {
    pub version: u16,
    pub users: u8,
    pub trades: u16,
    pub date: u32,
    pub prices: Prices,
}

#[derive(Clone, Copy, Debug, Default, PartialEq, Eq)]
pub struct User {
    pub id: u32,
    pub role: u8,
    pub physical: [i32; 3],
    pub position: [i32; 3],
    pub charges: i64,
    pub assigned: u64,
    pub blocked: u64,
}

#[derive(Clone, Copy, Debug, Default, PartialEq, Eq)]
pub struct Trade {
    pub seller: u32,
    pub buyer: u32,
    pub area: u8,
    pub kind: u8,
    pub day: u8,
    pub notified: u32,
    pub standing: u32,
}

/// A book read into its fields. The counts are the lengths of the lists.
#[derive(Clone, Debug, Default, PartialEq, Eq)]
pub struct Book {
    pub version: u16,
    pub date: u32,
    pub prices: Prices,
    pub users: Vec<User>,
    pub trades: Vec<Trade>,
}

impl Header {
    /// The header without S and U.
    #[inline]
    pub fn from_bytes(bytes: &[u8; HEADER_LENGTH]) -> Header {
        Header {
            version: u16::from_le_bytes(field(bytes, 3)),
            users: bytes[5],
            trades: u16::from_le_bytes(field(bytes, 6)),
            date: u32::from_le_bytes(field(bytes, 8)),
            prices: Prices {
                p: u32::from_le_bytes(field(bytes, 12)),
                q: u32::from_le_bytes(field(bytes, 16)),
                l: u32::from_le_bytes(field(bytes, 20)),
                x: u32::from_le_bytes(field(bytes, 24)),
                i: u32::from_le_bytes(field(bytes, 28)),
                ..Prices::default()
            },
        }
    }

    /// The bytes of the header without S and U.
    #[inline]
    pub fn to_bytes(self) -> [u8; HEADER_LENGTH] {
        let mut bytes = [0; HEADER_LENGTH];
        put(&mut bytes, 0, *MARK);
        put(&mut bytes, 3, self.version.to_le_bytes());
        bytes[5] = self.users;
        put(&mut bytes, 6, self.trades.to_le_bytes());
        put(&mut bytes, 8, self.date.to_le_bytes());
        put(&mut bytes, 12, self.prices.p.to_le_bytes());
        put(&mut bytes, 16, self.prices.q.to_le_bytes());
        put(&mut bytes, 20, self.prices.l.to_le_bytes());
        put(&mut bytes, 24, self.prices.x.to_le_bytes());
        put(&mut bytes, 28, self.prices.i.to_le_bytes());
        bytes
    }

    /// The questions 2 to 4, of a book of this many bytes.
    #[inline]
    pub fn ask(&self, bytes: usize) -> Result<(), u32> {
        let (users, trades) = (usize::from(self.users), usize::from(self.trades));
        ask(2, self.has_known_version())?;
        ask(
            3,
            (1..=MOST_USERS).contains(&users)
                && trades <= MOST_TRADES
                && bytes == length(self.length(), users, trades),
        )?;
        ask(4, is_day(self.date) && prices_in_range(&self.prices))
    }
}

impl User {
    /// The fields of a record; the three zero bytes are not looked at.
    #[inline]
    pub fn from_bytes(bytes: &UserBytes) -> User {
        User {
            id: u32::from_le_bytes(field(bytes, 0)),
            role: bytes[4],
            physical: [8, 12, 16].map(|at| i32::from_le_bytes(field(bytes, at))),
            position: [20, 24, 28].map(|at| i32::from_le_bytes(field(bytes, at))),
            charges: i64::from_le_bytes(field(bytes, 32)),
            assigned: u64::from_le_bytes(field(bytes, 40)),
            blocked: u64::from_le_bytes(field(bytes, 48)),
        }
    }

    /// The fields of a record whose zero bytes are 0.
    #[inline]
    pub fn from_exact_bytes(bytes: &UserBytes) -> Option<User> {
        (bytes[5..8] == [0, 0, 0]).then(|| User::from_bytes(bytes))
    }

    #[inline]
    pub fn to_bytes(self) -> UserBytes {
        let mut bytes = [0; USER_LENGTH];
        put(&mut bytes, 0, self.id.to_le_bytes());
        bytes[4] = self.role;
        for area in 0..3 {
            put(&mut bytes, 8 + 4 * area, self.physical[area].to_le_bytes());
            put(&mut bytes, 20 + 4 * area, self.position[area].to_le_bytes());
        }
        put(&mut bytes, 32, self.charges.to_le_bytes());
        put(&mut bytes, 40, self.assigned.to_le_bytes());
        put(&mut bytes, 48, self.blocked.to_le_bytes());
        bytes
    }

    pub fn is_shipper(&self) -> bool {
        self.role == SHIPPER
    }

    /// Question 5 of one user, after one of this id; 0 stands before the first.
    #[inline]
    pub fn is_valid_after(&self, id: u32) -> bool {
        self.id > id
            && self.role <= CLEARING_HOUSE
            && self
                .physical
                .iter()
                .all(|entry| is_entry(i64::from(*entry)))
            && (-MOST_CENTS..=MOST_CENTS).contains(&self.charges)
            && self.blocked <= self.assigned
            && self.assigned <= MOST_CENTS.unsigned_abs()
    }
}

impl Trade {
    /// The fields of a record; the zero byte is not looked at.
    #[inline]
    pub fn from_bytes(bytes: &TradeBytes) -> Trade {
        Trade {
            seller: u32::from_le_bytes(field(bytes, 0)),
            buyer: u32::from_le_bytes(field(bytes, 4)),
            area: bytes[8],
            kind: bytes[9],
            day: bytes[10],
            notified: u32::from_le_bytes(field(bytes, 12)),
            standing: u32::from_le_bytes(field(bytes, 16)),
        }
    }

    /// The fields of a record whose zero byte is 0.
    #[inline]
    pub fn from_exact_bytes(bytes: &TradeBytes) -> Option<Trade> {
        (bytes[11] == 0).then(|| Trade::from_bytes(bytes))
    }

    #[inline]
    pub fn to_bytes(self) -> TradeBytes {
        let mut bytes = [0; TRADE_LENGTH];
        put(&mut bytes, 0, self.seller.to_le_bytes());
        put(&mut bytes, 4, self.buyer.to_le_bytes());
        bytes[8] = self.area;
        bytes[9] = self.kind;
        bytes[10] = self.day;
        put(&mut bytes, 12, self.notified.to_le_bytes());
        put(&mut bytes, 16, self.standing.to_le_bytes());
        bytes
    }

    /// Kind 0 and day 0: the only trades that may stand below notified.
    #[inline]
    pub fn is_bilateral_today(&self) -> bool {
        self.kind == 0 && self.day == 0
    }

    /// Question 6 of one trade, but for its parties.
    #[inline]
    pub fn is_valid(&self) -> bool {
        self.area <= 2
            && self.kind <= 2
            && self.day <= 1
            && (1..=MOST_ENERGY).contains(&self.notified)
            && self.standing <= self.notified
            && (self.standing == self.notified || self.is_bilateral_today())
    }
}

impl Book {
    /// The header; a count that its field cannot hold is out of range anyway.
    pub fn header(&self) -> Header {
        Header {
            version: self.version,
            users: u8::try_from(self.users.len()).unwrap_or(u8::MAX),
            trades: u16::try_from(self.trades.len()).unwrap_or(u16::MAX),
            date: self.date,
            prices: self.prices.of_version(self.version),
        }
    }
}

/// One question: a "no" gives its number.
#[inline]
pub fn ask(number: u32, yes: bool) -> Result<(), u32> {
    if yes {
        Ok(())
    } else {
        Err(number)
    }
}

/// A physical entry within ±1,000,000 (questions 5 and 10).
#[inline]
pub fn is_entry(entry: i64) -> bool {
    (-MOST_ENTRY..=MOST_ENTRY).contains(&entry)
}

/// A real Gregorian day of 2020 to 2099. In these years every fourth is a leap
/// year.
pub fn is_day(date: u32) -> bool {
    let (year, month, day) = (date / 10_000, date / 100 % 100, date % 100);
    let leap_day = u32::from(month == 2 && year.is_multiple_of(4));
    let place = usize::try_from(month.wrapping_sub(1)).unwrap_or(usize::MAX);
    (2020..=2099).contains(&year)
        && MONTH_LENGTHS
            .get(place)
            .is_some_and(|days| (1..=days + leap_day).contains(&day))
}

/// P and Q 1 to 100,000, tolls and selling tariffs 0 to 100,000.
fn prices_in_range(prices: &Prices) -> bool {
    let tariff = |price: u32| (1..=MOST_PRICE).contains(&price);
    let toll = |price: u32| price <= MOST_PRICE;
    let tolls = toll(prices.l) && toll(prices.x) && toll(prices.i);
    tariff(prices.p) && tariff(prices.q) && tolls && toll(prices.s) && toll(prices.u)
}

/// The bytes of a field.
#[inline]
fn field<const WIDTH: usize, const LENGTH: usize>(bytes: &[u8; LENGTH], at: usize) -> [u8; WIDTH] {
    std::array::from_fn(|place| bytes[at + place])
}

/// Writes the bytes of a field.
#[inline]
pub fn put<const WIDTH: usize>(bytes: &mut [u8], at: usize, field: [u8; WIDTH]) {
    bytes[at..at + WIDTH].copy_from_slice(&field);
}
