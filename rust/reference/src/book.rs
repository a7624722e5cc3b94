//! "The book in bytes": the fields, read from bytes and written to bytes.
//! Nothing is judged here; see the module `questions`.

use crate::units::{Area, Cents, Mwh, Price, Prices};
use crate::version::{self, has_managers, header_length, selling_tariff_bytes, selling_tariffs};

pub const MARK: &[u8; 3] = b"GDB";
/// The bytes of a user in versions 1 and 2, with which a user of version 3 begins.
pub const USER_LENGTH: usize = 56;
pub const TRADE_LENGTH: usize = 20;
pub const MOST_USERS: usize = 64;
pub const MOST_TRADES: usize = 256;

/// The longest book of any version: 9,512 bytes.
pub const LONGEST: usize = length(version::LAST, MOST_USERS, MOST_TRADES);

pub const SHIPPER: u8 = 0;
pub const CLEARING_HOUSE: u8 = 1;
pub const BILATERAL: u8 = 0;
pub const TODAY: u8 = 0;
pub const TOMORROW: u8 = 1;

/// Where the three manager ids of a user stand in version 3.
const MANAGERS: [usize; 3] = [56, 60, 64];

/// The bytes of a user: "a record is then 68 bytes", in version 3.
pub const fn user_length(version: u16) -> usize {
    if has_managers(version) {
        USER_LENGTH + 12
    } else {
        USER_LENGTH
    }
}

/// 32 + 56 × users + 20 × trades; from version 2 on the header has 40 bytes, and
/// in version 3 a user has 68.
pub const fn length(version: u16, users: usize, trades: usize) -> usize {
    header_length(version) + user_length(version) * users + TRADE_LENGTH * trades
}

/// The fields of the header. The mark is no field: every book has the same.
#[derive(Clone, Debug, Default, PartialEq, Eq)]
pub struct Header {
    pub version: u16,
    pub users: usize,
    pub trades: usize,
    pub date: u32,
    pub prices: Prices,
}

#[derive(Clone, Debug, Default, PartialEq, Eq)]
pub struct User {
    pub id: u32,
    pub role: u8,
    pub physical: [Mwh; 3],
    pub position: [Mwh; 3],
    pub charges: Cents,
    pub assigned: Cents,
    pub blocked: Cents,
    /// "Three 32-bit manager ids, one per area, 0 for none"; 0 in versions 1 and 2.
    pub managers: [u32; 3],
}

#[derive(Clone, Debug, Default, PartialEq, Eq)]
pub struct Trade {
    pub seller: u32,
    pub buyer: u32,
    pub area: u8,
    pub kind: u8,
    pub day: u8,
    pub notified: Mwh,
    pub standing: Mwh,
}

/// A book read into its fields, records up to the counts.
#[derive(Clone, Debug, Default, PartialEq, Eq)]
pub struct Book {
    pub version: u16,
    pub date: u32,
    pub prices: Prices,
    pub users: Vec<User>,
    pub trades: Vec<Trade>,
}

impl Header {
    /// The bytes after the mark, 32 with it at least: version, counts, date,
    /// prices.
    pub fn from_bytes(bytes: &[u8]) -> Header {
        let version = u16_at(bytes, 3);
        let [s, u] = selling_tariffs(version, bytes);
        Header {
            version,
            users: usize::from(bytes[5]),
            trades: usize::from(u16_at(bytes, 6)),
            date: u32_at(bytes, 8),
            prices: Prices {
                p: Price(unsigned(bytes, 12, 4)),
                q: Price(unsigned(bytes, 16, 4)),
                l: Price(unsigned(bytes, 20, 4)),
                x: Price(unsigned(bytes, 24, 4)),
                i: Price(unsigned(bytes, 28, 4)),
                s,
                u,
            },
        }
    }
}

impl User {
    /// The fields that a user has in every version.
    pub fn from_bytes(bytes: &[u8]) -> User {
        User {
            id: u32_at(bytes, 0),
            role: bytes[4],
            physical: [8, 12, 16].map(|at| Mwh(signed(bytes, at, 4))),
            position: [20, 24, 28].map(|at| Mwh(signed(bytes, at, 4))),
            charges: Cents(signed(bytes, 32, 8)),
            assigned: Cents(unsigned(bytes, 40, 8)),
            blocked: Cents(unsigned(bytes, 48, 8)),
            managers: [0; 3],
        }
    }

    /// The fields of a user of this version.
    pub fn of_version(version: u16, bytes: &[u8]) -> User {
        let mut user = User::from_bytes(bytes);
        if has_managers(version) {
            user.managers = MANAGERS.map(|at| u32_at(bytes, at));
        }
        user
    }

    /// The bytes of a user of this version.
    pub fn to_bytes(&self, version: u16) -> Vec<u8> {
        let mut bytes = vec![0; user_length(version)];
        put(&mut bytes, 0, 4, i128::from(self.id));
        bytes[4] = self.role;
        for area in Area::ALL {
            let place = area.index();
            put(&mut bytes, 8 + 4 * place, 4, self.physical[place].0);
            put(&mut bytes, 20 + 4 * place, 4, self.position[place].0);
        }
        put(&mut bytes, 32, 8, self.charges.0);
        put(&mut bytes, 40, 8, self.assigned.0);
        put(&mut bytes, 48, 8, self.blocked.0);
        if has_managers(version) {
            for (at, manager) in MANAGERS.into_iter().zip(self.managers) {
                put(&mut bytes, at, 4, i128::from(manager));
            }
        }
        bytes
    }

    pub fn is_shipper(&self) -> bool {
        self.role == SHIPPER
    }
}

impl Trade {
    pub fn from_bytes(bytes: &[u8]) -> Trade {
        Trade {
            seller: u32_at(bytes, 0),
            buyer: u32_at(bytes, 4),
            area: bytes[8],
            kind: bytes[9],
            day: bytes[10],
            notified: Mwh(unsigned(bytes, 12, 4)),
            standing: Mwh(unsigned(bytes, 16, 4)),
        }
    }

    pub fn to_bytes(&self) -> [u8; TRADE_LENGTH] {
        let mut bytes = [0; TRADE_LENGTH];
        put(&mut bytes, 0, 4, i128::from(self.seller));
        put(&mut bytes, 4, 4, i128::from(self.buyer));
        bytes[8] = self.area;
        bytes[9] = self.kind;
        bytes[10] = self.day;
        put(&mut bytes, 12, 4, self.notified.0);
        put(&mut bytes, 16, 4, self.standing.0);
        bytes
    }

    /// Whether the trade is in this area.
    pub fn is_in(&self, area: Area) -> bool {
        usize::from(self.area) == area.index()
    }

    /// Kind 0 and day 0: the only trades that may stand below notified.
    pub fn is_bilateral_today(&self) -> bool {
        self.kind == BILATERAL && self.day == TODAY
    }

    /// Tariff t of the trade's area.
    pub fn tariff(&self, prices: &Prices) -> Price {
        match Area::from_code(u32::from(self.area)) {
            Some(area) => area.tariff(prices),
            None => Price(0),
        }
    }
}

impl Book {
    /// The fields of bytes that are as long as the counts of `header` say.
    pub fn from_bytes(header: &Header, bytes: &[u8]) -> Book {
        let users_at = header_length(header.version);
        let trades_at = length(header.version, header.users, 0);
        let width = user_length(header.version);
        Book::from_records(header, width, &bytes[users_at..], &bytes[trades_at..])
    }

    /// The fields of a header, with users and trades from the places lent, a place
    /// for a user being this wide.
    pub fn from_records(header: &Header, width: usize, users: &[u8], trades: &[u8]) -> Book {
        let users = users.chunks_exact(width).take(header.users);
        let user = |bytes| User::of_version(header.version, bytes);
        let trades = trades.chunks_exact(TRADE_LENGTH).take(header.trades);
        Book {
            version: header.version,
            date: header.date,
            prices: header.prices,
            users: users.map(user).collect(),
            trades: trades.map(Trade::from_bytes).collect(),
        }
    }

    /// The bytes of the header.
    pub fn header_bytes(&self) -> Vec<u8> {
        let mut bytes = vec![0; version::FIRST_HEADER_LENGTH];
        bytes[0..3].copy_from_slice(MARK);
        put(&mut bytes, 3, 2, i128::from(self.version));
        put(&mut bytes, 5, 1, count(self.users.len()));
        put(&mut bytes, 6, 2, count(self.trades.len()));
        put(&mut bytes, 8, 4, i128::from(self.date));
        put(&mut bytes, 12, 4, self.prices.p.0);
        put(&mut bytes, 16, 4, self.prices.q.0);
        put(&mut bytes, 20, 4, self.prices.l.0);
        put(&mut bytes, 24, 4, self.prices.x.0);
        put(&mut bytes, 28, 4, self.prices.i.0);
        bytes.extend(selling_tariff_bytes(self.version, &self.prices));
        bytes
    }

    /// The book in bytes, up to the counts.
    pub fn to_bytes(&self) -> Vec<u8> {
        let mut bytes = self.header_bytes();
        for user in &self.users {
            bytes.extend_from_slice(&user.to_bytes(self.version));
        }
        for trade in &self.trades {
            bytes.extend_from_slice(&trade.to_bytes());
        }
        bytes
    }

    /// The place of the user with this id, in a book whose ids rise (question 5).
    pub fn place_of(&self, id: u32) -> Option<usize> {
        self.users.binary_search_by_key(&id, |user| user.id).ok()
    }

    /// "Position = physical + standing bought for d − standing sold for d, all kinds",
    /// in each area, of trades whose areas there are (question 6).
    pub fn defined_positions(&self, user: &User) -> [Mwh; 3] {
        let mut positions = user.physical;
        for trade in self.trades.iter().filter(|trade| trade.day == TODAY) {
            let position = &mut positions[usize::from(trade.area)];
            if trade.buyer == user.id {
                *position = *position + trade.standing;
            }
            if trade.seller == user.id {
                *position = *position - trade.standing;
            }
        }
        positions
    }
}

fn count(records: usize) -> i128 {
    i128::try_from(records).unwrap_or(i128::MAX)
}

fn u16_at(bytes: &[u8], at: usize) -> u16 {
    u16::from_le_bytes([bytes[at], bytes[at + 1]])
}

/// A little-endian field of 32 bits without sign.
pub fn u32_at(bytes: &[u8], at: usize) -> u32 {
    u32::from_le_bytes([bytes[at], bytes[at + 1], bytes[at + 2], bytes[at + 3]])
}

/// A little-endian field of `width` bytes without sign.
pub fn unsigned(bytes: &[u8], at: usize, width: usize) -> i128 {
    let mut field = [0; 16];
    field[..width].copy_from_slice(&bytes[at..at + width]);
    i128::from_le_bytes(field)
}

/// A little-endian field of `width` bytes in two's complement.
fn signed(bytes: &[u8], at: usize, width: usize) -> i128 {
    let value = unsigned(bytes, at, width);
    let half = 1_i128 << (8 * width - 1);
    if value < half {
        value
    } else {
        value - 2 * half
    }
}

/// Writes a value into a little-endian field of `width` bytes.
fn put(bytes: &mut [u8], at: usize, width: usize, value: i128) {
    bytes[at..at + width].copy_from_slice(&value.to_le_bytes()[..width]);
}
