//! Damaged books: one field of an accepted book made invalid.

use reference::book::{length, Book, Header, TRADE_LENGTH, USER_LENGTH};
use reference::questions::counts_and_length;
use reference::version::{has_managers, has_selling_tariffs, header_length, FIRST_HEADER_LENGTH};

use crate::groups::BadManager;
use crate::random::Random;
use crate::versions::VERSIONS;

#[derive(Clone, Copy, Debug, PartialEq, Eq)]
pub enum Damage {
    Cut,
    Mark,
    Version,
    /// The version of another book in the length of this one.
    OtherVersion,
    NoUsers,
    UserCount,
    TradeCount,
    Longer,
    Shorter,
    /// Version 2 or 3 cut to 32 to 39 bytes.
    CutHeader,
    Date,
    /// One of P, Q, L, X, I, and from version 2 on of S, U.
    Price(usize),
    IdZero,
    IdNotRising,
    Role,
    UserZeroByte(usize),
    Physical(usize),
    Charges,
    Assigned,
    Blocked,
    /// A manager id of version 3.
    Manager(BadManager),
    Seller,
    Buyer,
    SameParties,
    TradeArea,
    TradeKind,
    TradeDay,
    TradeZeroByte,
    NotifiedZero,
    NotifiedLarge,
    StandingAbove,
    StandingBelow,
    Position(usize),
    StandingAlone,
}

impl Damage {
    pub const ALL: [Damage; 50] = [
        Damage::Cut,
        Damage::Mark,
        Damage::Version,
        Damage::OtherVersion,
        Damage::NoUsers,
        Damage::UserCount,
        Damage::TradeCount,
        Damage::Longer,
        Damage::Shorter,
        Damage::CutHeader,
        Damage::Date,
        Damage::Price(0),
        Damage::Price(1),
        Damage::Price(2),
        Damage::Price(3),
        Damage::Price(4),
        Damage::Price(5),
        Damage::Price(6),
        Damage::IdZero,
        Damage::IdNotRising,
        Damage::Role,
        Damage::UserZeroByte(0),
        Damage::UserZeroByte(1),
        Damage::UserZeroByte(2),
        Damage::Physical(0),
        Damage::Physical(1),
        Damage::Physical(2),
        Damage::Charges,
        Damage::Assigned,
        Damage::Blocked,
        Damage::Manager(BadManager::Nobody),
        Damage::Manager(BadManager::Own),
        Damage::Manager(BadManager::House),
        Damage::Manager(BadManager::OfHouse),
        Damage::Manager(BadManager::Managed),
        Damage::Seller,
        Damage::Buyer,
        Damage::SameParties,
        Damage::TradeArea,
        Damage::TradeKind,
        Damage::TradeDay,
        Damage::TradeZeroByte,
        Damage::NotifiedZero,
        Damage::NotifiedLarge,
        Damage::StandingAbove,
        Damage::StandingBelow,
        Damage::Position(0),
        Damage::Position(1),
        Damage::Position(2),
        Damage::StandingAlone,
    ];

    /// The question that an accepted book with this damage alone fails.
    pub fn number(self) -> u32 {
        match self {
            Damage::Cut | Damage::Mark => 1,
            Damage::Version => 2,
            Damage::OtherVersion
            | Damage::NoUsers
            | Damage::UserCount
            | Damage::TradeCount
            | Damage::Longer
            | Damage::Shorter
            | Damage::CutHeader => 3,
            Damage::Date | Damage::Price(_) => 4,
            Damage::IdZero
            | Damage::IdNotRising
            | Damage::Role
            | Damage::UserZeroByte(_)
            | Damage::Physical(_)
            | Damage::Charges
            | Damage::Assigned
            | Damage::Blocked
            | Damage::Manager(_) => 5,
            Damage::Seller
            | Damage::Buyer
            | Damage::SameParties
            | Damage::TradeArea
            | Damage::TradeKind
            | Damage::TradeDay
            | Damage::TradeZeroByte
            | Damage::NotifiedZero
            | Damage::NotifiedLarge
            | Damage::StandingAbove
            | Damage::StandingBelow => 6,
            Damage::Position(_) | Damage::StandingAlone => 7,
        }
    }

    /// Damages an accepted book, whose counts are lent; no if the book has no
    /// place for this damage.
    pub fn apply(self, random: &mut Random, bytes: &mut Vec<u8>, counts: (usize, usize)) -> bool {
        let (users, trades) = counts;
        if self.number() <= 4 {
            return self.apply_to_header(random, bytes);
        }
        if let Damage::Manager(bad) = self {
            return apply_to_manager(random, bytes, bad);
        }
        let version = version_of(bytes);
        let user = length(version, random.below(users), 0);
        if let Some(record) = bytes.get_mut(user..user + USER_LENGTH) {
            if self.apply_to_user(random, record) {
                return true;
            }
        }
        if self == Damage::IdNotRising {
            return repeat_id(random, bytes, version, users);
        }
        let trade = length(version, users, random.below(trades));
        match bytes.get_mut(trade..trade + TRADE_LENGTH) {
            Some(record) if trades > 0 => self.apply_to_trade(random, record),
            _ => false,
        }
    }

    fn apply_to_header(self, random: &mut Random, bytes: &mut Vec<u8>) -> bool {
        match self {
            Damage::Cut => bytes.truncate(random.below(FIRST_HEADER_LENGTH)),
            Damage::Longer => bytes.extend_from_slice(&[0]),
            Damage::Shorter if bytes.len() > FIRST_HEADER_LENGTH => bytes.truncate(bytes.len() - 1),
            _ if bytes.len() < FIRST_HEADER_LENGTH => return false,
            Damage::CutHeader if has_selling_tariffs(version_of(bytes)) => {
                bytes.truncate(FIRST_HEADER_LENGTH + random.below(8));
            }
            Damage::Price(5 | 6) if header_length(version_of(bytes)) < 40 || bytes.len() < 40 => {
                return false;
            }
            Damage::Mark => change_byte(random, &mut bytes[..3]),
            Damage::Version => {
                let version: u16 = random.pick(&[0, 4, 5, 255, 256, 257, 258, 259, 512, u16::MAX]);
                put(bytes, 3, &version.to_le_bytes());
            }
            Damage::OtherVersion => {
                let own = version_of(bytes);
                let others: Vec<u16> = VERSIONS.into_iter().filter(|other| *other != own).collect();
                let other = random.pick(&others);
                put(bytes, 3, &other.to_le_bytes());
            }
            Damage::NoUsers => bytes[5] = 0,
            Damage::UserCount => change_byte(random, &mut bytes[5..6]),
            Damage::TradeCount => change_byte(random, &mut bytes[6..8]),
            Damage::Date => put(bytes, 8, &bad_date(random).to_le_bytes()),
            Damage::Price(place) => {
                put(
                    bytes,
                    12 + 4 * place,
                    &bad_price(random, place).to_le_bytes(),
                );
            }
            _ => return false,
        }
        true
    }

    fn apply_to_user(self, random: &mut Random, user: &mut [u8]) -> bool {
        match self {
            Damage::IdZero => put(user, 0, &[0; 4]),
            Damage::Role => user[4] = random.pick(&[2, 3, 128, 255]),
            Damage::UserZeroByte(place) => user[5 + place] = random.pick(&[1, 128, 255]),
            Damage::Physical(area) => {
                let entry = random.pick(&[1_000_001, -1_000_001, i32::MAX, i32::MIN]);
                put(user, 8 + 4 * area, &entry.to_le_bytes());
            }
            Damage::Charges => {
                let limit = 1_000_000_000_001_i64;
                let charges = random.pick(&[limit, -limit, i64::MAX, i64::MIN]);
                put(user, 32, &charges.to_le_bytes());
            }
            Damage::Assigned => {
                let assigned = random.pick(&[1_000_000_000_001, 1_u64 << 63, u64::MAX]);
                put(user, 40, &assigned.to_le_bytes());
                if random.one_in(2) {
                    put(user, 48, &assigned.to_le_bytes());
                }
            }
            Damage::Blocked => {
                let assigned = u64_at(user, 40);
                let blocked = random.pick(&[assigned.wrapping_add(1), 1_u64 << 63, u64::MAX]);
                put(user, 48, &blocked.to_le_bytes());
            }
            Damage::Position(area) => change_byte(random, &mut user[20 + 4 * area..24 + 4 * area]),
            _ => return false,
        }
        true
    }

    fn apply_to_trade(self, random: &mut Random, trade: &mut [u8]) -> bool {
        let notified = u32_at(trade, 12);
        match self {
            // 0 is the id of no user.
            Damage::Seller => put(trade, 0, &[0; 4]),
            Damage::Buyer => put(trade, 4, &[0; 4]),
            Damage::SameParties => trade.copy_within(0..4, 4),
            Damage::TradeArea => trade[8] = random.pick(&[3, 4, 255]),
            Damage::TradeKind => trade[9] = random.pick(&[3, 128, 255]),
            Damage::TradeDay => trade[10] = random.pick(&[2, 128, 255]),
            Damage::TradeZeroByte => trade[11] = random.pick(&[1, 128, 255]),
            Damage::NotifiedZero => put(trade, 12, &[0; 8]),
            Damage::NotifiedLarge => {
                let large = random.pick(&[100_001, u32::MAX]);
                put(trade, 12, &large.to_le_bytes());
                put(trade, 16, &large.to_le_bytes());
            }
            Damage::StandingAbove => {
                let above = random.pick(&[notified.wrapping_add(1), u32::MAX]);
                put(trade, 16, &above.to_le_bytes());
            }
            Damage::StandingBelow => {
                trade[9 + random.below(2)] = 1;
                put(trade, 16, &notified.wrapping_sub(1).to_le_bytes());
            }
            Damage::StandingAlone => {
                let standing = u32_at(trade, 16);
                if trade[9..11] != [0, 0] || standing == 0 {
                    return false;
                }
                put(trade, 16, &(standing - 1).to_le_bytes());
            }
            _ => return false,
        }
        true
    }
}

/// Gives a user of a book of version 3 a manager who is refused.
fn apply_to_manager(random: &mut Random, bytes: &mut [u8], bad: BadManager) -> bool {
    if bytes.len() < FIRST_HEADER_LENGTH {
        return false;
    }
    let header = Header::from_bytes(bytes);
    if !has_managers(header.version) || !counts_and_length(&header, bytes.len()) {
        return false;
    }
    let drawn = bad.drawn(random, &Book::from_bytes(&header, bytes));
    if let Some((user, area, id)) = drawn {
        let record = length(header.version, user, 0);
        put(bytes, record + USER_LENGTH + 4 * area, &id.to_le_bytes());
    }
    drawn.is_some()
}

/// Gives a user the id of another user before.
fn repeat_id(random: &mut Random, bytes: &mut [u8], version: u16, users: usize) -> bool {
    let (one, other) = (random.below(users), random.below(users));
    let place = |user: usize| length(version, user, 0);
    let (first, second) = (place(one.min(other)), place(one.max(other)));
    if first == second || bytes.len() < second + 4 {
        return false;
    }
    bytes.copy_within(first..first + 4, second);
    true
}

/// No real day, or not of 2020 to 2099.
fn bad_date(random: &mut Random) -> u32 {
    let day_past_month = random.pick(&[
        132, 230, 332, 431, 532, 631, 732, 832, 931, 1032, 1131, 1232, 100, 1200, 1, 1301,
    ]);
    let common_year = random.pick(&[2021, 2022, 2023, 2097, 2098, 2099]);
    match random.below(3) {
        0 => 20_240_000 + day_past_month,
        1 => common_year * 10_000 + 229,
        _ => random.pick(&[0, 20_191_231, 21_000_101, 120_230_101, u32::MAX]),
    }
}

/// P and Q may not be 0 either.
fn bad_price(random: &mut Random, place: usize) -> u32 {
    let large = random.pick(&[100_001, u32::MAX]);
    if place < 2 && random.one_in(2) {
        0
    } else {
        large
    }
}

/// Gives one of the bytes another value.
fn change_byte(random: &mut Random, bytes: &mut [u8]) {
    let place = random.below(bytes.len());
    let change = random.byte().max(1);
    bytes[place] ^= change;
}

/// The counts of a book of at least 32 bytes.
pub fn counts(bytes: &[u8]) -> (usize, usize) {
    let header = Header::from_bytes(bytes);
    (header.users, header.trades)
}

/// The version of a book of at least 32 bytes.
pub fn version_of(bytes: &[u8]) -> u16 {
    Header::from_bytes(bytes).version
}

pub(crate) fn put(bytes: &mut [u8], at: usize, value: &[u8]) {
    bytes[at..at + value.len()].copy_from_slice(value);
}

fn u32_at(bytes: &[u8], at: usize) -> u32 {
    u32::from_le_bytes([bytes[at], bytes[at + 1], bytes[at + 2], bytes[at + 3]])
}

fn u64_at(bytes: &[u8], at: usize) -> u64 {
    u64::from(u32_at(bytes, at)) + (u64::from(u32_at(bytes, at + 4)) << 32)
}
