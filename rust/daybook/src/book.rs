//! A book's fields, and the image in which they pass the C interface.

use crate::answers::answered;
use crate::archive;
use crate::codes::Kind;
use crate::refusal::Refusal;

/// Bytes of an image: the longest header, 64 users of the longest record and 256
/// trades. The largest book has as many.
pub const IMAGE_LENGTH: usize = TRADES_AT + MOST_TRADES * TRADE_LENGTH;

/// Bytes of a user's longest record, that of version 3; [`user_length`] tells
/// those of a version.
pub const RECORD_LENGTH: usize = 68;

/// Bytes of a trade's record.
pub const TRADE_LENGTH: usize = 20;

/// The most users of an accepted book.
pub const MOST_USERS: usize = 64;

/// The most trades of an accepted book.
pub const MOST_TRADES: usize = 256;

/// Bytes of the longest header, which has the selling tariffs.
const LONGEST_HEADER: usize = 40;

/// Where the trades of an image begin.
const TRADES_AT: usize = LONGEST_HEADER + MOST_USERS * RECORD_LENGTH;

/// The fields of a book in the book's format, always with a header of 40 bytes
/// and places for 64 users of 68 bytes and 256 trades; those past the counts are 0
/// after reading, and are not looked at in writing, and neither are the fields that
/// the version has not: the selling tariffs of version 1, the managers of versions
/// 1 and 2. Mark and zero bytes are not looked at either.
pub type Image = [u8; IMAGE_LENGTH];

/// Bytes of the header of a book of a version: versions 2 and 3 have the selling
/// tariffs in it.
pub const fn header_length(version: u16) -> usize {
    match version {
        2 | 3 => LONGEST_HEADER,
        _ => 32,
    }
}

/// Bytes of each user of a book of a version: version 3 has the managers at its end.
pub const fn user_length(version: u16) -> usize {
    match version {
        3 => RECORD_LENGTH,
        _ => 56,
    }
}

/// The fields of a book. The counts are the lengths of the lists.
#[derive(Clone, Debug, Default, PartialEq, Eq)]
pub struct Book {
    /// 1, 2 or 3 in an accepted book.
    pub version: u16,
    /// Year × 10,000 + month × 100 + day.
    pub date: u32,
    /// Tariffs and tolls of the day.
    pub prices: Prices,
    /// 1 to 64 in an accepted book, ids strictly rising.
    pub users: Vec<User>,
    /// At most 256 in an accepted book.
    pub trades: Vec<Trade>,
}

/// Prices in cents per MWh.
#[derive(Clone, Copy, Debug, Default, PartialEq, Eq)]
pub struct Prices {
    /// P, the daily buying imbalance tariff of PVB.
    pub pvb_tariff: u32,
    /// Q, that of TVB and AVB.
    pub tank_and_store_tariff: u32,
    /// L.
    pub liquefaction_toll: u32,
    /// X.
    pub exit_toll: u32,
    /// I.
    pub injection_toll: u32,
    /// S, the daily selling tariff of PVB. Version 1 has no selling tariffs: they
    /// are 0 when read, and neither written nor looked at.
    pub pvb_selling_tariff: u32,
    /// U, that of TVB and AVB.
    pub tank_and_store_selling_tariff: u32,
}

/// A user's record. What it has per area stands in the order PVB, TVB, AVB.
///
/// In a group the manager bears the risk, and its levels are those of what it and
/// its members have together; a member's are those of its charges:
///
/// ```
/// use daybook::{Book, Level, Operator, Prices, User};
///
/// let short = |id: u32, mwh: i32| {
///     let physical = [-mwh, 0, 0];
///     User { id, physical, position: physical, ..User::default() }
/// };
/// let member = User { managers: [101, 0, 0], ..short(102, 3_000) };
/// let prices = Prices { pvb_tariff: 2_000, tank_and_store_tariff: 2_100, ..Prices::default() };
/// let users = vec![short(101, 5_000), member];
/// let book = Book { version: 3, date: 20_260_318, prices, users, trades: vec![] };
/// let mut bytes = vec![0; book.length()];
/// daybook::write(&book, &mut bytes)?;
/// let operator = Operator::new();
/// assert_eq!(operator.afternoon_level(&bytes, 101), Ok(Level(16_000_000)));
/// assert_eq!(operator.afternoon_level(&bytes, 102), Ok(Level(10_000_000)));
/// assert_eq!(operator.record(&bytes, 102)?.managers, [101, 0, 0]);
/// # Ok::<(), daybook::Refusal>(())
/// ```
#[derive(Clone, Copy, Debug, Default, PartialEq, Eq)]
pub struct User {
    /// Above 0 in an accepted book, and above those of the users before it.
    pub id: u32,
    /// 0 shipper, 1 clearing house: a byte of [`Role`](crate::Role).
    pub role: u8,
    /// Physical entries in MWh.
    pub physical: [i32; 3],
    /// Positions in MWh.
    pub position: [i32; 3],
    /// Unpaid charges and invoices net of credits, in cents.
    pub charges: i64,
    /// Assigned guarantee in cents.
    pub assigned: u64,
    /// Blocked guarantee in cents.
    pub blocked: u64,
    /// The id of the group manager that bears the user's risk in each area, 0 for
    /// none: what enters levels, flag and tiers there is the manager's sum over
    /// itself and its members, and of a member 0. In an accepted book it is the id
    /// of another user, both are shippers, and the manager has no manager in that
    /// area. Versions 1 and 2 have no managers: they are 0 when read, and neither
    /// written nor looked at.
    pub managers: [u32; 3],
}

/// A trade's record.
#[derive(Clone, Copy, Debug, Default, PartialEq, Eq)]
pub struct Trade {
    /// The seller's id.
    pub seller: u32,
    /// The buyer's id.
    pub buyer: u32,
    /// 0 PVB, 1 TVB, 2 AVB: a byte of [`Area`](crate::Area).
    pub area: u8,
    /// 0 bilateral, 1 platform, 2 central counterparty: a byte of [`Kind`].
    pub kind: u8,
    /// 0 for the gas day, 1 for the day after.
    pub day: u8,
    /// MWh notified.
    pub notified: u32,
    /// MWh standing.
    pub standing: u32,
}

impl Book {
    /// Bytes of this book, written up to its counts: header and users have the
    /// lengths of its version ([`header_length`], [`user_length`]).
    pub fn length(&self) -> usize {
        let users = user_length(self.version) * self.users.len();
        header_length(self.version) + users + TRADE_LENGTH * self.trades.len()
    }

    /// The fields of an image. A count above the places of the image gives the
    /// records of all its places.
    pub fn from_image(image: &Image) -> Book {
        let users = image[LONGEST_HEADER..TRADES_AT].chunks_exact(RECORD_LENGTH);
        let trades = image[TRADES_AT..].chunks_exact(TRADE_LENGTH);
        let trade_count = u16::from_le_bytes(field(image, 6));
        Book {
            version: u16::from_le_bytes(field(image, 3)),
            date: u32::from_le_bytes(field(image, 8)),
            prices: Prices {
                pvb_tariff: u32::from_le_bytes(field(image, 12)),
                tank_and_store_tariff: u32::from_le_bytes(field(image, 16)),
                liquefaction_toll: u32::from_le_bytes(field(image, 20)),
                exit_toll: u32::from_le_bytes(field(image, 24)),
                injection_toll: u32::from_le_bytes(field(image, 28)),
                pvb_selling_tariff: u32::from_le_bytes(field(image, 32)),
                tank_and_store_selling_tariff: u32::from_le_bytes(field(image, 36)),
            },
            users: users
                .take(usize::from(image[5]))
                .map(|record| User::from_bytes(&field(record, 0)))
                .collect(),
            trades: trades
                .take(usize::from(trade_count))
                .map(|record| Trade::from_bytes(&field(record, 0)))
                .collect(),
        }
    }

    /// The image of the fields. Of too many users or trades the first ones are
    /// put into it, with a count that is out of range, so that writing is
    /// refused as question 3 says.
    pub fn to_image(&self) -> Image {
        let mut image = [0; IMAGE_LENGTH];
        let users = u8::try_from(self.users.len()).unwrap_or(u8::MAX);
        let trades = u16::try_from(self.trades.len()).unwrap_or(u16::MAX);
        put(&mut image, 0, *b"GDB");
        put(&mut image, 3, self.version.to_le_bytes());
        put(&mut image, 5, [users]);
        put(&mut image, 6, trades.to_le_bytes());
        put(&mut image, 8, self.date.to_le_bytes());
        put(&mut image, 12, self.prices.pvb_tariff.to_le_bytes());
        put(
            &mut image,
            16,
            self.prices.tank_and_store_tariff.to_le_bytes(),
        );
        put(&mut image, 20, self.prices.liquefaction_toll.to_le_bytes());
        put(&mut image, 24, self.prices.exit_toll.to_le_bytes());
        put(&mut image, 28, self.prices.injection_toll.to_le_bytes());
        put(&mut image, 32, self.prices.pvb_selling_tariff.to_le_bytes());
        put(
            &mut image,
            36,
            self.prices.tank_and_store_selling_tariff.to_le_bytes(),
        );
        for (place, user) in self.users.iter().take(MOST_USERS).enumerate() {
            put(
                &mut image,
                LONGEST_HEADER + RECORD_LENGTH * place,
                user.to_bytes(),
            );
        }
        for (place, trade) in self.trades.iter().take(MOST_TRADES).enumerate() {
            put(
                &mut image,
                TRADES_AT + TRADE_LENGTH * place,
                trade.to_bytes(),
            );
        }
        image
    }
}

impl User {
    /// The fields of a record, which of versions 1 and 2 has 12 zero bytes behind
    /// it. The three zero bytes in it are not looked at.
    #[inline]
    pub fn from_bytes(bytes: &[u8; RECORD_LENGTH]) -> User {
        User {
            id: u32::from_le_bytes(field(bytes, 0)),
            role: bytes[4],
            physical: [8, 12, 16].map(|at| i32::from_le_bytes(field(bytes, at))),
            position: [20, 24, 28].map(|at| i32::from_le_bytes(field(bytes, at))),
            charges: i64::from_le_bytes(field(bytes, 32)),
            assigned: u64::from_le_bytes(field(bytes, 40)),
            blocked: u64::from_le_bytes(field(bytes, 48)),
            managers: [56, 60, 64].map(|at| u32::from_le_bytes(field(bytes, at))),
        }
    }

    /// The record of the fields. A book of version 1 or 2 has the first 56 bytes
    /// of it ([`user_length`]).
    pub fn to_bytes(&self) -> [u8; RECORD_LENGTH] {
        let mut bytes = [0; RECORD_LENGTH];
        put(&mut bytes, 0, self.id.to_le_bytes());
        put(&mut bytes, 4, [self.role]);
        for area in 0..3 {
            put(&mut bytes, 8 + 4 * area, self.physical[area].to_le_bytes());
            put(&mut bytes, 20 + 4 * area, self.position[area].to_le_bytes());
            put(&mut bytes, 56 + 4 * area, self.managers[area].to_le_bytes());
        }
        put(&mut bytes, 32, self.charges.to_le_bytes());
        put(&mut bytes, 40, self.assigned.to_le_bytes());
        put(&mut bytes, 48, self.blocked.to_le_bytes());
        bytes
    }
}

impl Trade {
    /// Whether a reduction may cut it: bilateral, for the gas day.
    pub fn can_be_cut(&self) -> bool {
        self.kind == Kind::Bilateral.byte() && self.day == 0
    }

    /// The fields of a record. The zero byte is not looked at.
    #[inline]
    pub fn from_bytes(bytes: &[u8; TRADE_LENGTH]) -> Trade {
        Trade {
            seller: u32::from_le_bytes(field(bytes, 0)),
            buyer: u32::from_le_bytes(field(bytes, 4)),
            area: bytes[8],
            kind: bytes[9],
            day: bytes[10],
            notified: u32::from_le_bytes(field(bytes, 12)),
            standing: u32::from_le_bytes(field(bytes, 16)),
        }
    }

    /// The record of the fields.
    pub fn to_bytes(&self) -> [u8; TRADE_LENGTH] {
        let mut bytes = [0; TRADE_LENGTH];
        put(&mut bytes, 0, self.seller.to_le_bytes());
        put(&mut bytes, 4, self.buyer.to_le_bytes());
        put(&mut bytes, 8, [self.area, self.kind, self.day]);
        put(&mut bytes, 12, self.notified.to_le_bytes());
        put(&mut bytes, 16, self.standing.to_le_bytes());
        bytes
    }
}

/// Writes a book's fields into a part, which must be exactly as long as
/// [`Book::length`] says. A refused write leaves the part.
pub fn write(book: &Book, part: &mut [u8]) -> Result<(), Refusal> {
    answered(archive::write(&book.to_image(), part))
}

/// The bytes of a field of this width at a place of a record.
fn field<const WIDTH: usize>(record: &[u8], at: usize) -> [u8; WIDTH] {
    let mut bytes = [0; WIDTH];
    bytes.copy_from_slice(&record[at..at + WIDTH]);
    bytes
}

/// Writes a field at a place of a record.
fn put<const WIDTH: usize>(record: &mut [u8], at: usize, bytes: [u8; WIDTH]) {
    record[at..at + WIDTH].copy_from_slice(&bytes);
}
