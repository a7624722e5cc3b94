//! Where each field stands in the field-wise form of a book.

use std::ops::Range;

use crate::book::header_length;

/// A field of a form, in the order of the columns: those of users, then those of
/// trades. Each area's number is a field, and so is each run of zero bytes.
#[derive(Clone, Copy, Debug, PartialEq, Eq, PartialOrd, Ord, Hash)]
pub enum Field {
    /// Of users: the id.
    Id,
    /// The role.
    Role,
    /// Three zero bytes, no number.
    UserZeros,
    /// The physical entry in PVB, MWh with a sign.
    PhysicalPvb,
    /// That in TVB.
    PhysicalTvb,
    /// That in AVB.
    PhysicalAvb,
    /// The position in PVB, MWh with a sign.
    PositionPvb,
    /// That in TVB.
    PositionTvb,
    /// That in AVB.
    PositionAvb,
    /// Unpaid charges, cents with a sign.
    Charges,
    /// The assigned guarantee in cents.
    Assigned,
    /// The blocked guarantee in cents.
    Blocked,
    /// The id of the manager in PVB, 0 for none; version 3 has it, and so the two that follow.
    ManagerPvb,
    /// That in TVB.
    ManagerTvb,
    /// That in AVB.
    ManagerAvb,
    /// Of trades: the seller's id.
    Seller,
    /// The buyer's id.
    Buyer,
    /// The area.
    Area,
    /// The kind.
    Kind,
    /// The day.
    Day,
    /// A zero byte.
    TradeZero,
    /// MWh notified.
    Notified,
    /// MWh standing.
    Standing,
}

impl Field {
    /// Every field, in the order of the columns.
    pub const ALL: [Field; 23] = [
        Field::Id,
        Field::Role,
        Field::UserZeros,
        Field::PhysicalPvb,
        Field::PhysicalTvb,
        Field::PhysicalAvb,
        Field::PositionPvb,
        Field::PositionTvb,
        Field::PositionAvb,
        Field::Charges,
        Field::Assigned,
        Field::Blocked,
        Field::ManagerPvb,
        Field::ManagerTvb,
        Field::ManagerAvb,
        Field::Seller,
        Field::Buyer,
        Field::Area,
        Field::Kind,
        Field::Day,
        Field::TradeZero,
        Field::Notified,
        Field::Standing,
    ];

    /// The name of the field, as the columns of a spreadsheet have it.
    pub const fn name(self) -> &'static str {
        match self {
            Field::Id => "id",
            Field::Role => "role",
            Field::UserZeros => "user_zeros",
            Field::PhysicalPvb => "physical_PVB",
            Field::PhysicalTvb => "physical_TVB",
            Field::PhysicalAvb => "physical_AVB",
            Field::PositionPvb => "position_PVB",
            Field::PositionTvb => "position_TVB",
            Field::PositionAvb => "position_AVB",
            Field::Charges => "charges",
            Field::Assigned => "assigned",
            Field::Blocked => "blocked",
            Field::ManagerPvb => "manager_PVB",
            Field::ManagerTvb => "manager_TVB",
            Field::ManagerAvb => "manager_AVB",
            Field::Seller => "seller",
            Field::Buyer => "buyer",
            Field::Area => "area",
            Field::Kind => "kind",
            Field::Day => "day",
            Field::TradeZero => "trade_zero",
            Field::Notified => "notified",
            Field::Standing => "standing",
        }
    }

    /// The field of a name.
    pub fn from_name(name: &str) -> Option<Field> {
        Field::ALL.into_iter().find(|field| field.name() == name)
    }

    /// Bytes of the field in each record.
    pub const fn width(self) -> usize {
        match self {
            Field::Role | Field::Area | Field::Kind | Field::Day | Field::TradeZero => 1,
            Field::UserZeros => 3,
            Field::Charges | Field::Assigned | Field::Blocked => 8,
            _ => 4,
        }
    }

    /// Whether the field's number has a sign.
    pub const fn is_signed(self) -> bool {
        Field::PhysicalPvb as u8 <= self as u8 && self as u8 <= Field::Charges as u8
    }

    /// Whether the field is one of trades, else of users.
    pub const fn is_of_trades(self) -> bool {
        Field::Seller as u8 <= self as u8
    }

    /// Whether books of a version have the field: managers stand in version 3 only,
    /// and an unknown version has none.
    pub const fn is_in(self, version: u16) -> bool {
        match self {
            Field::ManagerPvb | Field::ManagerTvb | Field::ManagerAvb => version == 3,
            _ => matches!(version, 1..=3),
        }
    }
}

/// Where a field of all records stands in a form: `count` numbers of `width` bytes
/// each, the lowest byte first, one after the other from `offset` on.
#[derive(Clone, Copy, Debug, PartialEq, Eq)]
pub struct Column {
    /// Bytes before it in the form.
    pub offset: usize,
    /// Bytes of each of its numbers.
    pub width: usize,
    /// How many numbers it has.
    pub count: usize,
}

impl Column {
    /// The places of its bytes.
    pub const fn range(&self) -> Range<usize> {
        self.offset..self.offset + self.width * self.count
    }

    /// Its bytes, as a part of the form; none where the form ends before them.
    pub fn bytes<'a>(&self, form: &'a [u8]) -> Option<&'a [u8]> {
        form.get(self.range())
    }

    /// Its numbers, for a field without a sign; no number of a form that ends before
    /// the column does.
    pub fn unsigned<'a>(&self, form: &'a [u8]) -> impl Iterator<Item = u64> + 'a {
        let bytes = self.bytes(form).unwrap_or_default();
        bytes
            .chunks_exact(self.width)
            .map(|number| widened(number, 0))
    }

    /// Its numbers, for a field with a sign ([`Field::is_signed`]).
    pub fn signed<'a>(&self, form: &'a [u8]) -> impl Iterator<Item = i64> + 'a {
        let bytes = self.bytes(form).unwrap_or_default();
        let sign = |number: &[u8]| number.last().map_or(0, |highest| highest >> 7);
        let numbers = bytes.chunks_exact(self.width);
        numbers.map(move |number| widened(number, sign(number) * u8::MAX) as i64)
    }
}

/// The columns of a form, by the version and the counts of its book. Nothing is
/// copied, and of the form nothing but these three numbers is looked at.
#[derive(Clone, Copy, Debug, PartialEq, Eq)]
pub struct Columns {
    /// The version of the book.
    pub version: u16,
    /// How many users it has.
    pub users: usize,
    /// How many trades it has.
    pub trades: usize,
}

impl Columns {
    /// Bytes at the front of a form that tell version and counts.
    pub const COUNTS_LENGTH: usize = 8;

    /// The columns of these bytes, a form or just its first [`Columns::COUNTS_LENGTH`];
    /// none where there are fewer, and none for another mark than `GDF`. No question
    /// is asked: [`record_wise`](crate::record_wise) judges a form.
    pub fn of(form: &[u8]) -> Option<Columns> {
        let counts = form.get(..Columns::COUNTS_LENGTH)?;
        let &[b'G', b'D', b'F', low, high, users, fewer, more] = counts else {
            return None;
        };
        Some(Columns {
            version: u16::from_le_bytes([low, high]),
            users: usize::from(users),
            trades: usize::from(u16::from_le_bytes([fewer, more])),
        })
    }

    /// The column of a field; none where the version has not the field.
    pub fn column(&self, field: Field) -> Option<Column> {
        let mut offset = header_length(self.version);
        for before in Field::ALL.into_iter().filter(|it| it.is_in(self.version)) {
            let (width, count) = (before.width(), self.count(before));
            if before == field {
                return Some(Column {
                    offset,
                    width,
                    count,
                });
            }
            offset += width * count;
        }
        None
    }

    /// Every field that the version has, with its column, in their order.
    pub fn all(self) -> impl Iterator<Item = (Field, Column)> {
        let place = move |field| self.column(field).map(|column| (field, column));
        Field::ALL.into_iter().filter_map(place)
    }

    /// The length of the form, which is its book's; none of an unknown version.
    pub fn length(&self) -> Option<usize> {
        let last = self.column(Field::Standing)?;
        Some(last.range().end)
    }

    /// How many records have a field.
    fn count(&self, field: Field) -> usize {
        match field.is_of_trades() {
            true => self.trades,
            false => self.users,
        }
    }
}

/// A number of at most 8 bytes, filled up with a byte.
fn widened(number: &[u8], filler: u8) -> u64 {
    let mut bytes = [filler; 8];
    for (byte, own) in bytes.iter_mut().zip(number) {
        *byte = *own;
    }
    u64::from_le_bytes(bytes)
}
