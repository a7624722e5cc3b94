//! Areas, roles and kinds, which a book has as bytes.
//!
//! A record has the byte itself, since bytes of any value can be lent: the engine refuses a book
//! that has an unknown one (questions 5 and 6), and a posting to an unknown area (question 10).
//!
//! ```
//! use daybook::{Area, Kind, Role, Trade, User};
//!
//! let house = User { id: 7, role: Role::ClearingHouse.into(), ..User::default() };
//! assert_eq!(Role::from_byte(house.role), Some(Role::ClearingHouse));
//! let trade = Trade { area: Area::Tvb.into(), kind: Kind::Platform.into(), ..Trade::default() };
//! assert_eq!(Area::from_byte(trade.area).map(Area::name), Some("TVB"));
//! assert_eq!(Kind::from_byte(3), None);
//! ```

use std::fmt::{self, Display, Formatter};

/// A balancing area; what a user has by area stands in this order.
#[derive(Clone, Copy, Debug, PartialEq, Eq, PartialOrd, Ord, Hash)]
#[repr(u8)]
pub enum Area {
    /// The pipeline hub.
    Pvb = 0,
    /// The LNG tank.
    Tvb = 1,
    /// The underground store.
    Avb = 2,
}

/// What a user is.
#[derive(Clone, Copy, Debug, PartialEq, Eq, PartialOrd, Ord, Hash)]
#[repr(u8)]
pub enum Role {
    /// It has levels, and its sales can be cut.
    Shipper = 0,
    /// Its levels, calls and reductions are refused (question 9).
    ClearingHouse = 1,
}

/// How a trade was made. A reduction cuts bilateral ones alone.
#[derive(Clone, Copy, Debug, PartialEq, Eq, PartialOrd, Ord, Hash)]
#[repr(u8)]
pub enum Kind {
    /// Between two users.
    Bilateral = 0,
    /// On the platform.
    Platform = 1,
    /// By a central counterparty.
    Counterparty = 2,
}

impl Area {
    /// Every area, in the order of the bytes.
    pub const ALL: [Area; 3] = [Area::Pvb, Area::Tvb, Area::Avb];

    /// The byte that a book has for it.
    pub const fn byte(self) -> u8 {
        self as u8
    }

    /// The area of a byte; none for an unknown one.
    pub fn from_byte(byte: u8) -> Option<Area> {
        Area::ALL.into_iter().find(|it| it.byte() == byte)
    }

    /// Its place in what a user has by area: `user.position[Area::Tvb.place()]`.
    pub const fn place(self) -> usize {
        self as usize
    }

    /// Its name, as texts and tables have it.
    pub const fn name(self) -> &'static str {
        match self {
            Area::Pvb => "PVB",
            Area::Tvb => "TVB",
            Area::Avb => "AVB",
        }
    }
}

impl Role {
    /// Every role, in the order of the bytes.
    pub const ALL: [Role; 2] = [Role::Shipper, Role::ClearingHouse];

    /// The byte that a book has for it.
    pub const fn byte(self) -> u8 {
        self as u8
    }

    /// The role of a byte; none for an unknown one.
    pub fn from_byte(byte: u8) -> Option<Role> {
        Role::ALL.into_iter().find(|it| it.byte() == byte)
    }

    /// Its name, as texts and tables have it.
    pub const fn name(self) -> &'static str {
        match self {
            Role::Shipper => "shipper",
            Role::ClearingHouse => "clearing-house",
        }
    }
}

impl Kind {
    /// Every kind, in the order of the bytes.
    pub const ALL: [Kind; 3] = [Kind::Bilateral, Kind::Platform, Kind::Counterparty];

    /// The byte that a book has for it.
    pub const fn byte(self) -> u8 {
        self as u8
    }

    /// The kind of a byte; none for an unknown one.
    pub fn from_byte(byte: u8) -> Option<Kind> {
        Kind::ALL.into_iter().find(|it| it.byte() == byte)
    }

    /// Its name, as texts and tables have it.
    pub const fn name(self) -> &'static str {
        match self {
            Kind::Bilateral => "bilateral",
            Kind::Platform => "platform",
            Kind::Counterparty => "counterparty",
        }
    }
}

impl From<Area> for u8 {
    fn from(area: Area) -> u8 {
        area.byte()
    }
}

/// As the calls take it: `operator.posting(&mut book, 101, Area::Tvb.into(), -500)`.
impl From<Area> for u32 {
    fn from(area: Area) -> u32 {
        area.byte().into()
    }
}

impl From<Role> for u8 {
    fn from(role: Role) -> u8 {
        role.byte()
    }
}

impl From<Kind> for u8 {
    fn from(kind: Kind) -> u8 {
        kind.byte()
    }
}

impl Display for Area {
    fn fmt(&self, formatter: &mut Formatter<'_>) -> fmt::Result {
        formatter.write_str(self.name())
    }
}

impl Display for Role {
    fn fmt(&self, formatter: &mut Formatter<'_>) -> fmt::Result {
        formatter.write_str(self.name())
    }
}

impl Display for Kind {
    fn fmt(&self, formatter: &mut Formatter<'_>) -> fmt::Result {
        formatter.write_str(self.name())
    }
}
