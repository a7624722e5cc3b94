//! "Units and areas": energy, money, prices, and the three areas.

use std::iter::Sum;
use std::ops::{Add, Mul, Neg, Sub};

/// Whole MWh.
#[derive(Clone, Copy, Debug, Default, PartialEq, Eq, PartialOrd, Ord)]
pub struct Mwh(pub i128);

/// Whole euro cents.
#[derive(Clone, Copy, Debug, Default, PartialEq, Eq, PartialOrd, Ord)]
pub struct Cents(pub i128);

/// Cents per MWh.
#[derive(Clone, Copy, Debug, Default, PartialEq, Eq, PartialOrd, Ord)]
pub struct Price(pub i128);

/// "An energy is never added to a sum of money": each amount is added to its
/// own type only.
macro_rules! amount {
    ($name:ident) => {
        impl $name {
            pub const ZERO: $name = $name(0);

            /// max(0, amount)
            pub fn or_zero(self) -> $name {
                self.max($name::ZERO)
            }
        }

        impl Add for $name {
            type Output = $name;
            fn add(self, other: $name) -> $name {
                $name(self.0 + other.0)
            }
        }

        impl Sub for $name {
            type Output = $name;
            fn sub(self, other: $name) -> $name {
                $name(self.0 - other.0)
            }
        }

        impl Neg for $name {
            type Output = $name;
            fn neg(self) -> $name {
                $name(-self.0)
            }
        }

        impl Sum for $name {
            fn sum<I: Iterator<Item = $name>>(amounts: I) -> $name {
                amounts.fold($name::ZERO, |sum, amount| sum + amount)
            }
        }
    };
}

amount!(Mwh);
amount!(Cents);

/// An energy at a price is a sum of money.
impl Mul<Price> for Mwh {
    type Output = Cents;
    fn mul(self, price: Price) -> Cents {
        Cents(self.0 * price.0)
    }
}

impl Add for Price {
    type Output = Price;
    fn add(self, other: Price) -> Price {
        Price(self.0 + other.0)
    }
}

/// The two tariffs and the three tolls of the header, and the two selling
/// tariffs, which version 1 has not: 0.
#[derive(Clone, Copy, Debug, Default, PartialEq, Eq)]
pub struct Prices {
    pub p: Price,
    pub q: Price,
    pub l: Price,
    pub x: Price,
    pub i: Price,
    pub s: Price,
    pub u: Price,
}

#[derive(Clone, Copy, Debug, PartialEq, Eq)]
pub enum Area {
    /// Pipeline hub.
    Pvb,
    /// LNG tank.
    Tvb,
    /// Underground store.
    Avb,
}

impl Area {
    pub const ALL: [Area; 3] = [Area::Pvb, Area::Tvb, Area::Avb];

    pub fn from_code(code: u32) -> Option<Area> {
        match code {
            0 => Some(Area::Pvb),
            1 => Some(Area::Tvb),
            2 => Some(Area::Avb),
            _ => None,
        }
    }

    /// The code of the area, which is also its place in the fields per area.
    pub fn index(self) -> usize {
        match self {
            Area::Pvb => 0,
            Area::Tvb => 1,
            Area::Avb => 2,
        }
    }

    /// Tariff t.
    pub fn tariff(self, prices: &Prices) -> Price {
        match self {
            Area::Pvb => prices.p,
            Area::Tvb | Area::Avb => prices.q,
        }
    }

    /// Reference price w.
    pub fn reference_price(self, prices: &Prices) -> Price {
        match self {
            Area::Pvb => prices.p,
            Area::Tvb => prices.q + prices.l,
            Area::Avb => prices.q + prices.x + prices.i,
        }
    }
}
