//! "Units and areas": energy, money and prices. No amount of an accepted book
//! and no sum of them comes near the limits of 64 bits.

use std::array;
use std::ops::{Add, AddAssign, Mul, Neg, Sub, SubAssign};

/// Whole MWh.
#[derive(Clone, Copy, Debug, Default, PartialEq, Eq, PartialOrd, Ord)]
pub struct Mwh(pub i64);

/// Whole euro cents.
#[derive(Clone, Copy, Debug, Default, PartialEq, Eq, PartialOrd, Ord)]
pub struct Cents(pub i64);

/// Cents per MWh.
#[derive(Clone, Copy, Debug, Default, PartialEq, Eq, PartialOrd, Ord)]
pub struct Price(pub i64);

/// "An energy is never added to a sum of money": each amount is added to its
/// own type only.
macro_rules! amount {
    ($name:ident) => {
        impl $name {
            pub const ZERO: $name = $name(0);

            /// max(0, amount)
            #[inline]
            pub fn or_zero(self) -> $name {
                self.max($name::ZERO)
            }
        }

        impl Add for $name {
            type Output = $name;
            #[inline]
            fn add(self, other: $name) -> $name {
                $name(self.0 + other.0)
            }
        }

        impl Sub for $name {
            type Output = $name;
            #[inline]
            fn sub(self, other: $name) -> $name {
                $name(self.0 - other.0)
            }
        }

        impl Neg for $name {
            type Output = $name;
            #[inline]
            fn neg(self) -> $name {
                $name(-self.0)
            }
        }

        impl AddAssign for $name {
            #[inline]
            fn add_assign(&mut self, other: $name) {
                self.0 += other.0;
            }
        }

        impl SubAssign for $name {
            #[inline]
            fn sub_assign(&mut self, other: $name) {
                self.0 -= other.0;
            }
        }
    };
}

amount!(Mwh);
amount!(Cents);

/// An energy at a price is a sum of money.
impl Mul<Price> for Mwh {
    type Output = Cents;
    #[inline]
    fn mul(self, price: Price) -> Cents {
        Cents(self.0 * price.0)
    }
}

/// The two tariffs and the three tolls of the header, and the two selling
/// tariffs, 0 in version 1.
#[derive(Clone, Copy, Debug, Default, PartialEq, Eq)]
pub struct Prices {
    pub p: u32,
    pub q: u32,
    pub l: u32,
    pub x: u32,
    pub i: u32,
    pub s: u32,
    pub u: u32,
}

/// The three figures of document 01 that a store can replace.
#[derive(Clone, Copy, Debug, PartialEq, Eq)]
pub struct Limits {
    /// Flagged above this energy at the least reference price.
    pub flag_energy: Mwh,
    /// A level counts above blocked by more than this (question 11).
    pub margin: Cents,
    /// Either level is at least this.
    pub least_level: Cents,
}

impl Limits {
    pub const TODAY: Limits = Limits {
        flag_energy: Mwh(30_000),
        margin: Cents(1_000_000),
        least_level: Cents(10_000_000),
    };
}

/// What the prices of an accepted book come to for each area, and the figures of
/// the call.
#[derive(Clone, Copy, Debug)]
pub struct Rates {
    /// Tariff t.
    pub tariff: [Price; 3],
    /// Reference price w.
    pub reference: [Price; 3],
    /// The selling tariffs of PVB, and of the other two areas; 0 where there are
    /// none.
    pub selling: [Price; 2],
    /// 30,000, or the MWh figure of the store, × the least w.
    pub flag_limit: Cents,
    pub margin: Cents,
    pub least_level: Cents,
}

impl Rates {
    pub fn new(prices: &Prices, limits: &Limits) -> Rates {
        let [p, q, l, x, i] = [prices.p, prices.q, prices.l, prices.x, prices.i].map(i64::from);
        let reference = [Price(p), Price(q + l), Price(q + x + i)];
        let least = reference[0].min(reference[1]).min(reference[2]);
        Rates {
            tariff: [Price(p), Price(q), Price(q)],
            reference,
            selling: prices.selling(),
            flag_limit: limits.flag_energy * least,
            margin: limits.margin,
            least_level: limits.least_level,
        }
    }

    /// Sum over the areas of max(0, energy) × w.
    #[inline]
    pub fn over_areas(&self, energies: [Mwh; 3]) -> Cents {
        let priced: [Cents; 3] =
            array::from_fn(|area| energies[area].or_zero() * self.reference[area]);
        priced[0] + priced[1] + priced[2]
    }
}
