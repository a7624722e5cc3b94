//! "Levels and calls": one user's amounts, and what they come to.

use crate::gathered::Gathered;
use crate::records::User;
use crate::units::{Cents, Mwh, Rates};

/// The amounts of a user that levels and flags depend on.
#[derive(Clone, Copy, Debug)]
pub struct Account {
    pub position: [Mwh; 3],
    /// Sold − bought for d+1.
    tomorrow: [Mwh; 3],
    charges: Cents,
    pub assigned: Cents,
    pub blocked: Cents,
    /// Party to a trade standing below notified.
    pub below_notified: bool,
}

impl Account {
    /// The account of a user of an accepted book.
    #[inline]
    pub fn new(gathered: &Gathered, place: usize, user: &User) -> Account {
        Account {
            position: user.position.map(|position| Mwh(i64::from(position))),
            tomorrow: gathered.sold_tomorrow(place),
            charges: Cents(user.charges),
            // Question 5 holds them below 2^63.
            assigned: Cents(user.assigned.cast_signed()),
            blocked: Cents(user.blocked.cast_signed()),
            below_notified: gathered.below_notified >> place & 1 == 1,
        }
    }

    /// "Need = −physical + sold − bought over d and d+1"; what was sold and
    /// bought for d stands in the position.
    pub fn morning_level(&self, rates: &Rates) -> Cents {
        let [pvb, tvb, avb] = self.position;
        let needs = rates.over_areas([
            self.tomorrow[0] - pvb,
            self.tomorrow[1] - tvb,
            self.tomorrow[2] - avb,
        ]);
        rates.least_level.max(self.charges + needs)
    }

    /// "Need = sold − bought for d+1, minus max(0, position) in areas 1 and 2"; a
    /// version may give a credit.
    #[inline]
    pub fn afternoon_level(&self, rates: &Rates) -> Cents {
        let [_, tvb, avb] = self.position;
        let needs = rates.over_areas([
            self.tomorrow[0],
            self.tomorrow[1] - tvb.or_zero(),
            self.tomorrow[2] - avb.or_zero(),
        ]);
        rates
            .least_level
            .max(self.charges + needs + self.short_positions(rates) - self.credit(rates))
    }

    /// Sum of max(0, −position) × w.
    #[inline]
    fn short_positions(&self, rates: &Rates) -> Cents {
        rates.over_areas(self.position.map(|position| -position))
    }

    /// "Flagged: sum of max(0, −position) × w, minus blocked, exceeds 30,000 ×
    /// the least w", by today's figures.
    #[inline]
    pub fn is_flagged(&self, rates: &Rates) -> bool {
        self.short_positions(rates) - self.blocked > rates.flag_limit
    }

    /// "Called in: flagged, or party to a trade standing below notified."
    #[inline]
    pub fn is_called_in(&self, rates: &Rates) -> bool {
        self.below_notified || self.is_flagged(rates)
    }

    /// "Level − blocked > 1,000,000", by today's figures.
    #[inline]
    pub fn is_above_margin(&self, rates: &Rates, level: Cents) -> bool {
        level - self.blocked > rates.margin
    }

    /// Target T of a shipper that is short of cover: "called in, afternoon level
    /// − blocked > 1,000,000, assigned < level".
    #[inline]
    pub fn target(&self, rates: &Rates) -> Option<Cents> {
        let level = self.afternoon_level(rates);
        let short =
            self.assigned < level && self.is_above_margin(rates, level) && self.is_called_in(rates);
        short.then(|| level - self.assigned)
    }
}
