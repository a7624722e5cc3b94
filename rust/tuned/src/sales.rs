//! "Reduction": the shares of a seller's sales.

use crate::records::MOST_TRADES;
use crate::units::{Cents, Mwh, Price, Rates};

/// A sale of kind 0 and day 0 that stands above 0.
#[derive(Clone, Copy, Debug, Default)]
pub struct Sale {
    pub standing: Mwh,
    /// The area's place, 0 to 2.
    pub area: u8,
    /// The buyer's place among the users.
    pub buyer: u8,
    /// The trade's place in the book.
    pub trade: u8,
}

/// The running tally: MWh cut and worth.
#[derive(Clone, Copy, Debug, Default, PartialEq, Eq)]
pub struct Tally {
    pub mwh: Mwh,
    pub worth: Cents,
}

/// A place's number of bits in the key of a remainder.
const PLACE_BITS: u32 = 8;

/// Room for a key of each remainder, one for each sale: the remainder, then a
/// place that is higher for an earlier sale, so that the highest key is the next
/// to lose one MWh more. A remainder of 0 has the key 0.
pub type Keys = [u64; MOST_TRADES];

/// Reduces the standing sales of one seller, in the order of the book.
pub struct Reducer<'a> {
    pub rates: &'a Rates,
    pub keys: &'a mut Keys,
}

impl Reducer<'_> {
    /// Cuts the sales for T. `standing` is what the sales stand at in each area,
    /// `position` the seller's at the start. Each cut is handed to `settle`; a
    /// sale may be cut twice.
    #[inline]
    pub fn reduce(
        &mut self,
        sales: &mut [Sale],
        standing: [Mwh; 3],
        position: [Mwh; 3],
        target: Cents,
        mut settle: impl FnMut(&Sale, Mwh),
    ) -> Tally {
        let one = position.map(|position| position < Mwh::ZERO);
        let two = one.map(|in_one| !in_one);
        let worth_one = self.worth(standing, one);
        let mut tally = Tally::default();
        let mut cut = |sale: &mut Sale, mwh: Mwh, tariff: Price| {
            sale.standing -= mwh;
            tally.mwh += mwh;
            tally.worth += mwh * tariff;
            settle(sale, mwh);
        };
        self.cut_tier(sales, one, target, worth_one, &mut cut);
        let rest = target - worth_one;
        if rest > Cents::ZERO {
            self.cut_tier(sales, two, rest, self.worth(standing, two), &mut cut);
        }
        tally
    }

    /// V, a tier's worth.
    #[inline]
    fn worth(&self, standing: [Mwh; 3], tier: [bool; 3]) -> Cents {
        let worth = |area: usize| {
            if tier[area] {
                standing[area] * self.rates.tariff[area]
            } else {
                Cents::ZERO
            }
        };
        worth(0) + worth(1) + worth(2)
    }

    /// Cuts the sales of a tier, the areas of which are said, that is asked for
    /// A above 0 and is worth V.
    #[inline]
    fn cut_tier(
        &mut self,
        sales: &mut [Sale],
        tier: [bool; 3],
        asked: Cents,
        worth: Cents,
        cut: &mut impl FnMut(&mut Sale, Mwh, Price),
    ) {
        if asked < worth {
            let (loss, highest) = self.whole_parts(sales, tier, asked, worth, cut);
            self.one_more(sales, asked, loss, highest, cut);
            return;
        }
        for sale in sales.iter_mut() {
            let area = usize::from(sale.area);
            if tier[area] {
                cut(sale, sale.standing, self.rates.tariff[area]);
            }
        }
    }

    /// Cuts the whole parts of standing × A / V and keeps the keys of the
    /// remainders. Returns the loss and the highest key.
    #[inline]
    fn whole_parts(
        &mut self,
        sales: &mut [Sale],
        tier: [bool; 3],
        asked: Cents,
        worth: Cents,
        cut: &mut impl FnMut(&mut Sale, Mwh, Price),
    ) -> (Cents, u64) {
        let mut loss = Cents::ZERO;
        let mut highest = 0;
        let worth = worth.0.unsigned_abs();
        let places = (0..1 << PLACE_BITS).rev();
        for ((sale, key), place) in sales.iter_mut().zip(self.keys.iter_mut()).zip(places) {
            *key = 0;
            let area = usize::from(sale.area);
            if !tier[area] {
                continue;
            }
            // At most 100,000 × 256 × 100,000 × 100,000, which is below 2^58.
            let mut remainder = sale.standing.0.unsigned_abs() * asked.0.unsigned_abs();
            if remainder >= worth {
                let whole = Mwh((remainder / worth).cast_signed());
                remainder %= worth;
                loss += whole * self.rates.tariff[area];
                cut(sale, whole, self.rates.tariff[area]);
            }
            if remainder > 0 {
                *key = remainder << PLACE_BITS | place;
                highest = highest.max(*key);
            }
        }
        (loss, highest)
    }

    /// "While the loss at t is below A, trades with a remainder above 0 lose one
    /// MWh more, largest remainder first, ties by earlier place."
    #[inline]
    fn one_more(
        &mut self,
        sales: &mut [Sale],
        asked: Cents,
        loss: Cents,
        highest: u64,
        cut: &mut impl FnMut(&mut Sale, Mwh, Price),
    ) {
        if loss >= asked || highest == 0 {
            return;
        }
        let keys = &mut self.keys[..sales.len()];
        let mut loss = loss;
        let mut lose_one = |key: u64| {
            let sale = &mut sales[place(key)];
            let tariff = self.rates.tariff[usize::from(sale.area)];
            cut(sale, Mwh(1), tariff);
            loss += Mwh(1) * tariff;
            loss < asked
        };
        // One more is often enough.
        if !lose_one(highest) {
            return;
        }
        keys.sort_unstable_by(|one, other| other.cmp(one));
        for key in keys.iter().skip(1) {
            if *key == 0 || !lose_one(*key) {
                return;
            }
        }
    }
}

/// The place of the sale that a key belongs to.
#[inline]
fn place(key: u64) -> usize {
    let most = (1 << PLACE_BITS) - 1;
    usize::from((most - (key & most)).to_le_bytes()[0])
}
