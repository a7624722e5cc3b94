//! "Reduction": one shipper's sales, cut where they are.

use crate::account::Account;
use crate::calls::shipper;
use crate::gathered::{records_mut, Gathered, Parties, Records};
use crate::records::{ask, put, Header, Trade, TradeBytes, UserBytes, MOST_TRADES};
use crate::sales::{Reducer, Sale};
use crate::units::{Cents, Mwh};

/// A reduction that was accepted.
#[derive(Clone, Copy, Debug, PartialEq, Eq)]
pub struct Reduction {
    pub mwh: Mwh,
    pub worth: Cents,
    /// T.
    pub target: Cents,
    pub short: Cents,
    pub over: Cents,
}

/// Reduces the sales of one shipper.
pub fn reduction(bytes: &mut [u8], id: u32) -> Result<Reduction, u32> {
    let records = Records::of(bytes)?;
    let header = records.header;
    let (gathered, place, account) = shipper(records, id)?;
    reduced(bytes, header, &gathered, (place, account))
}

/// The questions 11, 13 and 14, then the reduction of the shipper at a place.
pub fn reduced(
    bytes: &mut [u8],
    header: Header,
    gathered: &Gathered,
    (place, account): (usize, Account),
) -> Result<Reduction, u32> {
    let records = Records::at(header, bytes);
    let rates = &gathered.rates;
    let level = account.afternoon_level(rates);
    let called_in = account.is_called_in(rates);
    ask(11, account.is_above_margin(rates, level) && called_in)?;
    ask(13, account.assigned < level)?;
    let (mut sales, standing) = own_sales(&records, gathered, place);
    ask(14, !sales.is_empty())?;
    let target = level - account.assigned;

    let (users, trades) = records_mut(bytes, records.users.len());
    let mut position = account.position;
    let mut keys = [0; MOST_TRADES];
    let mut reducer = Reducer {
        rates,
        keys: &mut keys,
    };
    let settle = |sale: &Sale, cut: Mwh| {
        let area = usize::from(sale.area);
        position[area] += cut;
        lower_position(&mut users[usize::from(sale.buyer)], area, cut);
        put_standing(trades, sale);
    };
    let tally = reducer.reduce(&mut sales, standing, account.position, target, settle);
    put_positions(&mut users[place], position);
    Ok(Reduction {
        mwh: tally.mwh,
        worth: tally.worth,
        target,
        short: (target - tally.worth).or_zero(),
        over: (tally.worth - target).or_zero(),
    })
}

/// The eligible trades of the user at this place, and what they stand at in each
/// area.
pub fn own_sales(
    records: &Records<'_>,
    gathered: &Gathered,
    place: usize,
) -> (Vec<Sale>, [Mwh; 3]) {
    let mut sales = Vec::with_capacity(records.trades.len());
    let mut standing = [Mwh::ZERO; 3];
    for (trade, (bytes, parties)) in (0..=u8::MAX).zip(records.trades.iter().zip(&gathered.parties))
    {
        if usize::from(parties.seller) == place {
            if let Some(sale) = eligible(trade, bytes, *parties) {
                standing[usize::from(sale.area)] += sale.standing;
                sales.push(sale);
            }
        }
    }
    (sales, standing)
}

/// The trade at a place as a sale, if it is eligible: "kind 0, day 0, standing
/// above 0".
#[inline]
pub fn eligible(place: u8, bytes: &TradeBytes, parties: Parties) -> Option<Sale> {
    let trade = Trade::from_bytes(bytes);
    (trade.is_bilateral_today() && trade.standing > 0).then(|| Sale {
        standing: Mwh(i64::from(trade.standing)),
        area: trade.area,
        buyer: parties.buyer,
        trade: place,
    })
}

/// Writes what a sale stands at. It is at most 100,000.
#[inline]
pub fn put_standing(trades: &mut [TradeBytes], sale: &Sale) {
    let [a, b, c, d, ..] = sale.standing.0.to_le_bytes();
    put(&mut trades[usize::from(sale.trade)], 16, [a, b, c, d]);
}

/// Writes the positions of a user. They are within 26,600,000.
#[inline]
pub fn put_positions(user: &mut UserBytes, position: [Mwh; 3]) {
    for (area, position) in position.iter().enumerate() {
        let [a, b, c, d, ..] = position.0.to_le_bytes();
        put(user, 20 + 4 * area, [a, b, c, d]);
    }
}

/// Lowers the position of a buyer.
#[inline]
fn lower_position(user: &mut UserBytes, area: usize, cut: Mwh) {
    let at = 20 + 4 * area;
    let position = i32::from_le_bytes([user[at], user[at + 1], user[at + 2], user[at + 3]]);
    let [a, b, c, d, ..] = (i64::from(position) - cut.0).to_le_bytes();
    put(user, at, [a, b, c, d]);
}
