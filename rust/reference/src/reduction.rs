//! "Reduction".

use crate::book::{Book, Trade, User};
use crate::group;
use crate::levels::{above_margin, afternoon_level_of, called_in};
use crate::logged::{has_room, logged, note};
use crate::party::Given;
use crate::questions::{ask, Opened, ACCEPTED};
use crate::store::Limits;
use crate::units::{Area, Cents, Mwh, Price};

#[derive(Clone, Copy, Debug, Default, PartialEq, Eq)]
pub struct ReductionAnswer {
    pub number: u32,
    pub mwh: i128,
    pub worth: i128,
    /// T.
    pub target: i128,
    pub short: i128,
    pub over: i128,
}

/// Reduces the sales of one shipper. "A reduction with a full log" gives 20, asked
/// last.
pub fn reduction(
    bytes: &mut [u8],
    given: Given<'_>,
    log: Option<&mut [u8]>,
    id: u32,
) -> ReductionAnswer {
    let reduced = logged(bytes, given, log, true, |opened, log| {
        let place = questions_8_to_14(opened, id)?;
        ask(20, has_room(log.as_deref()))?;
        Ok(note(opened, place, log))
    });
    reduced.unwrap_or_else(|number| ReductionAnswer {
        number,
        ..ReductionAnswer::default()
    })
}

/// The questions of a reduction after the opening ones: the user's place.
pub fn questions_8_to_14(opened: &Opened, id: u32) -> Result<usize, u32> {
    let place = opened.questions_8_and_9(id)?;
    let user = &opened.book.users[place];
    questions_11_to_14(&opened.limits, &opened.book, user)?;
    Ok(place)
}

/// The questions 11, 13 and 14 of a reduction.
fn questions_11_to_14(limits: &Limits, book: &Book, user: &User) -> Result<(), u32> {
    let level = afternoon_level_of(limits, book, user);
    ask(
        11,
        above_margin(limits, user, level) && called_in(limits, book, user),
    )?;
    ask(13, user.assigned < level)?;
    ask(14, has_eligible_trade(book, user))
}

/// "Eligible: the user's sales of kind 0, day 0, standing above 0"; a manager's
/// are those of its group.
pub fn is_eligible(book: &Book, trade: &Trade, user: &User) -> bool {
    trade.is_bilateral_today() && trade.standing > Mwh::ZERO && group::is_sale_of(book, trade, user)
}

pub fn has_eligible_trade(book: &Book, user: &User) -> bool {
    let mut trades = book.trades.iter();
    trades.any(|trade| is_eligible(book, trade, user))
}

/// "Target T = afternoon level − assigned."
pub fn target(limits: &Limits, book: &Book, user: &User) -> Cents {
    afternoon_level_of(limits, book, user) - user.assigned
}

/// The places of the trades of tier one and of tier two, in the order of the
/// book. "Tier one: those in areas where the position is negative at the
/// start; tier two: the others."
pub fn tiers(book: &Book, user: &User) -> (Vec<usize>, Vec<usize>) {
    let eligible = |place: &usize| is_eligible(book, &book.trades[*place], user);
    let negative = |place: &usize| in_negative_area(book, &book.trades[*place], user);
    (0..book.trades.len()).filter(eligible).partition(negative)
}

fn in_negative_area(book: &Book, trade: &Trade, user: &User) -> bool {
    Area::ALL
        .iter()
        .any(|area| trade.is_in(*area) && group::position(book, user, *area) < Mwh::ZERO)
}

/// One trade of a tier: what stands, and the tariff t of its area.
#[derive(Clone, Copy, Debug, PartialEq, Eq)]
pub struct Sale {
    pub standing: Mwh,
    pub tariff: Price,
}

/// The sales at these places.
pub fn sales(book: &Book, places: &[usize]) -> Vec<Sale> {
    let sale = |place: &usize| Sale {
        standing: book.trades[*place].standing,
        tariff: book.trades[*place].tariff(&book.prices),
    };
    places.iter().map(sale).collect()
}

/// "V, a tier's worth, is the first trade's standing × t plus the worth of the
/// rest."
pub fn tier_worth(sales: &[Sale]) -> Cents {
    match sales.split_first() {
        Some((first, rest)) => first.standing * first.tariff + tier_worth(rest),
        None => Cents::ZERO,
    }
}

/// What each trade of a tier loses when the tier is asked for A.
pub fn cuts(sales: &[Sale], asked: Cents) -> Vec<Mwh> {
    let worth = tier_worth(sales);
    if asked <= Cents::ZERO || worth == Cents::ZERO {
        sales.iter().map(|_| Mwh::ZERO).collect()
    } else if asked >= worth {
        sales.iter().map(|sale| sale.standing).collect()
    } else {
        shares(sales, asked, worth)
    }
}

/// 0 < A < V: the whole parts of standing × A / V; then, "while the loss at t
/// is below A, trades with a remainder above 0 lose one MWh more, largest
/// remainder first, ties by earlier place".
fn shares(sales: &[Sale], asked: Cents, worth: Cents) -> Vec<Mwh> {
    let share = |sale: &Sale| {
        let product = sale.standing.0 * asked.0;
        let whole = product / worth.0;
        (Mwh(whole), product - whole * worth.0)
    };
    let (mut cuts, mut remainders): (Vec<Mwh>, Vec<i128>) = sales.iter().map(share).unzip();
    let mut lost = loss(sales, &cuts);
    while lost < asked {
        let Some(place) = largest(&remainders) else {
            break;
        };
        cuts[place] = cuts[place] + Mwh(1);
        lost = lost + Mwh(1) * sales[place].tariff;
        remainders[place] = 0;
    }
    cuts
}

/// The loss of a tier at t.
fn loss(sales: &[Sale], cuts: &[Mwh]) -> Cents {
    sales
        .iter()
        .zip(cuts)
        .map(|(sale, cut)| *cut * sale.tariff)
        .sum()
}

/// The place of the largest remainder above 0, the earliest of equal ones.
fn largest(remainders: &[i128]) -> Option<usize> {
    let mut found: Option<usize> = None;
    for (place, remainder) in remainders.iter().enumerate() {
        let best = found.map_or(0, |place| remainders[place]);
        if *remainder > best {
            found = Some(place);
        }
    }
    found
}

/// The running tally: MWh cut and worth.
#[derive(Clone, Copy, Debug, Default, PartialEq, Eq)]
pub struct Tally {
    pub mwh: Mwh,
    pub worth: Cents,
}

impl Tally {
    /// Takes one trade's cut and hands back the new tally.
    pub fn with(self, cut: Mwh, tariff: Price) -> Tally {
        Tally {
            mwh: self.mwh + cut,
            worth: self.worth + cut * tariff,
        }
    }
}

/// Reduces the user at this place, whom the questions have accepted.
pub fn reduce(limits: &Limits, book: &mut Book, place: usize) -> ReductionAnswer {
    let user = &book.users[place];
    let target = target(limits, book, user);
    let (one, two) = tiers(book, user);
    // "Tier one takes T, tier two then takes max(0, T − tier one's V)."
    let worth_one = tier_worth(&sales(book, &one));
    let tally = cut_tier(book, &one, target, Tally::default());
    let tally = cut_tier(book, &two, (target - worth_one).or_zero(), tally);
    ReductionAnswer {
        number: ACCEPTED,
        mwh: tally.mwh.0,
        worth: tally.worth.0,
        target: target.0,
        short: (target - tally.worth).or_zero().0,
        over: (tally.worth - target).or_zero().0,
    }
}

/// Cuts the trades of a tier asked for A, and settles each cut.
fn cut_tier(book: &mut Book, places: &[usize], asked: Cents, tally: Tally) -> Tally {
    let sales = sales(book, places);
    let cuts = cuts(&sales, asked);
    let mut tally = tally;
    for ((place, sale), cut) in places.iter().zip(&sales).zip(&cuts) {
        settle(book, *place, *cut);
        tally = tally.with(*cut, sale.tariff);
    }
    tally
}

/// "The seller's position rises and the buyer's falls by each cut."
pub fn settle(book: &mut Book, place: usize, cut: Mwh) {
    let trade = &mut book.trades[place];
    trade.standing = trade.standing - cut;
    let area = usize::from(trade.area);
    for (party, change) in [(trade.seller, cut), (trade.buyer, -cut)] {
        if let Some(place) = book.place_of(party) {
            let position = &mut book.users[place].position[area];
            *position = *position + change;
        }
    }
}
