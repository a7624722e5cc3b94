//! Where an afternoon level comes from, area by area, and why a user is called in.
//! The parts are computed here and held to the engine: they are told only where
//! they give the engine's level and state.

use daybook::{Book, Level, Operator, Refusal, Trade, User};

use daybook_text::called_in::{called_in, CalledIn};
use daybook_text::credit::credits;
use daybook_text::groups::{bearers, position, shares, Share};
use daybook_text::store::Figures;
use daybook_text::trace::reference_prices;
use daybook_text::words::AREAS;

/// MWh at a price.
#[derive(Clone, Copy, Debug, PartialEq, Eq)]
pub struct Part {
    /// `need`, `short` or `credit`.
    pub name: &'static str,
    pub area: usize,
    pub mwh: u64,
    /// The price's name, and the price, in cents.
    pub price: (&'static str, u64),
}

impl Part {
    /// What the part adds to the level; a credit takes it off.
    pub fn cents(&self) -> i128 {
        let cents = i128::from(self.mwh) * i128::from(self.price.1);
        match self.name {
            "credit" => -cents,
            _ => cents,
        }
    }

    pub fn area_name(&self) -> &'static str {
        AREAS[self.area]
    }
}

/// An afternoon level in its parts.
#[derive(Clone, Debug, PartialEq, Eq)]
pub struct Why {
    pub user: User,
    /// The engine's.
    pub level: u64,
    /// The groups that the user is in: the parts are of what it bears.
    pub shares: Vec<Share>,
    pub parts: Vec<Part>,
    /// Charges and parts together, before the floor.
    pub sum: i128,
    pub called_in: CalledIn,
}

/// How the level of a shipper comes about; none where the parts do not give the
/// engine's level, in a version with other rules.
pub fn why(
    operator: &Operator,
    figures: &Figures,
    bytes: &[u8],
    id: u32,
) -> Result<Option<Why>, Refusal> {
    let book = Operator::new().read(bytes)?;
    let user = operator.record(bytes, id)?;
    let Level(level) = operator.afternoon_level(bytes, id)?;
    let parts = parts(&book, &user);
    let sum = i128::from(user.charges) + parts.iter().map(Part::cents).sum::<i128>();
    if sum.max(i128::from(figures.least_level)) != i128::from(level) {
        return Ok(None);
    }
    let why = Why {
        called_in: called_in(figures, &book, &user),
        shares: shares(&book, &user),
        user,
        level,
        parts,
        sum,
    };
    let found = why.state(figures);
    let users = operator.levels(bytes)?;
    let engine = users.iter().find(|it| it.id == id);
    Ok(engine
        .is_some_and(|it| it.state.word() == found)
        .then_some(why))
}

impl Why {
    pub fn is_called_in(&self) -> bool {
        self.called_in.is_flagged() || self.called_in.is_party()
    }

    /// What the level exceeds blocked by, in cents.
    pub fn lacking(&self) -> i128 {
        i128::from(self.level) - i128::from(self.user.blocked)
    }

    /// The state that the parts give.
    pub fn state(&self, figures: &Figures) -> &'static str {
        match self.is_called_in() && self.lacking() > i128::from(figures.margin) {
            false => "quiet",
            true if self.user.assigned < self.level => "short",
            true => "call",
        }
    }
}

fn parts(book: &Book, user: &User) -> Vec<Part> {
    let prices = reference_prices(&book.prices);
    let mut parts = Vec::new();
    for (area, price) in prices.into_iter().enumerate() {
        let position = position(book, user.id, area);
        let long = if area == 0 { 0 } else { position.max(0) };
        let part = |name: &'static str, mwh: i64| Part {
            name,
            area,
            mwh: u64::try_from(mwh).unwrap_or(0),
            price: ("w", price),
        };
        parts.push(part("need", tomorrow(book, user.id, area) - long));
        parts.push(part("short", -position));
    }
    for credit in credits(book, user) {
        parts.push(Part {
            name: "credit",
            area: credit.area,
            mwh: credit.mwh,
            price: (credit.name, u64::from(credit.tariff)),
        });
    }
    parts.retain(|part| part.mwh > 0);
    parts
}

/// What was sold less what was bought for d+1 in an area by those whose risk a user
/// bears.
fn tomorrow(book: &Book, id: u32, area: usize) -> i64 {
    let here = |trade: &&Trade| trade.day == 1 && usize::from(trade.area) == area;
    let mut need = 0;
    for trade in book.trades.iter().filter(here) {
        let (seller, buyer) = bearers(book, trade);
        if seller == id {
            need += i64::from(trade.standing);
        }
        if buyer == id {
            need -= i64::from(trade.standing);
        }
    }
    need
}
