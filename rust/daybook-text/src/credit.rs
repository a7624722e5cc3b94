//! The credit for long positions: what an afternoon level loses in versions 2 and 3,
//! for each area where the position that the user bears is above 0, before the floor.
//! The levels are the engine's, with the selling tariffs and without them.

use daybook::{Book, Level, Operator, Refusal, User};

use crate::fields::has_selling_tariffs;
use crate::groups::position;
use crate::text::aligned;
use crate::words::{euros, grouped, AREAS};

/// The credit of a user in an area where it is long.
#[derive(Clone, Copy, Debug, PartialEq, Eq)]
pub struct Credit {
    pub area: usize,
    /// The long position that the user bears.
    pub mwh: u64,
    /// The selling tariff's name.
    pub name: &'static str,
    /// The selling tariff, in cents.
    pub tariff: u32,
}

impl Credit {
    /// What the level loses, in cents.
    pub fn cents(&self) -> u64 {
        self.mwh * u64::from(self.tariff)
    }
}

/// Whether levels of a book have credit.
pub fn has_credit(book: &Book) -> bool {
    has_selling_tariffs(book.version) == Some(true)
}

/// The credits of a user, in the order of the areas; none in a book without them.
pub fn credits(book: &Book, user: &User) -> Vec<Credit> {
    if !has_credit(book) {
        return Vec::new();
    }
    let pvb = ("S", book.prices.pvb_selling_tariff);
    let other = ("U", book.prices.tank_and_store_selling_tariff);
    let areas = [pvb, other, other].into_iter().enumerate();
    let credit = |(area, (name, tariff))| Credit {
        area,
        mwh: u64::try_from(position(book, user.id, area)).unwrap_or(0),
        name,
        tariff,
    };
    let credits = areas.map(credit);
    credits.filter(|credit| credit.mwh > 0).collect()
}

/// The credits by area, in cents.
pub fn by_area(credits: &[Credit]) -> [u64; 3] {
    let mut cents = [0; 3];
    for credit in credits {
        cents[credit.area] = credit.cents();
    }
    cents
}

/// A line for each credit.
pub fn lines(credits: &[Credit]) -> String {
    let cells = |credit: &Credit| {
        vec![
            "  credit".to_string(),
            AREAS[credit.area].to_string(),
            grouped(credit.mwh),
            "MWh long x".to_string(),
            credit.name.to_string(),
            euros(credit.tariff),
            "=".to_string(),
            euros(credit.cents()),
            "EUR".to_string(),
        ]
    };
    let rows: Vec<Vec<String>> = credits.iter().map(cells).collect();
    aligned(&rows)
}

/// How an afternoon level with credit comes about.
#[derive(Clone, Debug, PartialEq, Eq)]
pub struct Credited {
    /// The level that the user would have without credit: the engine's answer on
    /// the book with both selling tariffs 0.
    pub without: u64,
    pub credits: Vec<Credit>,
}

/// The credit in the afternoon level of a user; none in a book without credit.
pub fn credited(
    operator: &Operator,
    book: &Book,
    user: &User,
) -> Result<Option<Credited>, Refusal> {
    if !has_credit(book) {
        return Ok(None);
    }
    let credits = credits(book, user);
    let mut book = book.clone();
    book.prices.pvb_selling_tariff = 0;
    book.prices.tank_and_store_selling_tariff = 0;
    let mut bytes = vec![0; book.length()];
    daybook::write(&book, &mut bytes)?;
    let Level(without) = operator.afternoon_level(&bytes, user.id)?;
    Ok(Some(Credited { without, credits }))
}
