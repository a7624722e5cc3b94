//! Why a user is called in: flagged, or party to a trade standing below notified,
//! through a member too.

use daybook::{Book, User};

use crate::groups::{calls_in, member_of, position};
use crate::store::Figures;
use crate::trace::reference_prices;

/// Why a user is called in.
#[derive(Clone, Debug, PartialEq, Eq)]
pub struct CalledIn {
    /// The short positions that the user bears at reference prices less blocked, in
    /// cents.
    pub short_worth: i128,
    /// What this has to exceed for a flag.
    pub limit: i128,
    /// The trades standing below notified that call the user in, by their places.
    pub cut: Vec<usize>,
    /// The members through which it is party to them, where it is not party to any
    /// itself.
    pub members: Vec<u32>,
}

impl CalledIn {
    pub fn is_flagged(&self) -> bool {
        self.short_worth > self.limit
    }

    /// Whether a trade calls the user in.
    pub fn is_party(&self) -> bool {
        !self.cut.is_empty()
    }
}

pub fn called_in(figures: &Figures, book: &Book, user: &User) -> CalledIn {
    let prices = reference_prices(&book.prices).map(i128::from);
    let short = prices.iter().enumerate().map(|(area, price)| {
        let position = position(book, user.id, area);
        (-i128::from(position)).max(0) * price
    });
    let least = prices.into_iter().min().unwrap_or(0);
    let is_cut = |place: &usize| calls_in(book, user.id, &book.trades[*place]);
    let cut: Vec<usize> = (0..book.trades.len()).filter(is_cut).collect();
    let through = |place: &usize| member_of(book, user.id, &book.trades[*place]);
    let through: Vec<Option<u32>> = cut.iter().map(through).collect();
    let mut members: Vec<u32> = match through.contains(&None) {
        true => Vec::new(),
        false => through.into_iter().flatten().collect(),
    };
    members.sort_unstable();
    members.dedup();
    CalledIn {
        short_worth: short.sum::<i128>() - i128::from(user.blocked),
        limit: i128::from(figures.flag_mwh) * least,
        cut,
        members,
    }
}
