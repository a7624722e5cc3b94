//! How long the run of a book is, and whom it reduces next.

use reference::book::{Book, User};
use reference::group::bearer;
use reference::party::{Act, Given};
use reference::questions::{opening_questions, Opened};
use reference::reduction::{has_eligible_trade, reduce};
use reference::run::{next_reduction, short_of_cover};
use reference::store::Limits;
use reference::units::Mwh;

/// The most reductions that the run of a drawn book takes, but for long books.
pub const MOST_REDUCTIONS: u64 = 400;

/// The most reductions that the run of a long book takes.
pub const MOST_LONG_REDUCTIONS: u64 = 3_000;

/// Whether the run of an accepted book takes at most `most` reductions. Each cuts at
/// least one MWh. Who is due is asked again of those alone who bear the risk of a trade
/// that a reduction cut: for the others nothing changed. Who has no eligible trade is
/// never due: cuts give none.
pub fn ends_within(limits: &Limits, book: &Book, most: u64) -> bool {
    let trades = book
        .trades
        .iter()
        .filter(|trade| trade.is_bilateral_today());
    let standing: Mwh = trades.map(|trade| trade.standing).sum();
    if standing <= Mwh(most.into()) {
        return true;
    }
    let mut book = book.clone();
    let sells = |user: &User| has_eligible_trade(&book, user);
    let sellers: Vec<bool> = book.users.iter().map(sells).collect();
    let is_due = |book: &Book, place: usize| {
        let user = &book.users[place];
        sellers[place] && short_of_cover(limits, book, user) && has_eligible_trade(book, user)
    };
    let places = 0..book.users.len();
    let mut due: Vec<bool> = places.map(|place| is_due(&book, place)).collect();
    for _ in 0..=most {
        let Some(place) = due.iter().position(|due| *due) else {
            return true;
        };
        let before: Vec<Mwh> = book.trades.iter().map(|trade| trade.standing).collect();
        reduce(limits, &mut book, place);
        for place in bearers_of_cuts(&book, &before) {
            due[place] = is_due(&book, place);
        }
    }
    false
}

/// The places of those who bear the risk of the trades that stood otherwise before.
fn bearers_of_cuts(book: &Book, before: &[Mwh]) -> Vec<usize> {
    let trades = book.trades.iter().zip(before);
    let cut = trades.filter(|(trade, before)| trade.standing != **before);
    let parties = cut.flat_map(|(trade, _)| [(trade, trade.seller), (trade, trade.buyer)]);
    let bearers = parties.filter_map(|(trade, party)| book.place_of(bearer(book, party, trade)));
    let mut places: Vec<usize> = bearers.collect();
    places.sort_unstable();
    places.dedup();
    places
}

/// The id of the user whom a run with this store would reduce next.
pub(crate) fn reducible(bytes: &[u8], store: Option<&[u8]>) -> Option<u32> {
    let Opened { book, limits } =
        opening_questions(bytes, Given::by_operator(store), Act::Operators).ok()?;
    let place = next_reduction(&limits, &book)?;
    Some(book.users[place].id)
}

/// Whether the run of these bytes with this store is refused or takes at most
/// 3,000 reductions.
pub fn is_short_run(bytes: &[u8], store: Option<&[u8]>) -> bool {
    match opening_questions(bytes, Given::by_operator(store), Act::Operators) {
        Ok(Opened { book, limits }) => ends_within(&limits, &book, MOST_LONG_REDUCTIONS),
        Err(_) => true,
    }
}
