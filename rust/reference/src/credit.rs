//! Document 02, ask 3, "Credit for long positions".

use crate::book::{Book, User};
use crate::group::position;
use crate::units::{Area, Cents, Price, Prices};
use crate::version::has_selling_tariffs;

/// "In version 2 the afternoon level loses max(0, position) × selling tariff for
/// each area, before the floor."
pub fn credit(book: &Book, user: &User) -> Cents {
    if !has_selling_tariffs(book.version) {
        return Cents::ZERO;
    }
    let credited =
        |area: Area| position(book, user, area).or_zero() * selling_tariff(area, &book.prices);
    Area::ALL.map(credited).into_iter().sum()
}

/// "S for PVB and U for the other two areas."
fn selling_tariff(area: Area, prices: &Prices) -> Price {
    match area {
        Area::Pvb => prices.s,
        Area::Tvb | Area::Avb => prices.u,
    }
}
