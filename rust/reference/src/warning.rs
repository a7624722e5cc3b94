//! "Warnings and shown records": the midday warning.

use crate::book::{Book, Trade, User};
use crate::group::bearer;
use crate::levels::flagged;
use crate::party::{Act, Given};
use crate::questions::{questions_to_9, Opened, ACCEPTED};
use crate::store::Limits;
use crate::units::Mwh;

#[derive(Clone, Copy, Debug, Default, PartialEq, Eq)]
pub struct WarningAnswer {
    pub number: u32,
    pub warned: bool,
}

/// Whether a shipper is warned at midday.
pub fn warning(bytes: &[u8], given: Given<'_>, id: u32) -> WarningAnswer {
    match questions_to_9(bytes, given, Act::Operators, id) {
        Ok((Opened { book, limits }, place)) => WarningAnswer {
            number: ACCEPTED,
            warned: warned(&limits, &book, &book.users[place]),
        },
        Err(number) => WarningAnswer {
            number,
            ..WarningAnswer::default()
        },
    }
}

fn warned(limits: &Limits, book: &Book, user: &User) -> bool {
    flagged(limits, book, user) || warned_by_seller(limits, book, user)
}

/// "Buyer of a kind 0, day 0 trade standing above 0 whose seller is a flagged
/// shipper."
pub fn warned_by_seller(limits: &Limits, book: &Book, user: &User) -> bool {
    book.trades.iter().any(|trade| {
        trade.buyer == user.id
            && trade.is_bilateral_today()
            && trade.standing > Mwh::ZERO
            && seller_is_flagged_shipper(limits, book, trade)
    })
}

/// "At midday the manager's flag stands for a managed seller's."
fn seller_is_flagged_shipper(limits: &Limits, book: &Book, trade: &Trade) -> bool {
    let bearer = bearer(book, trade.seller, trade);
    book.users
        .iter()
        .any(|user| user.id == bearer && user.is_shipper() && flagged(limits, book, user))
}
