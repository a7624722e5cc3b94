//! What warnings reach.

use reference::book::{Book, User};
use reference::levels::flagged;
use reference::store::Limits;
use reference::units::Mwh;
use reference::warning::warned_by_seller;

use crate::Counts;

pub fn count_warning(counts: &mut Counts, book: &Book, id: u32) {
    let place = book.place_of(id).expect("a user of the book");
    let user = &book.users[place];
    counts.add(
        match (
            flagged(&Limits::TODAY, book, user),
            warned_by_seller(&Limits::TODAY, book, user),
        ) {
            (true, true) => "warning: by both",
            (true, false) => "warning: by own flag alone",
            (false, true) => "warning: by the seller's flag alone",
            (false, false) => "warning: none",
        },
    );
    if !flagged(&Limits::TODAY, book, user) && !warned_by_seller(&Limits::TODAY, book, user) {
        let clearing = buys_from_flagged_clearing_house(book, user);
        counts.add_if(
            clearing,
            "warning: none, a seller is a flagged clearing house",
        );
    }
}

fn buys_from_flagged_clearing_house(book: &Book, user: &User) -> bool {
    book.trades.iter().any(|trade| {
        let seller = book.users.iter().find(|seller| seller.id == trade.seller);
        trade.buyer == user.id
            && trade.is_bilateral_today()
            && trade.standing > Mwh::ZERO
            && seller
                .is_some_and(|seller| !seller.is_shipper() && flagged(&Limits::TODAY, book, seller))
    })
}
