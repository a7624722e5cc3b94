//! Document 02, ask 9: the flag of a shipper, and the trades that it may see. "Flag
//! and trades are new calls under questions 8 and 9."

use crate::book::{length, Book, Trade, User, TRADE_LENGTH};
use crate::levels::flagged;
use crate::party::{Act, Given};
use crate::questions::{questions_to_9, Opened, ACCEPTED};
use crate::units::Area;

#[derive(Clone, Copy, Debug, Default, PartialEq, Eq)]
pub struct FlagAnswer {
    pub number: u32,
    pub flagged: bool,
}

/// Whether a shipper is flagged.
pub fn flag(bytes: &[u8], given: Given<'_>, id: u32) -> FlagAnswer {
    match questions_to_9(bytes, given, Act::Own(id), id) {
        Ok((Opened { book, limits }, place)) => FlagAnswer {
            number: ACCEPTED,
            flagged: flagged(&limits, &book, &book.users[place]),
        },
        Err(number) => FlagAnswer {
            number,
            ..FlagAnswer::default()
        },
    }
}

#[derive(Clone, Copy, Debug, Default, PartialEq, Eq)]
pub struct CountAnswer {
    pub number: u32,
    pub count: usize,
}

/// "The count of the trades it may see"; the operator is told that of the id.
pub fn trade_count(bytes: &[u8], given: Given<'_>, id: u32) -> CountAnswer {
    match seen(bytes, given, id) {
        Ok((_, places)) => CountAnswer {
            number: ACCEPTED,
            count: places.len(),
        },
        Err(number) => CountAnswer {
            number,
            ..CountAnswer::default()
        },
    }
}

/// "By ordinal from 0 in book order, that trade's 20 bytes (an empty part past the
/// last)."
pub fn trade<'a>(bytes: &'a [u8], given: Given<'_>, id: u32, ordinal: u32) -> (u32, &'a [u8]) {
    match seen(bytes, given, id) {
        Ok((book, places)) => {
            let ordinal = usize::try_from(ordinal).unwrap_or(usize::MAX);
            let part = places.get(ordinal).map_or(&[][..], |place| {
                let at = length(book.version, book.users.len(), *place);
                &bytes[at..][..TRADE_LENGTH]
            });
            (ACCEPTED, part)
        }
        Err(number) => (number, &[]),
    }
}

/// The places of the trades that the user of this id may see, in book order.
fn seen(bytes: &[u8], given: Given<'_>, id: u32) -> Result<(Book, Vec<usize>), u32> {
    let (Opened { book, .. }, _) = questions_to_9(bytes, given, Act::Own(id), id)?;
    let places = 0..book.trades.len();
    let places = places.filter(|place| may_see_trade(&book, id, &book.trades[*place]));
    let places = places.collect();
    Ok((book, places))
}

/// "It may see its own record .. and for an area where it manages others their
/// records".
pub fn may_see_record(id: u32, user: &User) -> bool {
    user.id == id || user.managers.contains(&id)
}

/// "It may see its own .. trades, and for an area where it manages others .. their
/// trades in that area."
pub fn may_see_trade(book: &Book, id: u32, trade: &Trade) -> bool {
    [trade.seller, trade.buyer]
        .iter()
        .any(|party| *party == id || manages(book, id, *party, trade))
}

/// Whether the user of this id manages the party in the area of the trade.
fn manages(book: &Book, id: u32, party: u32, trade: &Trade) -> bool {
    let managed = |area: &Area| {
        let mut users = book.users.iter();
        trade.is_in(*area)
            && users.any(|user| user.id == party && user.managers[area.index()] == id)
    };
    Area::ALL.iter().any(managed)
}
