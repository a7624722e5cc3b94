//! Why a user is reduced in a run: by itself, being short of cover when the run
//! begins, or because an earlier reduction cut what it had bought, or what those had
//! bought whose risk it bears. Where its reduction leaves it short, the next comes of
//! the same.

use daybook::{header_length, user_length, Book, Operator, TRADE_LENGTH};

use crate::groups::bearers;

/// The cut that made a user short of cover: the reduction, from 1, and the place of the
/// trade, from 0.
#[derive(Clone, Copy, Debug, PartialEq, Eq)]
pub struct Cause {
    pub reduction: u64,
    pub trade: usize,
}

/// The causes of a run's reductions, told one after another.
pub struct Causes {
    ids: Vec<u32>,
    /// Where the standing MWh of each trade are in the bytes, and the place of the user
    /// who bears what its buyer loses.
    purchases: Vec<(usize, Option<usize>)>,
    /// For each user whether it waits for its first reduction, short of cover from the
    /// beginning.
    by_itself: Vec<bool>,
    /// For each user the last cut of a purchase since it was reduced.
    since: Vec<Option<Cause>>,
    /// For each user what its last reduction came of.
    last: Vec<Option<Cause>>,
    /// How many reductions were told that had no cause, and how many that had one.
    pub counts: (u64, u64),
}

impl Causes {
    pub fn new(operator: &Operator, bytes: &[u8], book: &Book) -> Causes {
        let ids: Vec<u32> = book.users.iter().map(|user| user.id).collect();
        let trades = header_length(book.version) + user_length(book.version) * ids.len();
        let purchase = |(place, trade): (usize, &daybook::Trade)| {
            let (_, buyer) = bearers(book, trade);
            let standing = trades + TRADE_LENGTH * place + TRADE_LENGTH - 4;
            (standing, ids.iter().position(|id| *id == buyer))
        };
        let is_short = |id: &u32| {
            let mut copy = bytes.to_vec();
            operator.without_log().reduction(&mut copy, *id).is_ok()
        };
        Causes {
            purchases: book.trades.iter().enumerate().map(purchase).collect(),
            by_itself: ids.iter().map(is_short).collect(),
            since: vec![None; ids.len()],
            last: vec![None; ids.len()],
            counts: (0, 0),
            ids,
        }
    }

    /// The cause of the next reduction, which is of this user and leaves these bytes of
    /// those before it; its number counts from 1.
    pub fn tell(&mut self, number: u64, id: u32, before: &[u8], after: &[u8]) -> Option<Cause> {
        let place = self.ids.iter().position(|it| *it == id)?;
        let since = self.since[place].take();
        let cause = match std::mem::take(&mut self.by_itself[place]) {
            true => None,
            false => since.or(self.last[place]),
        };
        self.last[place] = cause;
        match cause {
            None => self.counts.0 += 1,
            Some(_) => self.counts.1 += 1,
        }
        for (trade, (standing, buyer)) in self.purchases.iter().enumerate() {
            let field = *standing..standing + 4;
            if let (true, Some(buyer)) = (before.get(field.clone()) != after.get(field), buyer) {
                self.since[*buyer] = Some(Cause {
                    reduction: number,
                    trade,
                });
            }
        }
        cause
    }
}
