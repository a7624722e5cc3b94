//! Random whole cancellations, and books for them: a seller with few or many
//! sales, of one size or of several, asked for what some of them are worth, or
//! nearly.

use reference::book::{Book, Trade, User, MOST_TRADES, TOMORROW};
use reference::cancellation::MOST_TRIES;
use reference::check;
use reference::levels::afternoon_level_of;
use reference::store::Limits;
use reference::units::{Cents, Mwh};

use crate::accepted::{header, ids, set_positions, small};
use crate::calls::Call;
use crate::generator::{Arguments, Generator};
use crate::random::Random;
use crate::runs::{ends_within, reducible, MOST_REDUCTIONS};
use crate::written::{MOST_CENTS, MOST_MWH};

impl Generator {
    /// A whole cancellation, mostly for the user whom a run would reduce next.
    pub fn cancellation(&mut self, book: &[u8], store: Option<&[u8]>) -> Call {
        let Arguments { id, .. } = self.arguments(book);
        let reducible = reducible(book, store).filter(|_| !self.random().one_in(6));
        Call::Cancellation {
            id: reducible.unwrap_or(id),
            tries: tries(self.random()),
        }
    }
}

/// A book whose first user has sales to cancel. The run of it is kept short.
pub fn whole(random: &mut Random) -> Book {
    for _ in 0..20 {
        let book = seller(random);
        if check(&book.to_bytes()) == 0 && ends_within(&Limits::TODAY, &book, MOST_REDUCTIONS) {
            return book;
        }
    }
    small(random)
}

/// A seller and its trades, some of which are not eligible, and a target.
fn seller(random: &mut Random) -> Book {
    let mut book = header(random);
    let buyers = 1 + random.below(4);
    for id in ids(random, buyers + 1) {
        book.users.push(User {
            id,
            ..User::default()
        });
    }
    let count = match random.below(10) {
        0..=3 => 1 + random.below(4),
        4..=6 => 5 + random.below(8),
        7 | 8 => 13 + random.below(20),
        _ => 1 + random.below(MOST_TRADES),
    };
    let sizes = sizes(random);
    let others = random.one_in(2);
    while book.trades.len() < count {
        let trade = sale(random, &book, &sizes);
        book.trades.push(if others && random.one_in(3) {
            not_eligible(random, trade)
        } else {
            trade
        });
    }
    for area in 0..3 {
        let entry = random.pick(&[0, 0, -1_000, 300, 1_000_000]);
        book.users[0].physical[area] = Mwh(entry);
    }
    if !random.one_in(4) {
        call_in(&mut book);
    }
    set_positions(&mut book);
    ask_for(random, &mut book);
    book
}

/// What the sales stand at: one size, two, those of binary numbers, or any.
fn sizes(random: &mut Random) -> Vec<i128> {
    let any = |random: &mut Random| random.between(1, MOST_MWH);
    match random.below(6) {
        0 => vec![any(random)],
        1 => vec![1, 2],
        2 => vec![any(random), any(random)],
        3 => (0..16).map(|bit| 1 << bit).collect(),
        4 => vec![MOST_MWH, MOST_MWH - 1],
        _ => (0..40).map(|_| any(random)).collect(),
    }
}

fn sale(random: &mut Random, book: &Book, sizes: &[i128]) -> Trade {
    let size = Mwh(random.pick(sizes));
    let buyer = 1 + random.below(book.users.len() - 1);
    Trade {
        seller: book.users[0].id,
        buyer: book.users[buyer].id,
        area: random.pick(&[0, 0, 1, 2]),
        notified: size,
        standing: size,
        ..Trade::default()
    }
}

/// The trade as one that cannot be cut: for the next day, of another kind, by
/// the other party, or standing at 0.
fn not_eligible(random: &mut Random, trade: Trade) -> Trade {
    match random.below(4) {
        0 => Trade {
            day: TOMORROW,
            ..trade
        },
        1 => Trade {
            kind: random.pick(&[1, 2]),
            ..trade
        },
        2 => Trade {
            seller: trade.buyer,
            buyer: trade.seller,
            ..trade
        },
        _ => Trade {
            standing: Mwh::ZERO,
            ..trade
        },
    }
}

/// Makes the first sale stand one MWh below notified, so that its parties are
/// called in.
pub(crate) fn call_in(book: &mut Book) {
    let mut sales = book.trades.iter_mut();
    if let Some(sale) = sales.find(|trade| trade.is_bilateral_today()) {
        sale.standing = sale.notified;
        if sale.notified.0 < MOST_MWH {
            sale.notified = sale.notified + Mwh(1);
        } else {
            sale.standing = sale.standing - Mwh(1);
        }
    }
}

/// Charges and guarantees of the seller such that T is what some of its eligible
/// trades are worth, often all but some of the last ones; or next to that.
fn ask_for(random: &mut Random, book: &mut Book) {
    let worths = worths(book);
    let all: i128 = worths.iter().sum();
    let last = random.pick(&[1, 3, 6, 10, 16, MOST_TRADES]);
    let left_out: i128 = worths
        .iter()
        .rev()
        .take(last)
        .filter(|_| random.one_in(2))
        .sum();
    let target = match random.below(8) {
        0 => all + random.between(-1, 1),
        1 => random.between(1, all + 2),
        2 => random.pick(&[1, 2, 1_000]),
        3 => all - left_out + random.pick(&[-1, 1]),
        _ => all - left_out,
    };
    let level = |book: &Book| afternoon_level_of(&Limits::TODAY, book, &book.users[0]).0;
    let lacking = target - level(book) + random.pick(&[0, 1, 5_000_000]);
    book.users[0].charges = Cents(lacking.clamp(0, MOST_CENTS));
    book.users[0].assigned = Cents((level(book) - target).clamp(0, MOST_CENTS));
}

/// What the eligible trades of the first user are worth.
fn worths(book: &Book) -> Vec<i128> {
    let own = |trade: &&Trade| trade.seller == book.users[0].id && trade.is_bilateral_today();
    let sales = book.trades.iter().filter(own);
    let sales = sales.filter(|trade| trade.standing > Mwh::ZERO);
    sales
        .map(|trade| (trade.standing * trade.tariff(&book.prices)).0)
        .collect()
}

/// A number of tries: mostly few, some next to the numbers of sets of few trades,
/// the most, and such as question 25 refuses.
pub fn tries(random: &mut Random) -> u32 {
    let sets = 1_u32 << random.below(11);
    let few = 1 + u32::from(random.byte());
    match random.below(20) {
        0 => random.pick(&[
            0,
            MOST_TRIES + 1,
            MOST_TRIES + 2,
            1 << 17,
            1 << 31,
            u32::MAX,
        ]),
        1 => random.pick(&[MOST_TRIES, MOST_TRIES - 1]),
        2..=4 => 1 + random.word() % 3,
        5..=8 => sets,
        9 => sets + 1,
        10 => (sets - 1).max(1),
        11 => 1 + random.word() % 4_000,
        _ => few,
    }
}
