//! Books whose run takes long by the rules.
//!
//! A sale stands at 100,000 MWh at most, and a book has 256 trades: no run cuts
//! more than 25,600,000 MWh, and since a reduction cuts one MWh at least, none
//! takes more reductions.

use reference::book::{Book, Trade, User, MOST_TRADES, MOST_USERS};
use reference::units::Mwh;

use crate::written::{book, covered, sale, shipper, standing_at, MOST_CENTS, MOST_MWH};

/// The most reductions that the run of any book takes.
pub const MOST_REDUCTIONS: i128 = 256 * MOST_MWH;

/// Sales of each seller of [`one_seller`] and [`many_sellers`].
const SALES: i128 = 10;

/// One seller with ten sales of this many MWh in area 0, called in by one of
/// them. The level stands on charges and the position is never short, so that
/// the target stays one cent and each reduction cuts one MWh: 10 × `mwh` − 1
/// reductions.
pub fn one_seller(mwh: i128) -> Book {
    let (seller, sales) = crawling_seller(1, 2, SALES, mwh);
    book(vec![seller, covered(2)], sales)
}

/// 26 such sellers, the last of them with six sales, 256 in all: 256 × `mwh` −
/// 26 reductions, 25,599,974 for sales of 100,000 MWh.
pub fn many_sellers(mwh: i128) -> Book {
    let buyer = u32::MAX;
    let mut users = Vec::new();
    let mut trades = Vec::new();
    for id in 1..=26 {
        let count = if id == 26 { 6 } else { SALES };
        let (seller, sales) = crawling_seller(id, buyer, count, mwh);
        users.push(seller);
        trades.extend(sales);
    }
    users.push(covered(buyer));
    book(users, trades)
}

/// A seller one cent short of cover, whatever is cut, and its sales, the first
/// of which stands one below notified.
fn crawling_seller(id: u32, buyer: u32, count: i128, mwh: i128) -> (User, Vec<Trade>) {
    let physical = [count * mwh, 0, 0];
    let seller = shipper(id, physical, 20_000_000, 19_999_999, 0);
    let first = standing_at(sale(id, buyer, 0, mwh), mwh - 1);
    let others = (1..count).map(|_| sale(id, buyer, 0, mwh));
    (seller, std::iter::once(first).chain(others).collect())
}

/// A chain of 63 sellers, the first of them with eight sales and every other with
/// four: 256 × `mwh` reductions, for sales of 100,000 MWh the most that any book
/// takes.
pub fn chain(mwh: i128) -> Book {
    let mut counts = [4; MOST_USERS - 1];
    counts[MOST_USERS - 2] = 8;
    chained(&counts, mwh)
}

/// A chain of two sellers with 128 sales each, which take turns: 256 × `mwh`
/// reductions.
pub fn two_sellers(mwh: i128) -> Book {
    chained(&[MOST_TRADES / 2; 2], mwh)
}

/// A chain of sellers with these many sales, each selling to the one of the next
/// lower id, in which each cut makes the buyer the next to be reduced.
///
/// The seller of the highest id is flagged, its level is at the least and stays
/// one cent above its assigned guarantee: each of its reductions cuts one MWh.
/// Every other level equals the assigned guarantee until a purchase is cut by
/// one MWh, and does so again when a sale is.
fn chained(counts: &[usize], mwh: i128) -> Book {
    let ids: Vec<u32> = (2..).take(counts.len()).collect();
    let mut users = vec![covered(1)];
    users.extend(ids.iter().map(|id| at_edge(*id)));
    let mut trades = Vec::new();
    for (id, count) in ids.iter().zip(counts) {
        trades.extend((0..*count).map(|_| sale(*id, id - 1, 0, mwh)));
    }
    assert_eq!(trades.len(), MOST_TRADES);
    with_edges(users, trades)
}

/// A seller with 194 sales that crawls among 62 sellers with one sale each, to
/// whom it sells by turns: each of its cuts makes the buyer due, whose one sale
/// loses a whole share. 256 × `mwh` reductions.
pub fn crawler(mwh: i128) -> Book {
    let ids: Vec<u32> = (2..).take(MOST_USERS - 2).collect();
    let last = 64;
    let mut users = vec![covered(1)];
    users.extend(ids.iter().map(|id| at_edge(*id)));
    users.push(at_edge(last));
    let mut trades: Vec<Trade> = ids.iter().map(|id| sale(*id, 1, 0, mwh)).collect();
    let rest = MOST_TRADES - trades.len();
    trades.extend(
        ids.iter()
            .cycle()
            .take(rest)
            .map(|id| sale(last, *id, 0, mwh)),
    );
    with_edges(users, trades)
}

/// A seller with 128 sales in the areas 0 and 1, and one who sells to it in both
/// by turns: after a cut in area 0 the seller's position in area 1 is not
/// negative, after two in area 1 it is, so that its tiers change between its
/// reductions. Its sales in area 1 stand highest.
pub fn to_and_fro(mwh: i128) -> Book {
    let lower = (mwh - 3).max(1);
    let users = vec![covered(1), at_edge(2), at_edge(3)];
    let half = MOST_TRADES / 2;
    let own = [sale(2, 1, 0, lower), sale(2, 1, 1, mwh)];
    let bought = [sale(3, 2, 0, mwh), sale(3, 2, 1, mwh)];
    let mut trades: Vec<Trade> = own.into_iter().cycle().take(half).collect();
    trades.extend(bought.into_iter().cycle().take(half));
    let mut book = with_edges(users, trades);
    // The position in area 1 is 0 at first; the other's stays negative.
    book.users[1].physical[1] = Mwh(0) - book.users[1].position[1];
    book.users[2].physical[1] = Mwh(-1);
    crate::written::book(book.users, book.trades)
}

/// A seller whose level is its assigned guarantee at a position of −100,000 MWh.
fn at_edge(id: u32) -> User {
    shipper(id, [0; 3], 0, 200_000_000, 0)
}

/// The book of a covered buyer and sellers at the edge of their cover; the last
/// of them is flagged and one cent short of cover, whatever is cut.
fn with_edges(users: Vec<User>, trades: Vec<Trade>) -> Book {
    let mut edges = book(users, trades);
    let last = edges.users.len() - 1;
    // A position of −100,000 MWh comes to a level of 200,000,000 cents.
    for user in &mut edges.users[1..last] {
        user.physical[0] = Mwh(-100_000) - user.position[0];
    }
    // The last one is short by more than 30,000 MWh.
    let id = edges.users[last].id;
    edges.users[last] = shipper(id, [-30_001, 0, 0], -MOST_CENTS, 9_999_999, 0);
    book(edges.users, edges.trades)
}

/// One seller with 256 sales of this many MWh, flagged, the level at the least
/// and one cent above the assigned guarantee: 256 × `mwh` reductions, each of
/// which cuts one of the sales that stand highest.
pub fn widest(mwh: i128) -> Book {
    wide(|_| mwh)
}

/// The same with sales that rise by a 256th each up to this many MWh.
pub fn rising(mwh: i128) -> Book {
    wide(|place| (mwh * (place + 1) + 255) / 256)
}

/// One such seller, with the sale at each place of so many MWh.
fn wide(mwh: impl Fn(i128) -> i128) -> Book {
    let buyers = MOST_USERS - 1;
    let mut users = vec![shipper(1, [-30_001, 0, 0], -MOST_CENTS, 9_999_999, 0)];
    let ids: Vec<u32> = (2..).take(buyers).collect();
    users.extend(ids.iter().map(|id| covered(*id)));
    let places = (0..).zip(ids.iter().cycle()).take(MOST_TRADES);
    let trades = places.map(|(place, id)| sale(1, *id, 0, mwh(place)));
    book(users, trades.collect())
}
