//! Books that crawl: sellers with many sales whose target is worth a few MWh,
//! so that a run takes many reductions of one seller or of several by turns.

use reference::book::{Book, Trade, User};
use reference::units::Mwh;

use crate::written::{covered, priced, sale, shipper, standing_at, MOST_CENTS};
use crate::Random;

/// The least level of a shipper, in cents.
const LEAST: i128 = 10_000_000;

/// The MWh that a seller is short by where its level is its assigned guarantee: so many
/// that the level is above the least at prices from 12 on.
const EDGE: i128 = 900_000;

/// A book of one to four sellers, their sales in drawn areas and of drawn MWh,
/// at drawn prices: some stay short of cover whatever is cut, others are short
/// of it only while a purchase of theirs has been cut by more than their sales.
/// Where the last seller alone stays short, the others come before it whenever a
/// purchase of theirs is cut, so that they take turns.
pub fn crawl(random: &mut Random) -> Book {
    let prices = prices(random);
    let sellers = 1 + u32::try_from(random.below(4)).unwrap_or(0);
    let by_turns = random.one_in(2);
    let buyers = sellers + if by_turns { 1 } else { 3 };
    let most = 256 / sellers as usize;
    let mut users: Vec<User> = (1..=sellers)
        .map(|id| {
            let at_edge = match by_turns {
                true => id < sellers,
                false => id > 1 && random.one_in(2),
            };
            seller(random, id, at_edge, prices)
        })
        .collect();
    users.extend((sellers + 1..=buyers).map(covered));
    let mut trades = Vec::new();
    for id in 1..=sellers {
        let count = 9 + random.below(random.clone().pick(&[8, 40, most - 8]));
        trades.extend(sales(random, id, buyers, count.min(most)));
    }
    if random.one_in(4) {
        let last = trades.len();
        for place in (1..last).rev() {
            trades.swap(place, random.below(place + 1));
        }
    }
    let mut book = priced(prices, users, trades);
    // Positions near 0 change the tiers in the course of a run; at the edge they
    // make a seller due that was not.
    for (place, id) in (0..).zip(1..=sellers) {
        if is_at_edge(&book.users[place]) {
            let position = book.users[place].position[0];
            book.users[place].physical[0] = Mwh(-EDGE) - position;
        } else if id % 2 == 0 {
            for area in 0..3 {
                let near = Mwh(random.between(-40, 40));
                let position = book.users[place].position[area];
                book.users[place].physical[area] = near - position;
            }
        }
    }
    priced(prices, book.users, book.trades)
}

/// P, Q, L, X and I: small ones, so that a target of cents is worth some MWh,
/// or usual ones.
fn prices(random: &mut Random) -> [i128; 5] {
    let most = random.pick(&[3, 50, 3_000]);
    [0; 5].map(|_: i128| random.between(1, most))
}

/// A seller one to some MWh's worth short of cover, or at the edge of it where prices
/// have one.
fn seller(random: &mut Random, id: u32, at_edge: bool, prices: [i128; 5]) -> User {
    let tariff = prices[random.below(2)];
    let most = random.pick(&[1, tariff, 3 * tariff, 40 * tariff]);
    let target = random.between(1, most);
    let level = EDGE * prices[0];
    if at_edge && level > LEAST {
        return shipper(id, [0; 3], 0, level - target + 1, 0);
    }
    shipper(id, [0; 3], -MOST_CENTS, LEAST - target, 0)
}

/// Its charges are 0, so that its level stands on its position.
fn is_at_edge(user: &User) -> bool {
    user.charges.0 == 0
}

/// Sales of a seller to the other users, the first of them standing one below
/// notified; most stand as high as others, a few higher.
fn sales(random: &mut Random, seller: u32, users: u32, count: usize) -> Vec<Trade> {
    let areas = random.pick(&[vec![0], vec![1], vec![0, 1], vec![0, 1, 2]]);
    let most = random.pick(&[2, 6, 25]);
    let level = random.between(1, most);
    let mut sales: Vec<Trade> = Vec::new();
    for _ in 0..count {
        let buyer = 1 + u32::try_from(random.below(users as usize)).unwrap_or(0);
        let buyer = if buyer == seller { users } else { buyer };
        let mwh = match random.below(4) {
            0 => random.between(1, most),
            1 => level + 1,
            _ => level,
        };
        sales.push(sale(seller, buyer, random.pick(&areas), mwh));
    }
    let first = sales[0].notified.0;
    sales[0] = standing_at(sales[0].clone(), first - 1);
    sales
}
