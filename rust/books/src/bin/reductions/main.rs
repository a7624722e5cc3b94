//! Writes the reductions that the program `try_calls` of the engine makes, and
//! prints by the reference what it has to print for them. The folder for the
//! files `reductions` and `reductions.index` is the argument.
//!
//! A call is its id (4 bytes), the length of its book (2), and the book; where
//! the length is 0, it is made on the book that the call before it left.

mod credits;
mod extremes;
mod groups;
mod refusals;
mod tiers;

use books::accepted::{largest, shares};
use books::written::{
    asked_for, book, covered, for_tomorrow, house, of_kind, sale, shipper, standing_at,
};
use books::Random;
use reference::book::{Book, Trade};
use reference::party::Given;
use reference::questions::questions_1_to_7;
use reference::reduction::{sales, target, tier_worth, tiers};
use reference::run::next_reduction;
use reference::store::Limits;
use std::fmt::Write;

use credits::credits;
use extremes::extremes;
use groups::groups;
use refusals::refusals;
use tiers::{chains, one_tier, two_tiers};

/// A reduction of the user of an id, what it shows, and the number that it
/// has to give; without a book, on the book that the call before it left.
#[derive(Clone)]
struct Reduction {
    shows: &'static str,
    id: u32,
    number: u32,
    book: Option<Vec<u8>>,
}

fn on(shows: &'static str, number: u32, id: u32, book: Book) -> Reduction {
    Reduction {
        shows,
        id,
        number,
        book: Some(book.to_bytes()),
    }
}

fn again(shows: &'static str, number: u32, id: u32) -> Reduction {
    Reduction {
        shows,
        id,
        number,
        book: None,
    }
}

/// User 1 with these physical entries and these sales to users 2 and 3, the
/// first of which was cut before by 1 MWh, asked for a target.
fn sales_book(physical: [i128; 3], trades: Vec<Trade>, target: i128) -> Book {
    let mut trades = trades;
    trades[0].notified.0 += 1;
    let seller = shipper(1, physical, 20_000_000, 0, 0);
    asked_for(
        target,
        book(vec![seller, covered(2), covered(3), house(4)], trades),
    )
}

/// Sales of a platform, of the central counterparty and for the next day, one
/// that stands at 0, a purchase, and two that may be cut.
fn not_eligible() -> Vec<Trade> {
    vec![
        sale(1, 2, 0, 5),
        of_kind(sale(1, 2, 0, 50), 1),
        of_kind(sale(1, 3, 0, 60), 2),
        for_tomorrow(sale(1, 2, 0, 70)),
        standing_at(sale(1, 3, 0, 80), 0),
        sale(2, 1, 0, 90),
        sale(1, 3, 0, 7),
    ]
}

fn drawn() -> Vec<Reduction> {
    let mut random = Random::new(7);
    let mut calls = Vec::new();
    for (draw, most) in [(shares as fn(&mut Random) -> Book, 6), (largest, 8)] {
        let mut found = 0;
        while found < 2 {
            let mut b = draw(&mut random);
            if next_reduction(&Limits::TODAY, &b).is_none() || b.trades.len() < 100 {
                continue;
            }
            found += 1;
            for turn in 0..most {
                let Some(place) = next_reduction(&Limits::TODAY, &b) else {
                    break;
                };
                let id = b.users[place].id;
                calls.push(if turn == 0 {
                    on("a drawn book", 0, id, b.clone())
                } else {
                    again("the same book, the next user of its run", 0, id)
                });
                let mut bytes = b.to_bytes();
                reference::reduction(&mut bytes, Given::OPERATOR, None, id);
                b = questions_1_to_7(&bytes).expect("an accepted book");
            }
        }
    }
    calls
}

/// What the index says beside what a call shows: its target, and the worth of
/// each tier with the number of its trades.
fn tiers_of(bytes: &[u8], id: u32) -> String {
    let book = questions_1_to_7(bytes).expect("an accepted book");
    let user = &book.users[book.place_of(id).expect("a user of the book")];
    let (one, two) = tiers(&book, user);
    format!(
        "T {}; tier one V {} ({}), tier two V {} ({})",
        target(&Limits::TODAY, &book, user).0,
        tier_worth(&sales(&book, &one)).0,
        one.len(),
        tier_worth(&sales(&book, &two)).0,
        two.len()
    )
}

/// The trades and users of a book, as the program prints them.
fn printed(bytes: &[u8]) -> String {
    let book = questions_1_to_7(bytes).unwrap_or_default();
    let mut text = String::from("standing");
    for trade in &book.trades {
        let _ = write!(text, " {}", trade.standing.0);
    }
    text.push('\n');
    for user in &book.users {
        let [pvb, tvb, avb] = user.position;
        let _ = writeln!(text, "{} {} {} {}", user.id, pvb.0, tvb.0, avb.0);
    }
    text
}

fn main() -> std::io::Result<()> {
    let folder = std::env::args().nth(1).expect("a folder");
    let (mut file, mut index, mut bytes) = (Vec::new(), String::new(), Vec::new());
    let calls = [
        chains(),
        one_tier(),
        two_tiers(),
        refusals(),
        extremes(),
        credits(),
        groups(),
        drawn(),
    ]
    .concat();
    for (place, call) in calls.iter().enumerate() {
        file.extend_from_slice(&call.id.to_le_bytes());
        let own = call.book.clone().unwrap_or_default();
        file.extend_from_slice(
            &u16::try_from(own.len())
                .expect("a book's length")
                .to_le_bytes(),
        );
        file.extend_from_slice(&own);
        if call.book.is_some() {
            bytes = own;
        }
        let before = bytes.clone();
        let answer = reference::reduction(&mut bytes, Given::OPERATOR, None, call.id);
        assert_eq!(answer.number, call.number, "{place} {}", call.shows);
        let more = match answer.number {
            0 => tiers_of(&before, call.id),
            number => format!("refused by {number}"),
        };
        let _ = writeln!(index, "{place} {}: {more}", call.shows);
        println!(
            "{place} {} {} {} {} {} {}",
            answer.number, answer.mwh, answer.worth, answer.target, answer.short, answer.over
        );
        print!("{}", printed(&bytes));
    }
    assert!(file.len() <= 65_536, "more than the program reads");
    std::fs::write(format!("{folder}/reductions"), file)?;
    std::fs::write(format!("{folder}/reductions.index"), index)
}
