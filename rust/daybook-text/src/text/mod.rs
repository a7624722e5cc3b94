//! The text form of a book: a line for each user and each trade.
//!
//! ```text
//! daybook 1
//! date 2026-03-18
//! prices P 20.00 Q 21.00 L 3.00 X 1.00 I 0.50
//! user 101 shipper physical PVB -10,000 assigned 500,000.00 blocked 100,000.00
//! user 102 shipper assigned 100,000.00 blocked 100,000.00
//! trade 101 to 102 PVB bilateral d 30,000 standing 15,000   # a comment
//! ```
//!
//! A text of version 2 starts with `daybook 2`, and its prices go on with the
//! selling tariffs: `S 18.00 U 19.00`. One of version 3 starts with `daybook 3`, has
//! them too, and names managers: `user 102 shipper manager PVB 101 AVB 104`.

mod line;
mod manager;
mod read;

use daybook::{Book, Trade, User};

use crate::fields::{prices, PRICES};
use crate::words::{date, euros, grouped, word, AREAS, DAYS, KINDS, ROLES};

pub use line::{mistake, short, Words};
pub use manager::{no_manager, read_manager, NONE};
pub use read::{no_selling_tariff, read};

/// The word that a text starts with.
const FIRST: &str = "daybook";

/// Whether bytes are meant as the text form: the first word that is no comment
/// says so. No book in bytes starts with it.
pub fn is_text(bytes: &[u8]) -> bool {
    starts_with_word(bytes, FIRST)
}

/// Whether the first word of a text that is no comment is this one.
pub fn starts_with_word(bytes: &[u8], word: &str) -> bool {
    let bytes = bytes.strip_prefix(b"\xef\xbb\xbf").unwrap_or(bytes);
    let lines = bytes.split(|byte| *byte == b'\n').map(<[u8]>::trim_ascii);
    let mut lines = lines.filter(|line| !line.is_empty() && !line.starts_with(b"#"));
    let rest = lines
        .next()
        .and_then(|line| line.strip_prefix(word.as_bytes()));
    rest.is_some_and(|rest| rest.first().is_none_or(u8::is_ascii_whitespace))
}

/// The text of an accepted book; with the positions, or without.
pub fn write(book: &Book, positions: bool) -> String {
    let priced = PRICES.iter().zip(prices(book));
    let priced: Vec<String> = priced
        .map(|(name, price)| format!("{name} {}", euros(price)))
        .collect();
    let mut text = format!("{FIRST} {}\n", book.version);
    text.push_str(&format!("date {}\n", date(book.date)));
    text.push_str(&format!("prices {}\n", priced.join(" ")));
    let users = book.users.iter().map(|user| user_cells(user, positions));
    let trades = book.trades.iter().map(trade_cells);
    for rows in [users.collect::<Vec<Cells>>(), trades.collect()] {
        if !rows.is_empty() {
            text.push('\n');
            text.push_str(&aligned(&rows));
        }
    }
    text
}

/// The cells of a line; amounts, which stand at the right of their column, are
/// told from words by their first character.
pub type Cells = Vec<String>;

fn user_cells(user: &User, positions: bool) -> Cells {
    let charges = match user.charges {
        0 => String::new(),
        charges => format!("charges {}", euros(charges)),
    };
    let position = match positions {
        true => areas("position", user.position, true),
        false => String::new(),
    };
    vec![
        "user".to_string(),
        user.id.to_string(),
        word(&ROLES, user.role),
        areas("physical", user.physical, false),
        position,
        charges,
        "assigned".to_string(),
        euros(user.assigned),
        "blocked".to_string(),
        euros(user.blocked),
        managers(user),
    ]
}

/// The managers of a user, by area; those areas where it has none are left out.
fn managers(user: &User) -> String {
    let managed = AREAS.iter().zip(user.managers).filter(|(_, id)| *id != 0);
    let words: Vec<String> = managed.map(|(area, id)| format!("{area} {id}")).collect();
    match words.is_empty() {
        true => String::new(),
        false => format!("manager {}", words.join(" ")),
    }
}

/// A user's line by itself, with the positions.
pub fn user_line(user: &User) -> String {
    aligned(&[user_cells(user, true)]).trim_end().to_string()
}

/// Amounts by area; those of 0 are left out unless all are wanted.
fn areas(name: &str, amounts: [i32; 3], all: bool) -> String {
    let amounts = AREAS.iter().zip(amounts);
    let wanted = amounts.filter(|(_, amount)| all || *amount != 0);
    let words: Vec<String> = wanted
        .map(|(area, amount)| format!("{area} {}", grouped(amount)))
        .collect();
    match words.is_empty() {
        true => String::new(),
        false => format!("{name} {}", words.join(" ")),
    }
}

/// The words of a trade's line.
pub fn trade_cells(trade: &Trade) -> Cells {
    let standing = match trade.standing == trade.notified {
        true => String::new(),
        false => format!("standing {}", grouped(trade.standing)),
    };
    vec![
        "trade".to_string(),
        trade.seller.to_string(),
        "to".to_string(),
        trade.buyer.to_string(),
        word(&AREAS, trade.area),
        word(&KINDS, trade.kind),
        word(&DAYS, trade.day),
        grouped(trade.notified),
        standing,
    ]
}

/// The rows as lines, each column as wide as its widest cell, one that is empty
/// in every row left out.
pub fn aligned(rows: &[Cells]) -> String {
    let columns = rows.iter().map(Vec::len).max().unwrap_or(0);
    let width = |column: usize| {
        let cells = rows.iter().filter_map(|row| row.get(column));
        cells.map(|cell| cell.chars().count()).max().unwrap_or(0)
    };
    let widths: Vec<usize> = (0..columns).map(width).collect();
    let mut text = String::new();
    for row in rows {
        let mut line = String::new();
        for (cell, width) in row.iter().zip(&widths).filter(|(_, width)| **width > 0) {
            let space = if line.is_empty() { "" } else { " " };
            let amount = cell.starts_with(|it: char| it.is_ascii_digit() || it == '-');
            let blanks = " ".repeat(width - cell.chars().count());
            line.push_str(&match amount {
                true => format!("{space}{blanks}{cell}"),
                false => format!("{space}{cell}{blanks}"),
            });
        }
        text.push_str(line.trim_end());
        text.push('\n');
    }
    text
}
