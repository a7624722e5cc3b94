//! A book as three CSV files that a spreadsheet opens: `header.csv`,
//! `users.csv` and `trades.csv`, each with the names of its columns first.
//!
//! Reading takes what spreadsheets write back: columns and ids in any order, other
//! columns, which are skipped, fields in quotes, semicolons or tabs for commas,
//! amounts as `convention.rs` has them, lines that end in either way, euros whose
//! last zeros were dropped, empty fields for 0.

mod convention;
mod table;

use daybook::{Book, Line, Trade, User};

pub use self::convention::Dates;
use self::table::{read_file, Found, Row, Table};
use crate::draft::{Draft, Mistake, Spot, Spots};
use crate::fields::{
    has_managers, has_selling_tariffs, prices, put_price, Field, COMMON_PRICES, PRICES,
};
use crate::text::{no_manager, no_selling_tariff};
use crate::words::{date, plain_euros, word, AREAS, DAYS, KINDS, ROLES};

/// The files, in the order of a book.
pub const FILES: [&str; 3] = ["header.csv", "users.csv", "trades.csv"];

/// The names of the header; a book of version 1 has no selling tariffs, S and U.
const HEADER: [&str; 9] = ["version", "date", "P", "Q", "L", "X", "I", "S", "U"];
const PRICES_AT: usize = 2;

/// The names of a user; a book of version 1 or 2 has no managers. The name of a user
/// is for those who read it: no book has a place for it, and none is written.
const USER: [&str; 15] = [
    "id",
    "role",
    "physical_PVB",
    "physical_TVB",
    "physical_AVB",
    "position_PVB",
    "position_TVB",
    "position_AVB",
    "charges",
    "assigned",
    "blocked",
    "manager_PVB",
    "manager_TVB",
    "manager_AVB",
    "name",
];
const PHYSICAL_AT: usize = 2;
const POSITIONS_AT: usize = 5;
const MONEY_AT: usize = 8;
const MANAGERS_AT: usize = 11;
const NAME_AT: usize = 14;

/// How many characters of a name are shown.
const LONGEST_NAME: usize = 40;

const TRADE: [&str; 7] = [
    "seller", "buyer", "area", "kind", "day", "notified", "standing",
];

/// How files are written.
#[derive(Clone, Copy, Debug, Default, PartialEq, Eq)]
pub enum Style {
    /// Commas between the columns, a decimal point.
    #[default]
    Commas,
    /// Semicolons, a decimal comma, and a byte order mark, as spreadsheets in Spanish
    /// or German take them.
    Semicolons,
}

impl Style {
    fn separator(self) -> &'static str {
        match self {
            Style::Commas => ",",
            Style::Semicolons => ";",
        }
    }

    fn euros(self, cents: impl Into<i128>) -> String {
        let euros = plain_euros(cents);
        match self {
            Style::Commas => euros,
            Style::Semicolons => euros.replace('.', ","),
        }
    }

    fn file(self, names: &[&str], rows: impl IntoIterator<Item = Vec<String>>) -> String {
        let mark = match self {
            Style::Commas => "",
            Style::Semicolons => "\u{feff}",
        };
        let mut text = format!("{mark}{}\n", names.join(self.separator()));
        for row in rows {
            text.push_str(&row.join(self.separator()));
            text.push('\n');
        }
        text
    }
}

/// The three files of an accepted book.
pub fn write(book: &Book) -> [String; 3] {
    write_in(book, Style::default())
}

/// The same in a style.
pub fn write_in(book: &Book, style: Style) -> [String; 3] {
    let mut header = vec![book.version.to_string(), date(book.date)];
    header.extend(prices(book).into_iter().map(|price| style.euros(price)));
    let width = match has_managers(book.version) {
        Some(false) => MANAGERS_AT,
        _ => NAME_AT,
    };
    let user = |user: &User| user_row(user, style)[..width].to_vec();
    [
        style.file(&HEADER[..header.len()], [header]),
        style.file(&USER[..width], book.users.iter().map(user)),
        style.file(&TRADE, book.trades.iter().map(trade_row)),
    ]
}

fn user_row(user: &User, style: Style) -> Vec<String> {
    let mut row = vec![user.id.to_string(), word(&ROLES, user.role)];
    row.extend(user.physical.iter().map(i32::to_string));
    row.extend(user.position.iter().map(i32::to_string));
    row.push(style.euros(user.charges));
    row.push(style.euros(user.assigned));
    row.push(style.euros(user.blocked));
    row.extend(user.managers.map(|id| match id {
        0 => String::new(),
        id => id.to_string(),
    }));
    row
}

fn trade_row(trade: &Trade) -> Vec<String> {
    vec![
        trade.seller.to_string(),
        trade.buyer.to_string(),
        word(&AREAS, trade.area),
        word(&KINDS, trade.kind),
        word(&DAYS, trade.day),
        trade.notified.to_string(),
        trade.standing.to_string(),
    ]
}

/// The fields of the three files, or their mistakes. Users come in the order of their
/// ids, whatever that of their rows is.
pub fn read(files: [&[u8]; 3]) -> Result<Draft, Vec<Mistake>> {
    read_dated(files, Dates::default())
}

/// The same with dates as they are said to be.
pub fn read_dated(files: [&[u8]; 3], dates: Dates) -> Result<Draft, Vec<Mistake>> {
    let mut draft = Draft::default();
    let mut found = Found::default();
    let optional = [
        &HEADER[PRICES_AT + COMMON_PRICES..],
        &[&USER[POSITIONS_AT..MONEY_AT], &USER[MANAGERS_AT..]].concat(),
        &TRADE[6..],
    ];
    let table = |place: usize| Table {
        file: FILES[place],
        bytes: files[place],
        names: [&HEADER[..], &USER, &TRADE][place],
        optional: optional[place],
        dates,
    };
    read_file(&table(0), &mut found, |row| {
        if draft.has(Field::Version) {
            return row.mistake(0, "a second row; a book has one header".to_string());
        }
        read_header(&mut draft, row);
    });
    if found.mistakes.is_empty() && !draft.has(Field::Version) {
        found.mistakes.push(Mistake {
            spot: Spot {
                file: FILES[0],
                line: 2,
                column: 1,
            },
            reason: "the row of the header is missing".to_string(),
        });
    }
    read_file(&table(1), &mut found, |row| {
        let (user, spots) = read_user(row, draft.book.version);
        if !row.is_empty(NAME_AT) {
            draft.names.push((user.id, shown_name(row.text(NAME_AT))));
        }
        draft.add_user(user, spots);
    });
    draft.sort_users();
    read_file(&table(2), &mut found, |row| {
        let (trade, spots) = read_trade(row);
        draft.add_trade(trade, spots);
    });
    draft.notes = found.skipped;
    match found.mistakes.is_empty() {
        true => Ok(draft),
        false => Err(found.mistakes),
    }
}

/// A name as it is shown: nothing in it that a terminal obeys, and not too long.
fn shown_name(name: &str) -> String {
    let plain = |it: char| if it.is_control() { '\u{fffd}' } else { it };
    name.chars().take(LONGEST_NAME).map(plain).collect()
}

fn read_header(draft: &mut Draft, row: &Row) {
    draft.book.version = row.whole(0);
    draft.book.date = row.date(1);
    draft.note(Field::Version, row.spot(0));
    draft.note(Field::Date, row.spot(1));
    let version = draft.book.version;
    for (place, name) in PRICES.iter().enumerate() {
        let column = PRICES_AT + place;
        let is_given = !row.is_empty(column);
        if place >= COMMON_PRICES {
            match has_selling_tariffs(version) {
                Some(false) if is_given => {
                    row.mistake(column, no_selling_tariff(name, version));
                    continue;
                }
                Some(true) if !is_given => {
                    let reason = format!("{name} is missing, which version {version} has");
                    row.mistake(column, reason);
                    continue;
                }
                _ if !is_given => continue,
                _ => {}
            }
        }
        put_price(&mut draft.book, place, row.money(column));
        draft.note(Field::Price(place), row.spot(column));
    }
}

fn read_user(row: &Row, version: u16) -> (User, Spots) {
    let mut user = User {
        id: row.whole(0),
        role: row.code(1, &ROLES),
        charges: row.money(MONEY_AT),
        assigned: row.money(MONEY_AT + 1),
        blocked: row.money(MONEY_AT + 2),
        ..User::default()
    };
    let mut spots: Spots = [Field::Id, Field::Role]
        .into_iter()
        .zip([row.spot(0), row.spot(1)])
        .collect();
    for area in 0..3 {
        let (physical, position) = (PHYSICAL_AT + area, POSITIONS_AT + area);
        user.physical[area] = row.whole_or_0(physical);
        spots.push((Field::Physical(area), row.spot(physical)));
        if !row.is_empty(position) {
            user.position[area] = row.whole(position);
            spots.push((Field::Position(area), row.spot(position)));
        }
    }
    spots.push((Field::Charges, row.spot(MONEY_AT)));
    spots.push((Field::Assigned, row.spot(MONEY_AT + 1)));
    spots.push((Field::Blocked, row.spot(MONEY_AT + 2)));
    for area in 0..3 {
        let column = MANAGERS_AT + area;
        if row.is_empty(column) {
            continue;
        }
        if has_managers(version) == Some(false) {
            row.mistake(column, no_manager(USER[column], version));
            continue;
        }
        user.managers[area] = row.whole(column);
        spots.push((Field::Manager(area), row.spot(column)));
    }
    (user, spots)
}

fn read_trade(row: &Row) -> (Trade, Spots) {
    let notified = row.whole(5);
    let trade = Trade {
        seller: row.whole(0),
        buyer: row.whole(1),
        area: row.code(2, &AREAS),
        kind: row.code(3, &KINDS),
        day: row.code(4, &DAYS),
        notified,
        standing: if row.is_empty(6) {
            notified
        } else {
            row.whole(6)
        },
    };
    let fields = [
        Field::Seller,
        Field::Buyer,
        Field::Area,
        Field::Kind,
        Field::Day,
        Field::Notified,
        Field::Standing,
    ];
    let spots = fields.into_iter().enumerate();
    let spots = spots.map(|(place, field)| (field, row.spot(place)));
    (trade, spots.collect())
}

/// The columns of a file of corrections.
const CORRECTION: [&str; 3] = ["id", "area", "MWh"];

/// The corrections of a file, each with its line, and the columns that are skipped.
pub type Corrections = (Vec<(usize, Line)>, Vec<Mistake>);

/// The corrections of a CSV file; an area is written by its name or its number.
pub fn read_corrections(bytes: &[u8]) -> Result<Corrections, Vec<Mistake>> {
    let (mut lines, mut found) = (Vec::new(), Found::default());
    let table = Table {
        file: "",
        bytes,
        names: &CORRECTION,
        optional: &[],
        dates: Dates::default(),
    };
    read_file(&table, &mut found, |row| {
        let line = Line {
            id: row.whole(0),
            area: row.code_or_number(1, &AREAS),
            amount: row.whole(2),
        };
        lines.push((row.spot(0).line, line));
    });
    match found.mistakes.is_empty() {
        true => Ok((lines, found.skipped)),
        false => Err(found.mistakes),
    }
}
