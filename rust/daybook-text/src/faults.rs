//! Where a book fails a question, and why, in words.
//!
//! The number is the engine's. What is said here is the place that goes with
//! it: the fields that fail the question of that number. The tests hold it to
//! the engine: a book has such a field exactly for the number it is refused
//! with, and none for a number before it.

use std::fmt::{self, Display, Formatter};

use daybook::{
    header_length, user_length, Book, Trade, User, MOST_TRADES, MOST_USERS, TRADE_LENGTH,
};

use crate::fields::{
    date_fault, fields, has_selling_tariffs, prices, two, Field, Place, FIRST_LINES, FORM_MARK,
    MARK, PRICES, SHORT_HEADER, VERSIONS,
};
use crate::groups::manager_faults;
use crate::words::{counted, euros, grouped, AREAS};
use crate::zero_bytes::zero_bytes;

const MOST_MONEY: u64 = 1_000_000_000_000;
const MOST_ENTRY: u32 = 1_000_000;
const MOST_PRICE: u32 = 100_000;
const MOST_NOTIFIED: u32 = 100_000;

/// A field that fails a question, and why.
#[derive(Clone, Debug, PartialEq, Eq)]
pub struct Fault {
    pub place: Place,
    pub field: Field,
    /// The id of the user, or the parties of the trade: what a reader knows the
    /// record by. Empty for the header.
    pub known_by: String,
    pub reason: String,
}

impl Display for Fault {
    fn fmt(&self, formatter: &mut Formatter<'_>) -> fmt::Result {
        let Fault {
            known_by, reason, ..
        } = self;
        match self.place {
            Place::Header => write!(formatter, "header: {reason}"),
            Place::User(place) => write!(formatter, "user {}, {known_by}: {reason}", place + 1),
            Place::Trade(place) => write!(formatter, "trade {}, {known_by}: {reason}", place + 1),
        }
    }
}

/// The fields of these bytes that fail the question of a number from 1 to 7, in
/// the order of the book; those of question 7 where 3 to 6 are passed, and so
/// on. None for any other number.
pub fn faults(bytes: &[u8], number: u32) -> Vec<Fault> {
    match number {
        1 => mark(bytes),
        2 => version(bytes),
        3 => counts_and_length(bytes),
        4..=7 if !counts_and_length(bytes).is_empty() => Vec::new(),
        4..=7 => match fields(bytes) {
            Some(book) => of_fields(&book, &zero_bytes(bytes, &book), number),
            None => Vec::new(),
        },
        _ => Vec::new(),
    }
}

/// The same for the fields of a book that is not in bytes yet, whose mark and
/// zero bytes are as they have to be.
pub fn faults_of(book: &Book, number: u32) -> Vec<Fault> {
    match number {
        2 => version_of(book.version),
        3 => counts(book.users.len(), book.trades.len()),
        _ => of_fields(book, &[], number),
    }
}

fn of_fields(book: &Book, zero_bytes: &[Fault], number: u32) -> Vec<Fault> {
    let mut faults = match number {
        4 => date_and_prices(book),
        5 => users(book),
        6 => trades(book),
        7 => positions(book),
        _ => Vec::new(),
    };
    let users = |fault: &&Fault| matches!(fault.place, Place::User(_)) == (number == 5);
    if number == 5 || number == 6 {
        faults.extend(zero_bytes.iter().filter(users).cloned());
        faults.sort_by_key(|fault| fault.place);
    }
    faults
}

fn header(field: Field, reason: String) -> Fault {
    Fault {
        place: Place::Header,
        field,
        known_by: String::new(),
        reason,
    }
}

/// Question 1.
fn mark(bytes: &[u8]) -> Vec<Fault> {
    let mut faults = Vec::new();
    if bytes.len() < SHORT_HEADER {
        let length = counted(bytes.len(), "byte");
        let reason = format!("{length}, a header has at least {SHORT_HEADER}");
        faults.push(header(Field::Length, reason));
    }
    if !bytes.starts_with(MARK) {
        let start: Vec<String> = bytes.iter().take(3).map(|it| format!("{it:02x}")).collect();
        let start = start.join(" ");
        let hint = match is_text(bytes) {
            _ if bytes.starts_with(FORM_MARK) => {
                "; it is field-wise, and `daybook fields FORM -o BOOK` gives its book".to_string()
            }
            true => format!("; a text starts with the line {FIRST_LINES}"),
            false => String::new(),
        };
        let reason = format!("starts with [{start}] instead of the mark GDB [47 44 42]{hint}");
        faults.push(header(Field::Mark, reason));
    }
    faults
}

/// Whether bytes look like a text rather than like a book.
fn is_text(bytes: &[u8]) -> bool {
    let start = bytes.get(..64).unwrap_or(bytes);
    let is_printed = |byte: &u8| byte.is_ascii_graphic() || byte.is_ascii_whitespace();
    !start.is_empty() && start.iter().all(is_printed)
}

/// Question 2.
fn version(bytes: &[u8]) -> Vec<Fault> {
    match two(bytes, 3) {
        Some(version) => version_of(version),
        None => Vec::new(),
    }
}

fn version_of(version: u16) -> Vec<Fault> {
    match has_selling_tariffs(version) {
        Some(_) => Vec::new(),
        None => vec![header(
            Field::Version,
            format!("version {version}, the engine knows {VERSIONS}"),
        )],
    }
}

/// Question 3.
fn counts_and_length(bytes: &[u8]) -> Vec<Fault> {
    let (Some(version), Some(users), Some(trades)) =
        (two(bytes, 3), bytes.get(5).copied(), two(bytes, 6))
    else {
        return Vec::new();
    };
    let (users, trades) = (usize::from(users), usize::from(trades));
    let mut faults = counts(users, trades);
    let length = header_length(version) + user_length(version) * users + TRADE_LENGTH * trades;
    if faults.is_empty() && length != bytes.len() {
        let (users, trades) = (counted(users, "user"), counted(trades, "trade"));
        let (has, length) = (counted(bytes.len(), "byte"), counted(length, "byte"));
        let book = format!("a version {version} book of {users} and {trades}");
        let reason = format!("{has}, but {book} has {length}");
        faults.push(header(Field::Length, reason));
    }
    faults
}

fn counts(users: usize, trades: usize) -> Vec<Fault> {
    let mut faults = Vec::new();
    if !(1..=MOST_USERS).contains(&users) {
        let reason = format!("{}, a book has 1 to {MOST_USERS}", counted(users, "user"));
        faults.push(header(Field::UserCount, reason));
    }
    if trades > MOST_TRADES {
        let trades = counted(trades, "trade");
        let reason = format!("{trades}, a book has at most {MOST_TRADES}");
        faults.push(header(Field::TradeCount, reason));
    }
    faults
}

/// Question 4.
fn date_and_prices(book: &Book) -> Vec<Fault> {
    let mut faults = Vec::new();
    if let Some(reason) = date_fault(book.date) {
        faults.push(header(Field::Date, reason));
    }
    for (place, price) in prices(book).into_iter().enumerate() {
        let least = u32::from(place < 2);
        if !(least..=MOST_PRICE).contains(&price) {
            let (name, price) = (PRICES[place], euros(price));
            let (least, most) = (euros(least), euros(MOST_PRICE));
            let reason = format!("{name} {price} EUR/MWh is not within {least} to {most} EUR/MWh");
            faults.push(header(Field::Price(place), reason));
        }
    }
    faults
}

/// Question 5, but for the zero bytes.
fn users(book: &Book) -> Vec<Fault> {
    let mut faults = Vec::new();
    let mut before = None;
    for (place, user) in book.users.iter().enumerate() {
        let mut fault = |field: Field, reason: String| {
            faults.push(Fault {
                place: Place::User(place),
                field,
                known_by: format!("id {}", user.id),
                reason,
            });
        };
        match before {
            _ if user.id == 0 => fault(Field::Id, "an id is not 0".to_string()),
            Some(before) if user.id <= before => {
                let twin = earlier(book, place).map(|twin| format!("the id of user {}", twin + 1));
                let unsorted = || format!("not above the id before it, {before}");
                fault(Field::Id, twin.unwrap_or_else(unsorted));
            }
            _ => {}
        }
        before = Some(user.id);
        if user.role > 1 {
            let reason = "is neither 0 (shipper) nor 1 (clearing house)";
            fault(Field::Role, format!("role {} {reason}", user.role));
        }
        for (area, entry) in user.physical.into_iter().enumerate() {
            if entry.unsigned_abs() > MOST_ENTRY {
                let (name, entry) = (AREAS[area], grouped(entry));
                let most = grouped(MOST_ENTRY);
                let reason = format!("physical {name} {entry} MWh is not within ±{most} MWh");
                fault(Field::Physical(area), reason);
            }
        }
        if user.charges.unsigned_abs() > MOST_MONEY {
            let (charges, most) = (euros(user.charges), euros(MOST_MONEY));
            let reason = format!("charges {charges} EUR are not within ±{most} EUR");
            fault(Field::Charges, reason);
        }
        let assigned = euros(user.assigned);
        if user.assigned > MOST_MONEY {
            let most = euros(MOST_MONEY);
            let reason = format!("assigned {assigned} EUR exceeds {most} EUR");
            fault(Field::Assigned, reason);
        }
        if user.blocked > user.assigned {
            let blocked = euros(user.blocked);
            let reason = format!("blocked {blocked} EUR exceeds assigned {assigned} EUR");
            fault(Field::Blocked, reason);
        }
        for (area, reason) in manager_faults(book, user) {
            fault(Field::Manager(area), reason);
        }
    }
    faults
}

/// The user before a place that has its id.
pub fn earlier(book: &Book, place: usize) -> Option<usize> {
    let id = book.users.get(place)?.id;
    book.users[..place].iter().position(|user| user.id == id)
}

/// Question 6, but for the zero bytes.
fn trades(book: &Book) -> Vec<Fault> {
    let mut faults = Vec::new();
    for (place, trade) in book.trades.iter().enumerate() {
        for (field, reason) in trade_faults(book, trade) {
            faults.push(Fault {
                place: Place::Trade(place),
                field,
                known_by: parties(trade),
                reason,
            });
        }
    }
    faults
}

/// A trade by its parties.
pub fn parties(trade: &Trade) -> String {
    format!("{} to {}", trade.seller, trade.buyer)
}

fn trade_faults(book: &Book, trade: &Trade) -> Vec<(Field, String)> {
    let mut faults = Vec::new();
    let mut fault = |field: Field, reason: String| faults.push((field, reason));
    let is_user = |id: u32| book.users.iter().any(|user| user.id == id);
    for (field, id) in [(Field::Seller, trade.seller), (Field::Buyer, trade.buyer)] {
        if !is_user(id) {
            fault(field, format!("{field} {id} is no user of the book"));
        }
    }
    if trade.seller == trade.buyer {
        fault(Field::Buyer, "seller and buyer are the same".to_string());
    }
    if trade.area > 2 {
        let reason = "is none of 0 (PVB), 1 (TVB), 2 (AVB)";
        fault(Field::Area, format!("area {} {reason}", trade.area));
    }
    if trade.kind > 2 {
        let reason = "is none of 0 (bilateral), 1 (platform), 2 (central counterparty)";
        fault(Field::Kind, format!("kind {} {reason}", trade.kind));
    }
    if trade.day > 1 {
        let reason = "is neither 0 (d) nor 1 (d+1)";
        fault(Field::Day, format!("day {} {reason}", trade.day));
    }
    let (notified, standing) = (grouped(trade.notified), grouped(trade.standing));
    if !(1..=MOST_NOTIFIED).contains(&trade.notified) {
        let most = grouped(MOST_NOTIFIED);
        let reason = format!("notified {notified} MWh is not within 1 to {most} MWh");
        fault(Field::Notified, reason);
    }
    if trade.standing > trade.notified {
        let reason = format!("standing {standing} MWh exceeds notified {notified} MWh");
        fault(Field::Standing, reason);
    }
    if trade.standing < trade.notified && !trade.can_be_cut() {
        let reason = "and only a bilateral trade for d may";
        let reason = format!("standing {standing} MWh is below notified {notified} MWh, {reason}");
        fault(Field::Standing, reason);
    }
    faults
}

/// Question 7.
fn positions(book: &Book) -> Vec<Fault> {
    let mut faults = Vec::new();
    for (place, user) in book.users.iter().enumerate() {
        for (area, name) in AREAS.iter().enumerate() {
            let (bought, sold) = dealt(book, user.id, area);
            let defined = i128::from(user.physical[area]) + bought - sold;
            let position = i128::from(user.position[area]);
            if position != defined {
                let (position, defined) = (grouped(position), grouped(defined));
                let physical = grouped(user.physical[area]);
                let (bought, sold) = (grouped(bought), grouped(sold));
                let sum = format!("{physical} physical + {bought} bought - {sold} sold for d");
                let reason = format!("position {name} {position} MWh is not {defined} = {sum}");
                faults.push(Fault {
                    place: Place::User(place),
                    field: Field::Position(area),
                    known_by: format!("id {}", user.id),
                    reason,
                });
            }
        }
    }
    faults
}

/// What a user bought and sold for d in an area, all kinds, at standing.
fn dealt(book: &Book, id: u32, area: usize) -> (i128, i128) {
    let mut dealt = (0, 0);
    let here = |trade: &&Trade| trade.day == 0 && usize::from(trade.area) == area;
    for trade in book.trades.iter().filter(here) {
        if trade.buyer == id {
            dealt.0 += i128::from(trade.standing);
        }
        if trade.seller == id {
            dealt.1 += i128::from(trade.standing);
        }
    }
    dealt
}

/// The position as document 01 defines it.
pub fn defined_position(book: &Book, user: &User, area: usize) -> i128 {
    let (bought, sold) = dealt(book, user.id, area);
    i128::from(user.physical[area]) + bought - sold
}
