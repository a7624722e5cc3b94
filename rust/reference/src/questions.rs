//! "The questions": asked in order, each of the whole book before the next.

use crate::book::{
    length, user_length, Book, Header, Trade, User, CLEARING_HOUSE, MARK, MOST_TRADES, MOST_USERS,
    TOMORROW, TRADE_LENGTH,
};
use crate::group::managers_valid;
use crate::party::{question_26, Act, Given, Party};
use crate::store::{self, Limits};
use crate::units::{Area, Cents, Mwh, Price, Prices};
use crate::version::{header_length, is_known, selling_tariffs_in_range, FIRST_HEADER_LENGTH};

/// The number of an accepted call.
pub const ACCEPTED: u32 = 0;

/// Lengths of the twelve months; February has one more in a leap year.
const MONTH_LENGTHS: [u32; 12] = [31, 28, 31, 30, 31, 30, 31, 31, 30, 31, 30, 31];

/// A physical entry is within ±1,000,000.
const PHYSICAL_LIMIT: Mwh = Mwh(1_000_000);

/// Charges are within ±10^12, guarantees at most 10^12.
const MONEY_LIMIT: Cents = Cents(1_000_000_000_000);

/// The highest kind of trade: central counterparty.
const LAST_KIND: u8 = 2;

/// The number that questions 1 to 7 give for these bytes.
pub fn check(bytes: &[u8]) -> u32 {
    match questions_1_to_7(bytes) {
        Ok(_) => ACCEPTED,
        Err(number) => number,
    }
}

/// The fields of an accepted book, or the first question that failed.
pub fn questions_1_to_7(bytes: &[u8]) -> Result<Book, u32> {
    ask(1, starts_with_mark(bytes))?;
    let header = Header::from_bytes(bytes);
    ask(2, is_known(header.version))?;
    ask(3, counts_and_length(&header, bytes.len()))?;
    ask(
        4,
        date_in_range(header.date)
            && prices_in_range(&header.prices)
            && selling_tariffs_in_range(header.version, &header.prices),
    )?;
    let book = Book::from_bytes(&header, bytes);
    ask(
        5,
        users_valid(&book) && users_zero_bytes(&header, bytes) && managers_valid(&book),
    )?;
    ask(6, trades_valid(&book) && trades_zero_bytes(&header, bytes))?;
    ask(7, positions_as_defined(&book))?;
    Ok(book)
}

/// One question: a "no" gives its number.
pub fn ask(number: u32, yes: bool) -> Result<(), u32> {
    if yes {
        Ok(())
    } else {
        Err(number)
    }
}

/// Question 1, the same for every version.
fn starts_with_mark(bytes: &[u8]) -> bool {
    bytes.len() >= FIRST_HEADER_LENGTH && bytes.starts_with(MARK)
}

/// Question 3.
pub fn counts_and_length(header: &Header, bytes: usize) -> bool {
    (1..=MOST_USERS).contains(&header.users)
        && header.trades <= MOST_TRADES
        && bytes == length(header.version, header.users, header.trades)
}

/// Question 4, the date: a real Gregorian day of 2020 to 2099.
pub fn date_in_range(date: u32) -> bool {
    let (year, month, day) = (date / 10_000, date / 100 % 100, date % 100);
    (2020..=2099).contains(&year)
        && (1..=12).contains(&month)
        && (1..=month_length(year, month)).contains(&day)
}

fn month_length(year: u32, month: u32) -> u32 {
    let place = usize::try_from(month - 1).unwrap_or(0);
    let leap_day = u32::from(month == 2 && is_leap(year));
    MONTH_LENGTHS[place] + leap_day
}

fn is_leap(year: u32) -> bool {
    year.is_multiple_of(4) && (!year.is_multiple_of(100) || year.is_multiple_of(400))
}

/// Question 4, the prices: P and Q 1 to 100,000, tolls 0 to 100,000.
fn prices_in_range(prices: &Prices) -> bool {
    let tariff = |price: Price| (1..=100_000).contains(&price.0);
    let toll = |price: Price| (0..=100_000).contains(&price.0);
    tariff(prices.p) && tariff(prices.q) && toll(prices.l) && toll(prices.x) && toll(prices.i)
}

/// Question 5, but for the zero bytes and the manager ids.
fn users_valid(book: &Book) -> bool {
    book.users.iter().all(user_valid) && ids_rising(book)
}

fn user_valid(user: &User) -> bool {
    user.id != 0
        && user.role <= CLEARING_HOUSE
        && user.physical.iter().all(|entry| physical_in_range(*entry))
        && (-MONEY_LIMIT..=MONEY_LIMIT).contains(&user.charges)
        && user.blocked <= user.assigned
        && user.assigned <= MONEY_LIMIT
}

/// A physical entry within ±1,000,000 (questions 5 and 10).
pub fn physical_in_range(entry: Mwh) -> bool {
    (-PHYSICAL_LIMIT..=PHYSICAL_LIMIT).contains(&entry)
}

fn ids_rising(book: &Book) -> bool {
    book.users.windows(2).all(|pair| pair[0].id < pair[1].id)
}

/// Question 5, the three zero bytes of each user.
fn users_zero_bytes(header: &Header, bytes: &[u8]) -> bool {
    let users_at = header_length(header.version);
    let users = &bytes[users_at..length(header.version, header.users, 0)];
    users
        .chunks_exact(user_length(header.version))
        .all(|user| user[5..8] == [0, 0, 0])
}

/// Question 6, but for the zero byte.
fn trades_valid(book: &Book) -> bool {
    book.trades
        .iter()
        .all(|trade| trade_valid(trade) && parties_valid(book, trade))
}

fn trade_valid(trade: &Trade) -> bool {
    Area::from_code(u32::from(trade.area)).is_some()
        && trade.kind <= LAST_KIND
        && trade.day <= TOMORROW
        && (1..=100_000).contains(&trade.notified.0)
        && trade.standing <= trade.notified
        && (trade.standing == trade.notified || trade.is_bilateral_today())
}

/// "Both parties are users of the book and differ."
fn parties_valid(book: &Book, trade: &Trade) -> bool {
    book.place_of(trade.seller).is_some()
        && book.place_of(trade.buyer).is_some()
        && trade.seller != trade.buyer
}

/// Question 6, the zero byte of each trade.
fn trades_zero_bytes(header: &Header, bytes: &[u8]) -> bool {
    let trades = &bytes[length(header.version, header.users, 0)..];
    trades
        .chunks_exact(TRADE_LENGTH)
        .all(|trade| trade[11] == 0)
}

/// Question 7.
fn positions_as_defined(book: &Book) -> bool {
    let mut users = book.users.iter();
    users.all(|user| user.position == book.defined_positions(user))
}

/// An accepted book, and the figures of the call.
pub struct Opened {
    pub book: Book,
    pub limits: Limits,
}

impl Opened {
    /// Question 8: the place of the user.
    pub fn question_8(&self, id: u32) -> Result<usize, u32> {
        self.book.place_of(id).ok_or(8_u32)
    }

    /// Questions 8 and 9: the place of the shipper.
    pub fn questions_8_and_9(&self, id: u32) -> Result<usize, u32> {
        let place = self.question_8(id)?;
        ask(9, self.book.users[place].is_shipper())?;
        Ok(place)
    }
}

/// Questions 1 to 7 and 26, "asked directly after question 7, before every later
/// question".
pub fn questions_to_26(bytes: &[u8], party: Party, act: Act) -> Result<Book, u32> {
    let book = questions_1_to_7(bytes)?;
    question_26(&book, party, act)?;
    Ok(book)
}

/// The same, then 16 and 17 of the store.
pub fn opening_questions(bytes: &[u8], given: Given<'_>, act: Act) -> Result<Opened, u32> {
    let book = questions_to_26(bytes, given.party, act)?;
    let limits = store::limits(given.store, book.date)?;
    Ok(Opened { book, limits })
}

/// The opening questions and 8: the place of the user.
pub fn questions_to_8(
    bytes: &[u8],
    given: Given<'_>,
    act: Act,
    id: u32,
) -> Result<(Opened, usize), u32> {
    let opened = opening_questions(bytes, given, act)?;
    let place = opened.question_8(id)?;
    Ok((opened, place))
}

/// The opening questions, 8 and 9: the user is a shipper.
pub fn questions_to_9(
    bytes: &[u8],
    given: Given<'_>,
    act: Act,
    id: u32,
) -> Result<(Opened, usize), u32> {
    let opened = opening_questions(bytes, given, act)?;
    let place = opened.questions_8_and_9(id)?;
    Ok((opened, place))
}
