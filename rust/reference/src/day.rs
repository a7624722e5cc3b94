//! "Printed day": it takes no store, its figures are today's.

use std::fmt::Write;

use crate::book::{Book, User};
use crate::levels::{above_margin, afternoon_level_of, called_in};
use crate::party::{Act, Given};
use crate::questions::{opening_questions, Opened};
use crate::run::{run_book, short_of_cover};
use crate::store::Limits;
use crate::units::Cents;

/// What the program `day` prints for this input.
pub fn day(bytes: &[u8]) -> String {
    match opening_questions(bytes, Given::OPERATOR, Act::Operators) {
        Ok(opened) => printed(opened),
        Err(number) => format!("refused {number}\n"),
    }
}

/// Runs the book, then prints the totals and one line per user.
fn printed(mut opened: Opened) -> String {
    let run = run_book(&mut opened, None);
    let mut text = format!("run {} {} {}\n", run.reductions, run.mwh, run.worth);
    for user in &opened.book.users {
        text.push_str(&line(&opened.book, user));
    }
    text
}

/// Id, state, afternoon level, three positions.
fn line(book: &Book, user: &User) -> String {
    let mut line = format!(
        "{} {} {}",
        user.id,
        state(&Limits::TODAY, book, user),
        printed_level(book, user).0
    );
    for position in user.position {
        // Writing to a string does not fail.
        let _ = write!(line, " {}", position.0);
    }
    line.push('\n');
    line
}

/// "Clearing house, level printed 0."
fn printed_level(book: &Book, user: &User) -> Cents {
    if user.is_shipper() {
        afternoon_level_of(&Limits::TODAY, book, user)
    } else {
        Cents::ZERO
    }
}

/// `clear`, `short`, `call` or `quiet`.
pub fn state(limits: &Limits, book: &Book, user: &User) -> &'static str {
    if !user.is_shipper() {
        "clear"
    } else if short_of_cover(limits, book, user) {
        "short"
    } else if to_be_called(limits, book, user) {
        "call"
    } else {
        "quiet"
    }
}

/// "Called in, level − blocked > 1,000,000, assigned ≥ level."
fn to_be_called(limits: &Limits, book: &Book, user: &User) -> bool {
    let level = afternoon_level_of(limits, book, user);
    called_in(limits, book, user) && above_margin(limits, user, level) && user.assigned >= level
}
