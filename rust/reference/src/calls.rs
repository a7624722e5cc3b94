//! "Levels and calls": the two guarantee calls.

use crate::book::Book;
use crate::levels::{above_margin, afternoon_level_of, called_in, morning_level_of};
use crate::logged::{empty, logged};
use crate::party::Given;
use crate::questions::{ask, Opened, ACCEPTED};
use crate::units::Cents;

#[derive(Clone, Copy, Debug, Default, PartialEq, Eq)]
pub struct CallAnswer {
    pub number: u32,
    pub level: i128,
    pub added: i128,
}

/// The guarantee call of the morning, at the morning level.
pub fn morning_call(
    bytes: &mut [u8],
    given: Given<'_>,
    log: Option<&mut [u8]>,
    id: u32,
) -> CallAnswer {
    guarantee_call(bytes, given, log, |opened| call_in_the_morning(opened, id))
}

/// The guarantee call of the afternoon, at the afternoon level.
pub fn afternoon_call(
    bytes: &mut [u8],
    given: Given<'_>,
    log: Option<&mut [u8]>,
    id: u32,
) -> CallAnswer {
    guarantee_call(bytes, given, log, |opened| {
        call_in_the_afternoon(opened, id)
    })
}

fn guarantee_call(
    bytes: &mut [u8],
    given: Given<'_>,
    log: Option<&mut [u8]>,
    call: impl FnOnce(&mut Opened) -> Result<CallAnswer, u32>,
) -> CallAnswer {
    let called = logged(bytes, given, log, true, |opened, log| {
        let answer = call(opened)?;
        empty(log);
        Ok(answer)
    });
    called.unwrap_or_else(|number| CallAnswer {
        number,
        ..CallAnswer::default()
    })
}

/// Questions 8, 9, 11 and 12, then the call of the morning. Its question 11 does
/// not ask whether the user is called in.
fn call_in_the_morning(opened: &mut Opened, id: u32) -> Result<CallAnswer, u32> {
    let place = opened.questions_8_and_9(id)?;
    let Opened { book, limits } = opened;
    let user = &book.users[place];
    let level = morning_level_of(limits, book, user);
    ask(11, above_margin(limits, user, level))?;
    ask(12, user.assigned >= level)?;
    Ok(block(book, place, level))
}

/// Questions 8, 9, 11 and 12, then the call of the afternoon.
fn call_in_the_afternoon(opened: &mut Opened, id: u32) -> Result<CallAnswer, u32> {
    let place = opened.questions_8_and_9(id)?;
    let Opened { book, limits } = opened;
    let user = &book.users[place];
    let level = afternoon_level_of(limits, book, user);
    ask(
        11,
        above_margin(limits, user, level) && called_in(limits, book, user),
    )?;
    ask(12, user.assigned >= level)?;
    Ok(block(book, place, level))
}

/// "An accepted call adds to blocked what it lacks to reach the level."
fn block(book: &mut Book, place: usize, level: Cents) -> CallAnswer {
    let user = &mut book.users[place];
    let added = level - user.blocked;
    user.blocked = level;
    CallAnswer {
        number: ACCEPTED,
        level: level.0,
        added: added.0,
    }
}
