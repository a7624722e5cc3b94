//! The levels and the state of every user in one answer: "Levels and calls" and
//! "Printed day", user by user, by the figures of the call's store.

use crate::book::{Book, User};
use crate::day::state;
use crate::levels::{afternoon_level_of, morning_level_of};
use crate::party::{Act, Given};
use crate::questions::{opening_questions, ACCEPTED};
use crate::store::Limits;

/// A user's id, state and levels; a clearing house has none, and 0 is told.
#[derive(Clone, Copy, Debug, PartialEq, Eq)]
pub struct UserLevels {
    pub id: u32,
    pub state: &'static str,
    pub morning: i128,
    pub afternoon: i128,
}

/// The users in the order of the book; none after a refusal.
#[derive(Clone, Debug, Default, PartialEq, Eq)]
pub struct AllLevels {
    pub number: u32,
    pub users: Vec<UserLevels>,
}

/// The levels and the state of every user; "all else is the operator's".
pub fn levels(bytes: &[u8], given: Given<'_>) -> AllLevels {
    match opening_questions(bytes, given, Act::Operators) {
        Ok(opened) => {
            let (book, limits) = (&opened.book, &opened.limits);
            let users = book.users.iter().map(|user| of_user(limits, book, user));
            AllLevels {
                number: ACCEPTED,
                users: users.collect(),
            }
        }
        Err(number) => AllLevels {
            number,
            ..AllLevels::default()
        },
    }
}

fn of_user(limits: &Limits, book: &Book, user: &User) -> UserLevels {
    let (morning, afternoon) = if user.is_shipper() {
        let morning = morning_level_of(limits, book, user);
        (morning.0, afternoon_level_of(limits, book, user).0)
    } else {
        (0, 0)
    };
    UserLevels {
        id: user.id,
        state: state(limits, book, user),
        morning,
        afternoon,
    }
}
