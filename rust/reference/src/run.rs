//! "Run".

use crate::book::{Book, User};
use crate::levels::{above_margin, afternoon_level_of, called_in};
use crate::log::Log;
use crate::logged::{has_room, logged, note};
use crate::party::Given;
use crate::questions::{Opened, ACCEPTED};
use crate::reduction::has_eligible_trade;
use crate::store::Limits;

#[derive(Clone, Copy, Debug, Default, PartialEq, Eq)]
pub struct RunAnswer {
    pub number: u32,
    pub reductions: u64,
    pub mwh: i128,
    pub worth: i128,
}

/// Reduces while some user short of cover has an eligible trade; "a run" adds an
/// entry to the log "for each of its own" reductions.
pub fn run(bytes: &mut [u8], given: Given<'_>, log: Option<&mut [u8]>) -> RunAnswer {
    let run = logged(bytes, given, log, true, |opened, log| {
        Ok(run_book(opened, log))
    });
    run.unwrap_or_else(|number| RunAnswer {
        number,
        ..RunAnswer::default()
    })
}

/// The run of an accepted book. Each reduction cuts at least one MWh, so that
/// the run ends. "A run that meets a full log while a reduction is due stops with
/// 20 and its totals, keeps its cuts and counts as accepted."
pub fn run_book(opened: &mut Opened, mut log: Option<&mut Log>) -> RunAnswer {
    let mut answer = RunAnswer {
        number: ACCEPTED,
        ..RunAnswer::default()
    };
    while let Some(place) = next_reduction(&opened.limits, &opened.book) {
        if !has_room(log.as_deref()) {
            answer.number = 20;
            break;
        }
        let reduction = note(opened, place, log.as_deref_mut());
        answer.reductions += 1;
        answer.mwh += reduction.mwh;
        answer.worth += reduction.worth;
    }
    answer
}

/// The place of the lowest id among the users who are short of cover and have
/// an eligible trade. Ids rise with the place.
pub fn next_reduction(limits: &Limits, book: &Book) -> Option<usize> {
    book.users
        .iter()
        .position(|user| short_of_cover(limits, book, user) && has_eligible_trade(book, user))
}

/// "Short of cover: shipper, called in, afternoon level − blocked > 1,000,000,
/// assigned < level."
pub fn short_of_cover(limits: &Limits, book: &Book, user: &User) -> bool {
    if !user.is_shipper() || !called_in(limits, book, user) {
        return false;
    }
    let level = afternoon_level_of(limits, book, user);
    above_margin(limits, user, level) && user.assigned < level
}
