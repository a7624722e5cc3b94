//! Document 02, ask 6, "Withdrawing a reduction": the withdrawal.

use crate::book::Book;
use crate::log::Entry;
use crate::logged::logged;
use crate::party::Given;
use crate::questions::ACCEPTED;
use crate::reduction::{settle, Tally};

#[derive(Clone, Copy, Debug, Default, PartialEq, Eq)]
pub struct WithdrawalAnswer {
    pub number: u32,
    pub mwh: i128,
    pub worth: i128,
}

/// "We want the last reduction withdrawn; the call returns its MWh and worth." "A
/// withdrawal with an empty log gives 18", asked last.
pub fn withdrawal(bytes: &mut [u8], given: Given<'_>, log: &mut [u8]) -> WithdrawalAnswer {
    let done = logged(bytes, given, Some(log), true, |opened, log| {
        // "A withdrawal drops the last."
        let last = log.and_then(|log| log.entries.pop()).ok_or(18_u32)?;
        Ok(restore(&mut opened.book, &last))
    });
    match done {
        Ok(tally) => WithdrawalAnswer {
            number: ACCEPTED,
            mwh: tally.mwh.0,
            worth: tally.worth.0,
        },
        Err(number) => WithdrawalAnswer {
            number,
            ..WithdrawalAnswer::default()
        },
    }
}

/// Gives each trade back what was cut: the seller's position falls and the buyer's
/// rises again.
fn restore(book: &mut Book, entry: &Entry) -> Tally {
    let mut tally = Tally::default();
    for (place, cut) in entry.iter().enumerate() {
        settle(book, place, -*cut);
        tally = tally.with(*cut, book.trades[place].tariff(&book.prices));
    }
    tally
}
