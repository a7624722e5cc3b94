//! `daybook cancel`: the whole trades that a shipper could cancel in place of a
//! reduction. No book is changed.

use daybook::{Book, Operator, Trade};

use crate::arguments::Arguments;
use crate::call::{answer, Call};
use crate::form::Form;
use crate::outcome::{Failure, Outcome};
use crate::reasons::Asked;
use daybook_text::json::list;
use daybook_text::text::{aligned, trade_cells};
use daybook_text::trace::tariffs;
use daybook_text::words::{counted, euros, grouped};

pub fn cancel(arguments: &Arguments) -> Result<Outcome, Failure> {
    arguments.expect(
        2,
        2,
        "cancel BOOK ID [--tries N] [--csv|--json] [--store FILE]",
    )?;
    let id = arguments.id(1)?;
    let tries = arguments.number("--tries")?;
    let tries = u32::try_from(tries.unwrap_or(u64::from(daybook::MOST_TRIES)))
        .map_err(|_| Failure::misuse("--tries needs a number of 32 bits"))?;
    let call = Call::new(arguments)?;
    let mut outcome = Outcome::default();
    outcome.note(&call.source);
    let found = call
        .store
        .operator()
        .cancellation(&call.source.bytes, id, tries);
    let (found, book) = match (found, Operator::new().read(&call.source.bytes)) {
        (Ok(found), Ok(book)) => (found, book),
        (Err(refusal), _) | (_, Err(refusal)) => {
            call.refuse(
                &mut outcome,
                Some(id),
                Asked::Cancellation { tries },
                refusal,
            );
            return Ok(outcome);
        }
    };
    let places: Vec<usize> = found.trades().collect();
    let worth = worth(&book, &places);
    let of_set = |place: &usize| book.trades.get(*place);
    let mwh: u64 = places
        .iter()
        .filter_map(of_set)
        .map(|it| u64::from(it.standing))
        .sum();
    let (trades, tries) = (counted(places.len(), "trade"), grouped(found.tries));
    let least = match found.complete {
        true => "no other set of whole trades has less",
        false => "another set may have less",
    };
    let (shown, excess) = (euros(worth), euros(found.excess));
    let line = format!(
        "{id}: {trades}, {} MWh worth {shown} EUR, {excess} EUR over the target; {least} ({tries} \
         tries)",
        grouped(mwh)
    );
    let object = answer(id)
        .put("trades", list(places.iter().map(|place| place + 1)))
        .put("mwh", mwh)
        .put("worth_cents", worth)
        .put("excess_cents", found.excess)
        .put("tries", found.tries)
        .put("complete", found.complete);
    call.tell(&mut outcome, line, object);
    if call.form == Form::Words {
        let cells = |place: &usize| {
            let mut cells = book.trades.get(*place).map_or_else(Vec::new, trade_cells);
            cells.insert(0, format!("{}:", place + 1));
            cells
        };
        outcome.text(&aligned(&places.iter().map(cells).collect::<Vec<_>>()));
    }
    Ok(outcome)
}

/// What trades are worth at tariff, in cents.
pub fn worth(book: &Book, places: &[usize]) -> u64 {
    let tariffs = tariffs(&book.prices);
    let of = |trade: &Trade| u64::from(trade.standing) * tariffs[usize::from(trade.area).min(2)];
    let trades = places.iter().filter_map(|place| book.trades.get(*place));
    trades.map(of).sum()
}
