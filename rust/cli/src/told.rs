//! What a shipper may be told: its record, levels and flag, and the trades that it may
//! see. The operator asks for anybody; with `--as` a shipper asks, for itself, and
//! nothing but its own calls is made.

use daybook::{archive, Level, Refusal, Shipper, Trade, User};

use crate::arguments::Arguments;
use crate::call::{answer, Call};
use crate::form::Form;
use crate::outcome::{Failure, Outcome};
use crate::reasons::Asked;
use daybook_text::json::Object;
use daybook_text::text::{aligned, trade_cells};
use daybook_text::words::{counted, word, AREAS, DAYS, KINDS};

impl Call {
    /// The shipper that asks; none where the operator does. One that asks for another's
    /// id is refused, in the engine's words.
    fn shipper(&self, id: u32) -> Result<Option<Shipper<'_>>, Refusal> {
        let Some(party) = self.party else {
            return Ok(None);
        };
        if party != id {
            let number = archive::flag(&self.source.bytes, party.into(), None, id, &mut [0]);
            return Err(Refusal::from_number(number).unwrap_or(Refusal::Party));
        }
        let shipper = Shipper::new(party);
        Ok(Some(match &self.store.bytes {
            Some(store) => shipper.store(store),
            None => shipper,
        }))
    }

    pub fn record(&self, id: u32) -> Result<User, Refusal> {
        match self.shipper(id)? {
            Some(shipper) => shipper.record(&self.source.bytes),
            None => self.store.operator().record(&self.source.bytes, id),
        }
    }

    /// The morning and the afternoon level.
    pub fn levels(&self, id: u32) -> Result<(Level, Level), Refusal> {
        let book = &self.source.bytes;
        match self.shipper(id)? {
            Some(shipper) => Ok((shipper.morning_level(book)?, shipper.afternoon_level(book)?)),
            None => {
                let operator = self.store.operator();
                let morning = operator.morning_level(book, id)?;
                Ok((morning, operator.afternoon_level(book, id)?))
            }
        }
    }

    fn flag(&self, id: u32) -> Result<bool, Refusal> {
        match self.shipper(id)? {
            Some(shipper) => shipper.flag(&self.source.bytes),
            None => self.store.operator().flag(&self.source.bytes, id),
        }
    }

    fn trades(&self, id: u32) -> Result<Vec<Trade>, Refusal> {
        match self.shipper(id)? {
            Some(shipper) => shipper.trades(&self.source.bytes),
            None => self.store.operator().trades(&self.source.bytes, id),
        }
    }
}

pub fn flag(arguments: &Arguments) -> Result<Outcome, Failure> {
    arguments.expect(
        1,
        usize::MAX,
        "flag BOOK [ID..] [--as ID] [--csv|--json] [--store FILE]",
    )?;
    let call = Call::new(arguments)?;
    call.each(arguments, |id| {
        let flagged = call.flag(id)?;
        let told = if flagged { "flagged" } else { "not flagged" };
        Ok((format!("{id}: {told}"), answer(id).put("flagged", flagged)))
    })
}

pub fn trades(arguments: &Arguments) -> Result<Outcome, Failure> {
    let usage = "trades BOOK ID [--as ID] [--csv|--json] [--store FILE]";
    arguments.expect(1, 2, usage)?;
    let call = Call::new(arguments)?;
    let asked = match arguments.count() {
        1 => call.party,
        _ => Some(arguments.id(1)?),
    };
    let Some(id) = asked else {
        return Err(Failure::misuse(format!("usage: daybook {usage}")));
    };
    let mut outcome = Outcome::default();
    outcome.note(&call.source);
    match call.trades(id) {
        Err(refusal) => call.refuse(&mut outcome, Some(id), Asked::Plain, refusal),
        Ok(trades) => tell(&call, &mut outcome, id, &trades),
    }
    Ok(outcome)
}

/// The trades in words, or an object or a row for each; before the objects stands how
/// many there are.
fn tell(call: &Call, outcome: &mut Outcome, id: u32, trades: &[Trade]) {
    match call.form {
        Form::Words => {
            outcome.line(format!("{id}: {}", counted(trades.len(), "trade")));
            outcome.text(&aligned(
                &trades.iter().map(trade_cells).collect::<Vec<_>>(),
            ));
        }
        Form::Json => {
            let object = answer(id).put("trades", trades.len());
            call.tell(outcome, String::new(), object);
        }
        Form::Csv if trades.is_empty() => outcome.heads(&object(id, 0, &Trade::default())),
        Form::Csv => {}
    }
    if call.form != Form::Words {
        for (ordinal, trade) in trades.iter().enumerate() {
            call.tell(outcome, String::new(), object(id, ordinal, trade));
        }
    }
}

/// A trade that the shipper of an id may see, by its ordinal among these from 0.
fn object(id: u32, ordinal: usize, trade: &Trade) -> Object {
    answer(id)
        .put("ordinal", ordinal)
        .put("seller", trade.seller)
        .put("buyer", trade.buyer)
        .string("area", &word(&AREAS, trade.area))
        .string("kind", &word(&KINDS, trade.kind))
        .string("day", &word(&DAYS, trade.day))
        .put("notified_mwh", trade.notified)
        .put("standing_mwh", trade.standing)
}
