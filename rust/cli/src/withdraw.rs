//! `daybook withdraw`: the last reduction that a log has noted, or all of them,
//! withdrawn.

use daybook::Refusal;

use crate::arguments::Arguments;
use crate::call::{Call, Changed};
use crate::form::{csv_row, Form};
use crate::log_file::{noted, together, withdrawn, Noted, CUTS};
use crate::outcome::{Failure, Outcome};
use crate::reasons::Asked;
use daybook_text::words::counted;

pub fn withdraw(arguments: &Arguments) -> Result<Outcome, Failure> {
    let usage = "withdraw BOOK --log FILE [--all] [-o FILE|--in-place] [--csv|--json] \
                 [--store FILE]";
    arguments.expect(1, 1, usage)?;
    if !arguments.has("--log") {
        return Err(Failure::misuse(format!("usage: daybook {usage}")));
    }
    let call = Call::new(arguments)?;
    let mut changed = call.unchanged();
    let mut outcome = Outcome::default();
    let made = match make(&call, &mut changed, arguments.has("--all")) {
        Ok(made) => made,
        Err(refusal) => {
            call.refuse(&mut outcome, None, Asked::Plain, refusal);
            return Ok(outcome);
        }
    };
    match call.form {
        Form::Words => words(&mut outcome, &call, &made),
        Form::Csv => {
            outcome.line(csv_row(CUTS));
            let rows = made.iter().flat_map(Noted::rows);
            rows.for_each(|row| outcome.line(csv_row(row)));
        }
        Form::Json => {
            for it in &made {
                let object = it.object().put("noted", it.place - 1);
                outcome.line(object.of_book(&call.source.name).end());
            }
        }
    }
    call.keep(arguments, &changed, &mut outcome)?;
    Ok(outcome)
}

/// Withdraws the last reduction; and then, where all are asked for, the others.
fn make(call: &Call, changed: &mut Changed, all: bool) -> Result<Vec<Noted>, Refusal> {
    let mut made = Vec::new();
    loop {
        match withdrawn(call.store.operator(), &mut changed.log, &mut changed.book) {
            Ok(it) => made.push(it),
            Err(Refusal::LogEmpty) if !made.is_empty() => return Ok(made),
            Err(refusal) => return Err(refusal),
        }
        if !all {
            return Ok(made);
        }
    }
}

fn words(outcome: &mut Outcome, call: &Call, made: &[Noted]) {
    for it in made {
        outcome.text(&it.words("given back"));
    }
    if made.len() > 1 {
        let count = counted(made.len(), "reduction");
        let figures = together(made, "given back");
        outcome.line(format!("{count} withdrawn: {figures}"));
    }
    let left = made.last().map_or(0, |it| it.place - 1);
    let name = call.log.as_ref().map_or("", |it| it.name.as_str());
    outcome.line(noted(name, left));
}
