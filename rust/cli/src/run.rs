//! `daybook run`: the day's reductions, and each user's state after them.

use daybook::{Operator, Refusal, Run, User};

use crate::arguments::Arguments;
use crate::call::Call;
use crate::files::quoted;
use crate::form::{or_null, Form};
use crate::outcome::{Failure, Outcome, Status};
use crate::reasons::{book_word, full, Asked};
use crate::state::{states, State};
use daybook_text::json::{list, Object};
use daybook_text::text;
use daybook_text::words::{euros, grouped, AREAS};

pub fn run(arguments: &Arguments) -> Result<Outcome, Failure> {
    let usage = "run BOOK [-o FILE|--in-place] [--log FILE] [--csv|--json] [--store FILE]";
    arguments.expect(1, 1, usage)?;
    let call = Call::new(arguments)?;
    let mut changed = call.unchanged();
    let mut outcome = Outcome::default();
    let run = call.operator(&mut changed.log).run(&mut changed.book);
    let done = match run {
        Ok(done) => done,
        Err(refusal) => {
            call.refuse(&mut outcome, None, Asked::Plain, refusal);
            return Ok(outcome);
        }
    };
    let object = call.noting(run_object(&done), &changed);
    match call.form {
        Form::Csv => outcome.message(run_line(&done)),
        _ => call.tell(&mut outcome, run_line(&done), object),
    }
    call.tell_log_beside(&mut outcome, &changed);
    tell_states(&mut outcome, &call, &changed.book);
    if done.log_full {
        outcome.status = Status::Stopped;
        tell_full(&mut outcome, &call);
    }
    call.keep(arguments, &changed, &mut outcome)?;
    Ok(outcome)
}

/// The log is full, and what helps; it is then the log of the changed book.
fn tell_full(outcome: &mut Outcome, call: &Call) {
    let Some(log) = &call.log else {
        return;
    };
    let book = match &call.target {
        Some(target) => quoted(target),
        None => book_word(&call.source),
    };
    let due = "one more reduction is due: the run stops here, and its cuts count";
    outcome.message(format!("{}: is full, and {due}", log.name));
    for line in full(&book, log) {
        outcome.message(format!("{}: {line}", log.name));
    }
}

/// The state of each user of a book.
fn tell_states(outcome: &mut Outcome, call: &Call, book: &[u8]) {
    let users = Operator::new()
        .read(book)
        .map_or_else(|_| Vec::new(), |book| book.users);
    let states = states(&call.store.operator(), book).unwrap_or_default();
    let states: Vec<(User, State)> = users.iter().copied().zip(states).collect();
    match call.form {
        Form::Words => {
            let cells = |it: &(User, State)| {
                let mut cells = state_cells(it);
                cells.insert(1, call.source.name_of(it.0.id).to_string());
                cells
            };
            let rows: Vec<Vec<String>> = states.iter().map(cells).collect();
            outcome.text(&text::aligned(&rows));
        }
        _ => states
            .iter()
            .for_each(|it| call.tell(outcome, String::new(), state_object(it))),
    }
}

/// A run in words.
pub fn run_line(done: &Run) -> String {
    let ending = if done.reductions == 1 { "" } else { "s" };
    let (reductions, mwh) = (grouped(done.reductions), grouped(done.mwh));
    let worth = euros(done.worth);
    format!("{reductions} reduction{ending}, {mwh} MWh cut, worth {worth} EUR")
}

/// A run's answer has its totals beside 20, too.
fn run_object(done: &Run) -> Object {
    let number = match done.log_full {
        true => Refusal::LogFull.number(),
        false => 0,
    };
    Object::new()
        .put("number", number)
        .put("reductions", done.reductions)
        .put("mwh", done.mwh)
        .put("worth_cents", done.worth)
}

fn state_cells((user, state): &(User, State)) -> Vec<String> {
    let mut cells = vec![user.id.to_string(), state.word.to_string()];
    cells.push("level".to_string());
    cells.push(state.level.map_or_else(|| "-".to_string(), euros));
    cells.push("position".to_string());
    for (area, position) in AREAS.iter().zip(user.position) {
        cells.push((*area).to_string());
        cells.push(grouped(position));
    }
    cells
}

fn state_object((user, state): &(User, State)) -> Object {
    Object::new()
        .put("id", user.id)
        .string("state", state.word)
        .put("afternoon_cents", or_null(state.level))
        .put("position_mwh", list(user.position))
}
