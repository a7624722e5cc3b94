//! `daybook calls`: every guarantee call of the morning or the afternoon that is
//! due, made in one command. A call changes what is blocked of its own user alone,
//! so that none depends on another.

use daybook::{GuaranteeCall, Level, Operator, Refusal};

use crate::arguments::Arguments;
use crate::call::{answer, Call, Changed};
use crate::form::{csv_row, Form};
use crate::outcome::{Failure, Outcome};
use crate::reasons::Asked;
use crate::source::Source;
use daybook_text::json::Object;
use daybook_text::text::aligned;
use daybook_text::words::{counted, euros, plain_euros};

/// A call that was made, or one that the assigned guarantee does not cover.
#[derive(Clone, Copy, Debug, PartialEq, Eq)]
pub struct Due {
    pub id: u32,
    pub level: u64,
    /// What was added to blocked; none where the call was refused by question 12.
    pub added: Option<u64>,
    pub assigned: u64,
}

pub fn calls(arguments: &Arguments) -> Result<Outcome, Failure> {
    let usage =
        "calls BOOK --morning|--afternoon [-o FILE|--in-place] [--log FILE] [--csv|--json] \
                 [--store FILE]";
    arguments.expect(1, 1, usage)?;
    let morning = arguments.has("--morning");
    if morning == arguments.has("--afternoon") {
        return Err(Failure::misuse(format!("usage: daybook {usage}")));
    }
    let call = Call::new(arguments)?;
    let mut changed = call.unchanged();
    let mut outcome = Outcome::default();
    let made = match make(&call, &mut changed, morning) {
        Ok(made) => made,
        Err(refusal) => {
            call.refuse(&mut outcome, None, Asked::Plain, refusal);
            return Ok(outcome);
        }
    };
    match call.form {
        Form::Words => words(&mut outcome, &call.source, &made),
        Form::Csv => table(&mut outcome, &made),
        Form::Json => objects(&mut outcome, &call, &changed, &made),
    }
    call.tell_log_beside(&mut outcome, &changed);
    call.keep(arguments, &changed, &mut outcome)?;
    Ok(outcome)
}

/// Makes the calls that are accepted; of those that are refused, the ones for want
/// of an assigned guarantee are told.
fn make(call: &Call, changed: &mut Changed, morning: bool) -> Result<Vec<Due>, Refusal> {
    let Changed { book, log } = changed;
    let mut operator = call.operator(log);
    let mut made = Vec::new();
    for user in Operator::new().read(book)?.users {
        let (id, assigned) = (user.id, user.assigned);
        let called = match morning {
            true => operator.morning_call(book, id),
            false => operator.afternoon_call(book, id),
        };
        let (level, added) = match called {
            Ok(GuaranteeCall {
                level: Level(level),
                added,
            }) => (level, Some(added)),
            Err(Refusal::AssignedCoversLevel) => {
                let Level(level) = match morning {
                    true => operator.morning_level(book, id)?,
                    false => operator.afternoon_level(book, id)?,
                };
                (level, None)
            }
            Err(refusal @ (Refusal::StoreForm | Refusal::SetInForce | Refusal::LogForm)) => {
                return Err(refusal)
            }
            Err(_) => continue,
        };
        made.push(Due {
            id,
            level,
            added,
            assigned,
        });
    }
    Ok(made)
}

/// How many calls were made, and for how much.
fn total(made: &[Due]) -> (usize, u128) {
    let added = || made.iter().filter_map(|due| due.added);
    (added().count(), added().map(u128::from).sum())
}

fn words(outcome: &mut Outcome, source: &Source, made: &[Due]) {
    let cells = |due: &Due| {
        let level = euros(due.level);
        let (name, amount, rest) = match due.added {
            Some(added) => (
                "added",
                euros(added),
                format!("to blocked, the level {level}"),
            ),
            None => {
                let lacking = euros(due.level.saturating_sub(due.assigned));
                let assigned = euros(due.assigned);
                let rest = format!("to be assigned first, level {level}, assigned {assigned}");
                ("lacking", lacking, rest)
            }
        };
        vec![
            format!("{}:", due.id),
            source.name_of(due.id).to_string(),
            name.to_string(),
            amount,
            format!("EUR {rest}"),
        ]
    };
    let rows: Vec<Vec<String>> = made.iter().map(cells).collect();
    outcome.text(&aligned(&rows));
    let (count, cents) = total(made);
    outcome.line(match count {
        0 if made.is_empty() => "no call is due".to_string(),
        0 => "no call is made".to_string(),
        _ => {
            let cents = euros(i128::try_from(cents).unwrap_or(i128::MAX));
            format!("{}, {cents} EUR in all", counted(count, "call"))
        }
    });
}

fn table(outcome: &mut Outcome, made: &[Due]) {
    outcome.line(csv_row(["id", "number", "level", "added", "assigned"]));
    for due in made {
        outcome.line(csv_row([
            due.id.to_string(),
            number(due).to_string(),
            plain_euros(due.level),
            plain_euros(due.added.unwrap_or(0)),
            plain_euros(due.assigned),
        ]));
    }
}

/// The number of the call.
fn number(due: &Due) -> u32 {
    match due.added {
        Some(_) => 0,
        None => Refusal::AssignedCoversLevel.number(),
    }
}

fn objects(outcome: &mut Outcome, call: &Call, changed: &Changed, made: &[Due]) {
    for due in made {
        let object = match due.added {
            Some(_) => answer(due.id),
            None => Object::new().put("number", number(due)).put("id", due.id),
        };
        let object = object
            .put("level_cents", due.level)
            .put("added_cents", due.added.unwrap_or(0))
            .put("assigned_cents", due.assigned);
        outcome.line(object.of_book(&call.source.name).end());
    }
    let (count, cents) = total(made);
    let object = Object::new().string("book", &call.source.name);
    let object = object.put("calls", count).put("added_cents", cents);
    outcome.line(call.noting(object, changed).end());
}
