//! `daybook list`: the corrections of a file posted one after another, in one
//! call.

use daybook::{Line, Refusal};

use crate::arguments::Arguments;
use crate::call::Call;
use crate::files;
use crate::form::Form;
use crate::outcome::{Failure, Outcome, Status};
use crate::reasons::{reason, Asked};
use crate::refusals;
use daybook_text::csv::read_corrections;
use daybook_text::json::Object;
use daybook_text::text::aligned;
use daybook_text::words::{grouped, word, AREAS};

pub fn list(arguments: &Arguments) -> Result<Outcome, Failure> {
    let usage = "list BOOK FILE.csv [-o FILE|--in-place] [--log FILE] [--csv|--json] \
                 [--store FILE]";
    arguments.expect(2, 2, usage)?;
    let call = Call::new(arguments)?;
    let path = arguments.file(1);
    let (rows, skipped) = read_corrections(&files::read(path)?)
        .map_err(|mistakes| refusals::of_text(&files::shown(path), &mistakes))?;
    let lines: Vec<Line> = rows.iter().map(|(_, line)| *line).collect();
    let mut changed = call.unchanged();
    let mut outcome = Outcome::default();
    let notes = skipped
        .iter()
        .map(|it| refusals::noted(&files::shown(path), it));
    notes.for_each(|note| outcome.message(note));
    let made = call
        .operator(&mut changed.log)
        .list(&mut changed.book, &lines);
    let answers = match made {
        Ok(answers) => answers,
        Err(refusal) => {
            call.refuse(
                &mut outcome,
                None,
                Asked::List { lines: lines.len() },
                refusal,
            );
            return Ok(outcome);
        }
    };
    let reasons = reasons(&call, &lines, &answers);
    let mut table = Vec::new();
    for (((row, line), answer), reason) in rows.iter().zip(&answers).zip(reasons) {
        match call.form {
            Form::Words => table.push(cells(*row, line, *answer, reason)),
            form => {
                let object = object(*row, line, *answer, &reason, form == Form::Csv);
                call.tell(&mut outcome, String::new(), call.noting(object, &changed));
            }
        }
        if answer.is_err() {
            outcome.status = Status::Refused;
        }
    }
    outcome.text(&aligned(&table));
    call.tell_log(&mut outcome, &changed);
    call.keep(arguments, &changed, &mut outcome)?;
    Ok(outcome)
}

/// Why each line is refused, on the book that the lines before it left; nothing
/// of an accepted one.
fn reasons(call: &Call, lines: &[Line], answers: &[Result<(), Refusal>]) -> Vec<String> {
    let mut book = call.source.bytes.clone();
    let mut reasons = Vec::new();
    for (Line { id, area, amount }, answer) in lines.iter().zip(answers) {
        let (area, amount) = (*area, *amount);
        reasons.push(match answer {
            Err(refusal) => reason(
                &book,
                &call.store,
                *id,
                Asked::Posting { area, amount },
                *refusal,
            ),
            Ok(()) => match call.store.operator().posting(&mut book, *id, area, amount) {
                Ok(()) => String::new(),
                Err(refusal) => refusal.to_string(),
            },
        });
    }
    reasons
}

fn area_word(area: u32) -> String {
    u8::try_from(area).map_or_else(|_| area.to_string(), |area| word(&AREAS, area))
}

fn cells(row: usize, line: &Line, answer: Result<(), Refusal>, reason: String) -> Vec<String> {
    let told = match answer {
        Ok(()) => "posted".to_string(),
        Err(refusal) => format!("refused by question {}: {reason}", refusal.number()),
    };
    vec![
        "line".to_string(),
        format!("{row}:"),
        line.id.to_string(),
        area_word(line.area),
        grouped(line.amount),
        "MWh".to_string(),
        told,
    ]
}

/// A line as an object; a row has its reason even where there is none.
fn object(
    row: usize,
    line: &Line,
    answer: Result<(), Refusal>,
    reason: &str,
    is_row: bool,
) -> Object {
    let number = answer.map_or_else(Refusal::number, |()| 0);
    let object = Object::new()
        .put("line", row)
        .put("number", number)
        .put("id", line.id)
        .string("area", &area_word(line.area))
        .put("mwh", line.amount);
    match reason.is_empty() && !is_row {
        true => object,
        false => object.string("reason", reason),
    }
}
