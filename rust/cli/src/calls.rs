//! The engine's calls on a book: `show`, `level`, `call`, `warn`, `post` and
//! `reduce`.

use daybook::{GuaranteeCall, Level, Operator, Reduction, Refusal, User};

use crate::arguments::{amount, Arguments};
use crate::call::{answer, Call};
use crate::outcome::{Failure, Outcome};
use crate::reasons::Asked;
use daybook_text::credit::{by_area, credits, has_credit, lines};
use daybook_text::fields::has_managers;
use daybook_text::groups::{shares, Share};
use daybook_text::json::{list, Object, MANAGERS};
use daybook_text::text;
use daybook_text::words::{code, euros, grouped, word, AREAS, ROLES};

pub fn show(arguments: &Arguments) -> Result<Outcome, Failure> {
    arguments.expect(
        1,
        usize::MAX,
        "show BOOK [ID..] [--as ID] [--csv|--json] [--store FILE]",
    )?;
    let call = Call::new(arguments)?;
    call.each(arguments, |id| {
        let user = call.record(id)?;
        let object = user_object(&user);
        let object = match has_managers(call.version()) {
            Some(true) => object.put(MANAGERS, list(user.managers)),
            _ => object,
        };
        Ok((text::user_line(&user), object))
    })
}

fn user_object(user: &User) -> Object {
    answer(user.id)
        .string("role", &word(&ROLES, user.role))
        .put("physical_mwh", list(user.physical))
        .put("position_mwh", list(user.position))
        .put("charges_cents", user.charges)
        .put("assigned_cents", user.assigned)
        .put("blocked_cents", user.blocked)
}

pub fn level(arguments: &Arguments) -> Result<Outcome, Failure> {
    arguments.expect(
        1,
        usize::MAX,
        "level BOOK [ID..] [--as ID] [--csv|--json] [--store FILE]",
    )?;
    let call = Call::new(arguments)?;
    call.each(arguments, |id| {
        let (Level(morning), Level(afternoon)) = call.levels(id)?;
        let (before, after) = (euros(morning), euros(afternoon));
        let line = format!("{id}: morning level {before} EUR, afternoon level {after} EUR");
        let object = answer(id)
            .put("morning_cents", morning)
            .put("afternoon_cents", afternoon);
        // Credit and groups are told by the whole book, which is the operator's.
        if call.party.is_some() {
            return Ok((line, object));
        }
        let book = Operator::new().read(&call.source.bytes)?;
        if !has_credit(&book) {
            return Ok((line, object));
        }
        let user = call.record(id)?;
        let credits = credits(&book, &user);
        let groups = shares(&book, &user);
        let groups: String = groups.iter().map(|it| share_line(it, id)).collect();
        let told = format!("{line}\n{groups}{}", lines(&credits));
        let object = object.put("credit_cents", list(by_area(&credits)));
        Ok((told.trim_end().to_string(), object))
    })
}

/// A group that the levels are of.
fn share_line(share: &Share, id: u32) -> String {
    format!("  {}\n", share.short(id))
}

pub fn warn(arguments: &Arguments) -> Result<Outcome, Failure> {
    arguments.expect(
        1,
        usize::MAX,
        "warn BOOK [ID..] [--csv|--json] [--store FILE]",
    )?;
    let call = Call::new(arguments)?;
    call.each(arguments, |id| {
        let warned = call.store.operator().warning(&call.source.bytes, id)?;
        let line = format!("{id}: {}", if warned { "warned" } else { "not warned" });
        Ok((line, answer(id).put("warned", warned)))
    })
}

pub fn guarantee_call(arguments: &Arguments) -> Result<Outcome, Failure> {
    let usage =
        "call BOOK ID --morning|--afternoon [-o FILE|--in-place] [--log FILE] [--csv|--json] \
                 [--store FILE]";
    arguments.expect(2, 2, usage)?;
    let morning = arguments.has("--morning");
    if morning == arguments.has("--afternoon") {
        return Err(Failure::misuse(format!("usage: daybook {usage}")));
    }
    let asked = match morning {
        true => Asked::MorningCall,
        false => Asked::AfternoonCall,
    };
    let id = arguments.id(1)?;
    changing(arguments, id, asked, |mut operator, book| {
        let called = match morning {
            true => operator.morning_call(book, id)?,
            false => operator.afternoon_call(book, id)?,
        };
        let GuaranteeCall {
            level: Level(level),
            added,
        } = called;
        let (shown, more) = (euros(level), euros(added));
        let line = format!("{id}: {more} EUR added to blocked, which is now the level {shown} EUR");
        Ok((
            line,
            answer(id)
                .put("level_cents", level)
                .put("added_cents", added),
        ))
    })
}

pub fn post(arguments: &Arguments) -> Result<Outcome, Failure> {
    let usage = "post BOOK ID AREA MWH [-o FILE|--in-place] [--log FILE] [--csv|--json] \
                 [--store FILE]";
    arguments.expect(4, 4, usage)?;
    let id = arguments.id(1)?;
    let name = arguments.word(2);
    let area = match code(&AREAS, &name) {
        Some(area) => u32::from(area),
        None => arguments.id(2).map_err(|_| {
            Failure::misuse(format!("{name}: an area is one of {}", AREAS.join(", ")))
        })?,
    };
    let amount = amount(arguments.file(3).as_os_str())?;
    changing(
        arguments,
        id,
        Asked::Posting { area, amount },
        |mut operator, book| {
            operator.posting(book, id, area, amount)?;
            let user = operator.record(book, id)?;
            let place = usize::try_from(area).unwrap_or(0).min(2);
            let (physical, position) = (user.physical[place], user.position[place]);
            let (area, mwh) = (AREAS[place], grouped(amount));
            let (entry, holds) = (grouped(physical), grouped(position));
            let line =
                format!("{id}: {mwh} MWh posted to {area}, physical {entry}, position {holds}");
            let object = answer(id).string("area", area).put("mwh", amount);
            Ok((
                line,
                object
                    .put("physical_mwh", physical)
                    .put("position_mwh", position),
            ))
        },
    )
}

pub fn reduce(arguments: &Arguments) -> Result<Outcome, Failure> {
    let usage = "reduce BOOK ID [-o FILE|--in-place] [--log FILE] [--csv|--json] \
                 [--store FILE]";
    arguments.expect(2, 2, usage)?;
    let id = arguments.id(1)?;
    changing(arguments, id, Asked::Reduction, |mut operator, book| {
        let done = operator.reduction(book, id)?;
        Ok((
            reduction_line(id, &done),
            reduction_object(answer(id), &done),
        ))
    })
}

fn reduction_line(id: u32, done: &Reduction) -> String {
    let (mwh, worth, target) = (grouped(done.mwh), euros(done.worth), euros(done.target));
    let left = match (done.short, done.over) {
        (0, 0) => "met exactly".to_string(),
        (0, over) => format!("{} EUR over it", euros(over)),
        (short, _) => format!("{} EUR short of it", euros(short)),
    };
    format!("{id}: {mwh} MWh cut, worth {worth} EUR; target {target} EUR, {left}")
}

/// The figures of a reduction.
pub fn reduction_object(object: Object, done: &Reduction) -> Object {
    object
        .put("mwh", done.mwh)
        .put("worth_cents", done.worth)
        .put("target_cents", done.target)
        .put("short_cents", done.short)
        .put("over_cents", done.over)
}

/// A call on one user that changes the book.
fn changing(
    arguments: &Arguments,
    id: u32,
    asked: Asked,
    make: impl Fn(Operator, &mut [u8]) -> Result<(String, Object), Refusal>,
) -> Result<Outcome, Failure> {
    let call = Call::new(arguments)?;
    let mut changed = call.unchanged();
    let mut outcome = Outcome::default();
    match make(call.operator(&mut changed.log), &mut changed.book) {
        Err(refusal) => call.refuse(&mut outcome, Some(id), asked, refusal),
        Ok((line, object)) => {
            call.tell(&mut outcome, line, call.noting(object, &changed));
            call.tell_log(&mut outcome, &changed);
            call.keep(arguments, &changed, &mut outcome)?;
        }
    }
    Ok(outcome)
}
