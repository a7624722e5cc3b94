//! Why a call is refused by a question after the seventh, in words. Levels are
//! the engine's; what else is said stands in the fields of book, store and log.

use std::path::Path;

use daybook::{Book, Level, Operator, Refusal, User};

use crate::advice::of_question;
use crate::cancel::worth;
use crate::files::{is_standard, quoted, shown};
use crate::log_file::LogFile;
use crate::source::{Source, Store};
use daybook_text::groups::{is_eligible, shares};
use daybook_text::log_faults::{log_fault, LogFault};
use daybook_text::store;
use daybook_text::words::{counted, euros, grouped, wide, word, AREAS};

/// What was asked for.
#[derive(Clone, Copy, Debug, PartialEq, Eq)]
pub enum Asked {
    /// A shown record, a level, a warning: nothing that has a question of its own.
    Plain,
    Posting {
        area: u32,
        amount: i64,
    },
    MorningCall,
    AfternoonCall,
    Reduction,
    Cancellation {
        tries: u32,
    },
    List {
        lines: usize,
    },
}

/// The reason of a refusal for a user of an accepted book.
pub fn reason(book: &[u8], store: &Store, id: u32, asked: Asked, refusal: Refusal) -> String {
    let Ok(fields) = Operator::new().read(book) else {
        return String::new();
    };
    match (refusal, fields.users.iter().find(|user| user.id == id)) {
        (Refusal::StoreForm, _) => {
            let bytes = store.bytes.as_deref().unwrap_or(&[]);
            format!("store: {}", store::malformed(bytes).unwrap_or_default())
        }
        (Refusal::SetInForce, _) => {
            let bytes = store.bytes.as_deref().unwrap_or(&[]);
            format!("store: {}", store::not_in_force(bytes, fields.date))
        }
        (Refusal::Lines, _) => match asked {
            Asked::List { lines } => format!("the list has {}", counted(lines, "line")),
            _ => String::new(),
        },
        (Refusal::Tries, _) => match asked {
            Asked::Cancellation { tries } => format!("{} tries", grouped(tries)),
            _ => String::new(),
        },
        (Refusal::Id, _) => not_in_the_book(&fields, id),
        (_, Some(user)) => of_user(book, &fields, store, user, asked, refusal),
        (_, None) => String::new(),
    }
}

fn not_in_the_book(book: &Book, id: u32) -> String {
    let ids: Vec<String> = book.users.iter().map(|user| user.id.to_string()).collect();
    format!(
        "{id} is none of its {}: {}",
        counted(ids.len(), "id"),
        ids.join(", ")
    )
}

fn of_user(
    bytes: &[u8],
    book: &Book,
    store: &Store,
    user: &User,
    asked: Asked,
    refusal: Refusal,
) -> String {
    let level = level(bytes, store.operator(), user.id, asked).map_or(0, |Level(cents)| cents);
    let (shown, assigned, blocked) = (euros(level), euros(user.assigned), euros(user.blocked));
    let reason = match refusal {
        Refusal::Shipper => "is a clearing house".to_string(),
        Refusal::Entry => entry(user, asked),
        Refusal::CalledIn => {
            let figures = store::figures(store.bytes.as_deref(), book.date);
            let margin = euros(figures.margin);
            let lacking = i128::from(level) - i128::from(user.blocked);
            if lacking > i128::from(figures.margin) {
                let groups = in_groups(book, user);
                let trades = match groups.is_empty() {
                    true => "party to no trade standing below notified",
                    false => "no trade standing below notified calls it in",
                };
                format!("is not called in: it is not flagged, and {trades}{groups}")
            } else {
                let lacking = euros(lacking);
                format!("level {shown} - blocked {blocked} = {lacking} EUR, not above {margin} EUR")
            }
        }
        Refusal::AssignedCoversLevel => {
            format!("assigned {assigned} EUR is below the level {shown} EUR")
        }
        Refusal::AssignedBelowLevel => {
            format!("assigned {assigned} EUR covers the level {shown} EUR")
        }
        Refusal::WorthOfTrades => {
            let is_eligible = |place: &usize| is_eligible(book, user.id, &book.trades[*place]);
            let places: Vec<usize> = (0..book.trades.len()).filter(is_eligible).collect();
            let worth = euros(worth(book, &places));
            let target = euros(i128::from(level) - i128::from(user.assigned));
            format!("its eligible trades are worth {worth} EUR, below the target {target} EUR")
        }
        Refusal::EligibleTrade => {
            let groups = in_groups(book, user);
            let outside = match groups.is_empty() {
                true => "",
                false => " and leaves its group",
            };
            format!("has no bilateral sale for d that stands above 0{outside}{groups}")
        }
        _ => return String::new(),
    };
    format!("user {}, id {}: {reason}", place(book, user.id), user.id)
}

/// The groups that a user is in, which a reason goes by; nothing of a user in none.
fn in_groups(book: &Book, user: &User) -> String {
    let shares = shares(book, user);
    let told: Vec<String> = shares.iter().map(|it| it.short(user.id)).collect();
    match told.is_empty() {
        true => String::new(),
        false => format!(" ({})", told.join("; ")),
    }
}

/// The place of a user, from 1.
fn place(book: &Book, id: u32) -> String {
    let place = book.users.iter().position(|user| user.id == id);
    place.map_or_else(String::new, |place| grouped(wide(place) + 1))
}

fn level(book: &[u8], operator: Operator, id: u32, asked: Asked) -> Result<Level, Refusal> {
    match asked {
        Asked::MorningCall => operator.morning_level(book, id),
        _ => operator.afternoon_level(book, id),
    }
}

fn entry(user: &User, asked: Asked) -> String {
    let Asked::Posting { area, amount } = asked else {
        return String::new();
    };
    let entry = usize::try_from(area)
        .ok()
        .and_then(|area| user.physical.get(area));
    let (Some(entry), Ok(code)) = (entry, u8::try_from(area)) else {
        return format!("area {area} is none of 0 (PVB), 1 (TVB), 2 (AVB)");
    };
    let sum = i128::from(*entry) + i128::from(amount);
    let (area, entry) = (word(&AREAS, code), grouped(*entry));
    let (amount, sum) = (grouped(amount), grouped(sum));
    format!("physical {area} {entry} + {amount} = {sum} MWh is not within ±1,000,000 MWh")
}

/// Why a call is refused by a question about its log, and what helps, a line each.
/// The changed book goes to the target, or to none.
pub fn of_log(
    source: &Source,
    log: &LogFile,
    target: Option<&Path>,
    refusal: Refusal,
) -> (String, Vec<String>) {
    let name = &log.name;
    match refusal {
        Refusal::LogEmpty => {
            let emptied = "a posting, a list or a guarantee call empties a log";
            let reason = format!("{name} has no reduction noted; {emptied}");
            (reason, vec![of_question(refusal).to_string()])
        }
        Refusal::LogFull => {
            let noted = counted(log.log.entries(), "reduction");
            let reason = format!("{name} is full: {noted} noted, as many as it has room for");
            (reason, full(&book_word(source), log))
        }
        _ => {
            let book = Operator::new().read(&source.bytes).unwrap_or_default();
            match log_fault(log.log.as_bytes(), &source.bytes, &book) {
                None => (String::new(), vec![of_question(refusal).to_string()]),
                Some(fault) => {
                    let advice = log_advice(source, log, target, fault);
                    (format!("{name} {fault}"), advice)
                }
            }
        }
    }
}

/// What helps where a log is none for a book. No call with a log changes the date or
/// the length of a book: a change that was interrupted leaves other bytes alone.
fn log_advice(
    source: &Source,
    log: &LogFile,
    target: Option<&Path>,
    fault: LogFault,
) -> Vec<String> {
    let (book, file, held) = (book_word(source), quoted(&log.path), log.log.held());
    if fault.is_no_log() {
        return vec![format!("`daybook log {book} -o FILE` starts a log")];
    }
    let anew = format!("`daybook log {book} -o {file} --force` starts a new one");
    if !fault.is_other_book() || Operator::new().read(held).is_err() || !log.is_for(held) {
        return vec![format!("{anew}, which forgets what was noted")];
    }
    let forgets = match log.log.entries() {
        0 => String::new(),
        count => format!(", which forgets the {} noted", counted(count, "reduction")),
    };
    if !matches!(fault, LogFault::OtherBytes { .. }) {
        return vec![format!("it is the log of another book; {anew}{forgets}")];
    }
    let is_text = |it: &Path| source.is_text && it == Path::new(&source.name);
    let target = target.filter(|it| !is_standard(it) && !is_text(it));
    let target = target.map_or(book, quoted);
    let put = format!("`daybook log --held {file} -o {target} --force`");
    vec![
        format!("was a change interrupted? {put} puts the held book in its place"),
        format!("was the book changed without the log? {anew}{forgets}"),
    ]
}

/// The book as a command names it; one that is text or comes from standard input is
/// not to be written over.
pub fn book_word(source: &Source) -> String {
    let is_standard = source.name == shown(Path::new("-"));
    match source.is_text || is_standard {
        true => "BOOK".to_string(),
        false => quoted(Path::new(&source.name)),
    }
}

/// What helps with a full log of a book.
pub fn full(book: &str, log: &LogFile) -> Vec<String> {
    let log = quoted(&log.path);
    vec![
        format!("`daybook withdraw {book} --log {log} --in-place` withdraws the last reduction"),
        format!(
            "`daybook log {book} -o {log} --force` starts a new one, which forgets those noted"
        ),
    ]
}
