//! Refusals as they are told: in words for people, as an object for programs.

use std::path::Path;

use daybook::{Operator, Refusal};

use crate::advice;
use crate::convert::Lost;
use crate::form::or_null;
use crate::log_file::LogFile;
use crate::outcome::{Failure, Told};
use crate::reasons::{self, reason, Asked};
use crate::source::{Source, Store};
use daybook_text::draft::{Mistake, Spot};
use daybook_text::faults::Fault;
use daybook_text::fields::Place;
use daybook_text::json::{list, quoted, Object};
use daybook_text::log_faults::log_fault;

/// How many faults of a book are told in words.
const MOST_FAULTS: usize = 20;

/// A question, with its money in euros as in everything that is told.
pub fn question(refusal: Refusal) -> String {
    let question = refusal.question();
    match refusal {
        Refusal::CalledIn => question.replace("> 1,000,000 ", "> 10,000.00 EUR "),
        _ => question.to_string(),
    }
}

/// A refusal in a line.
pub fn refused(refusal: Refusal) -> String {
    let number = refusal.number();
    format!("refused by question {number}: {}", question(refusal))
}

/// A refused book: the question, then the fields at fault, a line each.
pub fn of_book(name: &str, refusal: Refusal, faults: &[(Option<Spot>, Fault)]) -> Failure {
    let mut lines = vec![format!("{name}: {}", refused(refusal))];
    let places = faults.iter().map(|(spot, fault)| (spot.as_ref(), fault));
    lines.extend(fault_lines(name, places.clone()));
    let advice = advice::of_faults(places.clone().map(|(_, fault)| fault));
    let advice = advice.unwrap_or_else(|| advice::of_question(refusal));
    lines.push(to_do(name, advice));
    let faults = places.map(|(spot, fault)| fault_object(spot, fault));
    let object = Object::new()
        .string("book", name)
        .put("accepted", false)
        .put("number", refusal.number())
        .string("question", &question(refusal))
        .put("faults", list(faults))
        .put("advice", list([quoted(advice)]));
    told(lines.join("\n"), object)
}

/// What to do, as a message ends in it.
pub fn to_do(name: &str, advice: &str) -> String {
    format!("{name}: what to do: {advice}")
}

/// The first faults, a line each, and how many there are more.
fn fault_lines<'a>(
    name: &str,
    faults: impl ExactSizeIterator<Item = (Option<&'a Spot>, &'a Fault)>,
) -> Vec<String> {
    let more = faults.len().saturating_sub(MOST_FAULTS);
    let line = |(spot, fault): (Option<&Spot>, &Fault)| {
        let spot = spot.map_or_else(String::new, Spot::to_string);
        format!("{name}{spot}: {fault}")
    };
    let mut lines: Vec<String> = faults.take(MOST_FAULTS).map(line).collect();
    if more > 0 {
        lines.push(format!("{name}: and {more} more"));
    }
    lines
}

/// A refused form: the question, then which one its book fails, and the fields at
/// fault, a line each.
pub fn of_form(
    name: &str,
    refusal: Refusal,
    of_book: Option<Refusal>,
    faults: &[Fault],
) -> Failure {
    let mut lines = vec![format!("{name}: {}", refused(refusal))];
    lines.extend(of_book.map(|it| format!("{name}: its book is {}", refused(it))));
    lines.extend(fault_lines(name, faults.iter().map(|fault| (None, fault))));
    let advice = advice::of_faults(faults).unwrap_or_else(|| advice::of_question(refusal));
    lines.push(to_do(name, advice));
    let faults = faults.iter().map(|fault| fault_object(None, fault));
    let object = Object::new()
        .string("book", name)
        .put("accepted", false)
        .put("number", refusal.number())
        .string("question", &question(refusal))
        .put("book_number", or_null(of_book.map(Refusal::number)))
        .put("faults", list(faults))
        .put("advice", list([quoted(advice)]));
    told(lines.join("\n"), object)
}

/// A refused conversion: the question, the reason or what would be lost, a line each,
/// and what to do.
pub fn of_conversion(
    name: &str,
    refusal: Refusal,
    lost: &[Lost],
    reason: &str,
    advice: &str,
) -> Failure {
    let mut lines = vec![refused(refusal)];
    lines.extend(lost.iter().take(MOST_FAULTS).map(Lost::told));
    if lost.len() > MOST_FAULTS {
        lines.push(format!("and {} more", lost.len() - MOST_FAULTS));
    }
    if !reason.is_empty() {
        lines.push(reason.to_string());
    }
    let line = |line: &String| format!("{name}: {line}");
    let mut lines: Vec<String> = lines.iter().map(line).collect();
    lines.push(to_do(name, advice));
    let object = Object::new()
        .string("book", name)
        .put("number", refusal.number())
        .string("question", &question(refusal))
        .put("lost", list(lost.iter().map(|it| quoted(&it.told()))))
        .string("reason", reason)
        .put("advice", list([quoted(advice)]));
    told(lines.join("\n"), object)
}

/// What is written, or not, at a place of a file.
pub fn noted(name: &str, it: &Mistake) -> String {
    format!("{name}{}: {}", it.spot, it.reason)
}

/// A text or a table that cannot be read: its mistakes, a line each, and what to do.
pub fn of_text(name: &str, mistakes: &[Mistake]) -> Failure {
    let mut lines: Vec<String> = mistakes.iter().map(|it| noted(name, it)).collect();
    lines.push(to_do(name, advice::OF_TEXT));
    let object = Object::new()
        .string("book", name)
        .put("accepted", false)
        .put("mistakes", list(mistakes.iter().map(mistake_object)))
        .put("advice", list([quoted(advice::OF_TEXT)]));
    told(lines.join("\n"), object)
}

/// A refused call on a user, or on the book: the question, then the reason.
pub fn of_call(
    source: &Source,
    store: &Store,
    id: Option<u32>,
    asked: Asked,
    refusal: Refusal,
) -> Failure {
    let reason = reason(&source.bytes, store, id.unwrap_or(0), asked, refusal);
    let object = Object::new().string("book", &source.name);
    let mut object = object.put("number", refusal.number());
    if let Some(id) = id {
        object = object.put("id", id);
    }
    let object = object
        .string("question", &question(refusal))
        .string("reason", &reason);
    let advice = advice::of_call(source, store, id, asked, refusal);
    let name = &source.name;
    let mut lines = vec![format!("{name}: {}", refused(refusal))];
    if !reason.is_empty() {
        lines.push(format!("{name}: {reason}"));
    }
    lines.push(to_do(name, &advice));
    let object = object.put("advice", list([quoted(&advice)]));
    told(lines.join("\n"), object)
}

/// A call that the party may not make. What is told is told by the two ids alone, and
/// nothing by the book.
pub fn of_party(name: &str, party: u32, id: u32) -> Failure {
    let refusal = Refusal::Party;
    let reason = match party == id {
        true => format!("{party} is no shipper of the book"),
        false => format!("a shipper is told of itself alone, and {party} asks for {id}"),
    };
    let object = Object::new()
        .string("book", name)
        .put("number", refusal.number())
        .put("id", id)
        .string("question", &question(refusal));
    with_reason(name, refusal, &reason, &advice::of_party(party, id), object)
}

/// A refused book without its fields at fault, and a text that cannot be read without
/// its words: they tell of other users.
pub fn without_faults(name: &str, failure: Failure) -> Failure {
    let Failure::Refused(Told { message, object }) = failure else {
        return failure;
    };
    let question = message.lines().next().unwrap_or_default();
    let (message, head) = match object.split_once(",\"mistakes\":") {
        Some((head, _)) => (format!("{name}: cannot be read"), Some(head)),
        None => {
            let cut = object.split_once(",\"faults\":");
            (question.to_string(), cut.map(|(head, _)| head))
        }
    };
    let object = head.map_or(object.clone(), |head| format!("{head}}}"));
    let to_do = to_do(name, "tell the operator, who holds the book");
    let message = format!("{message}\n{to_do}");
    Failure::Refused(Told { message, object })
}

/// A call refused by a question about its log: the reason, and what helps.
pub fn of_log(
    source: &Source,
    log: &LogFile,
    target: Option<&Path>,
    id: Option<u32>,
    refusal: Refusal,
) -> Failure {
    let (reason, advice) = reasons::of_log(source, log, target, refusal);
    let name = &source.name;
    let mut lines = vec![format!("{name}: {}", refused(refusal))];
    lines.push(format!("{name}: {reason}"));
    lines.extend(advice.iter().map(|line| to_do(name, line)));
    let object = Object::new().string("book", name);
    let mut object = object.put("number", refusal.number());
    if let Some(id) = id {
        object = object.put("id", id);
    }
    let object = object
        .string("question", &question(refusal))
        .string("reason", &reason)
        .put("advice", list(advice.iter().map(|line| quoted(line))));
    told(lines.join("\n"), object)
}

/// A log that is none for the book that it holds, or whose held book is refused.
pub fn of_held(log: &LogFile, refusal: Refusal) -> Failure {
    let (name, held) = (&log.name, log.log.held());
    let book = Operator::new().read(held).unwrap_or_default();
    let fault = log_fault(log.log.as_bytes(), held, &book);
    let (number, reason) = match fault.filter(|it| refusal == Refusal::LogForm || it.is_form()) {
        Some(fault) => (Refusal::LogForm, fault.to_string()),
        None => (refusal, "the book that it holds is refused".to_string()),
    };
    let object = Object::new()
        .string("log", name)
        .put("accepted", false)
        .put("number", number.number())
        .string("question", &question(number));
    let advice = "`daybook log BOOK -o FILE` starts a log for a book";
    with_reason(name, number, &reason, advice, object)
}

/// A refused store.
pub fn of_store(name: &str, refusal: Refusal, reason: &str) -> Failure {
    let object = Object::new()
        .string("book", name)
        .put("accepted", false)
        .put("number", refusal.number())
        .string("question", &question(refusal));
    with_reason(name, refusal, reason, advice::of_question(refusal), object)
}

/// The question, the reason where there is one, and what to do.
fn with_reason(
    name: &str,
    refusal: Refusal,
    reason: &str,
    advice: &str,
    object: Object,
) -> Failure {
    let mut lines = vec![format!("{name}: {}", refused(refusal))];
    if !reason.is_empty() {
        lines.push(format!("{name}: {reason}"));
    }
    lines.push(to_do(name, advice));
    let object = object.string("reason", reason);
    told(
        lines.join("\n"),
        object.put("advice", list([quoted(advice)])),
    )
}

fn told(message: String, object: Object) -> Failure {
    Failure::Refused(Told {
        message,
        object: object.end(),
    })
}

fn fault_object(spot: Option<&Spot>, fault: &Fault) -> String {
    let (record, place) = match fault.place {
        Place::Header => ("header", None),
        Place::User(place) => ("user", Some(place + 1)),
        Place::Trade(place) => ("trade", Some(place + 1)),
    };
    let mut object = Object::new().string("record", record);
    if let Some(place) = place {
        object = object.put("place", place);
    }
    if let Some(spot) = spot {
        object = written(object, spot);
    }
    object
        .string("field", &fault.field.to_string())
        .string("reason", &fault.to_string())
        .end()
}

fn mistake_object(mistake: &Mistake) -> String {
    let object = written(Object::new(), &mistake.spot);
    object.string("reason", &mistake.reason).end()
}

/// Where something is written; the file's name for one of a folder.
fn written(object: Object, spot: &Spot) -> Object {
    let object = match spot.file {
        "" => object,
        file => object.string("file", file),
    };
    object.put("line", spot.line).put("column", spot.column)
}
