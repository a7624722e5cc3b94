//! The answers of the tuned implementation to the calls that take a store, without
//! a log, and to those between a book and its form. It knows versions 1 and 2 of the
//! book.

use reference::book::{length, user_length, MOST_USERS};
use reference::transfer::Image;
use reference::version::{FIRST_HEADER_LENGTH, LAST};
use tuned::requests;

use crate::answers::Answer;
use crate::calls::Call;
use crate::damage::version_of;

/// The last version that the tuned implementation knows.
const LAST_TUNED: u16 = 2;

/// Whether the bytes that a call questions are no book of version 3, which the tuned
/// implementation does not know.
pub fn knows(book: &[u8], call: &Call) -> bool {
    let bytes = match call {
        Call::ShowPicked {
            afternoon,
            pick: true,
            ..
        } => afternoon,
        Call::Write { image, .. } => &image[..],
        _ => book,
    };
    bytes.len() < FIRST_HEADER_LENGTH || !(LAST_TUNED + 1..=LAST).contains(&version_of(bytes))
}

/// The image of the tuned implementation, without managers: each field where a book
/// of version 2 has it.
pub fn narrowed(image: &Image) -> tuned::Image {
    let mut narrow = [0; tuned::IMAGE_LENGTH];
    for (from, to, length) in parts() {
        narrow[to..to + length].copy_from_slice(&image[from..from + length]);
    }
    narrow
}

/// The image of any version with the fields of one of the tuned implementation;
/// managers are 0.
pub fn widened(narrow: &tuned::Image) -> Image {
    let mut image = [0; reference::book::LONGEST];
    for (from, to, length) in parts() {
        image[from..from + length].copy_from_slice(&narrow[to..to + length]);
    }
    image
}

/// Where the header, each user and the trades stand in either image, and how long
/// they are.
fn parts() -> impl Iterator<Item = (usize, usize, usize)> {
    let at = |users: usize| (length(LAST, users, 0), length(LAST_TUNED, users, 0));
    let header = (0, 0, length(LAST_TUNED, 0, 0));
    let users = (0..MOST_USERS).map(move |place| {
        let (from, to) = at(place);
        (from, to, user_length(LAST_TUNED))
    });
    let (from, to) = at(MOST_USERS);
    let trades = (from, to, tuned::IMAGE_LENGTH - to);
    std::iter::once(header).chain(users).chain([trades])
}

/// The answer to a call with this store, or none; the book is changed as the
/// call says. None for a withdrawal, a start, reading, writing, a conversion, the
/// printed day and the queries of ask 9.
pub fn answer(book: &mut [u8], store: Option<&[u8]>, call: &Call) -> Option<Answer> {
    let answer = match call {
        Call::Posting { id, area, amount } => {
            fields(requests::posting(book, store, *id, *area, *amount).map(|()| []))
        }
        Call::List {
            ids,
            areas,
            amounts,
            places,
        } => {
            let columns = tuned::Columns {
                ids,
                areas,
                amounts,
            };
            Answer::of_places(*places, |places| {
                number(tuned::list(book, store, columns, places))
            })
        }
        Call::Show { id } => record(requests::show(book, store, *id)),
        Call::ShowPicked {
            afternoon,
            pick,
            id,
        } => record(requests::show_picked(book, afternoon, store, *pick, *id)),
        Call::MorningLevel { id } => {
            fields(requests::morning_level(book, store, *id).map(|level| [level.0]))
        }
        Call::AfternoonLevel { id } => {
            fields(requests::afternoon_level(book, store, *id).map(|level| [level.0]))
        }
        Call::MorningCall { id } => guarantee_call(requests::morning_call(book, store, *id)),
        Call::AfternoonCall { id } => guarantee_call(requests::afternoon_call(book, store, *id)),
        Call::Warning { id } => {
            fields(requests::warning(book, store, *id).map(|warned| [warned.into()]))
        }
        Call::Reduction { id } => reduction(requests::reduction(book, store, *id)),
        Call::Cancellation { id, tries } => {
            cancellation(tuned::cancellation(book, store, *id, *tries))
        }
        Call::Run => run(requests::run(book, store)),
        Call::Form { length } => {
            Answer::of_output(*length, |output| number(tuned::form(book, output)))
        }
        Call::Restore { length } => {
            Answer::of_output(*length, |output| number(tuned::restore(book, output)))
        }
        Call::Levels
        | Call::Flag { .. }
        | Call::TradeCount { .. }
        | Call::Trade { .. }
        | Call::Withdrawal
        | Call::Start
        | Call::Read
        | Call::Write { .. }
        | Call::Convert { .. }
        | Call::Day => return None,
    };
    Some(answer)
}

/// The same by the functions of document 01, which take no store.
pub fn plain_answer(book: &mut [u8], call: &Call) -> Option<Answer> {
    let answer = match call {
        Call::Posting { id, area, amount } => {
            fields(tuned::posting(book, *id, *area, *amount).map(|()| []))
        }
        Call::Show { id } => record(tuned::show(book, *id)),
        Call::ShowPicked {
            afternoon,
            pick,
            id,
        } => record(tuned::show_picked(book, afternoon, *pick, *id)),
        Call::MorningLevel { id } => fields(tuned::morning_level(book, *id).map(|level| [level.0])),
        Call::AfternoonLevel { id } => {
            fields(tuned::afternoon_level(book, *id).map(|level| [level.0]))
        }
        Call::MorningCall { id } => guarantee_call(tuned::morning_call(book, *id)),
        Call::AfternoonCall { id } => guarantee_call(tuned::afternoon_call(book, *id)),
        Call::Warning { id } => fields(tuned::warning(book, *id).map(|warned| [warned.into()])),
        Call::Reduction { id } => reduction(tuned::reduction(book, *id)),
        Call::Run => run(tuned::run(book)),
        Call::List { .. }
        | Call::Levels
        | Call::Flag { .. }
        | Call::TradeCount { .. }
        | Call::Trade { .. }
        | Call::Cancellation { .. }
        | Call::Withdrawal
        | Call::Start
        | Call::Read
        | Call::Write { .. }
        | Call::Convert { .. }
        | Call::Form { .. }
        | Call::Restore { .. }
        | Call::Day => return None,
    };
    Some(answer)
}

/// The number of a call.
fn number(answer: Result<(), u32>) -> u32 {
    answer.err().unwrap_or(0)
}

/// The number and the fields, each of them 0 after a refusal.
fn fields<const COUNT: usize>(answer: Result<[i64; COUNT], u32>) -> Answer {
    match answer {
        Ok(fields) => Answer::of_fields(0, &fields.map(i128::from)),
        Err(number) => Answer::of_fields(number, &[0; COUNT]),
    }
}

fn guarantee_call(answer: Result<tuned::GuaranteeCall, u32>) -> Answer {
    fields(answer.map(|call| [call.level.0, call.added.0]))
}

fn reduction(answer: Result<tuned::Reduction, u32>) -> Answer {
    fields(answer.map(|done| {
        let [worth, target] = [done.worth, done.target].map(|money| money.0);
        [done.mwh.0, worth, target, done.short.0, done.over.0]
    }))
}

/// The fields, and the marks as the part; each of them 0 after a refusal.
fn cancellation(answer: Result<tuned::Cancellation, u32>) -> Answer {
    let marks = answer.map_or([0; 256], |found| found.marks.map(u8::from));
    let fields = fields(answer.map(|found| {
        let complete = i64::from(found.complete);
        [found.excess.0, i64::from(found.tries), complete]
    }));
    Answer {
        part: marks.to_vec(),
        ..fields
    }
}

fn run(answer: Result<tuned::Run, u32>) -> Answer {
    fields(answer.map(|done| {
        let reductions = i64::try_from(done.reductions).unwrap_or(i64::MAX);
        [reductions, done.mwh.0, done.worth.0]
    }))
}

/// The record as the part; the empty part after a refusal.
fn record<const LENGTH: usize>(answer: Result<&[u8; LENGTH], u32>) -> Answer {
    match answer {
        Ok(user) => Answer::of_part(0, user),
        Err(number) => Answer::of_part(number, &[]),
    }
}
