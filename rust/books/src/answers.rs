//! Answers, and those of the reference to calls.

use reference::book::MOST_USERS;
use reference::list::Columns;
use reference::party::Given;

use crate::calls::Call;

/// What each place beside a list holds before the call.
pub const PLACE_BEFORE: u32 = 99;

/// What each byte of an output holds before the call.
pub const OUTPUT_BEFORE: u8 = 0xAA;

/// The states of users by their numbers.
const STATES: [&str; 4] = ["clear", "short", "call", "quiet"];

/// The number, the other fields in the order of document 01, and the bytes
/// handed back. The number of a printed day is that of its refusal.
#[derive(Clone, Debug, Default, PartialEq, Eq)]
pub struct Answer {
    pub number: u32,
    /// The places of a list; level; id, state and levels of all users; level, added; warned; flagged; the count of
    /// trades; MWh, worth, T, short, over; excess, tries, complete; reductions, MWh, worth; MWh, worth; else
    /// empty.
    pub fields: Vec<i128>,
    /// The shown record or trade, the 256 marks of a cancellation, the image read, the part or
    /// output written into, or the printed day; else empty.
    pub part: Vec<u8>,
}

impl Answer {
    pub fn of_fields(number: u32, fields: &[i128]) -> Answer {
        Answer {
            number,
            fields: fields.to_vec(),
            part: Vec::new(),
        }
    }

    /// The number of a list, and this many places as the call leaves them.
    pub fn of_places(places: usize, list: impl FnOnce(&mut [u32]) -> u32) -> Answer {
        let mut places = vec![PLACE_BEFORE; places];
        let number = list(&mut places);
        let fields = places.into_iter().map(i128::from);
        Answer {
            number,
            fields: fields.collect(),
            part: Vec::new(),
        }
    }

    /// The number of a call that writes into an output of this length, and the output
    /// as the call leaves it.
    pub fn of_output(length: usize, call: impl FnOnce(&mut [u8]) -> u32) -> Answer {
        let mut output = vec![OUTPUT_BEFORE; length];
        let number = call(&mut output);
        Answer {
            number,
            fields: Vec::new(),
            part: output,
        }
    }

    pub fn of_part(number: u32, part: &[u8]) -> Answer {
        Answer {
            number,
            fields: Vec::new(),
            part: part.to_vec(),
        }
    }
}

/// What answers a call on a book by a party, with a store and a log, or none, and
/// changes book and log. A withdrawal and a start without a log are given an empty
/// part.
pub type Implementation = fn(&mut [u8], Given<'_>, Option<&mut Vec<u8>>, &Call) -> Answer;

/// The answer of the reference to a call by this party with this store and log, or
/// none; book and log are changed as the call says. A party, a store or a log that the
/// call does not take is not looked at.
pub fn answer(book: &mut [u8], given: Given<'_>, log: Option<&mut Vec<u8>>, call: &Call) -> Answer {
    let log = log.map(Vec::as_mut_slice);
    match call {
        Call::Posting { id, area, amount } => {
            let number = reference::posting(book, given, log, *id, *area, *amount);
            Answer::of_fields(number, &[])
        }
        Call::List {
            ids,
            areas,
            amounts,
            places,
        } => {
            let columns = Columns {
                ids,
                areas,
                amounts,
            };
            Answer::of_places(*places, |places| {
                reference::list(book, given, log, columns, places)
            })
        }
        Call::Show { id } => {
            let (number, part) = reference::show(book, given, *id);
            Answer::of_part(number, part)
        }
        Call::ShowPicked {
            afternoon,
            pick,
            id,
        } => {
            let (number, part) = reference::show_picked(book, afternoon, given, *pick, *id);
            Answer::of_part(number, part)
        }
        Call::MorningLevel { id } => level(reference::morning_level(book, given, *id)),
        Call::AfternoonLevel { id } => level(reference::afternoon_level(book, given, *id)),
        Call::Levels => levels(&reference::levels(book, given)),
        Call::MorningCall { id } => guarantee_call(reference::morning_call(book, given, log, *id)),
        Call::AfternoonCall { id } => {
            guarantee_call(reference::afternoon_call(book, given, log, *id))
        }
        Call::Warning { id } => {
            let warning = reference::warning(book, given, *id);
            Answer::of_fields(warning.number, &[i128::from(warning.warned)])
        }
        Call::Flag { id } => {
            let flag = reference::flag(book, given, *id);
            Answer::of_fields(flag.number, &[i128::from(flag.flagged)])
        }
        Call::TradeCount { id } => {
            let trades = reference::trade_count(book, given, *id);
            let count = i128::try_from(trades.count).unwrap_or(i128::MAX);
            Answer::of_fields(trades.number, &[count])
        }
        Call::Trade { id, ordinal } => {
            let (number, part) = reference::trade(book, given, *id, *ordinal);
            Answer::of_part(number, part)
        }
        Call::Reduction { id } => reduction(reference::reduction(book, given, log, *id)),
        Call::Cancellation { id, tries } => {
            let found = reference::cancellation(book, given, *id, *tries);
            let complete = i128::from(found.complete);
            Answer {
                number: found.number,
                fields: vec![found.excess, i128::from(found.tries), complete],
                part: found.marks.map(u8::from).to_vec(),
            }
        }
        Call::Run => {
            let run = reference::run(book, given, log);
            let fields = [i128::from(run.reductions), run.mwh, run.worth];
            Answer::of_fields(run.number, &fields)
        }
        Call::Withdrawal => {
            let done = reference::withdrawal(book, given, log.unwrap_or_default());
            Answer::of_fields(done.number, &[done.mwh, done.worth])
        }
        Call::Start => {
            let number = reference::start_log(log.unwrap_or_default(), book);
            Answer::of_fields(number, &[])
        }
        Call::Read => {
            let (number, image) = reference::read(book, given.party);
            Answer::of_part(number, &image)
        }
        Call::Write { image, length } => {
            Answer::of_output(*length, |part| reference::write(image, part))
        }
        Call::Convert { version, length } => Answer::of_output(*length, |output| {
            reference::convert(book, given.party, *version, output)
        }),
        Call::Form { length } => {
            Answer::of_output(*length, |output| reference::form(book, given.party, output))
        }
        Call::Restore { length } => {
            Answer::of_output(*length, |output| reference::restore(book, output))
        }
        Call::Day => {
            let text = reference::day(book);
            Answer::of_part(reference::check(book), text.as_bytes())
        }
    }
}

fn level(answer: reference::LevelAnswer) -> Answer {
    Answer::of_fields(answer.number, &[answer.level])
}

/// Of each of 64 users id, state, morning and afternoon level; 0 past the last user.
fn levels(answer: &reference::AllLevels) -> Answer {
    let mut fields: Vec<i128> = Vec::new();
    for user in &answer.users {
        let state = STATES.iter().position(|word| *word == user.state);
        let state = state.and_then(|place| i128::try_from(place).ok());
        fields.extend([
            user.id.into(),
            state.unwrap_or(-1),
            user.morning,
            user.afternoon,
        ]);
    }
    fields.resize(4 * MOST_USERS, 0);
    Answer::of_fields(answer.number, &fields)
}

fn guarantee_call(answer: reference::CallAnswer) -> Answer {
    Answer::of_fields(answer.number, &[answer.level, answer.added])
}

fn reduction(answer: reference::ReductionAnswer) -> Answer {
    let fields = [
        answer.mwh,
        answer.worth,
        answer.target,
        answer.short,
        answer.over,
    ];
    Answer::of_fields(answer.number, &fields)
}
