//! The engine's answers by the archive's C interface.

use books::{Answer, Call};
use daybook::archive;
use daybook::{IMAGE_LENGTH, MOST_TRADES, RECORD_LENGTH, TRADE_LENGTH};
use reference::party::Given;

use crate::shown::shown;

/// What a part for an answer holds before the call: a refusal has to put 0
/// there.
const BEFORE: u8 = 0xA5;

/// The engine's answer to a call by this party with this store and log, or none; book
/// and log are changed as the call says.
pub fn answer(book: &mut [u8], given: Given<'_>, log: Option<&mut Vec<u8>>, call: &Call) -> Answer {
    let (party, store) = (given.party.number(), given.store);
    let log = log.map(Vec::as_mut_slice);
    match call {
        Call::Posting { id, area, amount } => {
            let number = archive::posting(book, party, store, log, *id, *area, *amount);
            Answer::of_fields(number, &[])
        }
        Call::List {
            ids,
            areas,
            amounts,
            places,
        } => Answer::of_places(*places, |places| {
            archive::list(book, party, store, log, ids, areas, amounts, places)
        }),
        Call::Show { id } => record(book, |part| archive::show(book, party, store, *id, part)),
        Call::ShowPicked {
            afternoon,
            pick,
            id,
        } => record(if *pick { afternoon } else { book }, |part| {
            archive::show_picked(
                book,
                afternoon,
                party,
                store,
                archive::yes_or_no(*pick),
                *id,
                part,
            )
        }),
        Call::MorningLevel { id } => {
            fields::<1>(|part| archive::morning_level(book, party, store, *id, part))
        }
        Call::AfternoonLevel { id } => {
            fields::<1>(|part| archive::afternoon_level(book, party, store, *id, part))
        }
        Call::Levels => fields::<256>(|part| archive::levels(book, party, store, part)),
        Call::MorningCall { id } => {
            fields::<2>(|part| archive::morning_call(book, party, store, log, *id, part))
        }
        Call::AfternoonCall { id } => {
            fields::<2>(|part| archive::afternoon_call(book, party, store, log, *id, part))
        }
        Call::Warning { id } => fields::<1>(|part| archive::warning(book, party, store, *id, part)),
        Call::Flag { id } => fields::<1>(|part| archive::flag(book, party, store, *id, part)),
        Call::TradeCount { id } => {
            fields::<1>(|part| archive::trade_count(book, party, store, *id, part))
        }
        Call::Trade { id, ordinal } => {
            trade(|part, told| archive::trade(book, party, store, *id, *ordinal, part, told))
        }
        Call::Read => {
            let mut image = [BEFORE; IMAGE_LENGTH];
            let number = archive::read(book, party, &mut image);
            Answer::of_part(number, &image)
        }
        Call::Write { image, length } => {
            Answer::of_output(*length, |part| archive::write(&image[..], part))
        }
        Call::Convert { version, length } => Answer::of_output(*length, |output| {
            archive::convert(book, party, *version, output)
        }),
        Call::Form { length } => {
            Answer::of_output(*length, |output| archive::form(book, party, output))
        }
        Call::Restore { length } => {
            Answer::of_output(*length, |output| archive::restore(book, output))
        }
        Call::Reduction { id } => {
            fields::<5>(|part| archive::reduction(book, party, store, log, *id, part))
        }
        Call::Cancellation { id, tries } => {
            let mut marks = [BEFORE; MOST_TRADES];
            let found = fields::<3>(|part| {
                archive::cancellation(book, party, store, *id, *tries, &mut marks, part)
            });
            Answer {
                part: marks.to_vec(),
                ..found
            }
        }
        Call::Run => fields::<3>(|part| archive::run(book, party, store, log, part)),
        Call::Withdrawal => {
            let log = log.unwrap_or_default();
            fields::<2>(|part| archive::withdrawal(book, party, store, log, part))
        }
        Call::Start => {
            let number = archive::start_log(log.unwrap_or_default(), book);
            Answer::of_fields(number, &[])
        }
        Call::Day => crate::day::printed(book, answer),
    }
}

/// The number and the fields that a call puts into its answer.
fn fields<const COUNT: usize>(call: impl FnOnce(&mut [u64]) -> u32) -> Answer {
    let mut part = [u64::from_le_bytes([BEFORE; 8]); COUNT];
    let number = call(&mut part);
    Answer::of_fields(number, &part.map(i128::from))
}

/// The number and the record shown of the questioned book. The reference's part is
/// empty after a refusal, the record of the C interface is then 0.
fn record(book: &[u8], call: impl FnOnce(&mut [u8]) -> u32) -> Answer {
    let mut part = [BEFORE; RECORD_LENGTH];
    match call(&mut part) {
        0 => Answer::of_part(0, shown(book, &part)),
        number if part == [0; RECORD_LENGTH] => Answer::of_part(number, &[]),
        number => Answer::of_part(number, &part),
    }
}

/// The number and the trade of an ordinal: its 20 bytes, or the empty part where the
/// length told is 0, in which case, and after a refusal, every byte is 0.
fn trade(call: impl FnOnce(&mut [u8], &mut [u64]) -> u32) -> Answer {
    let mut part = [BEFORE; TRADE_LENGTH];
    let mut told = [u64::from_le_bytes([BEFORE; 8])];
    let number = call(&mut part, &mut told);
    match told {
        [0] if part == [0; TRADE_LENGTH] => Answer::of_part(number, &[]),
        [20] if number == 0 => Answer::of_part(0, &part),
        [told] => Answer {
            fields: vec![told.into()],
            ..Answer::of_part(number, &part)
        },
    }
}
