//! The engine's answers by the Rust types of `daybook`.

use books::{Answer, Call};
use daybook::{
    Book, Cancellation, GuaranteeCall, Image, Level, Line, Log, Operator, Refusal, Run, Shipper,
    Trade, User, UserLevels, Version, IMAGE_LENGTH, LOG_LENGTH, MOST_TRADES, MOST_USERS,
};
use reference::party::{Given, Party};

use crate::shown::shown;

/// Whether the call has a function of its own in `daybook`; a printed day is
/// put together of others, a list of lines has columns and places of one count,
/// a started log has the right length, a conversion is into a version that there is,
/// and a shipper has the calls for its own id, which has 32 bits.
pub fn has(call: &Call, party: Party, log: Option<&[u8]>) -> bool {
    if let (true, Party::Shipper(id)) = (call.takes_party(), party) {
        return call.own_id().map(u64::from) == Some(id);
    }
    match call {
        Call::Day => false,
        Call::Convert { version, .. } => known(*version).is_some(),
        Call::Start => log.is_some_and(|log| log.len() == LOG_LENGTH),
        Call::List {
            ids,
            areas,
            amounts,
            places,
        } => [ids.len(), areas.len(), amounts.len()] == [*places; 3],
        _ => true,
    }
}

/// The answer to a call that `daybook` has by this party, with this store and log, or
/// none; book and log are changed as the call says.
pub fn answer(book: &mut [u8], given: Given<'_>, log: Option<&mut Vec<u8>>, call: &Call) -> Answer {
    if let (Some(id), Party::Shipper(_)) = (call.own_id(), given.party) {
        let shipper = Shipper::new(id);
        let shipper = given.store.map_or(shipper, |store| shipper.store(store));
        return by_shipper(shipper, book, call);
    }
    let operator = match given.store {
        Some(store) => Operator::new().store(store),
        None => Operator::new(),
    };
    let Some(log) = log else {
        return by_operator(operator, book, call);
    };
    if *call == Call::Start {
        return start(book, log);
    }
    let mut lent = Log::from_bytes(std::mem::take(log));
    let answer = by_operator(operator.log(&mut lent), book, call);
    *log = lent.into_bytes();
    answer
}

/// The calls of a shipper for itself.
fn by_shipper(shipper: Shipper<'_>, book: &[u8], call: &Call) -> Answer {
    match call {
        Call::Show { .. } => record(book, shipper.record(book)),
        Call::ShowPicked {
            afternoon, pick, ..
        } => {
            let picked = if *pick { afternoon } else { book };
            record(picked, shipper.record_picked(book, afternoon, *pick))
        }
        Call::MorningLevel { .. } => level(shipper.morning_level(book)),
        Call::AfternoonLevel { .. } => level(shipper.afternoon_level(book)),
        Call::Flag { .. } => fields(shipper.flag(book).map(|flagged| [flagged.into()])),
        Call::TradeCount { .. } => {
            let told = shipper.trade_count(book);
            trades(told, shipper.trades(book))
        }
        Call::Trade { ordinal, .. } => trade(shipper.trade(book, *ordinal)),
        _ => panic!("{} is the operator's", call.name()),
    }
}

/// A started log takes the place of the lent bytes; a refusal leaves them.
fn start(book: &[u8], log: &mut [u8]) -> Answer {
    let started = Log::start(book);
    if let Ok(started) = &started {
        log.copy_from_slice(started.as_bytes());
    }
    Answer::of_fields(number(&started), &[])
}

/// The calls of the operator.
fn by_operator(mut operator: Operator<'_>, book: &mut [u8], call: &Call) -> Answer {
    match call {
        Call::Posting { id, area, amount } => {
            fields(operator.posting(book, *id, *area, *amount).map(|()| []))
        }
        Call::List {
            ids,
            areas,
            amounts,
            ..
        } => list(operator, book, &lines(ids, areas, amounts)),
        Call::Show { id } => record(book, operator.record(book, *id)),
        Call::ShowPicked {
            afternoon,
            pick,
            id,
        } => {
            let picked = if *pick { afternoon } else { &*book };
            record(picked, operator.record_picked(book, afternoon, *pick, *id))
        }
        Call::MorningLevel { id } => level(operator.morning_level(book, *id)),
        Call::AfternoonLevel { id } => level(operator.afternoon_level(book, *id)),
        Call::Levels => levels(operator.levels(book)),
        Call::MorningCall { id } => guarantee_call(operator.morning_call(book, *id)),
        Call::AfternoonCall { id } => guarantee_call(operator.afternoon_call(book, *id)),
        Call::Warning { id } => fields(operator.warning(book, *id).map(|warned| [warned.into()])),
        Call::Flag { id } => fields(operator.flag(book, *id).map(|flagged| [flagged.into()])),
        Call::TradeCount { id } => {
            let told = operator.trade_count(book, *id);
            trades(told, operator.trades(book, *id))
        }
        Call::Trade { id, ordinal } => trade(operator.trade(book, *id, *ordinal)),
        Call::Read => match Operator::new().read(book) {
            Ok(fields) => Answer::of_part(0, &fields.to_image()),
            Err(refusal) => Answer::of_part(refusal.number(), &[0; IMAGE_LENGTH]),
        },
        Call::Write { image, length } => Answer::of_output(*length, |part| {
            number(&daybook::write(&book_of(image), part))
        }),
        Call::Convert { version, length } => {
            let version = known(*version).expect("a version that there is");
            written(*length, operator.convert(book, version), |output| {
                operator.convert_into(book, version, output)
            })
        }
        Call::Form { length } => written(*length, operator.field_wise(book), |output| {
            operator.field_wise_into(book, output).map(|()| book.len())
        }),
        Call::Restore { length } => written(*length, daybook::record_wise(book), |output| {
            daybook::record_wise_into(book, output).map(|()| book.len())
        }),
        Call::Reduction { id } => {
            let reduction = operator.reduction(book, *id);
            fields(reduction.map(|done| {
                [done.mwh, done.worth, done.target, done.short, done.over].map(i128::from)
            }))
        }
        Call::Cancellation { id, tries } => cancellation(operator.cancellation(book, *id, *tries)),
        Call::Run => run(operator.run(book)),
        Call::Withdrawal => {
            let done = operator.withdraw(book);
            fields(done.map(|done| [done.mwh, done.worth].map(i128::from)))
        }
        Call::Start | Call::Day => panic!("{} takes no party", call.name()),
    }
}

/// The version of a number.
fn known(version: u32) -> Option<Version> {
    u16::try_from(version).ok().and_then(Version::from_number)
}

/// An output of this length as a call leaves it, which tells how much it wrote. Where
/// the output is not too short the bytes by value have to be the same.
fn written(
    length: usize,
    bytes: Result<Vec<u8>, Refusal>,
    into: impl FnOnce(&mut [u8]) -> Result<usize, Refusal>,
) -> Answer {
    let found = Answer::of_output(length, |output| {
        let told = into(output);
        if let (Ok(told), Ok(bytes)) = (told, &bytes) {
            assert_eq!(told, bytes.len(), "the length told");
        }
        number(&told)
    });
    let short = [Refusal::ConversionRoom, Refusal::FormRoom].map(Refusal::number);
    if !short.contains(&found.number) {
        let by_value = Answer::of_output(length, |output| {
            if let Ok(bytes) = &bytes {
                output[..bytes.len()].copy_from_slice(bytes);
            }
            number(&bytes)
        });
        assert_eq!(by_value, found, "by value as into a part");
    }
    found
}

/// The count told, which is that of the trades handed out.
fn trades(told: Result<u32, Refusal>, trades: Result<Vec<Trade>, Refusal>) -> Answer {
    let count = trades.map(|trades| trades.len() as u64);
    assert_eq!(count, told.map(u64::from), "the trades that are told");
    fields(told.map(|count| [count.into()]))
}

/// The bytes of a trade, or of none.
fn trade(answer: Result<Option<Trade>, Refusal>) -> Answer {
    let bytes = match answer {
        Ok(Some(trade)) => trade.to_bytes().to_vec(),
        _ => Vec::new(),
    };
    Answer::of_part(number(&answer), &bytes)
}

fn number<T>(answer: &Result<T, Refusal>) -> u32 {
    match answer {
        Ok(_) => 0,
        Err(refusal) => refusal.number(),
    }
}

/// The number and the fields, each of them 0 after a refusal.
fn fields<const COUNT: usize>(answer: Result<[i128; COUNT], Refusal>) -> Answer {
    Answer::of_fields(number(&answer), &answer.unwrap_or([0; COUNT]))
}

/// The lines of three columns.
fn lines(ids: &[u32], areas: &[u32], amounts: &[i64]) -> Vec<Line> {
    let lines = ids.iter().zip(areas).zip(amounts);
    let line = |((id, area), amount): ((&u32, &u32), &i64)| Line {
        id: *id,
        area: *area,
        amount: *amount,
    };
    lines.map(line).collect()
}

/// The number of a list and those of its lines; a refused list says nothing of
/// its lines.
fn list(mut operator: Operator<'_>, book: &mut [u8], lines: &[Line]) -> Answer {
    let answer = operator.list(book, lines);
    Answer::of_places(lines.len(), |places| {
        for (place, line) in places.iter_mut().zip(answer.iter().flatten()) {
            *place = number(line);
        }
        number(&answer)
    })
}

fn level(answer: Result<Level, Refusal>) -> Answer {
    fields(answer.map(|level| [level.0.into()]))
}

/// Four fields of each of 64 users, 0 past the last.
fn levels(answer: Result<Vec<UserLevels>, Refusal>) -> Answer {
    let row = |user: &UserLevels| {
        let state = user.state as u64;
        [user.id.into(), state, user.morning.0, user.afternoon.0].map(i128::from)
    };
    let mut rows: Vec<i128> = answer.iter().flatten().flat_map(row).collect();
    rows.resize(4 * MOST_USERS, 0);
    Answer::of_fields(number(&answer), &rows)
}

fn guarantee_call(answer: Result<GuaranteeCall, Refusal>) -> Answer {
    fields(answer.map(|call| [call.level.0.into(), call.added.into()]))
}

/// The fields, and the marks as the part; each of them 0 after a refusal.
fn cancellation(answer: Result<Cancellation, Refusal>) -> Answer {
    let marks = answer.map_or([0; MOST_TRADES], |found| found.marks.map(u8::from));
    let found = fields(answer.map(|found| {
        let complete = i128::from(found.complete);
        [found.excess.into(), found.tries.into(), complete]
    }));
    Answer {
        part: marks.to_vec(),
        ..found
    }
}

/// A run at a full log has its totals beside 20.
fn run(answer: Result<Run, Refusal>) -> Answer {
    let full = answer.is_ok_and(|done| done.log_full);
    let mut found =
        fields(answer.map(|done| [done.reductions, done.mwh, done.worth].map(i128::from)));
    if full {
        found.number = Refusal::LogFull.number();
    }
    found
}

/// The record of the questioned book.
fn record(book: &[u8], answer: Result<User, Refusal>) -> Answer {
    match answer {
        Ok(user) => Answer::of_part(0, shown(book, &user.to_bytes())),
        Err(refusal) => Answer::of_part(refusal.number(), &[]),
    }
}

/// The book of an image with any counts; records past its places are 0.
pub fn book_of(image: &Image) -> Book {
    let mut book = Book::from_image(image);
    let trades = u16::from_le_bytes([image[6], image[7]]);
    book.users.resize(usize::from(image[5]), User::default());
    book.trades.resize(usize::from(trades), Trade::default());
    book
}
