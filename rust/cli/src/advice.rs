//! What to do about a refusal, or about a file that cannot be read or written: the
//! line that its message ends in.

use std::io::ErrorKind;

use daybook::{shrinkage, Level, Operator, Refusal, User};

use crate::reasons::{book_word, Asked};
use crate::source::{Source, Store};
use daybook_text::faults::Fault;
use daybook_text::fields::Field;
use daybook_text::words::{euros, grouped, AREAS};

/// What to do about a refusal that a later engine has.
pub const UNKNOWN: &str = "fetch the program that goes with this engine";

/// What to do about a refused book, store, log or call, by the question alone: where
/// nothing is known that says more.
pub fn of_question(refusal: Refusal) -> &'static str {
    match refusal {
        Refusal::Mark => "give a book, in bytes or as text (`daybook help text`)",
        Refusal::Version => "write version 1, 2 or 3",
        Refusal::CountsAndLength => {
            "the file is cut off, or goes on behind its book: fetch it again"
        }
        Refusal::DateAndPrices | Refusal::Users | Refusal::Trades | Refusal::Positions => {
            "`daybook check BOOK` names the fields at fault: write them as it says"
        }
        Refusal::Id => "give one of these ids; without one all are told",
        Refusal::Shipper => "ask for a shipper: levels, calls and cuts are theirs",
        Refusal::Entry => "post an amount that keeps the entry within these limits",
        Refusal::CalledIn => "nothing: neither a call nor a cut is due",
        Refusal::AssignedCoversLevel => "let the shipper deposit what is lacking",
        Refusal::AssignedBelowLevel => "nothing: no cut is due",
        Refusal::EligibleTrade => "no cut helps: let the shipper deposit what is lacking",
        Refusal::Lines => "split the list into files of at most 512 lines",
        Refusal::StoreForm => "`daybook store TEXT -o FILE` makes a store of text",
        Refusal::SetInForce => "add a set that has begun on that day",
        Refusal::LogEmpty => "nothing: there is no reduction to withdraw",
        Refusal::LogForm => "`daybook log BOOK -o FILE` starts a log",
        Refusal::LogFull => "start a new log, or withdraw a reduction",
        Refusal::InformationLost => "drop what would be lost by `daybook change`",
        Refusal::ConversionRoom | Refusal::FormRoom => "give more room for what is written",
        Refusal::TargetVersion => "give --to one of these versions",
        Refusal::WorthOfTrades => "`daybook reduce BOOK ID` cuts what there is",
        Refusal::Tries => "give --tries a number from 1 to 65,535",
        Refusal::Party => "let the operator ask; a shipper asks for itself",
        Refusal::Form => "fetch the form again, or make it of its book: `daybook fields BOOK`",
        _ => UNKNOWN,
    }
}

/// What to do about a refused return of shrinkage.
pub fn of_return(refusal: shrinkage::Refusal) -> &'static str {
    match refusal {
        shrinkage::Refusal::Balance => "write every balance in kWh, within these limits",
        shrinkage::Refusal::Users => "write a balance for each of at most 64 users",
        _ => UNKNOWN,
    }
}

/// What to do about a file or a folder that cannot be read.
pub fn of_reading(kind: ErrorKind) -> &'static str {
    match kind {
        ErrorKind::NotFound => "give the name of a file that is there",
        ErrorKind::NotADirectory => "a part of the name is no folder: give another name",
        ErrorKind::PermissionDenied => "ask its owner for the right to read it",
        ErrorKind::InvalidInput | ErrorKind::InvalidFilename => "give the name of a file",
        _ => "see to the file and its disk, then give the command again",
    }
}

/// What to do about a file or a folder that cannot be written.
pub fn of_writing(kind: ErrorKind) -> &'static str {
    match kind {
        ErrorKind::NotFound => "make its folder, or give another name",
        ErrorKind::NotADirectory => "a part of the name is no folder: give another name",
        ErrorKind::PermissionDenied | ErrorKind::ReadOnlyFilesystem => {
            "give a name in a folder that you may write to"
        }
        ErrorKind::StorageFull | ErrorKind::QuotaExceeded | ErrorKind::FileTooLarge => {
            "make room for it, then give the command again: nothing was written"
        }
        ErrorKind::InvalidInput | ErrorKind::InvalidFilename => "give a shorter or plainer name",
        _ => "see to the folder and its disk, then give the command again",
    }
}

/// What to do about places of a text or of a table that cannot be read.
pub const OF_TEXT: &str = "write these places as they have to be, then give the command again";

/// What to do about a party that may not make a call, by the two ids alone.
pub fn of_party(party: u32, id: u32) -> String {
    match party == id {
        true => "give --as the id of a shipper of the book".to_string(),
        false => format!("ask for {party}, or let the operator ask"),
    }
}

/// What to do about the first of the fields at fault.
pub fn of_faults<'a>(faults: impl IntoIterator<Item = &'a Fault>) -> Option<&'static str> {
    let fault = faults.into_iter().next()?;
    Some(match fault.field {
        // What the mark says instead is told with it.
        Field::Mark => "give a book, in bytes or as text (`daybook help text`)",
        Field::Length => "the file is cut off, or goes on behind its book: fetch it again",
        Field::Version => "write version 1, 2 or 3",
        Field::UserCount | Field::TradeCount => "write 1 to 64 users, and at most 256 trades",
        Field::Date => "write a day that there is, of 2020 to 2099",
        Field::Price(_) => "write euros a MWh within these limits",
        Field::Id => "give every user an id of its own, rising from one to the next",
        Field::Role => "write shipper or clearing-house, in bytes 0 or 1",
        Field::ZeroBytes => "the bytes between the fields have to be 0: write them so",
        Field::Physical(_) => "write the entry within these limits",
        Field::Position(_) => {
            "write the position that is defined; a text or a table may leave positions out"
        }
        Field::Charges | Field::Assigned => "write the amount within these limits",
        Field::Blocked => "assign more, or block less",
        Field::Manager(_) => "name a shipper of the book that has no manager there, or none",
        Field::Seller | Field::Buyer => "name two users of the book, or add the user",
        Field::Area | Field::Kind | Field::Day => "write one of these",
        Field::Notified => "write the MWh within these limits",
        Field::Standing => {
            "let it stand at what is notified; for d a bilateral trade may stand below"
        }
    })
}

/// What to do about a refused call.
pub fn of_call(
    source: &Source,
    store: &Store,
    id: Option<u32>,
    asked: Asked,
    refusal: Refusal,
) -> String {
    let by_question = || of_question(refusal).to_string();
    of_user(source, store, id, asked, refusal).unwrap_or_else(by_question)
}

/// The same by the fields of the user, where they say more.
fn of_user(
    source: &Source,
    store: &Store,
    id: Option<u32>,
    asked: Asked,
    refusal: Refusal,
) -> Option<String> {
    let book = Operator::new().read(&source.bytes).ok()?;
    let user = book.users.iter().find(|user| Some(user.id) == id)?;
    Some(match refusal {
        Refusal::Entry => of_entry(user, asked)?,
        Refusal::AssignedCoversLevel => {
            let lacking = lacking(source, store, user, asked)?;
            let (book, id, lacking) = (book_word(source), user.id, euros(lacking));
            let change = format!("`daybook change {book} 'user {id} assigned +{lacking}' -o FILE`");
            format!("once {lacking} EUR more are deposited: {change}")
        }
        Refusal::EligibleTrade => {
            let lacking = lacking(source, store, user, asked)?;
            format!("no cut helps: {} EUR have to be deposited", euros(lacking))
        }
        Refusal::WorthOfTrades => {
            let (book, id) = (book_word(source), user.id);
            format!("`daybook reduce {book} {id}` cuts what there is")
        }
        _ => return None,
    })
}

/// The amounts that may be posted.
fn of_entry(user: &User, asked: Asked) -> Option<String> {
    let Asked::Posting { area, .. } = asked else {
        return None;
    };
    let area = usize::try_from(area).ok();
    let Some(entry) = area.and_then(|area| user.physical.get(area)) else {
        return Some(format!("write one of {}", AREAS.join(", ")));
    };
    let (least, most) = (
        -1_000_000 - i64::from(*entry),
        1_000_000 - i64::from(*entry),
    );
    let (least, most) = (grouped(least), grouped(most));
    Some(format!("post from {least} to {most} MWh"))
}

/// What the level exceeds the assigned guarantee by.
fn lacking(source: &Source, store: &Store, user: &User, asked: Asked) -> Option<u64> {
    let operator = store.operator();
    let level = match asked {
        Asked::MorningCall => operator.morning_level(&source.bytes, user.id),
        _ => operator.afternoon_level(&source.bytes, user.id),
    };
    let Level(level) = level.ok()?;
    level.checked_sub(user.assigned)
}
