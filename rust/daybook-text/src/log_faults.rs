//! Why a log is none for a book: the first of what question 19 asks that does not
//! hold, with its place. The engine decides; this tells it in words.

use std::fmt::{self, Display, Formatter};

use daybook::{Book, Operator, Trade, LOG_LENGTH, MOST_ENTRIES};

use crate::words::{date, grouped, wide};

/// Where the held book begins, and its room; where the entries begin, and how many
/// bytes each has, four for each cut.
const HELD: usize = 12;
const HELD_ROOM: usize = 9_512;
const ENTRIES: usize = HELD + HELD_ROOM;
const ENTRY: usize = 1_024;
const CUT: usize = 4;

/// Why a log is none for a book. Places of bytes count from 0, others from 1.
#[derive(Clone, Copy, Debug, PartialEq, Eq)]
pub enum LogFault {
    /// A book in place of a log.
    IsBook,
    /// Another length.
    Length(usize),
    /// Another mark, or a byte behind it that is not 0.
    Mark,
    /// More entries than there is room for.
    Entries(usize),
    /// A held book longer than its room.
    HeldLength(usize),
    /// A held book of another length.
    OtherLength { held: usize, given: usize },
    /// A held book of another date.
    OtherDate { held: u32, given: u32 },
    /// A held book of the same date and length.
    OtherBytes { differing: usize, of: usize },
    /// A byte that is not used, and not 0.
    Unused(usize),
    /// A cut of a trade that the book does not have.
    NoTrade { entry: usize, trade: usize },
    /// A cut of a trade that is not bilateral for d.
    NotEligible { trade: usize },
    /// Cuts that would raise a trade above notified.
    Above {
        trade: usize,
        standing: u32,
        cut: u64,
        notified: u32,
    },
}

/// Why a log is none for an accepted book; none where it is one.
pub fn log_fault(log: &[u8], bytes: &[u8], book: &Book) -> Option<LogFault> {
    let (count, held) = match formed(log) {
        Ok(formed) => formed,
        Err(fault) => return Some(fault),
    };
    other_book(held, bytes)
        .or_else(|| unused(log, count, held.len(), book.trades.len()))
        .or_else(|| raised(log, count, &book.trades))
}

/// The number of entries and the held book of a log that has its form.
fn formed(log: &[u8]) -> Result<(usize, &[u8]), LogFault> {
    if log.starts_with(b"GDB") {
        return Err(LogFault::IsBook);
    }
    if log.len() != LOG_LENGTH {
        return Err(LogFault::Length(log.len()));
    }
    if !log.starts_with(b"GDL\0") {
        return Err(LogFault::Mark);
    }
    let (count, length) = (number(log, 4), number(log, 8));
    if count > MOST_ENTRIES {
        return Err(LogFault::Entries(count));
    }
    match log.get(HELD..HELD + length.min(HELD_ROOM)) {
        Some(held) if length <= HELD_ROOM => Ok((count, held)),
        _ => Err(LogFault::HeldLength(length)),
    }
}

/// The 32 bits at a place.
fn number(log: &[u8], place: usize) -> usize {
    let bytes = log.get(place..place + 4).unwrap_or(&[0; 4]);
    bytes
        .iter()
        .rev()
        .fold(0, |sum, byte| sum * 256 + usize::from(*byte))
}

fn other_book(held: &[u8], given: &[u8]) -> Option<LogFault> {
    if held == given {
        return None;
    }
    let day = |bytes: &[u8]| Operator::new().read(bytes).ok().map(|book| book.date);
    match (day(held), day(given)) {
        (Some(held), Some(given)) if held != given => Some(LogFault::OtherDate { held, given }),
        _ if held.len() != given.len() => Some(LogFault::OtherLength {
            held: held.len(),
            given: given.len(),
        }),
        _ => Some(LogFault::OtherBytes {
            differing: held.iter().zip(given).filter(|(a, b)| a != b).count(),
            of: held.len(),
        }),
    }
}

/// A byte behind the held book, or behind the last entry, or a cut past the trades.
fn unused(log: &[u8], count: usize, held: usize, trades: usize) -> Option<LogFault> {
    let first = |from: usize, to: usize| {
        let part = log.get(from..to).unwrap_or(&[]);
        part.iter().position(|byte| *byte != 0).map(|at| from + at)
    };
    if let Some(place) = first(HELD + held, ENTRIES) {
        return Some(LogFault::Unused(place));
    }
    for entry in 0..count {
        let start = ENTRIES + ENTRY * entry;
        if let Some(place) = first(start + CUT * trades, start + ENTRY) {
            return Some(LogFault::NoTrade {
                entry: entry + 1,
                trade: (place - start) / CUT + 1,
            });
        }
    }
    first(ENTRIES + ENTRY * count, log.len()).map(LogFault::Unused)
}

/// A trade that the cuts of all entries would raise where they may not.
fn raised(log: &[u8], count: usize, trades: &[Trade]) -> Option<LogFault> {
    for (place, trade) in trades.iter().enumerate() {
        let cut = |entry: usize| number(log, ENTRIES + ENTRY * entry + CUT * place);
        let cut: u64 = (0..count).map(|entry| cut(entry) as u64).sum();
        let is_above = u64::from(trade.standing) + cut > u64::from(trade.notified);
        let is_eligible = trade.kind == 0 && trade.day == 0;
        if cut > 0 && !is_eligible {
            return Some(LogFault::NotEligible { trade: place + 1 });
        }
        if is_above {
            return Some(LogFault::Above {
                trade: place + 1,
                standing: trade.standing,
                cut,
                notified: trade.notified,
            });
        }
    }
    None
}

impl LogFault {
    /// Whether the log holds another book, and may have its form.
    pub fn is_other_book(self) -> bool {
        matches!(
            self,
            LogFault::OtherLength { .. } | LogFault::OtherDate { .. } | LogFault::OtherBytes { .. }
        )
    }

    /// Whether the log has not even the form to hold a book.
    pub fn is_form(self) -> bool {
        self.is_no_log() || matches!(self, LogFault::Entries(_) | LogFault::HeldLength(_))
    }

    /// Whether the file is no log at all.
    pub fn is_no_log(self) -> bool {
        matches!(
            self,
            LogFault::IsBook | LogFault::Length(_) | LogFault::Mark
        )
    }
}

impl Display for LogFault {
    fn fmt(&self, formatter: &mut Formatter<'_>) -> fmt::Result {
        let whole = |number: usize| grouped(wide(number));
        let room = whole(MOST_ENTRIES);
        match *self {
            LogFault::IsBook => write!(formatter, "is a book, not a log"),
            LogFault::Length(length) => {
                let (length, wanted) = (whole(length), whole(LOG_LENGTH));
                write!(formatter, "is no log: {length} bytes, not {wanted}")
            }
            LogFault::Mark => write!(formatter, "is no log: it does not start with GDL and 0"),
            LogFault::Entries(count) => {
                let count = whole(count);
                write!(
                    formatter,
                    "is broken: {count} entries, and it has room for {room}"
                )
            }
            LogFault::HeldLength(length) => {
                let (length, most) = (whole(length), whole(HELD_ROOM));
                let held = "the length of the held book is";
                write!(formatter, "is broken: {held} {length}, at most {most}")
            }
            LogFault::OtherDate { held, given } => {
                let (held, given) = (date(held), date(given));
                write!(
                    formatter,
                    "holds a book of another date: {held}, not {given}"
                )
            }
            LogFault::OtherLength { held, given } => {
                let (held, given) = (whole(held), whole(given));
                write!(
                    formatter,
                    "holds a book of another length: {held} bytes, not {given}"
                )
            }
            LogFault::OtherBytes { differing, of } => {
                let (differing, of) = (whole(differing), whole(of));
                let held = "holds another book of this date and length";
                write!(formatter, "{held}: {differing} of {of} bytes differ")
            }
            LogFault::Unused(place) => {
                let place = whole(place);
                write!(formatter, "is broken: byte {place} is not used, and not 0")
            }
            LogFault::NoTrade { entry, trade } => write!(
                formatter,
                "is broken: reduction {entry} cuts trade {trade}, which the book does not have"
            ),
            LogFault::NotEligible { trade } => write!(
                formatter,
                "is broken: trade {trade} is not bilateral for d, and is noted as cut"
            ),
            LogFault::Above {
                trade,
                standing,
                cut,
                notified,
            } => {
                let (standing, cut, notified) =
                    (grouped(standing), grouped(cut), grouped(notified));
                let stands = format!("trade {trade} stands at {standing} of {notified} MWh");
                write!(
                    formatter,
                    "is broken: {stands}, and cuts of {cut} are noted"
                )
            }
        }
    }
}
