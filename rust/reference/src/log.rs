//! Document 02, ask 6, "Withdrawing a reduction": the log. "A lent log holds mark
//! `GDL`, a zero byte, entry count and held book's length (32 bits each), the book
//! as the last call given the log left it (9,512 bytes), and 256 entries, oldest
//! first, of 256 cuts by trade place (32 bits each); unused bytes are 0."

use crate::book::{u32_at, Book, MOST_TRADES};
use crate::questions::{ask, ACCEPTED};
use crate::units::Mwh;

const MARK: &[u8; 3] = b"GDL";

/// Where the entry count, the held book's length, the held book and the entries
/// stand.
const COUNT_AT: usize = 4;
const HELD_LENGTH_AT: usize = 8;
const HELD_AT: usize = 12;
const ENTRIES_AT: usize = HELD_AT + MOST_HELD;

/// The room for the held book.
pub const MOST_HELD: usize = 9_512;

const CUT_LENGTH: usize = 4;
const ENTRY_LENGTH: usize = CUT_LENGTH * MOST_TRADES;

pub const MOST_ENTRIES: usize = 256;

/// 271,668 bytes.
pub const LOG_LENGTH: usize = ENTRIES_AT + ENTRY_LENGTH * MOST_ENTRIES;

/// What one reduction cut of each trade of the book; past the trades no cut lies.
pub type Entry = Vec<Mwh>;

/// The entries of a log, oldest first.
#[derive(Clone, Debug, Default, PartialEq, Eq)]
pub struct Log {
    pub entries: Vec<Entry>,
}

/// "It starts empty from one book, only its length asked": the log's own, and
/// whether the book can be held. The log is unchanged after a refusal.
pub fn start(log: &mut [u8], book: &[u8]) -> u32 {
    if log.len() != LOG_LENGTH || book.len() > MOST_HELD {
        return 19;
    }
    Log::default().write(book, log);
    ACCEPTED
}

impl Log {
    /// Question 19: "a log of another length or form, or whose held book differs
    /// from the one given". A log of the right form is the one that its entries and
    /// the book given are written as.
    pub fn from_bytes(log: &[u8], book: &Book) -> Result<Log, u32> {
        ask(19, log.len() == LOG_LENGTH)?;
        let count = usize::try_from(u32_at(log, COUNT_AT)).unwrap_or(usize::MAX);
        ask(19, count <= MOST_ENTRIES)?;
        let entries = log[ENTRIES_AT..].chunks_exact(ENTRY_LENGTH).take(count);
        let read = Log {
            entries: entries.map(|bytes| entry(bytes, book)).collect(),
        };
        let used = read.used_bytes(&book.to_bytes());
        ask(19, log.starts_with(&used) && is_zero(&log[used.len()..]))?;
        ask(19, read.cuts_lie_on(book))?;
        Ok(read)
    }

    /// The log in bytes, with the book that it holds.
    pub fn to_bytes(&self, held: &[u8]) -> Vec<u8> {
        let mut bytes = self.used_bytes(held);
        bytes.resize(LOG_LENGTH, 0);
        bytes
    }

    /// The same, written into a log of the right length.
    pub fn write(&self, held: &[u8], log: &mut [u8]) {
        let used = self.used_bytes(held);
        let (start, unused) = log.split_at_mut(used.len());
        start.copy_from_slice(&used);
        unused.fill(0);
    }

    /// The bytes of the log up to its last entry; those behind are unused.
    fn used_bytes(&self, held: &[u8]) -> Vec<u8> {
        let mut bytes = vec![0; ENTRIES_AT + ENTRY_LENGTH * self.entries.len()];
        let mut put = |at: usize, part: &[u8]| bytes[at..][..part.len()].copy_from_slice(part);
        put(0, MARK);
        put(COUNT_AT, &self.entries.len().to_le_bytes()[..4]);
        put(HELD_LENGTH_AT, &held.len().to_le_bytes()[..4]);
        put(HELD_AT, held);
        for (place, entry) in self.entries.iter().enumerate() {
            for (trade, cut) in entry.iter().enumerate() {
                let at = ENTRIES_AT + ENTRY_LENGTH * place + CUT_LENGTH * trade;
                put(at, &cut.0.to_le_bytes()[..CUT_LENGTH]);
            }
        }
        bytes
    }

    /// "Cuts lie on trades of kind 0 and day 0 whose standing plus all their cuts
    /// is within notified."
    fn cuts_lie_on(&self, book: &Book) -> bool {
        let mut trades = book.trades.iter().enumerate();
        trades.all(|(place, trade)| {
            let cuts: Mwh = self.entries.iter().map(|entry| entry[place]).sum();
            let within = trade.standing + cuts <= trade.notified;
            cuts == Mwh::ZERO || trade.is_bilateral_today() && within
        })
    }

    /// "A reduction adds an entry": what it cut of each trade.
    pub fn add(&mut self, before: &Book, after: &Book) {
        let trades = before.trades.iter().zip(&after.trades);
        let cuts = trades.map(|(old, new)| old.standing - new.standing);
        self.entries.push(cuts.collect());
    }

    /// Question 20 asks whether there is room for an entry.
    pub fn is_full(&self) -> bool {
        self.entries.len() == MOST_ENTRIES
    }
}

/// The cuts of an entry on the trades of the book.
fn entry(bytes: &[u8], book: &Book) -> Entry {
    let cuts = bytes.chunks_exact(CUT_LENGTH).take(book.trades.len());
    cuts.map(|cut| Mwh(i128::from(u32_at(cut, 0)))).collect()
}

/// Whether every byte is 0.
fn is_zero(bytes: &[u8]) -> bool {
    bytes.iter().fold(0, |any, byte| any | byte) == 0
}
