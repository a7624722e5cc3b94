//! Logs (document 02, ask 6): started from a book, forged within the rules, and
//! broken in each way that question 19 asks for.

use reference::book::{Book, MOST_TRADES};
use reference::log::{start, Log, LOG_LENGTH, MOST_ENTRIES, MOST_HELD};
use reference::questions::questions_1_to_7;
use reference::units::Mwh;

use crate::calls::Call;
use crate::generator::Generator;
use crate::random::Random;

/// What each byte of a log holds before it is started.
pub const LOG_BEFORE: u8 = 0xAA;

/// Where the parts of a log stand.
const COUNT: usize = 4;
const HELD_LENGTH: usize = 8;
const HELD: usize = 12;
const ENTRIES: usize = HELD + MOST_HELD;
const ENTRY: usize = 4 * MOST_TRADES;

/// A log started from these bytes, or as if from none if they cannot be held.
pub fn started(book: &[u8]) -> Vec<u8> {
    let mut log = vec![0; LOG_LENGTH];
    if start(&mut log, book) != 0 {
        start(&mut log, &[]);
    }
    log
}

/// A log of the right form that no call wrote: entries with any cuts that the
/// trades have room for, sometimes as many as there can be, or one fewer.
pub fn forged(random: &mut Random, bytes: &[u8]) -> Vec<u8> {
    let Ok(book) = questions_1_to_7(bytes) else {
        return started(bytes);
    };
    let count = match random.below(6) {
        0 | 1 => MOST_ENTRIES,
        2 => MOST_ENTRIES - 1 - random.below(3),
        3 => 1 + random.below(MOST_ENTRIES),
        _ => 1 + random.below(4),
    };
    let mut log = Log {
        entries: vec![vec![Mwh::ZERO; book.trades.len()]; count],
    };
    for (place, room) in rooms(&book) {
        let mut room = room;
        for _ in 0..random.below(4) {
            let any = random.between(0, room);
            let cut = random.pick(&[1, room, any]).min(room);
            let entry = random.below(count);
            log.entries[entry][place] = log.entries[entry][place] + Mwh(cut);
            room -= cut;
        }
    }
    log.to_bytes(bytes)
}

/// The places of the trades that stand below notified, and by how much.
fn rooms(book: &Book) -> Vec<(usize, i128)> {
    let trades = book.trades.iter().enumerate();
    let rooms = trades.map(|(place, trade)| (place, (trade.notified - trade.standing).0));
    rooms.filter(|(_, room)| *room > 0).collect()
}

/// What breaks a log.
#[derive(Clone, Copy, Debug, PartialEq, Eq)]
pub enum LogDamage {
    Shorter,
    Longer,
    Empty,
    Mark,
    ZeroByte,
    /// 257 entries, or more.
    Count,
    /// One entry fewer than there are cuts in.
    CountBelow,
    HeldLength,
    HeldBook,
    PastHeldBook,
    PastEntries,
    /// A cut at a place past the trades.
    PastTrades,
    /// A cut of a trade that has no room for it, of any kind and day.
    AboveNotified,
    /// Cuts of two entries, each of which there is room for.
    AboveTogether,
    AnyByte,
}

impl LogDamage {
    pub const ALL: [LogDamage; 15] = [
        LogDamage::Shorter,
        LogDamage::Longer,
        LogDamage::Empty,
        LogDamage::Mark,
        LogDamage::ZeroByte,
        LogDamage::Count,
        LogDamage::CountBelow,
        LogDamage::HeldLength,
        LogDamage::HeldBook,
        LogDamage::PastHeldBook,
        LogDamage::PastEntries,
        LogDamage::PastTrades,
        LogDamage::AboveNotified,
        LogDamage::AboveTogether,
        LogDamage::AnyByte,
    ];

    /// Breaks a log of the right form of this accepted book; no if it has no place
    /// for this damage. Any byte may leave it a log of the right form.
    pub fn apply(self, random: &mut Random, log: &mut Vec<u8>, book: &Book) -> bool {
        let count = usize::try_from(word(log, COUNT)).unwrap_or(0);
        let held = usize::try_from(word(log, HELD_LENGTH)).unwrap_or(0);
        let entry = ENTRIES + ENTRY * random.below(count);
        let trades = book.trades.len();
        match self {
            LogDamage::Shorter => log.truncate(random.pick(&[LOG_LENGTH - 1, 12, 3, held])),
            LogDamage::Longer => log.push(0),
            LogDamage::Empty => log.clear(),
            LogDamage::Mark => log[random.below(3)] ^= 1 << random.below(8),
            LogDamage::ZeroByte => log[3] = random.byte().max(1),
            LogDamage::Count => put(log, COUNT, random.pick(&[257, 1 << 16, 1 << 31, u32::MAX])),
            LogDamage::CountBelow if count == 0 => return false,
            LogDamage::CountBelow => {
                let last = ENTRIES + ENTRY * (count - 1);
                if log[last..][..ENTRY].iter().all(|byte| *byte == 0) {
                    return false;
                }
                let fewer = word(log, COUNT) - 1;
                put(log, COUNT, fewer);
            }
            LogDamage::HeldLength => {
                let length = word(log, HELD_LENGTH);
                let other = [
                    0,
                    length.wrapping_sub(1),
                    length + 1,
                    9_512,
                    9_513,
                    u32::MAX,
                ];
                let other = random.pick(&other);
                put(
                    log,
                    HELD_LENGTH,
                    if other == length { length + 1 } else { other },
                );
            }
            LogDamage::HeldBook => log[HELD + random.below(held)] ^= 1 << random.below(8),
            LogDamage::PastHeldBook if held == MOST_HELD => return false,
            LogDamage::PastHeldBook => {
                let place = HELD + held + random.below(MOST_HELD - held);
                log[random.pick(&[place, HELD + held, ENTRIES - 1])] = 1;
            }
            LogDamage::PastEntries if count == MOST_ENTRIES => return false,
            LogDamage::PastEntries => {
                let first = ENTRIES + ENTRY * count;
                let place = first + random.below(LOG_LENGTH - first);
                log[random.pick(&[place, first, LOG_LENGTH - 1])] = 1;
            }
            LogDamage::PastTrades if count == 0 || trades == MOST_TRADES => return false,
            LogDamage::PastTrades => {
                let place = trades + random.below(MOST_TRADES - trades);
                let place = random.pick(&[place, trades, MOST_TRADES - 1]);
                put(log, entry + 4 * place, 1);
            }
            LogDamage::AboveNotified if count == 0 || trades == 0 => return false,
            LogDamage::AboveNotified => {
                let place = random.below(trades);
                let trade = &book.trades[place];
                let room = u32::try_from((trade.notified - trade.standing).0).unwrap_or(0);
                put(log, entry + 4 * place, random.pick(&[room + 1, u32::MAX]));
            }
            LogDamage::AboveTogether => {
                let rooms = rooms(book);
                if count < 2 || rooms.is_empty() {
                    return false;
                }
                let (place, room) = random.pick(&rooms);
                let room = u32::try_from(room).unwrap_or(0);
                put(log, ENTRIES + 4 * place, room);
                put(log, ENTRIES + ENTRY * (count - 1) + 4 * place, 1);
            }
            LogDamage::AnyByte => {
                let place = random.below(LOG_LENGTH);
                log[place] = random.byte();
            }
        }
        true
    }
}

/// A log of the right form of these bytes, with one damage that it has a place for.
fn broken(random: &mut Random, bytes: &[u8]) -> Vec<u8> {
    let mut log = match random.below(3) {
        0 => started(bytes),
        _ => forged(random, bytes),
    };
    let book = questions_1_to_7(bytes).unwrap_or_default();
    while !random.pick(&LogDamage::ALL).apply(random, &mut log, &book) {}
    log
}

/// No log, or one for these bytes: started, forged or broken.
pub fn any_log(random: &mut Random, bytes: &[u8]) -> Option<Vec<u8>> {
    match random.below(8) {
        0 => None,
        1 => Some(started(bytes)),
        2..=4 => Some(forged(random, bytes)),
        _ => Some(broken(random, bytes)),
    }
}

/// The log that a call of a sequence is given.
#[derive(Clone, Debug, PartialEq, Eq)]
pub enum DrawnLog {
    /// The one that was kept.
    Kept,
    /// Another one, or none.
    Other(Option<Vec<u8>>),
}

impl DrawnLog {
    /// The log drawn, where this one was kept.
    pub fn or_kept(self, kept: &[u8]) -> Option<Vec<u8>> {
        match self {
            DrawnLog::Kept => Some(kept.to_vec()),
            DrawnLog::Other(log) => log,
        }
    }
}

impl Generator {
    /// A call of a sequence with logs: mostly one that takes a log.
    pub fn logged_call(&mut self, book: &[u8], store: Option<&[u8]>) -> Call {
        match self.random().below(24) {
            0 => self.call(book, store),
            1 => Call::Start,
            2..=8 => Call::Withdrawal,
            _ => self.changing_call(book, store),
        }
    }

    /// The log of a call on this book, in a sequence in which one was kept: mostly
    /// that one.
    pub fn log(&mut self, book: &[u8]) -> DrawnLog {
        match self.random().below(3) {
            0 => DrawnLog::Other(any_log(self.random(), book)),
            _ => DrawnLog::Kept,
        }
    }

    /// The start of a log: the bytes to start it from, these or ones next to what can
    /// be held, and the part lent for the log, mostly of the right length.
    pub fn start(&mut self, book: &[u8]) -> (Vec<u8>, Vec<u8>) {
        let random = self.random();
        let lengths = [0, 1, MOST_HELD - 1, MOST_HELD, MOST_HELD + 1, 2 * MOST_HELD];
        let length = random.pick(&lengths);
        let book = match random.below(3) {
            0 => random.bytes(length),
            _ => book.to_vec(),
        };
        let others = [0, 12, LOG_LENGTH - 1, LOG_LENGTH + 1];
        let other = random.pick(&others);
        let length = if random.one_in(4) { other } else { LOG_LENGTH };
        (book, vec![LOG_BEFORE; length])
    }
}

fn word(bytes: &[u8], at: usize) -> u32 {
    u32::from_le_bytes([bytes[at], bytes[at + 1], bytes[at + 2], bytes[at + 3]])
}

fn put(bytes: &mut [u8], at: usize, word: u32) {
    bytes[at..at + 4].copy_from_slice(&word.to_le_bytes());
}
