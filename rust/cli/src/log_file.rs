//! A log of reductions that a command is given, and the reductions that it has
//! noted. They are told by the engine's withdrawals on copies: what each gives back
//! is what the reduction cut.

use std::path::{Path, PathBuf};

use daybook::{Log, Operator, Refusal, Trade, Withdrawal};

use crate::files;
use crate::outcome::Failure;
use daybook_text::json::Object;
use daybook_text::trace::tariffs;
use daybook_text::words::{counted, euros, grouped, word, AREAS};

/// A log, and the file that it was read from.
#[derive(Clone, Debug, PartialEq, Eq)]
pub struct LogFile {
    pub path: PathBuf,
    /// The file's name, for messages.
    pub name: String,
    pub log: Log,
}

impl LogFile {
    pub fn new(path: &Path, bytes: Vec<u8>) -> LogFile {
        LogFile {
            path: path.to_path_buf(),
            name: files::shown(path),
            log: Log::from_bytes(bytes),
        }
    }

    pub fn open(path: &Path) -> Result<LogFile, Failure> {
        Ok(LogFile::new(path, files::read(path)?))
    }

    /// The engine's number for a withdrawal from the log by this book: 0 or 18 where
    /// it is one for the book.
    fn number(&self, book: &[u8]) -> u32 {
        let (mut log, mut book) = (self.log.clone(), book.to_vec());
        let withdrawn = Operator::new().log(&mut log).withdraw(&mut book);
        withdrawn.map_or_else(Refusal::number, |_| 0)
    }

    /// Whether the log is one for a book, asked of the engine.
    pub fn is_for(&self, book: &[u8]) -> bool {
        [0, Refusal::LogEmpty.number()].contains(&self.number(book))
    }

    /// The reductions that the log has noted, oldest first; the log has to be one for
    /// the book that it holds.
    pub fn reductions(&self) -> Result<Vec<Noted>, Refusal> {
        let (mut log, mut book) = (Some(self.log.clone()), self.log.held().to_vec());
        let mut noted = Vec::new();
        loop {
            match withdrawn(Operator::new(), &mut log, &mut book) {
                Ok(it) => noted.push(it),
                Err(Refusal::LogEmpty) => break,
                Err(refusal) => return Err(refusal),
            }
        }
        noted.reverse();
        Ok(noted)
    }
}

/// A reduction that a log has noted.
#[derive(Clone, Debug, PartialEq, Eq)]
pub struct Noted {
    /// Its place in the log, from 1.
    pub place: usize,
    pub mwh: u64,
    pub worth: u64,
    pub cuts: Vec<Cut>,
}

/// What was cut of a trade.
#[derive(Clone, Copy, Debug, PartialEq, Eq)]
pub struct Cut {
    /// The trade's place, from 1.
    pub place: usize,
    pub trade: Trade,
    pub mwh: u64,
    /// At tariff, in cents.
    pub worth: u64,
}

/// Withdraws the last reduction from a log and a book, and tells it.
pub fn withdrawn(
    operator: Operator,
    log: &mut Option<Log>,
    book: &mut [u8],
) -> Result<Noted, Refusal> {
    let place = log.as_ref().map_or(0, Log::entries);
    let before = Operator::new().read(book)?;
    let Withdrawal { mwh, worth } = match log {
        Some(log) => operator.log(log).withdraw(book)?,
        None => return Err(Refusal::LogForm),
    };
    let after = Operator::new().read(book)?;
    let tariffs = tariffs(&before.prices);
    let trades = before.trades.iter().zip(&after.trades).enumerate();
    let cut = |(place, (before, after)): (usize, (&Trade, &Trade))| {
        let mwh = u64::from(after.standing.saturating_sub(before.standing));
        Cut {
            place: place + 1,
            trade: *before,
            mwh,
            worth: mwh * tariffs[usize::from(before.area).min(2)],
        }
    };
    Ok(Noted {
        place,
        mwh,
        worth,
        cuts: trades.map(cut).filter(|cut| cut.mwh > 0).collect(),
    })
}

/// How many reductions a log has noted, in words.
pub fn noted(name: &str, count: usize) -> String {
    match count {
        0 => format!("{name}: no reduction noted"),
        _ => format!("{name}: {} noted", counted(count, "reduction")),
    }
}

/// MWh and worth of reductions together, in words.
pub fn together(noted: &[Noted], what: &str) -> String {
    let mwh: u64 = noted.iter().map(|it| it.mwh).sum();
    let worth: u64 = noted.iter().map(|it| it.worth).sum();
    format!("{} MWh {what}, worth {} EUR", grouped(mwh), euros(worth))
}

impl Noted {
    /// In words: the reduction, and a line for each trade.
    pub fn words(&self, what: &str) -> String {
        let figures = together(std::slice::from_ref(self), what);
        let mut text = format!("reduction {}: {figures}\n", self.place);
        for cut in &self.cuts {
            let (seller, buyer) = (cut.trade.seller, cut.trade.buyer);
            let (area, mwh) = (word(&AREAS, cut.trade.area), grouped(cut.mwh));
            let place = cut.place;
            text.push_str(&format!(
                "  trade {place}, {seller} to {buyer} {area}: {mwh} MWh\n"
            ));
        }
        text
    }

    pub fn object(&self) -> Object {
        let cut = |cut: &Cut| {
            Object::new()
                .put("trade", cut.place)
                .put("seller", cut.trade.seller)
                .put("buyer", cut.trade.buyer)
                .string("area", &word(&AREAS, cut.trade.area))
                .put("mwh", cut.mwh)
                .put("worth_cents", cut.worth)
                .end()
        };
        Object::new()
            .put("number", 0)
            .put("reduction", self.place)
            .put("mwh", self.mwh)
            .put("worth_cents", self.worth)
            .put("cuts", daybook_text::json::list(self.cuts.iter().map(cut)))
    }

    /// A row for each trade that was cut, with the columns of `CUTS`.
    pub fn rows(&self) -> Vec<Vec<String>> {
        let row = |cut: &Cut| {
            vec![
                self.place.to_string(),
                cut.place.to_string(),
                cut.trade.seller.to_string(),
                cut.trade.buyer.to_string(),
                word(&AREAS, cut.trade.area),
                cut.mwh.to_string(),
                daybook_text::words::plain_euros(cut.worth),
            ]
        };
        self.cuts.iter().map(row).collect()
    }
}

/// The columns of a table of cuts.
pub const CUTS: [&str; 7] = [
    "reduction",
    "trade",
    "seller",
    "buyer",
    "area",
    "mwh",
    "worth",
];
