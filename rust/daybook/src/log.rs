//! The log of reductions, and their withdrawal (document 02, ask 6).

use std::fmt::{self, Debug, Formatter};

use crate::answers::answered;
use crate::archive;
use crate::book::IMAGE_LENGTH;
use crate::refusal::Refusal;

/// The bytes of a log.
pub const LOG_LENGTH: usize = 271_668;

/// The most reductions that a log can note.
pub const MOST_ENTRIES: usize = 256;

/// Where the held book begins, behind the mark and the two numbers, and its room,
/// that of the largest book.
const HELD: usize = 12;
const HELD_ROOM: usize = IMAGE_LENGTH;

/// The reductions of a day, each to be withdrawn again: the book as the last call
/// with the log left it, and what each reduction cut of each trade.
///
/// Give it to every call that may change the book ([`Operator::log`]). A reduction
/// adds an entry, a run one for each of its own, a withdrawal drops the last, and an
/// accepted posting, list or guarantee call empties it; a refused call leaves it.
/// A book that was changed without it is told apart: a call with both is refused
/// with [`Refusal::LogForm`]. A log has room for [`MOST_ENTRIES`]; a full one
/// refuses a reduction with [`Refusal::LogFull`] and ends a run ([`Run::log_full`]).
///
/// ```
/// use daybook::{Log, Operator, Refusal, Withdrawal};
/// # use daybook::{Book, Prices, Trade, User};
/// # let prices = Prices { pvb_tariff: 2_000, tank_and_store_tariff: 2_100, ..Prices::default() };
/// # let (physical, position) = ([-10_000, 0, 0], [-40_000, 0, 0]);
/// # let seller = User { id: 101, physical, position, assigned: 50_000_000, ..User::default() };
/// # let buyer = User { id: 102, position: [30_000, 0, 0], ..User::default() };
/// # let sold = Trade { seller: 101, buyer: 102, notified: 30_000, standing: 30_000, ..Trade::default() };
/// # let users = vec![seller, buyer];
/// # let fields = Book { version: 1, date: 20_260_318, prices, users, trades: vec![sold] };
/// # let mut book = vec![0; fields.length()];
/// # daybook::write(&fields, &mut book)?;
/// let before = book.clone();
/// let mut log = Log::start(&book)?;
/// let mut operator = Operator::new().log(&mut log);
/// let cut = operator.reduction(&mut book, 101)?;
/// let back = operator.withdraw(&mut book)?;
/// assert_eq!(back, Withdrawal { mwh: cut.mwh, worth: cut.worth });
/// assert_eq!(book, before);
/// assert_eq!(operator.withdraw(&mut book), Err(Refusal::LogEmpty));
/// assert_eq!(log.entries(), 0);
/// # Ok::<(), Refusal>(())
/// ```
///
/// [`Operator::log`]: crate::Operator::log
/// [`Run::log_full`]: crate::Run::log_full
#[derive(Clone, PartialEq, Eq)]
pub struct Log {
    bytes: Vec<u8>,
}

/// A withdrawn reduction.
#[derive(Clone, Copy, Debug, Default, PartialEq, Eq)]
pub struct Withdrawal {
    /// MWh given back.
    pub mwh: u64,
    /// Cents that they are worth.
    pub worth: u64,
}

impl Log {
    /// A log that holds this book and has no entry. Only the book's length is asked:
    /// one of more than 9,512 bytes, which no accepted book has, is refused with
    /// [`Refusal::LogForm`].
    pub fn start(book: &[u8]) -> Result<Log, Refusal> {
        let mut log = Log::from_bytes(vec![0; LOG_LENGTH]);
        answered(archive::start_log(&mut log.bytes, book))?;
        Ok(log)
    }

    /// A log kept as bytes. Any will do: each call with the log judges them, and
    /// refuses with [`Refusal::LogForm`] what is no log for its book.
    pub fn from_bytes(bytes: Vec<u8>) -> Log {
        Log { bytes }
    }

    /// The bytes, to be kept beside the book.
    pub fn as_bytes(&self) -> &[u8] {
        &self.bytes
    }

    /// The bytes.
    pub fn into_bytes(self) -> Vec<u8> {
        self.bytes
    }

    /// The number of entries that the log tells; 0 where it is too short to tell one.
    pub fn entries(&self) -> usize {
        self.number_at(4).unwrap_or(0)
    }

    /// The book that the log holds, in the length that the log tells; empty where
    /// it is too short or the length is beyond the room for it.
    pub fn held(&self) -> &[u8] {
        let length = self.number_at(8).filter(|length| *length <= HELD_ROOM);
        let held = length.and_then(|length| self.bytes.get(HELD..HELD + length));
        held.unwrap_or_default()
    }

    /// The 32 bits at a place.
    fn number_at(&self, place: usize) -> Option<usize> {
        let bytes = self.bytes.get(place..place + 4)?;
        let number = u32::from_le_bytes(bytes.try_into().ok()?);
        usize::try_from(number).ok()
    }

    /// The bytes, lent to a call.
    pub(crate) fn bytes_mut(&mut self) -> &mut [u8] {
        &mut self.bytes
    }
}

/// What the log tells of itself, not its bytes.
impl Debug for Log {
    fn fmt(&self, formatter: &mut Formatter<'_>) -> fmt::Result {
        formatter
            .debug_struct("Log")
            .field("length", &self.bytes.len())
            .field("entries", &self.entries())
            .field("held", &self.held().len())
            .finish()
    }
}
