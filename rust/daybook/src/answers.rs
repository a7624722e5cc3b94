//! The answers of the calls, and the number of a question as a [`Refusal`].

use crate::refusal::Refusal;

/// A level in cents.
#[derive(Clone, Copy, Debug, Default, PartialEq, Eq, PartialOrd, Ord)]
pub struct Level(pub u64);

/// What a user is, as the printed day says it.
#[derive(Clone, Copy, Debug, Default, PartialEq, Eq, Hash)]
pub enum State {
    /// A clearing house: it has no level.
    #[default]
    Clear,
    /// Short of cover.
    Short,
    /// Called in, with an assigned guarantee that suffices: an afternoon call is
    /// accepted.
    Call,
    /// None of these.
    Quiet,
}

impl State {
    /// The word of the printed day.
    pub fn word(self) -> &'static str {
        match self {
            State::Clear => "clear",
            State::Short => "short",
            State::Call => "call",
            State::Quiet => "quiet",
        }
    }

    /// The state of a number of the archive.
    pub(crate) fn of(number: u64) -> State {
        match number {
            0 => State::Clear,
            1 => State::Short,
            2 => State::Call,
            3 => State::Quiet,
            _ => panic!("the archive answered {number}, which is the number of no state"),
        }
    }
}

/// The levels and the state of a user.
#[derive(Clone, Copy, Debug, Default, PartialEq, Eq)]
pub struct UserLevels {
    /// The user's id.
    pub id: u32,
    /// Its state, as on the printed day.
    pub state: State,
    /// The morning level; 0 of a clearing house, which has none.
    pub morning: Level,
    /// The afternoon level; 0 of a clearing house, which has none.
    pub afternoon: Level,
}

/// An accepted guarantee call.
#[derive(Clone, Copy, Debug, Default, PartialEq, Eq)]
pub struct GuaranteeCall {
    /// The level that blocked was raised to.
    pub level: Level,
    /// Cents added to the blocked guarantee.
    pub added: u64,
}

/// An accepted reduction.
#[derive(Clone, Copy, Debug, Default, PartialEq, Eq)]
pub struct Reduction {
    /// MWh cut.
    pub mwh: u64,
    /// Cents that the cuts are worth.
    pub worth: u64,
    /// T, the afternoon level less the assigned guarantee, in cents.
    pub target: u64,
    /// Cents by which the worth stays below the target.
    pub short: u64,
    /// Cents by which the worth exceeds the target.
    pub over: u64,
}

/// An accepted run.
#[derive(Clone, Copy, Debug, Default, PartialEq, Eq)]
pub struct Run {
    /// The number of reductions.
    pub reductions: u64,
    /// MWh cut by all of them.
    pub mwh: u64,
    /// Cents that the cuts are worth.
    pub worth: u64,
    /// Whether the log was full while one more reduction was due: the run stopped
    /// there, with its cuts and their entries kept. Never without a log.
    pub log_full: bool,
}

/// The refusal of a number. Every part is lent with its length, so that the
/// engine is proved to answer 0 or the number of a question.
pub(crate) fn answered(number: u32) -> Result<(), Refusal> {
    match Refusal::from_number(number) {
        Some(refusal) => Err(refusal),
        None if number == 0 => Ok(()),
        None => panic!("the archive answered {number}, which is the number of no question"),
    }
}
