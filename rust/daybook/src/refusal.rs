//! Refusals: the questions of documents 01 and 02, by their numbers.

use std::error::Error;
use std::fmt::{self, Display, Formatter};

/// The first question that was answered by no. docs/QUESTIONS.md tells which calls
/// ask it, and in what order.
#[derive(Clone, Copy, Debug, PartialEq, Eq, PartialOrd, Ord, Hash)]
#[non_exhaustive]
#[repr(u32)]
pub enum Refusal {
    /// Question 1: at least 32 bytes, starting with the mark?
    Mark = 1,
    /// Question 2: version 1, 2 or 3?
    Version = 2,
    /// Question 3: counts in range and length exactly 32 (versions 2 and 3: 40) + 56
    /// (version 3: 68) × users + 20 × trades?
    CountsAndLength = 3,
    /// Question 4: date, prices, tolls and selling tariffs in range?
    DateAndPrices = 4,
    /// Question 5: every user field valid, managers too, positions apart?
    Users = 5,
    /// Question 6: every trade valid?
    Trades = 6,
    /// Question 7: every position as defined?
    Positions = 7,
    /// Question 8: id in the book?
    Id = 8,
    /// Question 9: a shipper?
    Shipper = 9,
    /// Question 10: area 0 to 2, and the new physical entry within ±1,000,000?
    Entry = 10,
    /// Question 11: level − blocked > 1,000,000 (with a store, its figure), and, but
    /// for the morning call, user called in?
    CalledIn = 11,
    /// Question 12: assigned ≥ level?
    AssignedCoversLevel = 12,
    /// Question 13: assigned < level?
    AssignedBelowLevel = 13,
    /// Question 14: has the user an eligible trade?
    EligibleTrade = 14,
    /// Question 15: at most 512 lines, columns and places of one count?
    Lines = 15,
    /// Question 16: is the store well formed?
    StoreForm = 16,
    /// Question 17: has the store a set in force on the book's date?
    SetInForce = 17,
    /// Question 18: has the log an entry?
    LogEmpty = 18,
    /// Question 19: is the log one for the book?
    LogForm = 19,
    /// Question 20: has the log room for one more entry?
    LogFull = 20,
    /// Question 21: is no information lost?
    InformationLost = 21,
    /// Question 22: is the output long enough?
    ConversionRoom = 22,
    /// Question 23: is the target version known?
    TargetVersion = 23,
    /// Question 24: are all eligible trades together worth the target?
    WorthOfTrades = 24,
    /// Question 25: 1 to 65,535 tries?
    Tries = 25,
    /// Question 26: may the party make this call?
    Party = 26,
    /// Question 29: does the form yield an accepted book?
    Form = 29,
    /// Question 30: is the output long enough?
    FormRoom = 30,
}

impl Refusal {
    /// Every refusal, in the order of the numbers.
    pub const ALL: &'static [Refusal] = &[
        Refusal::Mark,
        Refusal::Version,
        Refusal::CountsAndLength,
        Refusal::DateAndPrices,
        Refusal::Users,
        Refusal::Trades,
        Refusal::Positions,
        Refusal::Id,
        Refusal::Shipper,
        Refusal::Entry,
        Refusal::CalledIn,
        Refusal::AssignedCoversLevel,
        Refusal::AssignedBelowLevel,
        Refusal::EligibleTrade,
        Refusal::Lines,
        Refusal::StoreForm,
        Refusal::SetInForce,
        Refusal::LogEmpty,
        Refusal::LogForm,
        Refusal::LogFull,
        Refusal::InformationLost,
        Refusal::ConversionRoom,
        Refusal::TargetVersion,
        Refusal::WorthOfTrades,
        Refusal::Tries,
        Refusal::Party,
        Refusal::Form,
        Refusal::FormRoom,
    ];

    /// The number of the question.
    pub fn number(self) -> u32 {
        self as u32
    }

    /// The refusal of this number; none for 0 and for numbers of no question.
    pub fn from_number(number: u32) -> Option<Refusal> {
        let mut all = Refusal::ALL.iter().copied();
        all.find(|refusal| refusal.number() == number)
    }

    /// The question, in the words of the documents.
    pub fn question(self) -> &'static str {
        match self {
            Refusal::Mark => "at least 32 bytes, starting with the mark?",
            Refusal::Version => "version 1, 2 or 3?",
            Refusal::CountsAndLength => {
                "counts in range and length exactly 32 (versions 2 and 3: 40) + 56 (version 3: \
                 68) × users + 20 × trades?"
            }
            Refusal::DateAndPrices => "date, prices, tolls and selling tariffs in range?",
            Refusal::Users => "every user field valid, managers too, positions apart?",
            Refusal::Trades => "every trade valid?",
            Refusal::Positions => "every position as defined?",
            Refusal::Id => "id in the book?",
            Refusal::Shipper => "a shipper?",
            Refusal::Entry => "area 0 to 2, and the new physical entry within ±1,000,000?",
            Refusal::CalledIn => {
                "level − blocked > 1,000,000 (with a store, its figure), and, but for the morning \
                 call, user called in?"
            }
            Refusal::AssignedCoversLevel => "assigned ≥ level?",
            Refusal::AssignedBelowLevel => "assigned < level?",
            Refusal::EligibleTrade => "has the user an eligible trade?",
            Refusal::Lines => "at most 512 lines, columns and places of one count?",
            Refusal::StoreForm => "is the store well formed?",
            Refusal::SetInForce => "has the store a set in force on the book's date?",
            Refusal::LogEmpty => "has the log an entry?",
            Refusal::LogForm => "is the log one for the book?",
            Refusal::LogFull => "has the log room for one more entry?",
            Refusal::InformationLost => "is no information lost?",
            Refusal::ConversionRoom => "is the output long enough?",
            Refusal::TargetVersion => "is the target version known?",
            Refusal::WorthOfTrades => "are all eligible trades together worth the target?",
            Refusal::Tries => "1 to 65,535 tries?",
            Refusal::Party => "may the party make this call?",
            Refusal::Form => "does the form yield an accepted book?",
            Refusal::FormRoom => "is the output long enough?",
        }
    }
}

impl Display for Refusal {
    fn fmt(&self, formatter: &mut Formatter<'_>) -> fmt::Result {
        write!(
            formatter,
            "refused by question {}: {}",
            self.number(),
            self.question()
        )
    }
}

impl Error for Refusal {}
