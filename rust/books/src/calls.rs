//! Calls as values.

use reference::transfer::Image;

/// One call, with its arguments. Book, store and log are lent apart.
#[derive(Clone, Debug, PartialEq, Eq)]
pub enum Call {
    Posting {
        id: u32,
        area: u32,
        amount: i64,
    },
    /// A list of postings, its columns and the number of places beside them.
    List {
        ids: Vec<u32>,
        areas: Vec<u32>,
        amounts: Vec<i64>,
        places: usize,
    },
    Show {
        id: u32,
    },
    /// The book is the morning book; the afternoon book comes with the call.
    ShowPicked {
        afternoon: Vec<u8>,
        pick: bool,
        id: u32,
    },
    MorningLevel {
        id: u32,
    },
    AfternoonLevel {
        id: u32,
    },
    Levels,
    MorningCall {
        id: u32,
    },
    AfternoonCall {
        id: u32,
    },
    Warning {
        id: u32,
    },
    Flag {
        id: u32,
    },
    TradeCount {
        id: u32,
    },
    /// The trade of this ordinal among those that the user may see.
    Trade {
        id: u32,
        ordinal: u32,
    },
    Reduction {
        id: u32,
    },
    Cancellation {
        id: u32,
        tries: u32,
    },
    Run,
    Withdrawal,
    /// The log lent is started from the book.
    Start,
    Read,
    /// The image is written into a part of this length.
    Write {
        image: Box<Image>,
        length: usize,
    },
    /// The book is written as one of this version into an output of this length.
    Convert {
        version: u32,
        length: usize,
    },
    /// The field-wise form is written into an output of this length.
    Form {
        length: usize,
    },
    /// The bytes lent as the book are a form; its book is written into an output of
    /// this length.
    Restore {
        length: usize,
    },
    Day,
}

impl Call {
    pub const NAMES: [&'static str; 24] = [
        "posting",
        "list",
        "show",
        "show picked",
        "morning level",
        "afternoon level",
        "levels",
        "morning call",
        "afternoon call",
        "warning",
        "flag",
        "trade count",
        "trade",
        "reduction",
        "cancellation",
        "run",
        "withdrawal",
        "start",
        "read",
        "write",
        "convert",
        "form",
        "restore",
        "day",
    ];

    /// Whether the call can be given a store.
    pub fn takes_store(&self) -> bool {
        !matches!(
            self,
            Call::Start
                | Call::Read
                | Call::Write { .. }
                | Call::Convert { .. }
                | Call::Form { .. }
                | Call::Restore { .. }
                | Call::Day
        )
    }

    /// Whether the call can be given a log: it can change a book.
    pub fn takes_log(&self) -> bool {
        matches!(
            self,
            Call::Posting { .. }
                | Call::List { .. }
                | Call::MorningCall { .. }
                | Call::AfternoonCall { .. }
                | Call::Reduction { .. }
                | Call::Run
                | Call::Withdrawal
        )
    }

    /// Whether the call has an acting party: it is on a book, and is no printed day.
    pub fn takes_party(&self) -> bool {
        !matches!(
            self,
            Call::Start | Call::Write { .. } | Call::Restore { .. } | Call::Day
        )
    }

    /// The id of a call on a user.
    pub fn id(&self) -> Option<u32> {
        match self {
            Call::Posting { id, .. }
            | Call::MorningCall { id }
            | Call::AfternoonCall { id }
            | Call::Warning { id }
            | Call::Reduction { id }
            | Call::Cancellation { id, .. } => Some(*id),
            _ => self.own_id(),
        }
    }

    /// The id of a call that a shipper may make for itself.
    pub fn own_id(&self) -> Option<u32> {
        match self {
            Call::Show { id }
            | Call::ShowPicked { id, .. }
            | Call::MorningLevel { id }
            | Call::AfternoonLevel { id }
            | Call::Flag { id }
            | Call::TradeCount { id }
            | Call::Trade { id, .. } => Some(*id),
            _ => None,
        }
    }

    pub fn name(&self) -> &'static str {
        let place = match self {
            Call::Posting { .. } => 0,
            Call::List { .. } => 1,
            Call::Show { .. } => 2,
            Call::ShowPicked { .. } => 3,
            Call::MorningLevel { .. } => 4,
            Call::AfternoonLevel { .. } => 5,
            Call::Levels => 6,
            Call::MorningCall { .. } => 7,
            Call::AfternoonCall { .. } => 8,
            Call::Warning { .. } => 9,
            Call::Flag { .. } => 10,
            Call::TradeCount { .. } => 11,
            Call::Trade { .. } => 12,
            Call::Reduction { .. } => 13,
            Call::Cancellation { .. } => 14,
            Call::Run => 15,
            Call::Withdrawal => 16,
            Call::Start => 17,
            Call::Read => 18,
            Call::Write { .. } => 19,
            Call::Convert { .. } => 20,
            Call::Form { .. } => 21,
            Call::Restore { .. } => 22,
            Call::Day => 23,
        };
        Call::NAMES[place]
    }
}
