//! Reference implementation of document 01: the day book, imbalance risk,
//! guarantee calls and reduced trades; and of document 02, asks 4 (parameters
//! with a start date), 1 (a list of postings), 8 (whole cancellations), 3 (credit
//! for long positions, version 2 of the book), 6 (a log, and the withdrawal of a
//! reduction), 5 (group portfolios, version 3 of the book), 13 (field-wise storage),
//! 7 (books between versions) and 9 (who may see and do what).
//!
//! It is plain and slow on purpose. The modules follow the order of the
//! document, and the comments cite its sections in quotes. Every number is
//! computed in 128 bits, where no value of any book can wrap.
//!
//! The return of retained shrinkage ([`shrinkage`]) is an ask of document 02 and
//! has nothing to do with a book.
//!
//! Every call on a book takes it as bytes with the party that acts; writing, the
//! printed day, the start of a log and the inverse of a form have none. A call takes a
//! store as bytes or none; reading,
//! writing, the printed day, the start of a log, the converter and the two ways
//! between a book and its field-wise form take no store. A call that can
//! change a book takes a log as bytes, or none; a withdrawal always takes one. A
//! refused call returns the number of the first question that failed, every other
//! field 0, and leaves the book and the log.

#![forbid(unsafe_code)]

pub mod book;
pub mod calls;
pub mod cancellation;
pub mod convert;
pub mod credit;
pub mod day;
pub mod form;
pub mod group;
pub mod levels;
pub mod list;
pub mod log;
pub mod logged;
pub mod output;
pub mod party;
pub mod posting;
pub mod questions;
pub mod reduction;
pub mod run;
pub mod seen;
pub mod show;
pub mod shrinkage;
pub mod store;
pub mod transfer;
pub mod units;
pub mod users;
pub mod version;
pub mod warning;
pub mod withdrawal;

pub use calls::{afternoon_call, morning_call, CallAnswer};
pub use cancellation::{cancellation, CancellationAnswer};
pub use convert::convert;
pub use day::day;
pub use form::{form, restore};
pub use levels::{afternoon_level, morning_level, LevelAnswer};
pub use list::{list, Columns};
pub use log::start as start_log;
pub use party::{Given, Party};
pub use posting::posting;
pub use questions::check;
pub use reduction::{reduction, ReductionAnswer};
pub use run::{run, RunAnswer};
pub use seen::{flag, trade, trade_count, CountAnswer, FlagAnswer};
pub use show::{show, show_picked};
pub use transfer::{read, write, Image};
pub use users::{levels, AllLevels, UserLevels};
pub use warning::{warning, WarningAnswer};
pub use withdrawal::{withdrawal, WithdrawalAnswer};
