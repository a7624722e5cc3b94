//! The calls of documents 01 and 02 on a day book, answered by the proved engine.
//!
//! A book is lent as its bytes. A call answers what the documents say, or the
//! [`Refusal`] of the first question that failed; a refused call leaves book and
//! log byte for byte the same. No call asks anything of its caller: any bytes
//! and any arguments get an answer.
//!
//! A call on a book has an acting party (ask 9). The [`Operator`] has every call; it
//! takes a store of parameter sets (ask 4) and a log of reductions (ask 6), or none,
//! and with a [`Log`] withdraws the last reduction. A [`Shipper`] has what it may be
//! told of itself. There is no call without a party, but for those that only
//! write what they are given in another form: [`write()`], [`Log::start`],
//! [`record_wise`].
//!
//! The engine is the archive `libexports.a`, made by `tools/staticlib`
//! from crates that are proved to meet the documents. This package turns its C
//! interface into Rust types and computes nothing itself, but for the sum of
//! [`Operator::most_reductions`] and the places of [`Columns`]. The return of retained
//! shrinkage is a module by itself, [`shrinkage`].
//!
//! A book of one [`Version`] is written as another by [`Operator::convert`], which
//! refuses to lose anything.
//!
//! For archives [`Operator::field_wise`] rearranges a book such that all of its ids
//! stand together, all of its roles, and so on; [`Columns`] tells where, and
//! [`record_wise`] gives the book back.
//!
//! ```
//! use daybook::{Area, Book, Level, Operator, Prices, Refusal, Shipper, User};
//!
//! let prices = Prices { pvb_tariff: 2_000, tank_and_store_tariff: 2_100, ..Prices::default() };
//! let user = User { id: 101, assigned: 20_000_000, ..User::default() };
//! let book = Book { version: 1, date: 20_260_318, prices, users: vec![user], trades: vec![] };
//! let mut bytes = vec![0; book.length()];
//! daybook::write(&book, &mut bytes)?;
//! let mut operator = Operator::new();
//! operator.posting(&mut bytes, 101, Area::Pvb.into(), -8_000)?;
//! assert_eq!(operator.morning_level(&bytes, 101), Ok(Level(16_000_000)));
//! assert_eq!(operator.morning_level(&bytes, 102), Err(Refusal::Id));
//! assert_eq!(Shipper::new(101).morning_level(&bytes), Ok(Level(16_000_000)));
//! assert_eq!(Shipper::new(102).morning_level(&bytes), Err(Refusal::Party));
//! # Ok::<(), Refusal>(())
//! ```

#![deny(unsafe_code)]
#![warn(missing_docs)]

mod answers;
pub mod archive;
mod book;
mod cancellation;
mod codes;
mod columns;
mod forms;
mod list;
mod log;
mod operator;
mod queries;
mod refusal;
mod shipper;
pub mod shrinkage;
mod version;

pub use answers::{GuaranteeCall, Level, Reduction, Run, State, UserLevels};
pub use book::{
    header_length, user_length, write, Book, Image, Prices, Trade, User, IMAGE_LENGTH, MOST_TRADES,
    MOST_USERS, RECORD_LENGTH, TRADE_LENGTH,
};
pub use cancellation::{Cancellation, MOST_TRIES};
pub use codes::{Area, Kind, Role};
pub use columns::{Column, Columns, Field};
pub use forms::{record_wise, record_wise_into};
pub use list::{Line, MOST_LINES};
pub use log::{Log, Withdrawal, LOG_LENGTH, MOST_ENTRIES};
pub use operator::Operator;
pub use refusal::Refusal;
pub use shipper::Shipper;
pub use version::Version;
