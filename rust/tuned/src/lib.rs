//! Documents 01 and 02 in quick Rust: the yardstick that the engine's times are
//! held against.
//!
//! The rules and the answers are those of the plain `reference`; what differs
//! is the way. A book is gone through once: each trade's parties are found by
//! binary search, and what they bought and sold is added up as the trades go
//! by. A reduction looks at the seller's own sales only. A run keeps its sums
//! and changes them by each cut; it looks again only at users that a cut
//! touched.
//!
//! Every call takes the book as bytes. A refused call returns the number of the
//! first question that failed, and leaves the book. The calls of document 01
//! stand here, those with a store (document 02, ask 4) in [`requests`]; a list of
//! postings (ask 1) is [`list()`], a whole cancellation (ask 8) [`cancellation()`], the
//! field-wise form of a book (ask 13) [`form()`] and its inverse [`restore()`].
//! Version 2 of the book (ask 3) is the module `version`.

#![forbid(unsafe_code)]

mod account;
mod calls;
mod cancellation;
mod form;
mod gathered;
mod list;
mod records;
mod reduction;
pub mod requests;
mod run;
mod sales;
mod store;
mod transfer;
mod units;
mod version;

pub use calls::{
    afternoon_call, afternoon_level, morning_call, morning_level, posting, show, show_picked,
    warning, GuaranteeCall,
};
pub use cancellation::{cancellation, Cancellation};
pub use form::{form, restore};
pub use list::{list, Columns};
pub use records::{Book, Trade, User, IMAGE_LENGTH};
pub use reduction::{reduction, Reduction};
pub use run::{run, Run};
pub use transfer::{read, read_image, write, write_image, Image};
pub use units::{Cents, Mwh, Price, Prices};
