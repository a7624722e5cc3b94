//! Books as text and as spreadsheet files, refusals with the field at fault, runs taken
//! apart reduction by reduction: what program `daybook` stands on, for other programs.
//!
//! Every figure comes from the proved engine by the package `daybook`. What is found
//! beside it (the field at fault, the shares of a tier) is tested against the engine.
//!
//! - [`text`] and [`csv`] read a book, with the place of what cannot be read, and write one;
//! - [`faults`] has the fields that fail a question of a refused book, [`log_faults`] why a log is
//!   none for a book;
//! - [`trace`] takes a run apart, with each sale's share and cut;
//! - the others are what these stand on: names of fields, amounts in words, groups, stores.
//!
//! ```
//! use daybook::Operator;
//! use daybook_text::{faults, store, text, trace};
//!
//! let lines = "daybook 1
//! date 2026-03-18
//! prices P 20.00 Q 21.00 L 3.00 X 1.00 I 0.50
//! user 101 shipper physical PVB -10,000 assigned 500,000.00 blocked 100,000.00
//! user 102 shipper assigned 100,000.00 blocked 100,000.00
//! trade 101 to 102 PVB bilateral d 30,000";
//! let book = text::read(lines.as_bytes()).expect("a text").into_bytes().expect("a book");
//!
//! let extent = trace::Extent { first: 10, last: 0, chapters: (0, 0), most: 10 };
//! let run = trace::trace(Operator::new(), &store::TODAY, &book, extent)?;
//! assert_eq!((run.first[0].user.id, run.first[0].answer.mwh), (101, 15_000));
//!
//! let mut damaged = book.clone();
//! damaged[32 + 4] = 2; // the first user's role
//! let refusal = Operator::new().read(&damaged).expect_err("no such role");
//! let told = faults::faults(&damaged, refusal.number());
//! assert_eq!(told[0].to_string(), "user 1, id 101: role 2 is neither 0 (shipper) nor 1 (clearing house)");
//! # Ok::<(), daybook::Refusal>(())
//! ```

#![forbid(unsafe_code)]

pub mod called_in;
pub mod cause;
pub mod chapter;
pub mod credit;
pub mod csv;
pub mod draft;
pub mod ends;
pub mod faults;
pub mod fields;
pub mod groups;
pub mod json;
pub mod limits;
pub mod log_faults;
pub mod store;
pub mod text;
pub mod trace;
pub mod words;
pub mod zero_bytes;
