//! Program `daybook`: books as text and spreadsheet files, the engine's calls,
//! refusals told in words and places, a run explained cut by cut.
//!
//! Every figure comes from the proved engine by the package `daybook`. What is
//! found beside it (the field at fault, the shares of a tier) is tested against
//! the engine.

#![forbid(unsafe_code)]

pub mod advice;
pub mod arguments;
pub mod beside;
pub mod call;
pub mod calls;
pub mod cancel;
pub mod change;
pub mod check;
pub mod columns;
pub mod commands;
pub mod compare;
pub mod convert;
pub mod day;
pub mod day_tables;
pub mod due;
pub mod excerpt;
pub mod explain;
pub mod explain_all;
pub mod explain_objects;
pub mod field_wise;
pub mod files;
pub mod form;
pub mod form_bytes;
pub mod list;
pub mod log;
pub mod log_file;
pub mod made;
pub mod other_forms;
pub mod outcome;
pub mod page;
pub mod parameters;
pub mod picture;
pub mod picture_groups;
pub mod reasons;
pub mod refusals;
pub mod refused_page;
pub mod report;
pub mod run;
pub mod sha256;
pub mod shrinkage;
pub mod source;
pub mod state;
pub mod status;
pub mod table;
pub mod to_do;
pub mod together;
pub mod told;
pub mod why;
pub mod why_words;
pub mod withdraw;
pub mod write;
