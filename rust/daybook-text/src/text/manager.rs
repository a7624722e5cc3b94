//! A manager in a line: an id, or the word for none.

use super::line::Words;
use crate::draft::{Mistake, Spot};
use crate::words::AREAS;

/// The word for no manager.
pub const NONE: &str = "none";

/// The manager in an area, 0 for none, and where it stands.
pub fn read_manager(words: &mut Words, area: usize) -> Result<(u32, Spot), Mistake> {
    let name = format!("manager {}", AREAS[area]);
    match words.peek() {
        Some(NONE) => {
            let (_, spot) = words.next(&name)?;
            Ok((0, spot))
        }
        _ => words.fitting(&name),
    }
}

/// What is said of a manager that a version has no bytes for.
pub fn no_manager(name: &str, version: u16) -> String {
    format!("{name}: version {version} has no place for managers; version 3 has them")
}
