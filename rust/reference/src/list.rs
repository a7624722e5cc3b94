//! Document 02, ask 1, "Revised allocations arrive as a file": a list of
//! postings in one call.

use crate::logged::{empty, logged};
use crate::party::Given;
use crate::posting::post;
use crate::questions::ACCEPTED;

/// "A list above 512 lines ... is refused with 15."
pub const MOST_LINES: usize = 512;

/// "A list of id, area and signed MWh", as three columns.
#[derive(Clone, Copy, Debug, PartialEq, Eq)]
pub struct Columns<'a> {
    pub ids: &'a [u32],
    pub areas: &'a [u32],
    pub amounts: &'a [i64],
}

/// Makes the postings of a list one after another, and gives each line "in a
/// place beside it, its single posting's number". "A book that fails a question
/// stops the call with that number before the first line". The call's own number
/// is 0 whatever its lines are given; "a refused call leaves those places
/// unchanged".
pub fn list(
    bytes: &mut [u8],
    given: Given<'_>,
    log: Option<&mut [u8]>,
    columns: Columns<'_>,
    places: &mut [u32],
) -> u32 {
    let fits = lines_fit(columns, places.len());
    let listed = logged(bytes, given, log, fits, |opened, log| {
        for (line, place) in places.iter_mut().enumerate() {
            let (id, area) = (columns.ids[line], columns.areas[line]);
            let posted = post(opened, id, area, columns.amounts[line]);
            *place = posted.err().unwrap_or(ACCEPTED);
        }
        empty(log);
        Ok(())
    });
    listed.err().unwrap_or(ACCEPTED)
}

/// Question 15: "a list above 512 lines, or one whose columns and places differ
/// in count" fails it.
fn lines_fit(columns: Columns<'_>, places: usize) -> bool {
    let counts = [
        columns.ids.len(),
        columns.areas.len(),
        columns.amounts.len(),
    ];
    counts.iter().all(|count| *count == places) && places <= MOST_LINES
}
