//! Document 02, ask 1: a list of postings. The questions of the book and of the
//! store are asked once; a line finds its user among the ids that were gathered,
//! and writes the entry and the position of one area.

use crate::gathered::{records_mut, Gathered, Records};
use crate::records::{ask, is_entry, put, UserBytes};
use crate::store::limits;

/// The most lines of a list.
const MOST_LINES: usize = 512;

/// Where the entries and the positions of a user begin.
const PHYSICAL: usize = 8;
const POSITION: usize = 20;

/// The three columns of a list.
#[derive(Clone, Copy, Debug)]
pub struct Columns<'a> {
    pub ids: &'a [u32],
    pub areas: &'a [u32],
    pub amounts: &'a [i64],
}

/// Makes the postings of a list one after another; each line's number goes to
/// the place beside it.
pub fn list(
    bytes: &mut [u8],
    store: Option<&[u8]>,
    columns: Columns<'_>,
    places: &mut [u32],
) -> Result<(), u32> {
    let records = Records::of(bytes)?;
    let gathered = records.gather()?;
    let lines = places.len();
    ask(
        15,
        lines <= MOST_LINES
            && columns.ids.len() == lines
            && columns.areas.len() == lines
            && columns.amounts.len() == lines,
    )?;
    if let Some(store) = store {
        limits(store, records.header.date)?;
    }
    let (users, _) = records_mut(bytes, usize::from(records.header.users));
    let lines = columns.ids.iter().zip(columns.areas).zip(columns.amounts);
    for (((id, area), amount), place) in lines.zip(places) {
        *place = match posted(users, &gathered, *id, *area, *amount) {
            Ok(()) => 0,
            Err(number) => number,
        };
    }
    Ok(())
}

/// The questions 8 and 10, then the amount posted.
#[inline]
fn posted(
    users: &mut [UserBytes],
    gathered: &Gathered,
    id: u32,
    area: u32,
    amount: i64,
) -> Result<(), u32> {
    let user = &mut users[gathered.user(id)?];
    let area = usize::try_from(area).ok().filter(|area| *area <= 2);
    let area = 4 * area.ok_or(10_u32)?;
    let entry = number(user, PHYSICAL + area);
    let after = amount.checked_add(i64::from(entry));
    let after = after.filter(|entry| is_entry(*entry)).ok_or(10_u32)?;
    let after = i32::try_from(after).map_err(|_| 10_u32)?;
    // The position of an accepted book is within 26,600,000.
    let position = number(user, POSITION + area) + (after - entry);
    put(user, PHYSICAL + area, after.to_le_bytes());
    put(user, POSITION + area, position.to_le_bytes());
    Ok(())
}

/// A signed field of a user.
#[inline]
fn number(user: &UserBytes, at: usize) -> i32 {
    i32::from_le_bytes(std::array::from_fn(|place| user[at + place]))
}
