//! "Posting".

use crate::logged::{empty, logged};
use crate::party::Given;
use crate::questions::{ask, physical_in_range, Opened, ACCEPTED};
use crate::units::{Area, Mwh};

/// Adds a signed amount to one user's physical entry and position in one area.
pub fn posting(
    bytes: &mut [u8],
    given: Given<'_>,
    log: Option<&mut [u8]>,
    id: u32,
    area: u32,
    amount: i64,
) -> u32 {
    let posted = logged(bytes, given, log, true, |opened, log| {
        post(opened, id, area, amount)?;
        empty(log);
        Ok(())
    });
    posted.err().unwrap_or(ACCEPTED)
}

/// Questions 8 and 10, then the posting itself.
pub fn post(opened: &mut Opened, id: u32, area: u32, amount: i64) -> Result<(), u32> {
    let place = opened.question_8(id)?;
    let area = Area::from_code(area).ok_or(10_u32)?.index();
    let amount = Mwh(i128::from(amount));
    let user = &mut opened.book.users[place];
    ask(10, physical_in_range(user.physical[area] + amount))?;
    user.physical[area] = user.physical[area] + amount;
    user.position[area] = user.position[area] + amount;
    Ok(())
}
