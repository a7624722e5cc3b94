//! Document 02, ask 4: the calls with a store, or none. The questions 16 and 17
//! are asked between those of the book and those of the call, and the figures
//! of the store stand in for today's.

use crate::account::Account;
use crate::calls::{blocked, is_warned, post, shipper_of, GuaranteeCall};
use crate::gathered::{Gathered, Records};
use crate::records::{ask, USER_LENGTH};
use crate::reduction::{reduced, Reduction};
use crate::run::{run_gathered, Run};
use crate::store::limits;
use crate::units::{Cents, Rates};

/// What was gathered of a book, with the figures of the store.
pub(crate) fn gathered(records: Records<'_>, store: Option<&[u8]>) -> Result<Gathered, u32> {
    let mut gathered = records.gather()?;
    if let Some(store) = store {
        let limits = limits(store, records.header.date)?;
        gathered.rates = Rates::new(&records.header.prices, &limits);
    }
    Ok(gathered)
}

/// The questions up to 9: what was gathered, and the shipper's place and account.
fn shipper(
    records: Records<'_>,
    store: Option<&[u8]>,
    id: u32,
) -> Result<(Gathered, usize, Account), u32> {
    let gathered = gathered(records, store)?;
    let (place, account) = shipper_of(records, &gathered, id)?;
    Ok((gathered, place, account))
}

/// The morning level of a shipper.
pub fn morning_level(bytes: &[u8], store: Option<&[u8]>, id: u32) -> Result<Cents, u32> {
    let (gathered, _, account) = shipper(Records::of(bytes)?, store, id)?;
    Ok(account.morning_level(&gathered.rates))
}

/// The afternoon level of a shipper.
pub fn afternoon_level(bytes: &[u8], store: Option<&[u8]>, id: u32) -> Result<Cents, u32> {
    let (gathered, _, account) = shipper(Records::of(bytes)?, store, id)?;
    Ok(account.afternoon_level(&gathered.rates))
}

/// Raises a shipper's blocked guarantee to the morning level.
pub fn morning_call(bytes: &mut [u8], store: Option<&[u8]>, id: u32) -> Result<GuaranteeCall, u32> {
    let (gathered, place, account) = shipper(Records::of(bytes)?, store, id)?;
    let level = account.morning_level(&gathered.rates);
    ask(11, account.is_above_margin(&gathered.rates, level))?;
    blocked(bytes, place, &account, level)
}

/// Raises a shipper's blocked guarantee to the afternoon level.
pub fn afternoon_call(
    bytes: &mut [u8],
    store: Option<&[u8]>,
    id: u32,
) -> Result<GuaranteeCall, u32> {
    let (gathered, place, account) = shipper(Records::of(bytes)?, store, id)?;
    let rates = &gathered.rates;
    let level = account.afternoon_level(rates);
    ask(
        11,
        account.is_above_margin(rates, level) && account.is_called_in(rates),
    )?;
    blocked(bytes, place, &account, level)
}

/// Whether a shipper is warned at midday.
pub fn warning(bytes: &[u8], store: Option<&[u8]>, id: u32) -> Result<bool, u32> {
    let records = Records::of(bytes)?;
    let (gathered, place, account) = shipper(records, store, id)?;
    Ok(is_warned(records, &gathered, place, &account))
}

/// Adds a signed amount to one user's physical entry and position in one area.
pub fn posting(
    bytes: &mut [u8],
    store: Option<&[u8]>,
    id: u32,
    area: u32,
    amount: i64,
) -> Result<(), u32> {
    let place = gathered(Records::of(bytes)?, store)?.user(id)?;
    post(bytes, place, area, amount)
}

/// The 56 bytes of a user, as that part of the book.
pub fn show<'a>(
    bytes: &'a [u8],
    store: Option<&[u8]>,
    id: u32,
) -> Result<&'a [u8; USER_LENGTH], u32> {
    let records = Records::of(bytes)?;
    let place = gathered(records, store)?.user(id)?;
    Ok(&records.users[place])
}

/// The record from the morning or the afternoon book; only the picked book is
/// questioned.
pub fn show_picked<'a>(
    morning: &'a [u8],
    afternoon: &'a [u8],
    store: Option<&[u8]>,
    pick: bool,
    id: u32,
) -> Result<&'a [u8; USER_LENGTH], u32> {
    show(if pick { afternoon } else { morning }, store, id)
}

/// Reduces the sales of one shipper.
pub fn reduction(bytes: &mut [u8], store: Option<&[u8]>, id: u32) -> Result<Reduction, u32> {
    let records = Records::of(bytes)?;
    let header = records.header;
    let (gathered, place, account) = shipper(records, store, id)?;
    reduced(bytes, header, &gathered, (place, account))
}

/// Reduces the lowest id that is short of cover and has an eligible trade, while
/// there is one.
pub fn run(bytes: &mut [u8], store: Option<&[u8]>) -> Result<Run, u32> {
    let records = Records::of(bytes)?;
    let header = records.header;
    let gathered = gathered(records, store)?;
    Ok(run_gathered(bytes, header, &gathered))
}
