//! The calls that change at most one user's record: levels, guarantee calls,
//! warning, posting, shown records.

use crate::account::Account;
use crate::gathered::{records_mut, Gathered, Records};
use crate::records::{ask, is_entry, length, put, Trade, User, USER_LENGTH};
use crate::units::Cents;
use crate::version::header_length_of;

/// A guarantee call that was accepted.
#[derive(Clone, Copy, Debug, PartialEq, Eq)]
pub struct GuaranteeCall {
    pub level: Cents,
    /// What was added to the blocked guarantee.
    pub added: Cents,
}

/// The questions 1 to 9: what was gathered, and the shipper's place and account.
pub fn shipper(records: Records<'_>, id: u32) -> Result<(Gathered, usize, Account), u32> {
    let gathered = records.gather()?;
    let (place, account) = shipper_of(records, &gathered, id)?;
    Ok((gathered, place, account))
}

/// The questions 8 and 9.
#[inline]
pub fn shipper_of(
    records: Records<'_>,
    gathered: &Gathered,
    id: u32,
) -> Result<(usize, Account), u32> {
    let place = gathered.user(id)?;
    let user = User::from_bytes(&records.users[place]);
    ask(9, user.is_shipper())?;
    Ok((place, Account::new(gathered, place, &user)))
}

/// The morning level of a shipper.
pub fn morning_level(bytes: &[u8], id: u32) -> Result<Cents, u32> {
    let (gathered, _, account) = shipper(Records::of(bytes)?, id)?;
    Ok(account.morning_level(&gathered.rates))
}

/// The afternoon level of a shipper.
pub fn afternoon_level(bytes: &[u8], id: u32) -> Result<Cents, u32> {
    let (gathered, _, account) = shipper(Records::of(bytes)?, id)?;
    Ok(account.afternoon_level(&gathered.rates))
}

/// Raises a shipper's blocked guarantee to the morning level.
pub fn morning_call(bytes: &mut [u8], id: u32) -> Result<GuaranteeCall, u32> {
    let (gathered, place, account) = shipper(Records::of(bytes)?, id)?;
    let level = account.morning_level(&gathered.rates);
    ask(11, account.is_above_margin(&gathered.rates, level))?;
    blocked(bytes, place, &account, level)
}

/// Raises a shipper's blocked guarantee to the afternoon level.
pub fn afternoon_call(bytes: &mut [u8], id: u32) -> Result<GuaranteeCall, u32> {
    let (gathered, place, account) = shipper(Records::of(bytes)?, id)?;
    let level = account.afternoon_level(&gathered.rates);
    let called_in = account.is_called_in(&gathered.rates);
    ask(
        11,
        account.is_above_margin(&gathered.rates, level) && called_in,
    )?;
    blocked(bytes, place, &account, level)
}

/// Question 12, then the level as the user's blocked guarantee.
pub fn blocked(
    bytes: &mut [u8],
    place: usize,
    account: &Account,
    level: Cents,
) -> Result<GuaranteeCall, u32> {
    ask(12, account.assigned >= level)?;
    let at = length(header_length_of(bytes), place, 0) + 48;
    put(bytes, at, level.0.to_le_bytes());
    Ok(GuaranteeCall {
        level,
        added: level - account.blocked,
    })
}

/// Whether a shipper is warned at midday: flagged, or "buyer of a kind 0, day 0
/// trade standing above 0 whose seller is a flagged shipper".
pub fn warning(bytes: &[u8], id: u32) -> Result<bool, u32> {
    let records = Records::of(bytes)?;
    let (gathered, place, account) = shipper(records, id)?;
    Ok(is_warned(records, &gathered, place, &account))
}

/// The warning of a shipper.
pub fn is_warned(
    records: Records<'_>,
    gathered: &Gathered,
    place: usize,
    account: &Account,
) -> bool {
    if account.is_flagged(&gathered.rates) {
        return true;
    }
    let sellers = records
        .trades
        .iter()
        .zip(&gathered.parties)
        .filter(|(_, parties)| usize::from(parties.buyer) == place)
        .filter(|(trade, _)| {
            let trade = Trade::from_bytes(trade);
            trade.is_bilateral_today() && trade.standing > 0
        })
        .fold(0_u64, |sellers, (_, parties)| sellers | 1 << parties.seller);
    records.users.iter().enumerate().any(|(place, user)| {
        sellers >> place & 1 == 1 && {
            let user = User::from_bytes(user);
            user.is_shipper() && Account::new(gathered, place, &user).is_flagged(&gathered.rates)
        }
    })
}

/// Adds a signed amount to one user's physical entry and position in one area.
pub fn posting(bytes: &mut [u8], id: u32, area: u32, amount: i64) -> Result<(), u32> {
    let records = Records::of(bytes)?;
    let place = records.gather()?.user(id)?;
    post(bytes, place, area, amount)
}

/// Question 10, then the amount posted to the user at a place.
pub fn post(bytes: &mut [u8], place: usize, area: u32, amount: i64) -> Result<(), u32> {
    let (users, _) = records_mut(bytes, place + 1);
    let mut user = User::from_bytes(&users[place]);
    let area = usize::try_from(area)
        .ok()
        .filter(|area| *area <= 2)
        .ok_or(10_u32)?;
    let entry = amount.checked_add(i64::from(user.physical[area]));
    let entry = entry.filter(|entry| is_entry(*entry)).ok_or(10_u32)?;
    let entry = i32::try_from(entry).map_err(|_| 10_u32)?;
    // The position of an accepted book is within 26,600,000.
    user.position[area] += entry - user.physical[area];
    user.physical[area] = entry;
    users[place] = user.to_bytes();
    Ok(())
}

/// The 56 bytes of a user, as that part of the book.
pub fn show(bytes: &[u8], id: u32) -> Result<&[u8; USER_LENGTH], u32> {
    let records = Records::of(bytes)?;
    let place = records.gather()?.user(id)?;
    Ok(&records.users[place])
}

/// The record from the morning or the afternoon book. The pick is yes for the
/// afternoon; only the picked book is questioned.
pub fn show_picked<'a>(
    morning: &'a [u8],
    afternoon: &'a [u8],
    pick: bool,
    id: u32,
) -> Result<&'a [u8; USER_LENGTH], u32> {
    show(if pick { afternoon } else { morning }, id)
}
