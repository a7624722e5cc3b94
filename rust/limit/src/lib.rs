//! The questions 1 to 7 of any bytes with the twelve sums of every user, as
//! quickly as scalar Rust was found to do it: how far the engine is from that.
//!
//! Written from documents 01 and 02 alone, for the three versions. It has one
//! function, [`ask`], and shares no code with the engine or with `tuned`.
//!
//! What makes it quick: ids are found by a hash that is chosen so that no two of the
//! book meet, so that there is no search; what is found is held to the id, so that
//! slots of an earlier book need not be cleared; area, kind, day and zero byte are
//! one number, which a table of 32 holds the sum's place for; sums stand in rows of
//! 64 bytes, of which only those of the book's users are cleared.
//!
//! What was tried and is not here, with the time on the largest book, where this takes
//! 0.87 to 0.91 µs: faults gathered as bits with one test at the end of a walk, without
//! a branch (1.13 µs: a branch that is never taken costs less than gathering); the same
//! with two sets of sums by turns (1.26 µs); one walk that finds the places and one that
//! sums (1.07 µs); sums by area and day instead of by user (0.81 to 1.11 µs, by where
//! book and sums lie in memory, and more on the small book); area, kind and day taken
//! apart by shifts (0.90 µs); a hash of 11 bits instead of 12 (the same).

#![forbid(unsafe_code)]

mod codes;

use codes::{code_place, CODES};

const MARK: u32 = u32::from_le_bytes(*b"GDB\0");
const MONTH_LENGTHS: [u32; 12] = [31, 28, 31, 30, 31, 30, 31, 31, 30, 31, 30, 31];
const MOST_USERS: usize = 64;
const MOST_TRADES: usize = 256;
const MOST_PRICE: u32 = 100_000;
const MOST_ENTRY: u32 = 1_000_000;
const MOST_CENTS: u64 = 1_000_000_000_000;
const MOST_ENERGY: u32 = 100_000;

/// Bytes of a user without managers, of one with them, of a trade.
const USER: usize = 56;
const MANAGED_USER: usize = 68;
const TRADE: usize = 20;

/// Bits of a hash.
const BITS: u32 = 12;

/// The factors of the hash: the first, what the next one is multiplied with, and how
/// many are tried.
const FIRST_FACTOR: u32 = 0x9e37_79b9;
const NEXT_FACTOR: u32 = 0x2c1b_3c6d;
const FACTORS: usize = 6;

/// The place that id 0 leads to. No user stands there: a book has at most 64.
const NOBODY: u8 = 255;

/// For each user sixteen numbers, four each for: sold for d, sold for d+1, bought for
/// d, bought for d+1. The first three of four are the sums in the three areas; the
/// fourth is not used.
pub type Rows = [[u32; 16]; 256];

/// The ids of the users; 0 for the rest of 64.
type Ids = [u32; 256];

/// In a version with managers, for each user and area 0 exactly where it may manage
/// others.
type Unfit = [[u32; 4]; 256];

/// What [`ask`] writes; it does not matter what stood there.
#[repr(C)]
pub struct Room {
    pub rows: Rows,
    /// For each hash a place.
    places: [u8; 1 << BITS],
    ids: Ids,
    unfit: Unfit,
}

impl Room {
    /// A room before its first use.
    pub const NEW: Room = Room {
        rows: [[0; 16]; 256],
        places: [0; 1 << BITS],
        ids: [0; 256],
        unfit: [[0; 4]; 256],
    };
}

/// The number of the first of the questions 1 to 7 that these bytes fail, or 0; the
/// rows of the users then have their sums.
pub fn ask(bytes: &[u8], room: &mut Room) -> u32 {
    let Some((first, rest)) = bytes.split_first_chunk::<32>() else {
        return 1;
    };
    if word(first, 0) & 0xff_ffff != MARK {
        return 1;
    }
    let version = u16::from_le_bytes([first[3], first[4]]);
    if version == 1 {
        return ask_records::<USER>(first, [0; 2], rest, room);
    }
    if !(2..=3).contains(&version) {
        return 2;
    }
    let Some((tariffs, rest)) = rest.split_first_chunk::<8>() else {
        return 3;
    };
    let tariffs = [word(tariffs, 0), word(tariffs, 4)];
    if version == 2 {
        ask_records::<USER>(first, tariffs, rest, room)
    } else {
        ask_records::<MANAGED_USER>(first, tariffs, rest, room)
    }
}

/// The questions 3 to 7, of users of this many bytes.
fn ask_records<const SIZE: usize>(
    first: &[u8; 32],
    tariffs: [u32; 2],
    records: &[u8],
    room: &mut Room,
) -> u32 {
    let users = usize::from(first[5]);
    let trades = usize::from(u16::from_le_bytes([first[6], first[7]]));
    if users.wrapping_sub(1) >= MOST_USERS
        || trades > MOST_TRADES
        || records.len() != SIZE * users + TRADE * trades
    {
        return 3;
    }
    if !header_valid(first, tariffs) {
        return 4;
    }
    let (users, trades) = records.split_at(SIZE * users);
    let (users, trades) = (users.as_chunks().0, trades.as_chunks().0);
    if !users_valid::<SIZE>(users, room) {
        return 5;
    }
    let Room {
        rows,
        ids,
        unfit,
        places,
    } = room;
    match factor(&ids[..users.len()], places) {
        Some(factor) => {
            let place = |id| places[hash(id, factor)];
            ask_parties(users, trades, rows, (ids, unfit), place)
        }
        None => {
            let all = *ids;
            let place = |id| search(&all[..users.len()], id);
            ask_parties(users, trades, rows, (ids, unfit), place)
        }
    }
}

/// The rest of question 5 and the questions 6 and 7, with the place of a user by its
/// id. An id that is no user's leads to any place, 0 to that of nobody.
#[inline(always)]
fn ask_parties<const SIZE: usize>(
    users: &[[u8; SIZE]],
    trades: &[[u8; TRADE]],
    rows: &mut Rows,
    (ids, unfit): (&mut Ids, &mut Unfit),
    place: impl Fn(u32) -> u8,
) -> u32 {
    if SIZE == MANAGED_USER {
        // Manager 0 is none, which is right.
        ids[usize::from(NOBODY)] = 0;
        unfit[usize::from(NOBODY)] = [0; 4];
        if !managers_valid(users, ids, unfit, &place) {
            return 5;
        }
    }
    // A party 0 is wrong. Id 1 leads elsewhere.
    ids[usize::from(NOBODY)] = 1;
    if !trades_valid(trades, rows, ids, &place) {
        return 6;
    }
    if !positions_valid(users, rows) {
        return 7;
    }
    0
}

/// Question 4.
#[inline(always)]
fn header_valid(first: &[u8; 32], tariffs: [u32; 2]) -> bool {
    let date = word(first, 8);
    let (year, month, day) = (date / 10_000, date / 100 % 100, date % 100);
    // Of the years 2020 to 2099 every fourth is a leap year.
    let leap_day = u32::from((month == 2) & (year % 4 == 0));
    let Some(days) = MONTH_LENGTHS.get((month as usize).wrapping_sub(1)) else {
        return false;
    };
    year.wrapping_sub(2020) < 80
        && day.wrapping_sub(1) < days + leap_day
        && word(first, 12).wrapping_sub(1) < MOST_PRICE
        && word(first, 16).wrapping_sub(1) < MOST_PRICE
        && word(first, 20) <= MOST_PRICE
        && word(first, 24) <= MOST_PRICE
        && word(first, 28) <= MOST_PRICE
        && tariffs[0] <= MOST_PRICE
        && tariffs[1] <= MOST_PRICE
}

/// Question 5 but for the managers; writes the ids of the users, and clears their rows.
#[inline(always)]
fn users_valid<const SIZE: usize>(users: &[[u8; SIZE]], room: &mut Room) -> bool {
    let mut last = 0;
    for (place, user) in users.iter().enumerate().take(MOST_USERS) {
        let id = word(user, 0);
        // The role and the three zero bytes.
        let role = word(user, 4);
        if id <= last || role > 1 {
            return false;
        }
        for at in [8, 12, 16] {
            if word(user, at).wrapping_add(MOST_ENTRY) > 2 * MOST_ENTRY {
                return false;
            }
        }
        let (charges, assigned, blocked) = (double(user, 32), double(user, 40), double(user, 48));
        if charges.wrapping_add(MOST_CENTS) > 2 * MOST_CENTS
            || assigned > MOST_CENTS
            || blocked > assigned
        {
            return false;
        }
        last = id;
        room.ids[place] = id;
        room.rows[place] = [0; 16];
        if SIZE == MANAGED_USER {
            for area in 0..3 {
                room.unfit[place][area] = word(user, USER + 4 * area) | role;
            }
        }
    }
    for id in &mut room.ids[users.len()..MOST_USERS] {
        *id = 0;
    }
    true
}

/// Question 5, the managers: shippers of the book that nobody manages in the area; so
/// nobody manages itself. The managed one is a shipper too.
#[inline(always)]
fn managers_valid<const SIZE: usize>(
    users: &[[u8; SIZE]],
    ids: &Ids,
    unfit: &Unfit,
    place: impl Fn(u32) -> u8,
) -> bool {
    for user in users {
        let managers = [word(user, USER), word(user, USER + 4), word(user, USER + 8)];
        if managers == [0; 3] {
            continue;
        }
        if user[4] != 0 {
            return false;
        }
        for (area, id) in managers.into_iter().enumerate() {
            let manager = usize::from(place(id));
            if ids[manager] != id || unfit[manager][area] != 0 {
                return false;
            }
        }
    }
    true
}

/// Question 6; adds what stands to the sums of the parties.
#[inline(always)]
fn trades_valid(
    trades: &[[u8; TRADE]],
    rows: &mut Rows,
    ids: &Ids,
    place: impl Fn(u32) -> u8,
) -> bool {
    for trade in trades {
        let (seller, buyer) = (word(trade, 0), word(trade, 4));
        let (from, to) = (usize::from(place(seller)), usize::from(place(buyer)));
        if ids[from] != seller || ids[to] != buyer || from == to {
            return false;
        }
        // Area, kind, day and zero byte.
        let code = word(trade, 8);
        let at = code_place(code);
        if CODES.codes[at] != code {
            return false;
        }
        let (notified, standing) = (word(trade, 12), word(trade, 16));
        if notified.wrapping_sub(1) >= MOST_ENERGY
            || standing > notified
            || (notified ^ standing) & CODES.whole[at] != 0
        {
            return false;
        }
        let sum = (CODES.sums[at] & 7) as usize;
        let sold = &mut rows[from][sum];
        *sold = sold.wrapping_add(standing);
        let bought = &mut rows[to][8 + sum];
        *bought = bought.wrapping_add(standing);
    }
    true
}

/// Question 7. A defined position is within ±26,600,000, so that its 32 bits are it.
#[inline(always)]
fn positions_valid<const SIZE: usize>(users: &[[u8; SIZE]], rows: &Rows) -> bool {
    for (user, row) in users.iter().zip(rows) {
        for area in 0..3 {
            let physical = word(user, 8 + 4 * area);
            let position = word(user, 20 + 4 * area);
            if position.wrapping_add(row[area]) != physical.wrapping_add(row[8 + area]) {
                return false;
            }
        }
    }
    true
}

/// The slot of an id.
#[inline(always)]
fn hash(id: u32, factor: u32) -> usize {
    (id.wrapping_mul(factor) >> (32 - BITS)) as usize
}

/// A factor that gives 0 and each of the users' ids a slot of its own, with their places
/// there; none where all that are tried fail.
#[inline(always)]
fn factor(ids: &[u32], places: &mut [u8; 1 << BITS]) -> Option<u32> {
    let mut factor = FIRST_FACTOR;
    for _ in 0..FACTORS {
        if fits(ids, places, factor) {
            return Some(factor);
        }
        factor = factor.wrapping_mul(NEXT_FACTOR);
    }
    None
}

#[inline(never)]
fn fits(ids: &[u32], places: &mut [u8; 1 << BITS], factor: u32) -> bool {
    places[hash(0, factor)] = NOBODY;
    for (id, place) in ids.iter().zip(0..) {
        places[hash(*id, factor)] = place;
    }
    let mut others = places[hash(0, factor)] ^ NOBODY;
    for (id, place) in ids.iter().zip(0..) {
        others |= places[hash(*id, factor)] ^ place;
    }
    others == 0
}

/// The place of an id by a search among all of them.
fn search(ids: &[u32], id: u32) -> u8 {
    match id {
        0 => NOBODY,
        id => ids.binary_search(&id).unwrap_or(0).to_le_bytes()[0],
    }
}

/// A field of 32 bits.
#[inline(always)]
fn word<const LENGTH: usize>(bytes: &[u8; LENGTH], at: usize) -> u32 {
    let mut field = [0; 4];
    field.copy_from_slice(&bytes[at..at + 4]);
    u32::from_le_bytes(field)
}

/// A field of 64 bits.
#[inline(always)]
fn double<const LENGTH: usize>(bytes: &[u8; LENGTH], at: usize) -> u64 {
    let mut field = [0; 8];
    field.copy_from_slice(&bytes[at..at + 8]);
    u64::from_le_bytes(field)
}
