//! Groups of version 3: in an area a manager bears the risk of its members, and a
//! managed user bears nothing there. What enters levels, flag and tiers is what a
//! user bears; charges and guarantees stay each user's own, and so do positions.

use daybook::{Book, Trade, User};

use crate::fields::has_managers;
use crate::json::{list, Object, MANAGERS};
use crate::words::{grouped, AREAS};

/// The manager of a user in an area; none in a version without managers.
pub fn manager(book: &Book, user: &User, area: usize) -> Option<u32> {
    let id = user.managers[area];
    (has_managers(book.version) == Some(true) && id != 0).then_some(id)
}

/// Who bears the risk of an id in an area: its manager, or itself.
pub fn bearer(book: &Book, id: u32, area: usize) -> u32 {
    if has_managers(book.version) != Some(true) {
        return id;
    }
    let user = book.users.iter().find(|user| user.id == id);
    let manager = user.and_then(|user| manager(book, user, area));
    manager.unwrap_or(id)
}

/// Whether a user of the book has a manager.
pub fn has_groups(book: &Book) -> bool {
    let is_managed = |user: &User| (0..AREAS.len()).any(|it| manager(book, user, it).is_some());
    book.users.iter().any(is_managed)
}

/// Those whose risk a user bears in an area, in the order of the book: itself and
/// its members, or nobody where it is managed.
pub fn borne(book: &Book, id: u32, area: usize) -> impl Iterator<Item = &User> {
    let is_borne = move |user: &&User| manager(book, user, area).unwrap_or(user.id) == id;
    book.users.iter().filter(is_borne)
}

/// The members of a user in an area.
pub fn members(book: &Book, id: u32, area: usize) -> impl Iterator<Item = &User> {
    borne(book, id, area).filter(move |user| user.id != id)
}

/// The position that a user bears in an area.
pub fn position(book: &Book, id: u32, area: usize) -> i64 {
    let positions = borne(book, id, area).map(|user| i64::from(user.position[area]));
    positions.sum()
}

/// The area of a trade of an accepted book.
pub fn area_of(trade: &Trade) -> usize {
    usize::from(trade.area).min(AREAS.len() - 1)
}

/// Who bears the seller's risk of a trade, and who the buyer's.
pub fn bearers(book: &Book, trade: &Trade) -> (u32, u32) {
    let area = area_of(trade);
    let of = |id: u32| bearer(book, id, area);
    (of(trade.seller), of(trade.buyer))
}

/// Whether a reduction of a user may cut a trade: a bilateral sale for d that stands
/// above 0, its own or a member's, to a buyer outside the group.
pub fn is_eligible(book: &Book, id: u32, trade: &Trade) -> bool {
    let (seller, buyer) = bearers(book, trade);
    trade.can_be_cut() && trade.standing > 0 && seller == id && buyer != id
}

/// Whether a trade calls a user in: it stands below notified, and the user bears the
/// risk of a party.
pub fn calls_in(book: &Book, id: u32, trade: &Trade) -> bool {
    let (seller, buyer) = bearers(book, trade);
    trade.standing < trade.notified && (seller == id || buyer == id)
}

/// The member through which a user is party to a trade; none where it is party itself.
pub fn member_of(book: &Book, id: u32, trade: &Trade) -> Option<u32> {
    let area = area_of(trade);
    let parties = [trade.seller, trade.buyer];
    match parties.contains(&id) {
        true => None,
        false => parties.into_iter().find(|it| bearer(book, *it, area) == id),
    }
}

/// A group in an area, seen from one of its users.
#[derive(Clone, Debug, PartialEq, Eq)]
pub enum Share {
    /// Another bears the user's risk.
    BorneBy { area: usize, manager: u32 },
    /// The user bears the risk of its members, each with its position; its own comes
    /// with them, in the order of the book.
    Bears {
        area: usize,
        positions: Vec<(u32, i32)>,
    },
}

/// The groups that a user is in, in the order of the areas.
pub fn shares(book: &Book, user: &User) -> Vec<Share> {
    let share = |area: usize| match manager(book, user, area) {
        Some(manager) => Some(Share::BorneBy { area, manager }),
        None => {
            members(book, user.id, area).next()?;
            let positions = borne(book, user.id, area);
            let positions = positions.map(|it| (it.id, it.position[area])).collect();
            Some(Share::Bears { area, positions })
        }
    };
    (0..AREAS.len()).filter_map(share).collect()
}

impl Share {
    pub fn area(&self) -> usize {
        match self {
            Share::BorneBy { area, .. } | Share::Bears { area, .. } => *area,
        }
    }

    /// The other users of the group in a few words, of a user by its id.
    pub fn short(&self, id: u32) -> String {
        let area = AREAS[self.area()];
        match self {
            Share::BorneBy { manager, .. } => format!("{area} borne by {manager}"),
            Share::Bears { positions, .. } => {
                let others = positions.iter().filter(|it| it.0 != id);
                let others: Vec<String> = others.map(|it| it.0.to_string()).collect();
                format!("bears {area} of {}", others.join(" "))
            }
        }
    }

    /// The same with the positions.
    pub fn words(&self) -> String {
        let area = AREAS[self.area()];
        match self {
            Share::BorneBy { manager, .. } => {
                format!("{area} is borne by its manager {manager}, and counts 0 here")
            }
            Share::Bears { positions, .. } => {
                let sum: i64 = positions.iter().map(|it| i64::from(it.1)).sum();
                let each = positions.iter();
                let each: Vec<String> = each
                    .map(|(id, mwh)| format!("{id} {}", grouped(*mwh)))
                    .collect();
                let (each, sum) = (each.join(", "), grouped(sum));
                format!("bears {area} of its group: position {each}, together {sum} MWh")
            }
        }
    }
}

/// A line for each group that a user is in.
pub fn lines(shares: &[Share]) -> String {
    let line = |share: &Share| format!("  {}\n", share.words());
    shares.iter().map(line).collect()
}

/// Adds to an object about a user who its manager is in each area, 0 for none, and of
/// each area its members; nothing in a version without managers.
pub fn with_groups(object: Object, book: &Book, user: &User) -> Object {
    if has_managers(book.version) != Some(true) {
        return object;
    }
    let members = |area: usize| list(members(book, user.id, area).map(|it| it.id));
    object
        .put(MANAGERS, list(user.managers))
        .put("members", list((0..AREAS.len()).map(members)))
}

/// Why a manager of a user is none, by area; nothing in a version without managers.
pub fn manager_faults(book: &Book, user: &User) -> Vec<(usize, String)> {
    let mut faults = Vec::new();
    for (area, name) in AREAS.iter().enumerate() {
        let Some(id) = manager(book, user, area) else {
            continue;
        };
        let found = book.users.iter().find(|it| it.id == id);
        let reason = match found {
            _ if user.role == 1 => "is given to a clearing house; shippers alone are managed",
            _ if id == user.id => "is the user itself",
            None => "is no user of the book",
            Some(found) if found.role == 1 => "is a clearing house; a manager is a shipper",
            Some(found) => match manager(book, found, area) {
                Some(other) => {
                    let reason = format!("manager {name} {id} is itself managed there, by {other}");
                    faults.push((area, reason));
                    continue;
                }
                None => continue,
            },
        };
        faults.push((area, format!("manager {name} {id} {reason}")));
    }
    faults
}
