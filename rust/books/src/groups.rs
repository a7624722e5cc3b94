//! Books of version 3 (document 02, ask 5): groups drawn at random, groups made of
//! the users of a book of a lower version, and manager ids that are refused.

use reference::book::{Book, Trade, User, MOST_TRADES, MOST_USERS};
use reference::store::Limits;
use reference::units::{Area, Mwh};
use reference::version::{has_managers, LAST};

use crate::accepted::{
    any_size, chain, largest, long, midday, set_positions, shares, sized, small, usual,
};
use crate::cancellations::whole;
use crate::credits::credited;
use crate::random::Random;
use crate::runs::{ends_within, MOST_REDUCTIONS};
use crate::versions::in_version_2;

/// The most that a physical entry may be.
const MOST_PHYSICAL: i128 = 1_000_000;

/// A book of version 3, mostly with groups; its run is short where one of a lower
/// version would be.
pub fn grouped(random: &mut Random) -> Book {
    match random.below(16) {
        0..=4 => {
            let (users, trades) = (2 + random.below(5), random.below(10));
            sized(random, LAST, users, trades)
        }
        5 | 6 => {
            let (users, trades) = (2 + random.below(20), random.below(60));
            sized(random, LAST, users, trades)
        }
        7 if random.one_in(3) => sized(random, LAST, MOST_USERS, MOST_TRADES),
        8..=10 => {
            let mut book = lower(random);
            book.version = LAST;
            draw_managers(random, &mut book);
            if ends_within(&Limits::TODAY, &book, MOST_REDUCTIONS) {
                book
            } else {
                sized(random, LAST, 3, 5)
            }
        }
        _ => {
            let book = lower(random);
            split(random, &book).book
        }
    }
}

/// A book of version 1 or 2 to make groups of.
pub fn lower(random: &mut Random) -> Book {
    loop {
        let book = any(random);
        if !has_managers(book.version) {
            return book;
        }
    }
}

/// A book of some kind, the large ones less often.
fn any(random: &mut Random) -> Book {
    match random.below(20) {
        0..=3 => shares(random),
        4 | 5 => chain(random),
        6 | 7 => whole(random),
        8 | 9 => midday(random),
        10 | 11 => credited(random),
        12 => long(random),
        13 | 14 => usual(random),
        15 if random.one_in(3) => any_size(random),
        16 if random.one_in(6) => largest(random),
        _ => small(random),
    }
}

/// A book of version 3 in which nobody is managed gets members in half of the
/// cases; another one stays as it is.
pub(crate) fn with_members(random: &mut Random, book: Book) -> Book {
    let managed = |user: &User| user.managers != [0; 3];
    if has_managers(book.version) && !book.users.iter().any(managed) && random.one_in(2) {
        split(random, &book).book
    } else {
        book
    }
}

/// Gives shippers managers, in some areas and not in others: up to three managers
/// an area, the first shipper, who sells most, often among them.
pub(crate) fn draw_managers(random: &mut Random, book: &mut Book) {
    let shippers = book.users.iter().filter(|user| user.is_shipper());
    let ids: Vec<u32> = shippers.map(|user| user.id).collect();
    if ids.is_empty() || random.one_in(8) {
        return;
    }
    for area in Area::ALL {
        let count = random.below(4);
        let managers: Vec<u32> = (0..count).map(|_| first_or_any(random, &ids)).collect();
        let often = 1 + random.below(3);
        for user in &mut book.users {
            let free = user.is_shipper() && !managers.contains(&user.id);
            if free && !managers.is_empty() && random.one_in(often) {
                user.managers[area.index()] = random.pick(&managers);
            }
        }
    }
}

/// A book with groups, made of a book in which nobody is managed.
#[derive(Clone, Debug, PartialEq, Eq)]
pub struct Split {
    pub book: Book,
    /// The members, who were not in the book before, and their managers, who were.
    pub members: Vec<(u32, u32)>,
    /// How many sales between two of one group stand behind the trades that were
    /// there before, each of them as notified.
    pub inside: usize,
}

/// Gives shippers of a book members, who take over a part of their physical entries,
/// sales and purchases in the areas in which they are managed: for the managers
/// levels, flags, eligible trades and reductions stay what they were. Sales between
/// two of one group change nothing of that.
pub fn split(random: &mut Random, book: &Book) -> Split {
    let mut book = Book {
        version: LAST,
        ..book.clone()
    };
    let shippers = book.users.iter().filter(|user| user.is_shipper());
    let managers: Vec<u32> = shippers.map(|user| user.id).collect();
    let most = (MOST_USERS - book.users.len()).min(random.pick(&[1, 3, 6, 20]));
    let mut members = Vec::new();
    if !managers.is_empty() {
        for _ in 0..random.below(most + 1) {
            let manager = first_or_any(random, &managers);
            let member = free_id(random, &book);
            take_over(random, &mut book, manager, member);
            members.push((member, manager));
        }
    }
    let inside = sell_inside(random, &mut book);
    set_positions(&mut book);
    Split {
        book,
        members,
        inside,
    }
}

/// The book in version 3, its selling tariffs as in version 2, with members where it
/// has room for them.
pub fn in_version_3(book: &Book) -> Book {
    split(&mut Random::new(3), &in_version_2(book)).book
}

/// The first of the ids in half of the cases.
fn first_or_any(random: &mut Random, ids: &[u32]) -> u32 {
    let any = random.pick(ids);
    random.pick(&[ids[0], any])
}

/// The id of no user.
fn free_id(random: &mut Random, book: &Book) -> u32 {
    let near = random.pick(&book.users).id.wrapping_add(1);
    let any = random.word();
    let mut id = random.pick(&[near, near, any]);
    while id == 0 || book.place_of(id).is_some() {
        id = id.wrapping_add(1);
    }
    id
}

/// Adds a member, who takes over a part of what its manager has in some areas.
fn take_over(random: &mut Random, book: &mut Book, manager: u32, member: u32) {
    let mut user = User {
        id: member,
        ..User::default()
    };
    let first = random.below(3);
    for area in Area::ALL {
        if area.index() != first && random.one_in(2) {
            continue;
        }
        user.managers[area.index()] = manager;
        take_entry(random, book, &mut user, area);
        for trade in book.trades.iter_mut().filter(|trade| trade.is_in(area)) {
            for party in [&mut trade.seller, &mut trade.buyer] {
                if *party == manager && random.one_in(2) {
                    *party = member;
                }
            }
        }
    }
    book.users.push(user);
    book.users.sort_by_key(|user| user.id);
}

/// Moves a part of the manager's physical entry, both entries staying in range; a
/// member may be short where the group is long, and the other way round.
fn take_entry(random: &mut Random, book: &mut Book, member: &mut User, area: Area) {
    let place = area.index();
    let manager = member.managers[place];
    for user in book.users.iter_mut().filter(|user| user.id == manager) {
        let entry = user.physical[place];
        let part = Mwh(match random.below(5) {
            0 => 0,
            1 => entry.0,
            2 => random.between(-50_000, 50_000),
            _ => entry.0 * random.between(0, 100) / 100,
        });
        if (entry - part).0.abs() <= MOST_PHYSICAL {
            user.physical[place] = entry - part;
            member.physical[place] = part;
        }
    }
}

/// Adds sales between two of one group, of any kind and day; how many.
fn sell_inside(random: &mut Random, book: &mut Book) -> usize {
    let room = (MOST_TRADES - book.trades.len()).min(3);
    let count = random.below(room + 1);
    let mut sold = 0;
    for _ in 0..count {
        let area = random.pick(&Area::ALL);
        let managed = |user: &&User| user.managers[area.index()] != 0;
        let members: Vec<User> = book.users.iter().filter(managed).cloned().collect();
        if members.is_empty() {
            continue;
        }
        let one = random.pick(&members);
        let manager = one.managers[area.index()];
        let same = |user: &&User| user.managers[area.index()] == manager && user.id != one.id;
        let others = members.iter().filter(same).map(|user| user.id);
        let other = random.pick(&[others.collect(), vec![manager]].concat());
        let (seller, buyer) = random.pick(&[(one.id, other), (other, one.id)]);
        let most = random.pick(&[5, 1_000, 100_000]);
        let energy = Mwh(random.between(1, most));
        book.trades.push(Trade {
            seller,
            buyer,
            area: area.index().to_le_bytes()[0],
            kind: random.pick(&[0, 0, 0, 1, 2]),
            day: random.pick(&[0, 0, 0, 1]),
            notified: energy,
            standing: energy,
        });
        sold += 1;
    }
    sold
}

/// A manager id that question 5 refuses.
#[derive(Clone, Copy, Debug, PartialEq, Eq)]
pub enum BadManager {
    /// The id of no user.
    Nobody,
    Own,
    /// A clearing house as manager.
    House,
    /// A clearing house that is managed.
    OfHouse,
    /// A manager who is managed in that area: a chain.
    Managed,
}

impl BadManager {
    pub const ALL: [BadManager; 5] = [
        BadManager::Nobody,
        BadManager::Own,
        BadManager::House,
        BadManager::OfHouse,
        BadManager::Managed,
    ];

    /// The place of a user of a book of version 3, an area and such a manager for
    /// them; none if the book has no place for it.
    pub fn drawn(self, random: &mut Random, book: &Book) -> Option<(usize, usize, u32)> {
        let area = random.below(3);
        let houses = places(book, |user| !user.is_shipper());
        let shippers = places(book, User::is_shipper);
        let managed = places(book, |user| user.managers[area] != 0);
        let (users, managers) = match self {
            BadManager::Nobody | BadManager::Own => (&shippers, &shippers),
            BadManager::House => (&shippers, &houses),
            BadManager::OfHouse => (&houses, &shippers),
            BadManager::Managed => (&shippers, &managed),
        };
        if users.is_empty() || managers.is_empty() {
            return None;
        }
        let (user, manager) = (random.pick(users), random.pick(managers));
        let id = match self {
            BadManager::Nobody => free_id(random, book),
            BadManager::Own => book.users[user].id,
            _ if user == manager => return None,
            _ => book.users[manager].id,
        };
        Some((user, area, id))
    }
}

fn places(book: &Book, test: impl Fn(&User) -> bool) -> Vec<usize> {
    let places = 0..book.users.len();
    places.filter(|place| test(&book.users[*place])).collect()
}
