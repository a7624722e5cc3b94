//! Acting parties (document 02, ask 9): drawn for a call, and twins of a book that
//! agree on what one party may see.

use reference::book::{Book, Trade, User};
use reference::party::Party;
use reference::questions::questions_1_to_7;
use reference::seen::{may_see_record, may_see_trade};
use reference::units::{Cents, Mwh};

use crate::accepted::set_positions;
use crate::calls::Call;
use crate::generator::Generator;
use crate::random::Random;

/// Numbers that no party of a book has.
const NOBODY: [u64; 6] = [0, (1 << 32) + 1, 1 << 33, 1 << 63, u64::MAX - 1, u64::MAX];

impl Generator {
    /// An acting party for a call on this book: the operator, mostly so for what only
    /// it may do; the user of the call's id, one that manages it or is managed by it,
    /// any user of the book, the id with a bit above its 32, or nobody.
    pub fn party(&mut self, book: &[u8], call: &Call) -> Party {
        let other = self.arguments(book).id;
        let id = call.id().unwrap_or(other);
        let random = self.random();
        let operators = if call.own_id().is_some() { 4 } else { 10 };
        Party::of(match random.below(16) {
            place if place < operators => return Party::Operator,
            12 => related(random, book, id).into(),
            13 => other.into(),
            14 => u64::from(id) + (1 << 32),
            15 => random.pick(&NOBODY),
            _ => id.into(),
        })
    }

    /// An ordinal among the trades of a book.
    pub fn ordinal(&mut self) -> u32 {
        let random = self.random();
        let any = random.word();
        match random.below(8) {
            0 => random.pick(&[255, 256, 65_536, 1 << 31, u32::MAX, any]),
            1 => any % 256,
            _ => any % 6,
        }
    }
}

/// A user that manages the user of this id in some area, or that it manages; the id
/// itself where there is none.
fn related(random: &mut Random, book: &[u8], id: u32) -> u32 {
    let users = questions_1_to_7(book).map_or_else(|_| Vec::new(), |book| book.users);
    let mut ids = vec![id];
    for user in users {
        if user.managers.contains(&id) {
            ids.push(user.id);
        }
        if user.id == id {
            ids.extend(user.managers.iter().filter(|manager| **manager != 0));
        }
    }
    match &ids[1..] {
        [] => id,
        others => random.pick(others),
    }
}

/// What a party may see of a book, in book order: the header, the records and the
/// trades, as bytes.
pub fn view(book: &Book, id: u32) -> (Vec<u8>, Vec<Vec<u8>>, Vec<[u8; 20]>) {
    let users = book.users.iter().filter(|user| may_see_record(id, user));
    let users = users.map(|user| user.to_bytes(book.version));
    let trades = book.trades.iter();
    let trades = trades.filter(|trade| may_see_trade(book, id, trade));
    let trades = trades.map(Trade::to_bytes);
    (book.header_bytes(), users.collect(), trades.collect())
}

/// Another accepted book that agrees with this one on what the shipper of this id may
/// see: other ids, roles, entries, charges, guarantees and managers of the users whose
/// records it does not see, other parties, kinds, days, areas and energies of the trades
/// that it does not see, and these trades in another order among its own. The book
/// itself where what was drawn is no such book.
pub fn twin(random: &mut Random, book: &Book, id: u32) -> Book {
    let mut other = book.clone();
    let named = named(book, id);
    change_users(random, &mut other, id, &named);
    change_trades(random, &mut other, id);
    shuffle_trades(random, &mut other, id);
    set_positions(&mut other);
    let accepted = questions_1_to_7(&other.to_bytes()).is_ok();
    if accepted && view(&other, id) == view(book, id) {
        other
    } else {
        book.clone()
    }
}

/// The ids that stand in what the shipper may see: parties of its trades and managers
/// of the records. They stay users of the book.
fn named(book: &Book, id: u32) -> Vec<u32> {
    let trades = book.trades.iter();
    let trades = trades.filter(|trade| may_see_trade(book, id, trade));
    let parties = trades.flat_map(|trade| [trade.seller, trade.buyer]);
    let users = book.users.iter().filter(|user| may_see_record(id, user));
    parties
        .chain(users.flat_map(|user| user.managers))
        .collect()
}

/// Changes users that the shipper does not see. One whose id is named keeps it, its
/// role and its managers, which what is seen may rest on.
fn change_users(random: &mut Random, book: &mut Book, id: u32, named: &[u32]) {
    let ids: Vec<u32> = book.users.iter().map(|user| user.id).collect();
    for place in 0..ids.len() {
        if may_see_record(id, &book.users[place]) || random.one_in(3) {
            continue;
        }
        let user = &mut book.users[place];
        let entry = |random: &mut Random| Mwh(random.between(-1_000_000, 1_000_000));
        user.physical = [(); 3].map(|()| entry(random));
        user.charges = Cents(random.between(-1_000_000, 1_000_000_000));
        user.assigned = Cents(random.between(1_000, 1_000_000_000));
        user.blocked = Cents(random.between(0, 1_000));
        if !named.contains(&ids[place]) {
            change_identity(random, book, place);
        }
    }
}

/// Another role, no managers, or another id, which the trades and managers that name
/// the user have too.
fn change_identity(random: &mut Random, book: &mut Book, place: usize) {
    let old = book.users[place].id;
    let (any, near) = (random.word(), old.wrapping_add(random.word() % 7));
    let new = random.pick(&[near, any]).max(1);
    let free = book.users.iter().all(|user| user.id != new);
    if random.one_in(2) && free {
        let renamed = |id: u32| if id == old { new } else { id };
        for user in &mut book.users {
            user.id = renamed(user.id);
            user.managers = user.managers.map(renamed);
        }
        for trade in &mut book.trades {
            (trade.seller, trade.buyer) = (renamed(trade.seller), renamed(trade.buyer));
        }
        book.users.sort_by_key(|user| user.id);
        return;
    }
    let manages = |user: &User| user.managers.contains(&old);
    if !book.users.iter().any(manages) {
        let user = &mut book.users[place];
        user.managers = [0; 3];
        user.role = random.pick(&[0, 0, 1]);
    }
}

/// Changes trades between users that the shipper does not see.
fn change_trades(random: &mut Random, book: &mut Book, id: u32) {
    let hidden = |user: &&User| !may_see_record(id, user);
    let hidden: Vec<u32> = book
        .users
        .iter()
        .filter(hidden)
        .map(|user| user.id)
        .collect();
    for trade in &mut book.trades {
        let between = [trade.seller, trade.buyer];
        let unseen = between.iter().all(|party| hidden.contains(party));
        if !unseen || random.one_in(3) {
            continue;
        }
        let parties = (random.pick(&hidden), random.pick(&hidden));
        if parties.0 != parties.1 {
            (trade.seller, trade.buyer) = parties;
        }
        trade.area = random.pick(&[0, 1, 2]);
        trade.kind = random.pick(&[0, 0, 1, 2]);
        trade.day = random.pick(&[0, 0, 1]);
        trade.notified = Mwh(random.between(1, 100_000));
        trade.standing = trade.notified;
        if trade.is_bilateral_today() && random.one_in(2) {
            trade.standing = Mwh(random.between(0, trade.notified.0));
        }
    }
}

/// Puts the trades that the shipper does not see in another order, its own staying in
/// theirs.
fn shuffle_trades(random: &mut Random, book: &mut Book, id: u32) {
    let seen = |trade: &Trade| may_see_trade(book, id, trade);
    let (mut own, mut others): (Vec<Trade>, Vec<Trade>) =
        book.trades.iter().cloned().partition(seen);
    own.reverse();
    let mut trades = Vec::new();
    while trades.len() < book.trades.len() {
        let from_own = others.is_empty() || (!own.is_empty() && random.one_in(2));
        let next = match from_own {
            true => own.pop(),
            false => Some(others.swap_remove(random.below(others.len()))),
        };
        trades.extend(next);
    }
    book.trades = trades;
}
