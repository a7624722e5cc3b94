//! The questions 1 to 7, and what one way through the records gathers for the
//! calls.

use crate::records::{
    ask, Header, Trade, TradeBytes, User, UserBytes, MARK, MOST_TRADES, MOST_USERS, TRADE_LENGTH,
    USER_LENGTH,
};
use crate::units::{Limits, Mwh, Rates};
use crate::version::header_length_of;

/// Where the sums of a day begin among those of a user: three areas, and one
/// place that is not used.
const DAY: usize = 4;

/// What the calls need of an accepted book beside its records.
pub struct Gathered {
    pub rates: Rates,
    /// The ids, rising; past the count the highest of all numbers.
    ids: [u32; MOST_USERS],
    users: usize,
    /// For each user, day and area: standing bought − standing sold.
    nets: [[i32; 2 * DAY]; MOST_USERS],
    /// A bit for each user that is party to a trade standing below notified.
    pub below_notified: u64,
    /// The places of seller and buyer of each trade.
    pub parties: [Parties; MOST_TRADES],
}

/// The places of a trade's parties among the users.
#[derive(Clone, Copy, Debug, Default)]
pub struct Parties {
    pub seller: u8,
    pub buyer: u8,
}

impl Parties {
    /// A bit for either party.
    #[inline]
    pub fn bits(self) -> u64 {
        1 << self.seller | 1 << self.buyer
    }
}

/// The bytes of a book as records.
#[derive(Clone, Copy)]
pub struct Records<'a> {
    pub header: Header,
    pub users: &'a [UserBytes],
    pub trades: &'a [TradeBytes],
}

impl Records<'_> {
    /// The questions 1 to 4, after which the records have their places.
    pub fn of(bytes: &[u8]) -> Result<Records<'_>, u32> {
        let (first, rest) = bytes.split_first_chunk().ok_or(1_u32)?;
        ask(1, first.starts_with(MARK))?;
        let header = Header::from_bytes(first).with_selling_tariffs(rest);
        header.ask(bytes.len())?;
        Ok(Records::at(header, bytes))
    }

    /// The records of a book of the right length.
    pub fn at(header: Header, bytes: &[u8]) -> Records<'_> {
        let records = &bytes[header.length()..];
        let (users, trades) = records.split_at(USER_LENGTH * usize::from(header.users));
        Records {
            header,
            users: users.as_chunks().0,
            trades: trades.as_chunks().0,
        }
    }

    /// The questions 5 to 7.
    pub fn gather(self) -> Result<Gathered, u32> {
        gather(
            &self.header,
            self.users.iter().map(User::from_exact_bytes),
            self.trades.iter().map(Trade::from_exact_bytes),
        )
    }
}

/// The records of a book that is changed in place, its header being there.
pub fn records_mut(bytes: &mut [u8], users: usize) -> (&mut [UserBytes], &mut [TradeBytes]) {
    let header = header_length_of(bytes);
    let (users, trades) = bytes[header..].split_at_mut(USER_LENGTH * users);
    (
        users.as_chunks_mut::<USER_LENGTH>().0,
        trades.as_chunks_mut::<TRADE_LENGTH>().0,
    )
}

/// The questions 5 to 7 of users and trades; none stands for a record whose zero
/// bytes are not 0.
pub fn gather(
    header: &Header,
    users: impl Iterator<Item = Option<User>> + Clone,
    trades: impl Iterator<Item = Option<Trade>>,
) -> Result<Gathered, u32> {
    let mut gathered = Gathered {
        rates: Rates::new(&header.prices, &Limits::TODAY),
        ids: [u32::MAX; MOST_USERS],
        users: usize::from(header.users),
        nets: [[0; 2 * DAY]; MOST_USERS],
        below_notified: 0,
        parties: [Parties::default(); MOST_TRADES],
    };
    let mut before = 0;
    for (id, user) in gathered.ids.iter_mut().zip(users.clone()) {
        let user = user.ok_or(5_u32)?;
        ask(5, user.is_valid_after(before))?;
        before = user.id;
        *id = before;
    }
    for (place, trade) in trades.enumerate() {
        let trade = trade.ok_or(6_u32)?;
        ask(6, trade.is_valid())?;
        gathered.add(place, &trade)?;
    }
    for (nets, user) in gathered.nets.iter().zip(users.flatten()) {
        let defined = |area: usize| {
            i64::from(user.physical[area]) + i64::from(nets[area]) == i64::from(user.position[area])
        };
        ask(7, defined(0) && defined(1) && defined(2))?;
    }
    Ok(gathered)
}

impl Gathered {
    /// Adds a valid trade to the sums of its parties, which question 6 asks for.
    #[inline]
    fn add(&mut self, place: usize, trade: &Trade) -> Result<(), u32> {
        let seller = self.place_of(trade.seller).ok_or(6_u32)?;
        let buyer = self.place_of(trade.buyer).ok_or(6_u32)?;
        ask(6, seller != buyer)?;
        let sum = DAY * usize::from(trade.day) + usize::from(trade.area);
        self.nets[usize::from(seller)][sum] -= trade.standing.cast_signed();
        self.nets[usize::from(buyer)][sum] += trade.standing.cast_signed();
        let parties = Parties { seller, buyer };
        if trade.standing < trade.notified {
            self.below_notified |= parties.bits();
        }
        self.parties[place] = parties;
        Ok(())
    }

    /// The place of the user with this id: the number of ids below it, found in
    /// six steps without a branch.
    #[inline]
    fn place_of(&self, id: u32) -> Option<u8> {
        let mut below = 0;
        for half in [32, 16, 8, 4, 2, 1] {
            let more = (below + half) % MOST_USERS;
            below = if self.ids[more - 1] < id { more } else { below };
        }
        let found = below < self.users && self.ids[below] == id;
        found.then_some(below.to_le_bytes()[0])
    }

    /// Question 8.
    pub fn user(&self, id: u32) -> Result<usize, u32> {
        self.place_of(id).map(usize::from).ok_or(8)
    }

    /// Standing sold − standing bought for d+1.
    #[inline]
    pub fn sold_tomorrow(&self, user: usize) -> [Mwh; 3] {
        let nets = &self.nets[user];
        [nets[DAY], nets[DAY + 1], nets[DAY + 2]].map(|net| Mwh(-i64::from(net)))
    }
}
