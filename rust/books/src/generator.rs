//! The generator: books of a kind, arguments and calls for a book.

use reference::book::{user_length, Book, User};
use reference::version::{header_length, FIRST_HEADER_LENGTH};

use crate::accepted::{
    any_size, chain, extreme, largest, long, midday, shares, sized, small, usual,
};
use crate::calls::Call;
use crate::cancellations::whole;
use crate::credits::credited;
use crate::damage::{counts, version_of, Damage};
use crate::groups::{grouped, with_members};
use crate::kinds::Kind;
use crate::random::Random;
use crate::raw::raw;
use crate::runs::{is_short_run, reducible};
use crate::stores::{any_store, date_of};

/// Arguments of the calls: of the book, or hostile.
#[derive(Clone, Copy, Debug, PartialEq, Eq)]
pub struct Arguments {
    pub id: u32,
    pub area: u32,
    pub amount: i64,
    pub pick: bool,
}

#[derive(Clone, Debug)]
pub struct Generator {
    random: Random,
}

impl Generator {
    pub fn new(seed: u64) -> Generator {
        Generator {
            random: Random::new(seed),
        }
    }

    /// The random numbers, for choices of the caller.
    pub fn random(&mut self) -> &mut Random {
        &mut self.random
    }

    /// A book of this kind. The run of an accepted one takes at most 400
    /// reductions, that of a long one 3,000.
    pub fn book(&mut self, kind: Kind) -> Vec<u8> {
        let random = &mut self.random;
        match kind {
            Kind::Small => small(random).to_bytes(),
            Kind::Usual => usual(random).to_bytes(),
            Kind::AnySize => any_size(random).to_bytes(),
            Kind::Largest => largest(random).to_bytes(),
            Kind::Extreme => extreme(random).to_bytes(),
            Kind::Chain => self.members(chain),
            Kind::Shares => self.members(shares),
            Kind::Whole => self.members(whole),
            Kind::Credit => self.members(credited),
            Kind::Group => grouped(random).to_bytes(),
            Kind::Midday => self.members(midday),
            Kind::Long => self.members(long),
            Kind::Damaged => self.damaged(),
            Kind::Raw => {
                let accepted = self.few();
                raw(&mut self.random, &accepted)
            }
        }
    }

    /// A book so drawn, in version 3 often with groups.
    fn members(&mut self, draw: fn(&mut Random) -> Book) -> Vec<u8> {
        let book = draw(&mut self.random);
        with_members(&mut self.random, book).to_bytes()
    }

    /// A book of this kind and version.
    pub fn book_of(&mut self, version: u16, kind: Kind) -> Vec<u8> {
        loop {
            let book = self.book(kind);
            if version_of(&book) == version {
                return book;
            }
        }
    }

    /// An accepted book of this version, of this many users, 1 to 64, and trades,
    /// at most 256; a single user trades with nobody. Its run takes at most 400
    /// reductions.
    pub fn sized(&mut self, version: u16, users: usize, trades: usize) -> Book {
        sized(&mut self.random, version, users, trades)
    }

    /// A book of any kind, the large ones less often.
    pub fn any_book(&mut self) -> Vec<u8> {
        let kind = match self.random.below(32) {
            0 => self
                .random
                .pick(&[Kind::Largest, Kind::Extreme, Kind::AnySize]),
            1 => Kind::Long,
            2 | 3 => Kind::Raw,
            4..=6 => Kind::Damaged,
            7 | 8 => Kind::Chain,
            9..=12 => Kind::Shares,
            13..=15 => Kind::Midday,
            16..=19 => Kind::Usual,
            20 | 21 => Kind::Whole,
            22 | 23 => Kind::Credit,
            24..=27 => Kind::Group,
            _ => Kind::Small,
        };
        self.book(kind)
    }

    /// An accepted book that is not large.
    pub(crate) fn few(&mut self) -> Vec<u8> {
        let kind = self.random.pick(&[
            Kind::Small,
            Kind::Small,
            Kind::Usual,
            Kind::Midday,
            Kind::Credit,
            Kind::Group,
        ]);
        self.book(kind)
    }

    fn damaged(&mut self) -> Vec<u8> {
        let damage = self.random.pick(&Damage::ALL);
        let mut bytes = self.damaged_by(damage);
        if self.random.one_in(4) {
            let second = self.random.pick(&Damage::ALL);
            if bytes.len() >= FIRST_HEADER_LENGTH {
                let (users, trades) = counts(&bytes);
                second.apply(&mut self.random, &mut bytes, (users, trades));
            }
        }
        bytes
    }

    /// An accepted book with this damage alone.
    pub fn damaged_by(&mut self, damage: Damage) -> Vec<u8> {
        loop {
            let mut bytes = self.few();
            let counts = counts(&bytes);
            if damage.apply(&mut self.random, &mut bytes, counts) {
                return bytes;
            }
        }
    }

    /// An otherwise accepted book for each of the dates next to the ends of the
    /// months and of the years 2020 to 2099, real or not.
    pub fn dated_books(&mut self) -> Vec<Vec<u8>> {
        let mut books = Vec::new();
        for year in [2019, 2020, 2021, 2023, 2024, 2096, 2099, 2100] {
            for month in 0..=13 {
                for day in [0, 1, 28, 29, 30, 31, 32] {
                    let date: u32 = year * 10_000 + month * 100 + day;
                    let mut bytes = self.book(Kind::Small);
                    bytes[8..12].copy_from_slice(&date.to_le_bytes());
                    books.push(bytes);
                }
            }
        }
        books
    }

    /// Arguments for a call on this book.
    pub fn arguments(&mut self, book: &[u8]) -> Arguments {
        let users = users_in_place(book);
        let user = match users.len() {
            0 => User::default(),
            // The first user sells most.
            _ if self.random.one_in(3) => users[0].clone(),
            count => users[self.random.below(count)].clone(),
        };
        let area = self.area();
        Arguments {
            id: self.id(user.id),
            area,
            amount: self.amount(&user, area),
            pick: self.random.one_in(2),
        }
    }

    fn id(&mut self, id: u32) -> u32 {
        match self.random.below(24) {
            0 => 0,
            1 => u32::MAX,
            2 => id.wrapping_add(1),
            3 => id.wrapping_sub(1),
            4 => self.random.word(),
            _ => id,
        }
    }

    fn area(&mut self) -> u32 {
        match self.random.below(16) {
            0 => 3,
            1 => u32::MAX,
            2 => self.random.pick(&[4, 255, 256, 257, 65_536, 1 << 31]),
            _ => self.random.pick(&[0, 1, 2]),
        }
    }

    /// An amount, often such that the new entry is at or next to the limit.
    fn amount(&mut self, user: &User, area: u32) -> i64 {
        let place = usize::try_from(area).unwrap_or(0).min(2);
        let entry = i64::try_from(user.physical[place].0).unwrap_or(0);
        let most = 1_000_000 - entry;
        let least = -1_000_000 - entry;
        let any = i64::from_le_bytes(self.random.bits().to_le_bytes());
        let wide = 1_i64 << 32;
        match self.random.below(16) {
            0 => 0,
            1 => self.random.pick(&[i64::MIN, i64::MAX, i64::MIN + 1, any]),
            2 => self
                .random
                .pick(&[wide, -wide, wide + 5, -wide - 5, 1 << 31]),
            3 => most,
            4 => most + 1,
            5 => least,
            6 => least - 1,
            7..=9 => -self.energy(100_000),
            10 => -self.energy(1_000_000),
            _ => self.energy(5_000) - 2_500,
        }
    }

    fn energy(&mut self, most: i128) -> i64 {
        i64::try_from(self.random.between(0, most)).unwrap_or(0)
    }

    /// No store, or one of any kind for this book.
    pub fn store(&mut self, book: &[u8]) -> Option<Vec<u8>> {
        any_store(&mut self.random, date_of(book))
    }

    /// Any call on this book, given this store. A run of more than 3,000
    /// reductions is not drawn.
    pub fn call(&mut self, book: &[u8], store: Option<&[u8]>) -> Call {
        let Arguments { id, pick, .. } = self.arguments(book);
        match self.random.below(21) {
            0 => Call::Show { id },
            1 => Call::ShowPicked {
                afternoon: self.small_book(),
                pick,
                id,
            },
            2 => Call::MorningLevel { id },
            3 => Call::AfternoonLevel { id },
            4 => Call::Warning { id },
            5 if pick => Call::Levels,
            5 => Call::Read,
            6 => self.write(),
            7 if is_short_run(book, None) => Call::Day,
            8 => self.cancellation(book, store),
            9 => self.form(book),
            10 => Call::Flag { id },
            11 => Call::TradeCount { id },
            12 => Call::Trade {
                id,
                ordinal: self.ordinal(),
            },
            _ => self.changing_call(book, store),
        }
    }

    /// A call that changes the book: a posting, a list of them, a guarantee call,
    /// a reduction or a run.
    pub fn changing_call(&mut self, book: &[u8], store: Option<&[u8]>) -> Call {
        let Arguments {
            id, area, amount, ..
        } = self.arguments(book);
        match self.random.below(11) {
            0..=2 => Call::Posting { id, area, amount },
            10 => self.list(book),
            3 => Call::MorningCall { id },
            4 => Call::AfternoonCall { id },
            5 if is_short_run(book, store) => Call::Run,
            6 => Call::Reduction {
                id: reducible(book, store).unwrap_or(id),
            },
            _ => Call::Reduction { id },
        }
    }

    fn small_book(&mut self) -> Vec<u8> {
        let kind = self
            .random
            .pick(&[Kind::Small, Kind::Small, Kind::Damaged, Kind::Raw]);
        self.book(kind)
    }
}

/// The users whose records stand in the bytes, up to the count, whether the
/// bytes are an accepted book or not.
fn users_in_place(bytes: &[u8]) -> Vec<User> {
    if bytes.len() < FIRST_HEADER_LENGTH {
        return Vec::new();
    }
    let (count, _) = counts(bytes);
    let version = version_of(bytes);
    let header = header_length(version).min(bytes.len());
    let records = bytes[header..].chunks_exact(user_length(version));
    records.take(count).map(User::from_bytes).collect()
}
