//! A book on its way from text or CSV to bytes: its fields, where each of them
//! was written, and the mistakes found on the way.

use std::fmt::{self, Display, Formatter};

use daybook::{Book, Trade, User, MOST_TRADES, MOST_USERS};

use crate::faults::{self, Fault};
use crate::fields::{Field, Place};

/// Where something is written: a file of a folder, or none for the text itself;
/// line and column count from 1, columns in characters.
#[derive(Clone, Copy, Debug, Default, PartialEq, Eq)]
pub struct Spot {
    pub file: &'static str,
    pub line: usize,
    pub column: usize,
}

impl Display for Spot {
    fn fmt(&self, formatter: &mut Formatter<'_>) -> fmt::Result {
        let Spot { file, line, column } = self;
        let slash = if file.is_empty() { "" } else { "/" };
        write!(formatter, "{slash}{file}:{line}:{column}")
    }
}

/// What cannot be read, and where.
#[derive(Clone, Debug, PartialEq, Eq)]
pub struct Mistake {
    pub spot: Spot,
    pub reason: String,
}

/// The mistakes of one input; after the most that are told, reading stops.
pub const MOST_MISTAKES: usize = 20;

/// The longest text or table that is read, far above the longest that is a book.
pub const LONGEST: usize = 1 << 20;

/// Why a text is not read at all: it is too long.
pub fn too_long(file: &'static str, bytes: &[u8]) -> Option<Mistake> {
    let most = LONGEST >> 20;
    let reason = format!("the text is longer than {most} MB, and no book, list or store is");
    (bytes.len() > LONGEST).then_some(Mistake {
        spot: Spot {
            file,
            line: 1,
            column: 1,
        },
        reason,
    })
}

/// The fields of a record that were written, and where.
pub type Spots = Vec<(Field, Spot)>;

/// The fields of a book as they were read.
#[derive(Clone, Debug, Default)]
pub struct Draft {
    pub book: Book,
    header: Spots,
    users: Vec<Spots>,
    trades: Vec<Spots>,
    /// The names of users by id, for those who read what is told.
    pub names: Vec<(u32, String)>,
    /// What was skipped.
    pub notes: Vec<Mistake>,
}

/// Why a draft is no book.
#[derive(Clone, Debug, PartialEq, Eq)]
pub struct Refused {
    pub refusal: daybook::Refusal,
    /// The faults, each with the place where it is written.
    pub faults: Vec<(Spot, Fault)>,
}

impl Draft {
    /// Notes where a field of the header is written.
    pub fn note(&mut self, field: Field, spot: Spot) {
        self.header.push((field, spot));
    }

    /// Whether a field of the header is written already.
    pub fn has(&self, field: Field) -> bool {
        self.header.iter().any(|(it, _)| *it == field)
    }

    pub fn add_user(&mut self, user: User, spots: Spots) {
        self.book.users.push(user);
        self.users.push(spots);
    }

    /// Puts the users in the order of their ids.
    pub fn sort_users(&mut self) {
        let users = std::mem::take(&mut self.book.users);
        let mut pairs: Vec<(User, Spots)> = users.into_iter().zip(self.users.drain(..)).collect();
        pairs.sort_by_key(|(user, _)| user.id);
        (self.book.users, self.users) = pairs.into_iter().unzip();
    }

    pub fn add_trade(&mut self, trade: Trade, spots: Spots) {
        self.book.trades.push(trade);
        self.trades.push(spots);
    }

    /// The bytes, written by the engine. Positions that are not written down are
    /// those that document 01 defines.
    pub fn into_bytes(mut self) -> Result<Vec<u8>, Refused> {
        self.fill_positions();
        let mut bytes = vec![0; self.book.length()];
        match daybook::write(&self.book, &mut bytes) {
            Ok(()) => Ok(bytes),
            Err(refusal) => {
                let faults = faults::faults_of(&self.book, refusal.number());
                let told = |fault: Fault| (self.spot(&fault), self.with_twin(fault));
                Err(Refused {
                    refusal,
                    faults: faults.into_iter().map(told).collect(),
                })
            }
        }
    }

    /// Too many users or trades are refused whatever their positions are.
    fn fill_positions(&mut self) {
        if self.book.users.len() > MOST_USERS || self.book.trades.len() > MOST_TRADES {
            return;
        }
        for place in 0..self.book.users.len() {
            for area in 0..3 {
                if !is_in(&self.users[place], Field::Position(area)) {
                    define_position(&mut self.book, place, area);
                }
            }
        }
    }

    /// An id that is there twice is told with the line of the first.
    fn with_twin(&self, mut fault: Fault) -> Fault {
        let twin = match (fault.place, fault.field) {
            (Place::User(place), Field::Id) => faults::earlier(&self.book, place),
            _ => None,
        };
        if let Some(spots) = twin.and_then(|twin| self.users.get(twin)) {
            let line = spots.first().map_or(0, |(_, spot)| spot.line);
            fault.reason.push_str(&format!(", in line {line}"));
        }
        fault
    }

    /// Where a fault is written: the field, or else its record.
    fn spot(&self, fault: &Fault) -> Spot {
        let record = match (fault.place, fault.field) {
            (_, Field::UserCount) => self.users.get(MOST_USERS).or(Some(&self.header)),
            (_, Field::TradeCount) => self.trades.get(MOST_TRADES),
            (Place::Header, _) => Some(&self.header),
            (Place::User(place), _) => self.users.get(place),
            (Place::Trade(place), _) => self.trades.get(place),
        };
        let spots = record.map_or(&[][..], Vec::as_slice);
        let exact = spots.iter().find(|(field, _)| *field == fault.field);
        exact.or(spots.first()).map_or(
            Spot {
                file: "",
                line: 1,
                column: 1,
            },
            |(_, spot)| *spot,
        )
    }
}

/// Sets the position of a user as document 01 defines it. One beyond 32 bits comes
/// of amounts that are refused before it.
pub fn define_position(book: &mut Book, place: usize, area: usize) {
    let position = faults::defined_position(book, &book.users[place], area);
    book.users[place].position[area] = i32::try_from(position).unwrap_or(0);
}

fn is_in(spots: &Spots, field: Field) -> bool {
    spots.iter().any(|(it, _)| *it == field)
}
