//! Document 02, ask 9, "Who may see and do what": "every call on a book gains an
//! acting party".

use crate::book::{Book, User};
use crate::questions::ask;

/// "The operator, or a shipper with an id". An id has 32 bits in a book; one of more
/// is no shipper's of any book.
#[derive(Clone, Copy, Debug, PartialEq, Eq)]
pub enum Party {
    Operator,
    Shipper(u64),
}

/// The operator as a number of 64 bits: 2^32, which no id has.
const OPERATOR: u64 = 1 << 32;

impl Party {
    /// The party of a number: a shipper's is its id.
    pub fn of(number: u64) -> Party {
        match number {
            OPERATOR => Party::Operator,
            id => Party::Shipper(id),
        }
    }

    /// The number of the party.
    pub fn number(self) -> u64 {
        match self {
            Party::Operator => OPERATOR,
            Party::Shipper(id) => id,
        }
    }
}

/// What a call is given beside the book, a log and its own arguments: who acts, and a
/// store or none.
#[derive(Clone, Copy, Debug, PartialEq, Eq)]
pub struct Given<'a> {
    pub party: Party,
    pub store: Option<&'a [u8]>,
}

impl Given<'_> {
    /// The operator, without a store.
    pub const OPERATOR: Given<'static> = Given::by_operator(None);

    /// The operator, with this store or none.
    pub const fn by_operator(store: Option<&[u8]>) -> Given<'_> {
        Given {
            party: Party::Operator,
            store,
        }
    }
}

/// What a call is to a shipper.
#[derive(Clone, Copy, Debug, PartialEq, Eq)]
pub enum Act {
    /// "A shipper may have its own record, levels and flag, the count of the trades
    /// it may see and, by ordinal .., that trade's 20 bytes": a call for this id.
    Own(u32),
    /// "All else is the operator's."
    Operators,
}

/// Question 26: "a forbidden act, or a call for another id, a member's too", fails
/// it, and so does "an id that is no shipper's in the book".
pub fn question_26(book: &Book, party: Party, act: Act) -> Result<(), u32> {
    let allowed = match (party, act) {
        (Party::Operator, _) => true,
        (Party::Shipper(_), Act::Operators) => false,
        (Party::Shipper(acting), Act::Own(id)) => {
            let own = |user: &User| u64::from(user.id) == acting && user.id == id;
            book.users.iter().any(|user| own(user) && user.is_shipper())
        }
    };
    ask(26, allowed)
}
