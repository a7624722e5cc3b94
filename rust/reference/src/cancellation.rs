//! Document 02, ask 8, "Whole cancellations": a set of whole eligible trades
//! that is worth at least the target T.

use crate::book::{Book, User, MOST_TRADES};
use crate::party::{Act, Given};
use crate::questions::{ask, opening_questions, Opened, ACCEPTED};
use crate::reduction::{is_eligible, questions_8_to_14, target};
use crate::units::Cents;

/// "A number of tries from 1 to 65,535."
pub const MOST_TRIES: u32 = 65_535;

#[derive(Clone, Debug, PartialEq, Eq)]
pub struct CancellationAnswer {
    pub number: u32,
    /// "256 marks by trade place."
    pub marks: [bool; MOST_TRADES],
    pub excess: i128,
    pub tries: u32,
    pub complete: bool,
}

/// The whole trades of a shipper to cancel. "It changes no book."
pub fn cancellation(bytes: &[u8], given: Given<'_>, id: u32, tries: u32) -> CancellationAnswer {
    cancelled(bytes, given, id, tries).unwrap_or_else(|number| CancellationAnswer {
        number,
        marks: [false; MOST_TRADES],
        excess: 0,
        tries: 0,
        complete: false,
    })
}

/// "The questions are a reduction's", with 25 "asked after 17 and before
/// question 8" and 24 "asked last"; then the answer.
fn cancelled(
    bytes: &[u8],
    given: Given<'_>,
    id: u32,
    tries: u32,
) -> Result<CancellationAnswer, u32> {
    let opened = opening_questions(bytes, given, Act::Operators)?;
    ask(25, (1..=MOST_TRIES).contains(&tries))?;
    let place = questions_8_to_14(&opened, id)?;
    let Opened { book, limits } = opened;
    let user = &book.users[place];
    let target = target(&limits, &book, user);
    let eligible = eligible_places(&book, user);
    let worths = worths(&book, &eligible);
    ask(24, worths.iter().copied().sum::<Cents>() >= target)?;

    let search = Search::new(&worths, target, tries);
    let mut marks = [false; MOST_TRADES];
    for (place, mark) in eligible.iter().zip(&search.set) {
        marks[*place] = *mark;
    }
    Ok(CancellationAnswer {
        number: ACCEPTED,
        marks,
        excess: search.excess.0,
        tries: search.tries,
        complete: search.complete,
    })
}

/// The places of the eligible trades, "from both tiers", in the order of the
/// book.
fn eligible_places(book: &Book, user: &User) -> Vec<usize> {
    let eligible = |place: &usize| is_eligible(book, &book.trades[*place], user);
    (0..book.trades.len()).filter(eligible).collect()
}

/// The worth at tariff of each of these trades.
fn worths(book: &Book, places: &[usize]) -> Vec<Cents> {
    let trades = places.iter().map(|place| &book.trades[*place]);
    trades
        .map(|trade| trade.standing * trade.tariff(&book.prices))
        .collect()
}

/// Which of the eligible trades are in a set: "a set is read as a binary number,
/// the earliest trade its highest bit".
pub type Set = Vec<bool>;

/// The worth of a set.
fn worth(set: &Set, worths: &[Cents]) -> Cents {
    let chosen = worths.iter().zip(set).filter(|(_, chosen)| **chosen);
    chosen.map(|(worth, _)| *worth).sum()
}

/// The set whose number is one less; none below the empty set, which is 0.
fn one_less(set: &Set) -> Option<Set> {
    let lowest = set.iter().rposition(|chosen| *chosen)?;
    let mut less = set.clone();
    less[lowest] = false;
    less[lowest + 1..].fill(true);
    Some(less)
}

/// What the tries come to.
#[derive(Clone, Debug, PartialEq, Eq)]
pub struct Search {
    /// "The tried set that reaches T with the smallest excess, the first such."
    pub set: Set,
    pub excess: Cents,
    /// "The tries made."
    pub tries: u32,
    /// "Exactly when the excess is 0 or every set was tried."
    pub complete: bool,
}

impl Search {
    /// "Sets are tried counting down from all trades to the empty set, that one
    /// too, until the tries are spent, an excess of 0 is met or none is left."
    /// All trades together reach the target.
    pub fn new(worths: &[Cents], target: Cents, tries: u32) -> Search {
        let mut set = vec![true; worths.len()];
        let mut search = Search {
            excess: worth(&set, worths) - target,
            set: set.clone(),
            tries: 1,
            complete: false,
        };
        let mut left = one_less(&set);
        while search.tries < tries && search.excess != Cents::ZERO {
            let Some(next) = left else { break };
            set = next;
            search.tries += 1;
            let excess = worth(&set, worths) - target;
            if excess >= Cents::ZERO && excess < search.excess {
                search.excess = excess;
                search.set = set.clone();
            }
            left = one_less(&set);
        }
        search.complete = search.excess == Cents::ZERO || left.is_none();
        search
    }
}
