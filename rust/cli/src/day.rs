//! What the day of a book asks of people: of each user the state, the level, what
//! is uncovered and what is to be called, and the deposits that keep every trade
//! from being cut. The figures are the engine's.

use daybook::{Book, GuaranteeCall, Operator, Refusal, Run, User};

use crate::state::{states, State};

/// A user in its day.
#[derive(Clone, Copy, Debug, PartialEq, Eq)]
pub struct Standing {
    pub user: User,
    pub state: State,
    /// What the afternoon level exceeds the assigned guarantee by, of a user that
    /// is short of cover, in cents.
    pub uncovered: u64,
    /// What an afternoon call adds to blocked; none where it is refused.
    pub to_call: Option<u64>,
    /// The target of a reduction; none where it is refused: the user is not short
    /// of cover, or has no sale to cut.
    pub target: Option<u64>,
}

/// The users of an accepted book in their day.
pub fn standings(operator: &Operator, bytes: &[u8], book: &Book) -> Result<Vec<Standing>, Refusal> {
    let standing = |(user, state): (&User, State)| {
        let level = state.level.unwrap_or(0);
        let is_short = state.word == "short";
        let (mut copy, mut operator) = (bytes.to_vec(), operator.without_log());
        let reduced = is_short.then(|| operator.reduction(&mut copy, user.id).ok());
        let is_due = state.word == "call";
        let called = is_due.then(|| operator.afternoon_call(&mut copy, user.id).ok());
        Standing {
            user: *user,
            state,
            uncovered: match is_short {
                true => level.saturating_sub(user.assigned),
                false => 0,
            },
            to_call: called.flatten().map(|GuaranteeCall { added, .. }| added),
            target: reduced.flatten().map(|it| it.target),
        }
    };
    let states = states(operator, bytes)?;
    Ok(book.users.iter().zip(states).map(standing).collect())
}

/// Deposits that keep every trade from being cut.
#[derive(Clone, Debug, PartialEq, Eq)]
pub struct Deposits {
    /// By user, in cents: T of each that is short of cover and has a sale to cut.
    pub by_user: Vec<(u32, u64)>,
    pub confirmed: Confirmed,
}

/// What the engine says of the book with the deposits assigned.
#[derive(Clone, Copy, Debug, PartialEq, Eq)]
pub enum Confirmed {
    /// A run makes no reduction and leaves the book as it is.
    Yes,
    /// A guarantee would be more than a book can hold.
    Beyond(Refusal),
    /// A run still cuts: the deposits are not told.
    No,
}

impl Deposits {
    pub fn total(&self) -> u128 {
        self.by_user
            .iter()
            .map(|(_, cents)| u128::from(*cents))
            .sum()
    }
}

/// The deposits of an accepted book, asked of the engine.
pub fn deposits(operator: &Operator, book: &Book, standings: &[Standing]) -> Deposits {
    let targets = standings
        .iter()
        .filter_map(|it| it.target.map(|target| (it.user.id, target)));
    let by_user: Vec<(u32, u64)> = targets.collect();
    let mut book = book.clone();
    for user in &mut book.users {
        let deposit = by_user.iter().find(|(id, _)| *id == user.id);
        user.assigned = user
            .assigned
            .saturating_add(deposit.map_or(0, |(_, cents)| *cents));
    }
    Deposits {
        confirmed: confirmed(operator, &book),
        by_user,
    }
}

fn confirmed(operator: &Operator, book: &Book) -> Confirmed {
    let mut bytes = vec![0; book.length()];
    if let Err(refusal) = daybook::write(book, &mut bytes) {
        return Confirmed::Beyond(refusal);
    }
    let before = bytes.clone();
    match operator.without_log().run(&mut bytes) {
        Ok(Run { reductions: 0, .. }) if bytes == before => Confirmed::Yes,
        _ => Confirmed::No,
    }
}

/// The day of a book in a few figures.
#[derive(Clone, Copy, Debug, Default, PartialEq, Eq)]
pub struct Totals {
    pub run: Run,
    /// How many users are short of cover, and by how much.
    pub short: usize,
    pub uncovered: u128,
    /// How many afternoon calls are due, and for how much.
    pub calls: usize,
    pub to_call: u128,
    /// What has to be deposited so that no trade is cut; none where no guarantee
    /// that a book can hold does it.
    pub deposit: Option<u128>,
}

impl Totals {
    /// The totals of a book whose users' standings and run are known.
    pub fn new(operator: &Operator, book: &Book, standings: &[Standing], run: Run) -> Totals {
        let deposits = deposits(operator, book, standings);
        let uncovered = standings.iter().map(|it| u128::from(it.uncovered));
        let called = || standings.iter().filter_map(|it| it.to_call);
        let short = standings.iter().filter(|it| it.state.word == "short");
        Totals {
            run,
            short: short.count(),
            uncovered: uncovered.sum(),
            calls: called().count(),
            to_call: called().map(u128::from).sum(),
            deposit: (deposits.confirmed == Confirmed::Yes).then(|| deposits.total()),
        }
    }
}

/// The totals of an accepted book.
pub fn totals(operator: &Operator, bytes: &[u8], book: &Book) -> Result<Totals, Refusal> {
    let run = operator.without_log().run(&mut bytes.to_vec())?;
    let standings = standings(operator, bytes, book)?;
    Ok(Totals::new(operator, book, &standings, run))
}
