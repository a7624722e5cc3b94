//! The state of each user, as the printed day has it, told by the engine.

use daybook::{Level, Operator, Refusal, State as Told};

/// A user's state and afternoon level; a clearing house has no level.
#[derive(Clone, Copy, Debug, PartialEq, Eq)]
pub struct State {
    /// `clear`, `short`, `call` or `quiet`.
    pub word: &'static str,
    pub level: Option<u64>,
}

/// The states of the users of a book, in its order, after one asking of its questions.
pub fn states(operator: &Operator, book: &[u8]) -> Result<Vec<State>, Refusal> {
    let users = operator.levels(book)?;
    let state = |user: &daybook::UserLevels| {
        let Level(level) = user.afternoon;
        State {
            word: user.state.word(),
            level: (user.state != Told::Clear).then_some(level),
        }
    };
    Ok(users.iter().map(state).collect())
}
