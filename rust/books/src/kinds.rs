//! The kinds of books that the generator draws.

#[derive(Clone, Copy, Debug, PartialEq, Eq)]
pub enum Kind {
    /// Up to 4 users and 7 trades.
    Small,
    /// Up to 21 users and 59 trades.
    Usual,
    /// Any number of users and of trades.
    AnySize,
    /// 64 users and 256 trades.
    Largest,
    /// 64 users and 256 trades of the largest amounts and prices.
    Extreme,
    /// Cuts that make the buyer short in turn.
    Chain,
    /// Many sales of few sizes by one user.
    Shares,
    /// A seller asked for what some of its sales are worth.
    Whole,
    /// Version 2 or 3 with a credit that decides.
    Credit,
    /// Version 3, mostly with groups.
    Group,
    /// Flags around their limit.
    Midday,
    /// A run of up to 3,000 reductions.
    Long,
    /// An accepted book with one field damaged, sometimes two.
    Damaged,
    /// Bytes that are no book.
    Raw,
}

impl Kind {
    pub const ALL: [Kind; 14] = [
        Kind::Small,
        Kind::Usual,
        Kind::AnySize,
        Kind::Largest,
        Kind::Extreme,
        Kind::Chain,
        Kind::Shares,
        Kind::Whole,
        Kind::Credit,
        Kind::Group,
        Kind::Midday,
        Kind::Long,
        Kind::Damaged,
        Kind::Raw,
    ];

    /// The kinds that pass questions 1 to 7.
    pub const ACCEPTED: [Kind; 12] = [
        Kind::Small,
        Kind::Usual,
        Kind::AnySize,
        Kind::Largest,
        Kind::Extreme,
        Kind::Chain,
        Kind::Shares,
        Kind::Whole,
        Kind::Credit,
        Kind::Group,
        Kind::Midday,
        Kind::Long,
    ];
}
