//! The calls of the operator, with what they are given beside the book.

use crate::answers::{answered, GuaranteeCall, Level, Reduction, Run, State, UserLevels};
use crate::archive::{self, OPERATOR};
use crate::book::{Book, Trade, User, IMAGE_LENGTH, MOST_TRADES, MOST_USERS};
use crate::cancellation::Cancellation;
use crate::list::Line;
use crate::log::{Log, Withdrawal};
use crate::queries::Queries;
use crate::refusal::Refusal;

/// The operator as the acting party: it has every call, on any user. It may be given
/// a store of parameter sets (document 02, ask 4); without one the figures are
/// today's. It may be given a log of reductions (ask 6), which is asked and written by
/// the calls that may change a book; the others leave it aside.
///
/// ```no_run
/// # let (mut book, store) = ([0_u8; 32], [0_u8; 6]);
/// use daybook::{Log, Operator};
///
/// let level = Operator::new().store(&store).afternoon_level(&book, 101)?;
/// let mut log = Log::start(&book)?;
/// let mut operator = Operator::new().store(&store).log(&mut log);
/// let run = operator.run(&mut book)?;
/// let back = operator.withdraw(&mut book)?;
/// # Ok::<(), daybook::Refusal>(())
/// ```
#[derive(Debug, Default, PartialEq, Eq)]
pub struct Operator<'a> {
    store: Option<&'a [u8]>,
    log: Option<&'a mut Log>,
}

impl<'a> Operator<'a> {
    /// The operator without a store and without a log.
    pub fn new() -> Operator<'a> {
        Operator::default()
    }

    /// The operator with this store. A malformed one is refused with 16, one with no
    /// set in force on the book's date with 17; one of length 0 is malformed.
    pub fn store(self, store: &'a [u8]) -> Operator<'a> {
        let store = Some(store);
        Operator { store, ..self }
    }

    /// The operator with this log. One that is not for the call's book is refused
    /// with 19.
    pub fn log(self, log: &'a mut Log) -> Operator<'a> {
        let log = Some(log);
        Operator { log, ..self }
    }

    /// The operator with the same store and without a log, as for a call on a copy of
    /// the book that only shows what would be.
    pub fn without_log(&self) -> Operator<'a> {
        let store = self.store;
        Operator { store, log: None }
    }

    /// The bytes of the log, lent to one call.
    fn log_bytes(&mut self) -> Option<&mut [u8]> {
        self.log.as_deref_mut().map(Log::bytes_mut)
    }

    fn queries(&self) -> Queries<'a> {
        Queries {
            party: OPERATOR,
            store: self.store,
        }
    }

    /// The fields of a book. No store is looked at.
    pub fn read(&self, book: &[u8]) -> Result<Book, Refusal> {
        let mut image = [0; IMAGE_LENGTH];
        answered(archive::read(book, OPERATOR, &mut image))?;
        Ok(Book::from_image(&image))
    }

    /// The record of a user.
    pub fn record(&self, book: &[u8], id: u32) -> Result<User, Refusal> {
        self.queries().record(book, id)
    }

    /// The record of a user of the afternoon's book where it is picked, else of
    /// the morning's. Only the picked book is questioned.
    pub fn record_picked(
        &self,
        morning: &[u8],
        afternoon: &[u8],
        afternoon_picked: bool,
        id: u32,
    ) -> Result<User, Refusal> {
        let queries = self.queries();
        queries.record_picked(morning, afternoon, afternoon_picked, id)
    }

    /// Adds a signed amount of MWh to a user's physical entry and position in an
    /// area, a number of [`Area`](crate::Area); any other is refused by question 10.
    pub fn posting(
        &mut self,
        book: &mut [u8],
        id: u32,
        area: u32,
        amount: i64,
    ) -> Result<(), Refusal> {
        answered(archive::posting(
            book,
            OPERATOR,
            self.store,
            self.log_bytes(),
            id,
            area,
            amount,
        ))
    }

    /// Makes the postings of a list one after another, and answers for each line
    /// what its single posting would. A book that fails a question stops the call
    /// before the first line, and so does a list of more than
    /// [`MOST_LINES`](crate::MOST_LINES) ([`Refusal::Lines`]); book and lines are
    /// otherwise those of the postings.
    ///
    /// ```
    /// # use daybook::{Book, Line, Operator, Prices, Refusal, User};
    /// # let prices = Prices { pvb_tariff: 2_000, tank_and_store_tariff: 2_100, ..Prices::default() };
    /// # let user = User { id: 101, assigned: 20_000_000, ..User::default() };
    /// # let book = Book { version: 1, date: 20_260_318, prices, users: vec![user], trades: vec![] };
    /// # let mut bytes = vec![0; book.length()];
    /// # daybook::write(&book, &mut bytes)?;
    /// let lines = [
    ///     Line { id: 101, area: 0, amount: 1_000_000 },
    ///     Line { id: 101, area: 0, amount: 1 },
    ///     Line { id: 102, area: 0, amount: 1 },
    ///     Line { id: 101, area: 1, amount: -8_000 },
    /// ];
    /// let answers = Operator::new().list(&mut bytes, &lines)?;
    /// assert_eq!(answers, [Ok(()), Err(Refusal::Entry), Err(Refusal::Id), Ok(())]);
    /// # Ok::<(), Refusal>(())
    /// ```
    pub fn list(
        &mut self,
        book: &mut [u8],
        lines: &[Line],
    ) -> Result<Vec<Result<(), Refusal>>, Refusal> {
        let ids: Vec<u32> = lines.iter().map(|line| line.id).collect();
        let areas: Vec<u32> = lines.iter().map(|line| line.area).collect();
        let amounts: Vec<i64> = lines.iter().map(|line| line.amount).collect();
        let mut places = vec![0; lines.len()];
        answered(archive::list(
            book,
            OPERATOR,
            self.store,
            self.log_bytes(),
            &ids,
            &areas,
            &amounts,
            &mut places,
        ))?;
        Ok(places.into_iter().map(answered).collect())
    }

    /// The morning level of a shipper. In version 3 a group manager bears its members'
    /// risk ([`User::managers`]).
    pub fn morning_level(&self, book: &[u8], id: u32) -> Result<Level, Refusal> {
        self.queries().morning_level(book, id)
    }

    /// The afternoon level of a shipper. In versions 2 and 3 it is lowered by a credit,
    /// each long position at its selling tariff, down to the least level. In version 3
    /// a group manager bears its members' risk ([`User::managers`]).
    pub fn afternoon_level(&self, book: &[u8], id: u32) -> Result<Level, Refusal> {
        self.queries().afternoon_level(book, id)
    }

    /// The levels and the state of every user, in the order of the book, after one
    /// asking of its questions: each as the calls for its id tell.
    pub fn levels(&self, book: &[u8]) -> Result<Vec<UserLevels>, Refusal> {
        let mut answer = [0; 4 * MOST_USERS];
        answered(archive::levels(book, OPERATOR, self.store, &mut answer))?;
        let users = answer.chunks_exact(4).take_while(|row| row[0] != 0);
        Ok(users.map(user_levels).collect())
    }

    /// Raises a shipper's blocked guarantee to the morning level.
    pub fn morning_call(&mut self, book: &mut [u8], id: u32) -> Result<GuaranteeCall, Refusal> {
        let mut answer = [0; 2];
        answered(archive::morning_call(
            book,
            OPERATOR,
            self.store,
            self.log_bytes(),
            id,
            &mut answer,
        ))?;
        Ok(guarantee_call(answer))
    }

    /// Raises a shipper's blocked guarantee to the afternoon level.
    pub fn afternoon_call(&mut self, book: &mut [u8], id: u32) -> Result<GuaranteeCall, Refusal> {
        let mut answer = [0; 2];
        answered(archive::afternoon_call(
            book,
            OPERATOR,
            self.store,
            self.log_bytes(),
            id,
            &mut answer,
        ))?;
        Ok(guarantee_call(answer))
    }

    /// Whether a shipper is warned at midday: it buys from one that is flagged.
    pub fn warning(&self, book: &[u8], id: u32) -> Result<bool, Refusal> {
        let mut answer = [0; 1];
        answered(archive::warning(
            book,
            OPERATOR,
            self.store,
            id,
            &mut answer,
        ))?;
        Ok(answer[0] != 0)
    }

    /// Whether a shipper is flagged.
    pub fn flag(&self, book: &[u8], id: u32) -> Result<bool, Refusal> {
        self.queries().flag(book, id)
    }

    /// How many trades a shipper may see ([`Shipper`](crate::Shipper)).
    pub fn trade_count(&self, book: &[u8], id: u32) -> Result<u32, Refusal> {
        self.queries().trade_count(book, id)
    }

    /// The trade of this ordinal, from 0, among those that a shipper may see; none
    /// past the last.
    pub fn trade(&self, book: &[u8], id: u32, ordinal: u32) -> Result<Option<Trade>, Refusal> {
        self.queries().trade(book, id, ordinal)
    }

    /// All trades that a shipper may see, in the order of the book.
    pub fn trades(&self, book: &[u8], id: u32) -> Result<Vec<Trade>, Refusal> {
        self.queries().trades(book, id)
    }

    /// Cuts a shipper's bilateral sales of the day until the level is covered.
    pub fn reduction(&mut self, book: &mut [u8], id: u32) -> Result<Reduction, Refusal> {
        let mut answer = [0; 5];
        answered(archive::reduction(
            book,
            OPERATOR,
            self.store,
            self.log_bytes(),
            id,
            &mut answer,
        ))?;
        let [mwh, worth, target, short, over] = answer;
        Ok(Reduction {
            mwh,
            worth,
            target,
            short,
            over,
        })
    }

    /// The whole trades of a shipper that cover what a reduction would be asked for,
    /// found in 1 to [`MOST_TRIES`](crate::MOST_TRIES) tries. The book stays as it is.
    ///
    /// It is refused as a reduction is; besides with [`Refusal::Tries`] for another
    /// number of tries, and with [`Refusal::WorthOfTrades`] where all eligible trades
    /// together are worth less than the target.
    pub fn cancellation(&self, book: &[u8], id: u32, tries: u32) -> Result<Cancellation, Refusal> {
        let mut marks = [0; MOST_TRADES];
        let mut answer = [0; 3];
        answered(archive::cancellation(
            book,
            OPERATOR,
            self.store,
            id,
            tries,
            &mut marks,
            &mut answer,
        ))?;
        let [excess, tries, complete] = answer;
        Ok(Cancellation {
            marks: marks.map(|mark| mark != 0),
            excess,
            tries,
            complete: complete != 0,
        })
    }

    /// Reduces the lowest id that is short of cover and has an eligible trade,
    /// while there is one, or until the log is full ([`Run::log_full`]). It reports at
    /// most [`most_reductions`](Operator::most_reductions) of the book that it is
    /// lent, and leaves every byte where it reports none; both are proved.
    pub fn run(&mut self, book: &mut [u8]) -> Result<Run, Refusal> {
        let mut answer = [0; 3];
        let number = archive::run(book, OPERATOR, self.store, self.log_bytes(), &mut answer);
        let log_full = number == Refusal::LogFull.number();
        if !log_full {
            answered(number)?;
        }
        let [reductions, mwh, worth] = answer;
        Ok(Run {
            reductions,
            mwh,
            worth,
            log_full,
        })
    }

    /// The most reductions that a run of this book can report: the MWh standing in
    /// its trades of kind 0 and day 0, each reduction cutting one MWh at least. It
    /// is told from the fields alone, before any run, and refused as
    /// [`read`](Operator::read) is. No book has more than 25,600,000.
    pub fn most_reductions(&self, book: &[u8]) -> Result<u64, Refusal> {
        let book = self.read(book)?;
        let cuttable = book.trades.iter().filter(|trade| trade.can_be_cut());
        Ok(cuttable.map(|trade| u64::from(trade.standing)).sum())
    }

    /// Withdraws the last reduction that the log has noted: its cuts are given back,
    /// the positions settled and the entry dropped. Withdrawing all of them gives
    /// back the book before the first, byte for byte; this is proved. Refused with
    /// 18 where the log has no entry, and with 19 without a log.
    pub fn withdraw(&mut self, book: &mut [u8]) -> Result<Withdrawal, Refusal> {
        let mut answer = [0; 2];
        let store = self.store;
        let log = self.log_bytes().unwrap_or_default();
        answered(archive::withdrawal(book, OPERATOR, store, log, &mut answer))?;
        let [mwh, worth] = answer;
        Ok(Withdrawal { mwh, worth })
    }
}

fn guarantee_call([level, added]: [u64; 2]) -> GuaranteeCall {
    GuaranteeCall {
        level: Level(level),
        added,
    }
}

/// The row of a user, which is of four numbers.
fn user_levels(row: &[u64]) -> UserLevels {
    UserLevels {
        id: u32::try_from(row[0]).expect("an id has 32 bits"),
        state: State::of(row[1]),
        morning: Level(row[2]),
        afternoon: Level(row[3]),
    }
}
