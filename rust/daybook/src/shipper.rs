//! The calls of a shipper (document 02, ask 9).

use crate::answers::Level;
use crate::book::{Trade, User};
use crate::queries::Queries;
use crate::refusal::Refusal;

/// A shipper as the acting party: it has its own record, levels and flag, and the
/// trades that it may see. All else is the [`Operator`](crate::Operator)'s, and does
/// not compile:
///
/// ```compile_fail
/// # let mut book = [0_u8; 32];
/// daybook::Shipper::new(101).run(&mut book);
/// ```
///
/// A shipper may see its own trades, bought or sold, and, in an area where it manages
/// others, their trades there; each once, in the order of the book. What it is handed
/// is a copy: nothing tells where a record stands in the book. An id that is no
/// shipper's of the book is refused with [`Refusal::Party`], whatever it asks.
///
/// It is proved that two accepted books with the same header and, in book order, the
/// same records and trades that a shipper may see give it the same answers.
///
/// ```
/// use daybook::{Level, Refusal, Shipper};
/// # use daybook::{Book, Prices, Trade, User};
/// # let prices = Prices { pvb_tariff: 2_000, tank_and_store_tariff: 2_100, ..Prices::default() };
/// # let (physical, position) = ([-10_000, 0, 0], [-40_000, 0, 0]);
/// # let seller = User { id: 101, physical, position, assigned: 50_000_000, ..User::default() };
/// # let buyer = User { id: 102, position: [30_000, 0, 0], ..User::default() };
/// # let sold = Trade { seller: 101, buyer: 102, notified: 30_000, standing: 30_000, ..Trade::default() };
/// # let users = vec![seller, buyer];
/// # let fields = Book { version: 1, date: 20_260_318, prices, users, trades: vec![sold] };
/// # let mut book = vec![0; fields.length()];
/// # daybook::write(&fields, &mut book)?;
/// let shipper = Shipper::new(101);
/// assert_eq!(shipper.afternoon_level(&book), Ok(Level(80_000_000)));
/// assert_eq!(shipper.flag(&book), Ok(true));
/// assert_eq!(shipper.trades(&book)?[0].buyer, 102);
/// assert_eq!(Shipper::new(103).flag(&book), Err(Refusal::Party));
/// # Ok::<(), Refusal>(())
/// ```
#[derive(Clone, Copy, Debug, PartialEq, Eq)]
pub struct Shipper<'a> {
    id: u32,
    store: Option<&'a [u8]>,
}

impl<'a> Shipper<'a> {
    /// The shipper of this id, without a store.
    pub fn new(id: u32) -> Shipper<'a> {
        Shipper { id, store: None }
    }

    /// The shipper with this store of parameter sets. A malformed one is refused
    /// with 16, one with no set in force on the book's date with 17.
    pub fn store(self, store: &'a [u8]) -> Shipper<'a> {
        let store = Some(store);
        Shipper { store, ..self }
    }

    /// The id.
    pub fn id(&self) -> u32 {
        self.id
    }

    fn queries(&self) -> Queries<'a> {
        Queries {
            party: u64::from(self.id),
            store: self.store,
        }
    }

    /// Its record.
    pub fn record(&self, book: &[u8]) -> Result<User, Refusal> {
        self.queries().record(book, self.id)
    }

    /// Its record of the afternoon's book where that is picked, else of the
    /// morning's. Only the picked book is questioned.
    pub fn record_picked(
        &self,
        morning: &[u8],
        afternoon: &[u8],
        afternoon_picked: bool,
    ) -> Result<User, Refusal> {
        let queries = self.queries();
        queries.record_picked(morning, afternoon, afternoon_picked, self.id)
    }

    /// Its morning level.
    pub fn morning_level(&self, book: &[u8]) -> Result<Level, Refusal> {
        self.queries().morning_level(book, self.id)
    }

    /// Its afternoon level.
    pub fn afternoon_level(&self, book: &[u8]) -> Result<Level, Refusal> {
        self.queries().afternoon_level(book, self.id)
    }

    /// Whether it is flagged: its buyers are then warned at midday.
    pub fn flag(&self, book: &[u8]) -> Result<bool, Refusal> {
        self.queries().flag(book, self.id)
    }

    /// How many trades it may see.
    pub fn trade_count(&self, book: &[u8]) -> Result<u32, Refusal> {
        self.queries().trade_count(book, self.id)
    }

    /// The trade of this ordinal, from 0, among those that it may see; none past the
    /// last.
    pub fn trade(&self, book: &[u8], ordinal: u32) -> Result<Option<Trade>, Refusal> {
        self.queries().trade(book, self.id, ordinal)
    }

    /// All trades that it may see, in the order of the book.
    pub fn trades(&self, book: &[u8]) -> Result<Vec<Trade>, Refusal> {
        self.queries().trades(book, self.id)
    }
}
