//! The queries that a shipper may make of itself, and the operator of any shipper.

use crate::answers::{answered, Level};
use crate::archive;
use crate::book::{Trade, User, RECORD_LENGTH, TRADE_LENGTH};
use crate::refusal::Refusal;

/// Who asks, and the store of parameter sets that is given, or none.
#[derive(Clone, Copy, Debug, PartialEq, Eq)]
pub(crate) struct Queries<'a> {
    pub party: u64,
    pub store: Option<&'a [u8]>,
}

impl Queries<'_> {
    pub fn record(&self, book: &[u8], id: u32) -> Result<User, Refusal> {
        let mut record = [0; RECORD_LENGTH];
        answered(archive::show(book, self.party, self.store, id, &mut record))?;
        Ok(User::from_bytes(&record))
    }

    pub fn record_picked(
        &self,
        morning: &[u8],
        afternoon: &[u8],
        afternoon_picked: bool,
        id: u32,
    ) -> Result<User, Refusal> {
        let mut record = [0; RECORD_LENGTH];
        answered(archive::show_picked(
            morning,
            afternoon,
            self.party,
            self.store,
            archive::yes_or_no(afternoon_picked),
            id,
            &mut record,
        ))?;
        Ok(User::from_bytes(&record))
    }

    pub fn morning_level(&self, book: &[u8], id: u32) -> Result<Level, Refusal> {
        let level = self.number(book, id, archive::morning_level)?;
        Ok(Level(level))
    }

    pub fn afternoon_level(&self, book: &[u8], id: u32) -> Result<Level, Refusal> {
        let level = self.number(book, id, archive::afternoon_level)?;
        Ok(Level(level))
    }

    pub fn flag(&self, book: &[u8], id: u32) -> Result<bool, Refusal> {
        let flagged = self.number(book, id, archive::flag)?;
        Ok(flagged != 0)
    }

    pub fn trade_count(&self, book: &[u8], id: u32) -> Result<u32, Refusal> {
        let count = self.number(book, id, archive::trade_count)?;
        Ok(u32::try_from(count).expect("a book has at most 256 trades"))
    }

    /// None past the last.
    pub fn trade(&self, book: &[u8], id: u32, ordinal: u32) -> Result<Option<Trade>, Refusal> {
        let (mut record, mut length) = ([0; TRADE_LENGTH], [0]);
        answered(archive::trade(
            book,
            self.party,
            self.store,
            id,
            ordinal,
            &mut record,
            &mut length,
        ))?;
        Ok((length != [0]).then(|| Trade::from_bytes(&record)))
    }

    pub fn trades(&self, book: &[u8], id: u32) -> Result<Vec<Trade>, Refusal> {
        let mut trades = Vec::new();
        for ordinal in 0..self.trade_count(book, id)? {
            trades.extend(self.trade(book, id, ordinal)?);
        }
        Ok(trades)
    }

    /// The answer of a query with one number.
    fn number(
        &self,
        book: &[u8],
        id: u32,
        query: impl FnOnce(&[u8], u64, Option<&[u8]>, u32, &mut [u64]) -> u32,
    ) -> Result<u64, Refusal> {
        let mut answer = [0; 1];
        answered(query(book, self.party, self.store, id, &mut answer))?;
        let [number] = answer;
        Ok(number)
    }
}
