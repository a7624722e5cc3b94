//! Reductions of one user that follow one another, taken together.

use daybook::{Operator, Refusal};

use crate::groups::area_of;

/// What was cut of the sales from a seller to a buyer in an area.
#[derive(Clone, Copy, Debug, PartialEq, Eq)]
pub struct Cut {
    /// The user that was reduced, or its member.
    pub seller: u32,
    pub buyer: u32,
    pub area: usize,
    pub mwh: u64,
}

/// Reductions of one user that follow one another, and what they cut.
#[derive(Clone, Debug, PartialEq, Eq)]
pub struct Chapter {
    /// The place of the first in the run, from 1, and of the last.
    pub first: u64,
    pub last: u64,
    pub id: u32,
    /// In the order of the book.
    pub cuts: Vec<Cut>,
}

/// A chapter with the books around it.
pub struct Span {
    pub first: u64,
    pub last: u64,
    pub id: u32,
    pub before: Vec<u8>,
    pub after: Vec<u8>,
}

impl Span {
    pub fn chapter(&self) -> Result<Chapter, Refusal> {
        let (before, after) = (
            Operator::new().read(&self.before)?,
            Operator::new().read(&self.after)?,
        );
        let mut cuts: Vec<Cut> = Vec::new();
        for (trade, later) in before.trades.iter().zip(&after.trades) {
            let cut = Cut {
                seller: trade.seller,
                buyer: trade.buyer,
                area: area_of(trade),
                mwh: u64::from(trade.standing.saturating_sub(later.standing)),
            };
            let key = |cut: &Cut| (cut.seller, cut.buyer, cut.area);
            let same = cuts.iter_mut().find(|it| key(it) == key(&cut));
            match same {
                _ if cut.mwh == 0 => {}
                Some(same) => same.mwh += cut.mwh,
                None => cuts.push(cut),
            }
        }
        Ok(Chapter {
            first: self.first,
            last: self.last,
            id: self.id,
            cuts,
        })
    }
}
