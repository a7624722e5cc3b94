//! Document 02, ask 8: whole cancellations. A set differs from the one before by
//! the last trade that was in it, which goes out, and by those after it, which
//! come in again. What that changes depends on the one trade alone and is told
//! before: the excess of each set is that of the one before, less one number.

use crate::calls::shipper_of;
use crate::gathered::Records;
use crate::records::{ask, MOST_TRADES};
use crate::reduction::own_sales;
use crate::requests::gathered;
use crate::units::Cents;

/// The most tries.
const MOST_TRIES: u32 = 65_535;

/// The last trades, of which the most tries leave some out.
const LAST: usize = 16;

/// A cancellation that was found.
#[derive(Clone, Copy, Debug, PartialEq, Eq)]
pub struct Cancellation {
    /// The trades of the set, by their places in the book.
    pub marks: [bool; MOST_TRADES],
    pub excess: Cents,
    /// The tries made.
    pub tries: u32,
    pub complete: bool,
}

/// The whole trades of a shipper that reach T with the smallest excess.
pub fn cancellation(
    bytes: &[u8],
    store: Option<&[u8]>,
    id: u32,
    tries: u32,
) -> Result<Cancellation, u32> {
    let records = Records::of(bytes)?;
    let gathered = gathered(records, store)?;
    ask(25, (1..=MOST_TRIES).contains(&tries))?;
    let (place, account) = shipper_of(records, &gathered, id)?;
    let rates = &gathered.rates;
    let level = account.afternoon_level(rates);
    ask(
        11,
        account.is_above_margin(rates, level) && account.is_called_in(rates),
    )?;
    ask(13, account.assigned < level)?;
    let (sales, _) = own_sales(&records, &gathered, place);
    ask(14, !sales.is_empty())?;
    let worths: Vec<i64> = sales
        .iter()
        .map(|sale| (sale.standing * rates.tariff[usize::from(sale.area)]).0)
        .collect();
    let spare = worths.iter().sum::<i64>() - (level - account.assigned).0;
    ask(24, spare >= 0)?;

    let found = search(&worths, spare, tries);
    let mut marks = [false; MOST_TRADES];
    // The set of try k leaves out the number k − 1, the last trade its lowest bit.
    let mut left = found.first - 1;
    for sale in sales.iter().rev() {
        marks[usize::from(sale.trade)] = left & 1 == 0;
        left >>= 1;
    }
    Ok(Cancellation {
        marks,
        excess: Cents(found.excess),
        tries: found.tries,
        complete: found.complete,
    })
}

/// What the tries come to.
struct Found {
    excess: i64,
    /// The try that met the excess first.
    first: u32,
    tries: u32,
    complete: bool,
}

/// Tries sets from all trades on, whose excess is `spare`.
fn search(worths: &[i64], spare: i64, tries: u32) -> Found {
    // Of more than 16 trades not every set can be tried.
    let sets = 1 << worths.len().min(LAST + 1);
    let tries = tries.min(sets);
    let steps = steps(worths);
    let mut excess = spare;
    let mut found = Found {
        excess: spare,
        first: 1,
        tries: 1,
        complete: false,
    };
    while found.tries < tries && found.excess > 0 {
        // The tries made are the number of what the next set leaves out.
        excess -= steps[lowest_bit(found.tries)];
        found.tries += 1;
        if (0..found.excess).contains(&excess) {
            found.excess = excess;
            found.first = found.tries;
        }
    }
    found.complete = found.excess == 0 || found.tries == sets;
    found
}

/// By how much a set's worth falls below that of the set before, by the last
/// trade that it leaves out: that trade's worth, less those of the trades after
/// it, which come in again. The last trade is the first here.
fn steps(worths: &[i64]) -> [i64; LAST] {
    let mut steps = [0; LAST];
    let mut after = 0;
    for (step, worth) in steps.iter_mut().zip(worths.iter().rev()) {
        *step = worth - after;
        after += worth;
    }
    steps
}

/// The place of the lowest bit of a number from 1 to 65,535.
#[inline]
fn lowest_bit(number: u32) -> usize {
    usize::from(number.trailing_zeros().to_le_bytes()[0]) % LAST
}
