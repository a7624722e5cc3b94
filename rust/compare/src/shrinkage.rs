//! Returns of shrinkage and the days of a share, by the archive's C interface.

use daybook::archive;
use daybook::shrinkage::{DAYS, RETURN_NUMBERS};
use reference::shrinkage::{Kwh, ShrinkageAnswer};

/// The engine's return for these balances. The part holds something before.
pub fn archived(balances: &[i64]) -> ShrinkageAnswer {
    let mut answer = [u64::MAX; RETURN_NUMBERS];
    let number = archive::shrinkage_return(balances, &mut answer);
    let kwh = |place: usize| Kwh(answer[place].into());
    ShrinkageAnswer {
        number,
        half: kwh(0),
        odd: kwh(1),
        shares: std::array::from_fn(|user| kwh(3 + user)),
        remainders: std::array::from_fn(|user| answer[67 + user].into()),
        rest: kwh(2),
    }
}

/// The engine's days of a share.
pub fn archived_days(share: u64) -> [Kwh; DAYS] {
    let mut days = [u64::MAX; DAYS];
    assert_eq!(archive::shrinkage_days(share, &mut days), 0);
    days.map(|kwh| Kwh(kwh.into()))
}
