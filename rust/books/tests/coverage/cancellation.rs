//! What whole cancellations reach.

use books::Answer;
use reference::book::Book;
use reference::reduction::{sales, target, tiers, Sale};
use reference::store::Limits;
use reference::units::Cents;

use crate::{credit, Counts};

pub fn count_cancellation(
    counts: &mut Counts,
    book: &Book,
    place: usize,
    tries: u32,
    answer: &Answer,
) {
    let user = &book.users[place];
    let (excess, made, complete) = (answer.fields[0], answer.fields[1], answer.fields[2] == 1);
    let spent = made == i128::from(tries);
    counts.add(match (excess, complete) {
        (0, _) if made == 1 => "cancellation: excess 0 at the first try",
        (0, _) => "cancellation: excess 0 at a later try",
        (_, true) => "cancellation: every set tried, excess above 0",
        (_, false) => "cancellation: tries spent",
    });
    counts.add_if(
        excess > 0 && complete && spent,
        "cancellation: the last try is the empty set",
    );
    counts.add_if(
        credit::has(book, user),
        "cancellation: by a seller with a credit",
    );
    let (one, two) = tiers(book, user);
    let marked = |place: &usize| answer.part[*place] == 1;
    counts.add_if(one.len() + two.len() == 1, "cancellation: one trade");
    counts.add_if(
        one.len() + two.len() > 16,
        "cancellation: more than 16 trades",
    );
    counts.add_if(
        !one.is_empty() && !two.is_empty(),
        "cancellation: both tiers",
    );
    counts.add_if(
        two.iter().any(marked),
        "cancellation: a trade of tier two in the set",
    );
    let mut eligible = [one, two].concat();
    eligible.sort_unstable();
    let last = eligible.iter().rposition(marked);
    counts.add_if(
        last.is_some_and(|last| eligible[last] > last),
        "cancellation: a trade that is not eligible before one of the set",
    );
    let asked = target(&Limits::TODAY, book, user) + Cents(excess);
    let later = later_sets(&sales(book, &eligible), asked, made);
    counts.add_if(later, "cancellation: a later set of equal excess");
}

/// Whether more than one of the first sets, of few sales, is worth this much.
fn later_sets(sales: &[Sale], worth: Cents, made: i128) -> bool {
    let count = sales.len();
    if count > 10 {
        return false;
    }
    let sets = (0..1_i128 << count)
        .rev()
        .take(usize::try_from(made).unwrap_or(0));
    let equal = sets.filter(|set| {
        let chosen = sales.iter().enumerate();
        let chosen = chosen.filter(|(place, _)| set >> (count - 1 - place) & 1 == 1);
        worth == chosen.map(|(_, sale)| sale.standing * sale.tariff).sum()
    });
    equal.count() > 1
}
