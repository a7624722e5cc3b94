//! What reductions, their tiers and shares reach.

use books::versions::without_credit;
use books::Answer;
use reference::book::Book;
use reference::group::position;
use reference::reduction::{cuts, sales, target, tier_worth, tiers, Sale};
use reference::store::Limits;
use reference::units::{Area, Cents, Mwh};

use crate::{credit, Counts};

pub fn count_reduction(counts: &mut Counts, book: &Book, place: usize, answer: &Answer) {
    let user = &book.users[place];
    let (one, two) = tiers(book, user);
    let at_zero = |place: &usize| {
        let area = usize::from(book.trades[*place].area);
        position(book, user, Area::ALL[area]) == Mwh::ZERO
    };
    let zero = !one.is_empty() && two.iter().any(at_zero);
    counts.add_if(
        zero,
        "reduction: tier one, and a sale where the position is 0",
    );
    let (one, two) = (sales(book, &one), sales(book, &two));
    let asked = target(&Limits::TODAY, book, user);
    let rest = (asked - tier_worth(&one)).or_zero();
    counts.add(
        match (one.is_empty(), two.is_empty(), rest == Cents::ZERO) {
            (false, true, _) => "reduction: tier one only, tier two empty",
            (false, false, true) => "reduction: tier one only, tier two stands",
            (true, _, _) => "reduction: tier two only",
            (false, false, false) => "reduction: both tiers",
        },
    );
    count_tier(counts, &one, asked);
    count_tier(counts, &two, rest);
    if credit::has(book, user) {
        counts.add("reduction: by a seller with a credit");
        let asked_without = target(&Limits::TODAY, &without_credit(book), user);
        let worth = tier_worth(&one) + tier_worth(&two);
        counts.add_if(
            asked < asked_without && asked < worth,
            "reduction: the credit lessens the cuts",
        );
    }
    let (short, over) = (answer.fields[3], answer.fields[4]);
    counts.add_if(short > 0, "reduction: short");
    counts.add_if(over > 0, "reduction: over");
    counts.add_if(short == 0 && over == 0, "reduction: exact");
}

fn count_tier(counts: &mut Counts, sales: &[Sale], asked: Cents) {
    let worth = tier_worth(sales);
    if worth == Cents::ZERO || asked == Cents::ZERO {
        return;
    }
    counts.add_if(asked == worth, "reduction: A = V");
    counts.add_if(asked > worth, "reduction: A > V");
    if asked < worth {
        counts.add("reduction: 0 < A < V");
        counts.add_if(asked.0 > 1_000_000_000_000, "reduction: 10^12 < A < V");
        count_shares(counts, sales, asked, worth);
    }
}

fn count_shares(counts: &mut Counts, sales: &[Sale], asked: Cents, worth: Cents) {
    let product = |sale: &Sale| sale.standing.0 * asked.0;
    // The remainder of each trade, and whether it lost one MWh more.
    let rounded: Vec<(i128, bool)> = sales
        .iter()
        .zip(cuts(sales, asked))
        .map(|(sale, cut)| (product(sale) % worth.0, cut.0 > product(sale) / worth.0))
        .collect();
    counts.add_if(
        rounded.iter().all(|(_, more)| !more),
        "reduction: whole parts suffice",
    );
    let tariffs = || sales.iter().map(|sale| sale.tariff);
    counts.add_if(
        tariffs().min() != tariffs().max(),
        "reduction: remainders of more than one area",
    );
    let tie = rounded
        .iter()
        .enumerate()
        .any(|(place, (remainder, more))| {
            *more
                && rounded[place..]
                    .iter()
                    .any(|(other, also)| other == remainder && !also)
        });
    counts.add_if(tie, "reduction: tie of remainders decided by place");
}
