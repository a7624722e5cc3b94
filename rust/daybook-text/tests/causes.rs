//! What each reduction of a run comes of, held to the engine's reductions.

#![forbid(unsafe_code)]

use books::{Generator, Kind};
use daybook::Operator;
use daybook_text::groups::bearers;
use daybook_text::store::TODAY;
use daybook_text::trace::{trace, Extent, Step};

/// A user that is reduced by itself is one that the engine reduces in the opening book,
/// and nothing that it bears was cut since its first reduction; any other reduction
/// names an earlier one that cut what the user bears.
#[test]
fn every_reduction_has_its_cause() {
    let mut generator = Generator::new(76);
    let (mut alone, mut after) = (0, 0);
    for kind in Kind::ACCEPTED {
        for _ in 0..25 {
            let bytes = generator.book(kind);
            let extent = Extent {
                first: 400,
                last: 0,
                chapters: (0, 0),
                most: 400,
            };
            let trace = trace(Operator::new(), &TODAY, &bytes, extent).expect("a run");
            let book = &trace.opening;
            let is_short = |id: u32| Operator::new().reduction(&mut bytes.clone(), id).is_ok();
            for step in &trace.first {
                let id = step.user.id;
                let since = trace.first.iter().skip_while(|it| it.user.id != id);
                let mut since = since.take_while(|it| it.number < step.number);
                let cuts_it = |it: &Step| {
                    let mut sales = it.tiers.iter().flat_map(|tier| &tier.sales);
                    sales.any(|sale| sale.cut > 0 && bearers(book, &sale.trade).1 == id)
                };
                let by_itself = is_short(id) && !since.any(cuts_it);
                assert_eq!(step.cause.is_none(), by_itself, "{} of {id}", step.number);
                let Some(cause) = step.cause else {
                    continue;
                };
                assert!(cause.reduction < step.number);
                let earlier = trace.first.iter().find(|it| it.number == cause.reduction);
                let earlier = earlier.expect("an earlier reduction");
                let mut sales = earlier.tiers.iter().flat_map(|tier| &tier.sales);
                let sale = sales.find(|sale| sale.place == cause.trade);
                assert!(sale.is_some_and(|sale| sale.cut > 0));
                assert_eq!(bearers(book, &book.trades[cause.trade]).1, id);
            }
            let (by_themselves, after_a_cut) = trace.causes;
            assert_eq!(by_themselves + after_a_cut, trace.taken);
            (alone, after) = (alone + by_themselves, after + after_a_cut);
        }
    }
    assert!(alone > 100 && after > 100, "{alone} {after}");
}
