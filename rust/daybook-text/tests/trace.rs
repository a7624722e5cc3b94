//! A run taken apart agrees with the engine's run, and the shares that are shown
//! with the engine's cuts.

#![forbid(unsafe_code)]

use books::{Generator, Kind};
use daybook::Operator;
use daybook_text::store::{figures, Figures};
use daybook_text::trace::{tariffs, trace, Extent, Step, Tier, Trace, Walk};
use reference::party::{Act, Given};
use reference::questions::opening_questions;

const ALL: Extent = Extent {
    first: usize::MAX,
    last: 0,
    chapters: (usize::MAX, 0),
    most: u64::MAX,
};

/// Only the first reduction.
const FIRST: Extent = Extent {
    first: 1,
    last: 0,
    chapters: (0, 0),
    most: 1,
};

/// A run with a store or without one, taken apart.
fn taken_apart(book: &[u8], store: Option<&[u8]>, extent: Extent) -> Option<(Trace, Figures)> {
    let operator = match store {
        Some(store) => Operator::new().store(store),
        None => Operator::new(),
    };
    let date = Operator::new().read(book).expect("a book").date;
    let figures = figures(store, date);
    let trace = trace(operator, &figures, book, extent).ok()?;
    Some((trace, figures))
}

#[test]
fn the_reductions_are_those_of_the_run() {
    let mut generator = Generator::new(61);
    let mut reductions = 0;
    for kind in Kind::ACCEPTED {
        for _ in 0..60 {
            let book = generator.book(kind);
            let store = generator.store(&book);
            if !books::runs::is_short_run(&book, store.as_deref()) {
                continue;
            }
            let Some((trace, _)) = taken_apart(&book, store.as_deref(), ALL) else {
                continue;
            };
            let run = trace.run;
            let steps = &trace.first;
            assert_eq!(
                (trace.taken, steps.len() as u64),
                (run.reductions, run.reductions)
            );
            assert_eq!(
                steps.iter().map(|step| step.answer.mwh).sum::<u64>(),
                run.mwh
            );
            assert_eq!(
                steps.iter().map(|step| step.answer.worth).sum::<u64>(),
                run.worth
            );
            let counted: u64 = trace.counts.iter().map(|(_, count)| count).sum();
            assert_eq!(counted, run.reductions);
            let next = steps.iter().skip(1).map(|step| Some(step.user.id));
            assert!(steps
                .iter()
                .map(|step| step.next)
                .eq(next.chain((!steps.is_empty()).then_some(None))));
            for step in steps {
                shares_agree(step, &tariffs(&trace.opening.prices));
                assert!(step.called_in.is_flagged() || step.called_in.is_party());
                assert_eq!(step.answer.target, step.level - step.user.assigned);
            }
            chapters_agree(&trace);
            reductions += run.reductions;
        }
    }
    assert!(reductions > 3_000, "{reductions}");
}

/// The chapters are the reductions put together.
fn chapters_agree(trace: &Trace) {
    let mut steps = trace.first.iter();
    let mut before = None;
    for chapter in &trace.chapters.0 {
        assert_ne!(before, Some(chapter.id));
        let mut mwh = 0;
        for number in chapter.first..=chapter.last {
            let step = steps.next().expect("a reduction");
            assert_eq!((step.number, step.user.id), (number, chapter.id));
            mwh += step.answer.mwh;
        }
        assert_eq!(chapter.cuts.iter().map(|cut| cut.mwh).sum::<u64>(), mwh);
        before = Some(chapter.id);
    }
    assert_eq!(steps.next(), None);
}

/// The cuts that document 01 makes of the shares are the engine's.
fn shares_agree(step: &Step, tariffs: &[u64; 3]) {
    for tier in &step.tiers {
        let cuts: Vec<u64> = tier.sales.iter().map(|sale| u64::from(sale.cut)).collect();
        assert_eq!(by_shares(tier, tariffs), cuts, "{step:?}");
    }
    let [one, two] = &step.tiers;
    let cut = one.sales.iter().chain(&two.sales);
    assert_eq!(
        cut.map(|sale| u64::from(sale.cut)).sum::<u64>(),
        step.answer.mwh
    );
}

fn by_shares(tier: &Tier, tariffs: &[u64; 3]) -> Vec<u64> {
    let price = |place: usize| tariffs[usize::from(tier.sales[place].trade.area)];
    let mut cuts: Vec<u64> = tier.sales.iter().map(|sale| sale.share).collect();
    let mut places: Vec<usize> = (0..cuts.len()).collect();
    places.sort_by_key(|place| std::cmp::Reverse(tier.sales[*place].remainder));
    for place in places {
        let loss: u64 = (0..cuts.len())
            .map(|place| cuts[place] * price(place))
            .sum();
        if loss < tier.asked && tier.sales[place].remainder > 0 {
            cuts[place] += 1;
        }
    }
    cuts
}

/// Who is flagged, by the reference.
#[test]
fn flags_are_the_references() {
    let mut generator = Generator::new(62);
    for _ in 0..400 {
        let book = generator.book(Kind::Chain);
        let store = generator.store(&book);
        let Ok(opened) =
            opening_questions(&book, Given::by_operator(store.as_deref()), Act::Operators)
        else {
            continue;
        };
        let Some((trace, _)) = taken_apart(&book, store.as_deref(), FIRST) else {
            continue;
        };
        if let Some(step) = trace.first.first() {
            let place = opened.book.place_of(step.user.id).expect("a user");
            let user = &opened.book.users[place];
            let flagged = reference::levels::flagged(&opened.limits, &opened.book, user);
            assert_eq!(step.called_in.is_flagged(), flagged);
            let party = reference::levels::party_to_cut_trade(&opened.book, user);
            assert_eq!(step.called_in.is_party(), party);
        }
    }
}

/// The walk ends in the run's bytes.
#[test]
fn the_walk_ends_where_the_run_does() {
    let mut generator = Generator::new(63);
    for kind in [
        Kind::Chain,
        Kind::Small,
        Kind::Usual,
        Kind::Largest,
        Kind::Long,
    ] {
        for _ in 0..30 {
            let book = generator.book(kind);
            let mut walk = Walk::new(
                Operator::new(),
                &book,
                &Operator::new().read(&book).expect("a book"),
            );
            while walk.advance().is_some() {}
            let mut run = book.clone();
            Operator::new().run(&mut run).expect("a run");
            assert_eq!(walk.bytes, run);
        }
    }
}

/// Of a long run the first and the last are kept, and a limit holds.
#[test]
fn long_runs_are_summarised() {
    let mut generator = Generator::new(64);
    let long = (0..).map(|_| generator.book(Kind::Long));
    let book = long.map(|book| (Operator::new().run(&mut book.clone()), book));
    let (run, book) = book
        .filter_map(|(run, book)| Some((run.ok()?, book)))
        .find(|(run, _)| run.reductions > 100)
        .expect("a long run");
    let figures = daybook_text::store::TODAY;
    let extent = |most: u64| Extent {
        first: 5,
        last: 3,
        chapters: (2, 1),
        most,
    };
    let whole = trace(Operator::new(), &figures, &book, extent(u64::MAX)).expect("a run");
    let numbers: Vec<u64> = whole
        .first
        .iter()
        .chain(&whole.last)
        .map(|step| step.number)
        .collect();
    let end = run.reductions;
    assert_eq!(numbers, [1, 2, 3, 4, 5, end - 2, end - 1, end]);
    assert_eq!(whole.last[2].next, None);
    assert!(whole.first[4].next.is_some());
    let part = trace(Operator::new(), &figures, &book, extent(50)).expect("a run");
    assert_eq!((part.run, part.taken, part.last.len()), (run, 50, 0));
}
