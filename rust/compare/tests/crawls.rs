//! Runs of many reductions that cut a few MWh each, engine against reference
//! and tuned implementation: the answers and every byte afterwards.

#![forbid(unsafe_code)]

use books::crawls::crawl;
use books::groups::in_version_3;
use books::versions::in_version_2;
use books::{Call, Random};
use compare::settings::{comparison, crawls, seed};
use daybook::Operator;

/// The least number of books that the reference runs too, which takes its time: one in
/// this many of the others.
const BY_REFERENCE: u64 = 40;
const OTHERS: u64 = 250;

/// Reductions after which a run goes on by the highest sales of its seller.
const LONG: u64 = 64;

#[test]
fn crawling_books() {
    let mut comparison = comparison("crawling_books");
    let mut random = Random::new(seed());
    for _ in 0..BY_REFERENCE.max(crawls() / OTHERS) {
        let book = crawl(&mut random);
        for book in [in_version_3(&book), in_version_2(&book), book] {
            comparison.call(&mut book.to_bytes(), &Call::Run);
        }
    }
    comparison.expect_none();
}

/// Against the tuned implementation, which knows versions 1 and 2.
#[test]
fn many_crawling_books() {
    let mut random = Random::new(seed().wrapping_add(1));
    let (mut runs, mut long, mut longest, mut reductions) = (0, 0, 0, 0);
    for place in 0..crawls() {
        let book = crawl(&mut random);
        for before in [in_version_2(&book).to_bytes(), book.to_bytes()] {
            let (mut by_engine, mut by_tuned) = (before.clone(), before);
            let expected = tuned::run(&mut by_tuned).expect("an accepted book");
            let run = Operator::new()
                .run(&mut by_engine)
                .expect("an accepted book");
            assert_eq!(run.reductions, expected.reductions, "book {place}");
            assert_eq!(
                i128::from(run.mwh),
                i128::from(expected.mwh.0),
                "book {place}"
            );
            assert_eq!(
                i128::from(run.worth),
                i128::from(expected.worth.0),
                "book {place}"
            );
            assert_eq!(by_engine, by_tuned, "book {place}");
            runs += 1;
            long += u64::from(run.reductions > LONG);
            longest = longest.max(run.reductions);
            reductions += run.reductions;
        }
    }
    println!("{runs} runs of {reductions} reductions, {long} of more than {LONG}, the longest of {longest}");
    assert!(2 * long > runs && longest > 1_000);
}
