//! How long a run can be (ask 10): the reductions of a run against the number
//! that is told from the bytes before it.

#![forbid(unsafe_code)]

use books::groups::in_version_3;
use books::hard::{
    chain, crawler, many_sellers, one_seller, rising, two_sellers, widest, MOST_REDUCTIONS,
};
use books::versions::in_version_2;
use books::{Generator, Kind};
use compare::settings::seed;
use daybook::Operator;

/// Books of each kind, the refused ones too.
const OF_EACH: usize = 300;

/// The MWh standing in trades of kind 0 and day 0, by the reference, or the
/// number of the question that refuses the book.
fn expected(book: &[u8]) -> Result<u64, u32> {
    let book = reference::questions::questions_1_to_7(book)?;
    let trades = book.trades.iter();
    let trades = trades.filter(|trade| (trade.kind, trade.day) == (0, 0));
    let mwh: i128 = trades.map(|trade| trade.standing.0).sum();
    Ok(u64::try_from(mwh).expect("at most 25,600,000"))
}

/// Runs a book: it reports at most what was told before, and none only where
/// it leaves every byte. Says how many reductions there were, and the most.
fn run(before: &[u8]) -> Option<(u64, u64)> {
    let most = Operator::new().most_reductions(before);
    assert_eq!(most.map_err(|refusal| refusal.number()), expected(before));
    let mut book = before.to_vec();
    let run = daybook::Operator::new().run(&mut book);
    assert_eq!(run.err(), most.err());
    let reductions = run.map_or(0, |run| run.reductions);
    assert!(reductions <= most.unwrap_or(0), "{reductions} of {most:?}");
    assert!(reductions != 0 || book == before, "another book after none");
    Some((reductions, most.ok()?))
}

#[test]
fn no_run_is_longer() {
    let mut generator = Generator::new(seed());
    let (mut runs, mut none, mut longest) = (0, 0, 0);
    for kind in Kind::ALL {
        for _ in 0..OF_EACH {
            let book = generator.book(kind);
            if let Some((reductions, _)) = run(&book) {
                runs += 1;
                none += u32::from(reductions == 0);
                longest = longest.max(reductions);
            }
        }
    }
    println!("{runs} runs, {none} of no reduction, the longest of {longest}");
    assert!(none > 0 && longest > 1_000);
}

/// The bound is reached: these books take one reduction for each MWh.
#[test]
fn some_runs_are_as_long() {
    // From version 2 on the positions of the last two stay short and earn no credit.
    let second = [chain(4), widest(3)].map(|book| [in_version_2(&book), in_version_3(&book)]);
    let second = second.into_iter().flatten();
    let first = [
        one_seller(100),
        many_sellers(4),
        chain(4),
        two_sellers(3),
        crawler(3),
        widest(3),
        rising(5),
    ];
    for book in first.into_iter().chain(second) {
        let (reductions, most) = run(&book.to_bytes()).expect("an accepted book");
        assert_eq!(reductions, most);
    }
}

/// The most that any book can take.
#[test]
fn the_most_of_any_book() {
    let most = Operator::new()
        .most_reductions(&chain(100_000).to_bytes())
        .expect("an accepted book");
    assert_eq!(i128::from(most), MOST_REDUCTIONS);
}
