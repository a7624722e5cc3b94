//! Random sequences of calls on random books of every kind, engine against
//! reference. DAYBOOK_CALLS and DAYBOOK_SEED say how many and which.

#![forbid(unsafe_code)]

use compare::settings::{calls, comparison};

#[test]
fn random_calls() {
    let mut comparison = comparison("random_calls");
    comparison.random_calls(calls());
    println!("{}", comparison.counts);
    comparison.expect_none();
    assert_eq!(comparison.counts.not_allowed(), []);
    assert_eq!(comparison.counts.not_reached(), []);
}
