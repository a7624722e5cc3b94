//! The outside vectors replayed against the engine and against the tuned
//! implementation. The reference replays them in its own tests.

#![forbid(unsafe_code)]

use books::vectors::{days, replay, replay_requests, CALLS, DAYS, REQUESTS};
use books::{answer, asks, Call, Implementation};
use compare::{engine, tuned, typed};
use reference::party::Given;

#[test]
fn every_call_of_the_archive() {
    assert_eq!(replay(engine::answer), CALLS);
    assert_eq!(replay_requests(engine::answer), REQUESTS);
    let with_log = (asks::CALLS, asks::CALLS_WITH_LOG);
    assert_eq!(asks::replay(engine::answer), with_log);
}

/// What the types of `daybook` cannot say, lists with columns of several counts, the
/// start of a log of another length, a version that there is not and what a shipper may
/// not do, goes to the archive.
#[test]
fn every_call_of_daybook() {
    let answer: Implementation = |book, given, log, call| {
        if typed::has(call, given.party, log.as_deref().map(Vec::as_slice)) {
            typed::answer(book, given, log, call)
        } else {
            engine::answer(book, given, log, call)
        }
    };
    assert_eq!(replay(answer), CALLS);
    assert_eq!(replay_requests(answer), REQUESTS);
    let with_log = (asks::CALLS, asks::CALLS_WITH_LOG);
    assert_eq!(asks::replay(answer), with_log);
}

/// Calls with a log, by a shipper, or on a book of version 3, go to the reference, so that the
/// lines after them have theirs.
#[test]
fn every_call_of_tuned() {
    assert_eq!(replay(tuned::answer), CALLS);
    assert_eq!(replay_requests(tuned::answer), REQUESTS);
    let without_log: Implementation = |book, given, log, call| match log {
        None if tuned::has(book, given.party, call) => tuned::answer(book, given, None, call),
        log => answer(book, given, log, call),
    };
    assert_eq!(asks::replay(without_log).0, asks::CALLS);
}

/// The printed days, put together of the engine's calls.
#[test]
fn every_day() {
    every_day_of(engine::answer);
}

/// The printed days of versions 1 and 2, put together of the calls of the tuned
/// implementation.
#[test]
fn every_day_of_tuned() {
    every_day_of(|book, given, log, call| {
        if tuned::has(book, given.party, call) {
            tuned::answer(book, given, log, call)
        } else {
            answer(book, given, log, call)
        }
    });
}

fn every_day_of(implementation: Implementation) {
    let days = days();
    assert_eq!(days.len(), DAYS);
    for day in days {
        let mut book = day.book.clone();
        let printed = implementation(&mut book, Given::OPERATOR, None, &Call::Day).part;
        assert_eq!(printed, day.printed, "{}", day.name);
        assert_eq!(book, day.book, "{}", day.name);
    }
}
