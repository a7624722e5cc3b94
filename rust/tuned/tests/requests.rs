//! The tuned implementation held against the outside vectors and, on drawn books,
//! stores and calls, against the reference.

#![forbid(unsafe_code)]

use books::tuned::knows;
use books::vectors::{replay, replay_requests, REQUESTS};
use books::{answer, asks, Answer, Call, Generator, Implementation};
use reference::party::{Given, Party};

/// The tuned implementation, or the reference where a call is a shipper's, is given a
/// log, takes no store, or questions a book of version 3.
fn requested(book: &mut [u8], given: Given<'_>, log: Option<&mut Vec<u8>>, call: &Call) -> Answer {
    if log.is_some() || !knows(book, call) || given.party != Party::Operator {
        return answer(book, given, log, call);
    }
    books::tuned::answer(book, given.store, call).unwrap_or_else(|| answer(book, given, None, call))
}

/// The same by the functions without a store.
fn plain(book: &mut [u8], _: Given<'_>, log: Option<&mut Vec<u8>>, call: &Call) -> Answer {
    assert!(log.is_none(), "a call of document 01");
    if !knows(book, call) {
        return answer(book, Given::OPERATOR, None, call);
    }
    books::tuned::plain_answer(book, call)
        .unwrap_or_else(|| answer(book, Given::OPERATOR, None, call))
}

#[test]
fn every_call_with_a_store() {
    assert_eq!(replay_requests(requested), REQUESTS);
    assert_eq!(asks::replay(requested).0, asks::CALLS);
}

#[test]
fn every_call_of_document_01() {
    assert_eq!(replay(requested), books::vectors::CALLS);
    assert_eq!(replay(plain), books::vectors::CALLS);
}

#[test]
fn drawn_requests() {
    let mut generator = Generator::new(8);
    let mut compared = 0;
    for _ in 0..6_000 {
        let mut bytes = generator.any_book();
        let store = generator.store(&bytes);
        let store = store.as_deref();
        for _ in 0..6 {
            let call = generator.call(&bytes, store);
            let before = bytes.clone();
            let given = Given::by_operator(store);
            let expected = answer(&mut bytes, given, None, &call);
            let mut sides = vec![requested as Implementation];
            if store.is_none() {
                sides.push(plain);
            }
            for side in sides {
                let mut book = before.clone();
                assert_eq!(
                    side(&mut book, given, None, &call),
                    expected,
                    "{call:?} {store:02x?}"
                );
                assert_eq!(book, bytes, "{call:?} {store:02x?}");
                compared += 1;
            }
        }
    }
    println!("requests compared: {compared}");
}
