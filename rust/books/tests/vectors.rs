//! Replays every call of the outside vectors against the reference.

#![forbid(unsafe_code)]

use books::sha256::sha256;
use books::{answer, asks, shrinkage, vectors};
use reference::shrinkage::{over_days, shrinkage_return};

#[test]
fn sha256_of_known_texts() {
    let empty = "e3b0c44298fc1c149afbf4c8996fb92427ae41e4649b934ca495991b7852b855";
    assert_eq!(sha256(b""), empty);
    let abc = "ba7816bf8f01cfea414140de5dae2223b00361a396177a9cb410ff61f20015ad";
    assert_eq!(sha256(b"abc"), abc);
}

#[test]
fn every_call() {
    assert_eq!(vectors::replay(answer), vectors::CALLS);
}

#[test]
fn every_return_of_shrinkage() {
    let replayed = shrinkage::replay(shrinkage_return, over_days);
    assert_eq!(replayed, shrinkage::LINES);
}

#[test]
fn every_call_with_a_store() {
    assert_eq!(vectors::replay_requests(answer), vectors::REQUESTS);
}

#[test]
fn every_call_with_a_log() {
    assert_eq!(asks::replay(answer), (asks::CALLS, asks::CALLS_WITH_LOG));
}
