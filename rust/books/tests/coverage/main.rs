//! Counts how often generated books and calls without a store reach each number
//! and each branch of the documents, and fails if one is never reached.

#![forbid(unsafe_code)]

mod book;
mod branches;
mod cancellation;
mod credit;
mod group;
mod reduction;
mod run;
mod warning;

use std::collections::BTreeMap;

use books::damage::version_of;
use books::{answer, Answer, Call, Generator};
use reference::book::Book;
use reference::party::Given;
use reference::questions::questions_1_to_7;

use book::count_book;
use branches::{in_version_3, print_and_judge};
use cancellation::count_cancellation;
use reduction::count_reduction;
use run::{count_day, count_run};
use warning::count_warning;

#[derive(Default)]
struct Counts {
    reached: BTreeMap<String, u64>,
}

impl Counts {
    fn add(&mut self, name: &str) {
        *self.reached.entry(name.to_string()).or_insert(0) += 1;
    }

    fn add_if(&mut self, yes: bool, name: &str) {
        if yes {
            self.add(name);
        }
    }
}

#[test]
fn every_number_and_branch_is_reached() {
    let mut generator = Generator::new(6);
    let mut counts = Counts::default();
    for _ in 0..5_000 {
        let mut bytes = generator.any_book();
        count_book(&mut counts, &bytes);
        for _ in 0..8 {
            let call = generator.call(&bytes, None);
            let before = questions_1_to_7(&bytes).ok();
            let third = is_of_version_3(&bytes, &call);
            let answer = answer(&mut bytes, Given::OPERATOR, None, &call);
            counts.add(&format!("{}: {}", call.name(), answer.number));
            counts.add_if(third, &in_version_3(call.name(), answer.number));
            counts.add(&format!("number {}", answer.number));
            if let (Call::Write { image, .. }, 0) = (&call, answer.number) {
                credit::count_write(&mut counts, &image[..]);
                group::count_write(&mut counts, &image[..]);
            }
            if let (Some(before), 0) = (before, answer.number) {
                count_call(&mut counts, &before, &call, &answer);
                group::count_call(&mut counts, &before, &call, &answer);
            }
        }
    }
    print_and_judge(&counts);
}

/// Whether the call questions bytes that say version 3.
fn is_of_version_3(book: &[u8], call: &Call) -> bool {
    let bytes = match call {
        Call::ShowPicked {
            afternoon, pick, ..
        } if *pick => afternoon,
        Call::Write { image, .. } => &image[..],
        _ => book,
    };
    bytes.len() >= 32 && bytes.starts_with(b"GDB") && version_of(bytes) == 3
}

/// Counts the branches of an accepted call on this book.
fn count_call(counts: &mut Counts, book: &Book, call: &Call, answer: &Answer) {
    match call {
        Call::Warning { id } => count_warning(counts, book, *id),
        Call::Reduction { id } => {
            let place = book.place_of(*id).expect("a user of the book");
            count_reduction(counts, book, place, answer);
        }
        Call::Cancellation { id, tries } => {
            let place = book.place_of(*id).expect("a user of the book");
            count_cancellation(counts, book, place, *tries, answer);
        }
        Call::Run => count_run(counts, book, answer),
        Call::Day => count_day(counts, &answer.part),
        _ => {}
    }
}
