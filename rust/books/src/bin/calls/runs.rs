//! Runs of version 2.

use books::written::{book, chain_of_four, sale, shipper};
use books::Call;
use reference::book::Book;

use crate::{on, selling, Shown, TARIFFS};

pub fn runs() -> Vec<Shown> {
    let run = |shows, expected: &[i128], book: &Book| on(shows, expected, Call::Run, book);
    // Short by 40,000 MWh in PVB; the credit for AVB takes 7,000,000 off the target.
    let seller = shipper(1, [-10_000, 0, 10_000], 0, 70_000_000, 0);
    let buyer = shipper(2, [0; 3], 55_000_000, 12_000_000, 0);
    let sold = selling(
        TARIFFS,
        book(vec![seller, buyer], vec![sale(1, 2, 0, 30_000)]),
    );
    let without = selling([0, 0], sold.clone());
    let mut covered_by_credit = sold.clone();
    covered_by_credit.users[0].assigned.0 = 73_000_000;
    vec![
        run(
            "version 1: run of a chain of four",
            &[0, 3],
            &chain_of_four(),
        ),
        run(
            "version 2, the same with S and U 0: run",
            &[0, 3],
            &selling([0, 0], chain_of_four()),
        ),
        run(
            "version 2, the same with selling tariffs, where nobody is long: run",
            &[0, 3],
            &selling(TARIFFS, chain_of_four()),
        ),
        run(
            "the credit lowers the target: run",
            &[0, 1, 1_500, 3_000_000],
            &sold,
        ),
        run("S and U are 0: run", &[0, 1, 5_000, 10_000_000], &without),
        run("the credit covers: run", &[0, 0, 0, 0], &covered_by_credit),
    ]
}
