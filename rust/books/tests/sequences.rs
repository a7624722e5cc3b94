//! "Sequences" of document 01, on random sequences of calls that are all given
//! one store, or none.

#![forbid(unsafe_code)]

use books::answers::PLACE_BEFORE;
use books::{answer, Call, Generator, Kind};
use reference::book::Book;
use reference::party::Given;
use reference::questions::questions_1_to_7;
use reference::run::next_reduction;
use reference::store;
use reference::units::{Area, Cents, Mwh};

/// What the accepted calls of a sequence add up to.
#[derive(Default)]
struct Sums {
    posted: [Mwh; 3],
    mwh: i128,
    worth: i128,
    accepted: u64,
    refused: u64,
    runs: u64,
}

fn fields(bytes: &[u8]) -> Book {
    questions_1_to_7(bytes).expect("a book that passes questions 1 to 7")
}

#[test]
fn random_sequences() {
    let mut generator = Generator::new(5);
    let mut sums = Sums::default();
    for turn in 0..1_500 {
        let kind = match turn % 30 {
            0 => Kind::Largest,
            1 => Kind::Long,
            2 => Kind::Extreme,
            place => {
                let kinds = [
                    Kind::Small,
                    Kind::Usual,
                    Kind::Chain,
                    Kind::Shares,
                    Kind::Midday,
                ];
                kinds[place % 5]
            }
        };
        let opening = generator.book(kind);
        let store = generator.store(&opening);
        let calls = generator.random().below(30);
        let done = sequence(&mut generator, &opening, store.as_deref(), calls);
        sums.accepted += done.accepted;
        sums.refused += done.refused;
        sums.runs += done.runs;
    }
    println!(
        "accepted {}, refused {}, runs {}",
        sums.accepted, sums.refused, sums.runs
    );
    assert!(sums.accepted > 1_000 && sums.refused > 1_000 && sums.runs > 100);
}

/// Makes the calls one after the other, and judges each step and the whole.
fn sequence(generator: &mut Generator, opening: &[u8], store: Option<&[u8]>, calls: usize) -> Sums {
    let mut sums = Sums::default();
    let mut bytes = opening.to_vec();
    for _ in 0..calls {
        let call = if generator.random().one_in(4) {
            generator.call(&bytes, store)
        } else {
            generator.changing_call(&bytes, store)
        };
        let before = bytes.clone();
        step(&mut bytes, store, &call, &mut sums);
        no_trade_raised(&fields(&before), &fields(&bytes));
    }
    positions_conserved(&fields(opening), &fields(&bytes), &sums);
    totals_equal_what_left(&fields(opening), &fields(&bytes), &sums);
    trade_bytes_kept(&fields(opening), &fields(&bytes));
    sums
}

fn step(bytes: &mut [u8], store: Option<&[u8]>, call: &Call, sums: &mut Sums) {
    let before = bytes.to_vec();
    let answer = answer(bytes, Given::by_operator(store), None, call);
    if answer.number != 0 {
        assert_eq!(bytes, before, "a refused call leaves the book");
        let left = i128::from(match call {
            Call::List { .. } => PLACE_BEFORE,
            _ => 0,
        });
        let fields = &answer.fields;
        assert!(fields.iter().all(|field| *field == left), "{answer:?}");
        sums.refused += 1;
        return;
    }
    sums.accepted += 1;
    match call {
        Call::Posting { area, amount, .. } => {
            let place = usize::try_from(*area).expect("area");
            sums.posted[place] = sums.posted[place] + Mwh(i128::from(*amount));
        }
        Call::List { areas, amounts, .. } => {
            let lines = areas.iter().zip(amounts).zip(&answer.fields);
            for ((area, amount), _) in lines.filter(|(_, number)| **number == 0) {
                let place = usize::try_from(*area).expect("area");
                sums.posted[place] = sums.posted[place] + Mwh(i128::from(*amount));
            }
        }
        Call::MorningCall { .. } | Call::AfternoonCall { .. } => {
            assert!(answer.fields[1] > 0, "an accepted call blocks something");
        }
        Call::Reduction { .. } => {
            assert!(answer.fields[0] > 0, "an accepted reduction cuts something");
            sums.mwh += answer.fields[0];
            sums.worth += answer.fields[1];
        }
        Call::Run => {
            sums.mwh += answer.fields[1];
            sums.worth += answer.fields[2];
            sums.runs += 1;
            let after = fields(bytes);
            let limits = store::limits(store, after.date).expect("a set in force");
            assert_eq!(next_reduction(&limits, &after), None, "the end of a run");
        }
        _ => assert_eq!(bytes, before, "a call that only answers leaves the book"),
    }
}

/// "For each area, the sum of the users' positions = the sum of their physical
/// entries in the opening book + the sum of the amounts of the accepted
/// postings in that area."
fn positions_conserved(opening: &Book, after: &Book, sums: &Sums) {
    for area in Area::ALL {
        let place = area.index();
        let physical: Mwh = opening.users.iter().map(|user| user.physical[place]).sum();
        let position: Mwh = after.users.iter().map(|user| user.position[place]).sum();
        assert_eq!(position, physical + sums.posted[place]);
    }
}

/// MWh and worth of the answers equal what left the trades.
fn totals_equal_what_left(opening: &Book, after: &Book, sums: &Sums) {
    let pairs = || opening.trades.iter().zip(&after.trades);
    let mwh: Mwh = pairs().map(|(old, new)| old.standing - new.standing).sum();
    let worth: Cents = pairs()
        .map(|(old, new)| (old.standing - new.standing) * old.tariff(&opening.prices))
        .sum();
    assert_eq!((mwh.0, worth.0), (sums.mwh, sums.worth));
}

/// "Every trade byte is as in the opening book, except standing where kind and
/// day are 0."
fn trade_bytes_kept(opening: &Book, after: &Book) {
    assert_eq!(opening.trades.len(), after.trades.len());
    for (old, new) in opening.trades.iter().zip(&after.trades) {
        let standing = if old.is_bilateral_today() {
            new.standing
        } else {
            old.standing
        };
        let kept = reference::book::Trade {
            standing,
            ..old.clone()
        };
        assert_eq!(*new, kept);
    }
}

fn no_trade_raised(before: &Book, after: &Book) {
    for (old, new) in before.trades.iter().zip(&after.trades) {
        assert!(new.standing <= old.standing);
    }
}
