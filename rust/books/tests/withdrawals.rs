//! "Sequences" as ask 6 widens them, on random sequences of calls with logs of any
//! kind; and ask 6's own claim, on logs that these calls alone have written.

#![forbid(unsafe_code)]

use books::logs::started;
use books::stores::date_of;
use books::{answer, Answer, Call, Generator, Kind};
use reference::book::Book;
use reference::party::Given;
use reference::questions::{questions_1_to_7, Opened};
use reference::run::{next_reduction, run_book};
use reference::store;
use reference::units::{Area, Cents, Mwh};

/// What the accepted calls of a sequence add up to.
#[derive(Default)]
struct Sums {
    posted: [Mwh; 3],
    mwh: i128,
    worth: i128,
    withdrawn: u64,
    reduced: u64,
    stopped: u64,
}

fn fields(bytes: &[u8]) -> Book {
    questions_1_to_7(bytes).expect("an accepted book")
}

/// An accepted book, a large one seldom.
fn opening(generator: &mut Generator) -> Vec<u8> {
    loop {
        let book = generator.any_book();
        if reference::check(&book) == 0 {
            return book;
        }
    }
}

#[test]
fn random_sequences() {
    let mut generator = Generator::new(70);
    let mut all = Sums::default();
    for _ in 0..2_000 {
        let opening = opening(&mut generator);
        let store = generator
            .store(&opening)
            .filter(|_| generator.random().one_in(3));
        let sums = sequence(&mut generator, &opening, store.as_deref());
        all.withdrawn += sums.withdrawn;
        all.reduced += sums.reduced;
        all.stopped += sums.stopped;
    }
    println!(
        "withdrawn {}, reduced {}, stopped {}",
        all.withdrawn, all.reduced, all.stopped
    );
    assert!(all.withdrawn > 500 && all.reduced > 300 && all.stopped > 20);
}

/// Calls with the log that the call before left or any other, and what then holds.
fn sequence(generator: &mut Generator, opening: &[u8], store: Option<&[u8]>) -> Sums {
    let mut sums = Sums::default();
    let mut bytes = opening.to_vec();
    let mut log = started(opening);
    for _ in 0..generator.random().below(16) {
        let call = match generator.random().below(3) {
            0 => Call::Withdrawal,
            _ => generator.changing_call(&bytes, store),
        };
        let mut lent = generator.log(&bytes).or_kept(&log);
        step(&mut bytes, store, &mut lent, &call, &mut sums);
        log = lent.unwrap_or(log);
    }
    let (opening, after) = (fields(opening), fields(&bytes));
    for area in Area::ALL {
        let place = area.index();
        let physical: Mwh = opening.users.iter().map(|user| user.physical[place]).sum();
        let position: Mwh = after.users.iter().map(|user| user.position[place]).sum();
        assert_eq!(position, physical + sums.posted[place]);
    }
    let pairs = || opening.trades.iter().zip(&after.trades);
    let left: Mwh = pairs().map(|(old, new)| old.standing - new.standing).sum();
    let worth: Cents = pairs()
        .map(|(old, new)| (old.standing - new.standing) * old.tariff(&opening.prices))
        .sum();
    assert_eq!(
        (left.0, worth.0),
        (sums.mwh, sums.worth),
        "less withdrawals"
    );
    for (old, new) in pairs() {
        let mut kept = old.clone();
        if old.is_bilateral_today() {
            kept.standing = new.standing;
        }
        assert_eq!(*new, kept);
    }
    sums
}

fn step(
    bytes: &mut [u8],
    store: Option<&[u8]>,
    log: &mut Option<Vec<u8>>,
    call: &Call,
    sums: &mut Sums,
) {
    let (before, log_before) = (fields(bytes), log.clone());
    let found = answer(bytes, Given::by_operator(store), log.as_mut(), call);
    let after = fields(bytes);
    let stopped = found.number == 20 && *call == Call::Run;
    if found.number != 0 && !stopped {
        assert_eq!((&after, &*log), (&before, &log_before));
        return;
    }
    let rises = |(old, new): (&Mwh, &Mwh)| new > old;
    let standing =
        |book: &Book| -> Vec<Mwh> { book.trades.iter().map(|trade| trade.standing).collect() };
    let (old, new) = (standing(&before), standing(&after));
    let rises = old.iter().zip(&new).any(rises);
    assert!(
        !rises || *call == Call::Withdrawal,
        "rises only by a withdrawal"
    );
    add(sums, call, &found);
    if *call == Call::Run {
        run_as_told(store, (&before, &after), &found);
        sums.stopped += u64::from(stopped);
    }
}

/// A run that returns 0 leaves no user short with a sale to cut, one that returns 20
/// does. Its reductions are at most the MWh standing in trades of kind 0 and day 0.
fn run_as_told(store: Option<&[u8]>, (before, after): (&Book, &Book), found: &Answer) {
    let limits = store::limits(store, after.date).expect("a set in force");
    let due = next_reduction(&limits, after).is_some();
    assert_eq!(due, found.number == 20, "the end of a run");
    let trades = before
        .trades
        .iter()
        .filter(|trade| trade.is_bilateral_today());
    let standing: Mwh = trades.map(|trade| trade.standing).sum();
    assert!(found.fields[0] <= standing.0);
    assert!(found.fields[0] > 0 || before == after);
    if found.number == 0 {
        let book = before.clone();
        let mut again = Opened { book, limits };
        let run = run_book(&mut again, None);
        let fields = [i128::from(run.reductions), run.mwh, run.worth];
        assert_eq!(
            (&found.fields[..], after),
            (&fields[..], &again.book),
            "without a log"
        );
    }
}

fn add(sums: &mut Sums, call: &Call, found: &Answer) {
    let mut post = |area: u32, amount: i64| {
        let place = usize::try_from(area).expect("area");
        sums.posted[place] = sums.posted[place] + Mwh(i128::from(amount));
    };
    match call {
        Call::Posting { area, amount, .. } => post(*area, *amount),
        Call::List { areas, amounts, .. } => {
            let lines = areas.iter().zip(amounts).zip(&found.fields);
            for ((area, amount), _) in lines.filter(|(_, number)| **number == 0) {
                post(*area, *amount);
            }
        }
        Call::Reduction { .. } => {
            sums.mwh += found.fields[0];
            sums.worth += found.fields[1];
            sums.reduced += 1;
        }
        Call::Run => {
            sums.mwh += found.fields[1];
            sums.worth += found.fields[2];
            sums.reduced += u64::from(found.fields[0] > 0);
        }
        Call::Withdrawal => {
            sums.mwh -= found.fields[0];
            sums.worth -= found.fields[1];
            sums.withdrawn += 1;
        }
        _ => {}
    }
}

/// "For a log so started and written by these calls alone, after withdrawing every
/// reduction noted the book is byte for byte the one before the first of them."
#[test]
fn withdrawing_every_reduction() {
    let mut generator = Generator::new(70);
    let (mut noted, mut longest) = (0, 0);
    let kinds = [Kind::Small, Kind::Usual, Kind::Chain, Kind::Shares];
    for turn in 0..400 {
        let mut bytes = match turn % 20 {
            0 => generator.book(Kind::Long),
            place => generator.book(kinds[place % kinds.len()]),
        };
        let mut log = started(&bytes);
        let store = generator
            .store(&bytes)
            .filter(|store| reference::store::limits(Some(store), date_of(&bytes)).is_ok());
        let store = store.as_deref();
        // The book before the first of the reductions noted.
        let mut first = bytes.clone();
        for _ in 0..12 {
            let call = match generator.random().below(8) {
                0 => Call::Withdrawal,
                _ => generator.changing_call(&bytes, store),
            };
            let found = answer(&mut bytes, Given::by_operator(store), Some(&mut log), &call);
            let cuts = matches!(call, Call::Withdrawal | Call::Reduction { .. } | Call::Run);
            if found.number == 0 && !cuts {
                first.clone_from(&bytes);
            }
        }
        let mut withdrawn = 0;
        let number = loop {
            let found = answer(
                &mut bytes,
                Given::by_operator(store),
                Some(&mut log),
                &Call::Withdrawal,
            );
            if found.number != 0 {
                break found.number;
            }
            assert!(found.fields[0] > 0, "a reduction cuts something");
            withdrawn += 1;
        };
        assert_eq!(number, 18);
        assert_eq!(bytes, first, "byte for byte");
        assert_eq!(log, started(&first));
        noted += withdrawn;
        longest = longest.max(withdrawn);
    }
    println!("{noted} reductions withdrawn, {longest} of one log at most");
    assert!(noted > 500 && longest == 256);
}
