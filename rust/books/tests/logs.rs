//! Counts how often drawn calls with logs reach each number and each branch of ask
//! 6, and fails if one is never reached, or a number that the call does not ask for
//! is. Each damage of a log gives 19.

#![forbid(unsafe_code)]

use std::collections::BTreeMap;

use books::logs::{forged, started, LogDamage, LOG_BEFORE};
use books::{answer, Answer, Call, Generator, Kind, Random};
use reference::log::{LOG_LENGTH, MOST_ENTRIES, MOST_HELD};
use reference::party::Given;
use reference::questions::questions_1_to_7;

#[derive(Default)]
struct Counts {
    reached: BTreeMap<String, u64>,
}

impl Counts {
    fn add(&mut self, name: &str) {
        *self.reached.entry(name.to_string()).or_insert(0) += 1;
    }

    fn add_if(&mut self, yes: bool, name: &str) {
        if yes {
            self.add(name);
        }
    }
}

/// The calls that take a log and the numbers that each can return, 0 to 7 apart.
const NUMBERS: [(&str, &[u32]); 7] = [
    ("posting", &[16, 17, 19, 8, 10]),
    ("list", &[15, 16, 17, 19]),
    ("morning call", &[16, 17, 19, 8, 9, 11, 12]),
    ("afternoon call", &[16, 17, 19, 8, 9, 11, 12]),
    ("reduction", &[16, 17, 19, 8, 9, 11, 13, 14, 20]),
    ("run", &[16, 17, 19, 20]),
    ("withdrawal", &[16, 17, 19, 18]),
];

const BRANCHES: [&str; 16] = [
    "run: 20 and no reduction",
    "run: 20 after a reduction",
    "run: 0 with a full log",
    "run: 0 and more than one entry noted",
    "reduction: 14 with a full log",
    "withdrawal: a noted reduction",
    "withdrawal: an entry without a cut",
    "withdrawal: above the opening standing",
    "withdrawal: leaves entries",
    "log: emptied by a posting",
    "log: emptied by a list",
    "log: emptied by a list whose lines were all refused",
    "log: emptied by a guarantee call",
    "log: left by a refused call",
    "start: 0",
    "start: 19",
];

#[test]
fn every_number_and_branch_is_reached() {
    let mut generator = Generator::new(60);
    let mut counts = Counts::default();
    for _ in 0..2_500 {
        sequence(&mut generator, &mut counts);
    }
    let mut required: Vec<String> = BRANCHES.iter().map(|name| name.to_string()).collect();
    for (name, numbers) in NUMBERS {
        let numbers = (0..=7).chain(numbers.iter().copied());
        required.extend(numbers.map(|number| format!("{name}: {number}")));
    }
    for (name, count) in &counts.reached {
        println!("{count:>7} {name}");
    }
    let possible = |name: &&String| !required.contains(name);
    let unexpected: Vec<&String> = counts.reached.keys().filter(possible).collect();
    assert!(
        unexpected.is_empty(),
        "reached, but not possible: {unexpected:?}"
    );
    let reached = |name: &&String| !counts.reached.contains_key(*name);
    let missing: Vec<&String> = required.iter().filter(reached).collect();
    assert!(missing.is_empty(), "never reached: {missing:?}");
}

/// Calls on one book with one store; the log goes with them, but now and then
/// another one is given, or none.
fn sequence(generator: &mut Generator, counts: &mut Counts) {
    let opening = generator.any_book();
    let mut book = opening.clone();
    let store = generator
        .store(&book)
        .filter(|_| generator.random().one_in(3));
    let mut log = started(&book);
    for _ in 0..8 {
        let call = generator.logged_call(&book, store.as_deref());
        if call == Call::Start {
            start(generator, &book, counts);
            continue;
        }
        let lent = generator
            .log(&book)
            .or_kept(&log)
            .filter(|_| call.takes_log());
        let (before, mut after) = (book.clone(), lent.clone());
        let found = answer(
            &mut book,
            Given::by_operator(store.as_deref()),
            after.as_mut(),
            &call,
        );
        let stopped = found.number == 20 && call == Call::Run;
        if found.number != 0 && !stopped {
            assert_eq!(book, before, "a refused call leaves the book");
        }
        let Some((lent, after)) = lent.zip(after) else {
            continue;
        };
        counts.add(&format!("{}: {}", call.name(), found.number));
        count_log(counts, (&before, &book), (&lent, &after), (&call, &found));
        let raised = call == Call::Withdrawal && raised(&opening, &book);
        counts.add_if(raised, "withdrawal: above the opening standing");
        log = match found.number {
            19 => started(&book),
            _ => after,
        };
    }
}

/// Whether a trade stands above what it stood at.
fn raised(opening: &[u8], book: &[u8]) -> bool {
    let books = [opening, book].map(|bytes| questions_1_to_7(bytes).ok());
    let [Some(opening), Some(book)] = books else {
        return false;
    };
    let mut trades = opening.trades.iter().zip(&book.trades);
    trades.any(|(old, new)| new.standing > old.standing)
}

fn start(generator: &mut Generator, book: &[u8], counts: &mut Counts) {
    let (mut book, mut log) = generator.start(book);
    let found = answer(&mut book, Given::OPERATOR, Some(&mut log), &Call::Start);
    let right = log.len() == LOG_LENGTH && book.len() <= MOST_HELD;
    assert_eq!(found.number, if right { 0 } else { 19 });
    if right {
        assert_eq!(log, started(&book));
    } else {
        assert!(log.iter().all(|byte| *byte == LOG_BEFORE));
    }
    counts.add(&format!("start: {}", found.number));
}

/// Counts what a call does with the log that it is lent.
fn count_log(
    counts: &mut Counts,
    (before, after): (&[u8], &[u8]),
    (lent, log): (&[u8], &[u8]),
    (call, found): (&Call, &Answer),
) {
    let (had, has) = (entries(lent), entries(log));
    let accepted = found.number == 0 || (found.number == 20 && *call == Call::Run);
    if !accepted {
        assert_eq!(lent, log, "a refused call leaves the log");
        counts.add_if(had > 0, "log: left by a refused call");
        counts.add_if(
            found.number == 14 && had == MOST_ENTRIES,
            "reduction: 14 with a full log",
        );
        return;
    }
    let held = &log[12..][..after.len()];
    assert_eq!(held, after, "the book as the call left it");
    match call {
        Call::Withdrawal => {
            assert_eq!(has + 1, had);
            let cut = found.fields[0] > 0;
            counts.add_if(cut, "withdrawal: a noted reduction");
            counts.add_if(!cut, "withdrawal: an entry without a cut");
            counts.add_if(has > 0, "withdrawal: leaves entries");
            assert_eq!(cut, before != after);
        }
        Call::Reduction { .. } => assert_eq!(has, had + 1),
        Call::Run => {
            let reductions = usize::try_from(found.fields[0]).expect("a count");
            assert_eq!(has, had + reductions);
            match (found.number, reductions) {
                (20, 0) => counts.add("run: 20 and no reduction"),
                (20, _) => counts.add("run: 20 after a reduction"),
                _ => {
                    counts.add_if(has == MOST_ENTRIES, "run: 0 with a full log");
                    counts.add_if(reductions > 1, "run: 0 and more than one entry noted");
                }
            }
        }
        _ => {
            assert_eq!(log, started(after), "emptied");
            let name = match call {
                Call::Posting { .. } => "log: emptied by a posting",
                Call::List { .. } => "log: emptied by a list",
                _ => "log: emptied by a guarantee call",
            };
            counts.add_if(had > 0, name);
            let refused =
                matches!(call, Call::List { .. }) && found.fields.iter().all(|number| *number != 0);
            counts.add_if(
                had > 0 && refused && !found.fields.is_empty(),
                "log: emptied by a list whose lines were all refused",
            );
        }
    }
}

/// The entry count that a log tells.
fn entries(log: &[u8]) -> usize {
    log.get(4..8).map_or(0, |count| {
        usize::from(u16::from_le_bytes([count[0], count[1]]))
    })
}

/// Each damage of a log of the right form gives 19, to a withdrawal and to a
/// posting, before questions 18 and 8.
#[test]
fn broken_logs() {
    let mut generator = Generator::new(61);
    let mut random = Random::new(62);
    let mut broken = [0; LogDamage::ALL.len()];
    let posting = Call::Posting {
        id: 0,
        area: 9,
        amount: 0,
    };
    let kinds = [Kind::Small, Kind::Usual, Kind::Shares, Kind::Chain];
    for turn in 0..400 {
        let mut bytes = generator.book(kinds[turn % kinds.len()]);
        let book = questions_1_to_7(&bytes).expect("an accepted book");
        let good = forged(&mut random, &bytes);
        let number = answer(
            &mut bytes,
            Given::OPERATOR,
            Some(&mut good.clone()),
            &posting,
        )
        .number;
        assert_eq!(number, 8, "a log of the right form");
        for (count, damage) in broken.iter_mut().zip(LogDamage::ALL) {
            let mut log = good.clone();
            if !damage.apply(&mut random, &mut log, &book) {
                continue;
            }
            for call in [&Call::Withdrawal, &posting] {
                let mut lent = log.clone();
                let number =
                    answer(&mut bytes.clone(), Given::OPERATOR, Some(&mut lent), call).number;
                let kept = damage == LogDamage::AnyByte && number != 19;
                assert!(number == 19 || kept, "{damage:?}: {number}");
                assert!(lent == log || number == 0);
            }
            *count += 1;
        }
    }
    println!("broken logs: {broken:?}");
    assert!(broken.iter().all(|count| *count > 20), "{broken:?}");
}
