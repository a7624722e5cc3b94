//! Logs (ask 6), engine against reference: their start from any bytes, every damage,
//! every part of a log changed, full logs, and reductions withdrawn one by one.

#![forbid(unsafe_code)]

use books::groups::in_version_3;
use books::hard::one_seller;
use books::logs::{forged, started, LogDamage, LOG_BEFORE};
use books::versions::{in_version_2, VERSIONS};
use books::{Call, Kind};
use compare::settings::comparison;
use compare::Comparison;
use daybook::{LOG_LENGTH, MOST_ENTRIES};
use reference::party::Given;
use reference::questions::questions_1_to_7;

/// Where the held book and the entries stand, and how long an entry is.
const HELD: usize = 12;
const ENTRIES: usize = 9_524;
const ENTRY: usize = 1_024;

/// Books with a damaged log, of each version.
const OF_EACH: usize = 6;

/// Books and logs of any lengths; nothing else is asked.
#[test]
fn starts() {
    let mut comparison = comparison("starts");
    for book in [0, 1, 31, 32, 8_744, 8_745, 9_511, 9_512, 9_513, 100_000] {
        for log in [
            0,
            1,
            12,
            9_524,
            LOG_LENGTH - 1,
            LOG_LENGTH,
            LOG_LENGTH + 1,
            300_000,
        ] {
            let mut book = comparison.generator().random().bytes(book);
            let mut log = vec![LOG_BEFORE; log];
            let right = log.len() == LOG_LENGTH && book.len() <= 9_512;
            let number = comparison.logged(&mut book, None, Some(&mut log), &Call::Start);
            assert_eq!(number, if right { 0 } else { 19 });
        }
    }
    comparison.expect_none();
}

/// Every call that takes a log, for the user of an id, on copies of book and log.
fn every_call(comparison: &mut Comparison, book: &[u8], log: &[u8], id: u32) {
    let calls = [
        Call::Posting {
            id,
            area: 0,
            amount: 1,
        },
        comparison.generator().list_of(book, 3),
        Call::MorningCall { id },
        Call::AfternoonCall { id },
        Call::Reduction { id },
        Call::Run,
        Call::Withdrawal,
    ];
    for call in calls {
        comparison.logged(&mut book.to_vec(), None, Some(&mut log.to_vec()), &call);
    }
}

/// Logs of the right form, and each damage of them, with every call.
#[test]
fn every_damage() {
    let mut comparison = comparison("every_log_damage");
    let kinds = [Kind::Small, Kind::Usual, Kind::Chain, Kind::Shares];
    for (turn, version) in (0..OF_EACH).flat_map(|turn| VERSIONS.map(|version| (turn, version))) {
        let book = loop {
            let book = comparison
                .generator()
                .book_of(version, kinds[turn % kinds.len()]);
            if books::runs::is_short_run(&book, None) {
                break book;
            }
        };
        let fields = questions_1_to_7(&book).expect("an accepted book");
        let id = comparison.generator().arguments(&book).id;
        let good = forged(comparison.generator().random(), &book);
        every_call(&mut comparison, &book, &good, id);
        for damage in LogDamage::ALL {
            let mut log = good.clone();
            if damage.apply(comparison.generator().random(), &mut log, &fields) {
                every_call(&mut comparison, &book, &log, id);
            }
        }
    }
    comparison.expect_none();
}

/// Each byte of a log's start, those around the ends of the held book, of its room,
/// of the entries and of the log, and the cuts of the trades next to the last, with
/// other values.
#[test]
fn every_part_changed() {
    let mut comparison = comparison("every_log_part");
    for version in VERSIONS {
        let book = comparison.generator().sized(version, 4, 7).to_bytes();
        let mut log = started(&book);
        log[4] = 2;
        let held = HELD + book.len();
        let trades = ENTRIES + 4 * 7;
        let around = |place: usize| place - 8..place + 8;
        let places = (0..HELD + 48)
            .chain(around(held))
            .chain(around(ENTRIES))
            .chain(around(trades))
            .chain(around(trades + ENTRY))
            .chain(around(ENTRIES + 2 * ENTRY))
            .chain(LOG_LENGTH - 8..LOG_LENGTH);
        for place in places {
            for value in [0, 1, 2, 127, 128, 255] {
                let mut log = log.clone();
                log[place] = value;
                let mut book = book.clone();
                comparison.logged(&mut book, None, Some(&mut log), &Call::Withdrawal);
            }
        }
    }
    comparison.expect_none();
}

/// A run with room for one reduction more than it takes, for all, all but one, one or
/// none of them; then each one withdrawn again: the book is the first one.
#[test]
fn full_logs() {
    let mut comparison = comparison("full_logs");
    let book = one_seller(3);
    let books = [in_version_3(&book), in_version_2(&book), book];
    for first in books.map(|book| book.to_bytes()) {
        let reductions = reference::run(&mut first.clone(), Given::OPERATOR, None).reductions;
        let due = usize::try_from(reductions).unwrap_or(MOST_ENTRIES);
        for room in [due + 1, due, due - 1, 1, 0] {
            let count = MOST_ENTRIES - room;
            let (mut book, mut log) = (first.clone(), started(&first));
            log[4..6].copy_from_slice(&count.to_le_bytes()[..2]);
            let full = room < due;
            let number = comparison.logged(&mut book, None, Some(&mut log), &Call::Run);
            assert_eq!(number, if full { 20 } else { 0 }, "{count} entries");
            let reduction = Call::Reduction { id: 1 };
            comparison.logged(&mut book, None, Some(&mut log), &reduction);
            let mut withdrawn = 0;
            while comparison.logged(&mut book, None, Some(&mut log), &Call::Withdrawal) == 0 {
                withdrawn += 1;
            }
            assert_eq!(withdrawn, MOST_ENTRIES.min(count + due));
            assert_eq!((&book, &log), (&first, &started(&first)));
        }
    }
    comparison.expect_none();
}
