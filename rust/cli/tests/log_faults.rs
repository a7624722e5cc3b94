//! Why a log is none for a book is told exactly where the engine refuses it.

#![forbid(unsafe_code)]

use std::path::Path;

use books::{Generator, Kind};
use cli::log_file::LogFile;
use daybook::{Log, Operator, LOG_LENGTH};
use daybook_text::log_faults::log_fault;

const KINDS: [Kind; 4] = [Kind::Small, Kind::Chain, Kind::Usual, Kind::Shares];

/// A log with bytes changed, for its own book or another: why it is refused is told
/// exactly where the engine refuses it with 19.
#[test]
fn why_a_log_is_refused() {
    let mut generator = Generator::new(303);
    let (mut refused, mut fitting) = (0, 0);
    for round in 0..200 {
        let mut book = generator.book(KINDS[round % KINDS.len()]);
        let mut log = Log::start(&book).expect("a log");
        Operator::new().log(&mut log).run(&mut book).expect("a run");
        for _ in 0..4 {
            let log = LogFile::new(Path::new("log"), changed(&mut generator, &log));
            let fields = Operator::new().read(&book).expect("a book");
            let fault = log_fault(log.log.as_bytes(), &book, &fields);
            assert_eq!(fault.is_none(), log.is_for(&book), "{fault:?}");
            match fault {
                Some(fault) => {
                    assert!(!fault.to_string().is_empty());
                    refused += 1;
                }
                None => fitting += 1,
            }
        }
        let other = generator.book(KINDS[round % KINDS.len()]);
        let log = LogFile::new(Path::new("log"), log.into_bytes());
        let fields = Operator::new().read(&other).expect("a book");
        let fault = log_fault(log.log.as_bytes(), &other, &fields);
        assert_eq!(fault.is_none(), log.is_for(&other), "{fault:?}");
    }
    println!("{refused} logs refused, {fitting} fitting");
    assert!(refused > 400 && fitting > 50, "{refused} {fitting}");
}

/// The bytes of a log, some of them changed, most of them where they mean something.
fn changed(generator: &mut Generator, log: &Log) -> Vec<u8> {
    let mut bytes = log.as_bytes().to_vec();
    let random = generator.random();
    if random.below(12) == 0 {
        bytes.truncate(random.below(LOG_LENGTH));
        return bytes;
    }
    for _ in 0..random.below(3) {
        let entries = 9_524 + 1_024 * log.entries();
        let place = match random.below(4) {
            0 => random.below(12),
            1 => 12 + random.below(log.held().len() + 8),
            2 => 9_524 + random.below(1_024 * (log.entries() + 1)),
            _ => entries + random.below(LOG_LENGTH - entries),
        };
        bytes[place.min(LOG_LENGTH - 1)] = u8::try_from(random.below(3)).expect("a byte");
    }
    bytes
}
