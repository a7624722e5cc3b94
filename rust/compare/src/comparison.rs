//! The comparison: calls made by every side, answer by answer and byte by
//! byte.

use std::fs;
use std::panic::{catch_unwind, AssertUnwindSafe};
use std::path::{Path, PathBuf};

use books::logs::{any_log, started, DrawnLog};
use books::shrinkage::{balances, share};
use books::{Call, Generator, Implementation, Kind, Random};
use reference::party::{Given, Party};
use reference::shrinkage::{over_days, shrinkage_return};

use crate::counts::{Counts, Version};
use crate::difference::{differing, first_byte, in_words, Difference, Left, Lent};
use crate::shrinkage::{archived, archived_days};
use crate::{engine, tuned, typed};

/// The most differences that are kept and written to files.
const MOST_KEPT: usize = 10;

/// The most calls made one after the other on one book.
const LONGEST_SEQUENCE: usize = 24;

/// One drawn sequence in so many has a log.
const LOGGED_SEQUENCES: usize = 4;

/// One call in so many of those on a chosen book is made with a log too.
const LOGGED_CALLS: usize = 12;

/// Before one drawn call in so many there is a call on bytes made of the book.
const CALLS_BESIDE: usize = 6;

/// After so many drawn calls there is a return of shrinkage.
const CALLS_A_RETURN: u64 = 16;

/// A comparison with one seed.
pub struct Comparison {
    name: String,
    seed: u64,
    generator: Generator,
    book: Vec<u8>,
    store: Option<Vec<u8>>,
    log: Option<Vec<u8>>,
    calls_left: usize,
    folder: PathBuf,
    /// What returns of shrinkage are drawn from.
    balances: Random,
    /// What the call leaves by the reference, and by the side held against it.
    expected: Left,
    found: Left,
    /// The calls compared so far.
    pub counts: Counts,
    /// The returns of shrinkage among them, which are calls on no book.
    pub returns: u64,
    /// The differences so far.
    pub differences: u64,
    /// The first of them.
    pub kept: Vec<Difference>,
}

impl Comparison {
    /// The books of differences are written to files of this folder, the name
    /// being part of theirs.
    pub fn new(name: &str, seed: u64, folder: &Path) -> Comparison {
        Comparison {
            name: name.to_string(),
            seed,
            generator: Generator::new(seed),
            book: Vec::new(),
            store: None,
            log: None,
            calls_left: 0,
            folder: folder.to_path_buf(),
            balances: Random::new(seed),
            expected: Left::default(),
            found: Left::default(),
            counts: Counts::default(),
            returns: 0,
            differences: 0,
            kept: Vec::new(),
        }
    }

    /// The generator, for choices of the caller.
    pub fn generator(&mut self) -> &mut Generator {
        &mut self.generator
    }

    /// Makes drawn calls until this many were compared: sequences of calls by drawn
    /// parties with one store, or none, each on the book that the call before left,
    /// and one sequence of four with a log; returns of shrinkage between them.
    pub fn random_calls(&mut self, calls: u64) {
        while self.counts.all() < calls {
            if self.counts.all().is_multiple_of(CALLS_A_RETURN) {
                self.shrinkage();
            }
            if self.calls_left == 0 {
                self.book = self.generator.any_book();
                self.store = self.generator.store(&self.book);
                let with_log = self.generator.random().one_in(LOGGED_SEQUENCES);
                self.log = with_log.then(|| started(&self.book));
                self.calls_left = 1 + self.generator.random().below(LONGEST_SEQUENCE);
            }
            self.calls_left -= 1;
            let mut book = std::mem::take(&mut self.book);
            if self.generator.random().one_in(CALLS_BESIDE) {
                self.call_beside(&book);
            }
            let store = self.store.take();
            match self.log.take() {
                Some(kept) => {
                    let kept = self.drawn_with_log(&mut book, store.as_deref(), kept);
                    self.log = Some(kept);
                }
                None => {
                    let call = self.generator.call(&book, store.as_deref());
                    self.by_any_party(&mut book, store.as_deref(), None, &call);
                }
            }
            (self.book, self.store) = (book, store);
        }
    }

    /// A drawn conversion of the book, or the inverse of a form of it.
    fn call_beside(&mut self, book: &[u8]) {
        let (mut bytes, call) = match self.generator.random().one_in(2) {
            true => self.generator.restore(book),
            false => self.generator.conversion(book),
        };
        self.by_any_party(&mut bytes, None, None, &call);
    }

    /// A return of shrinkage for drawn balances, and a drawn share over its days.
    fn shrinkage(&mut self) {
        let balances = balances(&mut self.balances);
        let share = share(&mut self.balances);
        let expected = (shrinkage_return(&balances), over_days(share));
        let found = catch_unwind(|| (archived(&balances), archived_days(share)));
        if found.as_ref().ok() != Some(&expected) {
            self.differences += 1;
            let (seed, place) = (self.seed, self.returns);
            println!("seed {seed}, return {place} of {balances:?} and days of {share}:");
            println!("archive: {found:?}; reference: {expected:?}");
        }
        self.returns += 1;
    }

    /// A drawn call of a sequence with logs. Most are given the log kept so far; the
    /// log that the call leaves is kept then, or a new one if it is not for the book.
    fn drawn_with_log(&mut self, book: &mut [u8], store: Option<&[u8]>, kept: Vec<u8>) -> Vec<u8> {
        let call = self.generator.logged_call(book, store);
        if call == Call::Start {
            let (mut source, mut log) = self.generator.start(book);
            self.logged(&mut source, None, Some(&mut log), &call);
            return kept;
        }
        let drawn = self.generator.log(book);
        let (mut lent, kept) = match drawn {
            DrawnLog::Kept if call.takes_log() => (Some(kept), None),
            DrawnLog::Other(log) if call.takes_log() => (log, Some(kept)),
            _ => (None, Some(kept)),
        };
        let number = self.by_any_party(book, store, lent.as_mut(), &call);
        let left = lent.or(kept).filter(|_| number != 19);
        left.unwrap_or_else(|| started(book))
    }

    /// The call by a drawn party, mostly the operator.
    fn by_any_party(
        &mut self,
        book: &mut [u8],
        store: Option<&[u8]>,
        log: Option<&mut Vec<u8>>,
        call: &Call,
    ) -> u32 {
        let party = self.generator.party(book, call);
        self.acted(book, Given { party, store }, log, call)
    }

    /// Makes the operator's call without a store on copies of the book by every side
    /// and compares them. The book becomes the reference's.
    pub fn call(&mut self, book: &mut [u8], call: &Call) {
        self.operator(book, None, call);
    }

    /// The same with this store, or none.
    pub fn operator(&mut self, book: &mut [u8], store: Option<&[u8]>, call: &Call) {
        self.logged(book, store, None, call);
    }

    /// The same with this log too, or none; the log becomes the reference's.
    pub fn logged(
        &mut self,
        book: &mut [u8],
        store: Option<&[u8]>,
        log: Option<&mut Vec<u8>>,
        call: &Call,
    ) -> u32 {
        self.acted(book, Given::by_operator(store), log, call)
    }

    /// The call of this party. The tuned implementation, which knows versions 1 and 2,
    /// no logs and no party but the operator, has to leave the same book without a log,
    /// unless the log's own questions decide. The number is the reference's.
    pub fn acted(
        &mut self,
        book: &mut [u8],
        given: Given<'_>,
        log: Option<&mut Vec<u8>>,
        call: &Call,
    ) -> u32 {
        let lent = Lent {
            book,
            given,
            log: log.as_deref().map(Vec::as_slice),
            call,
        };
        self.expected.make(lent, books::answer);
        let number = self.expected.answer.number;
        self.hold(lent, "archive", engine::answer);
        if typed::has(call, given.party, lent.log) {
            self.hold(lent, "daybook", typed::answer);
        }
        if tuned::has(book, given.party, call) && ![19, 20].contains(&number) {
            let without = Lent { log: None, ..lent };
            self.hold(without, "tuned", tuned::answer);
        }
        self.counts.add(Version::of(book, call), call, number);
        book.copy_from_slice(&self.expected.book);
        if let Some(log) = log {
            std::mem::swap(log, &mut self.expected.log);
        }
        number
    }

    /// Holds the engine, called in one way, or the tuned implementation against
    /// the expected answer, and the expected book and log afterwards. A panic of the
    /// side is a difference.
    fn hold(&mut self, lent: Lent<'_>, side: &str, implementation: Implementation) {
        let (found, expected) = (&mut self.found, &self.expected);
        let made = catch_unwind(AssertUnwindSafe(|| found.make(lent, implementation)));
        let what = if made.is_err() {
            format!("{side}: a panic")
        } else if found.answer != expected.answer {
            differing(side, &found.answer, &expected.answer)
        } else if found.book != expected.book {
            let bytes = first_byte(&found.book, &expected.book);
            format!("{side}: another book afterwards, {bytes}")
        } else if lent.log.is_some() && found.log != expected.log {
            let bytes = first_byte(&found.log, &expected.log);
            format!("{side}: another log afterwards, {bytes}")
        } else {
            return;
        };
        self.keep(lent, what);
    }

    fn keep(&mut self, lent: Lent<'_>, what: String) {
        self.differences += 1;
        if self.kept.len() == MOST_KEPT {
            return;
        }
        let place = self.counts.all();
        let file = format!("difference-{}-{}-{place}.gdb", self.name, self.seed);
        let file = self.folder.join(file);
        fs::write(&file, lent.book).expect("a file for the book");
        let difference = Difference {
            seed: self.seed,
            place,
            call: in_words(lent, &file),
            what,
            file,
        };
        println!("{difference}");
        self.kept.push(difference);
    }

    /// Says how many calls were compared, and fails if there was a difference.
    pub fn expect_none(&self) {
        let calls = self.counts.all();
        println!("{}: seed {}, {calls} calls compared", self.name, self.seed);
        assert_eq!(self.differences, 0, "differences, seed {}", self.seed);
    }

    /// Each kind of call on one user, with an id, an area and an amount, each
    /// on its own copy of the book; then the calls without a user, among them a
    /// conversion and the inverse of a form of the book. They are the operator's, some
    /// a drawn party's too; those that take a store are made with one too.
    pub fn every_call(&mut self, book: &[u8], (id, area, amount): (u32, u32, i64)) {
        let afternoon = self.generator.book(Kind::Small);
        let mut calls = vec![
            Call::Posting { id, area, amount },
            self.generator.list(book),
            Call::Show { id },
            Call::MorningLevel { id },
            Call::AfternoonLevel { id },
            Call::Levels,
            Call::MorningCall { id },
            Call::AfternoonCall { id },
            Call::Warning { id },
            Call::Flag { id },
            Call::TradeCount { id },
            Call::Trade {
                id,
                ordinal: self.generator.ordinal(),
            },
            Call::Reduction { id },
            self.generator.cancellation(book, None),
            Call::Read,
        ];
        for pick in [false, true] {
            let afternoon = afternoon.clone();
            calls.push(Call::ShowPicked {
                afternoon,
                pick,
                id,
            });
        }
        if books::runs::is_short_run(book, None) {
            calls.extend([Call::Run, Call::Day]);
        }
        calls.push(self.generator.form(book));
        let beside = [
            self.generator.restore(book),
            self.generator.conversion(book),
        ];
        for (mut bytes, call) in beside {
            self.call(&mut bytes, &call);
        }
        for call in calls {
            self.call(&mut book.to_vec(), &call);
            let party = self.generator.party(book, &call);
            if call.takes_party() && party != Party::Operator {
                let store = None;
                self.acted(&mut book.to_vec(), Given { party, store }, None, &call);
            }
            if call.takes_log() && self.generator.random().one_in(LOGGED_CALLS) {
                self.with_any_log(book, &call);
            }
            let store = self.generator.store(book);
            let short = call != Call::Run || books::runs::is_short_run(book, store.as_deref());
            if call.takes_store() && short {
                self.operator(&mut book.to_vec(), store.as_deref(), &call);
            }
        }
    }

    /// The call, and a withdrawal, without a store and with a drawn log.
    fn with_any_log(&mut self, book: &[u8], call: &Call) {
        let log = any_log(self.generator.random(), book).unwrap_or_default();
        for call in [call, &Call::Withdrawal] {
            self.logged(&mut book.to_vec(), None, Some(&mut log.clone()), call);
        }
    }
}
