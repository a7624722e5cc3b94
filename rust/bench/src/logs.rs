//! The times of calls with a log, and of what is asked of the log.

use std::hint::black_box;
use std::time::Instant;

use books::logs::{forged, started};
use books::Random;
use daybook::{archive, Log, MOST_ENTRIES};

use crate::calls::expect;
use crate::measure::Time;
use crate::options::Options;
use crate::subjects::Subject;

/// The id of no user: a posting for it ends with question 8, right after the log's.
const NOBODY: u32 = 0;

/// What a call is given: the book and the log before it, each copied anew for
/// every call. Both sides of a ratio find the log's bytes in the same caches so.
#[derive(Clone)]
struct Given {
    book: Vec<u8>,
    log: Vec<u8>,
}

/// A call on a copy of the book and of the log.
type Call = Box<dyn FnMut(&mut [u8], &mut [u8])>;

/// A line of the table, as far as it is measured.
struct Row {
    name: &'static str,
    given: Given,
    call: Call,
    samples: Vec<f64>,
}

impl Row {
    fn new(
        name: &'static str,
        given: &Given,
        call: impl FnMut(&mut [u8], &mut [u8]) + 'static,
    ) -> Row {
        Row {
            name,
            given: given.clone(),
            call: Box::new(call),
            samples: Vec::new(),
        }
    }

    /// One more sample: a single call, in microseconds.
    fn sample(&mut self, copy: &mut Given) {
        copy.book.copy_from_slice(&self.given.book);
        copy.log.copy_from_slice(&self.given.log);
        let start = Instant::now();
        (self.call)(&mut copy.book, &mut copy.log);
        self.samples.push(1e6 * start.elapsed().as_secs_f64());
    }

    fn time(&self) -> Time {
        Time::new(self.samples.clone())
    }
}

/// Prints the times of calls with a log beside those without, and what question 19
/// takes against a scan of the log's bytes.
pub fn print_table(subject: &Subject, options: &Options) {
    println!(
        "\n{} book, version {}: calls with a log of {} bytes; microseconds, {} single calls of each line in turns",
        subject.name,
        subject.version,
        daybook::LOG_LENGTH,
        options.samples
    );
    let empty = Given {
        book: subject.book.clone(),
        log: started(&subject.book),
    };
    let full = Given {
        log: full_log(&subject.book),
        ..empty.clone()
    };
    let reduced = reduced(subject, &empty);
    let mut rows = [questions(&empty, &full), calls(subject, &empty, &reduced)]
        .into_iter()
        .flatten()
        .collect::<Vec<Row>>();
    let mut copy = empty.clone();
    for _ in 0..options.samples {
        for row in &mut rows {
            row.sample(&mut copy);
        }
    }
    println!("{:<31}{:>11}{:>11}", "call", "median", "least");
    let times: Vec<Time> = rows.iter().map(Row::time).collect();
    for (row, time) in rows.iter().zip(&times) {
        print_line(row.name, *time);
    }
    let (scans, asked) = times.split_at(SCANS.len());
    for (name, time) in [("no entry", asked[1]), ("256 entries", asked[2])] {
        let asked = time - asked[0];
        print_line(&format!("question 19, {name}"), asked);
        for ((scan, _), time) in SCANS.iter().zip(scans) {
            let multiple = asked / *time;
            println!(
                "  {:.2} times the {scan} (median), {:.2} times (least)",
                multiple.median, multiple.least
            );
        }
    }
}

fn print_line(name: &str, time: Time) {
    println!("{name:<31}{:>11.3}{:>11.3}", time.median, time.least);
}

/// The scans, and a posting that question 8 refuses: without a log, with one that has
/// no entry, with a full one.
fn questions(empty: &Given, full: &Given) -> Vec<Row> {
    let refused = |book: &mut [u8], log: Option<&mut [u8]>| {
        assert_eq!(
            archive::posting(book, archive::OPERATOR, None, log, NOBODY, 0, 1),
            8
        );
    };
    let scans = SCANS.map(|(name, scan)| {
        Row::new(name, empty, move |_, log| {
            black_box(scan(black_box(log)));
        })
    });
    let mut rows = Vec::from(scans);
    rows.extend([
        Row::new("posting refused by 8", empty, move |book, _| {
            refused(book, None);
        }),
        Row::new("the same, log of no entry", empty, move |book, log| {
            refused(book, Some(log));
        }),
        Row::new("the same, log of 256", full, move |book, log| {
            refused(book, Some(log));
        }),
    ]);
    rows
}

/// Plain walks over all bytes of a log, which the compiler makes with vectors.
const SCANS: [(&str, fn(&[u8]) -> u64); 3] = [
    ("scan: sum of the bytes", sum_of_bytes),
    ("scan: is each byte 0", is_zero),
    ("scan: sum of 32-bit words", sum_of_words),
];

/// The sum in 8 bits.
#[inline(never)]
fn sum_of_bytes(bytes: &[u8]) -> u64 {
    let add = |sum: u8, byte: &u8| sum.wrapping_add(*byte);
    u64::from(bytes.iter().fold(0, add))
}

/// Without an early end.
#[inline(never)]
fn is_zero(bytes: &[u8]) -> u64 {
    let so_far = |zero: bool, byte: &u8| zero & (*byte == 0);
    u64::from(bytes.iter().fold(true, so_far))
}

/// The sum in 64 bits, as that of a trade's cuts has to be.
#[inline(never)]
fn sum_of_words(bytes: &[u8]) -> u64 {
    let words = bytes.as_chunks::<4>().0.iter();
    words.map(|word| u64::from(u32::from_le_bytes(*word))).sum()
}

/// Accepted calls with a log that has no entry, beside those without, and the
/// withdrawal of one reduction.
fn calls(subject: &Subject, empty: &Given, reduced: &Given) -> Vec<Row> {
    let (called, id) = (subject.called, subject.reduced);
    let posting = move |book: &mut [u8], log: Option<&mut [u8]>| {
        expect(archive::posting(
            book,
            archive::OPERATOR,
            None,
            log,
            called,
            0,
            1,
        ));
    };
    let reduction = move |book: &mut [u8], log: Option<&mut [u8]>| {
        expect(archive::reduction(
            book,
            archive::OPERATOR,
            None,
            log,
            id,
            &mut [0; 5],
        ));
    };
    let run = |book: &mut [u8], log: Option<&mut [u8]>| {
        expect(archive::run(
            book,
            archive::OPERATOR,
            None,
            log,
            &mut [0; 3],
        ));
    };
    vec![
        Row::new("posting", empty, move |book, _| posting(book, None)),
        Row::new("posting with a log", empty, move |book, log| {
            posting(book, Some(log));
        }),
        Row::new("reduction", empty, move |book, _| reduction(book, None)),
        Row::new("reduction with a log", empty, move |book, log| {
            reduction(book, Some(log));
        }),
        Row::new("run", empty, move |book, _| run(book, None)),
        Row::new("run with a log", empty, move |book, log| {
            run(book, Some(log));
        }),
        Row::new("start of a log", empty, |book, log| {
            expect(archive::start_log(log, book));
        }),
        Row::new("withdrawal", reduced, |book, log| {
            expect(archive::withdrawal(
                book,
                archive::OPERATOR,
                None,
                log,
                &mut [0; 2],
            ));
        }),
    ]
}

/// Book and log after one reduction.
fn reduced(subject: &Subject, empty: &Given) -> Given {
    let mut given = empty.clone();
    let Given { book, log } = &mut given;
    let number = archive::reduction(
        book,
        archive::OPERATOR,
        None,
        Some(log),
        subject.reduced,
        &mut [0; 5],
    );
    expect(number);
    given
}

/// A full log of the right form.
fn full_log(book: &[u8]) -> Vec<u8> {
    let mut random = Random::new(1);
    loop {
        let log = Log::from_bytes(forged(&mut random, book));
        if log.entries() == MOST_ENTRIES {
            return log.into_bytes();
        }
    }
}
