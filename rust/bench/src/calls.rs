//! The times of single calls.

use std::hint::black_box;

use books::stores::longest;
use daybook::{archive, Operator, IMAGE_LENGTH, RECORD_LENGTH};
use tuned::requests;

use crate::measure::{times, Times};
use crate::options::Options;
use crate::subjects::Subject;
use crate::table::{print_head, print_times};

/// The tries of a cancellation on a usual book.
pub const FEW_TRIES: u32 = 100;

/// Prints the times of every call on a book.
pub fn print_table(subject: &Subject, options: &Options) {
    let book = tuned::read(&subject.book).expect("an accepted book");
    println!(
        "\n{} book, version {}: {} users, {} trades, {} bytes; microseconds, {} samples of {} calls",
        subject.name,
        subject.version,
        book.users.len(),
        book.trades.len(),
        subject.book.len(),
        options.samples,
        options.batch
    );
    print_head("call");
    print_row("read to an image", read_image(subject, options));
    print_row("read to fields", read(subject, options));
    print_row("write from an image", write_image(subject, options));
    print_row("write from fields", write(subject, options));
    print_row("show", show(subject, options));
    let one = posting(subject, options);
    let lines = list(subject, options);
    print_row("posting", one);
    print_row("list of 512 lines", lines);
    print_row("morning level", morning_level(subject, options));
    print_row("afternoon level", level(subject, options));
    print_row("the same, 32 sets", level_of_store(subject, options));
    print_row("afternoon call", call(subject, options));
    print_row("warning", warning(subject, options));
    print_row("reduction", reduction(subject, options));
    if let Some(id) = subject.cancelled {
        let times = cancellation(subject, options, id, FEW_TRIES);
        print_row(&format!("cancellation, tries: {FEW_TRIES}"), times);
    }
    let name = format!("run, reductions: {}", subject.reductions);
    print_row(&name, run(subject, options));
    print_multiple("a list of 512 lines takes", lines, one, "postings");
}

/// Prints how many times another call's time a call takes, by either side.
fn print_multiple(start: &str, times: Times, of: Times, end: &str) {
    let [engine, tuned] = [times.engine / of.engine, times.tuned / of.tuned];
    println!(
        "{start} the time of {:.2} {end} by the engine, {:.2} by the tuned one (median); {:.2}, {:.2} (least)",
        engine.median, tuned.median, engine.least, tuned.least
    );
}

pub fn print_row(name: &str, times: Times) {
    print_times(name, Some(times.engine), times.tuned);
}

/// The times of a call by both sides, which have to leave the same book.
pub fn both(
    subject: &Subject,
    options: &Options,
    mut engine: impl FnMut(&mut [u8]),
    mut tuned: impl FnMut(&mut [u8]),
) -> Times {
    let mut copies = [subject.book.clone(), subject.book.clone()];
    engine(&mut copies[0]);
    tuned(&mut copies[1]);
    assert_eq!(
        copies[0], copies[1],
        "{}: the book afterwards",
        subject.name
    );
    let counts = (options.samples, options.batch);
    times(&subject.book, counts, engine, tuned)
}

fn read_image(subject: &Subject, options: &Options) -> Times {
    let (mut one, mut other) = ([0; IMAGE_LENGTH], [0; tuned::IMAGE_LENGTH]);
    let times = both(
        subject,
        options,
        |book| expect(archive::read(black_box(book), archive::OPERATOR, &mut one)),
        |book| accept(tuned::read_image(black_box(book), &mut other)),
    );
    let same = books::tuned::widened(&other) == one;
    assert!(same, "{}: the image", subject.name);
    times
}

fn read(subject: &Subject, options: &Options) -> Times {
    both(
        subject,
        options,
        |book| accept(Operator::new().read(black_box(book))),
        |book| accept(tuned::read(black_box(book))),
    )
}

pub fn write_image(subject: &Subject, options: &Options) -> Times {
    let (mut image, mut other) = ([0; IMAGE_LENGTH], [0; tuned::IMAGE_LENGTH]);
    expect(archive::read(&subject.book, archive::OPERATOR, &mut image));
    accept(tuned::read_image(&subject.book, &mut other));
    both(
        subject,
        options,
        |book| expect(archive::write(black_box(&image), book)),
        |book| accept(tuned::write_image(black_box(&other), book)),
    )
}

fn write(subject: &Subject, options: &Options) -> Times {
    let engine_fields = Operator::new()
        .read(&subject.book)
        .expect("an accepted book");
    let tuned_fields = tuned::read(&subject.book).expect("an accepted book");
    both(
        subject,
        options,
        |book| accept(daybook::write(black_box(&engine_fields), book)),
        |book| accept(tuned::write(black_box(&tuned_fields), book)),
    )
}

fn show(subject: &Subject, options: &Options) -> Times {
    let id = subject.called;
    let mut record = [0; RECORD_LENGTH];
    both(
        subject,
        options,
        |book| {
            expect(archive::show(
                black_box(book),
                archive::OPERATOR,
                None,
                id,
                &mut record,
            ))
        },
        |book| accept(tuned::show(black_box(book), id)),
    )
}

/// An entry of one MWh more in PVB, which every usual book has room for.
fn posting(subject: &Subject, options: &Options) -> Times {
    let id = subject.called;
    both(
        subject,
        options,
        |book| {
            expect(archive::posting(
                book,
                archive::OPERATOR,
                None,
                None,
                id,
                0,
                1,
            ))
        },
        |book| accept(tuned::posting(book, id, 0, 1)),
    )
}

/// 512 corrections, over the users and the areas in turns, up and down by one
/// MWh, so that nearly all of them are accepted.
fn list(subject: &Subject, options: &Options) -> Times {
    let book = tuned::read(&subject.book).expect("an accepted book");
    let places = 0..daybook::MOST_LINES;
    // 37 and 64 have no common factor: the ids come in no order.
    let ids: Vec<u32> = places
        .clone()
        .map(|place| book.users[37 * place % book.users.len()].id)
        .collect();
    let areas: Vec<u32> = (0..3).cycle().take(ids.len()).collect();
    let amounts: Vec<i64> = [1, -1].into_iter().cycle().take(ids.len()).collect();
    let columns = tuned::Columns {
        ids: &ids,
        areas: &areas,
        amounts: &amounts,
    };
    let [mut one, mut other] = [0, 1].map(|_| vec![99; ids.len()]);
    let times = both(
        subject,
        options,
        |book| {
            expect(archive::list(
                book,
                archive::OPERATOR,
                None,
                None,
                black_box(&ids),
                &areas,
                &amounts,
                &mut one,
            ))
        },
        |book| accept(tuned::list(book, None, black_box(columns), &mut other)),
    );
    assert_eq!(one, other, "{}: the numbers of the lines", subject.name);
    times
}

fn morning_level(subject: &Subject, options: &Options) -> Times {
    let id = subject.called;
    let mut answer = [0; 1];
    both(
        subject,
        options,
        |book| {
            expect(archive::morning_level(
                black_box(book),
                archive::OPERATOR,
                None,
                id,
                &mut answer,
            ))
        },
        |book| accept(tuned::morning_level(black_box(book), id)),
    )
}

fn warning(subject: &Subject, options: &Options) -> Times {
    let id = subject.called;
    let mut answer = [0; 1];
    both(
        subject,
        options,
        |book| {
            expect(archive::warning(
                black_box(book),
                archive::OPERATOR,
                None,
                id,
                &mut answer,
            ))
        },
        |book| accept(tuned::warning(black_box(book), id)),
    )
}

pub fn level(subject: &Subject, options: &Options) -> Times {
    let id = subject.called;
    let mut answer = [0; 1];
    both(
        subject,
        options,
        |book| {
            expect(archive::afternoon_level(
                black_box(book),
                archive::OPERATOR,
                None,
                id,
                &mut answer,
            ))
        },
        |book| accept(tuned::afternoon_level(black_box(book), id)),
    )
}

/// The afternoon level with a store of 32 sets.
fn level_of_store(subject: &Subject, options: &Options) -> Times {
    let id = subject.called;
    let store = longest();
    let store = black_box(Some(&store[..]));
    let mut answer = [0; 1];
    both(
        subject,
        options,
        |book| {
            expect(archive::afternoon_level(
                black_box(book),
                archive::OPERATOR,
                store,
                id,
                &mut answer,
            ))
        },
        |book| accept(requests::afternoon_level(black_box(book), store, id)),
    )
}

fn call(subject: &Subject, options: &Options) -> Times {
    let id = subject.called;
    let mut answer = [0; 2];
    both(
        subject,
        options,
        |book| {
            expect(archive::afternoon_call(
                book,
                archive::OPERATOR,
                None,
                None,
                id,
                &mut answer,
            ))
        },
        |book| accept(tuned::afternoon_call(book, id)),
    )
}

pub fn reduction(subject: &Subject, options: &Options) -> Times {
    let id = subject.reduced;
    let mut answer = [0; 5];
    both(
        subject,
        options,
        |book| {
            expect(archive::reduction(
                book,
                archive::OPERATOR,
                None,
                None,
                id,
                &mut answer,
            ))
        },
        |book| accept(tuned::reduction(book, id)),
    )
}

/// On the wide book all tries are made: no set that is tried has an excess of 0.
pub fn cancellation(subject: &Subject, options: &Options, id: u32, tries: u32) -> Times {
    let (mut marks, mut answer) = ([0; 256], [0; 3]);
    let mut found = None;
    let times = both(
        subject,
        options,
        |book| {
            expect(archive::cancellation(
                black_box(book),
                archive::OPERATOR,
                None,
                id,
                black_box(tries),
                &mut marks,
                &mut answer,
            ))
        },
        |book| found = tuned::cancellation(black_box(book), None, id, black_box(tries)).ok(),
    );
    let found = found.expect("an accepted cancellation");
    assert_eq!(marks.map(|mark| mark == 1), found.marks, "the marks");
    let excess = found.excess.0.unsigned_abs();
    let made = u64::from(found.tries);
    assert_eq!(answer, [excess, made, u64::from(found.complete)]);
    times
}

fn run(subject: &Subject, options: &Options) -> Times {
    let mut answer = [0; 3];
    both(
        subject,
        options,
        |book| {
            expect(archive::run(
                book,
                archive::OPERATOR,
                None,
                None,
                &mut answer,
            ))
        },
        |book| accept(tuned::run(book)),
    )
}

/// The number of an accepted call.
pub fn expect(number: u32) {
    assert_eq!(number, 0, "a refused call");
}

/// The answer of an accepted call, which the compiler has to have computed.
pub fn accept<T, E>(answer: Result<T, E>) {
    assert!(black_box(&answer).is_ok(), "a refused call");
}
