//! The times of calls on 256 sales of one seller.

use daybook::archive;

use crate::calls::{accept, both, cancellation, level, print_row, reduction, write_image};
use crate::measure::Times;
use crate::options::Options;
use crate::subjects::Subject;
use crate::table::print_head;

/// Prints what a reduction takes beyond reading and writing its book.
pub fn print_beyond(subject: &Subject, options: &Options) {
    println!(
        "\n{} book, version {}: 256 sales of one seller; microseconds, {} samples of {} calls",
        subject.name, subject.version, options.samples, options.batch
    );
    print_head("call");
    let reduction = reduction(subject, options);
    let refused = refused_reduction(subject, options);
    let level = level(subject, options);
    let write = write_image(subject, options);
    print_row("reduction", reduction);
    print_row("reduction refused by 13", refused);
    print_row("afternoon level", level);
    print_row("write from an image", write);
    print_row("reduction - refused", reduction - refused);
    print_row("reduction - level - write", reduction - level - write);
}

/// Prints the times of whole cancellations among 256 sales, with few tries and
/// with all.
pub fn print_cancellations(subject: &Subject, options: &Options) {
    println!(
        "\n{} book, version {}: whole cancellations among 256 sales; microseconds, {} samples of {} calls",
        subject.name, subject.version, options.samples, options.batch
    );
    print_head("tries");
    for tries in [1, 100, 4_096, daybook::MOST_TRIES] {
        let times = cancellation(subject, options, subject.reduced, tries);
        print_row(&format!("cancellation, {tries}"), times);
    }
}

/// A reduction that the last question but one refuses: the same book, but for
/// an assigned guarantee that equals the level.
fn refused_reduction(subject: &Subject, options: &Options) -> Times {
    let id = subject.reduced;
    let level = tuned::afternoon_level(&subject.book, id).expect("a level");
    let mut fields = tuned::read(&subject.book).expect("an accepted book");
    for user in fields.users.iter_mut().filter(|user| user.id == id) {
        user.assigned = level.0.unsigned_abs();
    }
    let mut book = subject.book.clone();
    accept(tuned::write(&fields, &mut book));
    let refused = Subject { book, ..*subject };
    let mut answer = [0; 5];
    both(
        &refused,
        options,
        |book| {
            assert_eq!(
                archive::reduction(book, archive::OPERATOR, None, None, id, &mut answer),
                13
            )
        },
        |book| assert_eq!(tuned::reduction(book, id), Err(13)),
    )
}
