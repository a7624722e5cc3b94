//! Whether a run ends within so many reductions, against the run itself.

#![forbid(unsafe_code)]

use books::runs::ends_within;
use books::{Generator, Kind};
use reference::book::Book;
use reference::questions::questions_1_to_7;
use reference::reduction::reduce;
use reference::run::next_reduction;
use reference::store::Limits;

/// Books of each kind.
const BOOKS: usize = 40;

#[test]
fn as_long_as_the_run() {
    let mut generator = Generator::new(31);
    let (mut some, mut groups) = (0, 0);
    for kind in Kind::ACCEPTED {
        for _ in 0..BOOKS {
            let bytes = generator.book(kind);
            let book = questions_1_to_7(&bytes).expect("an accepted book");
            let made = reductions(&book);
            for most in [0, made / 2, made.saturating_sub(1), made, made + 1] {
                let ends = ends_within(&Limits::TODAY, &book, most);
                assert_eq!(ends, made <= most, "{made} reductions, {most}: {book:?}");
            }
            some += usize::from(made > 0);
            groups +=
                usize::from(made > 1 && book.users.iter().any(|user| user.managers != [0; 3]));
        }
    }
    assert!(
        some > 100 && groups > 20,
        "{some} runs, {groups} with groups"
    );
}

/// The reductions of the run, one after the other.
fn reductions(book: &Book) -> u64 {
    let (mut book, mut made) = (book.clone(), 0);
    while let Some(place) = next_reduction(&Limits::TODAY, &book) {
        reduce(&Limits::TODAY, &mut book, place);
        made += 1;
    }
    made
}
