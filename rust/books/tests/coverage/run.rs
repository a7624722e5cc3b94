//! What runs and printed days reach.

use books::Answer;
use reference::book::Book;
use reference::reduction::reduce;
use reference::run::{next_reduction, short_of_cover};
use reference::store::Limits;

use crate::{credit, Counts};

pub fn count_run(counts: &mut Counts, book: &Book, answer: &Answer) {
    counts.add(match answer.fields[0] {
        0 => "run: 0 reductions",
        1 => "run: 1 reduction",
        2 => "run: 2 reductions",
        3..=400 => "run: 3 to 400 reductions",
        _ => "run: more than 400 reductions",
    });
    let mut after = book.clone();
    let mut times = vec![0; book.users.len()];
    while let Some(place) = next_reduction(&Limits::TODAY, &after) {
        reduce(&Limits::TODAY, &mut after, place);
        times[place] += 1;
    }
    assert_eq!(times.iter().sum::<i128>(), answer.fields[0]);
    counts.add_if(
        times.iter().any(|times| *times > 1),
        "run: a user reduced more than once",
    );
    let made_short = |place: &usize| {
        times[*place] > 0 && !short_of_cover(&Limits::TODAY, book, &book.users[*place])
    };
    if book.version > 1 {
        credit::count_run_with_credit(counts, (book, &after), &times);
    }
    let any = (0..times.len()).any(|place| made_short(&place));
    counts.add_if(any, "run: a cut makes the buyer short and reduced");
    let short = after
        .users
        .iter()
        .any(|user| short_of_cover(&Limits::TODAY, &after, user));
    counts.add_if(short, "run: a user short of cover at the end");
}

pub fn count_day(counts: &mut Counts, text: &[u8]) {
    let text = std::str::from_utf8(text).expect("text");
    for line in text.lines().skip(1) {
        let state = line.split(' ').nth(1).expect("state");
        counts.add(&format!("day: {state}"));
    }
}
