//! The printed day, put together of other calls.

use books::{Answer, Call, Implementation};
use daybook::{Book, Image};
use reference::party::Given;

/// The day that an implementation's calls print, on a copy of the book. A run
/// that left a book which is refused has its number.
pub fn printed(book: &[u8], implementation: Implementation) -> Answer {
    let mut book = book.to_vec();
    let run = implementation(&mut book, Given::OPERATOR, None, &Call::Run);
    if run.number != 0 {
        let text = format!("refused {}\n", run.number);
        return Answer::of_part(run.number, text.as_bytes());
    }
    let after = implementation(&mut book, Given::OPERATOR, None, &Call::Read);
    if after.number != 0 {
        return Answer::of_part(after.number, &book);
    }
    let image: Image = after.part.try_into().expect("an image");
    let mut text = format!(
        "run {} {} {}\n",
        run.fields[0], run.fields[1], run.fields[2]
    );
    for user in Book::from_image(&image).users {
        let (state, level) = state(&book, user.id, implementation);
        let [pvb, tvb, avb] = user.position;
        text.push_str(&format!("{} {state} {level} {pvb} {tvb} {avb}\n", user.id));
    }
    Answer::of_part(0, text.as_bytes())
}

/// The state and the level of a printed day, from what the afternoon call
/// would answer.
fn state(book: &[u8], id: u32, implementation: Implementation) -> (&'static str, i128) {
    let mut book = book.to_vec();
    let mut made = |call| implementation(&mut book, Given::OPERATOR, None, &call);
    let level = made(Call::AfternoonLevel { id }).fields[0];
    let state = match made(Call::AfternoonCall { id }).number {
        0 => "call",
        9 => "clear",
        12 => "short",
        _ => "quiet",
    };
    (state, level)
}
