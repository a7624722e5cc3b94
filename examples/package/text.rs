//! Reads a book as text, tells the field at fault of one that is refused, runs its day and says what was cut. With
//! the package installed, as src/main.rs of a package with `daybook = { path = "PREFIX/share/daybook/rust" }` and
//! `daybook-text = { path = "PREFIX/share/daybook/rust-text" }`: text SAMPLE.

use daybook::Operator;
use daybook_text::{store::TODAY, text, trace};

fn main() {
    let file = std::env::args().nth(1).expect("a file");
    let draft = text::read(&std::fs::read(file).expect("a file")).expect("a text");
    let book = match draft.into_bytes() {
        Ok(book) => book,
        Err(refused) => {
            for (spot, fault) in refused.faults {
                println!("{spot}: {fault}");
            }
            return;
        }
    };
    let extent = trace::Extent { first: 10, last: 0, chapters: (0, 0), most: 10 };
    let run = trace::trace(Operator::new(), &TODAY, &book, extent).expect("an accepted book");
    for step in run.first {
        println!("reduction {}: user {}, {} MWh", step.number, step.user.id, step.answer.mwh);
    }
}
