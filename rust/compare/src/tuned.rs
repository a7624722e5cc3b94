//! The answers of the tuned implementation.

use books::tuned::{knows, narrowed, widened};
use books::{Answer, Call};
use reference::party::{Given, Party};
use reference::transfer::Image;
use tuned::IMAGE_LENGTH;

/// What an image holds before the call: a refusal has to put 0 there.
const BEFORE: u8 = 0xA5;

/// Whether the tuned implementation has the call on this book by this party; it knows
/// no logs, no conversions and no party but the operator, and versions 1 and 2 of the
/// book.
pub fn has(book: &[u8], party: Party, call: &Call) -> bool {
    let others = matches!(
        call,
        Call::Withdrawal
            | Call::Start
            | Call::Convert { .. }
            | Call::Levels
            | Call::Flag { .. }
            | Call::TradeCount { .. }
            | Call::Trade { .. }
    );
    let acts = !call.takes_party() || party == Party::Operator;
    acts && !others && knows(book, call)
}

/// The answer of the tuned implementation to a call by the operator with this store, or
/// none, and without a log; the book is changed as the call says. Without a store its
/// functions of document 01 have to give the same to the calls of that document.
pub fn answer(book: &mut [u8], given: Given<'_>, log: Option<&mut Vec<u8>>, call: &Call) -> Answer {
    let Given { party, store } = given;
    assert!(
        log.is_none() && has(book, party, call),
        "a call without a log"
    );
    let before = book.to_vec();
    if let Some(given) = books::tuned::answer(book, store, call) {
        if store.is_none() {
            let mut other = before;
            if let Some(plain) = books::tuned::plain_answer(&mut other, call) {
                assert_eq!(plain, given, "without a store");
                assert_eq!(other, book, "without a store");
            }
        }
        return given;
    }
    match call {
        Call::Write { image, length } => write(image, *length),
        Call::Day => crate::day::printed(book, answer),
        _ => read(book),
    }
}

/// The image read. The fields read have to be the same, written out again.
fn read(book: &[u8]) -> Answer {
    let mut image = [BEFORE; IMAGE_LENGTH];
    let number = number(&tuned::read_image(book, &mut image));
    let written = tuned::read(book).and_then(|fields| {
        let mut written = vec![BEFORE; book.len()];
        tuned::write(&fields, &mut written)?;
        Ok(written)
    });
    let expected = if number == 0 {
        Ok(book.to_vec())
    } else {
        Err(number)
    };
    assert_eq!(written, expected, "fields read and written again");
    Answer::of_part(number, &widened(&image))
}

/// The part that an image was written into. The fields of the image have to
/// give the same.
fn write(image: &Image, length: usize) -> Answer {
    let of_image = Answer::of_output(length, |part| {
        number(&tuned::write_image(&narrowed(image), part))
    });
    let of_fields = Answer::of_output(length, |part| number(&tuned::write(&book_of(image), part)));
    assert_eq!(of_fields, of_image, "fields written as the image is");
    of_image
}

/// The fields of an image with any counts; records past its places are 0.
fn book_of(image: &Image) -> tuned::Book {
    let engine = crate::typed::book_of(image);
    tuned::Book {
        version: engine.version,
        date: engine.date,
        prices: tuned::Prices {
            p: engine.prices.pvb_tariff,
            q: engine.prices.tank_and_store_tariff,
            l: engine.prices.liquefaction_toll,
            x: engine.prices.exit_toll,
            i: engine.prices.injection_toll,
            s: engine.prices.pvb_selling_tariff,
            u: engine.prices.tank_and_store_selling_tariff,
        },
        users: engine.users.iter().map(user).collect(),
        trades: engine.trades.iter().map(trade).collect(),
    }
}

fn user(user: &daybook::User) -> tuned::User {
    tuned::User {
        id: user.id,
        role: user.role,
        physical: user.physical,
        position: user.position,
        charges: user.charges,
        assigned: user.assigned,
        blocked: user.blocked,
    }
}

fn trade(trade: &daybook::Trade) -> tuned::Trade {
    tuned::Trade {
        seller: trade.seller,
        buyer: trade.buyer,
        area: trade.area,
        kind: trade.kind,
        day: trade.day,
        notified: trade.notified,
        standing: trade.standing,
    }
}

fn number<T>(answer: &Result<T, u32>) -> u32 {
    answer.as_ref().err().copied().unwrap_or(0)
}
