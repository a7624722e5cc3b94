//! Prints what the program `try_calls` of the engine has to print for a file of
//! calls on standard input: the place, the kind, the number and the fields of
//! each, and after a call that may change the book the user's record; of a whole
//! cancellation the places of the marked trades; what a party is told of a user.
//!
//! A call is its kind (1 byte), id (4), area or number of tries (4), amount or party
//! (8), the length of its book (2), and the book.

use std::io::Read;

use books::sha256::hex;
use books::{answer, Call};
use reference::party::{Given, Party};

/// The kind of what a party is told.
const TOLD: u8 = 8;

fn call_of(kind: u8, id: u32, area: u32, amount: i64) -> Call {
    match kind {
        1 => Call::MorningLevel { id },
        2 => Call::AfternoonLevel { id },
        3 => Call::Warning { id },
        4 => Call::MorningCall { id },
        5 => Call::AfternoonCall { id },
        6 => Call::Run,
        7 => Call::Cancellation { id, tries: area },
        _ => Call::Posting { id, area, amount },
    }
}

/// The numbers of flag and count with what they tell, each trade with its number, past
/// the last too, and the record with its number.
fn told(book: &[u8], party: Party, id: u32) -> String {
    let given = Given { party, store: None };
    let flag = reference::flag(book, given, id);
    let trades = reference::trade_count(book, given, id);
    let (flagged, count) = (u8::from(flag.flagged), trades.count);
    let mut text = format!(" {} {flagged} {} {count}", flag.number, trades.number);
    let count = u32::try_from(count).expect("at most 256 trades");
    let trades = (0..=count).map(|ordinal| reference::trade(book, given, id, ordinal));
    for (number, part) in trades.chain([reference::show(book, given, id)]) {
        text.push_str(&format!(" {} {number}", hex(part)));
    }
    text
}

fn main() {
    let mut file = Vec::new();
    std::io::stdin()
        .read_to_end(&mut file)
        .expect("standard input");
    let mut rest = &file[..];
    let mut place = 0;
    while rest.len() >= 19 {
        let kind = rest[0];
        let id = u32::from_le_bytes(rest[1..5].try_into().unwrap());
        let area = u32::from_le_bytes(rest[5..9].try_into().unwrap());
        let amount = i64::from_le_bytes(rest[9..17].try_into().unwrap());
        let length = usize::from(u16::from_le_bytes(rest[17..19].try_into().unwrap()));
        if rest.len() - 19 < length {
            return;
        }
        let mut book = rest[19..19 + length].to_vec();
        rest = &rest[19 + length..];
        if kind == TOLD {
            let party = Party::of(amount.cast_unsigned());
            println!("{place} {kind}{}", told(&book, party, id));
            place += 1;
            continue;
        }
        let call = call_of(kind, id, area, amount);
        let given = answer(&mut book, Given::OPERATOR, None, &call);
        print!("{place} {kind} {}", given.number);
        for field in &given.fields {
            print!(" {field}");
        }
        if kind == 7 {
            let marks = given.part.iter().enumerate();
            for (place, _) in marks.filter(|(_, mark)| **mark == 1) {
                print!(" {place}");
            }
        } else if !(1..=3).contains(&kind) {
            print!(" ");
            for byte in answer(&mut book, Given::OPERATOR, None, &Call::Show { id }).part {
                print!("{byte:02x}");
            }
        }
        println!();
        place += 1;
    }
}
