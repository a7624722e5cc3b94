//! The outside vectors of `vectors/asks/`: calls on books of every version, with
//! stores and logs. `vectors/README.md` has the format.

use std::fs;

use reference::log::LOG_LENGTH;
use reference::party::{Given, Party};
use reference::start_log;

use crate::answers::{Answer, Implementation};
use crate::calls::Call;
use crate::sha256::{hex, sha256};
use crate::vectors::{bytes_of, folder};

/// Lines of `asks/calls.txt`.
pub const CALLS: usize = 5_642;

/// Those of them with a log, starts of one among them.
pub const CALLS_WITH_LOG: usize = 604;

/// Replays every call against an implementation, and says how many there were,
/// with a log or without, and how many with one. The book and the log that a line
/// leaves are lent to the next one.
pub fn replay(implementation: Implementation) -> (usize, usize) {
    let text = fs::read_to_string(folder().join("asks/calls.txt")).expect("calls.txt");
    let (mut left, mut replayed, mut logged) = (Lent::default(), 0, 0);
    for line in text.lines() {
        let (words, expected) = line.split_once(" -> ").expect("a call and its answer");
        let line = Line::parsed(words, &left);
        logged += usize::from(line.lent.log.is_some());
        let (found, after) = line.answered(implementation);
        assert_eq!(found, expected, "{words}");
        left = after;
        replayed += 1;
    }
    println!("calls of asks replayed: {replayed}, {logged} of them with a log");
    (replayed, logged)
}

/// The book and the log that a call is lent, and leaves.
#[derive(Clone, Default)]
struct Lent {
    book: Vec<u8>,
    log: Option<Vec<u8>>,
}

/// A line, left of the arrow.
struct Line {
    lent: Lent,
    party: Party,
    store: Option<Vec<u8>>,
    call: Call,
}

impl Line {
    fn parsed(words: &str, left: &Lent) -> Line {
        let (name, words) = words.split_once(' ').expect("a call and its arguments");
        let words = Words(words);
        let book = match words.value("book") {
            Some("=") => left.book.clone(),
            Some(name) => file(name),
            // A write is lent no book.
            None if name == "write" => Vec::new(),
            None if name == "from_form" => words.part("form"),
            None => words.part("morning"),
        };
        let log = words.value("log").and_then(|log| logged(log, &book, left));
        let store = words.value("store").and_then(|hex| hex.strip_prefix("0x"));
        let party = words.value("party").map(|id| number("party", id));
        Line {
            party: party.map_or(Party::Operator, Party::Shipper),
            store: store.map(bytes_of),
            call: call(name, &words),
            lent: Lent { book, log },
        }
    }

    /// The answer in the words of the file, and what the call leaves.
    fn answered(self, implementation: Implementation) -> (String, Lent) {
        let Lent { mut book, mut log } = self.lent;
        let call = &self.call;
        let given = Given {
            party: self.party,
            store: self.store.as_deref(),
        };
        let found = implementation(&mut book, given, log.as_mut(), call);
        let mut text = keyed(call, &found);
        let told = match call {
            Call::ShowPicked {
                afternoon, pick, ..
            } if *pick => afternoon,
            _ => &book,
        };
        if !matches!(
            call,
            Call::Start | Call::Write { .. } | Call::Restore { .. }
        ) {
            text.push_str(&format!(" book={}", sha256(told)));
        }
        if has_output(call) {
            text.push_str(&format!(" out={}", sha256(&found.part)));
        }
        if let Some(log) = &log {
            text.push_str(&format!(" log={}", sha256(log)));
        }
        if matches!(call, Call::List { .. }) {
            text.push_str(&format!(" places={}", joined(&found.fields)));
        }
        (text, Lent { book, log })
    }
}

fn file(name: &str) -> Vec<u8> {
    let path = folder().join("asks").join(name);
    fs::read(&path).unwrap_or_else(|error| panic!("{}: {error}", path.display()))
}

/// The words of a line as keys and values.
struct Words<'a>(&'a str);

impl Words<'_> {
    fn value(&self, key: &str) -> Option<&str> {
        let mut values = self.0.split(' ').filter_map(|word| word.split_once('='));
        let found = values.find(|(name, _)| *name == key);
        found.map(|(_, value)| value)
    }

    /// The file that this key names.
    fn part(&self, key: &str) -> Vec<u8> {
        file(self.value(key).expect(key))
    }

    fn number<T: TryFrom<i128>>(&self, key: &str) -> T {
        number(key, self.value(key).expect(key))
    }

    fn column<T: TryFrom<i128>>(&self, key: &str) -> Vec<T> {
        let words = self.value(key).expect(key).split(',');
        let words = words.filter(|word| !word.is_empty());
        words.map(|word| number(key, word)).collect()
    }
}

fn number<T: TryFrom<i128>>(key: &str, word: &str) -> T {
    let number = word.parse::<i128>().expect(key);
    T::try_from(number).unwrap_or_else(|_| panic!("{key} {number}"))
}

/// The log of a line: none, the one that the line before left, one of zeros of this
/// length to be started, or one started from the book with bytes put into it.
fn logged(words: &str, book: &[u8], left: &Lent) -> Option<Vec<u8>> {
    match words {
        "-" => return None,
        "=" => return left.log.clone(),
        _ => {}
    }
    let Some(patches) = words.strip_prefix('@') else {
        return Some(vec![0; words.parse().expect("a length")]);
    };
    let mut log = vec![0; LOG_LENGTH];
    assert_eq!(start_log(&mut log, book), 0, "the start of a log");
    for patch in patches.split(';').skip(1) {
        let (at, value) = patch.split_once(':').expect("a place and its bytes");
        if at == "len" {
            log.resize(value.parse().expect("a length"), 0);
        } else {
            let (at, bytes) = (at.parse::<usize>().expect("a place"), bytes_of(value));
            log[at..][..bytes.len()].copy_from_slice(&bytes);
        }
    }
    Some(log)
}

fn call(name: &str, words: &Words<'_>) -> Call {
    let id = || words.number("id");
    match name {
        "posting" => Call::Posting {
            id: id(),
            area: words.number("area"),
            amount: words.number("amount"),
        },
        "posting_list" => Call::List {
            ids: words.column("ids"),
            areas: words.column("areas"),
            amounts: words.column("amounts"),
            places: words.number("places"),
        },
        "show" => Call::Show { id: id() },
        "show_two" => Call::ShowPicked {
            afternoon: words.part("afternoon"),
            pick: words.number::<u8>("pick") == 1,
            id: id(),
        },
        "morning_level" => Call::MorningLevel { id: id() },
        "afternoon_level" => Call::AfternoonLevel { id: id() },
        "morning_call" => Call::MorningCall { id: id() },
        "afternoon_call" => Call::AfternoonCall { id: id() },
        "midday_warning" => Call::Warning { id: id() },
        "flag" => Call::Flag { id: id() },
        "trade_count" => Call::TradeCount { id: id() },
        "trade_at" => Call::Trade {
            id: id(),
            ordinal: words.number("ordinal"),
        },
        "reduction" => Call::Reduction { id: id() },
        "cancel" => Call::Cancellation {
            id: id(),
            tries: words.number("tries"),
        },
        "run" => Call::Run,
        "withdraw" => Call::Withdrawal,
        "start_log" => Call::Start,
        "read" => Call::Read,
        "write" => Call::Write {
            image: Box::new(words.part("image").try_into().expect("an image")),
            length: words.number("out"),
        },
        "convert" => Call::Convert {
            version: words.number("target"),
            length: words.number("out"),
        },
        "to_form" => Call::Form {
            length: words.number("out"),
        },
        "from_form" => Call::Restore {
            length: words.number("out"),
        },
        call => panic!("no such call: {call}"),
    }
}

/// Whether the call writes into an output, which is told after the book.
fn has_output(call: &Call) -> bool {
    matches!(
        call,
        Call::Write { .. } | Call::Convert { .. } | Call::Form { .. } | Call::Restore { .. }
    )
}

/// The number and the fields of the answer in the words of the file.
fn keyed(call: &Call, found: &Answer) -> String {
    let names: &[&str] = match call {
        Call::MorningLevel { .. } | Call::AfternoonLevel { .. } => &["level"],
        Call::MorningCall { .. } | Call::AfternoonCall { .. } => &["level", "added"],
        Call::Warning { .. } => &["warned"],
        Call::Flag { .. } => &["flagged"],
        Call::TradeCount { .. } => &["count"],
        Call::Reduction { .. } => &["mwh", "worth", "target", "short", "over"],
        Call::Cancellation { .. } => &["excess", "tries", "complete"],
        Call::Run => &["reductions", "mwh", "worth"],
        Call::Withdrawal => &["mwh", "worth"],
        _ => &[],
    };
    let mut text = format!("number={}", found.number);
    match call {
        Call::Cancellation { .. } => {
            let marked = (0..found.part.len()).filter(|place| found.part[*place] != 0);
            let marked: Vec<usize> = marked.collect();
            text.push_str(&format!(" marks={}", joined(&marked)));
        }
        Call::Show { .. } | Call::ShowPicked { .. } | Call::Trade { .. } => {
            text.push_str(&format!(" part={}", hex(&found.part)));
        }
        Call::Read => text.push_str(&format!(" fields={}", sha256(&found.part))),
        _ => {}
    }
    for (name, field) in names.iter().zip(&found.fields) {
        text.push_str(&format!(" {name}={field}"));
    }
    text
}

fn joined<T: ToString>(values: &[T]) -> String {
    let words: Vec<String> = values.iter().map(T::to_string).collect();
    words.join(",")
}
