//! The outside vectors of `vectors/`, `vectors/version-1/` and
//! `vectors/version-2/`: printed days, those of `vectors/asks/` too, and calls with
//! their answers. `vectors/README.md` has the formats; module `asks` has the calls of
//! `vectors/asks/`.

use std::fs;
use std::ops::Range;
use std::path::PathBuf;

use reference::book::{length, user_length, MOST_USERS, USER_LENGTH};
use reference::party::Given;
use reference::transfer::Image;
use reference::version::{self, FIRST_HEADER_LENGTH, LONGEST_HEADER_LENGTH};

use crate::answers::{Answer, Implementation};
use crate::calls::Call;
use crate::sha256::{hex, sha256};

/// Lines of `calls.txt` that are calls.
pub const CALLS: usize = 2_162;

/// Lines of `version-1/calls.txt` and of `version-2/calls.txt`.
pub const REQUESTS: usize = 3_566 + 2_773;

/// Books with a printed day, of all four folders.
pub const DAYS: usize = 154 + 32;

/// A book and what `day` must print for it.
pub struct Day {
    pub name: String,
    pub book: Vec<u8>,
    pub printed: Vec<u8>,
}

/// The folder of the vectors.
pub fn folder() -> PathBuf {
    PathBuf::from(concat!(env!("CARGO_MANIFEST_DIR"), "/../vectors"))
}

fn file(name: &str) -> Vec<u8> {
    let path = folder().join(name);
    fs::read(&path).unwrap_or_else(|error| panic!("{}: {error}", path.display()))
}

/// Every printed day, by name.
pub fn days() -> Vec<Day> {
    let mut days = Vec::new();
    let folders = ["", "version-1", "version-2", "asks"].map(|name| folder().join(name));
    let entries = folders
        .iter()
        .flat_map(|folder| fs::read_dir(folder).expect("a folder"));
    for entry in entries {
        let path = entry.expect("entry of the folder").path();
        if path.extension().is_some_and(|extension| extension == "gdb") {
            days.push(Day {
                name: path.display().to_string(),
                book: fs::read(&path).expect("book"),
                printed: fs::read(path.with_extension("out")).expect("printed day"),
            });
        }
    }
    days.sort_by(|one, other| one.name.cmp(&other.name));
    days
}

/// Replays every call of document 01, line by line, against an implementation,
/// and says how many there were.
pub fn replay(implementation: Implementation) -> usize {
    let text = String::from_utf8(file("calls.txt")).expect("text");
    let mut replayed = 0;
    let mut left = Vec::new();
    for line in text.lines().filter(|line| !line.starts_with('#')) {
        let (words, expected) = line.split_once(" -> ").expect("a call and its answer");
        let (mut book, call) = parsed(&words.split(' ').collect::<Vec<&str>>(), &left);
        let given = implementation(&mut book, Given::OPERATOR, None, &call);
        assert_eq!(printed(&book, &call, &given), expected, "{words}");
        replayed += 1;
        left = after(book, &call);
    }
    println!("calls replayed: {replayed}");
    replayed
}

/// The book and the call of a line's words; `=` is the book that the line
/// before left.
fn parsed(words: &[&str], left: &[u8]) -> (Vec<u8>, Call) {
    let id = || words[2].parse().expect("id");
    let call = match words[0] {
        "post" => Call::Posting {
            id: id(),
            area: words[3].parse().expect("area"),
            amount: words[4].parse().expect("amount"),
        },
        "show" => Call::Show { id: id() },
        "show2" => Call::ShowPicked {
            afternoon: file(words[2]),
            pick: words[3] == "1",
            id: words[4].parse().expect("id"),
        },
        "mlevel" => Call::MorningLevel { id: id() },
        "alevel" => Call::AfternoonLevel { id: id() },
        "mcall" => Call::MorningCall { id: id() },
        "acall" => Call::AfternoonCall { id: id() },
        "warn" => Call::Warning { id: id() },
        "reduce" => Call::Reduction { id: id() },
        "run" => Call::Run,
        "read" => Call::Read,
        "write" => Call::Write {
            image: Box::new(image(words[1])),
            length: words[2].parse().expect("length"),
        },
        call => panic!("no such call: {call}"),
    };
    let book = match words[1] {
        "=" => left.to_vec(),
        name => file(name),
    };
    (book, call)
}

/// Bytes that an image of document 01 has not: S and U, and the managers of each
/// user, up to the place of the trades.
fn new_places() -> impl DoubleEndedIterator<Item = Range<usize>> {
    let tariffs = FIRST_HEADER_LENGTH..LONGEST_HEADER_LENGTH;
    let managers = (0..MOST_USERS).map(|place| {
        let record = length(version::LAST, place, 0);
        record + USER_LENGTH..record + user_length(version::LAST)
    });
    std::iter::once(tariffs).chain(managers.collect::<Vec<Range<usize>>>())
}

/// An image of document 01, whose header has 32 bytes and whose users have 56, as
/// one of 40 and 68: what is new is 0.
fn image(name: &str) -> Image {
    let mut image = file(name);
    for places in new_places() {
        image.splice(places.start..places.start, vec![0; places.len()]);
    }
    image.try_into().expect("image")
}

/// The image as one of document 01: without what is new, which is 0.
fn narrowed(image: &[u8]) -> Vec<u8> {
    let mut image = image.to_vec();
    for places in new_places().rev() {
        let new: Vec<u8> = image.drain(places).collect();
        let zero = new.iter().all(|byte| *byte == 0);
        assert!(zero, "selling tariffs and managers of version 1");
    }
    image
}

/// The answer and the book afterwards in the words of the file.
fn printed(book: &[u8], call: &Call, given: &Answer) -> String {
    let number = given.number;
    let part = if given.part.is_empty() {
        "-".to_string()
    } else {
        hex(&given.part)
    };
    match call {
        Call::Show { .. } => format!("{number} {part} {}", sha256(book)),
        Call::ShowPicked { afternoon, .. } => {
            format!("{number} {part} {} {}", sha256(book), sha256(afternoon))
        }
        Call::Read => {
            let image = narrowed(&given.part);
            format!("{number} {} {}", sha256(&image), sha256(book))
        }
        Call::Write { .. } => format!("{number} {}", sha256(&given.part)),
        _ => {
            let fields = given.fields.iter().map(|field| format!(" {field}"));
            format!("{number}{} {}", fields.collect::<String>(), sha256(book))
        }
    }
}

/// The book that a line leaves for the next one. No line of the file goes on
/// from a written part.
fn after(book: Vec<u8>, call: &Call) -> Vec<u8> {
    match call {
        Call::ShowPicked {
            afternoon, pick, ..
        } if *pick => afternoon.clone(),
        _ => book,
    }
}

/// Replays every call of `version-1/calls.txt` and of `version-2/calls.txt`, with
/// a store or none, and says how many there were.
pub fn replay_requests(implementation: Implementation) -> usize {
    let folders = ["version-1", "version-2"];
    let replayed = folders.map(|folder| replay_folder(folder, implementation));
    replayed.iter().sum()
}

/// The calls of one folder.
fn replay_folder(folder: &str, implementation: Implementation) -> usize {
    let text = String::from_utf8(file(&format!("{folder}/calls.txt"))).expect("text");
    let mut replayed = 0;
    for line in text.lines() {
        let (words, expected) = line.split_once(" -> ").expect("a call and its answer");
        let request = Request::parsed(folder, words);
        let mut book = request.book.clone();
        let given = Given::by_operator(request.store.as_deref());
        let given = implementation(&mut book, given, None, &request.call);
        assert_eq!(keyed(&book, &request.call, &given), expected, "{words}");
        replayed += 1;
    }
    println!("requests of {folder} replayed: {replayed}");
    replayed
}

/// A line of a folder's `calls.txt`, left of the arrow.
struct Request {
    book: Vec<u8>,
    store: Option<Vec<u8>>,
    call: Call,
}

impl Request {
    fn parsed(folder: &str, words: &str) -> Request {
        let (name, words) = words.split_once(' ').expect("a call and its arguments");
        let value = |key: &str| {
            let mut values = words.split(' ').filter_map(|word| word.split_once('='));
            let found = values.find(|(name, _)| *name == key);
            found.map(|(_, value)| value)
        };
        let number = |key: &str| value(key).expect(key).parse::<i64>().expect(key);
        let id = || u32::try_from(number("id")).expect("id");
        let column = |key: &str| {
            let words = value(key).expect(key).split(',');
            let words = words.filter(|word| !word.is_empty());
            let numbers = words.map(|word| word.parse().expect(key));
            numbers.collect::<Vec<i64>>()
        };
        let unsigned = |key: &str| {
            let numbers = column(key).into_iter();
            numbers
                .map(|number| u32::try_from(number).expect(key))
                .collect()
        };
        let part = |key: &str| file(&format!("{folder}/{}", value(key).expect(key)));
        let call = match name {
            "posting" => Call::Posting {
                id: id(),
                area: u32::try_from(number("area")).expect("area"),
                amount: number("amount"),
            },
            "posting_list" => Call::List {
                ids: unsigned("ids"),
                areas: unsigned("areas"),
                amounts: column("amounts"),
                places: usize::try_from(number("places")).expect("places"),
            },
            "show" => Call::Show { id: id() },
            "show_two" => Call::ShowPicked {
                afternoon: part("afternoon"),
                pick: number("pick") == 1,
                id: id(),
            },
            "morning_level" => Call::MorningLevel { id: id() },
            "afternoon_level" => Call::AfternoonLevel { id: id() },
            "morning_call" => Call::MorningCall { id: id() },
            "afternoon_call" => Call::AfternoonCall { id: id() },
            "midday_warning" => Call::Warning { id: id() },
            "reduction" => Call::Reduction { id: id() },
            "cancel" => Call::Cancellation {
                id: id(),
                tries: u32::try_from(number("tries")).expect("tries"),
            },
            "run" => Call::Run,
            call => panic!("no such call: {call}"),
        };
        Request {
            book: part(if name == "show_two" {
                "morning"
            } else {
                "book"
            }),
            store: value("store").and_then(|store| store.strip_prefix("0x").map(bytes_of)),
            call,
        }
    }
}

/// The bytes that are written in hex.
pub(crate) fn bytes_of(hex: &str) -> Vec<u8> {
    let digits = hex.as_bytes().chunks(2);
    let byte = |digits: &[u8]| {
        let digits = str::from_utf8(digits).expect("digits");
        u8::from_str_radix(digits, 16).expect("hex")
    };
    digits.map(byte).collect()
}

/// The answer and the book afterwards in the words of such a line. Of two books
/// the picked one is told.
fn keyed(book: &[u8], call: &Call, given: &Answer) -> String {
    let names: &[&str] = match call {
        Call::MorningLevel { .. } | Call::AfternoonLevel { .. } => &["level"],
        Call::MorningCall { .. } | Call::AfternoonCall { .. } => &["level", "added"],
        Call::Warning { .. } => &["warned"],
        Call::Reduction { .. } => &["mwh", "worth", "target", "short", "over"],
        Call::Cancellation { .. } => &["excess", "tries", "complete"],
        Call::Run => &["reductions", "mwh", "worth"],
        _ => &[],
    };
    let mut text = format!("number={}", given.number);
    if matches!(call, Call::Cancellation { .. }) {
        let marked = (0..given.part.len()).filter(|place| given.part[*place] != 0);
        let marked = marked.map(|place| place.to_string());
        let marked = marked.collect::<Vec<String>>().join(",");
        text.push_str(&format!(" marks={marked}"));
    }
    for (name, field) in names.iter().zip(&given.fields) {
        text.push_str(&format!(" {name}={field}"));
    }
    let told = match call {
        Call::ShowPicked {
            afternoon, pick, ..
        } if *pick => afternoon,
        _ => book,
    };
    if matches!(call, Call::Show { .. } | Call::ShowPicked { .. }) {
        text.push_str(&format!(" part={}", hex(&given.part)));
    }
    text.push_str(&format!(" book={}", sha256(told)));
    if matches!(call, Call::List { .. }) {
        let places = given.fields.iter().map(i128::to_string);
        let places = places.collect::<Vec<String>>().join(",");
        text.push_str(&format!(" places={places}"));
    }
    text
}
