//! One call made by a side, and how its answer, book or log differs from the
//! reference's, in words.

use std::fmt::{self, Display, Formatter};
use std::fs;
use std::path::{Path, PathBuf};

use books::{Answer, Call, Implementation};
use reference::party::Given;

/// A call that a side answered otherwise than the reference.
#[derive(Clone, Debug)]
pub struct Difference {
    pub(crate) seed: u64,
    /// The number of calls compared before.
    pub(crate) place: u64,
    /// The call and its arguments in words.
    pub(crate) call: String,
    /// What differs.
    pub(crate) what: String,
    /// Where the book before the call was written to.
    pub(crate) file: PathBuf,
}

/// One call, and what it is lent.
#[derive(Clone, Copy)]
pub(crate) struct Lent<'a> {
    pub book: &'a [u8],
    pub given: Given<'a>,
    pub log: Option<&'a [u8]>,
    pub call: &'a Call,
}

/// What a call leaves; the log is empty where none is lent. One serves call after
/// call.
#[derive(Default)]
pub(crate) struct Left {
    pub answer: Answer,
    pub book: Vec<u8>,
    pub log: Vec<u8>,
}

impl Left {
    /// Makes the call on copies of what it is lent.
    pub fn make(&mut self, lent: Lent<'_>, implementation: Implementation) {
        refill(&mut self.book, lent.book);
        refill(&mut self.log, lent.log.unwrap_or_default());
        let log = lent.log.map(|_| &mut self.log);
        self.answer = implementation(&mut self.book, lent.given, log, lent.call);
    }
}

/// Makes the part a copy of these bytes.
fn refill(part: &mut Vec<u8>, bytes: &[u8]) {
    part.clear();
    part.extend_from_slice(bytes);
}

impl Display for Difference {
    fn fmt(&self, formatter: &mut Formatter<'_>) -> fmt::Result {
        write!(
            formatter,
            "seed {}, call {}: {}: {}; the book before it is in {}",
            self.seed,
            self.place,
            self.call,
            self.what,
            self.file.display()
        )
    }
}

/// What differs between two answers; long parts are not printed whole.
pub(crate) fn differing(side: &str, found: &Answer, expected: &Answer) -> String {
    if (found.number, &found.fields) != (expected.number, &expected.fields) {
        format!(
            "{side}: number {}, fields {:?}; reference: number {}, fields {:?}",
            found.number, found.fields, expected.number, expected.fields
        )
    } else {
        let bytes = first_byte(&found.part, &expected.part);
        format!("{side}: another part handed back, {bytes}")
    }
}

/// The first byte in which two parts differ.
pub(crate) fn first_byte(found: &[u8], expected: &[u8]) -> String {
    let place = found
        .iter()
        .zip(expected)
        .position(|(one, other)| one != other);
    match place {
        Some(place) => format!(
            "byte {place} is {}, by the reference {}",
            found[place], expected[place]
        ),
        None => format!("{} bytes, by the reference {}", found.len(), expected.len()),
    }
}

/// The call and its arguments. A store, a log, an image or a second book is written
/// beside the file of the book.
pub(crate) fn in_words(lent: Lent<'_>, file: &Path) -> String {
    let beside = |extension: &str, bytes: &[u8]| {
        let beside = file.with_extension(extension);
        fs::write(&beside, bytes).expect("a file for what the call is lent");
        beside.display().to_string()
    };
    let mut words = match lent.call {
        Call::ShowPicked {
            afternoon,
            pick,
            id,
        } => {
            let afternoon = beside("afternoon", afternoon);
            format!("show picked of {afternoon}, afternoon picked {pick}, id {id}")
        }
        Call::Write { image, length } => {
            let image = beside("image", &image[..]);
            format!("write of {image}, length {length}")
        }
        call => format!("{call:?}"),
    };
    if lent.call.takes_party() {
        words.push_str(&format!(", by {:?}", lent.given.party));
    }
    let parts = [("store", "gps", lent.given.store), ("log", "gdl", lent.log)];
    for (name, extension, part) in parts {
        if let Some(bytes) = part {
            words.push_str(&format!(", with the {name} {}", beside(extension, bytes)));
        }
    }
    words
}
