//! Writes the books that the program `try_days` of the engine runs, and prints
//! what it has to print. The arguments are the folder of the test data and the
//! folder for the files `vectors`, `books`, `versions`, `groups` and `index`: the test
//! data of document 01, by the numbers of their names; books written out and drawn;
//! books of version 2 that are refused, and test data of document 02; and books of
//! version 3, written out and of the test data of document 02.
//!
//! Of the test data (NAME.gdb, NAME.out), what has to be printed is what
//! NAME.out says, and the reference has to say the same; of the other books,
//! what the reference says.
//!
//! In a file a book stands behind its place and its length, two bytes each.

mod version_1;
mod version_2;
mod version_3;

use books::damage::version_of;
use books::written::printed_example;
use reference::book::Book;
use std::path::Path;

use version_1::{refused, runs, states};
use version_2::{credits, refused_of_version_2};
use version_3::{groups, refused_of_version_3};

/// A book, what it shows, and the first words of its day.
struct Shown {
    shows: &'static str,
    first: &'static str,
    bytes: Vec<u8>,
}

fn shown(shows: &'static str, first: &'static str, book: Book) -> Shown {
    Shown {
        shows,
        first,
        bytes: book.to_bytes(),
    }
}

/// The example of document 01 with its bytes altered.
fn altered(shows: &'static str, first: &'static str, alter: impl FnOnce(&mut Vec<u8>)) -> Shown {
    let mut bytes = printed_example().to_bytes();
    alter(&mut bytes);
    Shown {
        shows,
        first,
        bytes,
    }
}

/// The example of document 01 with its fields altered.
fn changed(shows: &'static str, first: &'static str, change: impl FnOnce(&mut Book)) -> Shown {
    let mut book = printed_example();
    change(&mut book);
    shown(shows, first, book)
}

/// The test data in the order of their names: name, book, what to print.
fn vectors(folder: &Path) -> std::io::Result<Vec<(String, Vec<u8>, String)>> {
    let mut names = Vec::new();
    for entry in std::fs::read_dir(folder)? {
        let path = entry?.path();
        if path.extension().is_some_and(|extension| extension == "gdb") {
            names.push(path);
        }
    }
    names.sort();
    let read = |path: &std::path::PathBuf| {
        let name = path.file_stem().expect("a name").to_string_lossy().into();
        let text = std::fs::read_to_string(path.with_extension("out"))?;
        Ok((name, std::fs::read(path)?, text))
    };
    names.iter().map(read).collect()
}

/// The books in a file, and what the program has to print of them.
#[derive(Default)]
struct File {
    bytes: Vec<u8>,
    index: String,
    text: String,
}

impl File {
    fn push(&mut self, place: usize, shows: &str, book: &[u8], day: &str) {
        for number in [place, book.len()] {
            let number = u16::try_from(number).expect("a number of two bytes");
            self.bytes.extend_from_slice(&number.to_le_bytes());
        }
        self.bytes.extend_from_slice(book);
        self.index.push_str(&format!("{place} {shows}\n"));
        self.text.push_str(&format!("day {place}\n{day}"));
        assert!(self.bytes.len() <= 65_536, "more than the program reads");
    }

    fn push_shown(&mut self, place: usize, book: &Shown) {
        let day = reference::day(&book.bytes);
        assert!(day.starts_with(book.first), "{}: {day}", book.shows);
        self.push(place, book.shows, &book.bytes, &day);
    }

    fn push_vector(&mut self, place: usize, (name, book, day): &(String, Vec<u8>, String)) {
        assert_eq!(&reference::day(book), day, "{name}");
        self.push(place, name, book, day);
    }
}

/// The number that a name of the test data begins with.
fn number_of(name: &str) -> usize {
    let (number, _) = name.split_once('-').expect("a number and a word");
    number.parse().expect("a number")
}

fn main() -> std::io::Result<()> {
    let mut arguments = std::env::args().skip(1);
    let data = arguments.next().expect("the folder of the test data");
    let data = Path::new(&data);
    let folder = arguments.next().expect("a folder");
    let [mut given, mut own, mut versions, mut third] = [(); 4].map(|()| File::default());
    let mut next = 0;
    for vector in &vectors(data)? {
        let place = number_of(&vector.0);
        given.push_vector(place, vector);
        next = place + 1;
    }
    for book in [refused(), states(), runs(), credits()].iter().flatten() {
        own.push_shown(next, book);
        next += 1;
    }
    for book in &refused_of_version_2() {
        versions.push_shown(next, book);
        next += 1;
    }
    for folder in ["version-1", "version-2"] {
        for vector in &vectors(&data.join(folder))? {
            versions.push_vector(next, vector);
            next += 1;
        }
    }
    for book in [refused_of_version_3(), groups()].iter().flatten() {
        third.push_shown(next, book);
        next += 1;
    }
    let asks = vectors(&data.join("asks"))?.into_iter();
    let named = |book: &[u8]| book.len() >= 32 && version_of(book) == 3;
    for vector in asks.filter(|(_, book, _)| named(book)) {
        third.push_vector(next, &vector);
        next += 1;
    }
    let files = [
        ("vectors", given),
        ("books", own),
        ("versions", versions),
        ("groups", third),
    ];
    let mut index = String::new();
    for (name, file) in files {
        print!("{}", file.text);
        index.push_str(&file.index);
        std::fs::write(format!("{folder}/{name}"), file.bytes)?;
    }
    std::fs::write(format!("{folder}/index"), index)
}
