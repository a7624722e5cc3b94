//! The command line.

use std::ops::RangeInclusive;
use std::str::FromStr;

use books::versions::VERSIONS;

/// What is said by `--help` and after a wrong word.
const USAGE: &str = "usage: daybook-bench [--quick] [OPTION VALUE]...

  --quick                some seconds in all: fewer samples, smaller hard books
  --books NAMES          of small, usual, largest, wide, one-seller, many-sellers,
                         chain, two-sellers, crawler, to-and-fro, widest, rising;
                         commas between them; all if not said
  --versions NUMBERS     versions of the books, of 1, 2 and 3; commas between them;
                         all if not said; 3 is measured beside 2
  --samples N            samples of each call and side
  --batch N              calls in a sample
  --hard-samples N       runs of each hard book and side
  --hard-mwh NUMBERS     MWh of each sale of the hard books, 2 to 100000; commas
                         between them
  --engine-most N        a hard book of more reductions is not run by the engine
  --seed N               where the search for usual books starts";

/// The names of the books.
const NAMES: [&str; 12] = [
    "small",
    "usual",
    "largest",
    "wide",
    "one-seller",
    "many-sellers",
    "chain",
    "two-sellers",
    "crawler",
    "to-and-fro",
    "widest",
    "rising",
];

/// How often something is measured.
const OFTEN: RangeInclusive<usize> = 1..=1_000_000;

/// What is measured, and how often.
pub struct Options {
    books: Vec<String>,
    pub versions: Vec<u16>,
    pub samples: usize,
    pub batch: usize,
    pub hard_samples: usize,
    pub hard_mwh: Vec<i128>,
    pub engine_most: u64,
    pub seed: u64,
}

impl Options {
    pub fn parse(mut words: impl Iterator<Item = String>) -> Result<Options, String> {
        let mut options = Options {
            books: NAMES.map(String::from).to_vec(),
            versions: VERSIONS.to_vec(),
            samples: 2_001,
            batch: 16,
            hard_samples: 3,
            hard_mwh: vec![100, 1_000, 100_000],
            engine_most: 30_000,
            seed: 1,
        };
        while let Some(word) = words.next() {
            if word == "--quick" {
                options.samples = 201;
                options.hard_samples = 1;
                options.hard_mwh = vec![10, 1_000];
                options.engine_most = 10_000;
            } else {
                let value = words.next().ok_or(USAGE)?;
                options.set(&word, &value)?;
            }
        }
        Ok(options)
    }

    /// Sets one option.
    fn set(&mut self, option: &str, value: &str) -> Result<(), String> {
        match option {
            "--books" => self.books = list(value, name)?,
            "--versions" => self.versions = list(value, |word| number(word, 1..=3))?,
            "--samples" => self.samples = number(value, OFTEN)?,
            "--batch" => self.batch = number(value, OFTEN)?,
            "--hard-samples" => self.hard_samples = number(value, OFTEN)?,
            "--hard-mwh" => self.hard_mwh = list(value, |word| number(word, 2..=100_000))?,
            "--engine-most" => self.engine_most = number(value, 0..=u64::MAX)?,
            "--seed" => self.seed = number(value, 0..=u64::MAX)?,
            _ => return Err(USAGE.to_string()),
        }
        Ok(())
    }

    /// Whether the book of this name is measured.
    pub fn has_book(&self, name: &str) -> bool {
        self.books.iter().any(|book| book == name)
    }
}

/// The values of words with commas between them.
fn list<T>(words: &str, value: impl Fn(&str) -> Result<T, String>) -> Result<Vec<T>, String> {
    words.split(',').map(value).collect()
}

/// The name of a book.
fn name(word: &str) -> Result<String, String> {
    let known = NAMES.contains(&word).then(|| word.to_string());
    known.ok_or_else(|| format!("{word} is no book\n\n{USAGE}"))
}

/// A number of a range.
fn number<T: FromStr + PartialOrd>(word: &str, range: RangeInclusive<T>) -> Result<T, String> {
    let number = word.parse().ok().filter(|number| range.contains(number));
    number.ok_or_else(|| format!("{word} is out of range\n\n{USAGE}"))
}
