//! The words of a command line: what stands by itself, and options.

use std::ffi::{OsStr, OsString};
use std::path::{Path, PathBuf};

use crate::outcome::Failure;

/// An option that a command knows.
#[derive(Clone, Copy, Debug, PartialEq, Eq)]
pub enum Known {
    /// A word by itself.
    Flag(&'static str),
    /// A word with a value after it.
    Value(&'static str),
}

impl Known {
    fn name(self) -> &'static str {
        match self {
            Known::Flag(name) | Known::Value(name) => name,
        }
    }
}

/// The words after the command's name.
#[derive(Clone, Debug, Default)]
pub struct Arguments {
    words: Vec<OsString>,
    flags: Vec<&'static str>,
    values: Vec<(&'static str, OsString)>,
}

impl Arguments {
    /// Takes the words apart. An option may stand anywhere before `--`; a word
    /// like -5 is an amount, and - by itself a file.
    pub fn parse(words: &[OsString], known: &[Known]) -> Result<Arguments, Failure> {
        let mut arguments = Arguments::default();
        let mut words = words.iter();
        while let Some(word) = words.next() {
            if word == "--" {
                arguments.words.extend(words.cloned());
                break;
            }
            if !is_option(word) {
                arguments.words.push(word.clone());
                continue;
            }
            // A value may also follow its option after =.
            let (name, joined) = match word.to_str().and_then(|word| word.split_once('=')) {
                Some((name, value)) => (OsStr::new(name), Some(OsString::from(value))),
                None => (word.as_os_str(), None),
            };
            let option = known.iter().find(|it| name == it.name());
            let option = option.filter(|it| joined.is_none() || matches!(it, Known::Value(_)));
            let Some(option) = option else {
                return Err(Failure::misuse(format!(
                    "{}: no such option",
                    word.display()
                )));
            };
            if arguments.has(option.name()) {
                return Err(Failure::misuse(format!("{} is given twice", option.name())));
            }
            match option {
                Known::Flag(name) => arguments.flags.push(name),
                Known::Value(name) => match joined.or_else(|| words.next().cloned()) {
                    Some(value) => arguments.values.push((name, value)),
                    None => return Err(Failure::misuse(format!("{name} needs a value"))),
                },
            }
        }
        Ok(arguments)
    }

    /// Whether an option is given.
    pub fn has(&self, name: &str) -> bool {
        self.flags.contains(&name) || self.values.iter().any(|(it, _)| *it == name)
    }

    /// The value of an option as a file.
    pub fn path(&self, name: &str) -> Option<PathBuf> {
        let value = self.values.iter().find(|(it, _)| *it == name);
        value.map(|(_, value)| PathBuf::from(value))
    }

    /// The value of an option as a number.
    pub fn number(&self, name: &str) -> Result<Option<u64>, Failure> {
        let value = self.values.iter().find(|(it, _)| *it == name);
        match value.map(|(_, value)| (value, read::<u64>(value))) {
            None => Ok(None),
            Some((_, Some(number))) => Ok(Some(number)),
            Some((value, None)) => {
                let reason = "needs a whole number from 0 on";
                Err(Failure::misuse(format!(
                    "{name} {}: {reason}",
                    value.display()
                )))
            }
        }
    }

    /// How many words stand by themselves.
    pub fn count(&self) -> usize {
        self.words.len()
    }

    /// The words by themselves from a place on.
    pub fn rest(&self, from: usize) -> &[OsString] {
        self.words.get(from..).unwrap_or(&[])
    }

    /// The word at a place, as a file.
    pub fn file(&self, place: usize) -> &Path {
        Path::new(
            self.words
                .get(place)
                .map_or(OsStr::new(""), OsString::as_os_str),
        )
    }

    /// The word at a place, as a user's id.
    pub fn id(&self, place: usize) -> Result<u32, Failure> {
        id(self.file(place).as_os_str())
    }

    /// The word at a place, as text.
    pub fn word(&self, place: usize) -> String {
        self.file(place).display().to_string()
    }

    /// The number of words that stand by themselves is one of these.
    pub fn expect(&self, least: usize, most: usize, usage: &str) -> Result<(), Failure> {
        match (least..=most).contains(&self.words.len()) {
            true => Ok(()),
            false => Err(Failure::misuse(format!("usage: daybook {usage}"))),
        }
    }
}

/// Whether a word is an option rather than a name or an amount.
fn is_option(word: &OsStr) -> bool {
    let bytes = word.as_encoded_bytes();
    bytes.len() > 1 && bytes[0] == b'-' && !bytes[1].is_ascii_digit()
}

/// A number in plain decimal; commas may stand before every three digits.
fn read<T: TryFrom<i128>>(word: &OsStr) -> Option<T> {
    T::try_from(daybook_text::words::read_whole(word.to_str()?)?).ok()
}

/// A user's id.
pub fn id(word: &OsStr) -> Result<u32, Failure> {
    read(word).ok_or_else(|| {
        let reason = "an id is a whole number of 32 bits";
        Failure::misuse(format!("{}: {reason}", word.display()))
    })
}

/// An amount of MWh with a sign.
pub fn amount(word: &OsStr) -> Result<i64, Failure> {
    read(word).ok_or_else(|| {
        let reason = "an amount is a whole number of MWh in 64 bits";
        Failure::misuse(format!("{}: {reason}", word.display()))
    })
}
