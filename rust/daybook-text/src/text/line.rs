//! The words of one line, each with its column.

use crate::draft::{Mistake, Spot};
use crate::limits::limits;
use crate::words::{code, read_date, read_euros, read_whole};

/// A mistake at a place.
pub fn mistake(spot: Spot, reason: String) -> Mistake {
    Mistake { spot, reason }
}

/// A word as it is quoted in a message: not more than 40 characters of it.
pub fn short(word: &str) -> String {
    let shown: String = word.chars().take(40).flat_map(char::escape_debug).collect();
    let more = word.chars().nth(40).map_or("", |_| "..");
    format!("{shown}{more}")
}

/// The words of a line up to its comment.
pub struct Words<'a> {
    line: &'a str,
    number: usize,
    /// Where the next word starts, in bytes; the end where there is none.
    at: usize,
    end: usize,
    /// Amounts that cannot be read, after which the line went on.
    pub mistakes: Vec<Mistake>,
}

impl<'a> Words<'a> {
    pub fn new(line: &'a str, number: usize) -> Words<'a> {
        let end = line.find('#').unwrap_or(line.len());
        let mut words = Words {
            line,
            number,
            at: 0,
            end,
            mistakes: Vec::new(),
        };
        words.skip_blanks();
        words
    }

    fn rest(&self) -> &'a str {
        self.line.get(self.at..self.end).unwrap_or("")
    }

    fn skip_blanks(&mut self) {
        let rest = self.rest();
        self.at += rest.len() - rest.trim_start_matches(is_blank).len();
    }

    pub fn is_done(&self) -> bool {
        self.rest().is_empty()
    }

    pub fn peek(&self) -> Option<&'a str> {
        let rest = self.rest();
        let word = rest.split(is_blank).next().unwrap_or("");
        (!word.is_empty()).then_some(word)
    }

    /// Where the next word stands, or would.
    pub fn spot(&self) -> Spot {
        let before = self.line.get(..self.at).unwrap_or("");
        Spot {
            file: "",
            line: self.number,
            column: before.chars().count() + 1,
        }
    }

    /// The next word, which is what the name says.
    pub fn next(&mut self, name: &str) -> Result<(&'a str, Spot), Mistake> {
        let spot = self.spot();
        let Some(word) = self.peek() else {
            return Err(mistake(spot, format!("{name} is missing")));
        };
        self.at += word.len();
        self.skip_blanks();
        Ok((word, spot))
    }

    pub fn exactly(&mut self, wanted: &str) -> Result<(), Mistake> {
        let (word, spot) = self.next(&format!("`{wanted}`"))?;
        match word == wanted {
            true => Ok(()),
            false => Err(mistake(
                spot,
                format!("`{}` instead of `{wanted}`", short(word)),
            )),
        }
    }

    pub fn end(&mut self) -> Result<(), Mistake> {
        match self.peek() {
            None => Ok(()),
            Some(word) => Err(mistake(
                self.spot(),
                format!("`{}` after the line's end", short(word)),
            )),
        }
    }

    /// A whole number that its field can hold.
    pub fn fitting<T>(&mut self, name: &str) -> Result<(T, Spot), Mistake>
    where
        T: TryFrom<i128> + Default,
    {
        let (word, spot) = self.next(name)?;
        let what = "is a whole number";
        self.amount((word, spot), name, read_whole(word), what)
    }

    /// Euros with two decimals, in cents that their field can hold.
    pub fn money<T>(&mut self, name: &str) -> Result<(T, Spot), Mistake>
    where
        T: TryFrom<i128> + Default,
    {
        let (word, spot) = self.next(name)?;
        let what = "is euros with two decimals, as 1,234.50";
        self.amount((word, spot), name, read_euros(word), what)
    }

    /// The amount that a word is. One that looks like an amount and is none is
    /// noted, and the line goes on; any other word may belong to what follows.
    fn amount<T>(
        &mut self,
        (word, spot): (&str, Spot),
        name: &str,
        read: Option<i128>,
        what: &str,
    ) -> Result<(T, Spot), Mistake>
    where
        T: TryFrom<i128> + Default,
    {
        let reason = match read.map(T::try_from) {
            Some(Ok(number)) => return Ok((number, spot)),
            Some(Err(_)) => format!("{name} {} is not within {}", short(word), limits(name)),
            None => format!("{name} {what}, not `{}`", short(word)),
        };
        let signs = ['-', '+', '.', ',', '\u{2212}'];
        let digits = word.trim_start_matches(signs);
        if !digits.starts_with(|it: char| it.is_ascii_digit()) {
            return Err(mistake(spot, reason));
        }
        self.mistakes.push(mistake(spot, reason));
        Ok((T::default(), spot))
    }

    pub fn date(&mut self) -> Result<u32, Mistake> {
        let (word, spot) = self.next("the date")?;
        read_date(word).ok_or_else(|| {
            let reason = format!("the date is written as 2026-03-18, not `{}`", short(word));
            mistake(spot, reason)
        })
    }

    pub fn code(&mut self, name: &str, among: &[&str]) -> Result<(u8, Spot), Mistake> {
        let (word, spot) = self.next(name)?;
        match code(among, word) {
            Some(code) => Ok((code, spot)),
            None => {
                let reason = format!(
                    "{name} is one of {}, not `{}`",
                    among.join(", "),
                    short(word)
                );
                Err(mistake(spot, reason))
            }
        }
    }
}

fn is_blank(character: char) -> bool {
    character == ' ' || character == '\t' || character == '\r'
}
