//! The line that a message is about, with a caret under the place: for those who read
//! messages on a terminal.

use std::fs;
use std::path::Path;

/// The longest file that is looked into, and how much of a long line is shown.
const LONGEST: u64 = 1 << 20;
const WIDEST: usize = 120;

/// Messages, each line that names a place in a file followed by the line at that
/// place and a caret; lines that name none stay as they are.
pub fn excerpts(messages: &str) -> String {
    let mut text = String::new();
    for message in messages.lines() {
        text.push_str(message);
        text.push('\n');
        if let Some(excerpt) = places(message).find_map(|it| it.excerpt()) {
            text.push_str(&excerpt);
        }
    }
    text
}

/// A place in a file: `FILE:LINE:COLUMN: ` at the start of a message.
struct Spot<'a> {
    file: &'a str,
    line: usize,
    column: usize,
}

/// The places that a message may start with; a file's name may have a colon in it.
fn places(message: &str) -> impl Iterator<Item = Spot<'_>> {
    message.match_indices(": ").filter_map(|(end, _)| {
        let (rest, column) = message[..end].rsplit_once(':')?;
        let (file, line) = rest.rsplit_once(':')?;
        Some(Spot {
            file,
            line: line.parse().ok()?,
            column: column.parse().ok()?,
        })
    })
}

impl Spot<'_> {
    fn excerpt(&self) -> Option<String> {
        let path = Path::new(self.file);
        let about = fs::metadata(path).ok()?;
        if !about.is_file() || about.len() > LONGEST {
            return None;
        }
        let bytes = fs::read(path).ok()?;
        let text = String::from_utf8_lossy(&bytes);
        let text = text.trim_start_matches('\u{feff}');
        under(text.lines().nth(self.line.checked_sub(1)?)?, self.column)
    }
}

/// A line, and a caret under a column, which counts characters from 1; of a long line
/// the part around it.
fn under(line: &str, column: usize) -> Option<String> {
    let place = column.checked_sub(1)?;
    let length = line.chars().count();
    if place > length {
        return None;
    }
    let first = match length > WIDEST {
        true => place.saturating_sub(WIDEST / 2).min(length - WIDEST),
        false => 0,
    };
    let shown = line.chars().skip(first).take(WIDEST);
    // A tab, and what a terminal would obey, is a blank.
    let shown: String = shown
        .map(|it| if it.is_control() { ' ' } else { it })
        .collect();
    let blanks = " ".repeat(place - first);
    Some(format!("    {}\n    {blanks}^\n", shown.trim_end()))
}

#[cfg(test)]
mod tests {
    use super::*;

    #[test]
    fn a_caret_under_its_place() {
        assert_eq!(
            under("user x", 6).as_deref(),
            Some("    user x\n         ^\n")
        );
        assert_eq!(
            under("a\tb\u{1b}", 3).as_deref(),
            Some("    a b\n      ^\n")
        );
        assert_eq!(under("", 1).as_deref(), Some("    \n    ^\n"));
        assert_eq!(under("ab", 4), None);
        assert_eq!(under("ab", 0), None);
        let long = "x".repeat(500);
        for column in [1, 100, 250, 499, 501] {
            let told = under(&long, column).expect("a place");
            let lines: Vec<&str> = told.lines().collect();
            assert_eq!(lines[0].len(), 4 + WIDEST);
            assert!(lines[1].len() <= 4 + WIDEST + 1, "{column}");
        }
    }

    #[test]
    fn messages_without_a_place_stay() {
        for message in ["", "no.txt:1:1: is none\n", "a: b: c\n", "1:2: 3:4: 5\n"] {
            assert_eq!(excerpts(message), message);
        }
    }
}
