//! A CSV file row by row, its fields asked for by the names over the columns. A row
//! is read to its end: each of its fields that cannot be read is told. Columns of
//! other names are skipped, and noted.

use std::borrow::Cow;
use std::cell::RefCell;

use super::convention::{Convention, Dates};
use crate::draft::{too_long, Mistake, Spot, MOST_MISTAKES};
use crate::limits::limits;
use crate::text::short;
use crate::words::{code, read_whole};

/// How many columns of other names are told by name.
const MOST_NAMED: usize = 3;

/// How much of such a name is told.
const LONGEST_NAMED: usize = 24;

/// A file that is read: its name in a folder, its bytes, the names of its columns, and
/// those of them that may be missing.
pub struct Table<'a> {
    pub file: &'static str,
    pub bytes: &'a [u8],
    pub names: &'a [&'a str],
    pub optional: &'a [&'a str],
    pub dates: Dates,
}

/// What is found on the way.
#[derive(Debug, Default)]
pub struct Found {
    pub mistakes: Vec<Mistake>,
    /// The columns that are skipped.
    pub skipped: Vec<Mistake>,
}

/// Reads a file row by row.
pub fn read_file(table: &Table, found: &mut Found, mut take: impl FnMut(&Row)) {
    let Table {
        file, bytes, names, ..
    } = *table;
    let mistakes = &mut found.mistakes;
    let text = match text_of(file, bytes) {
        Ok(text) if text.contains('\0') => {
            let reason = "the file is no text: it has bytes of 0 (UTF-16 without its mark?)";
            return mistakes.push(Mistake {
                spot: start_of(file, 1),
                reason: reason.to_string(),
            });
        }
        Ok(text) => text,
        Err(mistake) => return mistakes.push(mistake),
    };
    let first = text.lines().find(|line| !line.trim().is_empty());
    let convention = Convention::of(first.unwrap_or(""));
    let separator = convention.separator();
    let mut columns: Option<Columns> = None;
    let most = mistakes.len() + MOST_MISTAKES;
    for (place, line) in text.lines().enumerate() {
        if line.trim().trim_matches(separator).is_empty() {
            continue;
        }
        let start = start_of(file, place + 1);
        let read = cells(file, place + 1, line, separator);
        let some = match (read, &columns) {
            (Err(mistake), _) => vec![mistake],
            (Ok(cells), None) => match columns_of(&cells, table, start, &mut found.skipped) {
                Ok(found) => {
                    columns = Some(found);
                    Vec::new()
                }
                Err(mistake) => vec![mistake],
            },
            (Ok(cells), Some(columns)) => {
                let row = Row {
                    names,
                    columns,
                    cells: &cells,
                    start,
                    convention,
                    dates: table.dates,
                    mistakes: RefCell::default(),
                };
                match row.count() {
                    Ok(()) => take(&row),
                    Err(mistake) => row.mistakes.borrow_mut().push(mistake),
                }
                row.mistakes.into_inner()
            }
        };
        let room = most.saturating_sub(mistakes.len());
        mistakes.extend(some.into_iter().take(room));
        if mistakes.len() >= most || columns.is_none() {
            return;
        }
    }
    if columns.is_none() {
        let reason = format!("the first line has the names {}", names.join(","));
        let spot = start_of(file, 1);
        mistakes.push(Mistake { spot, reason });
    }
}

fn start_of(file: &'static str, line: usize) -> Spot {
    let column = 1;
    Spot { file, line, column }
}

/// The text of a file, without its byte order mark: in UTF-8, in UTF-16 where the mark
/// says so, else in the 8 bits of an older spreadsheet, whose names alone have other
/// letters.
fn text_of<'a>(file: &'static str, bytes: &'a [u8]) -> Result<Cow<'a, str>, Mistake> {
    if let Some(mistake) = too_long(file, bytes) {
        return Err(mistake);
    }
    let wide = |bytes: &[u8], unit: fn([u8; 2]) -> u16| {
        let units: Vec<u16> = bytes.as_chunks().0.iter().map(|it| unit(*it)).collect();
        Cow::Owned(String::from_utf16_lossy(&units))
    };
    if let Some(bytes) = bytes.strip_prefix(b"\xff\xfe") {
        return Ok(wide(bytes, u16::from_le_bytes));
    }
    if let Some(bytes) = bytes.strip_prefix(b"\xfe\xff") {
        return Ok(wide(bytes, u16::from_be_bytes));
    }
    let bytes = bytes.strip_prefix(b"\xef\xbb\xbf").unwrap_or(bytes);
    let narrow = |_| bytes.iter().map(|byte| char::from(*byte)).collect();
    Ok(std::str::from_utf8(bytes).map_or_else(|it| Cow::Owned(narrow(it)), Cow::Borrowed))
}

/// The columns of a file.
struct Columns {
    /// For each name the column that it stands over.
    of: Vec<Option<usize>>,
    /// How many there are, up to the last that has a name.
    count: usize,
}

/// The names of some columns, the first few of many.
fn named(cells: &[&Cell]) -> String {
    let start = |it: &&Cell| it.text.chars().take(LONGEST_NAMED).collect::<String>();
    let names = cells.iter().take(MOST_NAMED).map(|it| short(&start(it)));
    let names = names.collect::<Vec<String>>().join(", ");
    match cells.len().saturating_sub(MOST_NAMED) {
        0 => names,
        more => format!("{names} and {more} more"),
    }
}

/// The columns under the names that the file's first line has.
fn columns_of(
    cells: &[Cell],
    table: &Table,
    start: Spot,
    skipped: &mut Vec<Mistake>,
) -> Result<Columns, Mistake> {
    let Table {
        names, optional, ..
    } = *table;
    let mut unknown = Vec::new();
    for (place, cell) in cells.iter().enumerate() {
        let same = |it: &str| it.eq_ignore_ascii_case(&cell.text);
        if !names.iter().any(|name| same(name)) {
            if !cell.text.is_empty() {
                unknown.push(cell);
            }
        } else if cells[..place].iter().any(|before| same(&before.text)) {
            return Err(Mistake {
                spot: cell.spot,
                reason: format!("a second column {}", short(&cell.text)),
            });
        }
    }
    let mut of = Vec::new();
    for name in names {
        let column = cells
            .iter()
            .position(|cell| cell.text.eq_ignore_ascii_case(name));
        if column.is_none() && !optional.contains(name) {
            let others = match unknown.is_empty() {
                true => String::new(),
                false => format!("; none of the names: {}", named(&unknown)),
            };
            return Err(Mistake {
                spot: start,
                reason: format!("the column {name} is missing{others}"),
            });
        }
        of.push(column);
    }
    if let Some(first) = unknown.first() {
        let (ending, verb) = if unknown.len() == 1 {
            ("", "is")
        } else {
            ("s", "are")
        };
        skipped.push(Mistake {
            spot: first.spot,
            reason: format!("the column{ending} {} {verb} skipped", named(&unknown)),
        });
    }
    let last = cells.iter().rposition(|cell| !cell.text.is_empty());
    Ok(Columns {
        of,
        count: last.map_or(0, |last| last + 1),
    })
}

/// A field of a row, without its quotes and the blanks around it.
#[derive(Clone, Debug)]
struct Cell {
    text: String,
    spot: Spot,
}

/// The fields of a line. A field in quotes may have the separator in it, and a
/// quote written twice.
fn cells(
    file: &'static str,
    line: usize,
    text: &str,
    separator: char,
) -> Result<Vec<Cell>, Mistake> {
    let mut cells = Vec::new();
    let mut cell = String::new();
    let (mut start, mut quoted) = (1, false);
    let spot = |column: usize| Spot { file, line, column };
    let mut characters = text.chars().enumerate().peekable();
    while let Some((place, character)) = characters.next() {
        match character {
            '"' if quoted && characters.peek().is_some_and(|(_, next)| *next == '"') => {
                characters.next();
                cell.push('"');
            }
            '"' => quoted = !quoted,
            _ if character == separator && !quoted => {
                cells.push(Cell {
                    text: cell.trim().to_string(),
                    spot: spot(start),
                });
                cell.clear();
                start = place + 2;
            }
            _ => cell.push(character),
        }
    }
    if quoted {
        return Err(Mistake {
            spot: spot(start),
            reason: "the field's closing quote is missing".to_string(),
        });
    }
    cells.push(Cell {
        text: cell.trim().to_string(),
        spot: spot(start),
    });
    Ok(cells)
}

/// A row, asked for by the places of the names.
pub struct Row<'a> {
    names: &'a [&'a str],
    columns: &'a Columns,
    cells: &'a [Cell],
    /// Where the row is, for a field that it lacks.
    start: Spot,
    convention: Convention,
    dates: Dates,
    mistakes: RefCell<Vec<Mistake>>,
}

impl Row<'_> {
    fn cell(&self, name: usize) -> Option<&Cell> {
        let column = self.columns.of.get(name).copied().flatten()?;
        self.cells.get(column)
    }

    pub fn text(&self, name: usize) -> &str {
        self.cell(name).map_or("", |cell| cell.text.as_str())
    }

    pub fn spot(&self, name: usize) -> Spot {
        self.cell(name).map_or(self.start, |cell| cell.spot)
    }

    pub fn is_empty(&self, name: usize) -> bool {
        self.text(name).is_empty()
    }

    /// Notes a mistake in a field; of fields that the row lacks, the first alone.
    pub fn mistake(&self, name: usize, reason: String) {
        let spot = self.spot(name);
        let mut mistakes = self.mistakes.borrow_mut();
        if self.cell(name).is_some() || mistakes.iter().all(|it| it.spot != spot) {
            mistakes.push(Mistake { spot, reason });
        }
    }

    /// No field stands past the last column.
    fn count(&self) -> Result<(), Mistake> {
        let columns = self.columns.count;
        match self.cells.get(columns..) {
            Some(rest) if rest.iter().any(|cell| !cell.text.is_empty()) => {
                let hint = match self.convention {
                    Convention::Commas => {
                        "; a comma within an amount? Euros are written as 1234.50"
                    }
                    _ => "",
                };
                let reason = format!("{} fields in {columns} columns{hint}", self.cells.len());
                Err(Mistake {
                    spot: rest[0].spot,
                    reason,
                })
            }
            _ => Ok(()),
        }
    }

    /// What was read, or none with the mistake noted.
    fn noted<T: Default>(&self, name: usize, read: Option<T>, what: &str) -> T {
        read.unwrap_or_else(|| {
            let text = short(self.text(name));
            self.mistake(name, format!("{} {what}, not `{text}`", self.names[name]));
            T::default()
        })
    }

    fn fitting<T: TryFrom<i128> + Default>(
        &self,
        name: usize,
        read: Option<i128>,
        what: &str,
    ) -> T {
        match read.map(T::try_from) {
            Some(Ok(number)) => number,
            Some(Err(_)) => {
                let within = format!("is within {}", limits(self.names[name]));
                self.noted(name, None, &within)
            }
            None => self.noted(name, None, what),
        }
    }

    pub fn whole<T: TryFrom<i128> + Default>(&self, name: usize) -> T {
        let number = self.convention.whole(self.text(name));
        self.fitting(name, number, "is a whole number")
    }

    /// A whole number, 0 for an empty field.
    pub fn whole_or_0<T: TryFrom<i128> + Default>(&self, name: usize) -> T {
        match self.is_left_empty(name) {
            true => T::default(),
            false => self.whole(name),
        }
    }

    /// Euros, 0 for an empty field.
    pub fn money<T: TryFrom<i128> + Default>(&self, name: usize) -> T {
        if self.is_left_empty(name) {
            return T::default();
        }
        let text = self.text(name);
        let cents = self.convention.euros(text);
        let what = format!("is euros, as {}", self.convention.example(text));
        self.fitting(name, cents, &what)
    }

    /// Whether a field is there, with nothing in it.
    fn is_left_empty(&self, name: usize) -> bool {
        self.cell(name).is_some_and(|cell| cell.text.is_empty())
    }

    pub fn date(&self, name: usize) -> u32 {
        let text = self.text(name);
        self.dates.read(text).unwrap_or_else(|| {
            let hint = match text.contains('/') {
                true => "; `daybook from-csv --dates dmy` reads day/month/year",
                false => "",
            };
            let (written, text) = ("is written as 2026-03-18 or 18.03.2026", short(text));
            let reason = format!("{} {written}, not `{text}`{hint}", self.names[name]);
            self.mistake(name, reason);
            0
        })
    }

    pub fn code(&self, name: usize, among: &[&str]) -> u8 {
        let one_of = format!("is one of {}", among.join(", "));
        self.noted(name, code(among, self.text(name)), &one_of)
    }

    /// The code of a word, or the number itself.
    pub fn code_or_number(&self, name: usize, among: &[&str]) -> u32 {
        let text = self.text(name);
        let number = read_whole(text).and_then(|number| u32::try_from(number).ok());
        number.unwrap_or_else(|| u32::from(self.code(name, among)))
    }
}
