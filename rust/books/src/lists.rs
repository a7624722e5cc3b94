//! Random lists of postings: of any number of lines, columns and places of one
//! count or of several, and lines that a single posting accepts or refuses.

use reference::list::MOST_LINES;

use crate::calls::Call;
use crate::generator::{Arguments, Generator};

impl Generator {
    /// A list for this book: mostly of few lines, sometimes of about as many as
    /// are taken, and sometimes with a column, or the places, of another count.
    pub fn list(&mut self, book: &[u8]) -> Call {
        let random = self.random();
        let lines = match random.below(32) {
            0 | 1 => 0,
            2 => random.pick(&[MOST_LINES - 1, MOST_LINES, MOST_LINES + 1, 2 * MOST_LINES]),
            3 => random.below(MOST_LINES + 1),
            4..=8 => random.below(40),
            _ => 1 + random.below(6),
        };
        let list = self.list_of(book, lines);
        match self.random().below(12) {
            0 => self.miscounted(list),
            1 => {
                let once = self.miscounted(list);
                self.miscounted(once)
            }
            _ => list,
        }
    }

    /// A list of this many lines, with as many places. One line in three is on
    /// the user and area of the line before, so that its number depends on what
    /// that line did.
    pub fn list_of(&mut self, book: &[u8], lines: usize) -> Call {
        let (mut ids, mut areas, mut amounts) = (Vec::new(), Vec::new(), Vec::new());
        let mut line = self.arguments(book);
        for _ in 0..lines {
            line = if self.random().one_in(3) {
                self.next_line(line)
            } else {
                self.arguments(book)
            };
            ids.push(line.id);
            areas.push(line.area);
            amounts.push(line.amount);
        }
        Call::List {
            ids,
            areas,
            amounts,
            places: lines,
        }
    }

    /// A line on the user and area of another: the amount back, once more, or
    /// one that is accepted or refused by what the entry is by then.
    fn next_line(&mut self, line: Arguments) -> Arguments {
        let back = line.amount.wrapping_neg();
        let amounts = [back, line.amount, 1, -1, 2_000_000, -2_000_000, 1_999_999];
        Arguments {
            amount: self.random().pick(&amounts),
            ..line
        }
    }

    /// The list with another count of one column, or of places.
    fn miscounted(&mut self, list: Call) -> Call {
        let Call::List {
            mut ids,
            mut areas,
            mut amounts,
            mut places,
        } = list
        else {
            return list;
        };
        let random = self.random();
        let column = random.below(4);
        let count = [ids.len(), areas.len(), amounts.len(), places][column];
        let counts = [0, 1, count + 1, count + 1, MOST_LINES, MOST_LINES + 1];
        let other = random.pick(&counts);
        let other = if random.one_in(3) {
            count.saturating_sub(1)
        } else {
            other
        };
        match column {
            0 => ids.resize(other, 0),
            1 => areas.resize(other, 0),
            2 => amounts.resize(other, 0),
            _ => places = other,
        }
        Call::List {
            ids,
            areas,
            amounts,
            places,
        }
    }
}
