//! The ends of a list that is too long to be kept.

use std::collections::VecDeque;

/// The first and the last of a long list.
pub struct Ends<T> {
    first: Vec<T>,
    most_first: usize,
    last: VecDeque<T>,
    most_last: usize,
}

impl<T> Ends<T> {
    pub fn new(most_first: usize, most_last: usize) -> Ends<T> {
        Ends {
            first: Vec::new(),
            most_first,
            last: VecDeque::new(),
            most_last,
        }
    }

    /// The newest is kept until another one comes, whatever is wanted of the last.
    pub fn push(&mut self, item: T) {
        if self.first.len() < self.most_first {
            self.first.push(item);
            return;
        }
        self.last.push_back(item);
        if self.last.len() > self.most_last.max(1) {
            self.last.pop_front();
        }
    }

    /// What was put last.
    pub fn newest(&mut self) -> Option<&mut T> {
        self.last.back_mut().or(self.first.last_mut())
    }

    pub fn into_lists(self) -> (Vec<T>, Vec<T>) {
        let wanted = self.last.len().min(self.most_last);
        let last = self.last.into_iter();
        (self.first, last.take(wanted).collect())
    }
}
