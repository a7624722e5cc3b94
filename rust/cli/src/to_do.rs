//! The top of a page: what has to be done about a day, and by whom.

use crate::day::{Confirmed, Deposits, Standing};
use crate::page::{escaped, row, section, table, tiles, user_link};
use crate::source::Source;
use daybook_text::words::{counted, euros};

/// The day before its run and after it.
pub struct Due<'a> {
    pub source: &'a Source,
    pub before: &'a [Standing],
    pub deposits: &'a Deposits,
    pub after: &'a [Standing],
}

impl Due<'_> {
    pub fn section(&self) -> String {
        let mut acts = self.acts();
        if acts.is_empty() {
            let nothing = "<p>Nothing: no user is short of cover, no trade is cut, and no \
                           guarantee call is due.</p>\n";
            return section("to-do", "What has to be done", nothing);
        }
        acts.sort_by_key(|act| std::cmp::Reverse(act.cents));
        let total = |kind: Kind| {
            let of_kind = acts.iter().filter(|act| act.kind == kind);
            let cents: u128 = of_kind.map(|act| u128::from(act.cents)).sum();
            let shown = euros(i128::try_from(cents).unwrap_or(i128::MAX));
            (format!("{shown} EUR"), kind.total().to_string())
        };
        let has = |kind: &Kind| acts.iter().any(|act| act.kind == *kind);
        let kinds = [Kind::Deposit, Kind::Uncovered, Kind::Call];
        let figures: Vec<(String, String)> = kinds.into_iter().filter(has).map(total).collect();
        let has_names = !self.source.names.is_empty();
        let rows: String = acts.iter().map(|act| self.row(act, has_names)).collect();
        let mut names = vec!["user"];
        names.extend(has_names.then_some("name"));
        names.extend(["what", "EUR"]);
        let caption = format!(
            "{} to act on, the largest amount first; a deposit changes what comes after the run",
            counted(self.users(&acts), "user")
        );
        let beyond = match self.deposits.confirmed {
            Confirmed::Beyond(_) => {
                "<p>No deposit keeps every trade: more than a book can hold would have to be \
                 assigned.</p>\n"
            }
            _ => "",
        };
        let body = tiles(&figures) + beyond + &table(&caption, &names, &rows);
        section("to-do", "What has to be done", &body)
    }

    fn acts(&self) -> Vec<Act> {
        let deposits = match self.deposits.confirmed {
            Confirmed::Yes => self.deposits.by_user.as_slice(),
            _ => &[],
        };
        let deposits = deposits
            .iter()
            .map(|(id, cents)| Act::new(*id, Kind::Deposit, *cents));
        let uncovered = self.after.iter().filter(|it| it.uncovered > 0);
        let uncovered = uncovered.map(|it| Act::new(it.user.id, Kind::Uncovered, it.uncovered));
        let calls = self.after.iter().filter_map(|it| {
            let call = it.to_call?;
            Some(Act::new(it.user.id, Kind::Call, call))
        });
        deposits.chain(uncovered).chain(calls).collect()
    }

    /// How many users there is something to do about.
    fn users(&self, acts: &[Act]) -> usize {
        let named = |it: &&Standing| acts.iter().any(|act| act.id == it.user.id);
        self.before.iter().filter(named).count()
    }

    fn row(&self, act: &Act, has_names: bool) -> String {
        let mut cells = vec![user_link(act.id)];
        cells.extend(has_names.then(|| escaped(self.source.name_of(act.id))));
        cells.push(act.kind.what().to_string());
        cells.push(euros(act.cents));
        row(None, &cells)
    }
}

/// Something to do about a user.
struct Act {
    id: u32,
    kind: Kind,
    cents: u64,
}

impl Act {
    fn new(id: u32, kind: Kind, cents: u64) -> Act {
        Act { id, kind, cents }
    }
}

#[derive(Clone, Copy, Debug, PartialEq, Eq)]
enum Kind {
    Deposit,
    Uncovered,
    Call,
}

impl Kind {
    fn what(self) -> &'static str {
        match self {
            Kind::Deposit => "deposit before the run",
            Kind::Uncovered => "uncovered after the run, with no sale left to cut",
            Kind::Call => "guarantee call after the run",
        }
    }

    fn total(self) -> &'static str {
        match self {
            Kind::Deposit => "to deposit, so that no trade is cut",
            Kind::Uncovered => "uncovered after the run",
            Kind::Call => "to call after the run",
        }
    }
}
