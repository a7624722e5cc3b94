//! `daybook status`: who is short of cover, who is to be called, and what has to be
//! deposited so that no trade is cut; with `--why`, where a level comes from.

use daybook::{Book, Operator, Run};

use crate::arguments::Arguments;
use crate::day::{deposits, standings, Confirmed, Deposits, Standing};
use crate::form::{csv_row, or_null, Form};
use crate::outcome::{Failure, Outcome};
use crate::reasons::Asked;
use crate::refusals::of_call;
use crate::run::run_line;
use crate::source::{open, Source, Store};
use crate::why::why;
use crate::why_words;
use daybook_text::fields::has_managers;
use daybook_text::groups::{has_groups, shares, with_groups};
use daybook_text::json::Object;
use daybook_text::store::figures;
use daybook_text::text::aligned;
use daybook_text::words::{euros, plain_euros, word, ROLES};

/// The columns of a user's row; in version 3 the managers follow.
const COLUMNS: [&str; 9] = [
    "id",
    "role",
    "state",
    "level",
    "assigned",
    "blocked",
    "uncovered",
    "to_call",
    "deposit",
];
const MANAGERS: [&str; 3] = ["manager_PVB", "manager_TVB", "manager_AVB"];

pub fn status(arguments: &Arguments) -> Result<Outcome, Failure> {
    let usage = "status BOOK [--after] [--why ID] [--csv|--json] [--store FILE]";
    arguments.expect(1, 1, usage)?;
    let form = Form::of(arguments)?;
    let asked = arguments.path("--why");
    let asked = asked.map(|word| crate::arguments::id(word.as_os_str()));
    let asked = asked.transpose()?;
    let source = open(arguments.file(0))?;
    let store = Store::open(arguments.path("--store").as_deref())?;
    let mut operator = store.operator();
    let refused = |refusal| of_call(&source, &store, asked, Asked::Plain, refusal);
    let mut after = source.bytes.clone();
    let run = operator.run(&mut after).map_err(refused)?;
    let is_after = arguments.has("--after");
    let bytes = if is_after { &after } else { &source.bytes };
    let book = Operator::new().read(bytes).map_err(refused)?;
    let mut outcome = Outcome::default();
    outcome.note(&source);
    if let Some(id) = asked {
        let figures = figures(store.bytes.as_deref(), book.date);
        match why(&operator, &figures, bytes, id).map_err(refused)? {
            Some(why) => outcome.text(&why_words::told(form, &source.name, &book, &figures, &why)),
            None => {
                let reason = "the parts of its level are not known for this version";
                return Err(Failure::misuse(format!("{id}: {reason}")));
            }
        }
        return Ok(outcome);
    }
    let standings = standings(&operator, bytes, &book).map_err(refused)?;
    let day = Day {
        source: &source,
        book: &book,
        deposits: deposits(&operator, &book, &standings),
        standings,
        run,
        is_after,
    };
    match form {
        Form::Words => day.words(&mut outcome),
        Form::Csv => day.table(&mut outcome),
        Form::Json => day.objects(&mut outcome),
    }
    Ok(outcome)
}

/// What is told of a book.
struct Day<'a> {
    source: &'a Source,
    book: &'a Book,
    standings: Vec<Standing>,
    deposits: Deposits,
    run: Run,
    /// Whether the standings are those after the run.
    is_after: bool,
}

impl Day<'_> {
    fn words(&self, outcome: &mut Outcome) {
        let cells = |it: &Standing| {
            let mut cells = cells(it);
            cells.insert(1, self.source.name_of(it.user.id).to_string());
            if has_groups(self.book) {
                let shares = shares(self.book, &it.user);
                let shares: Vec<String> =
                    shares.iter().map(|share| share.short(it.user.id)).collect();
                cells.push(shares.join("; "));
            }
            cells
        };
        let rows: Vec<Vec<String>> = self.standings.iter().map(cells).collect();
        outcome.text(&aligned(&rows));
        outcome.line(self.closing());
    }

    /// What has to be done, and what happens otherwise.
    fn closing(&self) -> String {
        let run = run_line(&self.run);
        let stuck = self.stuck();
        if self.is_after {
            return format!("after {run}{stuck}");
        }
        let Deposits { by_user, confirmed } = &self.deposits;
        let total = euros(i128::try_from(self.deposits.total()).unwrap_or(i128::MAX));
        let by_user: Vec<String> = by_user
            .iter()
            .map(|(id, cents)| format!("{id} {}", euros(*cents)))
            .collect();
        let by_user = by_user.join(", ");
        match confirmed {
            Confirmed::Yes if by_user.is_empty() => format!("no trade is cut{stuck}"),
            Confirmed::Yes => {
                format!("deposit {total} EUR so that no trade is cut: {by_user}\notherwise {run}{stuck}")
            }
            Confirmed::Beyond(_) => {
                let reason = "more than a book can hold would have to be assigned";
                format!(
                    "no deposit keeps every trade, {reason}: {by_user} EUR lacking\n{run}{stuck}"
                )
            }
            Confirmed::No => format!("{run}{stuck}"),
        }
    }

    /// Those who are short of cover and have no sale to cut.
    fn stuck(&self) -> String {
        let is_stuck = |it: &&Standing| it.state.word == "short" && it.target.is_none();
        let stuck = self.standings.iter().filter(is_stuck);
        let stuck: Vec<String> = stuck
            .map(|it| format!("{} {}", it.user.id, euros(it.uncovered)))
            .collect();
        match stuck.is_empty() {
            true => String::new(),
            false => format!("\nuncovered, with no sale to cut: {}", stuck.join(", ")),
        }
    }

    fn table(&self, outcome: &mut Outcome) {
        let managers = match has_managers(self.book.version) {
            Some(true) => &MANAGERS[..],
            _ => &[],
        };
        outcome.line(csv_row([&COLUMNS[..], managers].concat()));
        for it in &self.standings {
            let mut row = vec![
                it.user.id.to_string(),
                word(&ROLES, it.user.role),
                it.state.word.to_string(),
                it.state.level.map_or_else(String::new, plain_euros),
                plain_euros(it.user.assigned),
                plain_euros(it.user.blocked),
                plain_euros(it.uncovered),
                plain_euros(it.to_call.unwrap_or(0)),
                plain_euros(it.target.unwrap_or(0)),
            ];
            let ids = it.user.managers.iter().take(managers.len());
            row.extend(ids.map(|id| match id {
                0 => String::new(),
                id => id.to_string(),
            }));
            outcome.line(csv_row(row));
        }
    }

    fn objects(&self, outcome: &mut Outcome) {
        for it in &self.standings {
            let object = Object::new()
                .string("book", &self.source.name)
                .put("id", it.user.id)
                .string("role", &word(&ROLES, it.user.role))
                .string("state", it.state.word)
                .put("level_cents", or_null(it.state.level))
                .put("assigned_cents", it.user.assigned)
                .put("blocked_cents", it.user.blocked)
                .put("uncovered_cents", it.uncovered)
                .put("to_call_cents", it.to_call.unwrap_or(0))
                .put("deposit_cents", it.target.unwrap_or(0));
            outcome.line(with_groups(object, self.book, &it.user).end());
        }
        let confirmed = self.deposits.confirmed == Confirmed::Yes;
        let object = Object::new()
            .string("book", &self.source.name)
            .put("after", self.is_after)
            .put("reductions", self.run.reductions)
            .put("mwh", self.run.mwh)
            .put("worth_cents", self.run.worth)
            .put("deposit_cents", self.deposits.total())
            .put("confirmed", confirmed);
        outcome.line(object.end());
    }
}

fn cells(it: &Standing) -> Vec<String> {
    let told = |name: &str, cents: u64| match cents {
        0 => [String::new(), String::new()],
        _ => [name.to_string(), euros(cents)],
    };
    let mut cells = vec![it.user.id.to_string(), it.state.word.to_string()];
    cells.push("level".to_string());
    cells.push(it.state.level.map_or_else(|| "-".to_string(), euros));
    cells.push("assigned".to_string());
    cells.push(euros(it.user.assigned));
    cells.push("blocked".to_string());
    cells.push(euros(it.user.blocked));
    cells.extend(told("uncovered", it.uncovered));
    cells.extend(told("to call", it.to_call.unwrap_or(0)));
    cells
}
