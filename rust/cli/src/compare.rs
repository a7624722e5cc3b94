//! `daybook compare`: two books, or what their runs leave of them, told by what
//! differs: the day's totals first, then prices, users and trades.

use daybook::{Book, Operator, Trade, User};

use crate::arguments::Arguments;
use crate::day::{standings, Standing, Totals};
use crate::files;
use crate::form::{csv_row, plain, Form};
use crate::outcome::{Failure, Outcome};
use crate::reasons::Asked;
use crate::refusals::of_call;
use crate::run::run_line;
use crate::source::{open, Source, Store};
use daybook_text::fields::{prices, PRICES};
use daybook_text::json::Object;
use daybook_text::text::trade_cells;
use daybook_text::words::{date, euros, grouped, wide, word, AREAS, ROLES};

/// A difference: what it is about, the field, and what each book has.
#[derive(Clone, Debug, PartialEq, Eq)]
pub struct Difference {
    pub about: String,
    pub field: String,
    pub before: String,
    pub after: String,
}

/// The columns of a difference.
pub const DIFFERENCE: [&str; 4] = ["about", "field", "before", "after"];

impl Difference {
    /// A row of a table, amounts without commas.
    pub fn row(&self) -> [String; 4] {
        let (before, after) = (plain(&self.before), plain(&self.after));
        [self.about.clone(), self.field.clone(), before, after]
    }

    pub fn object(&self) -> Object {
        let [about, field, before, after] = DIFFERENCE;
        Object::new()
            .string(about, &self.about)
            .string(field, &self.field)
            .string(before, &self.before)
            .string(after, &self.after)
    }
}

/// A book with its day.
struct Side {
    book: Book,
    standings: Vec<Standing>,
    totals: Totals,
}

pub fn compare(arguments: &Arguments) -> Result<Outcome, Failure> {
    arguments.expect(2, 2, "compare A B [--run] [--csv|--json] [--store FILE]")?;
    let form = Form::of(arguments)?;
    let store = Store::open(arguments.path("--store").as_deref())?;
    let side = |place: usize| {
        let source = open(arguments.file(place))?;
        let side = side(&source, &store, arguments.has("--run"))?;
        Ok((source, side))
    };
    let ((one_source, one), (other_source, other)) = (side(0)?, side(1)?);
    let found = differences(&one, &other);
    let names = [0, 1].map(|place| files::shown(arguments.file(place)));
    let mut outcome = Outcome::default();
    outcome.note(&one_source);
    outcome.note(&other_source);
    match form {
        Form::Words => words(&mut outcome, (&one, &other), &found),
        Form::Csv => {
            outcome.line(csv_row(DIFFERENCE));
            for it in &found {
                outcome.line(csv_row(it.row()));
            }
        }
        Form::Json => found.iter().for_each(|it| {
            let object = it.object().about("other", &names[1]);
            outcome.line(object.of_book(&names[0]).end());
        }),
    }
    Ok(outcome)
}

fn side(source: &Source, store: &Store, is_run: bool) -> Result<Side, Failure> {
    let refused = |refusal| of_call(source, store, None, Asked::Plain, refusal);
    let mut operator = store.operator();
    let mut after = source.bytes.clone();
    let run = operator.run(&mut after).map_err(refused)?;
    let bytes = if is_run { &after } else { &source.bytes };
    let book = Operator::new().read(bytes).map_err(refused)?;
    let standings = standings(&operator, bytes, &book).map_err(refused)?;
    let totals = Totals::new(&operator, &book, &standings, run);
    Ok(Side {
        book,
        standings,
        totals,
    })
}

/// What differs, as it is found.
#[derive(Default)]
struct Found(Vec<Difference>);

impl Found {
    fn compare(&mut self, about: &str, field: &str, before: String, after: String) {
        if before != after {
            self.0.push(Difference {
                about: about.to_string(),
                field: field.to_string(),
                before,
                after,
            });
        }
    }
}

fn differences(one: &Side, other: &Side) -> Vec<Difference> {
    let mut found = Found::default();
    let cells = |it: &Side| total_cells(&it.totals);
    for ((name, before), (_, after)) in cells(one).into_iter().zip(cells(other)) {
        found.compare("total", name, before, after);
    }
    header(&mut found, &one.book, &other.book);
    users(&mut found, &one.standings, &other.standings);
    trades(&mut found, &one.book.trades, &other.book.trades);
    found.0
}

fn total_cells(it: &Totals) -> [(&'static str, String); 8] {
    let money = |cents: u128| euros(i128::try_from(cents).unwrap_or(i128::MAX));
    [
        ("reductions", grouped(it.run.reductions)),
        ("MWh cut", grouped(it.run.mwh)),
        ("worth", euros(it.run.worth)),
        ("short", grouped(wide(it.short))),
        ("uncovered", money(it.uncovered)),
        ("calls", grouped(wide(it.calls))),
        ("to call", money(it.to_call)),
        ("deposit", it.deposit.map_or_else(|| "-".to_string(), money)),
    ]
}

fn header(found: &mut Found, one: &Book, other: &Book) {
    let version = |book: &Book| book.version.to_string();
    found.compare("header", "version", version(one), version(other));
    found.compare("header", "date", date(one.date), date(other.date));
    let (before, after) = (prices(one), prices(other));
    for (place, name) in PRICES.iter().enumerate() {
        let price = |prices: &[u32]| {
            prices
                .get(place)
                .map_or_else(|| "-".to_string(), |it| euros(*it))
        };
        found.compare("header", name, price(&before), price(&after));
    }
}

fn users(found: &mut Found, one: &[Standing], other: &[Standing]) {
    let mut ids: Vec<u32> = one.iter().chain(other).map(|it| it.user.id).collect();
    ids.sort_unstable();
    ids.dedup();
    for id in ids {
        let about = format!("user {id}");
        let of = |list: &[Standing]| list.iter().find(|it| it.user.id == id).copied();
        match (of(one), of(other)) {
            (Some(before), Some(after)) => {
                let cells = user_cells(&before).into_iter().zip(user_cells(&after));
                for ((name, before), (_, after)) in cells {
                    found.compare(&about, &name, before, after);
                }
            }
            (before, after) => {
                let there = |it: Option<Standing>| it.map_or("-", |_| "there").to_string();
                found.compare(&about, "user", there(before), there(after));
            }
        }
    }
}

fn user_cells(it: &Standing) -> Vec<(String, String)> {
    let User {
        role,
        physical,
        position,
        charges,
        assigned,
        blocked,
        managers,
        ..
    } = it.user;
    let level = it.state.level.map_or_else(|| "-".to_string(), euros);
    let mut cells = vec![
        ("role".to_string(), word(&ROLES, role)),
        ("state".to_string(), it.state.word.to_string()),
        ("level".to_string(), level),
        ("charges".to_string(), euros(charges)),
        ("assigned".to_string(), euros(assigned)),
        ("blocked".to_string(), euros(blocked)),
    ];
    for (name, amounts) in [("physical", physical), ("position", position)] {
        let areas = AREAS.iter().zip(amounts);
        cells.extend(areas.map(|(area, mwh)| (format!("{name} {area}"), grouped(mwh))));
    }
    let manager = |id: u32| match id {
        0 => "-".to_string(),
        id => id.to_string(),
    };
    let areas = AREAS.iter().zip(managers);
    cells.extend(areas.map(|(area, id)| (format!("manager {area}"), manager(id))));
    cells
}

/// Trades by their places; those of the same parties, area, kind and day differ in
/// MWh alone.
fn trades(found: &mut Found, one: &[Trade], other: &[Trade]) {
    for place in 0..one.len().max(other.len()) {
        let about = format!("trade {}", place + 1);
        let whole = |trade: Option<&Trade>| {
            let cells = trade.map_or_else(Vec::new, trade_cells);
            let words: Vec<String> = cells.into_iter().skip(1).collect();
            match words.join(" ").trim_end() {
                "" => "-".to_string(),
                words => words.to_string(),
            }
        };
        let key = |trade: &Trade| (trade.seller, trade.buyer, trade.area, trade.kind, trade.day);
        match (one.get(place), other.get(place)) {
            (Some(before), Some(after)) if key(before) == key(after) => {
                let about = format!("{about}, {} to {}", before.seller, before.buyer);
                let (was, is) = (grouped(before.notified), grouped(after.notified));
                found.compare(&about, "notified", was, is);
                let (was, is) = (grouped(before.standing), grouped(after.standing));
                found.compare(&about, "standing", was, is);
            }
            (before, after) => found.compare(&about, "trade", whole(before), whole(after)),
        }
    }
}

fn words(outcome: &mut Outcome, (one, other): (&Side, &Side), found: &[Difference]) {
    if found.is_empty() {
        return outcome.line("no difference");
    }
    let (before, after) = (run_line(&one.totals.run), run_line(&other.totals.run));
    match before == after {
        true => outcome.line(format!("run of both: {before}")),
        false => outcome.line(format!("run: {before}\n  -> {after}")),
    }
    let is_told = |it: &&Difference| {
        it.about != "total" || !["reductions", "MWh cut", "worth"].contains(&it.field.as_str())
    };
    let mut about = String::new();
    for it in found.iter().filter(is_told) {
        let change = format!("{} {} -> {}", it.field, it.before, it.after);
        if about == it.about {
            outcome.out.truncate(outcome.out.len() - 1);
            outcome.line(format!("; {change}"));
        } else {
            outcome.line(format!("{}: {change}", it.about));
            about.clone_from(&it.about);
        }
    }
}
