//! `daybook explain`: a run in words, reduction by reduction.

use daybook::{Book, Operator, Trade};

use crate::arguments::Arguments;
use crate::explain_all::AllOf;
use crate::explain_objects::{run_object, step_object};
use crate::form::{csv_row, Form};
use crate::outcome::{Failure, Outcome};
use crate::reasons::Asked;
use crate::refusals::of_call;
use crate::run::run_line;
use crate::source::{open, Store};
use daybook_text::credit::{by_area, lines, Credited};
use daybook_text::groups::{self, area_of, bearer};
use daybook_text::store::{figures, Figures};
use daybook_text::text::aligned;
use daybook_text::trace::{reference_prices, trace, Extent, Sale, Step, Tier, Trace};
use daybook_text::words::{counted, euros, grouped, plain_euros, word, AREAS};

/// How many reductions are shown of a long run.
const FIRST: usize = 5;
const LAST: usize = 3;

/// How many are made one by one unless another number is asked for.
pub const MOST: u64 = 1_000_000;

pub fn explain(arguments: &Arguments) -> Result<Outcome, Failure> {
    let usage = "explain BOOK [--all] [--steps N] [--csv|--json] [--store FILE]";
    arguments.expect(1, 1, usage)?;
    let form = Form::of(arguments)?;
    let source = open(arguments.file(0))?;
    let store = Store::open(arguments.path("--store").as_deref())?;
    let most = arguments.number("--steps")?.unwrap_or(MOST);
    let refused = |refusal| of_call(&source, &store, None, Asked::Plain, refusal);
    let opening = Operator::new().read(&source.bytes).map_err(refused)?;
    let figures = figures(store.bytes.as_deref(), opening.date);
    let telling = Telling {
        name: source.name.clone(),
        form,
        figures,
        opening,
    };
    let mut outcome = Outcome::default();
    outcome.note(&source);
    if arguments.has("--all") {
        // What a run is refused for is found before the first reduction is told.
        let run = store.operator().run(&mut source.bytes.clone());
        run.map_err(refused)?;
        outcome.stream = Some(Box::new(AllOf {
            telling,
            bytes: source.bytes,
            store,
            most,
        }));
        return Ok(outcome);
    }
    let extent = Extent {
        first: FIRST,
        last: LAST,
        chapters: (0, 0),
        most,
    };
    let trace = trace(store.operator(), &figures, &source.bytes, extent).map_err(refused)?;
    outcome.text(&telling.head());
    for step in &trace.first {
        outcome.text(&telling.step(step));
    }
    let shown = trace.first.len() + trace.last.len();
    let shown = u64::try_from(shown).unwrap_or(u64::MAX);
    outcome.text(&telling.left_out(&trace, shown));
    for step in &trace.last {
        outcome.text(&telling.step(step));
    }
    let (end, messages) = telling.end(&trace, shown);
    outcome.text(&end);
    outcome.messages.push_str(&messages);
    Ok(outcome)
}

/// How a run is told: in words, or a row for each sale that a reduction looked at, or an
/// object for each reduction.
#[derive(Clone, Debug, PartialEq, Eq)]
pub struct Telling {
    pub name: String,
    pub form: Form,
    pub figures: Figures,
    pub opening: Book,
}

impl Telling {
    /// What stands before the first reduction.
    pub fn head(&self) -> String {
        match self.form {
            Form::Csv => format!("{}\n", csv_row(SALES)),
            _ => String::new(),
        }
    }

    /// A reduction.
    pub fn step(&self, step: &Step) -> String {
        match self.form {
            Form::Json => format!("{}\n", step_object(&self.name, step, &self.opening)),
            Form::Csv => rows(step),
            Form::Words => {
                let least = reference_prices(&self.opening.prices).into_iter().min();
                step_words(step, &self.figures, least.unwrap_or(0))
            }
        }
    }

    /// How many reductions are not shown, where words have a place for it.
    pub fn left_out(&self, trace: &Trace, shown: u64) -> String {
        let unshown = trace.run.reductions.saturating_sub(shown);
        if self.form != Form::Words || unshown == 0 {
            return String::new();
        }
        let ending = if unshown == 1 { "" } else { "s" };
        format!("... {} reduction{ending} more ...\n\n", grouped(unshown))
    }

    /// The run's totals, for standard output and for standard error, which has them and
    /// how many are left out beside a table.
    pub fn end(&self, trace: &Trace, shown: u64) -> (String, String) {
        match self.form {
            Form::Json => (
                format!("{}\n", run_object(&self.name, trace, shown)),
                String::new(),
            ),
            Form::Csv => (String::new(), beside(trace, shown)),
            Form::Words => (run_words(trace), String::new()),
        }
    }
}

/// The columns of a sale that a reduction looked at.
const SALES: [&str; 14] = [
    "reduction",
    "id",
    "level",
    "assigned",
    "target",
    "tier",
    "trade",
    "seller",
    "buyer",
    "area",
    "standing",
    "share",
    "remainder",
    "cut",
];

/// A row for each sale of a reduction.
fn rows(step: &Step) -> String {
    let mut rows = String::new();
    for (tier, sales) in step.tiers.iter().enumerate() {
        for sale in &sales.sales {
            rows.push_str(&csv_row([
                step.number.to_string(),
                step.user.id.to_string(),
                plain_euros(step.level),
                plain_euros(step.user.assigned),
                plain_euros(step.answer.target),
                (tier + 1).to_string(),
                (sale.place + 1).to_string(),
                sale.trade.seller.to_string(),
                sale.trade.buyer.to_string(),
                word(&AREAS, sale.trade.area),
                sale.trade.standing.to_string(),
                sale.share.to_string(),
                sale.remainder.to_string(),
                sale.cut.to_string(),
            ]));
            rows.push('\n');
        }
    }
    rows
}

/// The run's totals beside a table, and how many reductions are left out.
fn beside(trace: &Trace, shown: u64) -> String {
    let mut text = format!("{}\n", run_line(&trace.run));
    if shown < trace.run.reductions {
        let hint = "--all shows those that are taken apart";
        text.push_str(&format!("{} of them are shown; {hint}\n", grouped(shown)));
    }
    text
}

fn run_words(trace: &Trace) -> String {
    let mut text = format!("run: {}\n", run_line(&trace.run));
    if trace.taken < trace.run.reductions {
        let taken = counted(
            usize::try_from(trace.taken).unwrap_or(usize::MAX),
            "reduction",
        );
        let unshown = "the last of the run are not shown";
        text.push_str(&format!(
            "the first {taken} taken apart (--steps N), {unshown}; in these:\n"
        ));
    }
    text.push_str(&aligned(&reduced(trace)));
    text
}

/// A line for each user that was reduced: how often, and what it lost, both in
/// the reductions that were taken apart. The MWh are what its sales, its members' too
/// where it bears their risk, stand lower after these than before.
fn reduced(trace: &Trace) -> Vec<Vec<String>> {
    let mut rows = Vec::new();
    for (id, count) in trace.counts.iter().filter(|(_, count)| *count > 0) {
        let trades = trace.opening.trades.iter().zip(&trace.reached.trades);
        let opening = &trace.opening;
        let is_its = |trade: &Trade| bearer(opening, trade.seller, area_of(trade)) == *id;
        let lost = trades.filter(|(trade, _)| is_its(trade));
        let lost: u64 = lost
            .map(|(a, b)| u64::from(a.standing.saturating_sub(b.standing)))
            .sum();
        let count = counted(usize::try_from(*count).unwrap_or(usize::MAX), "reduction");
        rows.push(vec![
            "  user".to_string(),
            format!("{id}:"),
            format!("{count},"),
            grouped(lost),
            "MWh cut".to_string(),
        ]);
    }
    rows
}

fn step_words(step: &Step, figures: &Figures, least: u64) -> String {
    let user = &step.user;
    let mut text = format!(
        "reduction {}: user {} is short of cover\n",
        grouped(step.number),
        user.id
    );
    text.push_str(&groups::lines(&step.shares));
    text.push_str(&credit_words(step, figures));
    let (level, assigned) = (euros(step.level), euros(user.assigned));
    let target = euros(step.answer.target);
    text.push_str(&format!(
        "  afternoon level {level} - assigned {assigned} = target T {target} EUR\n"
    ));
    let lacking = euros(i128::from(step.level) - i128::from(user.blocked));
    let (blocked, margin) = (euros(user.blocked), euros(figures.margin));
    text.push_str(&format!(
        "  level - blocked {blocked} = {lacking} EUR, above {margin} EUR\n"
    ));
    text.push_str(&called_in_words(step, figures, least));
    let sales = step.tiers.iter().flat_map(|tier| &tier.sales);
    let sellers = sales.map(|sale| sale.trade.seller);
    let has_others = sellers.into_iter().any(|seller| seller != user.id);
    let negative = match step.shares.is_empty() {
        true => "one, where its position is negative",
        false => "one, where the position that it bears is negative",
    };
    for (name, tier) in [negative, "two, elsewhere"].iter().zip(&step.tiers) {
        text.push_str(&tier_words(name, tier, has_others));
    }
    let (mwh, worth) = (grouped(step.answer.mwh), euros(step.answer.worth));
    let left = match (step.answer.short, step.answer.over) {
        (0, 0) => "T is met exactly".to_string(),
        (0, over) => format!("{} EUR over T", euros(over)),
        (short, _) => format!("{} EUR short of T", euros(short)),
    };
    text.push_str(&format!("  cut: {mwh} MWh worth {worth} EUR, {left}\n"));
    let moves = step.moves.iter().map(|it| {
        let (before, after) = (grouped(it.before), grouped(it.after));
        format!("{} {} {before} to {after}", it.id, AREAS[it.area])
    });
    let moves: Vec<String> = moves.collect();
    text.push_str(&format!("  positions: {}\n", moves.join("; ")));
    text.push_str(&match step.next {
        Some(id) => format!("  next: {id}\n\n"),
        None => "  next: nobody\n\n".to_string(),
    });
    text
}

/// How the level comes about where it has credit: a line for each area in which
/// the user is long. The level does not fall below the floor.
fn credit_words(step: &Step, figures: &Figures) -> String {
    let Some(Credited { without, credits }) = &step.credited else {
        return String::new();
    };
    if credits.is_empty() {
        return "  no credit: it is long in no area\n".to_string();
    }
    let credit: u64 = by_area(credits).into_iter().sum();
    let floor = match without.checked_sub(credit) == Some(step.level) {
        true => String::new(),
        false => format!("  a level is at least {} EUR\n", euros(figures.least_level)),
    };
    let without = euros(*without);
    let lines = lines(credits);
    format!("  level without credit {without} EUR\n{lines}{floor}")
}

fn called_in_words(step: &Step, figures: &Figures, least: u64) -> String {
    let called_in = &step.called_in;
    let mut reasons = Vec::new();
    if called_in.is_flagged() {
        let (worth, limit) = (euros(called_in.short_worth), euros(called_in.limit));
        let (mwh, price) = (grouped(figures.flag_mwh), euros(least));
        reasons.push(format!(
            "flagged, its short positions less blocked are worth {worth} EUR, above {limit} EUR \
             ({mwh} MWh at {price})"
        ));
    }
    if called_in.is_party() {
        let members: Vec<String> = called_in.members.iter().map(u32::to_string).collect();
        let through = match members.is_empty() {
            true => String::new(),
            false => {
                let ending = if members.len() == 1 { "" } else { "s" };
                format!(", through its member{ending} {}", members.join(", "))
            }
        };
        reasons.push(format!("party to a trade standing below notified{through}"));
    }
    format!("  called in: {}\n", reasons.join("; "))
}

/// A tier and its sales; with their sellers where members are among them.
fn tier_words(name: &str, tier: &Tier, has_sellers: bool) -> String {
    if tier.sales.is_empty() {
        return format!("  tier {name}: no sale to cut\n");
    }
    let (asked, worth) = (euros(tier.asked), euros(tier.worth));
    let how = match tier.asked {
        0 => "is asked for nothing".to_string(),
        _ if tier.asked >= tier.worth => format!("asked for {asked}, worth {worth} EUR: cut whole"),
        _ => format!("asked for A {asked} of V {worth} EUR: shares of standing x A / V"),
    };
    let cells = |sale: &Sale| sale_cells(sale, has_sellers);
    let rows: Vec<Vec<String>> = tier.sales.iter().map(cells).collect();
    format!("  tier {name}: {how}\n{}", aligned(&rows))
}

fn sale_cells(sale: &Sale, has_seller: bool) -> Vec<String> {
    let trade = &sale.trade;
    let (comma, seller) = match has_seller {
        true => (",", trade.seller.to_string()),
        false => ("", String::new()),
    };
    vec![
        "    trade".to_string(),
        format!("{}{comma}", sale.place + 1),
        seller,
        "to".to_string(),
        trade.buyer.to_string(),
        word(&AREAS, trade.area),
        "standing".to_string(),
        grouped(trade.standing),
        "share".to_string(),
        grouped(sale.share),
        "remainder".to_string(),
        i128::try_from(sale.remainder).map_or_else(|_| sale.remainder.to_string(), grouped),
        "cut".to_string(),
        grouped(sale.cut),
    ]
}
