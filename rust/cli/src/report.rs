//! `daybook report`: the day of a book as one page that needs nothing beside it.

use daybook::Operator;

use crate::arguments::Arguments;
use crate::day::{deposits, standings, Deposits, Standing};
use crate::day_tables::{trade_place, trades, users};
use crate::explain::MOST;
use crate::files;
use crate::other_forms::output;
use crate::outcome::{Failure, Outcome};
use crate::page::{
    escaped, foot, link, page, reduction_place, row, section, table, tiles, user_link,
};
use crate::picture::{picture_place, pictures, Picture};
use crate::reasons::Asked;
use crate::refusals::{self, of_call};
use crate::refused_page;
use crate::source::{given, verdict, Given, Source, Store, Verdict};
use crate::to_do::Due;
use daybook_text::credit::has_credit;
use daybook_text::fields::{prices, PRICES};
use daybook_text::groups::has_groups;
use daybook_text::store::{figures, Figures};
use daybook_text::trace::{trace, Extent, Step, Trace};
use daybook_text::words::{counted, date, euros, grouped};

/// How many reductions are shown of a long run.
const FIRST: usize = 30;
const LAST: usize = 10;

/// How many are shown of any run where all are asked for: no page has more.
const MOST_SHOWN: usize = 10_000;

pub fn report(arguments: &Arguments) -> Result<Outcome, Failure> {
    let usage = "report BOOK -o FILE.html [--all] [--steps N] [--store FILE] [--force]";
    arguments.expect(1, 1, usage)?;
    if !arguments.has("-o") {
        return Err(Failure::misuse(format!("usage: daybook {usage}")));
    }
    let path = arguments.file(0);
    let (name, given) = (files::shown(path), given(path)?);
    let foot = match &given {
        Given::File(bytes) => foot("File", Some(bytes)),
        Given::Tables(_) => foot("", None),
    };
    let source = match verdict(&name, given) {
        Verdict::Accepted(source) => source,
        Verdict::Refused(refusal, faults) => {
            let page = refused_page::of_book(&name, refusal, &faults, &foot);
            return refused(
                arguments,
                &page,
                &refusals::of_book(&name, refusal, &faults),
            );
        }
        Verdict::Unread(mistakes) => {
            let page = refused_page::of_text(&name, &mistakes, &foot);
            return refused(arguments, &page, &refusals::of_text(&name, &mistakes));
        }
    };
    let store = Store::open(arguments.path("--store").as_deref())?;
    let most = arguments.number("--steps")?.unwrap_or(MOST);
    let (first, last) = match arguments.has("--all") {
        true => (MOST_SHOWN, 0),
        false => (FIRST, LAST),
    };
    let extent = Extent {
        first,
        last,
        chapters: (first, last),
        most,
    };
    let failed = |refusal| of_call(&source, &store, None, Asked::Plain, refusal);
    let mut operator = store.operator();
    let book = Operator::new().read(&source.bytes).map_err(failed)?;
    let figures = figures(store.bytes.as_deref(), book.date);
    let trace = trace(operator.without_log(), &figures, &source.bytes, extent).map_err(failed)?;
    let mut after = source.bytes.clone();
    operator.run(&mut after).map_err(failed)?;
    let before = standings(&operator, &source.bytes, &trace.opening).map_err(failed)?;
    let day = Day {
        deposits: deposits(&operator, &trace.opening, &before),
        before,
        after: standings(&operator, &after, &trace.closing).map_err(failed)?,
        source: &source,
        trace: &trace,
        figures,
        is_all: arguments.has("--all"),
    };
    let mut outcome = output(arguments, day.page().as_bytes())?;
    outcome.note(&source);
    Ok(outcome)
}

/// Writes the page of a refused book, and tells the refusal.
fn refused(arguments: &Arguments, page: &str, failure: &Failure) -> Result<Outcome, Failure> {
    let mut outcome = output(arguments, page.as_bytes())?;
    outcome.fail(failure, false);
    Ok(outcome)
}

/// What the page tells.
struct Day<'a> {
    source: &'a Source,
    before: Vec<Standing>,
    deposits: Deposits,
    after: Vec<Standing>,
    trace: &'a Trace,
    figures: Figures,
    /// Whether trades that were not cut are shown too.
    is_all: bool,
}

impl Day<'_> {
    fn page(&self) -> String {
        let due = Due {
            source: self.source,
            before: &self.before,
            deposits: &self.deposits,
            after: &self.after,
        };
        let ids = self.trace.closing.users.iter().map(|user| user.id);
        let states: Vec<(u32, &'static str)> =
            ids.zip(self.after.iter().map(|it| it.state.word)).collect();
        let pictures = pictures(self.trace, &states);
        let parts = [
            self.opening(),
            due.section(),
            self.run(),
            self.chains(&pictures),
            self.reductions(&pictures),
            users(self.source, self.trace, &self.before, &self.after),
            trades(self.trace, self.is_all),
            self.terms(),
        ];
        let title = format!("Gas day {}", date(self.trace.opening.date));
        page(
            &title,
            &parts.concat(),
            &foot("Book", Some(&self.source.bytes)),
        )
    }

    fn opening(&self) -> String {
        let opening = &self.trace.opening;
        let users = counted(opening.users.len(), "user");
        let trades = counted(opening.trades.len(), "trade");
        format!(
            "<p>{}: {users}, {trades}.</p>\n",
            escaped(&self.source.name)
        )
    }

    /// The run in a few figures.
    fn run(&self) -> String {
        let run = &self.trace.run;
        let reductions = match run.reductions {
            1 => "reduction",
            _ => "reductions",
        };
        let figures = [
            (grouped(run.reductions), reductions.to_string()),
            (grouped(run.mwh), "MWh cut".to_string()),
            (euros(run.worth), "EUR worth".to_string()),
        ];
        let counts = ["short", "call", "quiet"].map(|word| {
            let is_such = |it: &&Standing| it.state.word == word;
            let count = self.after.iter().filter(is_such).count();
            (count.to_string(), format!("{word} at the end"))
        });
        let tiles = tiles(&[&figures[..], &counts[..]].concat());
        section("run", "The run", &(tiles + &self.causes()))
    }

    /// How many were reduced by themselves, and how many after a cut.
    fn causes(&self) -> String {
        let (alone, after) = self.trace.causes;
        let (alone, after) = match (alone, after) {
            (0, 0) => return String::new(),
            (alone, after) => (grouped(alone), grouped(after)),
        };
        let taken = match self.trace.taken < self.trace.run.reductions {
            true => format!(" of the first {}", grouped(self.trace.taken)),
            false => String::new(),
        };
        format!(
            "<p>Reductions{taken} of users that were short of cover by themselves: {alone}; of \
             users that an earlier cut had left short: {after}.</p>\n"
        )
    }

    fn chains(&self, pictures: &[Picture]) -> String {
        let title = "Chains of cuts";
        if pictures.is_empty() {
            return section("chains", title, "<p>No trade was cut.</p>\n");
        }
        let groups = match has_groups(&self.trace.opening) {
            true => {
                " Members stand beside their manager, under a bracket; a dashed line leads from \
                 a manager who was reduced to the member whose sale was cut for it."
            }
            false => "",
        };
        let svgs: String = pictures.iter().map(|it| it.svg.as_str()).collect();
        let body = format!(
            "<p>Down the page in the order of the reductions, whose numbers stand in the dark \
             marks: each arrow is a cut, from the seller who was reduced to the buyer who lost \
             it. Below a user's name stands its state after the run.{groups}</p>\n\
             <div class=\"scroll\">{svgs}</div>\n"
        );
        section("chains", title, &body)
    }

    fn reductions(&self, pictures: &[Picture]) -> String {
        let Trace {
            first, last, run, ..
        } = self.trace;
        if first.is_empty() {
            return String::new();
        }
        let told = |step: &Step| self.reduction(step, pictures);
        let mut rows: Vec<String> = first.iter().map(told).collect();
        let shown = u64::try_from(first.len() + last.len()).unwrap_or(u64::MAX);
        let unshown = run.reductions.saturating_sub(shown);
        if unshown > 0 {
            let unshown = grouped(unshown);
            rows.push(format!(
                "<tr><td colspan=\"8\" class=\"gap\">… {unshown} more …</td></tr>\n"
            ));
        }
        rows.extend(last.iter().map(told));
        let names = [
            "",
            "user",
            "because of",
            "level",
            "target T",
            "MWh cut",
            "worth",
            "against T",
        ];
        let bought = match has_groups(&self.trace.opening) {
            true => "the user, or one whose risk it bears, had bought",
            false => "the user had bought",
        };
        let caption = format!("In their order; because of: the last earlier cut of what {bought}");
        let table = table(&caption, &names, &rows.concat());
        section("reductions", "Reductions", &table)
    }

    fn reduction(&self, step: &Step, pictures: &[Picture]) -> String {
        let against = match (step.answer.short, step.answer.over) {
            (0, 0) => "met".to_string(),
            (0, over) => format!("{} over", euros(over)),
            (short, _) => format!("{} short", euros(short)),
        };
        let picture = pictures.iter().position(|it| it.shows(step.number));
        let number = match picture {
            Some(place) => link(&picture_place(place + 1), &grouped(step.number)),
            None => grouped(step.number),
        };
        row(
            Some(&reduction_place(step.number)),
            &[
                number,
                user_link(step.user.id),
                self.cause(step),
                euros(step.level),
                euros(step.answer.target),
                grouped(step.answer.mwh),
                euros(step.answer.worth),
                against,
            ],
        )
    }

    /// The earlier cut that left the user of a reduction short of cover.
    fn cause(&self, step: &Step) -> String {
        let Some(cause) = step.cause else {
            return "itself".to_string();
        };
        let mut steps = self.trace.first.iter().chain(&self.trace.last);
        let reduction = format!("reduction {}", grouped(cause.reduction));
        let reduction = match steps.any(|it| it.number == cause.reduction) {
            true => link(&reduction_place(cause.reduction), &reduction),
            false => reduction,
        };
        let trade = link(
            &trade_place(cause.trade),
            &format!("trade {}", cause.trade + 1),
        );
        format!("{reduction}, {trade}")
    }

    fn terms(&self) -> String {
        let opening = &self.trace.opening;
        let priced = PRICES.iter().zip(prices(opening));
        let priced: Vec<String> = priced
            .map(|(name, price)| format!("{name} {}", euros(price)))
            .collect();
        let priced = priced.join(", ");
        let credit = match has_credit(opening) {
            true => {
                ", after the credit for long positions, at S in PVB and at U in TVB and AVB, \
                 which does not take it below that"
            }
            false => "",
        };
        let groups = match has_groups(opening) {
            true => {
                "<p>In an area where it manages others a user bears their risk with its own: \
                 level, credit, flag and reductions are of all their positions together, and \
                 a managed user counts 0 there. Positions, charges and guarantees are each \
                 user's own.</p>\n"
            }
            false => "",
        };
        let Figures {
            flag_mwh,
            margin,
            least_level,
        } = self.figures;
        let (mwh, margin, least) = (grouped(flag_mwh), euros(margin), euros(least_level));
        let taken = match self.trace.taken < self.trace.run.reductions {
            true => format!(
                " The run was taken apart up to reduction {}; the totals are those of the whole.",
                grouped(self.trace.taken)
            ),
            false => String::new(),
        };
        let body = format!(
            "<p>MWh, euros; prices in euros a MWh: {priced}. Level: the \
             afternoon level, at least {least}{credit}. Flagged above {mwh} MWh at the \
             least reference price; called where the level exceeds blocked by more than \
             {margin}.</p>\n<p><i>short</i>: short of cover, with no sale left to cut after the \
             run. <i>call</i>: called in, and its assigned guarantee covers the level. \
             <i>quiet</i>: neither. <i>clear</i>: a clearing house.</p>\n{groups}<p>Figures by the \
             proved engine.{taken}</p>\n"
        );
        section("terms", "Terms", &body)
    }
}
