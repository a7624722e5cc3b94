//! The commands, each with its options and its help page.

use std::ffi::OsString;

use crate::arguments::{Arguments, Known};
use crate::files::is_standard;
use crate::outcome::{Failure, Outcome};
use crate::{
    calls, cancel, change, check, compare, convert, due, explain, field_wise, list, log,
    other_forms, parameters, report, run, shrinkage, status, table, told, withdraw,
};

/// A command of the program.
pub struct Command {
    pub name: &'static str,
    /// One line about it.
    pub about: &'static str,
    /// Its help page.
    pub page: &'static str,
    options: &'static [Known],
    run: fn(&Arguments) -> Result<Outcome, Failure>,
}

const JSON: Known = Known::Flag("--json");
const CSV: Known = Known::Flag("--csv");
const STORE: Known = Known::Value("--store");
const OUTPUT: Known = Known::Value("-o");
const FORCE: Known = Known::Flag("--force");
const IN_PLACE: Known = Known::Flag("--in-place");
const ANSWERING: &[Known] = &[STORE, CSV, JSON];
const AS: Known = Known::Value("--as");
const TELLING: &[Known] = &[AS, STORE, CSV, JSON];
const LOG: Known = Known::Value("--log");
const CHANGING: &[Known] = &[STORE, LOG, CSV, JSON, OUTPUT, FORCE, IN_PLACE];

/// Every command, in the order of the help.
pub const COMMANDS: &[Command] = &[
    Command {
        name: "check",
        about: "is a book accepted, and if not, where does it fail?",
        page: include_str!("../help/check.txt"),
        options: ANSWERING,
        run: check::check,
    },
    Command {
        name: "text",
        about: "a book as plain text",
        page: include_str!("../help/text.txt"),
        options: &[Known::Flag("--positions"), OUTPUT, FORCE],
        run: other_forms::text,
    },
    Command {
        name: "book",
        about: "a book from plain text",
        page: include_str!("../help/book.txt"),
        options: &[OUTPUT, FORCE],
        run: other_forms::book,
    },
    Command {
        name: "csv",
        about: "a book as three CSV files for a spreadsheet",
        page: include_str!("../help/csv.txt"),
        options: &[Known::Flag("--semicolon"), FORCE],
        run: other_forms::csv,
    },
    Command {
        name: "from-csv",
        about: "a book from three CSV files",
        page: include_str!("../help/from-csv.txt"),
        options: &[Known::Value("--dates"), OUTPUT, FORCE],
        run: other_forms::from_csv,
    },
    Command {
        name: "convert",
        about: "a book of one version as another",
        page: include_str!("../help/convert.txt"),
        options: &[Known::Value("--to"), OUTPUT, FORCE],
        run: convert::convert,
    },
    Command {
        name: "fields",
        about: "a book field by field for an archive, and back; one field of all records",
        page: include_str!("../help/fields.txt"),
        options: &[Known::Value("--column"), OUTPUT, FORCE, CSV, JSON],
        run: field_wise::fields,
    },
    Command {
        name: "status",
        about: "who is short, who is to be called, what deposits keep every trade",
        page: include_str!("../help/status.txt"),
        options: &[
            Known::Flag("--after"),
            Known::Value("--why"),
            CSV,
            JSON,
            STORE,
        ],
        run: status::status,
    },
    Command {
        name: "table",
        about: "many books side by side, a row each",
        page: include_str!("../help/table.txt"),
        options: &[CSV, JSON, STORE],
        run: table::table,
    },
    Command {
        name: "compare",
        about: "what differs between two books, or between their runs",
        page: include_str!("../help/compare.txt"),
        options: &[Known::Flag("--run"), CSV, JSON, STORE],
        run: compare::compare,
    },
    Command {
        name: "change",
        about: "fields of a book set anew, in the words of the text form",
        page: include_str!("../help/change.txt"),
        options: &[OUTPUT, FORCE, IN_PLACE, CSV, JSON],
        run: change::change,
    },
    Command {
        name: "show",
        about: "the records of users",
        page: include_str!("../help/show.txt"),
        options: TELLING,
        run: calls::show,
    },
    Command {
        name: "level",
        about: "the morning and the afternoon level of shippers",
        page: include_str!("../help/level.txt"),
        options: TELLING,
        run: calls::level,
    },
    Command {
        name: "flag",
        about: "which shippers are flagged",
        page: include_str!("../help/flag.txt"),
        options: TELLING,
        run: told::flag,
    },
    Command {
        name: "trades",
        about: "the trades that a shipper may see",
        page: include_str!("../help/trades.txt"),
        options: TELLING,
        run: told::trades,
    },
    Command {
        name: "warn",
        about: "which shippers are warned at midday",
        page: include_str!("../help/warn.txt"),
        options: ANSWERING,
        run: calls::warn,
    },
    Command {
        name: "call",
        about: "a guarantee call on a shipper",
        page: include_str!("../help/call.txt"),
        options: &[
            Known::Flag("--morning"),
            Known::Flag("--afternoon"),
            CSV,
            STORE,
            LOG,
            JSON,
            OUTPUT,
            FORCE,
            IN_PLACE,
        ],
        run: calls::guarantee_call,
    },
    Command {
        name: "calls",
        about: "every guarantee call that is due, made at once",
        page: include_str!("../help/calls.txt"),
        options: &[
            Known::Flag("--morning"),
            Known::Flag("--afternoon"),
            CSV,
            STORE,
            LOG,
            JSON,
            OUTPUT,
            FORCE,
            IN_PLACE,
        ],
        run: due::calls,
    },
    Command {
        name: "post",
        about: "MWh added to a user's physical entry in an area",
        page: include_str!("../help/post.txt"),
        options: CHANGING,
        run: calls::post,
    },
    Command {
        name: "list",
        about: "the corrections of a CSV file posted one after another",
        page: include_str!("../help/list.txt"),
        options: CHANGING,
        run: list::list,
    },
    Command {
        name: "reduce",
        about: "one shipper's sales cut until the level is covered",
        page: include_str!("../help/reduce.txt"),
        options: CHANGING,
        run: calls::reduce,
    },
    Command {
        name: "cancel",
        about: "whole trades to cancel in place of a reduction",
        page: include_str!("../help/cancel.txt"),
        options: &[Known::Value("--tries"), STORE, CSV, JSON],
        run: cancel::cancel,
    },
    Command {
        name: "run",
        about: "the day's reductions, and each user's state after them",
        page: include_str!("../help/run.txt"),
        options: CHANGING,
        run: run::run,
    },
    Command {
        name: "log",
        about: "a log of reductions: started for a book, told, its book written out",
        page: include_str!("../help/log.txt"),
        options: &[Known::Flag("--held"), OUTPUT, FORCE, CSV, JSON],
        run: log::log,
    },
    Command {
        name: "withdraw",
        about: "the last reduction that a log has noted, withdrawn",
        page: include_str!("../help/withdraw.txt"),
        options: &[
            Known::Flag("--all"),
            STORE,
            LOG,
            CSV,
            JSON,
            OUTPUT,
            FORCE,
            IN_PLACE,
        ],
        run: withdraw::withdraw,
    },
    Command {
        name: "explain",
        about: "a run reduction by reduction: who was short, and what was cut",
        page: include_str!("../help/explain.txt"),
        options: &[
            Known::Flag("--all"),
            Known::Value("--steps"),
            STORE,
            CSV,
            JSON,
        ],
        run: explain::explain,
    },
    Command {
        name: "report",
        about: "a page about the day: figures, chains of cuts, users, trades",
        page: include_str!("../help/report.txt"),
        options: &[
            OUTPUT,
            FORCE,
            Known::Flag("--all"),
            Known::Value("--steps"),
            STORE,
        ],
        run: report::report,
    },
    Command {
        name: "store",
        about: "a store of parameter sets as text, and from text",
        page: include_str!("../help/store.txt"),
        options: &[OUTPUT, FORCE, CSV, JSON],
        run: parameters::store,
    },
    Command {
        name: "shrinkage",
        about: "the return of retained shrinkage",
        page: include_str!("../help/shrinkage.txt"),
        options: &[Known::Flag("--days"), CSV, JSON],
        run: shrinkage::shrinkage,
    },
];

/// Does what the words of a command line ask for, and keeps the whole answer.
pub fn perform(words: &[OsString]) -> Outcome {
    begin(words).whole()
}

/// The same, but for what is written as it is found.
pub fn begin(words: &[OsString]) -> Outcome {
    let Some((name, rest)) = words.split_first() else {
        return Failure::misuse(overview()).into();
    };
    let is_help = |word: &OsString| word == "--help" || word == "-h";
    match name.to_str() {
        Some("help" | "--help" | "-h") => help(rest),
        Some("--version") => page(&format!("daybook {}\n", env!("CARGO_PKG_VERSION"))),
        _ => match COMMANDS.iter().find(|command| name == command.name) {
            None => {
                let reason = "no such command; `daybook help` has them all";
                Failure::misuse(format!("{}: {reason}", name.display())).into()
            }
            Some(command) if rest.iter().any(is_help) => page(command.page),
            Some(command) => done(command, rest),
        },
    }
}

fn done(command: &Command, words: &[OsString]) -> Outcome {
    let arguments = match Arguments::parse(words, command.options) {
        Ok(arguments) => arguments,
        Err(failure) => return hinted(command, failure).into(),
    };
    let mut outcome = (command.run)(&arguments).unwrap_or_else(|failure| {
        let mut outcome = Outcome::default();
        outcome.fail(&hinted(command, failure), arguments.has("--json"));
        outcome
    });
    let output = arguments.path("-o");
    let is_changing = command.options.contains(&IN_PLACE);
    if is_changing && output.is_some_and(|path| is_standard(&path)) {
        outcome.tell_beside();
    }
    outcome
}

/// Misuse is told with the page that says more.
fn hinted(command: &Command, failure: Failure) -> Failure {
    match failure {
        Failure::Misuse(message) => {
            let more = format!("`daybook help {}` says more", command.name);
            Failure::misuse(format!("{message}\n{more}"))
        }
        other => other,
    }
}

/// The page of a command, or the overview.
fn help(words: &[OsString]) -> Outcome {
    let Some(name) = words.first() else {
        return page(&overview());
    };
    match COMMANDS.iter().find(|command| name == command.name) {
        Some(command) => page(command.page),
        None => Failure::misuse(format!("{}: no such command", name.display())).into(),
    }
}

fn page(text: &str) -> Outcome {
    let mut outcome = Outcome::default();
    outcome.text(text);
    outcome
}

/// All commands, a line each.
fn overview() -> String {
    let mut text = include_str!("../help/daybook.txt").to_string();
    for Command { name, about, .. } in COMMANDS {
        text.push_str(&format!("  {name:10} {about}\n"));
    }
    text.push_str("\n`daybook help COMMAND` has its page.\n");
    text
}
