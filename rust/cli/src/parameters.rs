//! `daybook store`: a store of parameter sets as text, and back.
//!
//! ```text
//! parameters 1
//! from 2026-01-01 flag 30,000 margin 10,000.00 least 100,000.00
//! ```

use daybook::{Book, Operator, Prices, Refusal, User};

use crate::arguments::Arguments;
use crate::files;
use crate::form::Form;
use crate::other_forms::output;
use crate::outcome::{Failure, Outcome};
use crate::refusals;
use daybook_text::draft::{too_long, Mistake, MOST_MISTAKES};
use daybook_text::json::Object;
use daybook_text::store::{malformed, sets, to_bytes, Figures, Set, TODAY};
use daybook_text::text::{aligned, mistake, starts_with_word, Words};
use daybook_text::words::{date, euros, grouped};

/// The word that a store's text starts with.
const FIRST: &str = "parameters";

pub fn store(arguments: &Arguments) -> Result<Outcome, Failure> {
    let usage = "store FILE [-o FILE [--force]] or store FILE --csv|--json";
    arguments.expect(1, 1, usage)?;
    let form = Form::of(arguments)?;
    if form != Form::Words && (arguments.has("-o") || arguments.has("--force")) {
        return Err(Failure::misuse("--csv and --json tell a store, without -o"));
    }
    let path = arguments.file(0);
    let (name, bytes) = (files::shown(path), files::read(path)?);
    let is_text = is_text(&bytes);
    let store = from_file(&name, bytes)?;
    if let Some(refusal) = refusal(&store) {
        let reason = malformed(&store).unwrap_or_default();
        return Err(refusals::of_store(&name, refusal, &reason));
    }
    if form != Form::Words {
        return Ok(told(&name, &store, form));
    }
    match is_text {
        false => output(arguments, write(&store).as_bytes()),
        true if arguments.has("-o") => output(arguments, &store),
        true => Err(Failure::misuse(format!(
            "usage: daybook {usage}; a text needs -o"
        ))),
    }
}

/// The sets of a store, an object or a row each, after how many there are.
fn told(name: &str, store: &[u8], form: Form) -> Outcome {
    let mut outcome = Outcome::default();
    let sets = sets(store);
    if form == Form::Json {
        let object = Object::new().string("store", name).put("number", 0);
        outcome.line(object.put("sets", sets.len()).end());
    }
    let object = |place: usize, set: &Set| {
        Object::new()
            .put("set", place + 1)
            .string("from", &date(set.first_date))
            .put("flag_mwh", set.figures.flag_mwh)
            .put("margin_cents", set.figures.margin)
            .put("least_cents", set.figures.least_level)
    };
    if let (Form::Csv, []) = (form, sets.as_slice()) {
        let (first_date, figures) = (0, TODAY);
        outcome.heads(&object(
            0,
            &Set {
                first_date,
                figures,
            },
        ));
    }
    for (place, set) in sets.iter().enumerate() {
        let object = object(place, set);
        outcome.object(
            form,
            match form {
                Form::Json => object.about("store", name),
                _ => object,
            },
        );
    }
    outcome
}

/// The store of a file's bytes: a store already, or its text form.
pub fn from_file(name: &str, bytes: Vec<u8>) -> Result<Vec<u8>, Failure> {
    match is_text(&bytes) {
        true => read(&bytes).map_err(|mistakes| refusals::of_text(name, &mistakes)),
        false => Ok(bytes),
    }
}

fn is_text(bytes: &[u8]) -> bool {
    starts_with_word(bytes, FIRST)
}

/// The engine's word on the form of a store: that of a call on a book of the last
/// day, for which every first date has come.
pub fn refusal(store: &[u8]) -> Option<Refusal> {
    let book = Book {
        version: 1,
        date: 20_991_231,
        prices: Prices {
            pvb_tariff: 1,
            tank_and_store_tariff: 1,
            ..Prices::default()
        },
        users: vec![User {
            id: 1,
            ..User::default()
        }],
        trades: Vec::new(),
    };
    let mut bytes = vec![0; book.length()];
    daybook::write(&book, &mut bytes).ok()?;
    let refused = Operator::new().store(store).record(&bytes, 1).err();
    refused.filter(|refusal| *refusal == Refusal::StoreForm)
}

/// The text of a well formed store.
pub fn write(store: &[u8]) -> String {
    let cells = |set: &Set| {
        let Figures {
            flag_mwh,
            margin,
            least_level,
        } = set.figures;
        let words = [
            "from".to_string(),
            date(set.first_date),
            "flag".to_string(),
            grouped(flag_mwh),
            "margin".to_string(),
            euros(margin),
            "least".to_string(),
            euros(least_level),
        ];
        words.to_vec()
    };
    let rows: Vec<Vec<String>> = sets(store).iter().map(cells).collect();
    format!("{FIRST} 1\n{}", aligned(&rows))
}

/// The store of a text, or its mistakes. The engine says whether it is well formed.
pub fn read(bytes: &[u8]) -> Result<Vec<u8>, Vec<Mistake>> {
    if let Some(mistake) = too_long("", bytes) {
        return Err(vec![mistake]);
    }
    let text = String::from_utf8_lossy(bytes);
    let (mut sets, mut mistakes, mut first) = (Vec::new(), Vec::new(), true);
    let mut version: u16 = 1;
    for (place, line) in text.trim_start_matches('\u{feff}').lines().enumerate() {
        let mut words = Words::new(line, place + 1);
        if words.is_done() {
            continue;
        }
        let read = match first {
            true => start(&mut words).map(|read| version = read),
            false => set(&mut words).map(|set| sets.push(set)),
        };
        first = false;
        mistakes.append(&mut words.mistakes);
        mistakes.extend(read.err());
        if mistakes.len() >= MOST_MISTAKES {
            mistakes.truncate(MOST_MISTAKES);
            break;
        }
    }
    match mistakes.is_empty() {
        true => Ok(to_bytes(version, &sets)),
        false => Err(mistakes),
    }
}

fn start(words: &mut Words) -> Result<u16, Mistake> {
    words.exactly(FIRST)?;
    let (version, _) = words.fitting("the version")?;
    words.end()?;
    Ok(version)
}

fn set(words: &mut Words) -> Result<Set, Mistake> {
    words.exactly("from")?;
    let first_date = words.date()?;
    let mut figures = [None; 3];
    while !words.is_done() {
        let (name, spot) = words.next("a figure")?;
        let place = ["flag", "margin", "least"]
            .iter()
            .position(|it| *it == name);
        let reason = match place {
            None => "a figure is `flag`, `margin` or `least`".to_string(),
            Some(place) if figures[place].is_some() => format!("a second {name}"),
            Some(0) => {
                figures[0] = Some(u64::from(words.fitting::<u32>(name)?.0));
                continue;
            }
            Some(place) => {
                figures[place] = Some(words.money::<u64>(name)?.0);
                continue;
            }
        };
        return Err(mistake(spot, reason));
    }
    let [Some(flag), Some(margin), Some(least_level)] = figures else {
        let reason = "a set has `flag MWH`, `margin EUR` and `least EUR`";
        return Err(mistake(words.spot(), reason.to_string()));
    };
    Ok(Set {
        first_date,
        figures: Figures {
            flag_mwh: u32::try_from(flag).unwrap_or(u32::MAX),
            margin,
            least_level,
        },
    })
}
