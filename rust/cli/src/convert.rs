//! `daybook convert`: a book of one version as another.

use daybook::{Book, Operator, Refusal, Version};

use crate::advice::of_question;
use crate::arguments::Arguments;
use crate::files;
use crate::made::{hold, put, read};
use crate::outcome::{Failure, Outcome};
use crate::reasons::book_word;
use crate::refusals;
use crate::source::{accepted, Source};
use daybook_text::fields::{
    has_managers, has_selling_tariffs, prices, COMMON_PRICES, PRICES, VERSIONS,
};
use daybook_text::words::{euros, AREAS};

/// How many fields the change that drops them is told for.
const MOST_TOLD: usize = 4;

pub fn convert(arguments: &Arguments) -> Result<Outcome, Failure> {
    let usage = "convert BOOK --to VERSION -o FILE [--force]";
    arguments.expect(1, 1, usage)?;
    let (Some(to), Some(output)) = (arguments.number("--to")?, arguments.path("-o")) else {
        return Err(Failure::misuse(format!("usage: daybook {usage}")));
    };
    let path = arguments.file(0);
    let held = hold(arguments, &output)?;
    let source = accepted(&files::shown(path), read(path, &held)?)?;
    let version = u16::try_from(to).ok().and_then(Version::from_number);
    let Some(version) = version else {
        let reason = format!("version {to}, the engine knows {VERSIONS}");
        let refusal = Refusal::TargetVersion;
        let advice = of_question(refusal);
        return Err(refusals::of_conversion(
            &source.name,
            refusal,
            &[],
            &reason,
            advice,
        ));
    };
    match Operator::new().convert(&source.bytes, version) {
        Ok(bytes) => {
            let mut outcome = put(arguments, &output, &bytes, &held)?;
            outcome.note(&source);
            Ok(outcome)
        }
        Err(refusal) => Err(lost_in(&source, version.number(), refusal)),
    }
}

/// A conversion that loses information: each field, and how it is dropped.
fn lost_in(source: &Source, version: u16, refusal: Refusal) -> Failure {
    let book = Operator::new().read(&source.bytes).unwrap_or_default();
    let lost = lost(&book, version);
    let advice = match lost.len() <= MOST_TOLD {
        true => {
            let changes: Vec<String> = lost.iter().map(Lost::change).collect();
            let book = book_word(source);
            format!("`daybook change {book} {} -o FILE`", changes.join(" "))
        }
        false => format!("`daybook change {} CHANGE.. -o FILE`", book_word(source)),
    };
    let them = if lost.len() == 1 { "it" } else { "them" };
    let advice = format!("{advice} drops {them}, and its answers may then be others");
    refusals::of_conversion(&source.name, refusal, &lost, "", &advice)
}

/// A field that a version has no place for, and that is not 0.
#[derive(Clone, Debug, PartialEq, Eq)]
pub enum Lost {
    /// The name of a selling tariff, and its cents.
    Tariff(&'static str, u32),
    /// A user's place from 1 on and its id, the area, and the manager there.
    Manager(usize, u32, &'static str, u32),
}

impl Lost {
    /// The field in a line.
    pub fn told(&self) -> String {
        match self {
            Lost::Tariff(name, cents) => {
                format!("header: {name} {} EUR/MWh would be lost", euros(*cents))
            }
            Lost::Manager(place, id, area, manager) => {
                format!("user {place}, id {id}: manager {area} {manager} would be lost")
            }
        }
    }

    /// The change of the book that drops it.
    fn change(&self) -> String {
        match self {
            Lost::Tariff(name, _) => format!("'prices {name} 0.00'"),
            Lost::Manager(_, id, area, _) => format!("'user {id} manager {area} none'"),
        }
    }
}

/// What a book of this version would lose of an accepted book, in its order.
pub fn lost(book: &Book, version: u16) -> Vec<Lost> {
    let mut lost = Vec::new();
    if has_selling_tariffs(version) == Some(false) {
        let tariffs = PRICES.into_iter().zip(prices(book)).skip(COMMON_PRICES);
        let tariffs = tariffs.filter(|(_, cents)| *cents != 0);
        lost.extend(tariffs.map(|(name, cents)| Lost::Tariff(name, cents)));
    }
    if has_managers(version) == Some(false) {
        for (place, user) in book.users.iter().enumerate() {
            let managers = AREAS.into_iter().zip(user.managers);
            let managers = managers.filter(|(_, manager)| *manager != 0);
            let found = managers.map(|(area, it)| Lost::Manager(place + 1, user.id, area, it));
            lost.extend(found);
        }
    }
    lost
}
