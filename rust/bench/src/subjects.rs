//! The books that calls are measured on.

use books::versions::in_version_2;
use books::written::{asked_for, book, covered, sale, shipper};
use books::{Generator, Random};
use reference::book::Book;

use crate::calls::FEW_TRIES;
use crate::options::Options;

/// A book, and a user for each call such that it is accepted.
pub struct Subject {
    pub name: &'static str,
    pub version: u16,
    pub book: Vec<u8>,
    /// The id for the level and the guarantee call.
    pub called: u32,
    /// The id for the reduction.
    pub reduced: u32,
    /// The id for the whole cancellation, if some user's is accepted.
    pub cancelled: Option<u32>,
    /// The reductions of the run.
    pub reductions: u64,
}

/// Small, usual and largest book of versions 1 and 2, as chosen.
pub fn usual_books(options: &Options) -> Vec<Subject> {
    let versions = [1, 2].into_iter();
    let versions = versions.filter(|version| options.versions.contains(version));
    versions
        .flat_map(|version| books(options, version))
        .collect()
}

/// Those of version 2 which are made ones of version 3 with groups, if version 3 is
/// chosen.
pub fn books_for_groups(options: &Options) -> Vec<Subject> {
    match options.versions.contains(&3) {
        true => books(options, 2),
        false => Vec::new(),
    }
}

/// Small, usual and largest book of a version, as chosen.
fn books(options: &Options, version: u16) -> Vec<Subject> {
    let sizes = [("small", 8, 20), ("usual", 30, 90), ("largest", 64, 256)].into_iter();
    let sizes = sizes.filter(|(name, _, _)| options.has_book(name));
    sizes
        .map(|size| usual_book(options.seed, version, size))
        .collect()
}

/// The first book of this size, from a seed on, on which every call is accepted
/// for some user and the run takes one reduction for four to eight users. In
/// version 2 it has the users and trades of one of version 1, their levels too
/// before any call: their charges are higher by their credits.
fn usual_book(
    seed: u64,
    version: u16,
    (name, users, trades): (&'static str, usize, usize),
) -> Subject {
    (seed..)
        .find_map(|seed| {
            let book = Generator::new(seed).sized(1, users, trades);
            let book = in_version(version, book);
            let subject = subject(name, version, book.to_bytes())?;
            let users = u64::try_from(users).unwrap_or(u64::MAX);
            let wanted = users / 8..=users / 4;
            wanted.contains(&subject.reductions).then_some(subject)
        })
        .expect("a book among those of every seed")
}

/// The book with the first users whose afternoon call and whose reduction is
/// accepted, if there are such.
fn subject(name: &'static str, version: u16, book: Vec<u8>) -> Option<Subject> {
    let ids = || tuned::read(&book).into_iter().flat_map(|book| book.users);
    let called = ids().find(|user| tuned::afternoon_call(&mut book.clone(), user.id).is_ok())?;
    let reduced = ids().find(|user| tuned::reduction(&mut book.clone(), user.id).is_ok())?;
    let cancelled = ids().find(|user| tuned::cancellation(&book, None, user.id, FEW_TRIES).is_ok());
    let reductions = tuned::run(&mut book.clone()).ok()?.reductions;
    Some(Subject {
        name,
        version,
        called: called.id,
        reduced: reduced.id,
        cancelled: cancelled.map(|user| user.id),
        reductions,
        book,
    })
}

/// 256 sales of one seller in every area, of sizes up to 100,000 MWh, to 63
/// buyers. The seller is asked for half of what the sales are worth, so that
/// whole parts and remainders of every sale count.
pub fn wide(version: u16) -> Subject {
    let mut random = Random::new(1);
    let mut users = vec![shipper(1, [0; 3], 0, 0, 0)];
    users.extend((2..=64).map(covered));
    let trades = (0..256).map(|_| {
        let buyer = 2 + random.word() % 63;
        let area = random.pick(&[0, 1, 2]);
        sale(1, buyer, area, random.between(1, 100_000))
    });
    let book = book(users, trades.collect());
    let worth = worth_of_sales(&book);
    let book = asked_for(worth / 2, book);
    Subject {
        name: "wide",
        version,
        book: in_version(version, book).to_bytes(),
        called: 1,
        reduced: 1,
        cancelled: Some(1),
        reductions: 1,
    }
}

/// A book of version 1 in this version.
pub fn in_version(version: u16, book: Book) -> Book {
    match version {
        2 => in_version_2(&book),
        _ => book,
    }
}

/// What the sales of a book are worth at their tariffs.
fn worth_of_sales(book: &Book) -> i128 {
    let worth = |trade: &reference::book::Trade| (trade.standing * trade.tariff(&book.prices)).0;
    book.trades.iter().map(worth).sum()
}
