//! A text read line by line. A mistake is told with its line and column, and the
//! walk goes on with the next line.

use daybook::{Trade, User};

use super::line::{mistake, short, Words};
use super::manager::{no_manager, read_manager};
use super::FIRST;
use crate::draft::{too_long, Draft, Mistake, Spot, Spots, MOST_MISTAKES};
use crate::fields::{
    has_managers, has_selling_tariffs, put_price, Field, COMMON_PRICES, FIRST_LINES, PRICES,
};
use crate::words::{code, AREAS, DAYS, KINDS, ROLES};

/// The fields of a text, or its mistakes.
pub fn read(bytes: &[u8]) -> Result<Draft, Vec<Mistake>> {
    if let Some(mistake) = too_long("", bytes) {
        return Err(vec![mistake]);
    }
    let bytes = bytes.strip_prefix(b"\xef\xbb\xbf").unwrap_or(bytes);
    let text = match std::str::from_utf8(bytes) {
        Ok(text) => text,
        Err(error) => {
            let before = String::from_utf8_lossy(&bytes[..error.valid_up_to()]);
            let reason = "the text is not in UTF-8 here".to_string();
            return Err(vec![Mistake {
                spot: end_of(&before),
                reason,
            }]);
        }
    };
    let mut draft = Draft::default();
    let mut mistakes = Vec::new();
    let mut first = true;
    for (place, line) in text.lines().enumerate() {
        let mut words = Words::new(line, place + 1);
        if words.is_done() {
            continue;
        }
        let read = statement(&mut draft, &mut words, first);
        mistakes.append(&mut words.mistakes);
        mistakes.extend(read.err());
        if mistakes.len() >= MOST_MISTAKES {
            mistakes.truncate(MOST_MISTAKES);
            return Err(mistakes);
        }
        first = false;
    }
    for (field, name) in [
        (Field::Version, FIRST),
        (Field::Date, "date"),
        (Field::Price(0), "prices"),
    ] {
        if mistakes.is_empty() && !draft.has(field) {
            let reason = format!("the text has no line `{name}`");
            mistakes.push(Mistake {
                spot: end_of(text),
                reason,
            });
        }
    }
    match mistakes.is_empty() {
        true => Ok(draft),
        false => Err(mistakes),
    }
}

/// The place after a text.
fn end_of(text: &str) -> Spot {
    let line = text.bytes().filter(|byte| *byte == b'\n').count() + 1;
    let last = text.rsplit('\n').next().unwrap_or("");
    Spot {
        file: "",
        line,
        column: last.chars().count() + 1,
    }
}

/// One line that is not empty.
fn statement(draft: &mut Draft, words: &mut Words, first: bool) -> Result<(), Mistake> {
    let (word, spot) = words.next("a line")?;
    if first && word != FIRST {
        let reason = format!("a text starts with the line {FIRST_LINES}");
        return Err(mistake(spot, reason));
    }
    match word {
        FIRST => {
            once(draft, Field::Version, FIRST, spot)?;
            draft.book.version = words.fitting("the version")?.0;
        }
        "date" => {
            once(draft, Field::Date, "date", spot)?;
            draft.book.date = words.date()?;
        }
        "prices" => {
            if draft.has(Field::Price(0)) {
                return Err(mistake(spot, "a second line `prices`".to_string()));
            }
            read_prices(draft, words)?;
        }
        "user" => {
            let (user, spots) = read_user(draft.book.version, words, spot)?;
            draft.add_user(user, spots);
        }
        "trade" => {
            let (trade, spots) = read_trade(words, spot)?;
            draft.add_trade(trade, spots);
        }
        _ => {
            let reason = "a line starts with `date`, `prices`, `user` or `trade`";
            return Err(mistake(spot, format!("`{}`: {reason}", short(word))));
        }
    }
    words.end()
}

/// Notes a line that a text has once.
fn once(draft: &mut Draft, field: Field, name: &str, spot: Spot) -> Result<(), Mistake> {
    if draft.has(field) {
        return Err(mistake(spot, format!("a second line `{name}`")));
    }
    draft.note(field, spot);
    Ok(())
}

/// The prices, each once, those that a book of the text's version has. A text of
/// a version that the engine does not know may have the selling tariffs or not.
fn read_prices(draft: &mut Draft, words: &mut Words) -> Result<(), Mistake> {
    let version = draft.book.version;
    let selling = has_selling_tariffs(version);
    let mut read: [Option<u32>; PRICES.len()] = [None; PRICES.len()];
    while !words.is_done() {
        let (name, spot) = words.next("a price")?;
        let reason = match PRICES.iter().position(|it| *it == name) {
            None => {
                let names = match selling {
                    Some(false) => &PRICES[..COMMON_PRICES],
                    _ => &PRICES,
                };
                let name = short(name);
                format!("`{name}`: a price is one of {}", names.join(", "))
            }
            Some(place) if place >= COMMON_PRICES && selling == Some(false) => {
                no_selling_tariff(name, version)
            }
            Some(place) if read[place].is_some() => format!("a second {name}"),
            Some(place) => {
                let (price, at) = words.money(name)?;
                read[place] = Some(price);
                draft.note(Field::Price(place), at);
                continue;
            }
        };
        return Err(mistake(spot, reason));
    }
    for (place, price) in read.into_iter().enumerate() {
        match price {
            Some(price) => put_price(&mut draft.book, place, price),
            None if place >= COMMON_PRICES && selling != Some(true) => {}
            None => {
                let reason = format!("{} is missing", PRICES[place]);
                return Err(mistake(words.spot(), reason));
            }
        }
    }
    Ok(())
}

/// What is said of a selling tariff that a version has no bytes for.
pub fn no_selling_tariff(name: &str, version: u16) -> String {
    let known = "versions 2 and 3 have S and U";
    format!("{name}: version {version} has no place for selling tariffs; {known}")
}

fn read_user(version: u16, words: &mut Words, start: Spot) -> Result<(User, Spots), Mistake> {
    let mut user = User::default();
    let mut spots = vec![(Field::ZeroBytes, start)];
    let at;
    (user.id, at) = words.fitting("the id")?;
    spots.push((Field::Id, at));
    let at;
    (user.role, at) = words.code("the role", &ROLES)?;
    spots.push((Field::Role, at));
    while !words.is_done() {
        let (name, spot) = words.next("a field")?;
        match name {
            "physical" => each_area(words, Field::Physical, &mut spots, |words, area| {
                let at;
                (user.physical[area], at) = words.fitting(&Field::Physical(area).to_string())?;
                Ok(at)
            })?,
            "position" => each_area(words, Field::Position, &mut spots, |words, area| {
                let at;
                (user.position[area], at) = words.fitting(&Field::Position(area).to_string())?;
                Ok(at)
            })?,
            "manager" if has_managers(version) == Some(false) => {
                return Err(mistake(spot, no_manager(name, version)));
            }
            "manager" => each_area(words, Field::Manager, &mut spots, |words, area| {
                let at;
                (user.managers[area], at) = read_manager(words, area)?;
                Ok(at)
            })?,
            "charges" => {
                new(&spots, Field::Charges, spot)?;
                let at;
                (user.charges, at) = words.money(name)?;
                spots.push((Field::Charges, at));
            }
            "assigned" => {
                new(&spots, Field::Assigned, spot)?;
                let at;
                (user.assigned, at) = words.money(name)?;
                spots.push((Field::Assigned, at));
            }
            "blocked" => {
                new(&spots, Field::Blocked, spot)?;
                let at;
                (user.blocked, at) = words.money(name)?;
                spots.push((Field::Blocked, at));
            }
            _ => {
                let more = match has_managers(version) {
                    Some(false) => "`assigned` or `blocked`",
                    _ => "`assigned`, `blocked` or `manager`",
                };
                let reason = format!("a field is `physical`, `position`, `charges`, {more}");
                return Err(mistake(spot, format!("`{}`: {reason}", short(name))));
            }
        }
    }
    Ok((user, spots))
}

/// Areas, each with what follows it, which is taken with its place; at least one.
fn each_area(
    words: &mut Words,
    field: impl Fn(usize) -> Field,
    spots: &mut Spots,
    mut take: impl FnMut(&mut Words, usize) -> Result<Spot, Mistake>,
) -> Result<(), Mistake> {
    let mut any = false;
    while !any
        || words
            .peek()
            .is_some_and(|word| code(&AREAS, word).is_some())
    {
        let (area, at) = words.code("the area", &AREAS)?;
        let area = usize::from(area);
        new(spots, field(area), at)?;
        let at = take(words, area)?;
        spots.push((field(area), at));
        any = true;
    }
    Ok(())
}

/// A field that the line has not had yet.
fn new(spots: &Spots, field: Field, spot: Spot) -> Result<(), Mistake> {
    match spots.iter().any(|(it, _)| *it == field) {
        true => Err(mistake(spot, format!("a second {field}"))),
        false => Ok(()),
    }
}

fn read_trade(words: &mut Words, start: Spot) -> Result<(Trade, Spots), Mistake> {
    let (seller, seller_at) = words.fitting("the seller's id")?;
    words.exactly("to")?;
    let (buyer, buyer_at) = words.fitting("the buyer's id")?;
    let (area, area_at) = words.code("the area", &AREAS)?;
    let (kind, kind_at) = words.code("the kind", &KINDS)?;
    let (day, day_at) = words.code("the day", &DAYS)?;
    let (notified, notified_at) = words.fitting("the MWh notified")?;
    let mut standing = (notified, notified_at);
    if !words.is_done() {
        words.exactly("standing")?;
        standing = words.fitting("the MWh standing")?;
    }
    let trade = Trade {
        seller,
        buyer,
        area,
        kind,
        day,
        notified,
        standing: standing.0,
    };
    let spots = vec![
        (Field::ZeroBytes, start),
        (Field::Seller, seller_at),
        (Field::Buyer, buyer_at),
        (Field::Area, area_at),
        (Field::Kind, kind_at),
        (Field::Day, day_at),
        (Field::Notified, notified_at),
        (Field::Standing, standing.1),
    ];
    Ok((trade, spots))
}
