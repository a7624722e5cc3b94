//! `daybook change`: what if? Fields of a book set anew, in the words of the text
//! form; positions are those that document 01 defines.

use daybook::{Book, Operator, Refusal, Trade, User};

use crate::arguments::Arguments;
use crate::call::Call;
use crate::compare::{Difference, DIFFERENCE};
use crate::form::{csv_row, Form};
use crate::outcome::{Failure, Outcome};
use crate::refusals;
use daybook_text::draft::{define_position, Mistake, Spot};
use daybook_text::faults::{faults_of, Fault};
use daybook_text::fields::{has_managers, prices, put_price, PRICES};
use daybook_text::text::{mistake, no_manager, read_manager, short, Words, NONE};
use daybook_text::words::{code, date, euros, grouped, read_euros, read_whole, AREAS};

pub fn change(arguments: &Arguments) -> Result<Outcome, Failure> {
    let usage = "change BOOK CHANGE.. [-o FILE|--in-place] [--csv|--json]";
    arguments.expect(2, usize::MAX, usage)?;
    let call = Call::new(arguments)?;
    let refused = |refusal: Refusal, faults: Vec<Fault>| {
        let faults: Vec<(Option<Spot>, Fault)> = faults.into_iter().map(|it| (None, it)).collect();
        refusals::of_book(&call.source.name, refusal, &faults)
    };
    let mut book = Operator::new()
        .read(&call.source.bytes)
        .map_err(|it| refused(it, Vec::new()))?;
    let (mut outcome, mut mistakes) = (Outcome::default(), Vec::new());
    for (place, word) in arguments.rest(1).iter().enumerate() {
        match made(&mut book, &word.display().to_string(), place + 1) {
            Ok(lines) => lines.iter().for_each(|it| tell(&mut outcome, &call, it)),
            Err(some) => mistakes.extend(some),
        }
    }
    if !mistakes.is_empty() {
        return Err(refusals::of_text("change", &mistakes));
    }
    for place in 0..book.users.len() {
        for area in 0..AREAS.len() {
            define_position(&mut book, place, area);
        }
    }
    let mut changed = call.unchanged();
    changed.book = vec![0; book.length()];
    daybook::write(&book, &mut changed.book)
        .map_err(|refusal| refused(refusal, faults_of(&book, refusal.number())))?;
    call.keep(arguments, &changed, &mut outcome)?;
    Ok(outcome)
}

/// Tells a field that is set anew.
fn tell(outcome: &mut Outcome, call: &Call, it: &Difference) {
    if call.form == Form::Csv {
        if outcome.out.is_empty() {
            outcome.line(csv_row(DIFFERENCE));
        }
        return outcome.line(csv_row(it.row()));
    }
    let Difference {
        about,
        field,
        before,
        after,
    } = it;
    let about = match about.as_str() {
        "header" => field.clone(),
        about => format!("{about} {field}"),
    };
    call.tell(outcome, format!("{about} {before} -> {after}"), it.object());
}

/// Makes one change: of each field what it was and what it is, a line each.
fn made(book: &mut Book, text: &str, number: usize) -> Result<Vec<Difference>, Vec<Mistake>> {
    let mut words = Words::new(text, number);
    let mut lines = Vec::new();
    let read = statement(book, &mut words, &mut lines).and_then(|()| words.end());
    let mut mistakes = words.mistakes;
    mistakes.extend(read.err());
    match mistakes.is_empty() {
        true => Ok(lines),
        false => Err(mistakes),
    }
}

fn statement(
    book: &mut Book,
    words: &mut Words,
    lines: &mut Vec<Difference>,
) -> Result<(), Mistake> {
    let (word, spot) = words.next("a change")?;
    match word {
        "date" => {
            let was = std::mem::replace(&mut book.date, words.date()?);
            lines.push(line("header", "date", date(was), date(book.date)));
            Ok(())
        }
        "prices" => each(words, "a price", |words, name, spot| {
            let listed = prices(book);
            let place = PRICES.iter().take(listed.len()).position(|it| *it == name);
            let Some(place) = place else {
                return Err(no_such(
                    spot,
                    name,
                    &format!("a price is one of {}", PRICES[..listed.len()].join(", ")),
                ));
            };
            let price = money(words, name, listed[place])?;
            lines.push(line("header", name, euros(listed[place]), euros(price)));
            put_price(book, place, price);
            Ok(())
        }),
        "user" => {
            let (id, at) = words.fitting::<u32>("the id")?;
            let version = book.version;
            let Some(user) = book.users.iter_mut().find(|user| user.id == id) else {
                return Err(mistake(at, format!("{id} is no user of the book")));
            };
            each(words, "a field", |words, name, spot| match name {
                "manager" if has_managers(version) == Some(false) => {
                    Err(mistake(spot, no_manager(name, version)))
                }
                "manager" => manager(user, words, lines),
                _ => user_field(user, words, (name, spot), lines),
            })
        }
        "trade" => {
            let (place, at) = words.fitting::<usize>("the trade's place")?;
            let count = book.trades.len();
            let trade = place.checked_sub(1).and_then(|it| book.trades.get_mut(it));
            let Some(trade) = trade else {
                let reason = format!("trade {place} is none of 1 to {count}");
                return Err(mistake(at, reason));
            };
            each(words, "a field", |words, name, spot| {
                trade_field((place, trade), words, (name, spot), lines)
            })
        }
        _ => {
            let known = "a change starts with `date`, `prices`, `user` or `trade`";
            Err(no_such(spot, word, known))
        }
    }
}

/// Takes each name that is left, with what follows it; at least one has to be there.
fn each<'a>(
    words: &mut Words<'a>,
    what: &str,
    mut take: impl FnMut(&mut Words<'a>, &'a str, Spot) -> Result<(), Mistake>,
) -> Result<(), Mistake> {
    loop {
        let (name, spot) = words.next(what)?;
        take(words, name, spot)?;
        if words.is_done() {
            return Ok(());
        }
    }
}

fn user_field(
    user: &mut User,
    words: &mut Words,
    (name, spot): (&str, Spot),
    lines: &mut Vec<Difference>,
) -> Result<(), Mistake> {
    let about = format!("user {}", user.id);
    let guarantee = match name {
        "physical" => return physical(user, words, lines),
        "charges" => {
            let was = user.charges;
            user.charges = money(words, name, was)?;
            lines.push(line(&about, name, euros(was), euros(user.charges)));
            return Ok(());
        }
        "assigned" => &mut user.assigned,
        "blocked" => &mut user.blocked,
        _ => {
            let known = "a field is `physical`, `charges`, `assigned`, `blocked` or `manager`";
            return Err(no_such(spot, name, known));
        }
    };
    let was = *guarantee;
    *guarantee = money(words, name, was)?;
    lines.push(line(&about, name, euros(was), euros(*guarantee)));
    Ok(())
}

/// Physical entries, an area and its MWh each.
fn physical(
    user: &mut User,
    words: &mut Words,
    lines: &mut Vec<Difference>,
) -> Result<(), Mistake> {
    loop {
        let (area, _) = words.code("the area", &AREAS)?;
        let entry = &mut user.physical[usize::from(area)];
        let was = *entry;
        *entry = whole(words, "physical", was)?;
        let field = format!("physical {}", AREAS[usize::from(area)]);
        let about = format!("user {}", user.id);
        lines.push(line(&about, &field, grouped(was), grouped(*entry)));
        if words.peek().and_then(|it| code(&AREAS, it)).is_none() {
            return Ok(());
        }
    }
}

/// Managers, an area and an id each, or the word for none.
fn manager(user: &mut User, words: &mut Words, lines: &mut Vec<Difference>) -> Result<(), Mistake> {
    let shown = |id: u32| match id {
        0 => NONE.to_string(),
        id => id.to_string(),
    };
    loop {
        let (area, _) = words.code("the area", &AREAS)?;
        let area = usize::from(area);
        let was = user.managers[area];
        (user.managers[area], _) = read_manager(words, area)?;
        let field = format!("manager {}", AREAS[area]);
        let about = format!("user {}", user.id);
        let is = shown(user.managers[area]);
        lines.push(line(&about, &field, shown(was), is));
        if words.peek().and_then(|it| code(&AREAS, it)).is_none() {
            return Ok(());
        }
    }
}

fn trade_field(
    (place, trade): (usize, &mut Trade),
    words: &mut Words,
    (name, spot): (&str, Spot),
    lines: &mut Vec<Difference>,
) -> Result<(), Mistake> {
    let field = match name {
        "notified" => &mut trade.notified,
        "standing" => &mut trade.standing,
        _ => return Err(no_such(spot, name, "a field is `notified` or `standing`")),
    };
    let was = *field;
    *field = whole(words, name, was)?;
    let about = format!("trade {place}");
    lines.push(line(&about, name, grouped(was), grouped(*field)));
    Ok(())
}

fn no_such(spot: Spot, word: &str, known: &str) -> Mistake {
    mistake(spot, format!("`{}`: {known}", short(word)))
}

fn line(about: &str, field: &str, was: String, is: String) -> Difference {
    Difference {
        about: about.to_string(),
        field: field.to_string(),
        before: was,
        after: is,
    }
}

/// An amount of euros; one with + before it is added to what was.
fn money<T>(words: &mut Words, name: &str, was: T) -> Result<T, Mistake>
where
    T: TryFrom<i128> + Into<i128> + Default,
{
    match added(words, read_euros) {
        Some(more) => sum(words, name, was, more),
        None => Ok(words.money(name)?.0),
    }
}

/// A whole number; one with + before it is added to what was.
fn whole<T>(words: &mut Words, name: &str, was: T) -> Result<T, Mistake>
where
    T: TryFrom<i128> + Into<i128> + Default,
{
    match added(words, read_whole) {
        Some(more) => sum(words, name, was, more),
        None => Ok(words.fitting(name)?.0),
    }
}

/// What the next word adds, where it starts with +.
fn added(words: &Words, read: fn(&str) -> Option<i128>) -> Option<i128> {
    words.peek()?.strip_prefix('+').and_then(read)
}

fn sum<T>(words: &mut Words, name: &str, was: T, more: i128) -> Result<T, Mistake>
where
    T: TryFrom<i128> + Into<i128>,
{
    let (word, spot) = words.next(name)?;
    let sum = was.into().checked_add(more);
    let sum = sum.and_then(|sum| T::try_from(sum).ok());
    sum.ok_or_else(|| {
        let limits = daybook_text::limits::limits(name);
        let reason = format!("{name} with {} is not within {limits}", short(word));
        mistake(spot, reason)
    })
}
