//! A level in its parts, in words, as CSV and as an object.

use daybook::Book;

use crate::form::{csv_row, Form};
use crate::why::{Part, Why};
use daybook_text::faults::parties;
use daybook_text::groups::{lines, member_of, with_groups};
use daybook_text::json::{list, Object};
use daybook_text::store::Figures;
use daybook_text::text::aligned;
use daybook_text::trace::reference_prices;
use daybook_text::words::{euros, grouped, plain_euros, word, AREAS};

pub fn told(form: Form, name: &str, book: &Book, figures: &Figures, why: &Why) -> String {
    match form {
        Form::Words => words(book, figures, why),
        Form::Csv => table(why),
        Form::Json => object(name, figures, book, why) + "\n",
    }
}

fn words(book: &Book, figures: &Figures, why: &Why) -> String {
    let (id, level) = (why.user.id, euros(why.level));
    let state = why.state(figures);
    let mut text = format!("{id}: afternoon level {level} EUR, {state}\n");
    text.push_str(&lines(&why.shares));
    let mut rows = vec![vec!["  charges".to_string()]];
    rows[0].resize(7, String::new());
    rows[0].extend([euros(why.user.charges), "EUR".to_string()]);
    rows.extend(why.parts.iter().map(part_cells));
    text.push_str(&aligned(&rows));
    let floor = match why.sum < i128::from(figures.least_level) {
        true => format!(", and a level is at least {}", euros(figures.least_level)),
        false => String::new(),
    };
    text.push_str(&format!("  together {}{floor} EUR\n", euros(why.sum)));
    text.push_str(&flag(book, figures, why));
    text.push_str(&cut_trades(book, why));
    text.push_str(&guarantees(figures, why));
    text
}

/// The trades below notified that call the user in, a line each.
fn cut_trades(book: &Book, why: &Why) -> String {
    let line = |place: &usize| {
        let trade = &book.trades[*place];
        let (standing, notified) = (grouped(trade.standing), grouped(trade.notified));
        let (parties, area) = (parties(trade), word(&AREAS, trade.area));
        let stands = format!("stands at {standing} of {notified} MWh");
        let member = member_of(book, why.user.id, trade);
        let member = member.map_or_else(String::new, |id| format!(" of its member {id}"));
        let place = place + 1;
        format!("  called in: trade {place}{member}, {parties} {area}, {stands}\n")
    };
    why.called_in.cut.iter().map(line).collect()
}

/// The level beside what is blocked and what is assigned.
fn guarantees(figures: &Figures, why: &Why) -> String {
    let (blocked, lacking) = (euros(why.user.blocked), euros(why.lacking()));
    let margin = euros(figures.margin);
    let above = match why.lacking() > i128::from(figures.margin) {
        true => "above",
        false => "not above",
    };
    let uncovered = i128::from(why.level) - i128::from(why.user.assigned);
    let (assigned, shown) = (euros(why.user.assigned), euros(uncovered));
    let covered = match uncovered > 0 {
        true => format!("level - assigned {assigned} = {shown} EUR uncovered"),
        false => format!("assigned {assigned} EUR covers the level"),
    };
    format!("  level - blocked {blocked} = {lacking} EUR, {above} {margin} EUR\n  {covered}\n")
}

fn part_cells(part: &Part) -> Vec<String> {
    let less = if part.name == "credit" { "less " } else { "" };
    vec![
        format!("  {less}{}", part.name),
        part.area_name().to_string(),
        grouped(part.mwh),
        "MWh x".to_string(),
        part.price.0.to_string(),
        euros(part.price.1),
        "=".to_string(),
        euros(part.cents().abs()),
        "EUR".to_string(),
    ]
}

/// Flagged or not, and by how much.
fn flag(book: &Book, figures: &Figures, why: &Why) -> String {
    let least = reference_prices(&book.prices).into_iter().min();
    let (mwh, price) = (grouped(figures.flag_mwh), euros(least.unwrap_or(0)));
    let (worth, limit) = (why.called_in.short_worth, why.called_in.limit);
    let by = euros((worth - limit).abs());
    let (worth, limit) = (euros(worth), euros(limit));
    let told = format!("its short positions less blocked are worth {worth} EUR");
    let at = format!("{limit} EUR ({mwh} MWh at {price})");
    match why.called_in.is_flagged() {
        true => format!("  called in: flagged, {told}, {by} EUR above {at}\n"),
        false => format!("  not flagged: {told}, {by} EUR below {at}\n"),
    }
}

fn table(why: &Why) -> String {
    let mut rows = vec![csv_row(["part", "area", "mwh", "price", "amount"])];
    let charges = plain_euros(why.user.charges);
    rows.push(csv_row(["charges", "", "", "", &charges]));
    for part in &why.parts {
        rows.push(csv_row([
            part.name.to_string(),
            part.area_name().to_string(),
            part.mwh.to_string(),
            plain_euros(part.price.1),
            plain_euros(part.cents()),
        ]));
    }
    rows.push(csv_row(["level", "", "", "", &plain_euros(why.level)]));
    rows.join("\n") + "\n"
}

fn object(name: &str, figures: &Figures, book: &Book, why: &Why) -> String {
    let part = |part: &Part| {
        Object::new()
            .string("part", part.name)
            .string("area", part.area_name())
            .put("mwh", part.mwh)
            .put("price_cents", part.price.1)
            .put("cents", part.cents())
            .end()
    };
    let cut = why.called_in.cut.iter().map(|place| place + 1);
    let object = Object::new()
        .string("book", name)
        .put("number", 0)
        .put("id", why.user.id)
        .string("state", why.state(figures));
    with_groups(object, book, &why.user)
        .put("level_cents", why.level)
        .put("charges_cents", why.user.charges)
        .put("parts", list(why.parts.iter().map(part)))
        .put("sum_cents", why.sum)
        .put("flagged", why.called_in.is_flagged())
        .put("short_worth_cents", why.called_in.short_worth)
        .put("flag_limit_cents", why.called_in.limit)
        .put("cut_trades", list(cut))
        .end()
}
