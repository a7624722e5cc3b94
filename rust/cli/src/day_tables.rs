//! The tables of a day's page: users before and after the run, and trades.

use daybook::{Book, User};

use crate::day::Standing;
use crate::page::{escaped, row, section, table, user_link, user_place};
use crate::source::Source;
use crate::state::State;
use daybook_text::credit::{by_area, credits, has_credit};
use daybook_text::groups::{area_of, bearer, has_groups, shares};
use daybook_text::trace::{tariffs, Trace};
use daybook_text::words::{euros, grouped, word, AREAS, ROLES};

/// The users, each with what it was before the run where that is something else.
pub fn users(source: &Source, trace: &Trace, before: &[Standing], after: &[Standing]) -> String {
    let (opening, closing) = (&trace.opening, &trace.closing);
    let (has_credit, has_groups) = (has_credit(opening), has_groups(opening));
    let has_names = !source.names.is_empty();
    let mut rows = String::new();
    for (before, after) in before.iter().zip(after) {
        let id = before.user.id;
        let mut cells = vec![id.to_string()];
        cells.extend(has_names.then(|| escaped(source.name_of(id))));
        cells.push(word(&ROLES, before.user.role).replace('-', " "));
        cells.extend(has_groups.then(|| {
            let shares = shares(opening, &before.user);
            let told: Vec<String> = shares.iter().map(|it| it.short(id)).collect();
            together(&told.join("; "))
        }));
        let (first, last) = (&before.state, &after.state);
        cells.push(changed(first.word.to_string(), last.word.to_string()));
        cells.push(changed(level(first), level(last)));
        cells.extend(has_credit.then(|| {
            changed(
                credit(opening, &before.user, first),
                credit(closing, &after.user, last),
            )
        }));
        cells.push(euros(before.user.assigned));
        cells.push(euros(before.user.blocked));
        for (first, last) in before.user.position.iter().zip(after.user.position) {
            cells.push(changed(grouped(*first), grouped(last)));
        }
        rows.push_str(&row(Some(&user_place(id)), &cells));
    }
    let positions = AREAS.map(|area| format!("position {area}"));
    let mut names = vec!["user"];
    names.extend(has_names.then_some("name"));
    names.push("role");
    names.extend(has_groups.then_some("group"));
    names.extend(["state", "level"]);
    names.extend(has_credit.then_some("credit"));
    names.extend(["assigned", "blocked"]);
    names.extend(positions.iter().map(String::as_str));
    let caption = "In the order of the book; what the run changed stands as before → after";
    let table = table(caption, &names, &rows);
    section("users", "Users before and after", &table)
}

/// A text that does not break into lines after a word, but after a number.
fn together(text: &str) -> String {
    let mut last = ' ';
    let blank = |letter: char| {
        let is_held = letter == ' ' && last.is_alphabetic();
        last = letter;
        if is_held {
            '\u{a0}'
        } else {
            letter
        }
    };
    text.chars().map(blank).collect()
}

fn level(state: &State) -> String {
    state.level.map_or_else(|| "–".to_string(), euros)
}

fn credit(book: &Book, user: &User, state: &State) -> String {
    match state.level {
        Some(_) => euros(by_area(&credits(book, user)).into_iter().sum::<u64>()),
        None => "–".to_string(),
    }
}

/// What was, and what is where that is something else.
fn changed(before: String, after: String) -> String {
    match before == after {
        true => before,
        false => format!("<i>{before} →</i> <b>{after}</b>"),
    }
}

/// The id of a trade's row, by its place from 0.
pub fn trade_place(place: usize) -> String {
    format!("trade-{}", place + 1)
}

/// The trades that were cut, or all of them; nothing where there is none.
pub fn trades(trace: &Trace, is_all: bool) -> String {
    let (opening, closing) = (&trace.opening, &trace.closing);
    let (tariffs, has_groups) = (tariffs(&opening.prices), has_groups(opening));
    let mut rows = String::new();
    for (place, (trade, later)) in opening.trades.iter().zip(&closing.trades).enumerate() {
        let cut = u64::from(trade.standing.saturating_sub(later.standing));
        if cut == 0 && !is_all {
            continue;
        }
        let area = area_of(trade);
        let mut cells = vec![
            (place + 1).to_string(),
            user_link(trade.seller),
            user_link(trade.buyer),
        ];
        if has_groups {
            cells.push(match cut {
                0 => String::new(),
                _ => user_link(bearer(opening, trade.seller, area)),
            });
        }
        cells.extend([
            AREAS[area].to_string(),
            grouped(trade.notified),
            grouped(trade.standing),
            grouped(later.standing),
            grouped(cut),
            euros(cut * tariffs[area]),
        ]);
        rows.push_str(&row(Some(&trade_place(place)), &cells));
    }
    if rows.is_empty() {
        return String::new();
    }
    let mut names = vec!["trade", "seller", "buyer"];
    names.extend(has_groups.then_some("cut for"));
    names.extend(["area", "notified", "before", "after", "cut", "worth"]);
    let (title, caption) = match is_all {
        true => ("Trades", "All trades in the order of the book, MWh"),
        false => (
            "Trades that were cut",
            "In the order of the book, MWh; the others stand as they were",
        ),
    };
    section("trades", title, &table(caption, &names, &rows))
}
