//! The page of a refused book: the question that it fails, and where.

use daybook::Refusal;

use crate::advice::of_faults;
use crate::page::{escaped, page, row, section, table};
use crate::refusals::question;
use daybook_text::draft::{Mistake, Spot};
use daybook_text::faults::Fault;

/// The page of a book that fails a question.
pub fn of_book(
    name: &str,
    refusal: Refusal,
    faults: &[(Option<Spot>, Fault)],
    foot: &str,
) -> String {
    let advice = of_faults(faults.iter().map(|(_, fault)| fault));
    let rows = faults.iter().map(|(spot, fault)| {
        let place = spot.map_or_else(String::new, |spot| spot.to_string());
        (place, fault.to_string())
    });
    let reason = format!("question {}: {}", refusal.number(), question(refusal));
    whole(name, &reason, rows, advice, foot)
}

/// The page of a text or a table that cannot be read.
pub fn of_text(name: &str, mistakes: &[Mistake], foot: &str) -> String {
    let rows = mistakes
        .iter()
        .map(|it| (it.spot.to_string(), it.reason.clone()));
    whole(name, "it cannot be read", rows, None, foot)
}

fn whole(
    name: &str,
    reason: &str,
    rows: impl ExactSizeIterator<Item = (String, String)>,
    advice: Option<&str>,
    foot: &str,
) -> String {
    let advice = advice.map_or_else(String::new, |it| {
        format!("<p>What to do: {}.</p>\n", escaped(it))
    });
    let rows = rows.enumerate().map(|(place, (spot, reason))| {
        let spot = spot.trim_start_matches([':', '/']);
        row(
            None,
            &[(place + 1).to_string(), escaped(spot), escaped(&reason)],
        )
    });
    let rows: String = rows.collect();
    let name = escaped(name);
    let body = format!(
        "<p>{name}: refused: {}</p>\n{advice}{}",
        escaped(reason),
        table(
            "What is wrong, in the order of the book",
            &["", "where", "why"],
            &rows
        )
    );
    page(
        "A refused book",
        &section("faults", "Why it is refused", &body),
        foot,
    )
}
