//! The parts that a page is made of: one file that needs nothing beside it.

use crate::sha256::sha256;

/// A page with a title and what stands below it; the foot says what it was made of.
pub fn page(title: &str, body: &str, foot: &str) -> String {
    let style = include_str!("../page/style.css");
    format!(
        "<!DOCTYPE html>\n<html lang=\"en\">\n<head>\n<meta charset=\"utf-8\">\n\
         <meta name=\"viewport\" content=\"width=device-width, initial-scale=1\">\n\
         <title>{title}</title>\n<style>\n{style}</style>\n</head>\n<body>\n<main>\n\
         <h1>{title}</h1>\n{body}</main>\n<footer>\n{foot}</footer>\n</body>\n</html>\n"
    )
}

/// The foot of a page: the file by its digest, where it is one, the engine and the
/// program.
pub fn foot(what: &str, bytes: Option<&[u8]>) -> String {
    let digest = bytes.map_or_else(String::new, |bytes| {
        format!("{what} sha256 <code>{}</code>; ", sha256(bytes))
    });
    let (interface, program) = (daybook::archive::interface(), env!("CARGO_PKG_VERSION"));
    format!("<p>{digest}engine of interface {interface}; daybook {program}</p>\n")
}

/// A part of a page under its heading, which has this id.
pub fn section(id: &str, title: &str, body: &str) -> String {
    format!("<section aria-labelledby=\"{id}\">\n<h2 id=\"{id}\">{title}</h2>\n{body}</section>\n")
}

/// The columns of words, which stand to the left and wrap on a narrow window; the
/// others are of figures. The style has the places up to the fifth.
const WORDS: [&str; 15] = [
    "",
    "user",
    "name",
    "what",
    "because of",
    "role",
    "group",
    "state",
    "trade",
    "seller",
    "buyer",
    "cut for",
    "area",
    "where",
    "why",
];

/// A table with the names of its columns, under a caption.
pub fn table(caption: &str, names: &[&str], rows: &str) -> String {
    let places = (1..).zip(names);
    let words = places.filter(|(_, name)| WORDS.contains(name));
    let words: Vec<String> = words.map(|(place, _)| format!("words-{place}")).collect();
    let words = words.join(" ");
    let names: String = names
        .iter()
        .map(|name| format!("<th scope=\"col\">{name}</th>"))
        .collect();
    format!(
        "<div class=\"table\" tabindex=\"0\"><table class=\"{words}\">\n\
         <caption><span>{caption}</span></caption>\n\
         <thead><tr>{names}</tr></thead>\n<tbody>\n{rows}</tbody>\n</table></div>\n"
    )
}

/// A row, whose first cell says what it is about; it may have an id.
pub fn row(id: Option<&str>, cells: &[String]) -> String {
    let id = id.map_or_else(String::new, |id| format!(" id=\"{id}\""));
    let mut text = format!("<tr{id}>");
    for (place, cell) in cells.iter().enumerate() {
        text.push_str(&match place {
            0 => format!("<th scope=\"row\">{cell}</th>"),
            _ => format!("<td>{cell}</td>"),
        });
    }
    text.push_str("</tr>\n");
    text
}

/// Figures beside one another, each with what it is.
pub fn tiles(figures: &[(String, String)]) -> String {
    let tile = |(figure, what): &(String, String)| {
        format!("<div><b>{figure}</b><span>{what}</span></div>")
    };
    let tiles: String = figures.iter().map(tile).collect();
    format!("<div class=\"tiles\">{tiles}</div>\n")
}

/// A link to a place of the page.
pub fn link(id: &str, text: &str) -> String {
    format!("<a href=\"#{id}\">{text}</a>")
}

/// The id of a user's row, and a link to it with the user's name, if it has one.
pub fn user_place(id: u32) -> String {
    format!("user-{id}")
}

/// A link to a user's row.
pub fn user_link(id: u32) -> String {
    link(&user_place(id), &id.to_string())
}

/// The id of a reduction's row.
pub fn reduction_place(number: u64) -> String {
    format!("reduction-{number}")
}

/// Text as it may stand in a page.
pub fn escaped(text: &str) -> String {
    let text = text.replace('&', "&amp;").replace('<', "&lt;");
    text.replace('>', "&gt;").replace('"', "&quot;")
}
