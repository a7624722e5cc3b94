//! JSON, one object a line. Amounts are whole numbers: cents, MWh, kWh. The same
//! object is a row for a spreadsheet, with its money in euros.

use std::fmt::Display;

use crate::words::{plain_euros, AREAS};

/// The key of a user's managers, by area.
pub const MANAGERS: &str = "managers";

/// An object on its way.
#[derive(Clone, Debug)]
pub struct Object {
    text: String,
    /// The keys and values as they were given.
    fields: Vec<(String, String)>,
}

impl Default for Object {
    fn default() -> Object {
        Object::new()
    }
}

impl Object {
    pub fn new() -> Object {
        Object {
            text: "{".to_string(),
            fields: Vec::new(),
        }
    }

    /// The object with the name of what it is about in front, under this key.
    pub fn about(mut self, key: &str, name: &str) -> Object {
        let comma = if self.text.len() > 1 { "," } else { "" };
        let first = format!("{}:{}{comma}", quoted(key), quoted(name));
        self.text.insert_str(1, &first);
        self.fields.insert(0, (key.to_string(), name.to_string()));
        self
    }

    /// An answer about a book.
    pub fn of_book(self, name: &str) -> Object {
        self.about("book", name)
    }

    fn key(&mut self, key: &str) {
        if self.text.len() > 1 {
            self.text.push(',');
        }
        self.text.push_str(&quoted(key));
        self.text.push(':');
    }

    /// Adds a number, or text that is JSON already.
    pub fn put(mut self, key: &str, value: impl Display) -> Object {
        self.key(key);
        let value = value.to_string();
        self.text.push_str(&value);
        self.fields.push((key.to_string(), value));
        self
    }

    /// Adds a string.
    pub fn string(mut self, key: &str, value: &str) -> Object {
        self.key(key);
        self.text.push_str(&quoted(value));
        self.fields.push((key.to_string(), value.to_string()));
        self
    }

    /// The names and fields of a row: three amounts or managers by area in a column
    /// each, cents as euros, nothing for null and for no manager.
    pub fn columns(&self) -> Vec<(String, String)> {
        let mut columns = Vec::new();
        for (key, value) in &self.fields {
            let listed = value.strip_prefix('[').and_then(|it| it.strip_suffix(']'));
            let parts: Vec<&str> = listed.map_or_else(Vec::new, |it| it.split(',').collect());
            let is_manager = key == MANAGERS;
            let (name, is_money) = match key.strip_suffix("_cents") {
                Some(name) => (name, true),
                None if is_manager => ("manager", false),
                None => (key.as_str(), false),
            };
            let shown = |value: &str| match value.parse::<i128>() {
                Ok(cents) if is_money => plain_euros(cents),
                Ok(0) if is_manager => String::new(),
                _ if value == "null" => String::new(),
                _ => value.to_string(),
            };
            let by_area = is_money || is_manager || key.ends_with("_mwh");
            match by_area && parts.len() == AREAS.len() {
                true => {
                    let parts = AREAS.iter().zip(parts);
                    columns.extend(parts.map(|(area, it)| (format!("{name}_{area}"), shown(it))));
                }
                false => columns.push((name.to_string(), shown(value))),
            }
        }
        columns
    }

    pub fn end(mut self) -> String {
        self.text.push('}');
        self.text
    }
}

/// A list of values that are JSON already.
pub fn list(values: impl IntoIterator<Item = impl Display>) -> String {
    let values: Vec<String> = values.into_iter().map(|value| value.to_string()).collect();
    format!("[{}]", values.join(","))
}

/// A string in quotes, with its controls escaped.
pub fn quoted(text: &str) -> String {
    let mut quoted = "\"".to_string();
    for character in text.chars() {
        match character {
            '"' => quoted.push_str("\\\""),
            '\\' => quoted.push_str("\\\\"),
            control if u32::from(control) < 0x20 => {
                quoted.push_str(&format!("\\u{:04x}", u32::from(control)));
            }
            other => quoted.push(other),
        }
    }
    quoted.push('"');
    quoted
}

#[cfg(test)]
mod tests {
    use super::*;

    #[test]
    fn objects_and_lists() {
        let object = Object::new()
            .put("n", 1)
            .string("s", "a\"\\\n")
            .put("l", list([1, 2]));
        assert_eq!(
            object.end(),
            "{\"n\":1,\"s\":\"a\\\"\\\\\\u000a\",\"l\":[1,2]}"
        );
        assert_eq!(Object::new().end(), "{}");
        let about = |object: Object| object.of_book("a\"b").end();
        assert_eq!(about(Object::new()), "{\"book\":\"a\\\"b\"}");
        let object = Object::new().put("n", 1);
        assert_eq!(about(object), "{\"book\":\"a\\\"b\",\"n\":1}");
        let object = Object::new()
            .put("id", 7)
            .put("level_cents", -5)
            .put("position_mwh", list([1, -2, 3]))
            .put("managers", list([7, 0, 9]))
            .put("afternoon_cents", "null");
        let columns = object.columns();
        let columns: Vec<String> = columns.iter().map(|(a, b)| format!("{a}={b}")).collect();
        assert_eq!(
            columns.join(" "),
            "id=7 level=-0.05 position_mwh_PVB=1 position_mwh_TVB=-2 position_mwh_AVB=3 \
             manager_PVB=7 manager_TVB= manager_AVB=9 afternoon="
        );
    }
}
