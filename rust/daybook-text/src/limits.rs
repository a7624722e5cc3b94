//! What a field may hold, in words, by its name in a text or over a column: the
//! ranges of the questions, told where a number does not even fit its bytes.

const LIMITS: [(&str, &str); 20] = [
    ("version", "1 to 3"),
    ("manager", "1 to 4,294,967,295"),
    ("seller", "1 to 4,294,967,295"),
    ("buyer", "1 to 4,294,967,295"),
    ("notified", "1 to 100,000 MWh"),
    ("standing", "0 MWh to what is notified"),
    ("physical", "-1,000,000 to 1,000,000 MWh"),
    ("position", "-26,600,000 to 26,600,000 MWh"),
    ("charges", "-10,000,000,000.00 to 10,000,000,000.00 EUR"),
    ("assigned", "0.00 to 10,000,000,000.00 EUR"),
    ("blocked", "0.00 EUR to what is assigned"),
    ("flag", "0 to 1,000,000 MWh"),
    ("margin", "0.00 to 10,000,000,000.00 EUR"),
    ("least", "0.00 to 10,000,000,000.00 EUR"),
    ("MWh", "-2,000,000 to 2,000,000 MWh"),
    ("area", "0 to 2"),
    ("id", "1 to 4,294,967,295"),
    ("P", "0.01 to 1,000.00 EUR/MWh"),
    ("Q", "0.01 to 1,000.00 EUR/MWh"),
    ("", "0.00 to 1,000.00 EUR/MWh"),
];

/// The range of a field; its name may have more words.
pub fn limits(name: &str) -> &'static str {
    let one_letter = name.len() == 1;
    let is_named = |it: &&(&str, &str)| match it.0 {
        "" => one_letter,
        known if known.len() == 1 => name == known,
        known => name.contains(known),
    };
    let found = LIMITS.iter().find(is_named);
    found.map_or("what its bytes can hold", |it| it.1)
}

#[cfg(test)]
mod tests {
    use super::*;

    #[test]
    fn names_of_texts_and_of_columns() {
        for (name, told) in [
            ("the seller's id", "1 to 4,294,967,295"),
            ("the MWh notified", "1 to 100,000 MWh"),
            ("physical_PVB", "-1,000,000 to 1,000,000 MWh"),
            ("physical PVB", "-1,000,000 to 1,000,000 MWh"),
            ("P", "0.01 to 1,000.00 EUR/MWh"),
            ("L", "0.00 to 1,000.00 EUR/MWh"),
            ("id", "1 to 4,294,967,295"),
            ("manager PVB", "1 to 4,294,967,295"),
            ("manager_PVB", "1 to 4,294,967,295"),
            ("the version", "1 to 3"),
        ] {
            assert_eq!(limits(name), told, "{name}");
        }
    }
}
