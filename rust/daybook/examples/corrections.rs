//! Posts a file of corrections to a book in one call and prints each line's
//! number: `corrections BOOK CSV [AFTER]`.
//!
//! The file has a head and then a line for each correction: id, area (0 PVB, 1
//! TVB, 2 AVB) and signed MWh, commas between. What is printed are the same
//! lines with the number of each line's posting: 0 where it is accepted, else
//! that of the question which refuses it. A refused line stops none after it. The
//! book afterwards goes to the file AFTER, if one is named.
//!
//! The status is 0 where every line was accepted, 1 where the call or a line was
//! refused, and 2 where a file cannot be read as said.

use std::env;
use std::fs;
use std::process::ExitCode;

use daybook::{Line, Operator, Refusal};

fn main() -> ExitCode {
    let arguments: Vec<String> = env::args().skip(1).collect();
    let (book, csv, after) = match &arguments[..] {
        [book, csv] => (book, csv, None),
        [book, csv, after] => (book, csv, Some(after)),
        _ => {
            eprintln!("usage: corrections BOOK CSV [AFTER]");
            return ExitCode::from(2);
        }
    };
    match posted(book, csv, after) {
        Ok(true) => ExitCode::SUCCESS,
        Ok(false) => ExitCode::from(1),
        Err(message) => {
            eprintln!("corrections: {message}");
            ExitCode::from(2)
        }
    }
}

/// Posts and prints; says whether every line was accepted.
fn posted(book: &str, csv: &str, after: Option<&String>) -> Result<bool, String> {
    let mut bytes = fs::read(book).map_err(|error| format!("{book}: {error}"))?;
    let text = fs::read_to_string(csv).map_err(|error| format!("{csv}: {error}"))?;
    let lines = lines(&text).map_err(|error| format!("{csv}, {error}"))?;
    let answers = match Operator::new().list(&mut bytes, &lines) {
        Ok(answers) => answers,
        Err(refusal) => {
            println!("{refusal}");
            return Ok(false);
        }
    };
    println!("id,area,MWh,number");
    for (line, answer) in lines.iter().zip(&answers) {
        let number = answer.err().map_or(0, Refusal::number);
        println!("{},{},{},{number}", line.id, line.area, line.amount);
    }
    if let Some(after) = after {
        fs::write(after, &bytes).map_err(|error| format!("{after}: {error}"))?;
    }
    Ok(answers.iter().all(|answer| answer.is_ok()))
}

/// The corrections of a file: its lines but for the head and empty ones.
fn lines(text: &str) -> Result<Vec<Line>, String> {
    let lines = text.lines().enumerate().skip(1);
    lines
        .filter(|(_, line)| !line.trim().is_empty())
        .map(|(place, line)| {
            let correction = correction(line);
            correction.ok_or_else(|| format!("line {}: no id, area, MWh: {line}", place + 1))
        })
        .collect()
}

/// Three numbers that their types hold.
fn correction(line: &str) -> Option<Line> {
    let words: Vec<&str> = line.split(',').map(str::trim).collect();
    let [id, area, amount] = words[..] else {
        return None;
    };
    Some(Line {
        id: id.parse().ok()?,
        area: area.parse().ok()?,
        amount: amount.parse().ok()?,
    })
}
