//! `daybook shrinkage`: the return of retained shrinkage, from a file of
//! balances in kWh.

use daybook::shrinkage::{over_days, shrinkage_return, Kwh};

use crate::advice::of_return;
use crate::arguments::Arguments;
use crate::files;
use crate::form::Form;
use crate::outcome::{Failure, Outcome, Told};
use crate::refusals;
use daybook_text::draft::{too_long, Mistake, Spot};
use daybook_text::json::{list, quoted, Object};
use daybook_text::text::{aligned, short};
use daybook_text::words::{grouped, read_whole};

/// A line of the file: a name, or none, and a balance.
pub struct Balance {
    pub name: String,
    pub kwh: i64,
}

pub fn shrinkage(arguments: &Arguments) -> Result<Outcome, Failure> {
    arguments.expect(1, 1, "shrinkage FILE [--days] [--csv|--json]")?;
    let form = Form::of(arguments)?;
    let path = arguments.file(0);
    let bytes = files::read(path)?;
    let name = files::shown(path);
    let balances = read(&name, &bytes)?;
    let kwh: Vec<i64> = balances.iter().map(|balance| balance.kwh).collect();
    let mut outcome = Outcome::default();
    let returned = match shrinkage_return(&kwh) {
        Ok(returned) => returned,
        Err(refusal) => {
            let (number, question) = (refusal.number(), refusal.question());
            let advice = of_return(refusal);
            let object = Object::new()
                .string("file", &name)
                .put("number", number)
                .string("question", question)
                .put("advice", list([quoted(advice)]));
            let to_do = refusals::to_do(&name, advice);
            return Err(Failure::Refused(Told {
                message: format!("{name}: {refusal}{}\n{to_do}", why(&balances)),
                object: object.end(),
            }));
        }
    };
    let (half, odd, rest) = (returned.half.0, returned.odd.0, returned.rest.0);
    let object = Object::new().string("file", &name).put("number", 0);
    let object = object.put("half_kwh", half);
    let object = object.put("odd_kwh", odd).put("rest_kwh", rest);
    let (half, odd, rest) = (grouped(half), grouped(odd), grouped(rest));
    let line = format!("H {half} kWh returned, as much kept, odd kWh {odd}, rest {rest} kWh");
    match form {
        Form::Json => outcome.line(object.end()),
        Form::Words => outcome.line(line),
        Form::Csv => outcome.message(line),
    }
    let mut rows = Vec::new();
    for (balance, share) in balances.iter().zip(&returned.shares) {
        let days = over_days(share.kwh).map(|Kwh(day)| day);
        if form != Form::Words {
            let object = Object::new()
                .string("name", &balance.name)
                .put("balance_kwh", balance.kwh)
                .put("share_kwh", share.kwh.0)
                .put("remainder", share.remainder);
            outcome.object(
                form,
                match (form, arguments.has("--days")) {
                    (Form::Json, true) => object.put("days_kwh", list(days)).about("file", &name),
                    (Form::Json, false) => object.about("file", &name),
                    (_, true) => by_day(object, &days),
                    (_, false) => object,
                },
            );
            continue;
        }
        let mut row = vec![
            balance.name.clone(),
            grouped(balance.kwh),
            "share".to_string(),
            grouped(share.kwh.0),
            "remainder".to_string(),
            grouped(share.remainder),
        ];
        if arguments.has("--days") {
            row.push("days".to_string());
            row.extend(days.map(grouped));
        }
        rows.push(row);
    }
    outcome.text(&aligned(&rows));
    Ok(outcome)
}

/// Each day in a column of its own.
fn by_day(object: Object, days: &[u64]) -> Object {
    let days = days.iter().enumerate();
    days.fold(object, |object, (day, kwh)| {
        object.put(&format!("day_{}", day + 1), kwh)
    })
}

/// Which balance is out of range, where one is.
fn why(balances: &[Balance]) -> String {
    let beyond = |balance: &&Balance| balance.kwh.unsigned_abs() > 500_000_000;
    match balances.iter().find(beyond) {
        Some(balance) if balances.len() <= 64 => {
            format!("\n{}: {} kWh", balance.name, grouped(balance.kwh))
        }
        _ => format!(" there are {}", balances.len()),
    }
}

/// A balance a line, a name before it or not, a colon between them or not;
/// comments after #.
pub fn read(file: &str, bytes: &[u8]) -> Result<Vec<Balance>, Failure> {
    if let Some(mistake) = too_long("", bytes) {
        return Err(refusals::of_text(file, &[mistake]));
    }
    let text = String::from_utf8_lossy(bytes);
    let mut balances = Vec::new();
    for (place, line) in text.lines().enumerate() {
        let line = line.split('#').next().unwrap_or("").trim_end();
        if line.is_empty() {
            continue;
        }
        let (name, word) = line.rsplit_once(char::is_whitespace).unwrap_or(("", line));
        let wrong = |from: usize, reason: String| {
            let spot = Spot {
                file: "",
                line: place + 1,
                column: line[..from].chars().count() + 1,
            };
            refusals::of_text(file, &[Mistake { spot, reason }])
        };
        let start = line.len() - word.len();
        if let Some(from) = parted(&line[..start], word) {
            let number = short(&line[from..]);
            let hint = "one number with a gap, or a name and a balance?";
            let advice = "write 1,500 or 1500 for the one, `1: 500` for the other";
            return Err(wrong(from, format!("`{number}`: {hint} {advice}")));
        }
        let kwh = read_whole(word).and_then(|number| i64::try_from(number).ok());
        let Some(kwh) = kwh else {
            let reason = format!("a balance is a whole number of kWh, not `{}`", short(word));
            return Err(wrong(start, reason));
        };
        let name = name.trim();
        let name = match name.strip_suffix(':').unwrap_or(name).trim_end() {
            "" => (balances.len() + 1).to_string(),
            name => name.to_string(),
        };
        balances.push(Balance { name, kwh });
    }
    Ok(balances)
}

/// Where a number starts that may be written with a gap before its last three
/// digits. A tab is no such gap.
fn parted(before: &str, word: &str) -> Option<usize> {
    let three = word.len() == 3 && word.bytes().all(|byte| byte.is_ascii_digit());
    let gap = before.chars().next_back()?;
    let name = before.trim_end();
    let last = name.rsplit(char::is_whitespace).next().unwrap_or("");
    let digits = last.trim_start_matches(['-', '\u{2212}', '+']);
    let few = (1..=3).contains(&digits.len()) && digits.bytes().all(|it| it.is_ascii_digit());
    (three && few && gap != '\t').then(|| name.len() - last.len())
}
