//! Returns of shrinkage: balances of users, any number of them and of any 64
//! bits, and the outside vectors (`vectors/shrinkage.txt`).

use std::fmt::Display;
use std::fs;

use reference::shrinkage::{Kwh, ShrinkageAnswer, DAYS};

use crate::random::Random;
use crate::vectors::folder;

/// Lines of `shrinkage.txt`.
pub const LINES: usize = 112;

/// The largest balance that is taken, in kWh.
const LARGEST: i64 = 500_000_000;

/// Balances: mostly as many as are taken and within the range; sometimes more,
/// or with one that is next to the range or far outside it.
pub fn balances(random: &mut Random) -> Vec<i64> {
    let count = match random.below(12) {
        0 => random.below(200),
        1 => 64 + random.below(3),
        2 => random.below(3),
        _ => random.below(65),
    };
    let kind = random.below(8);
    let mut balances: Vec<i64> = (0..count).map(|_| balance(random, kind)).collect();
    if count > 0 && random.one_in(4) {
        let place = random.below(count);
        balances[place] = outlier(random);
    }
    if count > 0 && random.one_in(4) {
        level_out(random, &mut balances);
    }
    balances
}

/// A balance within the range, by the kind of all of them.
fn balance(random: &mut Random, kind: usize) -> i64 {
    match kind {
        0 => between(random, -3, 3),
        1 => between(random, -1_000, 0),
        2 => between(random, -LARGEST, -LARGEST + 2),
        3 => random.pick(&[-LARGEST, LARGEST, 0, -1, 1]),
        4 => between(random, -LARGEST, 0),
        5 => between(random, -LARGEST, LARGEST / 2),
        _ => between(random, -LARGEST, LARGEST),
    }
}

/// A balance next to the ends of the range or of 64 bits, or any.
fn outlier(random: &mut Random) -> i64 {
    let any = i64::from_le_bytes(random.bits().to_le_bytes());
    let end = random.pick(&[
        LARGEST,
        -LARGEST,
        0,
        i64::MAX,
        i64::MIN,
        1 << 32,
        -(1 << 32),
    ]);
    let near = end.saturating_add(between(random, -1, 1));
    random.pick(&[any, near, near, near])
}

/// Changes the last balance such that the total comes next to 0, where that
/// keeps it within the range.
fn level_out(random: &mut Random, balances: &mut [i64]) {
    let last = balances.len() - 1;
    let others: i128 = balances[..last].iter().map(|kwh| i128::from(*kwh)).sum();
    let wanted = random.between(-2, 1) - others;
    if let Ok(wanted) = i64::try_from(wanted) {
        if wanted.abs() <= LARGEST {
            balances[last] = wanted;
        }
    }
}

/// A number from `least` to `most`, both included.
fn between(random: &mut Random, least: i64, most: i64) -> i64 {
    let number = random.between(i128::from(least), i128::from(most));
    i64::try_from(number).unwrap_or(0)
}

/// A share: small, next to a multiple of 30, or any 64 bits.
pub fn share(random: &mut Random) -> u64 {
    let bits = random.bits();
    let near = (bits % (u64::MAX / 30) * 30).wrapping_add(random.bits() % 3);
    random.pick(&[bits, near, bits % 100, bits % 500_000_001, u64::MAX])
}

/// Replays every return and every share over 30 days, line by line, and says
/// how many there were.
pub fn replay(returned: fn(&[i64]) -> ShrinkageAnswer, days: fn(u64) -> [Kwh; DAYS]) -> usize {
    let path = folder().join("shrinkage.txt");
    let text = fs::read_to_string(path).expect("vectors of shrinkage");
    for line in text.lines() {
        let (call, expected) = line.split_once(" -> ").expect("a call and its answer");
        let given = match call.split_once('=').expect("an argument") {
            ("shrinkage balances", balances) => printed_return(returned, &numbers(balances)),
            ("days share", share) => {
                let days = days(share.parse().expect("a share"));
                format!("number=0 days={}", list(days.iter().map(|day| day.0)))
            }
            (call, _) => panic!("no such call: {call}"),
        };
        assert_eq!(given, expected, "{call}");
    }
    text.lines().count()
}

/// The answer for balances in the words of the file, which has the places of
/// the users alone; the others have to be 0.
fn printed_return(returned: fn(&[i64]) -> ShrinkageAnswer, balances: &[i64]) -> String {
    let answer = returned(balances);
    let users = if answer.number == 0 {
        balances.len()
    } else {
        0
    };
    assert!(answer.shares[users..].iter().all(|share| share.0 == 0));
    assert!(answer.remainders[users..].iter().all(|left| *left == 0));
    format!(
        "number={} half={} odd={} rest={} shares={} remainders={}",
        answer.number,
        answer.half.0,
        answer.odd.0,
        answer.rest.0,
        list(answer.shares[..users].iter().map(|share| share.0)),
        list(answer.remainders[..users].iter()),
    )
}

/// Numbers with a comma between; nothing for none.
fn numbers(words: &str) -> Vec<i64> {
    let words = words.split(',').filter(|word| !word.is_empty());
    words.map(|word| word.parse().expect("a number")).collect()
}

fn list<T: Display>(values: impl Iterator<Item = T>) -> String {
    let words: Vec<String> = values.map(|value| value.to_string()).collect();
    words.join(",")
}
