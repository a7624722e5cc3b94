//! What has to be reached, and the judgement of what was.

use books::Call;

use crate::{group, Counts};

/// The numbers that a call of this name can return.
fn numbers(name: &str) -> Vec<u32> {
    match name {
        "posting" => [(0..=8).collect(), vec![10]].concat(),
        "list" => [(0..=7).collect(), vec![15]].concat(),
        "show" | "show picked" => (0..=8).collect(),
        "morning call" | "afternoon call" => [(0..=9).collect(), vec![11, 12]].concat(),
        "reduction" => [(0..=9).collect(), vec![11, 13, 14]].concat(),
        "cancellation" => [(0..=9).collect(), vec![11, 13, 14, 24, 25]].concat(),
        "levels" | "run" | "read" | "day" => (0..=7).collect(),
        "write" => [vec![0], (2..=7).collect()].concat(),
        "form" => [(0..=7).collect(), vec![30]].concat(),
        // Drawn with logs, tests/logs.rs, and beside a book, tests/forms.rs and
        // tests/conversions.rs.
        "withdrawal" | "start" | "restore" | "convert" => Vec::new(),
        _ => (0..=9).collect(),
    }
}

const BRANCHES: [&str; 104] = [
    "book: one user",
    "book: 64 users, 256 trades",
    "book: no trades",
    "book: id 4294967295",
    "book: physical 1,000,000",
    "book: physical -1,000,000",
    "book: least w in area 0",
    "book: least w in area 1",
    "book: least w in area 2",
    "book: version 1",
    "book: version 2",
    "book: version 3",
    "book: 64 users, 256 trades, version 1",
    "book: 64 users, 256 trades, version 2",
    "book: 64 users, 256 trades, version 3",
    "book: S 0",
    "book: S 1",
    "book: S 99,999",
    "book: S 100,000",
    "book: U 0",
    "book: U 1",
    "book: U 99,999",
    "book: U 100,000",
    "book: S above P",
    "book: U above Q",
    "credit: in area 0",
    "credit: in area 1",
    "credit: in area 2",
    "credit: more than the rest of the sum",
    "credit: takes the level to the floor",
    "credit: leaves the level one above the floor",
    "credit: a flagged user",
    "credit: covers the margin (question 11)",
    "credit: covers the level (questions 12 and 13)",
    "credit: leaves a target of 1 to 1,000",
    "reduction: by a seller with a credit",
    "reduction: the credit lessens the cuts",
    "cancellation: by a seller with a credit",
    "run: version 2, 3 or more reductions",
    "run: version 3, 3 or more reductions",
    "run: the credit saves a user from a reduction",
    "run: a cut lessens the buyer's credit and makes it short",
    "write: version 1, S or U not 0",
    "write: version 2",
    "write: version 3",
    "user: clearing house",
    "user: flagged clearing house",
    "user: called in by flag alone",
    "user: called in by a cut trade alone",
    "user: called in by both",
    "user: short positions - blocked at the limit of the flag",
    "user: short positions - blocked one above the limit of the flag",
    "user: level - blocked at the margin",
    "user: level - blocked one above the margin",
    "user: blocked above the level",
    "user: assigned at the level",
    "user: assigned one below the level",
    "user: morning level at the floor",
    "user: morning level above the floor",
    "user: afternoon level at the floor",
    "user: afternoon level above the floor",
    "warning: by own flag alone",
    "warning: by the seller's flag alone",
    "warning: by both",
    "warning: none",
    "warning: none, a seller is a flagged clearing house",
    "reduction: tier one, and a sale where the position is 0",
    "reduction: tier one only, tier two empty",
    "reduction: tier one only, tier two stands",
    "reduction: tier two only",
    "reduction: both tiers",
    "reduction: 0 < A < V",
    "reduction: 10^12 < A < V",
    "reduction: A = V",
    "reduction: A > V",
    "reduction: whole parts suffice",
    "reduction: remainders of more than one area",
    "reduction: tie of remainders decided by place",
    "reduction: short",
    "reduction: over",
    "reduction: exact",
    "cancellation: excess 0 at the first try",
    "cancellation: excess 0 at a later try",
    "cancellation: every set tried, excess above 0",
    "cancellation: tries spent",
    "cancellation: the last try is the empty set",
    "cancellation: one trade",
    "cancellation: more than 16 trades",
    "cancellation: both tiers",
    "cancellation: a trade of tier two in the set",
    "cancellation: a trade that is not eligible before one of the set",
    "cancellation: a later set of equal excess",
    "run: 0 reductions",
    "run: 1 reduction",
    "run: 2 reductions",
    "run: 3 to 400 reductions",
    "run: more than 400 reductions",
    "run: a user reduced more than once",
    "run: a cut makes the buyer short and reduced",
    "run: a user short of cover at the end",
    "day: clear",
    "day: short",
    "day: call",
    "day: quiet",
];

/// The name of a number that a call on a book of version 3 got.
pub fn in_version_3(name: &str, number: u32) -> String {
    format!("version 3, {name}: {number}")
}

pub fn print_and_judge(counts: &Counts) {
    let branches = BRANCHES.iter().chain(&group::BRANCHES);
    let mut required: Vec<String> = branches.map(|branch| branch.to_string()).collect();
    required.extend(
        (0..=15)
            .chain([24, 25, 30])
            .map(|number| format!("number {number}")),
    );
    for name in Call::NAMES {
        required.extend(
            numbers(name)
                .iter()
                .map(|number| format!("{name}: {number}")),
        );
        // The mark and the version are as they should be.
        let numbers = numbers(name).into_iter();
        let numbers = numbers.filter(|number| ![1, 2].contains(number));
        required.extend(numbers.map(|number| in_version_3(name, number)));
    }
    for (name, count) in &counts.reached {
        println!("{count:>7} {name}");
    }
    let possible = |name: &&String| !required.contains(name);
    let unexpected: Vec<&String> = counts.reached.keys().filter(possible).collect();
    assert!(
        unexpected.is_empty(),
        "reached, but not possible: {unexpected:?}"
    );
    let reached = |name: &&String| !counts.reached.contains_key(*name);
    let missing: Vec<&String> = required.iter().filter(reached).collect();
    assert!(missing.is_empty(), "never reached: {missing:?}");
}
