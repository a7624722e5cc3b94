//! What cannot be read of CSV files is told with its file, line and column.

#![forbid(unsafe_code)]

use daybook_text::csv;
use daybook_text::draft::Mistake;
use daybook_text::fields::Field;

/// The mistakes of CSV files, of which one is given and the others are right.
fn csv_mistakes(place: usize, file: &str) -> Vec<String> {
    let mut files = [
        "version,date,P,Q,L,X,I\n1,2026-03-18,20,21,3,1,0.5\n",
        "id,role,physical_PVB,physical_TVB,physical_AVB,charges,assigned,blocked\n",
        "seller,buyer,area,kind,day,notified\n",
    ];
    files[place] = file;
    let shown = |it: &Mistake| format!("{}: {}", it.spot, it.reason);
    match csv::read(files.map(str::as_bytes)) {
        Ok(_) => Vec::new(),
        Err(mistakes) => mistakes.iter().map(shown).collect(),
    }
}

#[test]
fn mistakes_of_csv_files() {
    let users = "id,role,physical_PVB,physical_TVB,physical_AVB,charges,assigned,blocked\n";
    for (place, file, told) in [
        (
            0,
            "",
            "/header.csv:1:1: the first line has the names version,date,P,Q,L,X,I,S,U",
        ),
        (
            0,
            "version,date,P,Q,L,X,I\n",
            "/header.csv:2:1: the row of the header is missing",
        ),
        (
            0,
            "version,date,P,Q,L,X\n",
            "/header.csv:1:1: the column I is missing",
        ),
        (
            0,
            "version,day\n",
            "/header.csv:1:1: the column date is missing; none of the names: day",
        ),
        (
            0,
            "version,version\n",
            "/header.csv:1:9: a second column version",
        ),
        (
            0,
            "version,date,P,Q,L,X,I\n1,18/03/2026,1,1,1,1,1\n",
            "/header.csv:2:3: date is written as 2026-03-18 or 18.03.2026, not `18/03/2026`; `daybook from-csv --dates dmy` reads day/month/year",
        ),
        (
            0,
            "version,date,P,Q,L,X,I\n1,2026-03-18,1,1,1,1,1\n1,2026-03-18,1,1,1,1,1\n",
            "/header.csv:3:1: a second row; a book has one header",
        ),
        (
            1,
            &format!("{users}1,shipper,0,0,0,0,1.005,0\n"),
            "/users.csv:2:19: assigned is euros, as 1234.50, not `1.005`",
        ),
        (
            1,
            &format!("{users}1,shipper,0,0\n"),
            "/users.csv:2:1: charges is euros, as 1234.50, not ``",
        ),
        (
            1,
            &format!("{users}1,\"shipper,0,0\n"),
            "/users.csv:2:3: the field's closing quote is missing",
        ),
        (
            1,
            &format!("{users}1,shipper,0,0,0,0,0,0,9\n"),
            "/users.csv:2:23: 9 fields in 8 columns; a comma within an amount? Euros are written as 1234.50",
        ),
        (
            2,
            "seller,buyer,area,kind,day,notified\n1,2,PVB,swap,d,5\n",
            "/trades.csv:2:9: kind is one of bilateral, platform, counterparty, not `swap`",
        ),
    ] {
        assert_eq!(csv_mistakes(place, file)[0], told, "{file}");
    }
    assert_eq!(csv_mistakes(1, &format!("{users}\n;;;\n,,,\n")).len(), 1);
    let quoted = "\"1\",\"ship\"\"per\",0,0,0,0,0,0\n";
    let told = csv_mistakes(1, &format!("{users}{quoted}"));
    assert!(told[0].ends_with("not `ship\\\"per`"), "{told:?}");
}

/// A fault in a CSV file is told by its file, line and column too.
#[test]
fn refusals_of_csv_files() {
    let files = [
        "version,date,P,Q,L,X,I\n1,2026-03-18,20,21,3,1,0.5\n",
        "id,role,physical_PVB,physical_TVB,physical_AVB,charges,assigned,blocked\n1,shipper,0,0,0,0,1,2\n",
        "seller,buyer,area,kind,day,notified\n",
    ];
    let draft = csv::read(files.map(str::as_bytes)).expect("files");
    let refused = draft.into_bytes().expect_err("a refusal");
    let (spot, fault) = &refused.faults[0];
    assert_eq!((refused.refusal.number(), fault.field), (5, Field::Blocked));
    assert_eq!(spot.to_string(), "/users.csv:2:21");
}
