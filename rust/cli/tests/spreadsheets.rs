//! What spreadsheets write and read: semicolons, tabs, thousands, dates, names, columns
//! and ids in any order; and a folder of CSV files as a book.

#![forbid(unsafe_code)]

mod shell;

use std::fs;

use books::{Generator, Kind};
use daybook::Operator;
use daybook_text::csv::{self, Dates, Style};
use shell::Folder;

const HEADER: &str = "version,date,P,Q,L,X,I\n1,2026-03-18,20,21,3,1,0.5\n";
const USERS: &str = "id,role,physical_PVB,physical_TVB,physical_AVB,charges,assigned,blocked\n\
                     1,shipper,-1500,0,0,1234.5,2000,1000.01\n2,clearing-house,0,0,0,0,0,0\n";
const TRADES: &str = "seller,buyer,area,kind,day,notified\n1,2,PVB,bilateral,d,30000\n";

/// The book of three files, or the first mistake.
fn book(files: [&str; 3], dates: Dates) -> Result<Vec<u8>, String> {
    book_of(files.map(str::as_bytes), dates)
}

fn book_of(files: [&[u8]; 3], dates: Dates) -> Result<Vec<u8>, String> {
    match csv::read_dated(files, dates) {
        Ok(draft) => Ok(draft.into_bytes().expect("a book")),
        Err(mistakes) => Err(format!("{}: {}", mistakes[0].spot, mistakes[0].reason)),
    }
}

/// Every accepted book comes back from either style.
#[test]
fn semicolons_and_back() {
    let mut generator = Generator::new(74);
    for kind in Kind::ACCEPTED {
        for _ in 0..10 {
            let bytes = generator.book(kind);
            let fields = Operator::new().read(&bytes).expect("a book");
            let files = csv::write_in(&fields, Style::Semicolons);
            assert!(files.iter().all(|it| it.starts_with('\u{feff}')));
            assert!(files.iter().all(|it| !it.contains('.')), "{files:?}");
            let files = files.each_ref().map(|it| it.as_bytes());
            assert_eq!(book_of(files, Dates::default()), Ok(bytes));
        }
    }
}

/// One book in the spellings of several spreadsheets.
#[test]
fn spellings_of_one_book() {
    let plain = book([HEADER, USERS, TRADES], Dates::default()).expect("a book");
    let semicolons = [HEADER, USERS, TRADES].map(|it| it.replace('.', "@").replace(',', ";"));
    let semicolons = semicolons.each_ref().map(|it| it.replace('@', ","));
    let tabs = [HEADER, USERS, TRADES].map(|it| it.replace(',', "\t"));
    let german = [
        "version;date;P;Q;L;X;I\r\n1;18.03.2026;20,00;21;3;1;0,5\r\n",
        "id;role;physical_PVB;physical_TVB;physical_AVB;charges;assigned;blocked\r\n\
         2;clearing-house;;;;;;\r\n1;shipper;-1.500;;;1.234,50;2.000,00;1.000,01\r\n",
        "seller;buyer;area;kind;day;notified\r\n1;2;PVB;bilateral;d;30.000\r\n",
    ];
    let spanish = [
        &german[0].replace("18.03.2026", "18/03/2026"),
        german[1],
        german[2],
    ];
    let english = [
        HEADER,
        "name,blocked,assigned,charges,physical_AVB,physical_TVB,physical_PVB,role,id,phone\n\
         Centro,0,,,,,,clearing-house,2,\n\
         \"Norte, S.A.\",\"1,000.01\",\"2,000\",\"1,234.50\",0,0,\"-1,500\",shipper,1,555\n",
        "seller,buyer,area,kind,day,notified,standing,\n1,2,PVB,bilateral,d,\"30,000\",,\n",
    ];
    for (files, dates) in [
        (semicolons.each_ref().map(String::as_str), Dates::NoSlashes),
        (tabs.each_ref().map(String::as_str), Dates::NoSlashes),
        (german, Dates::NoSlashes),
        (german, Dates::DayFirst),
        (spanish, Dates::DayFirst),
        (english, Dates::NoSlashes),
    ] {
        assert_eq!(book(files, dates).as_ref(), Ok(&plain), "{files:?}");
    }
    assert_eq!(
        book(spanish, Dates::NoSlashes).expect_err("a mistake"),
        "/header.csv:2:3: date is written as 2026-03-18 or 18.03.2026, not `18/03/2026`; \
         `daybook from-csv --dates dmy` reads day/month/year"
    );
    // In UTF-16, as a spreadsheet saves text with tabs, in either order of bytes.
    for unit in [u16::to_le_bytes as fn(u16) -> [u8; 2], u16::to_be_bytes] {
        let wide = |it: &String| {
            let units = std::iter::once(0xfeff).chain(it.encode_utf16());
            units.flat_map(unit).collect::<Vec<u8>>()
        };
        let files = tabs.each_ref().map(wide);
        let files = files.each_ref().map(Vec::as_slice);
        assert_eq!(book_of(files, Dates::default()).as_ref(), Ok(&plain));
    }
    // In the 8 bits of an older one.
    let named = USERS.replace("blocked\n", "blocked,name\n");
    let named = named.replace("1000.01\n", "1000.01,Espa@a\n");
    let narrow: Vec<u8> = named
        .bytes()
        .map(|it| if it == b'@' { 0xf1 } else { it })
        .collect();
    let files = [HEADER.as_bytes(), &narrow, TRADES.as_bytes()];
    let draft = csv::read(files).expect("files");
    assert_eq!(draft.names, [(1, "España".to_string())]);
    assert_eq!(draft.into_bytes().expect("a book"), plain);
}

/// What may mean two things, or nothing, is told.
#[test]
fn what_is_no_amount() {
    let users = |row: &str| {
        format!(
            "{}{row}\n",
            USERS.lines().next().expect("names").to_string() + "\n"
        )
    };
    for (row, apart, told) in [
        (
            "1,shipper,0,0,0,1.234,5,0",
            ",",
            "/users.csv:2:17: charges is euros, as 1234.50, not `1.234`",
        ),
        (
            "1,shipper,0,0,0,\"1@5\",5,0",
            ",",
            "/users.csv:2:17: charges is euros, as 1234.50, or 1234,50 with semicolons between \
             the columns, not `1,5`",
        ),
        (
            "1,shipper,0,0,0,1.234,5,0",
            "\t",
            "/users.csv:2:17: charges is euros, as 1234.50 or 1234,50, not `1.234`",
        ),
        (
            "1,shipper,0,0,0,1@234,5,0",
            ";",
            "/users.csv:2:17: charges is euros, as 1234,50, not `1,234`",
        ),
        (
            "1,shipper,1@5,0,0,1,5,0",
            ";",
            "/users.csv:2:11: physical_PVB is a whole number, not `1,5`",
        ),
        (
            "1,shipper,0,0",
            ",",
            "/users.csv:2:1: charges is euros, as 1234.50, not ``",
        ),
    ] {
        let users = users(row).replace(',', apart).replace('@', ",");
        let told_of = book([HEADER, &users, TRADES], Dates::default());
        assert_eq!(told_of.expect_err("a mistake"), told);
    }
    let users = USERS.replace("assigned", "asigned");
    assert_eq!(
        book([HEADER, &users, TRADES], Dates::default()).expect_err("a mistake"),
        "/users.csv:1:1: the column assigned is missing; none of the names: asigned"
    );
    // One id in two rows, whatever stands between.
    let twice = format!("{USERS}1,shipper,0,0,0,0,0,0\n");
    let draft = csv::read([HEADER, &twice, TRADES].map(str::as_bytes)).expect("files");
    let refused = draft.into_bytes().expect_err("a refusal");
    let (spot, fault) = &refused.faults[0];
    assert_eq!(
        format!("{spot}: {fault}"),
        "/users.csv:4:1: user 2, id 1: the id of user 1, in line 2"
    );
}

/// A folder of CSV files is a book for every command.
#[test]
fn a_folder_is_a_book() {
    let folder = Folder::new("tables-as-book");
    for line in [
        "daybook csv chain.gdb tables --semicolon",
        "daybook csv chain.gdb books/one && cp chain.gdb books/two",
        "daybook from-csv tables -o - | cmp chain.gdb",
        "daybook fields tables -o - | daybook fields - -o - | cmp chain.gdb",
        "daybook convert tables --to 3 -o - | daybook convert - --to 1 -o - | cmp chain.gdb",
        "daybook csv tables tables-2 && daybook from-csv tables-2 -o - | cmp chain.gdb",
    ] {
        assert_eq!(
            folder.shell(line),
            (0, String::new(), String::new()),
            "{line}"
        );
    }
    for words in [
        "check BOOK",
        "text BOOK",
        "status BOOK",
        "level BOOK 101 --json",
        "show BOOK",
        "run BOOK -o - 2>&1 >/dev/null",
        "explain BOOK",
        "table BOOK",
        "fields --column blocked BOOK",
        "compare BOOK BOOK",
    ] {
        let of = |book: &str| {
            let (status, out, messages) =
                folder.shell(&format!("daybook {}", words.replace("BOOK", book)));
            (status, out.replace(book, "BOOK"), messages)
        };
        let (as_tables, as_bytes) = (of("tables"), of("chain.gdb"));
        // Widths of names apart.
        let plain = |it: (i32, String, String)| (it.0, it.1.replace(' ', ""), it.2);
        assert_eq!(plain(as_tables), plain(as_bytes), "{words}");
    }
    let (status, out, _) = folder.shell("daybook table books --csv");
    assert_eq!((status, out.lines().count()), (0, 3), "{out}");
    let (status, _, messages) = folder.shell("daybook run tables --in-place");
    assert_eq!(status, 2);
    assert!(messages.ends_with("give a regular file; --in-place needs one\n"));
    let (status, _, messages) = folder.shell("rm tables/users.csv; daybook check tables");
    assert_eq!(status, 2);
    assert!(messages.starts_with("tables/users.csv: cannot be read: "));
    let (_, _, messages) = folder.shell("mkdir empty; daybook check empty");
    assert_eq!(
        messages,
        "empty: is a folder\nempty: what to do: give a file; a folder with header.csv, users.csv and trades.csv is a \
         book\n"
    );
}

/// Names are shown where people read, what is skipped is noted, and neither disturbs
/// what programs read.
#[test]
fn names_and_notes() {
    let folder = Folder::new("tables-names");
    let users = USERS.replace("blocked\n", "blocked,name,phone\n");
    let users = users.replace("1000.01\n", "1000.01,Gas \u{1b}Norte,5\n");
    fs::create_dir(folder.0.join("day")).expect("a folder");
    for (file, text) in csv::FILES.iter().zip([HEADER, &users, TRADES]) {
        fs::write(folder.0.join("day").join(file), text).expect("a file");
    }
    let note = "day/users.csv:1:78: the column phone is skipped\n";
    let (status, out, messages) = folder.shell("daybook status day");
    assert_eq!((status, messages.as_str()), (0, note));
    let row = "1 Gas \u{fffd}Norte short level 631,234.50 ";
    assert!(out.starts_with(row), "{out}");
    for words in [
        "run day",
        "calls day --morning",
        "check day",
        "level day",
        "text day",
        "csv day x",
    ] {
        let (_, _, messages) = folder.shell(&format!("daybook {words}"));
        assert!(messages.contains(note), "{words}: {messages}");
        assert_eq!(messages.matches(note).count(), 1, "{words}");
    }
    let (_, out, _) = folder.shell("daybook run day");
    assert!(out.contains("1 Gas \u{fffd}Norte short"), "{out}");
    let (status, out, messages) = folder.shell("daybook from-csv day -o - | daybook text -");
    assert_eq!((status, messages.as_str()), (0, note));
    assert!(!out.contains("Norte"), "{out}");
    let (status, _, messages) = folder.shell("daybook from-csv day -o x --dates mdy");
    assert_eq!(status, 2);
    assert!(messages.starts_with("--dates mdy: the only order is dmy, day/month/year"));
}
