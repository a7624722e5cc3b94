//! `daybook fields`: forms and back, refused forms told, one field of all records.

#![forbid(unsafe_code)]

mod shell;

use std::fs;

use books::{Generator, Kind};
use cli::columns::{names, Column};
use cli::form_bytes::in_records;
use daybook::{Book, Operator, Refusal};
use daybook_text::fields::Field;
use shell::Folder;

/// A folder with a book of each version: `one.gdb`, `two.gdb` and `three.gdb`.
fn folder(name: &str) -> Folder {
    let folder = Folder::new(name);
    for (sample, book) in [("tiers", "one"), ("credit", "two"), ("group", "three")] {
        let samples = concat!(env!("CARGO_MANIFEST_DIR"), "/../../samples");
        let text = fs::read(format!("{samples}/{sample}.txt")).expect("a sample");
        fs::write(folder.0.join(format!("{book}.txt")), text).expect("a file");
        let made = folder.shell(&format!("daybook book {book}.txt -o {book}.gdb"));
        assert_eq!(made.0, 0, "{made:?}");
    }
    folder
}

#[test]
fn a_form_and_its_book() {
    let folder = folder("fields");
    for book in ["one", "two", "three"] {
        for line in [
            format!("daybook fields {book}.gdb -o {book}.gdf"),
            format!("daybook fields {book}.gdf -o {book}.back"),
            format!("cmp {book}.gdb {book}.back"),
            format!("daybook fields {book}.txt -o - | cmp {book}.gdf"),
            format!("daybook fields - -o - <{book}.gdf | cmp {book}.gdb"),
        ] {
            let quiet = (0, String::new(), String::new());
            assert_eq!(folder.shell(&line), quiet, "{line}");
        }
        let (form, bytes) = (
            folder.bytes(&format!("{book}.gdf")),
            folder.bytes(&format!("{book}.gdb")),
        );
        assert_eq!(Ok(&form), Operator::new().field_wise(&bytes).as_ref());
        assert!(form.starts_with(b"GDF") && form.len() == bytes.len());
    }
}

#[test]
fn nothing_is_written_over_unasked() {
    let folder = folder("fields-over");
    fs::write(folder.0.join("kept"), b"kept").expect("a file");
    for (line, status) in [
        ("daybook fields one.gdb -o kept", 2),
        ("daybook fields one.gdb -o one.gdb", 2),
        ("daybook fields one.gdb", 2),
        ("daybook fields one.gdb --json -o x", 2),
        ("daybook fields missing -o x", 2),
        ("daybook fields one.gdb two.gdb -o x", 2),
        ("daybook fields --column id one.gdb -o x", 2),
        ("head -c 100 one.gdb >cut; daybook fields cut -o x", 1),
    ] {
        let (ended, out, messages) = folder.shell(line);
        assert_eq!((ended, out.as_str()), (status, ""), "{line}: {messages}");
        assert!(!messages.is_empty(), "{line}");
        assert!(!folder.names().contains(&"x".to_string()), "{line}");
        assert_eq!(folder.bytes("kept"), b"kept", "{line}");
    }
    assert_eq!(folder.shell("daybook fields one.gdb -o kept --force").0, 0);
    assert!(folder.bytes("kept").starts_with(b"GDF"));
}

/// A refused form is told with the question that its book fails, and where.
#[test]
fn refused_forms() {
    let folder = folder("fields-refused");
    let form = Operator::new()
        .field_wise(&folder.bytes("one.gdb"))
        .expect("a form");
    let question = Refusal::from_number(29).expect("a question").question();
    // Blocked is the last field of users: the last of them is that of 203.
    let blocked = 32 + 3 * 56 - 1;
    let changed = |at: usize, byte: u8| {
        let mut form = form.clone();
        form[at] = byte;
        form
    };
    for (form, number, fault) in [
        (
            changed(blocked, 1),
            5,
            "user 3, id 203: blocked 720,575,940,479,279.36 EUR exceeds assigned 300,000.00 EUR\n\
             bad: what to do: assign more, or block less",
        ),
        (
            changed(32, 202),
            5,
            "user 2, id 202: the id of user 1\nbad: what to do: give every user an id of its own, \
             rising from one to the next",
        ),
        (
            changed(3, 7),
            2,
            "header: version 7, the engine knows versions 1, 2 and 3\n\
             bad: what to do: write version 1, 2 or 3",
        ),
        (
            form[..279].to_vec(),
            3,
            "header: 279 bytes, but a version 1 book of 3 users and 4 trades has 280 bytes\n\
             bad: what to do: the file is cut off, or goes on behind its book: fetch it again",
        ),
        (
            form[..20].to_vec(),
            1,
            "header: 20 bytes, a header has at least 32\n\
             bad: what to do: the file is cut off, or goes on behind its book: fetch it again",
        ),
    ] {
        fs::write(folder.0.join("bad"), &form).expect("a file");
        let of_book = Refusal::from_number(number).expect("a question");
        let told = format!(
            "bad: refused by question 29: {question}\nbad: its book is {of_book}\nbad: {fault}\n"
        );
        let refused = (1, String::new(), told);
        assert_eq!(folder.shell("daybook fields bad -o x"), refused);
        assert_eq!(folder.shell("daybook fields --column id bad"), refused);
        let (status, out, messages) = folder.shell("daybook fields --column id bad --json");
        assert_eq!((status, messages.as_str()), (1, ""));
        let start = "{\"book\":\"bad\",\"accepted\":false,\"number\":29,";
        assert!(out.starts_with(start), "{out}");
        assert!(
            out.contains(&format!("\"book_number\":{number},\"faults\":[{{")),
            "{out}"
        );
    }
    assert!(!folder.0.join("x").exists());
}

/// Every other command says what a form is.
#[test]
fn a_form_is_no_book() {
    let folder = folder("fields-no-book");
    assert_eq!(folder.shell("daybook fields one.gdb -o one.gdf").0, 0);
    let (status, out, _) = folder.shell("daybook check one.gdf");
    assert_eq!(status, 1);
    let hint = "it is field-wise, and `daybook fields FORM -o BOOK` gives its book";
    assert!(out.contains(hint), "{out}");
}

#[test]
fn one_field_of_all_records() {
    let folder = folder("fields-column");
    for book in ["one", "three"] {
        let line = format!("daybook fields {book}.gdb -o {book}.gdf");
        assert_eq!(folder.shell(&line).0, 0);
    }
    for (words, told) in [
        (
            "--column blocked one.gdf",
            "user 201 blocked 200,000.00\nuser 202 blocked 100,000.00\nuser 203 blocked 100,000.00\n",
        ),
        ("--column id one.gdf", "user 201\nuser 202\nuser 203\n"),
        (
            "--column 'physical PVB' one.txt",
            "user 201 physical PVB -35,000\nuser 202 physical PVB   5,000\nuser 203 physical PVB       0\n",
        ),
        (
            "--column manager_pvb three.gdf",
            "user 201 manager PVB none\nuser 202 manager PVB none\n\
             user 203 manager PVB none\nuser 204 manager PVB  201\n",
        ),
        (
            "--column STANDING one.gdb",
            "trade 1 standing 10,000\ntrade 2 standing 10,000\n\
             trade 3 standing  5,000\ntrade 4 standing 20,000\n",
        ),
        (
            "--column day one.gdb one.gdf",
            "one.gdb: trade 1 day d\none.gdb: trade 2 day d\none.gdb: trade 3 day d\n\
             one.gdb: trade 4 day d+1\none.gdf: trade 1 day d\none.gdf: trade 2 day d\n\
             one.gdf: trade 3 day d\none.gdf: trade 4 day d+1\n",
        ),
        (
            "--column physical-TVB one.gdf --csv",
            "book,user,id,area,physical_mwh\none.gdf,1,201,TVB,20000\n\
             one.gdf,2,202,TVB,0\none.gdf,3,203,TVB,0\n",
        ),
        (
            "--column assigned one.gdf --csv",
            "book,user,id,assigned\none.gdf,1,201,1000000.00\none.gdf,2,202,150000.00\n\
             one.gdf,3,203,300000.00\n",
        ),
        (
            "--column charges one.gdf --json",
            "{\"book\":\"one.gdf\",\"user\":1,\"id\":201,\"charges_cents\":0}\n\
             {\"book\":\"one.gdf\",\"user\":2,\"id\":202,\"charges_cents\":0}\n\
             {\"book\":\"one.gdf\",\"user\":3,\"id\":203,\"charges_cents\":0}\n",
        ),
        (
            "--column kind one.gdf --json",
            "{\"book\":\"one.gdf\",\"trade\":1,\"kind\":\"bilateral\"}\n\
             {\"book\":\"one.gdf\",\"trade\":2,\"kind\":\"bilateral\"}\n\
             {\"book\":\"one.gdf\",\"trade\":3,\"kind\":\"bilateral\"}\n\
             {\"book\":\"one.gdf\",\"trade\":4,\"kind\":\"platform\"}\n",
        ),
    ] {
        let wanted = (0, told.to_string(), String::new());
        assert_eq!(folder.shell(&format!("daybook fields {words}")), wanted);
    }
    let (status, out, messages) = folder.shell("daybook fields --column height one.gdf");
    let wanted = format!("--column height: no such field; {}\n", names());
    assert_eq!((status, out.as_str()), (2, ""));
    assert!(messages.starts_with(&wanted), "{messages}");
    // Of a folder what can be read is printed, and the rest told.
    let shell =
        "mkdir forms; cp one.gdf three.gdf forms; daybook fields --column manager_avb forms";
    let (status, out, messages) = folder.shell(shell);
    assert_eq!(status, 2);
    assert_eq!(out.lines().count(), 4, "{out}");
    assert_eq!(
        messages,
        "forms/one.gdf: has no manager AVB: it is of version 1\n"
    );
}

/// Each name that is told is one, and a field of users or of trades has a value for
/// each of them.
#[test]
fn every_name_is_a_field() {
    let mut generator = Generator::new(71);
    let book = Operator::new()
        .read(&generator.book(Kind::Group))
        .expect("a book");
    let listed = names().replace(" (managers in version 3); of trades ", ", ");
    let listed = listed
        .strip_prefix("of users ")
        .expect("users first")
        .to_string();
    let lines = |name: &str| {
        let field = cli::columns::named(name).expect("a field");
        Column::new(&book, field).lines().lines().count()
    };
    let counts: Vec<usize> = listed.split(", ").map(lines).collect();
    let Book { users, trades, .. } = &book;
    assert_eq!(
        counts,
        [vec![users.len(); 14], vec![trades.len(); 7]].concat()
    );
    assert_eq!(cli::columns::named("zero bytes"), None);
    assert_eq!(cli::columns::named("Manager_AVB"), Some(Field::Manager(2)));
}

/// The bytes put together beside the engine are its book's, and are refused exactly
/// where it refuses the form: books of every kind, each with bytes changed.
#[test]
fn records_are_the_engines() {
    let mut generator = Generator::new(72);
    let mut refused = 0;
    for kind in Kind::ACCEPTED {
        for round in 0..20 {
            let book = generator.book(kind);
            let form = Operator::new().field_wise(&book).expect("a form");
            assert_eq!(daybook::record_wise(&form).as_ref(), Ok(&book));
            assert_eq!(in_records(&form), book);
            for at in (round..form.len()).step_by(97) {
                let mut changed = form.clone();
                changed[at] ^= 1 << (at % 8);
                let put_together = in_records(&changed);
                match daybook::record_wise(&changed) {
                    Ok(book) => assert_eq!(put_together, book),
                    Err(refusal) => {
                        assert_eq!(refusal.number(), 29);
                        assert!(at < 3 || Operator::new().read(&put_together).is_err());
                        refused += 1;
                    }
                }
            }
        }
    }
    assert!(refused > 1_000, "{refused}");
}
