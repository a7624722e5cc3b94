//! Every command that answers, as objects and as tables: each object names its book,
//! each row has its columns.

#![forbid(unsafe_code)]

mod shell;

use std::fs;

use shell::Folder;

/// The commands, and the names that their objects start with.
const COMMANDS: [(&str, &str); 28] = [
    ("check chain.gdb chain.txt", "book"),
    ("check refused.txt", "book"),
    ("check wrong.txt", "book"),
    ("check cut.gdb", "book"),
    ("fields --column blocked chain.gdb", "book"),
    ("status chain.gdb", "book"),
    ("status chain.gdb --why 101", "book"),
    ("table chain.gdb", "book"),
    ("compare chain.gdb other.gdb", "book"),
    (
        "change chain.gdb 'user 101 physical PVB -1 charges 5.00' 'date 2026-04-01'",
        "book",
    ),
    ("show chain.gdb", "book"),
    ("level chain.gdb", "book"),
    ("level chain.gdb 7", "book"),
    ("warn chain.gdb", "book"),
    ("flag chain.gdb", "book"),
    ("trades chain.gdb 101", "book"),
    ("trades chain.gdb --as 102", "book"),
    ("call chain.gdb 104 --morning", "book"),
    ("calls chain.gdb --morning", "book"),
    ("post chain.gdb 101 PVB 5", "book"),
    ("list chain.gdb list.csv", "book"),
    ("reduce chain.gdb 101", "book"),
    ("cancel chain.gdb 101", "book"),
    ("run chain.gdb", "book"),
    ("log chain.log", "log"),
    ("withdraw other.gdb --log other.log", "book"),
    ("explain chain.gdb", "book"),
    ("shrinkage kwh --days", "file"),
];

fn folder(name: &str) -> Folder {
    let folder = Folder::new(name);
    let refused = concat!(env!("CARGO_MANIFEST_DIR"), "/../../samples/refused.txt");
    fs::copy(refused, folder.0.join("refused.txt")).expect("a sample");
    fs::write(folder.0.join("wrong.txt"), "daybook 1\nuser x\n").expect("a file");
    fs::write(folder.0.join("cut.gdb"), "GDB").expect("a file");
    fs::write(folder.0.join("kwh"), "North -100\n50\n").expect("a file");
    fs::write(
        folder.0.join("list.csv"),
        "id,area,MWh\n101,PVB,5\n7,PVB,1\n",
    )
    .expect("a file");
    for line in [
        "cp chain.gdb other.gdb; daybook log other.gdb -o other.log",
        "daybook run other.gdb --log other.log --in-place",
        "daybook log chain.gdb -o chain.log",
    ] {
        assert_eq!(folder.shell(line).0, 0, "{line}");
    }
    folder
}

#[test]
fn every_object_names_its_book() {
    let folder = folder("answers-json");
    for (words, first) in COMMANDS {
        let (_, out, _) = folder.shell(&format!("daybook {words} --json"));
        assert!(!out.is_empty(), "{words}");
        for line in out.lines() {
            assert!(
                line.starts_with(&format!("{{\"{first}\":\"")),
                "{words}: {line}"
            );
            let once = line.matches(&format!("\"{first}\":\"")).count();
            assert_eq!(once, 1, "{words}: {line}");
        }
    }
}

/// The fields of a row; one in quotes may have a comma in it.
fn fields(row: &str) -> usize {
    let quoted = row.split('"').skip(1).step_by(2);
    let within: usize = quoted.map(|it| it.matches(',').count()).sum();
    row.matches(',').count() - within + 1
}

#[test]
fn every_row_has_its_columns() {
    let folder = folder("answers-csv");
    for (words, _) in COMMANDS {
        let (status, out, messages) = folder.shell(&format!("daybook {words} --csv"));
        if words.ends_with(" 7") {
            assert_eq!((status, out.as_str()), (1, ""));
            continue;
        }
        let lines: Vec<&str> = out.lines().collect();
        assert!(!lines.is_empty(), "{words}: {messages}");
        // A log without an entry has the names of its columns alone.
        assert!(lines.len() > 1 || words.starts_with("log"), "{words}");
        for line in &lines {
            assert_eq!(fields(line), fields(lines[0]), "{words}: {line}");
        }
        // A spreadsheet takes no amount with commas for a number.
        let amount = |field: &str| cli::form::plain(field) != field;
        let with_commas = out.split('"').skip(1).step_by(2).find(|it| amount(it));
        assert_eq!(with_commas, None, "{words}");
    }
}

#[test]
fn tables_in_full() {
    let folder = folder("answers-tables");
    for (words, told) in [
        (
            "check chain.gdb refused.txt wrong.txt",
            "book,accepted,number,version,date,users,trades,file,line,column,record,place,field,reason\n\
             chain.gdb,true,0,1,2026-03-18,5,5,,,,,,,\n\
             refused.txt,false,5,,,,,,8,68,user,3,blocked,\
             \"user 3, id 104: blocked 200,000.00 EUR exceeds assigned 100,000.00 EUR\"\n\
             wrong.txt,false,,,,,,,2,6,,,,\"the id is a whole number, not `x`\"\n",
        ),
        (
            "change chain.gdb 'user 101 assigned +300,000.00' 'prices P 22.00' 'trade 3 standing 0'",
            "about,field,before,after\nuser 101,assigned,500000.00,800000.00\n\
             header,P,20.00,22.00\ntrade 3,standing,10000,0\n",
        ),
        (
            "explain chain.gdb --steps 1",
            "reduction,id,level,assigned,target,tier,trade,seller,buyer,area,standing,share,remainder,cut\n\
             1,101,800000.00,500000.00,300000.00,1,1,101,102,PVB,30000,15000,0,15000\n",
        ),
        (
            "shrinkage kwh",
            "name,balance_kwh,share_kwh,remainder\nNorth,-100,25,0\n2,50,0,0\n",
        ),
    ] {
        let (_, out, _) = folder.shell(&format!("daybook {words} --csv"));
        assert_eq!(out, told, "{words}");
    }
    let (status, out, _) = folder.shell("daybook check wrong.txt chain.gdb none --csv");
    assert_eq!((status, out.lines().count()), (2, 3), "{out}");
}
