//! Every refusal and every file that cannot be read or written ends in what to do.

#![forbid(unsafe_code)]

mod shell;

use std::collections::BTreeSet;
use std::fs;

use books::{Damage, Generator};
use cli::advice::{of_question, of_return, UNKNOWN};
use daybook::{shrinkage, Log, Operator, Refusal};
use shell::Folder;

/// The last line of a message, which says what to do.
fn last(messages: &str) -> &str {
    let last = messages.lines().last().unwrap_or("");
    assert!(last.contains(": what to do: "), "{messages}");
    let (_, advice) = last.split_once(": what to do: ").expect("advice");
    assert!(!advice.is_empty() && !advice.ends_with('.'), "{advice}");
    advice
}

/// No number that the engine has is without words of its own.
#[test]
fn every_question_has_advice() {
    let numbers = 1..=30;
    for number in numbers {
        let advice = match Refusal::from_number(number) {
            Some(refusal) => of_question(refusal),
            None => of_return(shrinkage::Refusal::from_number(number).expect("a refusal")),
        };
        assert!(!advice.is_empty() && advice != UNKNOWN, "{number}");
    }
}

/// Every number that a command can be refused with, from a command, in words and as an
/// object. The tool gives the engine as much room as it needs: 22 and 30 are not met.
#[test]
fn every_refusal_ends_in_what_to_do() {
    let folder = Folder::new("every-refusal");
    let mut asked: Vec<(u32, String)> = damaged(&folder);
    prepare(&folder);
    for (number, words) in [
        (8, "level chain.gdb 7"),
        (9, "level covered.txt 2"),
        (10, "post chain.gdb 101 PVB 2,000,000"),
        (11, "reduce chain.gdb 105"),
        (12, "call chain.gdb 101 --morning"),
        (13, "reduce covered.txt 1"),
        (14, "reduce no-sale.txt 1"),
        (15, "list chain.gdb long.csv"),
        (16, "level chain.gdb --store chain.txt"),
        (16, "check chain.gdb --store chain.txt"),
        (16, "store bad.store"),
        (17, "level chain.gdb --store late.txt"),
        (17, "check chain.gdb --store late.txt"),
        (18, "withdraw chain.gdb --log chain.log"),
        (19, "withdraw chain.gdb --log covered.txt"),
        (19, "withdraw covered.txt --log chain.log"),
        (19, "log chain.log covered.txt"),
        (19, "log broken.log"),
        (20, "reduce full.gdb 1 --log full.log"),
        (21, "convert group.gdb --to 1 -o x"),
        (23, "convert chain.gdb --to 9 -o x"),
        (24, "cancel small.txt 1"),
        (25, "cancel chain.gdb 101 --tries 0"),
        (26, "level chain.gdb 101 --as 102"),
        (26, "level chain.gdb 7 --as 7"),
        (27, "shrinkage balance.txt"),
        (28, "shrinkage users.txt"),
        (29, "fields bad.gdf -o x"),
    ] {
        asked.push((number, words.to_string()));
    }
    let mut met = BTreeSet::new();
    for (number, words) in asked {
        let (status, out, messages) = folder.shell(&format!("daybook {words}"));
        let told = format!("{out}{messages}");
        assert_eq!(status, 1, "{words}: {told}");
        let question = format!("refused by question {number}: ");
        assert!(told.contains(&question), "{words}: {told}");
        last(&told);
        let (_, out, _) = folder.shell(&format!("daybook {words} --json"));
        // What writes a file has no answer to give as an object.
        let has_json = !out.is_empty();
        assert!(
            !has_json || out.contains("\"advice\":[\""),
            "{words}: {out}"
        );
        met.insert(number);
    }
    let all: BTreeSet<u32> = (1..=30).filter(|it| ![22, 30].contains(it)).collect();
    assert_eq!(met, all);
}

/// A damaged book for each of the first seven numbers.
fn damaged(folder: &Folder) -> Vec<(u32, String)> {
    let (mut generator, mut found) = (Generator::new(76), Vec::new());
    for damage in Damage::ALL {
        let book = generator.damaged_by(damage);
        let Err(refusal) = Operator::new().read(&book) else {
            continue;
        };
        let (number, name) = (refusal.number(), format!("{}.gdb", found.len()));
        fs::write(folder.0.join(&name), &book).expect("a file");
        found.push((number, format!("check {name}")));
    }
    found
}

/// The books, stores, logs and texts that the commands are given.
fn prepare(folder: &Folder) {
    let put = |name: &str, bytes: &[u8]| fs::write(folder.0.join(name), bytes).expect("a file");
    let chain = folder.bytes("chain.gdb");
    let day = "daybook 1\ndate 2026-03-18\nprices P 20.00 Q 21.00 L 3.00 X 1.00 I 0.50\n";
    let text = |assigned: &str, trades: &str| {
        let users = format!("user 1 shipper physical PVB -40,000 assigned {assigned}\n");
        format!("{day}{users}user 2 clearing-house\n{trades}")
    };
    put("covered.txt", text("5,000,000.00", "").as_bytes());
    put("no-sale.txt", text("0.00", "").as_bytes());
    let sale = "trade 1 to 2 PVB bilateral d 1\n";
    put("small.txt", text("0.00", sale).as_bytes());
    let line = "101,PVB,1\n".repeat(513);
    put("long.csv", format!("id,area,MWh\n{line}").as_bytes());
    put("bad.store", b"GPS\x01\x00\x09");
    let late = "parameters 1\nfrom 2099-01-01 flag 1 margin 1.00 least 1.00\n";
    put("late.txt", late.as_bytes());
    put("chain.log", Log::start(&chain).expect("a log").as_bytes());
    put("broken.log", b"GDL\0");
    put("full.gdb", &books::hard::one_seller(60).to_bytes());
    let run = "daybook log full.gdb -o full.log && daybook run full.gdb --log full.log --in-place";
    assert_eq!(folder.shell(run).0, 4);
    put("balance.txt", b"500000001\n");
    put("users.txt", "1\n".repeat(65).as_bytes());
    put("bad.gdf", b"GDF");
    let samples = concat!(env!("CARGO_MANIFEST_DIR"), "/../../samples");
    fs::copy(format!("{samples}/group.gdb"), folder.0.join("group.gdb")).expect("a sample");
}

/// Files and folders that cannot be read or written, texts and tables with mistakes.
#[test]
fn every_file_error_ends_in_what_to_do() {
    let folder = Folder::new("file-errors");
    let texts = [
        ("bad.txt", "daybook 1\nuser x\n"),
        ("bad.csv", "a,b\n1,2\n"),
    ];
    for (name, text) in texts {
        fs::write(folder.0.join(name), text).expect("a file");
    }
    for name in ["empty", "tables"] {
        fs::create_dir(folder.0.join(name)).expect("a folder");
    }
    fs::write(folder.0.join("tables/header.csv"), "").expect("a file");
    let long = fs::File::create(folder.0.join("long")).expect("a file");
    long.set_len(65 << 20).expect("a length");
    for words in [
        "check none.gdb",
        "check chain.gdb/x",
        "check long",
        "check empty",
        "check ''",
        "check bad.txt",
        "table none",
        "status tables",
        "level none 1 --as 1",
        "level bad.txt 101 --as 101",
        "list chain.gdb none.csv",
        "list chain.gdb bad.csv",
        "store none",
        "level chain.gdb --store none",
        "run chain.gdb --log none",
        "run chain.gdb --log empty",
        "run empty --in-place",
        "shrinkage none",
        "shrinkage bad.txt",
        "change chain.gdb 'user x' -o y",
        "text chain.gdb -o chain.txt",
        "text chain.gdb -o none/x",
        "text chain.gdb -o chain.gdb/x",
        "text chain.gdb -o empty --force",
        "text chain.gdb -o /dev/null --force",
        "text chain.gdb -o /proc/x",
        "csv chain.gdb chain.txt",
        "csv chain.gdb tables",
        "text chain.gdb >/dev/full",
        "post chain.gdb 101 PVB 1 --in-place >/dev/full",
    ] {
        let (status, out, messages) = folder.shell(&format!("daybook {words}"));
        assert!(
            status == 1 || status == 2 || status == 3,
            "{words}: {status}"
        );
        last(&format!("{out}{messages}"));
    }
    // Where the change counts, it is not to be made again.
    let (_, _, messages) = folder.shell("daybook post chain.gdb 101 PVB 1 --in-place >/dev/full");
    assert_eq!(
        last(&messages),
        "do not give the command again: the change counts"
    );
}
