//! Refusals end in what to do, and on a terminal a place is shown with its line.

#![forbid(unsafe_code)]

mod shell;

use std::fs;

use books::{Damage, Generator};
use cli::advice::of_faults;
use daybook::Operator;
use daybook_text::faults::faults;
use shell::Folder;

/// Every field at fault has its advice, and what helps is said once.
#[test]
fn every_damage_has_advice() {
    let mut generator = Generator::new(75);
    for damage in Damage::ALL {
        for _ in 0..20 {
            let book = generator.damaged_by(damage);
            let Err(refusal) = Operator::new().read(&book) else {
                continue;
            };
            let found = faults(&book, refusal.number());
            let advice = of_faults(&found).expect("advice");
            assert!(!advice.is_empty() && !advice.ends_with('.'), "{advice}");
        }
    }
}

#[test]
fn refused_calls_end_in_what_to_do() {
    let folder = Folder::new("advice");
    for (words, told) in [
        (
            "level chain.gdb 7",
            "give one of these ids; without one all are told",
        ),
        (
            "post chain.gdb 101 PVB 2,000,000",
            "post from -990,000 to 1,010,000 MWh",
        ),
        ("post chain.gdb 101 9 2", "write one of PVB, TVB, AVB"),
        (
            "call chain.gdb 101 --morning",
            "once 300,000.00 EUR more are deposited: \
             `daybook change chain.gdb 'user 101 assigned +300,000.00' -o FILE`",
        ),
        (
            "reduce chain.gdb 105",
            "nothing: neither a call nor a cut is due",
        ),
        (
            "cancel chain.gdb 101 --tries 0",
            "give --tries a number from 1 to 65,535",
        ),
        (
            "run chain.gdb --store chain.txt",
            "`daybook store TEXT -o FILE` makes a store of text",
        ),
    ] {
        let (status, _, messages) = folder.shell(&format!("daybook {words}"));
        assert_eq!(status, 1, "{words}");
        let last = messages.lines().last().unwrap_or("");
        assert_eq!(last, format!("chain.gdb: what to do: {told}"), "{words}");
        let (_, out, _) = folder.shell(&format!("daybook {words} --json"));
        assert!(out.contains(",\"advice\":[\""), "{words}: {out}");
    }
    // The deposit that is told lets the call pass.
    let line = "daybook change chain.gdb 'user 101 assigned +300,000.00' -o - 2>/dev/null \
                | daybook call - 101 --morning";
    assert_eq!(folder.shell(line).0, 0);
}

/// `script` lends the program a terminal.
#[test]
fn a_caret_on_a_terminal() {
    let folder = Folder::new("caret");
    if folder.shell("script -qec true /dev/null").0 != 0 {
        return;
    }
    let text = "daybook 1\ndate 2026-03-18\nprices P 20.00 Q 21.00 L 3.00 X 1.00 I 0.50\n\
                user 1 shipper assigned 1.00 blocked 2.00\nuser 2 shipper\n";
    fs::write(folder.0.join("day.txt"), text).expect("a file");
    fs::write(folder.0.join("bad.txt"), text.replace("user 2", "user x")).expect("a file");
    for (words, told) in [
        (
            "check day.txt",
            "day.txt:4:38: user 1, id 1: blocked 2.00 EUR exceeds assigned 1.00 EUR\n    \
             user 1 shipper assigned 1.00 blocked 2.00\n    \
             \x20                                    ^\n",
        ),
        (
            "status bad.txt",
            "bad.txt:5:6: the id is a whole number, not `x`\n    user x shipper\n         ^\n",
        ),
    ] {
        let line = format!("script -qec 'daybook {words}' /dev/null");
        let (_, out, _) = folder.shell(&line);
        let out = out.replace('\r', "");
        assert!(out.contains(told), "{out}");
        // Not where another program reads.
        let (_, out, messages) = folder.shell(&format!("daybook {words}"));
        assert!(!out.contains("^\n") && !messages.contains("^\n"));
    }
}
