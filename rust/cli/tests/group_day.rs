//! Days with a group, their figures found by hand: what is told of the manager, of its
//! members and of the sales that are cut for it.

#![forbid(unsafe_code)]

use std::ffi::OsString;
use std::fs;
use std::path::Path;

use cli::commands::perform;
use cli::outcome::Outcome;
use daybook_text::text;

/// 101 manages 102 and 103 in PVB, 102 manages 103 in TVB. In PVB 102 has -20,000 +
/// 10,000 - 1,000 = -11,000 MWh and 103 1,000 - 6,000 = -5,000, so that 101 bears
/// -16,000 at 20.00: 320,000.00 EUR, 120,000.00 above what is assigned. It is called in
/// by its members' trade 3, which is inside the group and never cut; the one sale that
/// leaves the group is 103's, worth 120,000.00.
const DAY: &str = "daybook 3
date 2026-03-18
prices P 20.00 Q 21.00 L 3.00 X 1.00 I 0.50 S 18.00 U 19.00
user 101 shipper assigned 200,000.00 blocked 100,000.00
user 102 shipper physical PVB -20,000 assigned 150,000.00 blocked 100,000.00 manager PVB 101
user 103 shipper assigned 150,000.00 blocked 100,000.00 manager PVB 101 TVB 102
user 104 shipper physical PVB -20,000 assigned 700,000.00 blocked 100,000.00
trade 104 to 102 PVB bilateral d 10,000
trade 103 to 104 PVB bilateral d 6,000
trade 102 to 103 PVB bilateral d 2,000 standing 1,000
trade 103 to 102 TVB bilateral d 500
";

fn file(name: &str, text: &str) -> String {
    let file = Path::new(env!("CARGO_TARGET_TMPDIR")).join(name);
    fs::write(&file, text).expect("a file");
    file.display().to_string()
}

fn done(words: &[&str]) -> Outcome {
    let words: Vec<OsString> = words.iter().map(Into::into).collect();
    perform(&words)
}

fn out(words: &[&str]) -> String {
    let outcome = done(words);
    assert_eq!(outcome.status.code(), 0, "{}", outcome.messages);
    String::from_utf8(outcome.out).expect("a text")
}

#[test]
fn a_run_in_words() {
    let day = file("day-3.txt", DAY);
    let told = out(&["explain", &day]);
    assert_eq!(
        told,
        "reduction 1: user 101 is short of cover
  bears PVB of its group: position 101 0, 102 -11,000, 103 -5,000, together -16,000 MWh
  no credit: it is long in no area
  afternoon level 320,000.00 - assigned 200,000.00 = target T 120,000.00 EUR
  level - blocked 100,000.00 = 220,000.00 EUR, above 10,000.00 EUR
  called in: party to a trade standing below notified, through its member 102
  tier one, where the position that it bears is negative: asked for 120,000.00, worth 120,000.00 EUR: cut whole
    trade 2, 103 to 104 PVB standing 6,000 share 6,000 remainder 0 cut 6,000
  tier two, elsewhere: no sale to cut
  cut: 6,000 MWh worth 120,000.00 EUR, T is met exactly
  positions: 103 PVB -5,000 to 1,000; 104 PVB -24,000 to -30,000
  next: nobody

run: 1 reduction, 6,000 MWh cut, worth 120,000.00 EUR
  user 101: 1 reduction, 6,000 MWh cut
"
    );
    let object = out(&["explain", &day, "--json"]);
    for part in [
        "\"id\":101,\"managers\":[0,0,0],\"members\":[[102,103],[],[]],\"level_cents\":32000000,",
        "\"flagged\":false,\"party_to_cut\":true,",
        "{\"trade\":2,\"seller\":103,\"buyer\":104,\"area\":\"PVB\",",
    ] {
        assert!(object.contains(part), "{object}");
    }
}

#[test]
fn who_bears_what() {
    let day = file("bears-3.txt", DAY);
    assert_eq!(
        out(&["status", &day]),
        "101 short level 320,000.00 assigned 200,000.00 blocked 100,000.00 uncovered 120,000.00 bears PVB of 102 103
102 quiet level 100,000.00 assigned 150,000.00 blocked 100,000.00                      PVB borne by 101; bears TVB of 103
103 quiet level 100,000.00 assigned 150,000.00 blocked 100,000.00                      PVB borne by 101; TVB borne by 102
104 quiet level 480,000.00 assigned 700,000.00 blocked 100,000.00
deposit 120,000.00 EUR so that no trade is cut: 101 120,000.00
otherwise 1 reduction, 6,000 MWh cut, worth 120,000.00 EUR
"
    );
    let table = out(&["status", &day, "--csv"]);
    assert!(table.starts_with(
        "id,role,state,level,assigned,blocked,uncovered,to_call,deposit,manager_PVB,manager_TVB,manager_AVB\n"
    ));
    assert!(table
        .contains("\n103,shipper,quiet,100000.00,150000.00,100000.00,0.00,0.00,0.00,101,102,\n"));
    assert_eq!(
        out(&["status", &day, "--why", "101"]),
        "101: afternoon level 320,000.00 EUR, short
  bears PVB of its group: position 101 0, 102 -11,000, 103 -5,000, together -16,000 MWh
  charges                                  0.00 EUR
  short   PVB 16,000 MWh x w 20.00 = 320,000.00 EUR
  together 320,000.00 EUR
  not flagged: its short positions less blocked are worth 220,000.00 EUR, 380,000.00 EUR below 600,000.00 EUR (30,000 MWh at 20.00)
  called in: trade 3 of its member 102, 102 to 103 PVB, stands at 1,000 of 2,000 MWh
  level - blocked 100,000.00 = 220,000.00 EUR, above 10,000.00 EUR
  level - assigned 200,000.00 = 120,000.00 EUR uncovered
"
    );
    let told = out(&["status", &day, "--why", "103"]);
    let borne = "  PVB is borne by its manager 101, and counts 0 here\n  TVB is borne by its manager 102, and counts 0 here\n";
    assert!(told.contains(borne), "{told}");
    let object = out(&["status", &day, "--why", "102", "--json"]);
    let groups = "\"managers\":[101,0,0],\"members\":[[],[103],[]],";
    assert!(object.contains(groups), "{object}");
    let shown = out(&["show", &day, "103"]);
    assert!(
        shown.ends_with("blocked 100,000.00 manager PVB 101 TVB 102\n"),
        "{shown}"
    );
    let object = out(&["show", &day, "103", "--json"]);
    assert!(object.ends_with("\"managers\":[101,102,0]}\n"), "{object}");
    let levels = out(&["level", &day, "101", "103"]);
    let lines: Vec<&str> = levels.lines().collect();
    assert_eq!(lines[1], "  bears PVB of 102 103");
    assert_eq!(lines[3..], ["  PVB borne by 101", "  TVB borne by 102"]);
}

/// Credit is of what is long together: 102's 3,000 MWh less 101's 1,000.
#[test]
fn credit_of_a_group() {
    let day = "daybook 3
date 2026-03-18
prices P 20.00 Q 21.00 L 3.00 X 1.00 I 0.50 S 18.00 U 19.00
user 101 shipper physical TVB -1,000 charges 200,000.00
user 102 shipper physical TVB 3,000 charges 150,000.00 manager TVB 101
";
    let day = file("credit-3.txt", day);
    assert_eq!(
        out(&["level", &day]),
        "101: morning level 200,000.00 EUR, afternoon level 162,000.00 EUR
  bears TVB of 102
  credit TVB 2,000 MWh long x U 19.00 = 38,000.00 EUR
102: morning level 150,000.00 EUR, afternoon level 150,000.00 EUR
  TVB borne by 101
"
    );
}

/// What is refused is told by what is borne.
#[test]
fn reasons() {
    let day = file("reasons-3.txt", DAY);
    let after = Path::new(env!("CARGO_TARGET_TMPDIR")).join("after-3.gdb");
    let _ = fs::remove_file(&after);
    let after = after.display().to_string();
    out(&["run", &day, "-o", &after]);
    for (words, told) in [
        (
            "user 103 charges 200,000.00",
            "user 3, id 103: is not called in: it is not flagged, and no trade standing below notified calls it in (PVB borne by 101; TVB borne by 102)",
        ),
        (
            "user 103 manager PVB none charges 200,000.00",
            "user 3, id 103: has no bilateral sale for d that stands above 0 and leaves its group (TVB borne by 102)",
        ),
    ] {
        let book = Path::new(env!("CARGO_TARGET_TMPDIR")).join("charged-3.gdb");
        let book = book.display().to_string();
        assert_eq!(done(&["change", &after, words, "-o", &book, "--force"]).status.code(), 0);
        let outcome = done(&["reduce", &book, "103"]);
        assert_eq!(outcome.status.code(), 1);
        assert!(outcome.messages.contains(told), "{}", outcome.messages);
    }
}

#[test]
fn managers_are_changed_and_compared() {
    let day = file("change-3.txt", DAY);
    let alone = Path::new(env!("CARGO_TARGET_TMPDIR")).join("alone-3.gdb");
    let alone = alone.display().to_string();
    let words = "user 103 manager PVB none TVB 101 AVB 104";
    let outcome = done(&["change", &day, words, "-o", &alone, "--force"]);
    let told = String::from_utf8(outcome.out).expect("a text");
    assert_eq!(
        told,
        "user 103 manager PVB 101 -> none\nuser 103 manager TVB 102 -> 101\nuser 103 manager AVB none -> 104\n"
    );
    let told = out(&["compare", &day, &alone]);
    let managers = "manager PVB 101 -> -; manager TVB 102 -> 101; manager AVB - -> 104";
    assert!(told.contains(managers), "{told}");
    for (words, told) in [
        (
            "user 101 manager PVB 101",
            "user 1, id 101: manager PVB 101 is the user itself",
        ),
        (
            "user 101 manager PVB 104",
            "user 2, id 102: manager PVB 101 is itself managed there, by 104",
        ),
        (
            "user 104 manager AVB",
            "change:1:21: manager AVB is missing",
        ),
        (
            "user 104 manager 101",
            "change:1:18: the area is one of PVB, TVB, AVB, not `101`",
        ),
    ] {
        let outcome = done(&["change", &day, words]);
        assert_eq!(outcome.status.code(), 1);
        assert!(outcome.messages.contains(told), "{}", outcome.messages);
    }
}

/// The page names each group, and leads from the manager to the member whose sale is
/// cut.
#[test]
fn the_page_of_a_day_with_a_group() {
    let day = file("page-3.txt", DAY);
    let page = out(&["report", &day, "-o", "-"]);
    for part in [
        "<th scope=\"col\">role</th><th scope=\"col\">group</th><th scope=\"col\">state</th>",
        "<td>shipper</td><td>bears\u{a0}PVB\u{a0}of\u{a0}102 103</td>",
        "<td>PVB\u{a0}borne\u{a0}by\u{a0}101; bears\u{a0}TVB\u{a0}of\u{a0}103</td>",
        "a dashed line leads from a manager",
        ">managed by 101</text>",
        "a managed user counts 0 there",
        "<path class=\"lead\" d=\"M80 79V86H250V79\"/>",
        "103</a></td><td><a href=\"#user-104\">104</a></td><td><a href=\"#user-101\">101</a></td><td>PVB</td>",
        "6,000 MWh PVB</text>",
    ] {
        assert!(page.contains(part), "{part} of {page}");
    }
    assert_eq!(page.matches("class=\"life\"").count(), 3);
    let sample = concat!(env!("CARGO_MANIFEST_DIR"), "/../../samples/chain.txt");
    let page = out(&["report", sample, "-o", "-"]);
    for part in ["manager", "bears", "borne", "class=\"lead\""] {
        assert!(!page.contains(part), "{part}");
    }
}

/// The sample's bytes and its text are one book.
#[test]
fn the_sample_of_version_3() {
    let sample = |name: &str| {
        let folder = concat!(env!("CARGO_MANIFEST_DIR"), "/../../samples");
        fs::read(format!("{folder}/{name}")).expect("a sample")
    };
    let read = text::read(&sample("group.txt"))
        .expect("a text")
        .into_bytes();
    assert_eq!(read, Ok(sample("group.gdb")));
}
