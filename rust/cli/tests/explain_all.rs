//! `explain --all` writes each reduction as it is made, and keeps none.

#![forbid(unsafe_code)]

mod shell;

use std::fs;

use shell::Folder;

/// A long run in 16 MB, in every form, though its answer is far longer.
#[test]
fn a_long_run_in_little_memory() {
    let folder = Folder::new("explain-all");
    let book = books::hard::one_seller(1_000).to_bytes();
    fs::write(folder.0.join("long.gdb"), book).expect("a file");
    for form in ["", "--csv", "--json"] {
        let explain = format!("daybook explain long.gdb --all --steps 3000 {form}");
        let line = format!("ulimit -v 16384; {explain} 2>messages >out; echo $?; wc -c <out");
        let (_, told, _) = folder.shell(&line);
        let mut told = told.lines();
        assert_eq!(told.next(), Some("0"), "{form}");
        let bytes: u64 = told
            .next()
            .and_then(|it| it.trim().parse().ok())
            .expect("a length");
        assert!(bytes > 1_000_000, "{form}: {bytes}");
    }
    // Who needs no more of it is not kept waiting.
    let (_, out, messages) = folder.shell("daybook explain long.gdb --all --json | head -n 1");
    assert!(
        out.starts_with("{\"book\":\"long.gdb\",\"reduction\":1,"),
        "{out}"
    );
    assert_eq!(messages, "");
}

/// What is shown one by one is what is shown without `--all`, where it is all of them.
#[test]
fn the_same_as_a_short_run() {
    let folder = Folder::new("explain-short");
    for form in ["", "--csv", "--json"] {
        let all = folder.shell(&format!("daybook explain chain.gdb --all {form}"));
        let some = folder.shell(&format!("daybook explain chain.gdb {form}"));
        assert_eq!(all, some, "{form}");
        let line = format!("daybook explain chain.gdb --all {form} >/dev/full");
        let (status, _, messages) = folder.shell(&line);
        assert_eq!(status, 2);
        assert!(messages.contains("what to do: make room"), "{messages}");
    }
    let (status, _, _) = folder.shell("daybook explain chain.gdb --all --store chain.txt");
    assert_eq!(status, 1);
}
