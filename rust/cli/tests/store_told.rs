//! A store told as a table and as objects.

#![forbid(unsafe_code)]

mod shell;

use shell::Folder;

#[test]
fn sets_as_rows_and_objects() {
    let folder = Folder::new("store-told");
    let text =
        "printf 'parameters 1\\nfrom 2026-01-01 flag 30,000 margin 10,000.00 least 100,000.00\\n\
                from 2026-07-01 flag 25,000 margin 0.05 least 120,000.00\\n' >sets.txt; \
                printf 'parameters 1\\n' >none.txt; daybook store sets.txt -o sets";
    assert_eq!(folder.shell(text).0, 0);
    let table = "set,from,flag_mwh,margin,least\n1,2026-01-01,30000,10000.00,100000.00\n\
                 2,2026-07-01,25000,0.05,120000.00\n";
    // In bytes and as text.
    for name in ["sets", "sets.txt"] {
        let told = folder.shell(&format!("daybook store {name} --csv"));
        assert_eq!(told, (0, table.to_string(), String::new()));
        let objects = format!(
            "{{\"store\":\"{name}\",\"number\":0,\"sets\":2}}\n\
             {{\"store\":\"{name}\",\"set\":1,\"from\":\"2026-01-01\",\"flag_mwh\":30000,\
             \"margin_cents\":1000000,\"least_cents\":10000000}}\n\
             {{\"store\":\"{name}\",\"set\":2,\"from\":\"2026-07-01\",\"flag_mwh\":25000,\
             \"margin_cents\":5,\"least_cents\":12000000}}\n"
        );
        let told = folder.shell(&format!("daybook store {name} --json"));
        assert_eq!(told, (0, objects, String::new()));
    }
    let (status, out, _) = folder.shell("daybook store none.txt --csv");
    assert_eq!(
        (status, out.as_str()),
        (0, "set,from,flag_mwh,margin,least\n")
    );
    // A table is no store.
    for words in ["--csv -o x", "--json --force", "--csv --json"] {
        let (status, out, _) = folder.shell(&format!("daybook store sets {words}"));
        assert_eq!((status, out.as_str()), (2, ""), "{words}");
    }
    let (status, out, _) = folder.shell("daybook store chain.gdb --json");
    assert_eq!(status, 1);
    assert!(out.contains("\"number\":16"), "{out}");
}
