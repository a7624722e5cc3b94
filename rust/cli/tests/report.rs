//! The page about a day: whole by itself, its figures those of the run.

#![forbid(unsafe_code)]

use std::ffi::OsString;
use std::fs;
use std::path::Path;

use books::{Generator, Kind};
use cli::commands::perform;
use daybook::Operator;
use daybook_text::chapter::{Chapter, Cut};
use daybook_text::words::{euros, grouped};

/// The page of a book in bytes.
fn page(name: &str, book: &[u8]) -> String {
    let file = Path::new(env!("CARGO_TARGET_TMPDIR")).join(name);
    fs::write(&file, book).expect("a file");
    let words = ["report", file.to_str().expect("a name"), "-o", "-"];
    let outcome = perform(&words.map(OsString::from));
    assert_eq!(outcome.status.code(), 0, "{}", outcome.messages);
    String::from_utf8(outcome.out).expect("a text")
}

/// Every tag that is opened is closed, in order.
fn is_balanced(page: &str) -> bool {
    let mut open = Vec::new();
    for piece in page.split('<').skip(1) {
        let tag = piece.split('>').next().unwrap_or("");
        let name = tag.split([' ', '/']).next().unwrap_or("");
        if let Some(closed) = tag.strip_prefix('/') {
            if open.pop() != Some(closed) {
                return false;
            }
        } else if !tag.ends_with('/') && !["!DOCTYPE", "meta"].contains(&name) {
            open.push(name);
        }
    }
    open.is_empty()
}

/// The values of an attribute.
fn values<'a>(page: &'a str, attribute: &str) -> Vec<&'a str> {
    let start = format!(" {attribute}=\"");
    let pieces = page.split(start.as_str()).skip(1);
    pieces.filter_map(|piece| piece.split('"').next()).collect()
}

/// Every link is to a place of the page, and no two places have one name.
fn links_lead_somewhere(page: &str) {
    let mut ids = values(page, "id");
    ids.sort_unstable();
    let count = ids.len();
    ids.dedup();
    assert_eq!(ids.len(), count, "{ids:?}");
    for link in values(page, "href") {
        let place = link.strip_prefix('#').expect("a place of the page");
        assert!(ids.binary_search(&place).is_ok(), "{link}");
    }
    for label in values(page, "aria-labelledby") {
        assert!(ids.binary_search(&label).is_ok(), "{label}");
    }
    let labels = values(page, "aria-label");
    assert!(labels
        .iter()
        .all(|it| labels.iter().filter(|other| other == &it).count() == 1));
    let tables = page.matches("<table ").count();
    assert_eq!(page.matches("<caption>").count(), tables);
    assert_eq!(page.matches("<main>").count(), 1);
}

#[test]
fn pages_are_whole_and_have_the_runs_figures() {
    let mut generator = Generator::new(71);
    for kind in Kind::ACCEPTED {
        for _ in 0..6 {
            let book = generator.book(kind);
            let page = page("page.gdb", &book);
            let run = daybook::Operator::new()
                .run(&mut book.clone())
                .expect("a run");
            assert!(is_balanced(&page), "{page}");
            for outside in ["http", "src=", "@import", "<script"] {
                assert!(!page.contains(outside), "{outside}");
            }
            links_lead_somewhere(&page);
            for figure in [grouped(run.reductions), grouped(run.mwh), euros(run.worth)] {
                assert!(page.contains(&format!("<b>{figure}</b>")), "{figure}");
            }
            assert_eq!(page.contains("<svg"), run.reductions > 0);
            assert_eq!(page.contains("No trade was cut."), run.reductions == 0);
        }
    }
}

/// The arrows of the chain sample: who cut whom, in which order, how many MWh.
#[test]
fn the_picture_of_the_chain() {
    let sample = concat!(env!("CARGO_MANIFEST_DIR"), "/../../samples/chain.txt");
    let page = page("chain.txt", &fs::read(sample).expect("a sample"));
    let labels = page.split("class=\"mwh\"").skip(1);
    let labels = labels.filter_map(|piece| piece.split(['>', '<']).nth(1));
    let labels: Vec<&str> = labels.collect();
    assert_eq!(
        labels,
        [
            "15,000 MWh PVB",
            "3,333 MWh PVB",
            "1,667 MWh PVB",
            "833 MWh PVB",
            "1,167 MWh PVB"
        ]
    );
    assert_eq!(page.matches("class=\"mark\"").count(), 4);
    assert_eq!(page.matches("class=\"life\"").count(), 5);
}

/// A file's name is text in the page, whatever it is.
#[test]
fn names_are_escaped() {
    let sample = concat!(env!("CARGO_MANIFEST_DIR"), "/../../samples/quiet.txt");
    let page = page("a<b>&\"c\".txt", &fs::read(sample).expect("a sample"));
    assert!(page.contains("a&lt;b&gt;&amp;&quot;c&quot;.txt"), "{page}");
    assert!(is_balanced(&page));
}

/// Columns of words stand to the left, those of figures to the right; a picture says
/// which one of several it is; users are as far apart as the longest label between two
/// neighbours needs.
#[test]
fn words_and_labels() {
    let sample = concat!(env!("CARGO_MANIFEST_DIR"), "/../../samples/chain.txt");
    let chain = page("chain-words.txt", &fs::read(sample).expect("a sample"));
    for (table, name) in [
        ("words-1 words-2", "user</th><th scope=\"col\">what"),
        ("words-1 words-2 words-3", "</th><th scope=\"col\">user"),
        ("words-1 words-2 words-3", "user</th><th scope=\"col\">role"),
        ("words-1 words-2 words-3 words-4", "trade</th>"),
    ] {
        let mut tables = chain.split("<table class=\"").skip(1);
        let has = |it: &str| {
            let (_, names) = it
                .split_once("<thead><tr><th scope=\"col\">")
                .expect("names");
            it.starts_with(&format!("{table}\"")) && names.starts_with(name)
        };
        assert!(tables.any(has), "{table} {name}");
    }
    assert!(!chain.contains("<figcaption>"));
    let mut seller = "daybook 1\ndate 2026-03-18\nprices P 20.00 Q 21.00 L 3.00 X 1.00 I 0.50\n\
                      user 101 shipper\n"
        .to_string();
    for id in 102..=164 {
        seller.push_str(&format!("user {id} shipper\n"));
    }
    for place in 0..256 {
        let buyer = 102 + place % 63;
        seller.push_str(&format!("trade 101 to {buyer} PVB bilateral d 1000\n"));
    }
    let seller = page("seller-words.txt", seller.as_bytes());
    assert_eq!(seller.matches("<svg").count(), 11);
    assert_eq!(seller.matches("<figcaption>").count(), 11);
    assert!(seller.contains("<figcaption>Picture 11 of 11: reduction 1</figcaption>"));
    let far = |mwh: u64| {
        let text = format!(
            "daybook 1\ndate 2026-03-18\nprices P 0.50 Q 0.50 L 3.00 X 1.00 I 0.50\n\
             user 101 shipper\nuser 102 shipper\ntrade 101 to 102 PVB bilateral d {mwh}\n"
        );
        let page = page("far.txt", text.as_bytes());
        let widths = page.split("--width:").skip(1);
        let mut widths = widths.filter_map(|it| it.split('"').next());
        widths
            .next()
            .expect("a picture")
            .parse::<usize>()
            .expect("a width")
    };
    assert!(far(100_000) >= 160 + 15 * 7 + 11 + 14);
}

/// The longest numbers that a mark can have still fit the picture.
#[test]
fn long_marks() {
    let cut = |seller, buyer| Cut {
        seller,
        buyer,
        area: 0,
        mwh: 25_600_000,
    };
    let chapter = |first, last, id, buyer| Chapter {
        first,
        last,
        id,
        cuts: vec![cut(id, buyer)],
    };
    let book = daybook::Operator::new()
        .read(&Generator::new(72).sized(2, 2, 1).to_bytes())
        .expect("a book");
    let (one, two) = (book.users[0].id, book.users[1].id);
    let trace = daybook_text::trace::Trace {
        closing: book.clone(),
        reached: book.clone(),
        opening: book,
        run: daybook::Run::default(),
        first: Vec::new(),
        last: Vec::new(),
        chapters: (
            vec![chapter(10_000_000, 20_000_000, two, one)],
            vec![chapter(20_000_001, 25_600_000, one, two)],
        ),
        counts: Vec::new(),
        causes: (0, 0),
        taken: 0,
    };
    let pictures = cli::picture::pictures(&trace, &[]);
    assert_eq!(pictures.len(), 1);
    assert!(pictures[0].svg.contains("10,000,000–20,000,000"));
    assert!(pictures[0].svg.contains("… 9,999,999 reductions more …"));
    assert!(pictures[0].shows(15_000_000) && !pictures[0].shows(9_999_999));
}

/// What has to be done stands at the top, the largest amount first, and each reduction
/// says what it comes of.
#[test]
fn what_has_to_be_done() {
    let sample = |name: &str| {
        let path = format!("{}/../../samples/{name}.txt", env!("CARGO_MANIFEST_DIR"));
        fs::read(path).expect("a sample")
    };
    let chain = page("chain-page.txt", &sample("chain"));
    let (top, _) = chain.split_once("<h2 id=\"run\">").expect("a run");
    assert!(top.contains("<b>300,000.00 EUR</b><span>to deposit, so that no trade is cut</span>"));
    assert!(top.contains("<b>610,000.00 EUR</b><span>to call after the run</span>"));
    let rows: Vec<&str> = top.split("<tr>").skip(2).collect();
    let shown = |row: &&str| {
        let text = row.replace("</th>", " ").replace("</td>", " ");
        let plain: Vec<&str> = text.split(['<', '>']).step_by(2).collect();
        plain.concat().trim().to_string()
    };
    assert_eq!(
        rows.iter().map(shown).collect::<Vec<String>>(),
        [
            "101 guarantee call after the run 400,000.00",
            "101 deposit before the run 300,000.00",
            "102 guarantee call after the run 100,000.00",
            "104 guarantee call after the run 60,000.00",
            "103 guarantee call after the run 50,000.00",
        ]
    );
    assert!(chain.contains(
        "short of cover by themselves: 1; of users that an earlier cut had left short: 3."
    ));
    for cause in [
        "<td>itself</td>",
        "<td><a href=\"#reduction-1\">reduction 1</a>, <a href=\"#trade-1\">trade 1</a></td>",
        "<td><a href=\"#reduction-2\">reduction 2</a>, <a href=\"#trade-3\">trade 3</a></td>",
    ] {
        assert!(chain.contains(cause), "{cause}");
    }
    let quiet = page("quiet-page.txt", &sample("quiet"));
    assert!(
        quiet.contains("<p>Nothing: no user is short of cover"),
        "{quiet}"
    );
    let group = page("group-page.txt", &sample("group"));
    assert!(group.contains(">managed by 201</text>"));
    let ids: Vec<&str> = values(&group, "href");
    let place = |id: &str| ids.iter().position(|it| *it == id).expect("a link");
    let (_, picture) = group.split_once("<svg").expect("a picture");
    let ids: Vec<&str> = values(picture, "href").into_iter().take(4).collect();
    assert_eq!(ids, ["#user-201", "#user-204", "#user-202", "#user-203"]);
    assert!(place("#user-201") < place("#user-202"));
}

/// The page of a refused book has its faults, and the status tells.
#[test]
fn a_refused_book_has_a_page() {
    let folder = Path::new(env!("CARGO_TARGET_TMPDIR"));
    let wrong = folder.join("wrong-page.txt");
    fs::write(&wrong, "daybook 1\nuser <b>\n").expect("a file");
    let refused = concat!(env!("CARGO_MANIFEST_DIR"), "/../../samples/refused.txt");
    for (file, told) in [
        (
            refused.to_string(),
            "<tr><th scope=\"row\">1</th><td>8:68</td><td>user 3, id 104: blocked 200,000.00 EUR \
             exceeds assigned 100,000.00 EUR</td></tr>",
        ),
        (
            wrong.display().to_string(),
            "<td>2:6</td><td>the id is a whole number, not `&lt;b&gt;`</td>",
        ),
    ] {
        let words = ["report", &file, "-o", "-"];
        let outcome = perform(&words.map(OsString::from));
        assert_eq!(outcome.status.code(), 1);
        assert!(!outcome.messages.is_empty());
        let page = String::from_utf8(outcome.out).expect("a text");
        assert!(page.contains(told), "{page}");
        assert!(is_balanced(&page));
        links_lead_somewhere(&page);
        let digest = cli::sha256::sha256(&fs::read(&file).expect("a file"));
        assert!(page.contains(&format!("File sha256 <code>{digest}</code>")));
    }
}

/// With --all nothing is left out, and the foot names the very book.
#[test]
fn all_of_a_long_run() {
    let book = books::hard::one_seller(60).to_bytes();
    let file = Path::new(env!("CARGO_TARGET_TMPDIR")).join("long-page.gdb");
    fs::write(&file, &book).expect("a file");
    let file = file.to_str().expect("a name");
    let reductions = Operator::new()
        .run(&mut book.clone())
        .expect("a run")
        .reductions;
    let page = |words: &[&str]| {
        let words: Vec<OsString> = words.iter().map(OsString::from).collect();
        String::from_utf8(perform(&words).out).expect("a text")
    };
    let shown = |page: &str| page.matches("<tr id=\"reduction-").count();
    let some = page(&["report", file, "-o", "-"]);
    assert_eq!((shown(&some), some.contains(" more …")), (40, true));
    let all = page(&["report", file, "--all", "-o", "-"]);
    assert_eq!(u64::try_from(shown(&all)), Ok(reductions));
    assert!(!all.contains(" more …"));
    let trades = Operator::new().read(&book).expect("a book").trades.len();
    assert_eq!(all.matches("<tr id=\"trade-").count(), trades);
    links_lead_somewhere(&all);
    let digest = cli::sha256::sha256(&book);
    assert!(all.contains(&format!("Book sha256 <code>{digest}</code>")));
}
