//! The commands of docs/TOOL.md, docs/RULES.md and README.md: each is run as it is
//! printed, and has to print what stands below it. The figures in the words of
//! docs/RULES.md have to be among those that its commands print.

#![forbid(unsafe_code)]

use std::collections::HashSet;
use std::env;
use std::fs;
use std::path::{Path, PathBuf};
use std::process::Command;

fn root() -> PathBuf {
    Path::new(env!("CARGO_MANIFEST_DIR")).join("../..")
}

/// The commands of a page with what is printed below each: the lines of an
/// indented block from one `$` to the next.
fn commands(page: &str) -> Vec<(String, String)> {
    let mut commands: Vec<(String, String)> = Vec::new();
    let mut blanks = 0;
    let mut inside = false;
    for line in page.lines() {
        match line.strip_prefix("    ") {
            Some(text) if text.starts_with("$ ") => {
                commands.push((text[2..].to_string(), String::new()));
                (inside, blanks) = (true, 0);
            }
            Some(text) => {
                if let (true, Some((_, printed))) = (inside, commands.last_mut()) {
                    printed.push_str(&"\n".repeat(blanks));
                    printed.push_str(text);
                    printed.push('\n');
                }
                blanks = 0;
            }
            None if line.is_empty() => blanks += 1,
            None => inside = false,
        }
    }
    commands
}

/// A folder with the samples, in which the page's commands are run in order.
fn folder(name: &str) -> PathBuf {
    let folder = Path::new(env!("CARGO_TARGET_TMPDIR")).join(name);
    let _ = fs::remove_dir_all(&folder);
    fs::create_dir_all(folder.join("samples")).expect("a folder");
    for file in fs::read_dir(root().join("samples")).expect("the samples") {
        let file = file.expect("a sample");
        fs::copy(file.path(), folder.join("samples").join(file.file_name())).expect("a copy");
    }
    folder
}

/// What the shell prints for a command, messages with it.
fn printed(folder: &Path, command: &str) -> String {
    let program = Path::new(env!("CARGO_BIN_EXE_daybook"));
    let beside = program.parent().expect("a folder").display().to_string();
    let path = env::var("PATH").unwrap_or_default();
    let output = Command::new("sh")
        .args(["-c", &format!("exec 2>&1\n{command}")])
        .current_dir(folder)
        .env("PATH", format!("{beside}:{path}"))
        .output()
        .expect("a shell");
    String::from_utf8(output.stdout).expect("a text")
}

/// Runs the commands of a page; how many there were.
fn walk(page: &str, name: &str) -> usize {
    let text = fs::read_to_string(root().join(page)).expect("a page");
    let folder = folder(name);
    let commands = commands(&text);
    let of_daybook = commands
        .iter()
        .filter(|(command, _)| !command.starts_with("rt "));
    let mut count = 0;
    for (command, wanted) in of_daybook {
        assert_eq!(&printed(&folder, command), wanted, "{page}: {command}");
        count += 1;
    }
    count
}

#[test]
fn the_page_of_the_tool() {
    assert!(walk("docs/TOOL.md", "tool") >= 20);
}

#[test]
fn the_readme() {
    assert!(walk("README.md", "readme") >= 5);
}

/// What the pages show of the printed day is what the program `day` is held to.
#[test]
fn the_printed_day() {
    let read = |path: &str| fs::read(root().join(path)).expect("a file");
    assert_eq!(read("crates/day/stdin"), read("samples/day.gdb"));
    let lines = String::from_utf8(read("crates/day/stdout")).expect("a text");
    let lines: String = lines.lines().map(|line| format!("    {line}\n")).collect();
    for page in ["README.md", "docs/CALLS.md"] {
        let text = String::from_utf8(read(page)).expect("a text");
        assert!(text.contains(&format!("\n\n{lines}\n")), "{page}: {lines}");
    }
}

/// The numbers of three digits and more in a line, without commas and cents of 0.
fn figures(line: &str) -> Vec<String> {
    let words = line.split(|c: char| !c.is_ascii_digit() && c != ',' && c != '.');
    let words = words.map(|word| word.trim_matches([',', '.']).replace(',', ""));
    let long = words.filter(|word| word.chars().filter(char::is_ascii_digit).count() >= 3);
    long.map(|word| word.trim_end_matches(".00").to_string())
        .collect()
}

#[test]
fn the_page_of_the_rules() {
    let name = "docs/RULES.md";
    assert!(walk(name, "rules") >= 15);
    let page = fs::read_to_string(root().join(name)).expect("a page");
    let printed: HashSet<String> = commands(&page)
        .iter()
        .flat_map(|(_, printed)| figures(printed))
        .collect();
    let mut told = 0;
    for line in page.lines().filter(|line| !line.starts_with("    ")) {
        for figure in figures(line) {
            assert!(
                printed.contains(&figure),
                "{name}: no command prints {figure}: {line}"
            );
            told += 1;
        }
    }
    assert!(told >= 60, "{told}");
}

#[test]
fn the_help_pages() {
    for command in cli::commands::COMMANDS {
        for (line, wanted) in commands(command.page) {
            assert_eq!(printed(&folder("help"), &line), wanted, "{line}");
        }
    }
}

/// The text form that the pages show makes an accepted book.
#[test]
fn the_text_forms_shown() {
    for page in [
        "docs/TOOL.md",
        "rust/cli/help/text.txt",
        "rust/daybook-text/src/text/mod.rs",
    ] {
        let page = fs::read_to_string(root().join(page)).expect("a page");
        let lines = page
            .lines()
            .map(|line| line.trim_start_matches("//!").trim());
        let lines: Vec<&str> = lines.collect();
        let blocks = lines.split(|line| line.is_empty() || line.starts_with("```"));
        let form = blocks.filter(|block| block.len() > 4 && block[0].starts_with("daybook 1"));
        let form: Vec<&[&str]> = form.collect();
        assert_eq!(form.len(), 1, "{form:?}");
        // The help has its comments without a mark.
        let words = form[0]
            .iter()
            .map(|line| line.split("   ").next().unwrap_or(""));
        let text: Vec<&str> = words.collect();
        let read = daybook_text::text::read(text.join("\n").as_bytes());
        assert!(
            read.is_ok_and(|draft| draft.into_bytes().is_ok()),
            "{text:?}"
        );
    }
}
