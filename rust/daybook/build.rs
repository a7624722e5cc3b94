//! Links the archive of the proved engine.
//!
//! It is looked for in the folder that DAYBOOK_ARCHIVE_DIR names, as `libexports.a`. Without that
//! an installed package, `PREFIX/share/daybook/rust`, takes `PREFIX/lib/libdaybook.a`, and the
//! repository `target/staticlib/libexports.a`, where `tools/staticlib` puts it.
//!
//! Where it is missing that is a warning, and a failure of whatever has to be linked: `cargo doc`
//! and `cargo check` need no archive.

use std::env;
use std::path::{Path, PathBuf};

const FOLDER: &str = "DAYBOOK_ARCHIVE_DIR";
/// Where a prefix has this package.
const INSTALLED: &str = "share/daybook/rust";

fn main() {
    println!("cargo::rerun-if-env-changed={FOLDER}");
    let (folder, name) = place();
    let archive = folder.join(format!("lib{name}.a"));
    println!("cargo::rerun-if-changed={}", archive.display());
    if !archive.is_file() {
        println!(
            "cargo::warning={} is missing, so that nothing can be linked: run `tools/staticlib` \
             at the repository's root, or name the folder of libexports.a in {FOLDER}",
            archive.display()
        );
    }
    println!("cargo::rustc-link-search=native={}", folder.display());
    println!("cargo::rustc-link-lib=static={name}");
}

/// The folder of the archive, and its name without `lib` and `.a`.
fn place() -> (PathBuf, &'static str) {
    if let Some(folder) = env::var_os(FOLDER) {
        return (PathBuf::from(folder), "exports");
    }
    let package = PathBuf::from(env::var_os("CARGO_MANIFEST_DIR").unwrap_or_default());
    match package.ends_with(INSTALLED) {
        true => (above(&package, 3).join("lib"), "daybook"),
        false => (above(&package, 2).join("target/staticlib"), "exports"),
    }
}

/// The folder so many folders above a package: its prefix, or the repository's root.
fn above(package: &Path, folders: usize) -> PathBuf {
    package
        .ancestors()
        .nth(folders)
        .unwrap_or(package)
        .to_path_buf()
}
