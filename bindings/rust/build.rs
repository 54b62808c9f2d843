//! Finds libcechnuol.a and has it linked.
//!
//! The folder is that of `CECHNUOL_LIB_DIR`, where a relative one counts from this crate; else one that `pkg-config` names
//! for the module `cechnuol` of this crate's version; else the one beside this crate: ../lib in the unpacked tarball,
//! ../../target/staticlib in the repository.

use std::env::var_os;
use std::path::{Path, PathBuf};
use std::process::{exit, Command};

const ARCHIVE: &str = "libcechnuol.a";
const MODULE: &str = concat!("cechnuol = ", env!("CARGO_PKG_VERSION"));
/// The folders beside this crate that may have the library.
const BESIDE: [&str; 2] = ["../lib", "../../target/staticlib"];
/// The variables that decide where it is looked for.
const VARIABLES: [&str; 3] = ["CECHNUOL_LIB_DIR", "PKG_CONFIG_PATH", "PKG_CONFIG_LIBDIR"];

fn main() {
    VARIABLES.iter().for_each(|name| println!("cargo:rerun-if-env-changed={name}"));
    println!("cargo:rerun-if-changed=build.rs");
    let here = PathBuf::from(var_os("CARGO_MANIFEST_DIR").unwrap_or_default());
    let folder = match var_os("CECHNUOL_LIB_DIR").filter(|named| !named.is_empty()) {
        Some(named) => in_named(here.join(named)),
        None => in_usual(&here),
    };
    println!("cargo:rerun-if-changed={}", folder.join(ARCHIVE).display());
    println!("cargo:rustc-link-search=native={}", folder.display());
    println!("cargo:rustc-link-lib=static=cechnuol");
}

fn has_archive(folder: &Path) -> bool {
    folder.join(ARCHIVE).is_file()
}

/// The folder that is named. No other library stands in for it.
fn in_named(folder: PathBuf) -> PathBuf {
    if has_archive(&folder) {
        return folder;
    }
    fail(&format!(
        "CECHNUOL_LIB_DIR is {}, a folder without {ARCHIVE}, or none. Let it name the folder that has the archive (a relative \
         one counts from the crate cechnuol), or unset it.",
        folder.display()
    ))
}

/// The folder of an installed library of this version, or one beside this crate.
fn in_usual(here: &Path) -> PathBuf {
    let installed = pkg_config(&["--libs-only-L", MODULE]).map_or(Vec::new(), |flags| folders_of(&flags));
    let beside = BESIDE.map(|folder| here.join(folder));
    let found = installed.into_iter().chain(beside.clone()).find(|folder| has_archive(folder));
    found.unwrap_or_else(|| {
        let other = pkg_config(&["--modversion", "cechnuol"]).map_or("none", |_| "another version");
        fail(&format!(
            "{ARCHIVE} is not found: pkg-config was asked for `{MODULE}` and has {other}, and it is neither in {} (the \
             tarball) nor in {} (`make lib` in the repository). Let CECHNUOL_LIB_DIR name the folder that has it.",
            beside[0].display(),
            beside[1].display()
        ))
    })
}

/// What `pkg-config` prints for these arguments, where it is there and knows the module. It names the system's own folders
/// like others.
fn pkg_config(arguments: &[&str]) -> Option<String> {
    let mut command = Command::new("pkg-config");
    let asked = command.env("PKG_CONFIG_ALLOW_SYSTEM_LIBS", "1").args(arguments).output();
    let output = asked.ok().filter(|output| output.status.success())?;
    Some(String::from_utf8_lossy(&output.stdout).into_owned())
}

/// The folders that linker flags name.
fn folders_of(flags: &str) -> Vec<PathBuf> {
    words(flags).iter().filter_map(|flag| flag.strip_prefix("-L")).map(PathBuf::from).collect()
}

/// The words of what `pkg-config` prints, which has a backslash before a space within a word.
fn words(text: &str) -> Vec<String> {
    let mut words = vec![String::new()];
    let mut letters = text.chars();
    while let Some(letter) = letters.next() {
        match letter {
            '\\' => words.last_mut().into_iter().for_each(|word| word.extend(letters.next())),
            letter if letter.is_whitespace() => words.push(String::new()),
            letter => words.last_mut().into_iter().for_each(|word| word.push(letter)),
        }
    }
    words
}

fn fail(why: &str) -> ! {
    eprintln!("{why}");
    exit(1);
}
