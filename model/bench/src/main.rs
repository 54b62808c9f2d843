//! `benchmarks FOLDER`: measures everything and writes BENCHMARKS.md and benchmarks.svg to the folder.

use bench::peer::versions;
use bench::plot::plot;
use bench::report::{report, Setting};
use bench::results::measure_all;
use std::ffi::OsString;
use std::fs;
use std::io::{self, stderr, stdout, Write};
use std::path::{Path, PathBuf};
use std::process::{Command, ExitCode};
use std::time::Instant;

const USAGE: &str = "usage: benchmarks FOLDER\n\
    measures the unit's static library, and writes BENCHMARKS.md and benchmarks.svg to the folder";
/// The exit status of wrong arguments, and of output that cannot be written.
const FAILED: u8 = 2;

fn main() -> ExitCode {
    let done = match &std::env::args_os().skip(1).collect::<Vec<OsString>>()[..] {
        [help] if help == "--help" => say(USAGE),
        [folder] if !folder.is_empty() && !folder.as_encoded_bytes().starts_with(b"-") => {
            measure_to(&PathBuf::from(folder))
        }
        _ => Err(String::from(USAGE)),
    };
    done.map_or_else(
        |message| {
            let _ = writeln!(stderr(), "{message}");
            ExitCode::from(FAILED)
        },
        |()| ExitCode::SUCCESS,
    )
}

fn say(text: &str) -> Result<(), String> {
    writeln!(stdout(), "{text}").map_err(|error| format!("The output cannot be written: {error}."))
}

/// Measures everything, and writes the page and the plot to a folder; whether it can be written is found out first.
fn measure_to(folder: &Path) -> Result<(), String> {
    let unwritten = |error: io::Error| format!("The folder {} cannot be written: {error}.", folder.display());
    try_folder(folder).map_err(unwritten)?;
    let start = Instant::now();
    let results = measure_all(|next| {
        let _ = writeln!(stderr(), "{next}");
    });
    let setting = Setting { lines: vec![machine(), compiler(), peers()] };
    let files = [("BENCHMARKS.md", report(&results, &setting)), ("benchmarks.svg", plot(&results.lines))];
    for (name, text) in files {
        let path = folder.join(name);
        fs::write(&path, text).map_err(unwritten)?;
        say(&format!("{} is written", path.display()))?;
    }
    say(&format!("measured in {:.0} s; {}", start.elapsed().as_secs_f64(), peers()))
}

/// Makes the folder where it is not there, and a file in it, which is taken away again.
fn try_folder(folder: &Path) -> io::Result<()> {
    fs::create_dir_all(folder)?;
    let file = folder.join(".benchmarks-can-be-written");
    fs::write(&file, "")?;
    fs::remove_file(&file)
}

/// The processor and how many of it there are.
fn machine() -> String {
    let about = std::fs::read_to_string("/proc/cpuinfo").unwrap_or_default();
    let name = about
        .lines()
        .find_map(|line| line.strip_prefix("model name"))
        .unwrap_or("a processor that is not named");
    let count = std::thread::available_parallelism().map_or(1, usize::from);
    format!("{} ({count} of them), Linux", name.trim_start_matches(['\t', ' ', ':']))
}

/// The compiler of the baseline.
fn compiler() -> String {
    let version = Command::new("rustc").arg("--version").output().ok();
    let version = version.map(|output| String::from_utf8_lossy(&output.stdout).trim().to_string());
    format!(
        "{}, for x86-64 without further features, as the unit",
        version.unwrap_or_else(|| String::from("rustc"))
    )
}

/// Which peers there are.
fn peers() -> String {
    let versions = versions();
    if versions.is_empty() {
        return String::from("neither LMDB nor SQLite is installed");
    }
    versions.join(", ")
}
