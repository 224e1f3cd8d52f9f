//! Measures what docs/EVIDENCE.md tells, draws its plots and that of docs/BENCHMARK.md, and writes
//! the text of both, a section of README.md, and the table of loads of the Rust crate.
//!
//! ```text
//! evidence make TOP     measures everything; writes data, plots and text below TOP, the repository
//! evidence draw TOP     plots and text again, from the data that is there
//! evidence check TOP    a small run: each of its rows has to be in the data that is there, and
//!                       plots and text have to be those that the data gives
//! ```

use engine::evidence::data::{Data, Set};
use engine::evidence::measure::{self, Run};
use engine::evidence::{plots, speed, text};
use std::path::{Path, PathBuf};
use std::process::exit;
use std::time::Instant;
use std::{env, fs};

/// A failure in words.
type Failed = String;

fn main() {
    let arguments: Vec<String> = env::args().skip(1).collect();
    let words: Vec<&str> = arguments.iter().map(String::as_str).collect();
    let done = match words[..] {
        ["make", top] => make(Path::new(top)).and_then(|()| draw(Path::new(top))),
        ["draw", top] => draw(Path::new(top)),
        ["check", top] => check(Path::new(top)),
        _ => Err("usage: evidence make|draw|check TOP".to_string()),
    };
    if let Err(why) = done {
        eprintln!("evidence: {why}");
        exit(1);
    }
}

fn folder(top: &Path) -> PathBuf {
    top.join("docs/evidence")
}

/// The templates, and the pages that are made of them.
const PAGES: [(&str, &str); 2] = [
    ("oracle/engine/evidence.in", "docs/EVIDENCE.md"),
    ("oracle/engine/benchmark.in", "docs/BENCHMARK.md"),
];

/// The source of the Rust crate that has the loads in it.
const LOADS: &str = "bindings/rust/src/loads.rs";

/// The template of a section, and the page that has it.
const SECTION: (&str, &str) = ("oracle/engine/readme.in", "README.md");

fn make(top: &Path) -> Result<(), Failed> {
    fs::create_dir_all(folder(top)).map_err(|e| e.to_string())?;
    for (name, measured) in measure::ALL {
        let start = Instant::now();
        let data = measured(Run::Whole);
        data.write(&folder(top)).map_err(|e| e.to_string())?;
        let seconds = start.elapsed().as_secs_f64();
        eprintln!("{name}: {} rows in {seconds:.1} s", data.len());
    }
    Ok(())
}

/// The data that is there.
fn kept(top: &Path) -> Result<Set, Failed> {
    let counted = measure::ALL.into_iter().map(|(name, _)| name);
    let timed = speed::MACHINES.into_iter().map(|(_, name)| name);
    let read = |name| Data::read(&folder(top), name).map_err(|e| e.to_string());
    let all = counted.chain(timed).chain([speed::COST]).map(read);
    all.collect::<Result<Vec<Data>, Failed>>().map(Set)
}

/// The plots, texts and loads of some data: each file with what it has to have in it.
fn made(top: &Path, set: &Set) -> Result<Vec<(PathBuf, String)>, Failed> {
    let mut files = Vec::new();
    for (name, drawn) in plots::ALL {
        files.push((folder(top).join(plots::file(name)), drawn(set)));
    }
    let read = |name: &str| fs::read_to_string(top.join(name)).map_err(|e| format!("{name}: {e}"));
    let rendered = |template: &str| {
        let text = text::rendered(&read(template)?, set);
        text.map_err(|e| format!("{template}: {e}"))
    };
    for (template, page) in PAGES {
        files.push((top.join(page), rendered(template)?));
    }
    let (template, page) = SECTION;
    let whole = text::with_section(&read(page)?, &rendered(template)?)?;
    files.push((top.join(page), whole));
    let source = text::with_loads(&read(LOADS)?, set).map_err(|e| format!("{LOADS}: {e}"))?;
    files.push((top.join(LOADS), source));
    Ok(files)
}

fn draw(top: &Path) -> Result<(), Failed> {
    for (path, text) in made(top, &kept(top)?)? {
        fs::write(&path, text).map_err(|e| format!("{}: {e}", path.display()))?;
    }
    Ok(())
}

fn check(top: &Path) -> Result<(), Failed> {
    let set = kept(top)?;
    for (name, measured) in measure::ALL {
        let small = measured(Run::Small);
        if small.is_empty() {
            return Err(format!("a small run measures nothing of {name}"));
        }
        if let Some(row) = small.missing_in(set.get(name)).first() {
            return Err(format!("{name} was measured otherwise now: {row}"));
        }
        eprintln!("{name}: {} rows are as they were", small.len());
    }
    for (path, text) in made(top, &set)? {
        let there = fs::read_to_string(&path).map_err(|e| format!("{}: {e}", path.display()))?;
        if there != text {
            return Err(format!("{} is not what the data gives", path.display()));
        }
    }
    Ok(())
}
