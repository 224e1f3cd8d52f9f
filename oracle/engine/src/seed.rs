//! Where the random tests start from: the commit that is tested, so that each commit has tests of its
//! own and a failure can be run again.

use oracle::index::fnv1a;
use oracle::requests::Mix;
use std::env;
use std::io::{self, Write};
use std::process::Command;
use std::sync::atomic::{AtomicU64, Ordering};
use std::sync::Once;

/// Where there is no git or no commit.
const FIXED: &str = "1";

/// The first 64 bits of a hash in hexadecimal digits; fewer digits are the number that they are.
fn number(digits: &str) -> Option<u64> {
    let first = digits.get(..16).unwrap_or(digits);
    if !digits.bytes().all(|digit| digit.is_ascii_hexdigit()) {
        return None;
    }
    u64::from_str_radix(first, 16).ok()
}

/// The hash of the commit that is checked out.
fn commit() -> Option<String> {
    let mut git = Command::new("git");
    git.args(["-C", env!("CARGO_MANIFEST_DIR"), "rev-parse", "HEAD"]);
    let output = git.output().ok().filter(|output| output.status.success())?;
    let hash = String::from_utf8(output.stdout).ok()?;
    Some(hash.trim().to_string())
}

/// The seed of every random test: `SEED`, which takes what a run has printed or a commit's hash,
/// or else the commit.
pub fn seed() -> u64 {
    static ONCE: Once = Once::new();
    static FOUND: AtomicU64 = AtomicU64::new(0);
    ONCE.call_once(|| {
        let digits = match env::var("SEED") {
            Ok(given) => given,
            Err(_) => commit().unwrap_or_else(|| FIXED.to_string()),
        };
        let seed = number(&digits).unwrap_or_else(|| panic!("SEED is no hash: {digits:?}"));
        FOUND.store(seed, Ordering::SeqCst);
    });
    FOUND.load(Ordering::SeqCst)
}

/// Writes a line with the seed, past the capture of a test that passes.
pub fn tell(name: &str, line: &str) {
    let line = format!("{name}, SEED={:x}{line}\n", seed());
    // A line that cannot be written is no fault of the engine.
    let _ = io::stderr().write_all(line.as_bytes());
}

/// The numbers that the test of this name is made from.
pub fn mix(name: &str) -> Mix {
    tell(name, "");
    Mix(fnv1a(name.as_bytes()) ^ seed())
}
