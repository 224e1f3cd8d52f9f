//! Runs the command-line tool in a folder of its own.
//!
//! The tool is `target/bin/gedrunelj`, or what `GEDRUNELJ` names.

use std::collections::BTreeMap;
use std::env;
use std::fs;
use std::io::{self, Write};
use std::os::unix::ffi::OsStrExt;
use std::path::{Path, PathBuf};
use std::process::{self, Command, Output, Stdio};
use std::thread;

/// All at once.
pub const WHOLE: &[usize] = &[usize::MAX];

/// The files below a folder by their paths in it. A folder among them has no bytes.
pub type Files = BTreeMap<Vec<u8>, Option<Vec<u8>>>;

/// A folder for one test, which ends with it.
pub struct Folder(pub PathBuf);

impl Folder {
    pub fn new(name: &str) -> Self {
        let name = format!("tool {} {name}", process::id());
        let path = env::temp_dir().join(name);
        let _ = fs::remove_dir_all(&path);
        fs::create_dir_all(&path).expect("a folder for the test");
        Folder(path)
    }

    pub fn path(&self, name: &str) -> PathBuf {
        self.0.join(name)
    }

    pub fn put(&self, name: &str, bytes: &[u8]) {
        fs::write(self.path(name), bytes).expect("a file for the test");
    }

    pub fn get(&self, name: &str) -> Vec<u8> {
        fs::read(self.path(name)).unwrap_or_else(|e| panic!("{name}: {e}"))
    }

    pub fn add_folder(&self, name: &str) {
        fs::create_dir(self.path(name)).expect("a folder for the test");
    }

    pub fn files(&self) -> Files {
        let mut all = Files::new();
        gather(&self.0, b"", &mut all);
        all
    }

    pub fn names(&self) -> Vec<String> {
        let name = |name: Vec<u8>| String::from_utf8(name).expect("a name of this test");
        self.files().into_keys().map(name).collect()
    }
}

impl Drop for Folder {
    fn drop(&mut self) {
        let _ = fs::remove_dir_all(&self.0);
    }
}

fn gather(folder: &Path, before: &[u8], all: &mut Files) {
    for entry in fs::read_dir(folder).expect("a folder") {
        let entry = entry.expect("an entry of a folder");
        let name = [before, entry.file_name().as_bytes()].concat();
        let path = entry.path();
        if path.is_dir() {
            gather(&path, &[&name[..], b"/"].concat(), all);
            all.insert(name, None);
        } else {
            let bytes = fs::read(&path).unwrap_or_else(|e| panic!("{}: {e}", path.display()));
            all.insert(name, Some(bytes));
        }
    }
}

pub fn tool() -> PathBuf {
    let path = match env::var_os("GEDRUNELJ") {
        Some(path) => PathBuf::from(path),
        None => Path::new(env!("CARGO_MANIFEST_DIR")).join("../../target/bin/gedrunelj"),
    };
    fs::canonicalize(&path).unwrap_or_else(|e| panic!("{}: {e}", path.display()))
}

pub fn command(folder: &Folder) -> Command {
    let mut command = Command::new(tool());
    command.current_dir(&folder.0);
    command
}

/// Writes the input in pieces of these sizes, again and again.
pub fn feed(mut to: impl Write, input: &[u8], pieces: &[usize]) -> io::Result<()> {
    let mut rest = input;
    for &size in pieces.iter().cycle() {
        if rest.is_empty() {
            break;
        }
        let (piece, next) = rest.split_at(size.min(rest.len()));
        to.write_all(piece)?;
        to.flush()?;
        rest = next;
    }
    Ok(())
}

/// What a command answers that gets this on standard input.
pub fn talk(command: &mut Command, input: &[u8], pieces: &[usize]) -> Output {
    let mut child = command
        .stdin(Stdio::piped())
        .stdout(Stdio::piped())
        .stderr(Stdio::piped())
        .spawn()
        .expect("the tool starts");
    let stdin = child.stdin.take().expect("a pipe");
    thread::scope(|scope| {
        // A tool that ends early shows in what it has answered.
        scope.spawn(|| feed(stdin, input, pieces));
        child.wait_with_output().expect("the tool ends")
    })
}
