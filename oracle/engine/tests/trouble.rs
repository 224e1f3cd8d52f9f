//! The command-line tool when something goes wrong: no list is lost, and trouble is told.

use engine::run::{command, talk, tool, Folder, WHOLE};
use std::ffi::CStr;
use std::fs::{self, File, OpenOptions};
use std::io::{Read, Write};
use std::os::raw::{c_char, c_int};
use std::os::unix::fs::{symlink, FileTypeExt, MetadataExt, OpenOptionsExt, PermissionsExt};
use std::os::unix::io::FromRawFd;
use std::os::unix::net::UnixListener;
use std::path::{Path, PathBuf};
use std::process::{Command, Output, Stdio};
use std::sync::mpsc;
use std::thread;
use std::time::Duration;

/// A list of one bucket under rule 2 and mask 0, and what comes of its file.
const FORMER: [u8; 12] = [0x2f, 2, 4, 0, 0, 0, 0, 0x0a, 9, 0, 3, 0];
const CONVERTED: [u8; 9] = [0x26, 4, 0, 0, 0x0a, 9, 0, 3, 0];

/// The tool's answers line by line.
fn answers(output: &Output) -> Vec<String> {
    let text = String::from_utf8(output.stdout.clone()).expect("text");
    text.lines().map(str::to_string).collect()
}

fn errors(output: &Output) -> String {
    String::from_utf8(output.stderr.clone()).expect("text")
}

fn ask(folder: &Folder, lines: &[&str]) -> Output {
    let script = lines.join("\n") + "\n";
    talk(&mut command(folder), script.as_bytes(), WHOLE)
}

/// The command that has an exit status.
fn wrapper() -> PathBuf {
    Path::new(env!("CARGO_MANIFEST_DIR")).join("../../gedrunelj")
}

fn wrapped(folder: &Folder) -> Command {
    let mut command = Command::new(wrapper());
    command.current_dir(&folder.0).env("GEDRUNELJ", tool());
    command
}

fn status(folder: &Folder, args: &[&str], script: &str) -> (Option<i32>, Output) {
    let output = talk(wrapped(folder).args(args), script.as_bytes(), WHOLE);
    (output.status.code(), output)
}

// ── no list is lost ──

/// A list that could not be read is not replaced by what is in memory.
#[test]
fn failed_load_then_save() {
    let folder = Folder::new("failed load");
    let first = ask(
        &folder,
        &[
            "settings 0 12 8 0",
            "hold a",
            "hold b",
            "save good",
            "pack packed",
        ],
    );
    assert_eq!(errors(&first), "");
    let (good, packed) = (folder.get("good"), folder.get("packed"));
    folder.put("stray", &[&good[..], b"\n"].concat());
    folder.put("short", &good[..good.len() - 1]);
    folder.put("stray packed", &[&packed[..], b"\n"].concat());
    folder.put("former", &FORMER);
    folder.add_folder("folder");
    let before = folder.files();
    for (read, write) in [
        ("load stray", "save stray"),
        ("load short", "save short"),
        ("load missing", "save missing"),
        ("load folder", "save good"),
        ("load former", "save former"),
        ("unpack stray packed", "pack stray packed"),
        ("unpack missing", "pack missing"),
        ("unpack folder", "save good"),
    ] {
        let output = ask(
            &folder,
            &[read, "hold c", write, "save good", "pack packed"],
        );
        let answers = answers(&output);
        for answer in &answers[2..] {
            assert!(answer.contains("not written: "), "{read}: {answer}");
        }
        assert!(errors(&output).starts_with("gedrunelj: "), "{read}");
        assert_eq!(folder.files(), before, "{read}");
    }
}

/// A new list, whatever brought it, may be written.
#[test]
fn written_again() {
    let folder = Folder::new("written again");
    ask(
        &folder,
        &["settings 0 12 8 0", "hold a", "save good", "pack packed"],
    );
    folder.put("former", &FORMER);
    for (line, written) in [
        ("clear", true),
        ("settings 0 12 8 0", true),
        ("settings 0 12 8 0 0x2a", true),
        ("load good", true),
        ("unpack packed", true),
        ("settings 0 12 7 0", false),
        ("settings 0 12 8 0 no", false),
        ("settings", false),
        ("hold b", false),
        ("forecast b", false),
        ("length", false),
        ("load missing", false),
        ("stats", false),
        ("convert former made", false),
        ("convert good made", false),
        ("convert missing made", false),
    ] {
        let lines = [
            "settings 0 12 8 0",
            "load missing",
            line,
            "save f",
            "pack g",
        ];
        let answers = answers(&ask(&folder, &lines));
        assert_eq!(answers[3].starts_with("saved, "), written, "{line}");
        assert_eq!(answers[4].starts_with("packed, "), written, "{line}");
        for name in ["f", "g"] {
            assert_eq!(
                fs::remove_file(folder.path(name)).is_ok(),
                written,
                "{line}"
            );
        }
    }
}

/// Some editors put a mark before the first line.
#[test]
fn byte_order_mark() {
    let folder = Folder::new("byte order mark");
    let mark = "\u{feff}";
    for (script, expected) in [
        (
            format!("{mark}hold a\nlookup a\n"),
            "accepted, 0 moves\nheld, 1 order\n",
        ),
        (format!("{mark}# first\n"), "# first\n"),
        (format!("{mark}\nhold a"), "\naccepted, 0 moves\n"),
        (mark.to_string(), "\n"),
    ] {
        let output = talk(&mut command(&folder), script.as_bytes(), WHOLE);
        assert_eq!(
            String::from_utf8_lossy(&output.stdout),
            expected,
            "{script:?}"
        );
        assert_eq!(errors(&output), "", "{script:?}");
    }
    // Nowhere else, and no part of it.
    for script in [
        format!("hold a\n{mark}stats\n"),
        format!("\n{mark}{mark}stats\n"),
    ] {
        let output = talk(&mut command(&folder), script.as_bytes(), WHOLE);
        assert_eq!(
            errors(&output),
            "gedrunelj: 0 refused, 1 failed\n",
            "{script:?}"
        );
    }
    let output = talk(&mut command(&folder), b"\xef\xbbstats\n", WHOLE);
    assert_eq!(errors(&output), "gedrunelj: 0 refused, 1 failed\n");
}

// ── trouble can be seen ──

const TROUBLE: [&str; 6] = [
    "settings 0 12 8 0",
    "hold a",
    "view 8",
    "nothing",
    "load missing",
    "hold b",
];

#[test]
fn counts() {
    let folder = Folder::new("counts");
    let output = ask(&folder, &TROUBLE);
    assert_eq!(answers(&output).len(), 6);
    assert_eq!(errors(&output), "gedrunelj: 1 refused, 2 failed\n");
    let output = ask(&folder, &["hold a", "release b", "lookup c", "settings"]);
    assert_eq!(errors(&output), "");
}

/// The first trouble is the last line.
#[test]
fn strict() {
    let folder = Folder::new("strict");
    folder.put("sound", &CONVERTED);
    for (first, end) in [
        ("view 8", "1 refused, 0 failed"),
        ("nothing", "0 refused, 1 failed"),
        ("load missing", "0 refused, 1 failed"),
        ("hold 0x1", "0 refused, 1 failed"),
        ("convert sound f", "1 refused, 0 failed"),
        ("convert missing f", "0 refused, 1 failed"),
        ("convert f", "0 refused, 1 failed"),
    ] {
        for ending in ["\n", ""] {
            let script = format!("settings 0 12 8 0\nhold a\n{first}\nhold b\nsave f{ending}");
            let output = talk(command(&folder).arg("--strict"), script.as_bytes(), WHOLE);
            assert_eq!(answers(&output).len(), 3, "{first}");
            let told = format!("gedrunelj: {end}; stopped at line 3\n");
            assert_eq!(errors(&output), told, "{first}");
            assert!(!folder.path("f").exists());
        }
    }
    let output = talk(command(&folder).arg("--strict"), b"hold a\nnothing", WHOLE);
    assert_eq!(
        errors(&output),
        "gedrunelj: 0 refused, 1 failed; stopped at line 2\n"
    );
    let output = talk(
        command(&folder).arg("--strict"),
        b"hold a\nrelease b\n",
        WHOLE,
    );
    assert_eq!((answers(&output).len(), &errors(&output)[..]), (2, ""));
}

/// The wrapper's exit status, with the same answers.
#[test]
fn statuses() {
    let folder = Folder::new("statuses");
    folder.put("good", b"hold a\nlookup a\n");
    folder.put("bad", b"hold a\nnothing\nlookup a\n");
    folder.put("refused", b"view 4096\n");
    folder.put("former", &FORMER);
    for (args, script, expected) in [
        (&["good"][..], "", 0),
        (&[], "hold a\nrelease b\n", 0),
        (&["-"], "hold a\n", 0),
        (&[], "", 0),
        (&["bad"], "", 1),
        (&["--strict", "bad"], "", 1),
        (&["refused"], "", 1),
        (&[], "load missing\n", 1),
        (&[], "convert former f\n", 0),
        (&[], "convert f f\n", 1),
        (&[], "convert missing f\n", 1),
        (&["missing"], "hold a\n", 2),
        (&["."], "hold a\n", 2),
        (&[""], "hold a\n", 2),
        (&["good", "good"], "", 2),
        (&["--none"], "", 2),
        (&["--help"], "", 0),
        (&["--version"], "", 0),
    ] {
        let (code, output) = status(&folder, args, script);
        assert_eq!(
            code,
            Some(expected),
            "{args:?} {script:?}: {}",
            errors(&output)
        );
        let plain = talk(command(&folder).args(args), script.as_bytes(), WHOLE);
        assert_eq!(output.stdout, plain.stdout, "{args:?} {script:?}");
        assert_eq!(output.stderr, plain.stderr, "{args:?} {script:?}");
        assert_eq!(plain.status.code(), Some(0), "{args:?} {script:?}");
    }
    // A tool that is not there, one that says nothing, and one that is ended.
    folder.put("ended", b"#!/bin/sh\nkill -9 $$\n");
    let mode = fs::Permissions::from_mode(0o755);
    fs::set_permissions(folder.path("ended"), mode).expect("a mode");
    for other in [
        "/bin/true",
        "/bin/false",
        &folder.path("ended").to_string_lossy(),
    ] {
        let output = talk(wrapped(&folder).env("GEDRUNELJ", other), b"hold a\n", WHOLE);
        assert_eq!(output.status.code(), Some(3), "{other}");
        assert_ne!(errors(&output), "", "{other}");
    }
}

/// A list goes on from nothing that was not told: without answers, no line more.
#[test]
fn answers_that_cannot_be_written() {
    let folder = Folder::new("no answers");
    let full = || {
        OpenOptions::new()
            .write(true)
            .open("/dev/full")
            .expect("/dev/full")
    };
    let script = "hold a\nhold b\nsave f\nconvert former g\n";
    folder.put("script", script.as_bytes());
    folder.put("former", &FORMER);
    let written = |name: &str| folder.path(name).exists();
    let ended = |output: &Output, name: &str| {
        assert!(!written("f") && !written("g"), "{name}");
        let told = errors(output);
        assert!(
            told.contains("an answer could not be written"),
            "{name}: {told}"
        );
    };
    let output = command(&folder)
        .arg("script")
        .stdout(full())
        .output()
        .expect("a run");
    ended(&output, "full disk");
    let output = wrapped(&folder)
        .arg("script")
        .stdout(full())
        .output()
        .expect("a run");
    ended(&output, "full disk, wrapped");
    assert_eq!(output.status.code(), Some(1));
    // A descriptor that is closed must not be given to the file that is saved.
    let mut shell = Command::new("sh");
    shell
        .args(["-c", r#"exec "$0" script >&-"#])
        .arg(tool())
        .current_dir(&folder.0);
    ended(&shell.output().expect("a run"), "closed output");
    let mut shell = Command::new("sh");
    shell
        .args(["-c", r#"exec "$0" script >&-"#])
        .arg(wrapper())
        .current_dir(&folder.0);
    let output = shell.env("GEDRUNELJ", tool()).output().expect("a run");
    assert_eq!(output.status.code(), Some(1));
    assert!(!errors(&output).is_empty() && !written("f") && !written("g"));
    // Nobody reads the answers any more.
    let mut child = wrapped(&folder)
        .stdin(Stdio::piped())
        .stdout(Stdio::piped())
        .stderr(Stdio::piped())
        .spawn()
        .expect("the tool starts");
    drop(child.stdout.take());
    let mut to = child.stdin.take().expect("a pipe");
    to.write_all(script.as_bytes()).expect("a pipe");
    drop(to);
    let output = child.wait_with_output().expect("the tool ends");
    assert_eq!(output.status.code(), Some(1));
    ended(&output, "closed pipe");
    // And a good run does save.
    assert_eq!(status(&folder, &["script"], "").0, Some(0));
    assert!(written("f") && written("g"));
}

// ── files ──

/// A file that is replaced keeps its rights, and its owner where the user may give it away.
#[test]
fn rights_are_kept() {
    let folder = Folder::new("rights");
    folder.put("former", &FORMER);
    let script = &[
        "settings 0 12 8 0",
        "hold a",
        "save f",
        "pack g",
        "convert former h",
    ];
    let in_place = "convert i i";
    let before = |name: &str| match name {
        "i" => &FORMER[..],
        _ => b"here before",
    };
    for mode in [0o600, 0o640, 0o444, 0o755, 0o666] {
        for name in ["f", "g", "h", "i"] {
            let _ = fs::remove_file(folder.path(name));
            folder.put(name, before(name));
            let rights = fs::Permissions::from_mode(mode);
            fs::set_permissions(folder.path(name), rights).expect("a mode");
        }
        let output = ask(&folder, &[&script[..], &[in_place]].concat());
        assert_eq!(errors(&output), "", "{mode:o}");
        for name in ["f", "g", "h", "i"] {
            let there = fs::metadata(folder.path(name)).expect("a file");
            assert_eq!(there.mode() & 0o7777, mode, "{name}");
            assert!(folder.get(name) != before(name), "{name}");
        }
    }
    // Only root may give a file away.
    let mut chown = Command::new("chown");
    let given = chown
        .args(["12345:23456", "f", "h"])
        .current_dir(&folder.0)
        .output();
    if given.map_or(false, |output| output.status.success()) {
        assert_eq!(errors(&ask(&folder, script)), "");
        for name in ["f", "h"] {
            let there = fs::metadata(folder.path(name)).expect("a file");
            assert_eq!((there.uid(), there.gid()), (12_345, 23_456), "{name}");
        }
    }
    // A new file has what the user's umask gives.
    for name in ["f", "h"] {
        fs::remove_file(folder.path(name)).expect("a file");
    }
    ask(&folder, script);
    let other = OpenOptions::new()
        .write(true)
        .create_new(true)
        .mode(0o666)
        .open(folder.path("other"))
        .and_then(|file| file.metadata())
        .expect("a file");
    for name in ["f", "h"] {
        let there = fs::metadata(folder.path(name)).expect("a file");
        assert_eq!(there.mode(), other.mode(), "{name}");
    }
}

/// What is no regular file stays as it is, and a link too.
#[test]
fn irregular_files() {
    let folder = Folder::new("irregular");
    folder.put("target", b"here before");
    folder.put("former", &FORMER);
    symlink("former", folder.path("from")).expect("a link");
    symlink("target", folder.path("link")).expect("a link");
    symlink("nowhere", folder.path("dangling")).expect("a link");
    let made = Command::new("mkfifo")
        .arg(folder.path("pipe"))
        .status()
        .expect("mkfifo");
    assert!(made.success());
    let _socket = UnixListener::bind(folder.path("socket")).expect("a socket");
    folder.add_folder("folder");
    let names = ["link", "dangling", "pipe", "socket", "folder"];
    let mut script = vec!["settings 0 12 8 0".to_string(), "hold a".to_string()];
    for name in names {
        script.push(format!("save {name}"));
        script.push(format!("pack {name}"));
        script.push(format!("convert former {name}"));
    }
    script.push("convert from from".to_string());
    // A link to the file to read is followed.
    script.push("convert from new".to_string());
    script.push("save target".to_string());
    let lines: Vec<&str> = script.iter().map(String::as_str).collect();
    let output = ask(&folder, &lines);
    let answers = answers(&output);
    for (i, line) in lines.iter().enumerate().take(18).skip(2) {
        let name = line.rsplit(' ').next().expect("a word");
        let reason = match name {
            "link" | "dangling" | "from" => {
                "it is a link; give the name of the file that it leads to"
            }
            "folder" => "it is a folder",
            _ => "it is no regular file",
        };
        assert_eq!(
            answers[i],
            format!("line {}: cannot write {name}: {reason}", i + 1)
        );
    }
    assert_eq!(errors(&output), "gedrunelj: 0 refused, 16 failed\n");
    assert_eq!(answers[18], "converted, 9 bytes");
    assert_eq!(folder.get("new"), CONVERTED);
    assert_eq!(folder.get("former"), FORMER);
    assert!(answers[19].starts_with("saved, ") && folder.get("target") != b"here before");
    for link in ["link", "dangling", "from"] {
        assert!(folder.path(link).is_symlink(), "{link}");
    }
    assert!(!folder.path("nowhere").exists());
    let kind = |name: &str| {
        fs::symlink_metadata(folder.path(name))
            .expect("a file")
            .file_type()
    };
    assert!(kind("pipe").is_fifo() && kind("socket").is_socket() && kind("folder").is_dir());
    let left = fs::read_dir(&folder.0).expect("a folder").count();
    assert_eq!(left, 9, "nothing else is left there");
}

/// A library to put before the C library's: it writes down what is forced to the disk, in what order, and fails where it is told to.
const SHIM: &str = r#"
#define _GNU_SOURCE
#include <dlfcn.h>
#include <errno.h>
#include <stdio.h>
#include <stdlib.h>
#include <string.h>
#include <sys/stat.h>
#include <unistd.h>
static void note(const char *what) {
    FILE *log = fopen(getenv("SHIM_LOG"), "a");
    if (log) { fprintf(log, "%s\n", what); fclose(log); }
}
int fsync(int fd) {
    struct stat s;
    const char *what = fstat(fd, &s) == 0 && S_ISDIR(s.st_mode) ? "folder" : "file";
    const char *fail = getenv("SHIM_FAIL");
    note(what);
    if (fail && strncmp(fail, what, strlen(what)) == 0) { errno = atoi(fail + strlen(what)); return -1; }
    return ((int (*)(int))dlsym(RTLD_NEXT, "fsync"))(fd);
}
ssize_t read(int fd, void *bytes, size_t n) {
    static int reads;
    const char *most = getenv("SHIM_READS");
    if (fd == 0 && most && ++reads > atoi(most)) { errno = EIO; return -1; }
    return ((ssize_t (*)(int, void *, size_t))dlsym(RTLD_NEXT, "read"))(fd, bytes, n);
}
int rename(const char *from, const char *to) {
    note("rename");
    return ((int (*)(const char *, const char *))dlsym(RTLD_NEXT, "rename"))(from, to);
}
"#;

/// The library in a folder, as `./shim.so`: a path with blanks in it would be taken for several.
fn make_shim(folder: &Folder) {
    folder.put("shim.c", SHIM.as_bytes());
    let made = Command::new("gcc")
        .args(["-shared", "-fPIC", "-O1", "-o"])
        .args([folder.path("shim.so"), folder.path("shim.c")])
        .args(["-ldl"])
        .status()
        .expect("gcc");
    assert!(made.success());
}

/// Commands that cannot be read to their end: what may be a part of a line is not carried out.
#[test]
fn unreadable_commands() {
    let folder = Folder::new("unreadable");
    make_shim(&folder);
    folder.put("former", &FORMER);
    for last in ["save part", "convert former part"] {
        for (reads, answered) in [("0", 0), ("1", 1)] {
            let mut command = command(&folder);
            command
                .env("LD_PRELOAD", "./shim.so")
                .env("SHIM_READS", reads);
            let script = format!("settings 0 12 8 0\n{last}");
            let output = talk(&mut command, script.as_bytes(), WHOLE);
            assert_eq!(answers(&output).len(), answered, "{last}");
            assert!(errors(&output).contains("the commands cannot be read"));
            assert!(!folder.path("part").exists(), "{last}");
        }
    }
}

/// "Saved" is said once the file, and then its new name, are on the disk.
#[test]
fn forced_to_the_disk() {
    let folder = Folder::new("forced");
    make_shim(&folder);
    folder.add_folder("sub");
    folder.put("former", &FORMER);
    let log = folder.path("log");
    let run = |line: &str, fail: &str| {
        let _ = fs::remove_file(&log);
        let mut command = command(&folder);
        command
            .env("LD_PRELOAD", "./shim.so")
            .env("SHIM_LOG", &log)
            .env("SHIM_FAIL", fail);
        let script = format!("settings 0 12 8 0\n{line}\n");
        let output = talk(&mut command, script.as_bytes(), WHOLE);
        let told = fs::read_to_string(&log).expect("the shim is used");
        (
            answers(&output)[1].clone(),
            told.replace('\n', " "),
            errors(&output),
        )
    };
    for (line, said) in [
        ("save f", "saved, 11 bytes"),
        ("save f", "saved, 11 bytes"),
        ("pack sub/g", "packed, 44 bytes"),
        ("convert former c", "converted, 9 bytes"),
        ("convert former sub/c", "converted, 9 bytes"),
    ] {
        let (answer, order, errors) = run(line, "");
        assert_eq!(
            (&answer[..], &order[..]),
            (said, "file rename folder "),
            "{line}"
        );
        assert_eq!(errors, "");
    }
    let whole = format!("save {}", folder.path("sub/h").display());
    assert_eq!(run(&whole, "").1, "file rename folder ");
    // The folder cannot be forced: the file is there, and the doubt is told.
    for (line, name) in [("save d", "d"), ("convert former e", "e")] {
        let (answer, _, errors) = run(line, "folder5");
        assert!(
            answer.starts_with("line 2: written, but a power cut may undo it: "),
            "{answer}"
        );
        assert_eq!(errors, "gedrunelj: 0 refused, 1 failed\n");
        assert!(folder.path(name).exists());
    }
    // The file cannot: nothing has changed.
    for (line, name) in [("pack f", "f"), ("convert former former", "former")] {
        let before = folder.get(name);
        let (answer, order, _) = run(line, "file5");
        assert_eq!(
            answer,
            format!("line 2: cannot write {name}: the disk failed")
        );
        assert_eq!((&order[..], folder.get(name)), ("file ", before));
    }
    // An error that the tool has no words for comes with its number and the system's.
    let (answer, _, errors) = run("pack f", "file122");
    assert_eq!(answer, "line 2: cannot write f: error 122 of the system");
    let (text, counts) = errors.split_once('\n').expect("two lines");
    assert!(
        text.starts_with("gedrunelj: ") && text.len() > 16,
        "{errors}"
    );
    assert_eq!(counts, "gedrunelj: 0 refused, 1 failed\n");
}

// ── a terminal ──

extern "C" {
    fn posix_openpt(flags: c_int) -> c_int;
    fn grantpt(fd: c_int) -> c_int;
    fn unlockpt(fd: c_int) -> c_int;
    fn ptsname(fd: c_int) -> *const c_char;
}

/// A terminal's two sides, where the machine has any.
fn terminal() -> Option<(File, impl Fn() -> File)> {
    let read_write = 2;
    let (ours, name) = unsafe {
        let fd = posix_openpt(read_write);
        if fd < 0 || grantpt(fd) != 0 || unlockpt(fd) != 0 {
            return None;
        }
        let name = CStr::from_ptr(ptsname(fd))
            .to_str()
            .expect("a path")
            .to_string();
        (File::from_raw_fd(fd), name)
    };
    let open = move || {
        let mut options = OpenOptions::new();
        options
            .read(true)
            .write(true)
            .custom_flags(0o400)
            .open(&name)
            .expect("a terminal")
    };
    Some((ours, open))
}

/// Whoever types is asked for a line; a pipe at either end is not.
#[test]
fn prompt() {
    let folder = Folder::new("prompt");
    let (mut ours, open) = match terminal() {
        Some(both) => both,
        None => {
            eprintln!("the prompt: skipped, this machine has no terminals");
            return;
        }
    };
    let mut child = command(&folder)
        .stdin(open())
        .stdout(open())
        .spawn()
        .expect("the tool starts");
    let mut from = ours.try_clone().expect("a terminal");
    let (send, parts) = mpsc::channel();
    thread::spawn(move || {
        let mut bytes = [0; 256];
        while let Ok(n) = from.read(&mut bytes) {
            if send
                .send(String::from_utf8_lossy(&bytes[..n]).into_owned())
                .is_err()
            {
                break;
            }
        }
    });
    let read_to = |end: &str| {
        let mut seen = String::new();
        while !seen.ends_with(end) {
            let part = parts.recv_timeout(Duration::from_secs(20));
            seen.push_str(&part.unwrap_or_else(|_| panic!("no more after {seen:?}")));
        }
        seen
    };
    assert_eq!(read_to("> "), "> ");
    ours.write_all(b"hold a\n").expect("a terminal");
    let shown = read_to("\n> ");
    assert!(shown.contains("accepted, 0 moves"), "{shown}");
    // the end of the input, as it is typed
    ours.write_all(&[4]).expect("a terminal");
    assert!(child.wait().expect("the tool ends").success());

    let (_ours, open) = terminal().expect("another terminal");
    let output = command(&folder)
        .stdin(Stdio::null())
        .stdout(open())
        .output()
        .expect("a run");
    assert!(output.status.success());
    let (mut ours, open) = terminal().expect("another terminal");
    ours.write_all(b"hold a\n\x04").expect("a terminal");
    let output = command(&folder)
        .stdin(open())
        .stdout(Stdio::piped())
        .output()
        .expect("a run");
    assert_eq!(
        String::from_utf8_lossy(&output.stdout),
        "accepted, 0 moves\n"
    );
}
