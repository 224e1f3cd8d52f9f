//! The command-line tool, held to the other implementation line by line and file by file.
//!
//! The tool is `target/bin/gedrunelj`, or what `GEDRUNELJ` names. The seed and the length of the
//! generated scripts are set as for the other tests.

use engine::make::{
    cells, damage, former_settings, long, one_of, settings, some_salt, spoil, tag, Cells,
};
use engine::run::{command, talk, tool, Files, Folder, WHOLE};
use engine::seed::{mix, tell};
use oracle::holdfile::HEAD;
use oracle::index::{Settings, MASKED, PLAIN, RING};
use oracle::requests::{to_hex, Mix};
use oracle::{former, holdfile, packed, table};
use std::fs;
use std::io::{BufRead, BufReader, Write};
use std::os::unix::fs::{symlink, PermissionsExt};
use std::path::Path;
use std::process::{Command, Stdio};
use std::sync::{mpsc, Mutex};
use std::thread;
use std::time::Duration;

/// The most bytes of a line, without its end.
const LINE: usize = 65_535;

const NO_COMMAND: &str = "there is no such command; help names them";
const NO_TAG: &str = "a tag is missing after the command: text, or hexadecimal digits after 0x";
const NO_NAME: &str = "the name of a file is missing after the command";
const NO_NAMES: &str = "convert takes two names of files: \
                        the one to read, which is a word, and the one to write";
const NO_BUCKET: &str = "view takes the number of a bucket";
const FEW_SETTINGS: &str = "settings takes four numbers, RULE WIDTH BUCKETS MASK, \
                            and a salt if one is wanted, or none to tell the present ones";
const MANY_BUCKETS: &str = "view takes one number and no more";
const MANY_SETTINGS: &str =
    "settings takes four numbers and a salt, and no more: RULE WIDTH BUCKETS MASK [SALT]";
const ALONE: &str = "the command stands alone";
const NO_NUMBER: &str = "is not a number in decimal digits below 4294967296";
const NO_SALT: &str = "the salt is not a number below 18446744073709551616, \
                       in decimal or hexadecimal digits after 0x";
const NOT_THE_LIST: &str = "not written: the last load or unpack failed, so this is not its list; \
                            after clear, settings or a good load or unpack it can be";
const NO_HEX: &str = "what stands after 0x is not pairs of hexadecimal digits";
const TOO_LONG: &str = "the line is longer than 65535 bytes";

const NO_FILE: &str = "there is no such file or folder";
const NO_FOLDER: &str = "a part of the path is no folder";
const A_FOLDER: &str = "it is a folder";
const TEN: &str = "unfinished files are in the way, of the same name with .tmp0 to .tmp9";

// ── the tool ──

/// Both have the same files with the same bytes.
fn same_files(got: &Files, expected: &Files, name: &str) {
    let shown = |files: &Files| -> Vec<String> { files.keys().map(|name| text(name)).collect() };
    assert_eq!(shown(got), shown(expected), "{name}: the files");
    for (file, bytes) in expected {
        assert!(got[file] == *bytes, "{name}: {} differs", text(file));
    }
}

/// How a script gets to the tool.
#[derive(Clone, Copy, Debug)]
enum Way {
    Argument,
    Input(&'static [usize]),
}

/// What the tool answers to a script, which has to end with these counts on standard error.
fn run(folder: &Folder, script: &[u8], way: Way, counts: &str) -> Vec<u8> {
    let mut command = command(folder);
    let output = match way {
        Way::Input(pieces) => talk(&mut command, script, pieces),
        Way::Argument => {
            let path = folder.0.with_extension("script");
            fs::write(&path, script).expect("a script for the test");
            // With a script, standard input has no part.
            let output = talk(command.arg(&path), b"clear\nstats\n", WHOLE);
            fs::remove_file(&path).expect("the script is there");
            output
        }
    };
    assert!(output.status.success(), "{}", output.status);
    assert_eq!(String::from_utf8_lossy(&output.stderr), counts);
    output.stdout
}

/// The line on standard error that tells what went wrong, and nothing where nothing did.
fn counts(refused: u64, failed: u64) -> String {
    match refused + failed {
        0 => String::new(),
        _ => format!("gedrunelj: {refused} refused, {failed} failed\n"),
    }
}

/// Bytes for a message.
fn text(bytes: &[u8]) -> String {
    let cut = &bytes[..bytes.len().min(200)];
    cut.escape_ascii().to_string()
}

// ── what the tool has to answer ──

/// A character for each byte.
fn raw(bytes: &[u8]) -> String {
    bytes.iter().copied().map(char::from).collect()
}

/// The line that has to come, a character for each byte, or the number of the refusal.
type Said = Result<String, u32>;

/// The tool's list, kept by the other implementation, and its files.
struct List {
    settings: Settings,
    table: Vec<u16>,
    scratch: Vec<u32>,
    longest: u32,
    line: u64,
    files: Files,
    /// The last list that was to be read was not.
    lost: bool,
    refused: u64,
    failed: u64,
}

fn blank(byte: u8) -> bool {
    matches!(byte, b' ' | b'\t' | b'\r')
}

fn trimmed(mut text: &[u8]) -> &[u8] {
    while let [first, rest @ ..] = text {
        if !blank(*first) {
            break;
        }
        text = rest;
    }
    while let [rest @ .., last] = text {
        if !blank(*last) {
            break;
        }
        text = rest;
    }
    text
}

fn number(word: &[u8]) -> Option<u32> {
    let digits = word.iter().all(u8::is_ascii_digit);
    std::str::from_utf8(word)
        .ok()
        .filter(|_| digits)?
        .parse()
        .ok()
}

/// A salt as it is typed. Only digits may follow the mark, and there has to be one.
fn typed_salt(word: &[u8]) -> Option<u64> {
    let (base, digits) = match word.strip_prefix(b"0x") {
        Some(digits) => (16, digits),
        None => (10, word),
    };
    if digits.is_empty() {
        return None;
    }
    let value = |&digit: &u8| char::from(digit).to_digit(base);
    digits.iter().try_fold(0u64, |number, digit| {
        let more = number.checked_mul(base.into())?;
        more.checked_add(value(digit)?.into())
    })
}

/// The bytes of a tag as it is typed.
fn typed(text: &[u8]) -> Option<Vec<u8>> {
    let digits = match text.strip_prefix(b"0x") {
        Some(digits) => digits,
        None => return Some(text.to_vec()),
    };
    let value = |&digit: &u8| char::from(digit).to_digit(16);
    let values: Vec<u32> = digits.iter().map(value).collect::<Option<_>>()?;
    let pairs = values.chunks_exact(2);
    let pair = |pair: &[u32]| (16 * pair[0] + pair[1]) as u8;
    pairs
        .remainder()
        .is_empty()
        .then(|| pairs.map(pair).collect())
}

/// How many buckets the head of a hold file names, if it has one.
fn buckets_named(bytes: &[u8]) -> usize {
    let map = bytes.first().copied().unwrap_or(0);
    let at = 1 + usize::from(map & 1) + usize::from(map >> 1 & 1);
    match (map & 4, bytes.get(at..at + 2)) {
        (4, Some(field)) => usize::from(u16::from_le_bytes([field[0], field[1]])) + 1,
        _ => 4_096,
    }
}

fn hold_file(s: Settings, table: &[u16]) -> Vec<u8> {
    let mut bytes = vec![0; HEAD + 9 * s.buckets as usize];
    let length = holdfile::write(s, table, &mut bytes).expect("good settings and cells");
    bytes.truncate(length);
    bytes
}

/// The same for settings that were good once, whether they are or not.
fn former_file(s: Settings, table: &[u16]) -> Vec<u8> {
    let mut bytes = vec![0; HEAD + 9 * s.buckets as usize];
    let length = former::write(s, table, &mut bytes).expect("settings that were good");
    bytes.truncate(length);
    bytes
}

fn packed_form(s: Settings, table: &[u16]) -> Vec<u8> {
    let mut bytes = vec![0; 8 * s.buckets as usize];
    let length = packed::write(s, table, &mut bytes).expect("good settings and cells");
    bytes.truncate(length);
    bytes
}

impl List {
    fn new(files: Files) -> Self {
        let mut list = List {
            settings: Settings::new(PLAIN, 12, 4_096, 0),
            table: vec![],
            scratch: vec![],
            longest: 0,
            line: 0,
            files,
            lost: false,
            refused: 0,
            failed: 0,
        };
        list.begin(list.settings);
        list
    }

    fn begin(&mut self, s: Settings) {
        self.take(s, vec![0; 4 * s.buckets as usize]);
    }

    fn take(&mut self, s: Settings, table: Vec<u16>) {
        self.settings = s;
        self.table = table;
        self.scratch = vec![0; 2 * s.buckets as usize];
        self.longest = 0;
        self.lost = false;
    }

    fn entries(&self) -> usize {
        self.table.iter().filter(|&&cell| cell != 0).count()
    }

    fn bad(&mut self, what: &str) -> Said {
        self.failed += 1;
        Ok(format!("line {}: {what}", self.line))
    }

    /// What the tool says at the end.
    fn counts(&self) -> String {
        counts(self.refused, self.failed)
    }

    /// What to say to each line of a script.
    fn answers(&mut self, script: &[u8]) -> Vec<Said> {
        lines(script).map(|line| self.answer(line)).collect()
    }

    fn answer(&mut self, line: &[u8]) -> Said {
        let said = self.answer_line(line);
        self.refused += u64::from(said.is_err());
        said
    }

    fn answer_line(&mut self, line: &[u8]) -> Said {
        self.line += 1;
        if line.len() > LINE {
            return self.bad(TOO_LONG);
        }
        let line = match self.line {
            1 => line.strip_prefix(b"\xef\xbb\xbf").unwrap_or(line),
            _ => line,
        };
        let text = trimmed(line);
        if text.is_empty() || text[0] == b'#' {
            return Ok(raw(line));
        }
        let mut words = text.split(|&b| blank(b)).filter(|word| !word.is_empty());
        let command = words.next().expect("a line that is not blank");
        let words: Vec<&[u8]> = words.collect();
        let (least, most) = match command {
            b"settings" if words.is_empty() => return Ok(self.told_settings()),
            b"settings" => (4, 5),
            b"view" => (1, 1),
            b"clear" | b"length" | b"stats" | b"help" => (0, 0),
            b"hold" | b"release" | b"lookup" | b"forecast" => (1, LINE),
            b"save" | b"load" | b"pack" | b"unpack" => (1, LINE),
            b"convert" => (2, LINE),
            _ => return self.bad(NO_COMMAND),
        };
        if words.len() < least {
            return self.bad(match command {
                b"settings" => FEW_SETTINGS,
                b"view" => NO_BUCKET,
                b"hold" | b"release" | b"lookup" | b"forecast" => NO_TAG,
                b"convert" => NO_NAMES,
                _ => NO_NAME,
            });
        }
        if words.len() > most {
            return self.bad(match command {
                b"settings" => MANY_SETTINGS,
                b"view" => MANY_BUCKETS,
                _ => ALONE,
            });
        }
        let rest = trimmed(&text[command.len()..]);
        match command {
            b"hold" | b"release" | b"lookup" | b"forecast" => match typed(rest) {
                Some(tag) => self.with_tag(command, &tag),
                None => self.bad(NO_HEX),
            },
            b"settings" | b"view" => {
                let least = &words[..least];
                let list: Vec<Option<u32>> = least.iter().map(|word| number(word)).collect();
                let salt = words.get(4).map_or(Some(0), |word| typed_salt(word));
                let names: &[&str] = match command {
                    b"view" => &["the bucket"],
                    _ => &["the rule", "the width", "the bucket count", "the mask"],
                };
                match (list.iter().position(Option::is_none), salt) {
                    (Some(i), _) => self.bad(&format!("{} {NO_NUMBER}", names[i])),
                    (None, None) => self.bad(NO_SALT),
                    (None, Some(salt)) => {
                        self.with_numbers(list.into_iter().flatten().collect(), salt)
                    }
                }
            }
            b"save" | b"pack" => self.write(command, rest),
            b"load" | b"unpack" => self.read(command, rest),
            b"convert" => self.convert(words[0], trimmed(&rest[words[0].len()..])),
            b"clear" => {
                self.begin(self.settings);
                Ok("cleared".into())
            }
            b"length" => {
                let length = holdfile::file_length(self.settings, &self.table)?;
                Ok(format!("{length} bytes"))
            }
            b"stats" => Ok(self.stats()),
            _ => Ok(help()),
        }
    }

    fn told_settings(&self) -> String {
        let s = self.settings;
        let (rule, width, buckets, mask) = (s.rule, s.width, s.buckets, s.mask);
        let salt = s.salt;
        format!("rule {rule}, width {width}, buckets {buckets}, mask {mask}, salt {salt}")
    }

    fn with_tag(&mut self, command: &[u8], tag: &[u8]) -> Said {
        let (s, table) = (self.settings, &mut self.table);
        Ok(match command {
            b"hold" => {
                let moves = table::hold(s, table, &mut self.scratch, tag)?;
                self.longest = self.longest.max(moves);
                accepted(moves)
            }
            b"forecast" => {
                let moves = table::forecast(s, table, &mut self.scratch, tag)?;
                format!("would be {}", accepted(moves))
            }
            b"release" => match table::release(s, table, tag)? {
                true => "released".into(),
                false => "absent".into(),
            },
            _ => match table::lookup(s, table, tag)? {
                0 => "clear".into(),
                1 => "held, 1 order".into(),
                copies => format!("held, {copies} orders"),
            },
        })
    }

    /// Settings, or the view of a bucket.
    fn with_numbers(&mut self, list: Vec<u32>, salt: u64) -> Said {
        if let [rule, width, buckets, mask] = list[..] {
            let s = Settings::new(rule, width, buckets, mask).with_salt(salt);
            s.check()?;
            self.begin(s);
            return Ok("cleared".into());
        }
        let bucket = list[0];
        match table::view_check(self.settings, &self.table, bucket) {
            0 => {
                let cells = table::view(self.settings, &self.table, bucket);
                let four: [u16; 4] = cells.try_into().expect("a bucket of four cells");
                let [a, b, c, d] = four;
                Ok(format!("bucket {bucket}: {a} {b} {c} {d}"))
            }
            n => Err(n),
        }
    }

    fn stats(&self) -> String {
        let (entries, buckets) = (self.entries(), self.settings.buckets as usize);
        let tenths = 1_000 * entries / (4 * buckets);
        format!(
            "entries {entries}, buckets {buckets}, load {}.{} %, longest relocation {}",
            tenths / 10,
            tenths % 10,
            self.longest
        )
    }

    /// Why a path leads nowhere.
    fn path_fault(&self, name: &[u8]) -> Option<&'static str> {
        let slash = name.iter().rposition(|&b| b == b'/')?;
        match self.files.get(&name[..slash]) {
            None => Some(NO_FILE),
            Some(Some(_)) => Some(NO_FOLDER),
            Some(None) => None,
        }
    }

    fn write_fault(&self, name: &[u8]) -> Option<&'static str> {
        let unfinished = |digit: u8| [name, b".tmp", &[digit]].concat();
        if let Some(fault) = self.path_fault(name) {
            return Some(fault);
        }
        if let Some(None) = self.files.get(name) {
            return Some(A_FOLDER);
        }
        let all = (b'0'..=b'9').all(|digit| self.files.contains_key(&unfinished(digit)));
        all.then_some(TEN)
    }

    fn write(&mut self, command: &[u8], name: &[u8]) -> Said {
        if self.lost {
            return self.bad(NOT_THE_LIST);
        }
        let (what, bytes) = match command {
            b"save" => ("saved", hold_file(self.settings, &self.table)),
            _ => ("packed", packed_form(self.settings, &self.table)),
        };
        self.keep(what, name, bytes)
    }

    fn keep(&mut self, what: &str, name: &[u8], bytes: Vec<u8>) -> Said {
        if let Some(fault) = self.write_fault(name) {
            return self.bad(&format!("cannot write {}: {fault}", raw(name)));
        }
        let count = bytes.len();
        self.files.insert(name.to_vec(), Some(bytes));
        Ok(format!("{what}, {count} bytes"))
    }

    /// The bytes of a file, or why there are none.
    fn fetch(&self, name: &[u8]) -> Result<Vec<u8>, &'static str> {
        match (self.path_fault(name), self.files.get(name)) {
            (Some(fault), _) => Err(fault),
            (None, None) => Err(NO_FILE),
            (None, Some(None)) => Err(A_FOLDER),
            (None, Some(Some(bytes))) => Ok(bytes.clone()),
        }
    }

    fn unread(&mut self, name: &[u8], fault: &str) -> Said {
        self.bad(&format!("cannot read {}: {fault}", raw(name)))
    }

    fn read(&mut self, command: &[u8], name: &[u8]) -> Said {
        match self.fetch(name) {
            Ok(bytes) => {
                let said = self.read_bytes(command, &bytes);
                self.lost = said.is_err();
                said
            }
            Err(fault) => {
                self.lost = true;
                self.unread(name, fault)
            }
        }
    }

    /// From one file to another: the list has no part in it.
    fn convert(&mut self, from: &[u8], to: &[u8]) -> Said {
        match self.fetch(from) {
            Ok(bytes) => {
                let mut out = vec![0; bytes.len()];
                let length = holdfile::convert(&bytes, &mut out)?;
                out.truncate(length);
                self.keep("converted", to, out)
            }
            Err(fault) => self.unread(from, fault),
        }
    }

    fn read_bytes(&mut self, command: &[u8], bytes: &[u8]) -> Said {
        if command == b"load" {
            let mut table = vec![0; 4 * buckets_named(bytes)];
            let s = holdfile::read(bytes, &mut table)?;
            self.take(s, table);
            let (entries, settings) = (in_words(self.entries()), self.told_settings());
            return Ok(format!("loaded, {entries}, {settings}"));
        }
        let count = packed::read(self.settings, bytes, &mut self.table)?;
        self.longest = 0;
        Ok(format!("unpacked, {}", in_words(count)))
    }
}

/// How many entries moved, in words.
fn accepted(moves: u32) -> String {
    match moves {
        1 => "accepted, 1 move".to_string(),
        _ => format!("accepted, {moves} moves"),
    }
}

/// How many entries there are, in words.
fn in_words(count: usize) -> String {
    match count {
        1 => "1 entry".to_string(),
        _ => format!("{count} entries"),
    }
}

/// The lines of a script. The last may have no line end.
fn lines(script: &[u8]) -> impl Iterator<Item = &[u8]> {
    let whole = script.strip_suffix(b"\n").unwrap_or(script);
    let any = !script.is_empty();
    whole.split(|&b| b == b'\n').filter(move |_| any)
}

/// The line of help, whose words are the tool's.
fn help() -> String {
    static HELP: Mutex<Option<String>> = Mutex::new(None);
    let ask = || {
        let got = run(&Folder::new("help line"), b"help\n", Way::Input(WHOLE), "");
        let line = got.strip_suffix(b"\n").expect("a line");
        assert!(!line.is_empty() && !line.contains(&b'\n'), "one line");
        raw(line)
    };
    let mut kept = HELP.lock().expect("no test ended here");
    kept.get_or_insert_with(ask).clone()
}

fn agrees(got: &[u8], said: &Said) -> bool {
    match said {
        Ok(line) => raw(got) == *line,
        Err(n) => {
            let start = format!("refused {n}: ");
            got.len() > start.len() && got.starts_with(start.as_bytes())
        }
    }
}

/// Every line has the answer that it has to have, and there is no other.
fn compare(name: &str, script: &[u8], said: &[Said], got: &[u8]) {
    let answers: Vec<&[u8]> = lines(got).collect();
    for (i, (line, said)) in lines(script).zip(said).enumerate() {
        let answer = answers.get(i);
        assert!(
            answer.map_or(false, |answer| agrees(answer, said)),
            "{name}, line {}: {}\nanswer:   {:?}\nexpected: {:?}",
            i + 1,
            text(line),
            answer.map(|answer| text(answer)),
            said.as_ref().map(|line| text(line.as_bytes()))
        );
    }
    assert_eq!(answers.len(), said.len(), "{name}: the count of lines");
    assert!(got.is_empty() || got.ends_with(b"\n"), "{name}: a line end");
}

/// Runs a script in a folder, and answers the tool's lines once they and the files are compared.
fn check(name: &str, folder: &Folder, script: &[u8], way: Way) -> Vec<String> {
    let mut list = List::new(folder.files());
    let said = list.answers(script);
    let got = run(folder, script, way, &list.counts());
    compare(name, script, &said, &got);
    same_files(&folder.files(), &list.files, name);
    lines(&got).map(raw).collect()
}

/// The same for the lines of a short script.
fn check_lines(name: &str, folder: &Folder, script: &[&str]) -> Vec<String> {
    let script = script.join("\n") + "\n";
    check(name, folder, script.as_bytes(), Way::Input(WHOLE))
}

// ── random scripts ──

/// The bytes with others from a place on.
fn with(bytes: &[u8], at: usize, others: &[u8]) -> Vec<u8> {
    let mut bytes = bytes.to_vec();
    bytes[at..at + others.len()].copy_from_slice(others);
    bytes
}

/// How many sets of files there are beforehand.
const SETS: u32 = 6;

/// Files of lists that the script did not make, good and bad.
fn prepare(mix: &mut Mix, folder: &Folder, log: u32) {
    folder.add_folder("folder");
    for i in 0..SETS {
        let s = match i {
            // One bucket, with bits to spare behind it.
            0 => Settings::new(PLAIN, 6 + 2 * mix.below(6), 1, 0),
            _ => settings(mix, log),
        };
        let kinds = [
            Cells::Full,
            Cells::Few,
            Cells::Random(50),
            Cells::Random(97),
        ];
        let kind = one_of(mix, &kinds);
        let table = cells(mix, s, kind);
        let (file, form) = (hold_file(s, &table), packed_form(s, &table));
        folder.put(&format!("{i}.hold"), &file);
        folder.put(&format!("{i}.pack"), &form);
        for (name, whole) in [("hold", &file), ("pack", &form)] {
            let mut bytes = whole.clone();
            damage(mix, &mut bytes);
            folder.put(&format!("bad {i}.{name}"), &bytes);
        }
        let filled = table.iter().filter(|&&cell| cell != 0).count();
        let first = file.len() - s.buckets as usize - 2 * filled;
        let last = form.len() - 1;
        for (name, bytes) in [
            ("head .hold", with(&file, 0, &[file[0] | 0x40])),
            ("early .hold", with(&file, 0, &[file[0] ^ 0x20])),
            ("map .hold", with(&file, first, &[0x1f])),
            ("row .pack", with(&form, 0, &[0xff, 0xff])),
            ("order .pack", with(&vec![0; form.len()], 1, &[0x10])),
            ("end .pack", with(&form, last, &[form[last] | 0x80])),
        ] {
            folder.put(&name.replace('.', &format!("{i}.")), &bytes);
        }
        // Files to convert have names of one word.
        let s = former_settings(mix, log);
        let mut bytes = former_file(s, &cells(mix, s, kind));
        folder.put(&format!("{i}.former"), &bytes);
        damage(mix, &mut bytes);
        folder.put(&format!("{i}.damaged"), &bytes);
    }
}

/// Lines with something wrong.
const BAD: &str = "\
holdx a\n\
hol a\n\
HOLD a\n\
h\n\
\x00\n\
\x0bstats\n\
hold# a\n\
-\n\
settings\n\
settings 0 12 8\n\
settings 0 12 8 0 0 0\n\
settings 0 12 8 0 x\n\
settings 0 12 8 0 0x\n\
settings 0 12 8 0 0X1\n\
settings 0 12 8 0 0x1g\n\
settings 0 12 8 0 1f\n\
settings 0 12 8 0 -1\n\
settings 0 12 8 0 +1\n\
settings 0 12 8 0 18446744073709551616\n\
settings 0 12 8 0 99999999999999999999\n\
settings 0 12 8 0 0x10000000000000000\n\
settings 0 12 x 0 y\n\
settings 3 12 8 0 y\n\
settings 3 12 8 0 0xf\n\
settings 0 12 x 0\n\
settings 0 12 8 0x0\n\
settings a b c\n\
settings a b c d e\n\
settings a b c d e f\n\
settings 4294967296 12 8 0\n\
settings 0 4294967308 8 0\n\
settings 0 12 4294967304 0\n\
settings 0 12 8 18446744073709551616\n\
settings -1 12 8 0\n\
settings 0 12 8 0,\n\
settings 2 12 8 0\n\
settings 2 12 8 7\n\
settings 2 12 2 1\n\
settings 2 12 1 0\n\
settings 2 12 7 6\n\
view\n\
view 0 0\n\
view x\n\
view x y\n\
view +0\n\
view -0\n\
view 0x0\n\
view 0.0\n\
view 4294967296\n\
view 8589934592\n\
view 18446744073709551616\n\
view 340282366920938463463374607431768211456\n\
view 99999999999999999999999999999999999999999999\n\
clear all\n\
length now\n\
length 0\n\
lengths\n\
stats now\n\
help me\n\
hold\n\
release \t\n\
lookup\r\n\
forecast\n\
forecast \t\r\n\
forecasts a\n\
fore a\n\
forecast 0x1\n\
save\n\
load\n\
pack\n\
unpack\n\
load none\n\
unpack folder\n\
save folder\n\
pack none/x\n\
load none/x\n\
save 0.hold/x\n\
unpack 0.hold/x\n\
load folder/none\n\
convert\n\
convert \t\n\
convert 0.former\n\
convert 0.former \r\n\
convertx 0.former x\n\
convert none x\n\
convert folder x\n\
convert none/x x\n\
convert 0.hold/x x\n\
convert bad 0.hold\n\
convert 0.former folder\n\
convert 0.former none/x\n\
convert 0.former 0.hold/x\n\
hold 0x1";

/// The settings but for the salt, as they are typed.
fn four(s: Settings) -> String {
    format!("{} {} {} {}", s.rule, s.width, s.buckets, s.mask)
}

/// Names of the script's own files, but for their ends.
const OWN: [&str; 3] = ["a", "b c", "folder/\u{e4}"];

/// A script as it grows, with what the tool has to say to it.
struct Maker {
    mix: Mix,
    list: List,
    script: Vec<u8>,
    said: Vec<Said>,
    /// How many different tags there are.
    kinds: u64,
    /// Tags that were accepted, as they were typed.
    held: Vec<Vec<u8>>,
    moves: u32,
    /// Forecasts of no move, of some, and of no room.
    forecasts: [u32; 3],
}

impl Maker {
    fn new(mix: Mix, folder: &Folder) -> Self {
        Maker {
            mix,
            list: List::new(folder.files()),
            script: vec![],
            said: vec![],
            kinds: 1,
            held: vec![],
            moves: 0,
            forecasts: [0; 3],
        }
    }

    fn line(&mut self, line: &[u8]) {
        assert!(!line.contains(&b'\n'));
        self.said.push(self.list.answer(line));
        self.script.extend(line);
        self.script.push(b'\n');
        self.moves = self.moves.max(self.list.longest);
    }

    fn blanks(&mut self, least: usize) -> Vec<u8> {
        if self.mix.below(12) != 0 {
            return vec![b' '; least];
        }
        let count = least + self.mix.below(3) as usize;
        (0..count)
            .map(|_| one_of(&mut self.mix, b" \t\r"))
            .collect()
    }

    /// A line of two parts with blanks around them.
    fn say(&mut self, command: &str, rest: &[u8]) {
        let parts = [
            self.blanks(0),
            command.into(),
            self.blanks(1),
            rest.into(),
            self.blanks(0),
        ];
        self.line(&parts.concat());
    }

    /// A salt of 0 is typed or not, any other in decimal or hexadecimal digits.
    fn say_settings(&mut self, s: Settings) {
        let salt = match self.mix.below(4) {
            0 | 1 if s.salt == 0 => String::new(),
            0 => format!(" {}", s.salt),
            1 => format!(" 0x{:x}", s.salt),
            2 => format!(" 0x{:016X}", s.salt),
            _ => format!(" {:032}", s.salt),
        };
        self.say_to("settings", four(s) + &salt);
    }

    fn say_to(&mut self, command: &str, name: String) {
        self.say(command, name.as_bytes());
    }

    fn hex(&mut self, bytes: &[u8]) -> Vec<u8> {
        let mut digits = to_hex(bytes).into_bytes();
        for digit in &mut digits {
            if self.mix.below(2) == 0 {
                digit.make_ascii_uppercase();
            }
        }
        [b"0x", &digits[..]].concat()
    }

    /// Bytes as text where they can be, or in digits.
    fn tag_of(&mut self, bytes: &[u8]) -> Vec<u8> {
        let as_text = !bytes.is_empty()
            && trimmed(bytes).len() == bytes.len()
            && !bytes.contains(&b'\n')
            && !bytes.starts_with(b"0x");
        match as_text && self.mix.below(3) != 0 {
            true => bytes.to_vec(),
            false => self.hex(bytes),
        }
    }

    fn tag(&mut self) -> Vec<u8> {
        let kind = self.mix.below(self.kinds);
        let bytes = match kind % 3 {
            0 => tag(kind),
            1 => format!("call {kind}").into_bytes(),
            _ => kind.to_string().into_bytes(),
        };
        self.tag_of(&bytes)
    }

    /// A tag that is held, as far as anyone knows, or any.
    fn release_tag(&mut self) -> Vec<u8> {
        if self.held.is_empty() || self.mix.below(4) == 0 {
            return self.tag();
        }
        let i = self.mix.below(self.held.len() as u64) as usize;
        self.held.swap_remove(i)
    }

    /// What is no tag, or is one in spite of its looks.
    fn odd_tag(&mut self) -> Vec<u8> {
        let length = one_of(&mut self.mix, &[63, 64, 65, 66, 100, 1_000]);
        let bytes = self.mix.bytes(length);
        let mut digits = self.hex(&bytes);
        match self.mix.below(8) {
            0 => digits,
            1 => vec![b'x'; length],
            2 => {
                digits.pop();
                digits
            }
            3 => {
                let at = 2 + self.mix.below(2 * length as u64) as usize;
                digits[at] = one_of(&mut self.mix, b"gG/:@`- x\x00\xff");
                digits
            }
            _ => {
                let odd: [&[u8]; 11] = [
                    b"0x",
                    b"0x4",
                    b"0xg0",
                    b"0x 41",
                    b"0x41 42",
                    b"0x41,42",
                    b"0X41",
                    b"0",
                    b"x41",
                    b"#",
                    b"a\x00b\x0b",
                ];
                one_of(&mut self.mix, &odd).to_vec()
            }
        }
    }

    fn bucket(&mut self) -> String {
        let mix = &mut self.mix;
        let bucket = match mix.below(8) {
            0 => self.list.settings.buckets,
            1 => one_of(mix, &[65_535, 65_536, 1 << 31, u32::MAX]),
            _ => mix.below(self.list.settings.buckets.into()),
        };
        match mix.below(8) {
            0 => format!("{bucket:032}"),
            _ => bucket.to_string(),
        }
    }

    fn prepared(&mut self) {
        let i = self.mix.below(SETS.into());
        if self.mix.below(2) == 0 {
            let kind = one_of(
                &mut self.mix,
                &["bad", "bad", "bad", "head", "early", "map"],
            );
            return self.say_to("load", format!("{kind} {i}.hold"));
        }
        self.say_to("load", format!("{i}.hold"));
        for _ in 0..2 {
            let kind = one_of(&mut self.mix, &["", "bad ", "row ", "order ", "end "]);
            self.say_to("unpack", format!("{kind}{i}.pack"));
            self.line(b"stats");
        }
    }

    fn bad_line(&mut self) {
        let bad: Vec<&str> = BAD.split('\n').collect();
        let line = one_of(&mut self.mix, &bad);
        self.line(line.as_bytes());
    }

    fn remark(&mut self) {
        let remarks: [&[u8]; 10] = [
            b"",
            b" ",
            b"\t \r",
            b"\r",
            b"#",
            b"# hold a",
            b" \t# clear \r",
            b"#\x00\xff\x80",
            b"\xff\xfe",
            b"help",
        ];
        let line = one_of(&mut self.mix, &remarks);
        self.line(line);
    }

    fn own_file(&mut self) {
        let name = one_of(&mut self.mix, &OWN);
        let command = one_of(&mut self.mix, &["save", "load", "pack", "unpack"]);
        let end = match command {
            "save" | "load" => "hold",
            _ => "pack",
        };
        self.say_to(command, format!("{name}.{end}"));
    }

    /// From a file of a former list, or from another, to a name of any kind.
    fn convert(&mut self) {
        let i = self.mix.below(SETS.into());
        let ends = [
            "former", "former", "former", "damaged", "damaged", "hold", "pack",
        ];
        let from = match self.mix.below(6) {
            0 => one_of(&mut self.mix, &["a.hold", "folder/\u{e4}.hold", "none"]).to_string(),
            _ => format!("{i}.{}", one_of(&mut self.mix, &ends)),
        };
        if self.mix.below(4) == 0 {
            self.say_to("load", from.clone());
        }
        let to = match self.mix.below(8) {
            0 => from.clone(),
            1 => one_of(&mut self.mix, &["folder", "none/x"]).to_string(),
            _ => format!("{}.hold", one_of(&mut self.mix, &OWN)),
        };
        let between = self.blanks(1);
        let names = [from.as_bytes(), &between, to.as_bytes()].concat();
        self.say("convert", &names);
        self.line(b"stats");
        if self.mix.below(2) == 0 {
            self.say_to("load", to);
        }
    }

    fn hold(&mut self, tag: Vec<u8>) {
        self.say("hold", &tag);
        if matches!(self.said.last(), Some(Ok(_))) {
            self.held.push(tag);
        }
    }

    /// Before a hold of the tag, or of another, or of none.
    fn forecast(&mut self) {
        let tag = self.tag();
        self.say("forecast", &tag);
        match self.said.last() {
            Some(Ok(line)) if line == "would be accepted, 0 moves" => self.forecasts[0] += 1,
            Some(Ok(_)) => self.forecasts[1] += 1,
            Some(Err(9)) => self.forecasts[2] += 1,
            _ => {}
        }
        match self.mix.below(4) {
            0 => self.line(b"stats"),
            1 => self.hold(tag),
            _ => {}
        }
    }

    /// How long the file will be, and now and then the file.
    fn length(&mut self) {
        self.say("length", b"");
        if self.mix.below(4) == 0 {
            self.say("save", b"a.hold");
        }
    }

    fn step(&mut self, holds: u32) {
        match self.mix.below(223) {
            n if n < holds => {
                let tag = self.tag();
                self.hold(tag);
            }
            n if n < 140 => {
                let tag = self.release_tag();
                self.say("release", &tag);
            }
            140..=164 => {
                let tag = self.tag();
                self.say("lookup", &tag);
            }
            165..=170 => {
                let bucket = self.bucket();
                self.say_to("view", bucket);
            }
            171..=174 => self.say("stats", b""),
            175..=176 => self.own_file(),
            177..=179 => self.prepared(),
            180..=189 => self.bad_line(),
            190..=193 => self.remark(),
            194..=197 => {
                let commands = ["hold", "release", "lookup", "forecast"];
                let command = one_of(&mut self.mix, &commands);
                let tag = self.odd_tag();
                self.say(command, &tag);
            }
            198 => {
                let s = spoil(&mut self.mix, self.list.settings);
                self.say_settings(s);
            }
            200..=202 => self.convert(),
            203..=218 => self.forecast(),
            219..=222 => self.length(),
            _ if self.mix.below(8) == 0 => self.say("clear", b""),
            _ => self.remark(),
        }
    }

    /// One list, whose load goes up until it is full and down to a half.
    fn part(&mut self, s: Settings, steps: u32) {
        let cells = 4 * s.buckets;
        self.kinds = u64::from(one_of(&mut self.mix, &[cells / 3 + 1, 2 * cells, 1 << 20]));
        self.say_settings(s);
        self.line(b"settings");
        self.held.clear();
        let mut up = true;
        for _ in 0..steps {
            self.step(if up { 125 } else { 30 });
            if self.said.last() == Some(&Err(9)) && self.mix.below(4) == 0 {
                up = false;
            }
            up |= 2 * self.list.entries() < self.list.table.len();
        }
    }
}

#[test]
fn random_scripts() {
    let name = "random scripts";
    let mut refused = [0; 25];
    let (mut count, mut moves, mut converted) = (0, 0, 0);
    let mut forecasts = [0; 3];
    for round in 0..8 * long() {
        let name = format!("{name} {round}");
        let mut mix = mix(&name);
        let folder = Folder::new(&name);
        let log = if round % 2 == 0 { 4 } else { 9 };
        prepare(&mut mix, &folder, log);
        let mut maker = Maker::new(mix, &folder);
        for i in 0..9 {
            let mut s = settings(&mut maker.mix, log);
            while s.rule != i % 3 {
                s = settings(&mut maker.mix, log);
            }
            maker.part(s, 500);
        }
        let end = maker.list.counts();
        let got = run(&folder, &maker.script, Way::Input(WHOLE), &end);
        compare(&name, &maker.script, &maker.said, &got);
        same_files(&folder.files(), &maker.list.files, &name);
        for n in maker.said.iter().filter_map(|said| said.as_ref().err()) {
            refused[*n as usize] += 1;
        }
        count += maker.said.len();
        moves = moves.max(maker.moves);
        let good = |said: &&Said| matches!(said, Ok(line) if line.starts_with("converted, "));
        converted += maker.said.iter().filter(good).count();
        for (all, some) in forecasts.iter_mut().zip(maker.forecasts) {
            *all += some;
        }
    }
    tell(
        name,
        &format!(
            ": {count} lines; refused {refused:?}; most moves {moves}; {converted} converted; \
             forecasts {forecasts:?}"
        ),
    );
    for n in [1, 2, 3, 4, 7, 8, 9, 11, 12, 13, 14, 15, 18, 19, 20, 23, 24] {
        assert!(refused[n] > 0, "no line was refused with {n}");
    }
    assert!(moves > 2, "no hold had more than {moves} moves");
    assert!(converted > 20, "{converted} files were converted");
    assert!(forecasts.iter().all(|&n| n > 20), "{forecasts:?}");
}

/// The same script by each way to hand it over.
#[test]
fn every_way() {
    let name = "every way";
    let ways = [
        Way::Argument,
        Way::Input(WHOLE),
        Way::Input(&[1]),
        Way::Input(&[7]),
        Way::Input(&[1_000]),
        Way::Input(&[65_536, 1, 65_535, 3, 4_097]),
    ];
    let mut mix = mix(name);
    let start = mix.draw();
    let folder = Folder::new(name);
    prepare(&mut Mix(start), &folder, 6);
    let mut maker = Maker::new(mix, &folder);
    for (rule, mask) in [(PLAIN, 0), (RING, 0), (MASKED, 6)] {
        let s = Settings::new(rule, 9, 16, mask);
        maker.part(s.with_salt(u64::from(rule)), 900);
    }
    // A line that is too long among the others.
    maker.line(&[b'#'; LINE + 10]);
    maker.line(b"hold last");
    maker.line(b"stats");
    let whole = maker.script;
    let with_returns: Vec<u8> = whole
        .split_inclusive(|&b| b == b'\n')
        .flat_map(|line| [&line[..line.len() - 1], b"\r\n"].concat())
        .collect();
    let mut first = None;
    for (end, script) in [
        ("line ends", &whole[..]),
        ("no last line end", &whole[..whole.len() - 1]),
        ("carriage returns", &with_returns[..]),
        (
            "carriage returns, no last line end",
            &with_returns[..with_returns.len() - 2],
        ),
    ] {
        for way in ways {
            let name = format!("{name}, {end}, {way:?}");
            // The files as they were.
            let folder = Folder::new("every way again");
            prepare(&mut Mix(start), &folder, 6);
            let answers = check(&name, &folder, script, way);
            // A remark comes back with its carriage return, and nothing else tells the two apart.
            let plain: Vec<String> = answers
                .into_iter()
                .map(|line| line.trim_end_matches('\r').to_string())
                .collect();
            let first = first.get_or_insert_with(|| plain.clone());
            assert_eq!(plain.len(), first.len(), "{name}");
            for (i, (a, b)) in plain.iter().zip(first.iter()).enumerate() {
                assert_eq!(a, b, "{name}, line {}", i + 1);
            }
        }
    }
}

/// An answer does not wait for the next line.
#[test]
fn answers_come_at_once() {
    let folder = Folder::new("at once");
    let mut child = command(&folder)
        .stdin(Stdio::piped())
        .stdout(Stdio::piped())
        .spawn()
        .expect("the tool starts");
    let mut to = child.stdin.take().expect("a pipe");
    let from = BufReader::new(child.stdout.take().expect("a pipe"));
    let (send, answers) = mpsc::channel();
    let reader = thread::spawn(move || {
        for line in from.lines() {
            let _ = send.send(line.expect("a line"));
        }
    });
    let next = || answers.recv_timeout(Duration::from_secs(20));
    to.write_all(b"hold a\n").expect("a pipe");
    assert_eq!(next().as_deref(), Ok("accepted, 0 moves"));
    to.write_all(b"loo").expect("a pipe");
    assert!(answers.recv_timeout(Duration::from_millis(50)).is_err());
    to.write_all(b"kup a\n\nlookup ").expect("a pipe");
    assert_eq!(next().as_deref(), Ok("held, 1 order"));
    assert_eq!(next().as_deref(), Ok(""));
    to.write_all(b"b").expect("a pipe");
    drop(to);
    assert_eq!(next().as_deref(), Ok("clear"));
    assert!(next().is_err());
    assert!(child.wait().expect("the tool ends").success());
    reader.join().expect("the reader ends");
}

// ── answers that are known ──

#[test]
fn known_answers() {
    let folder = Folder::new("known answers");
    let pairs = [
        (
            "stats",
            "entries 0, buckets 4096, load 0.0 %, longest relocation 0",
        ),
        // "a" hashes to af63dc4c8601ec8c, and 1 + 0x86 + 0x01e + 0xc8c is 3377.
        ("hold a", "accepted, 0 moves"),
        ("view 3148", "bucket 3148: 3377 0 0 0"),
        ("lookup 0x61", "held, 1 order"),
        ("save f", "saved, 4099 bytes"),
        ("pack p", "packed, 22528 bytes"),
        ("settings 0 4 1 0", "cleared"),
        ("lookup a", "clear"),
        ("hold a", "accepted, 0 moves"),
        ("hold a", "accepted, 0 moves"),
        ("view 0", "bucket 0: 2 2 0 0"),
        ("lookup a", "held, 2 orders"),
        (
            "stats",
            "entries 2, buckets 1, load 50.0 %, longest relocation 0",
        ),
        ("release a", "released"),
        ("lookup a", "held, 1 order"),
        ("release a", "released"),
        ("lookup a", "clear"),
        ("release a", "absent"),
        (
            "load f",
            "loaded, 1 entry, rule 0, width 12, buckets 4096, mask 0, salt 0",
        ),
        ("lookup a", "held, 1 order"),
        ("clear", "cleared"),
        ("unpack p", "unpacked, 1 entry"),
        ("view 3148", "bucket 3148: 0 0 0 3377"),
        ("  # as it is\t", "  # as it is\t"),
        ("\t", "\t"),
        ("settings 1 16 6 0", "cleared"),
        ("hold a b", "accepted, 0 moves"),
        ("lookup 0x612062", "held, 1 order"),
        ("lookup a  b", "clear"),
        (
            "stats",
            "entries 1, buckets 6, load 4.1 %, longest relocation 0",
        ),
        (
            "hold 0x6",
            "line 31: what stands after 0x is not pairs of hexadecimal digits",
        ),
        (
            "holds a",
            "line 32: there is no such command; help names them",
        ),
        (
            "hold",
            "line 33: a tag is missing after the command: text, or hexadecimal digits after 0x",
        ),
        ("stats 1", "line 34: the command stands alone"),
        (
            "view a",
            "line 35: the bucket is not a number in decimal digits below 4294967296",
        ),
        (
            "save g/h",
            "line 36: cannot write g/h: there is no such file or folder",
        ),
        (
            "load g",
            "line 37: cannot read g: there is no such file or folder",
        ),
        ("settings", "rule 1, width 16, buckets 6, mask 0, salt 0"),
        (
            "settings 0 12 0x8 0",
            "line 39: the bucket count is not a number in decimal digits below 4294967296",
        ),
        (
            "load",
            "line 40: the name of a file is missing after the command",
        ),
        ("view 1 2", "line 41: view takes one number and no more"),
        ("view", "line 42: view takes the number of a bucket"),
        (
            "settings 0 12 8",
            "line 43: settings takes four numbers, RULE WIDTH BUCKETS MASK, and a salt if one is wanted, or none to tell the present ones",
        ),
        (
            "settings 0 12 8 0 0 0",
            "line 44: settings takes four numbers and a salt, and no more: RULE WIDTH BUCKETS MASK [SALT]",
        ),
    ];
    let script: Vec<&str> = pairs.iter().map(|pair| pair.0).collect();
    let answers = check_lines("known answers", &folder, &script);
    for ((line, expected), answer) in pairs.iter().zip(&answers) {
        assert_eq!(answer, expected, "{line}");
    }
    assert_eq!(folder.names(), ["f", "p"]);
}

/// "a" hashes to af63dd4c8601ee3f under the salt 1, and to 2c8344b001608c91 under 0x0123456789abcdef.
#[test]
fn known_salts() {
    let folder = Folder::new("known salts");
    let salt = "line 21: the salt is not a number below 18446744073709551616, in decimal or hexadecimal digits after 0x";
    let pairs = [
        ("settings", "rule 0, width 12, buckets 4096, mask 0, salt 0"),
        ("settings 0 12 4096 0 1", "cleared"),
        ("settings", "rule 0, width 12, buckets 4096, mask 0, salt 1"),
        ("hold a", "accepted, 0 moves"),
        ("view 3404", "bucket 3404: 3812 0 0 0"),
        ("save f", "saved, 4107 bytes"),
        ("pack p", "packed, 22528 bytes"),
        // The same cells with no salt.
        ("settings 0 12 4096 0", "cleared"),
        ("settings", "rule 0, width 12, buckets 4096, mask 0, salt 0"),
        ("unpack p", "unpacked, 1 entry"),
        ("lookup a", "clear"),
        ("lookup 0x60", "held, 1 order"),
        (
            "load f",
            "loaded, 1 entry, rule 0, width 12, buckets 4096, mask 0, salt 1",
        ),
        ("lookup a", "held, 1 order"),
        ("settings 0 12 4096 0 0x0123456789abcDEF", "cleared"),
        (
            "settings",
            "rule 0, width 12, buckets 4096, mask 0, salt 81985529216486895",
        ),
        ("hold a", "accepted, 0 moves"),
        ("view 1200", "bucket 1200: 668 0 0 0"),
        // A list that is cleared keeps its salt.
        ("clear", "cleared"),
        (
            "settings",
            "rule 0, width 12, buckets 4096, mask 0, salt 81985529216486895",
        ),
        ("settings 0 12 4096 0 18446744073709551616", salt),
        ("settings 0 4 1 0 18446744073709551615", "cleared"),
        (
            "settings",
            "rule 0, width 4, buckets 1, mask 0, salt 18446744073709551615",
        ),
        ("save g", "saved, 13 bytes"),
        ("settings 0 4 1 0 0x00000000000000000001", "cleared"),
        (
            "load g",
            "loaded, 0 entries, rule 0, width 4, buckets 1, mask 0, salt 18446744073709551615",
        ),
    ];
    let script: Vec<&str> = pairs.iter().map(|pair| pair.0).collect();
    let answers = check_lines("known salts", &folder, &script);
    for ((line, expected), answer) in pairs.iter().zip(&answers) {
        assert_eq!(answer, expected, "{line}");
    }
    let file = folder.get("f");
    assert_eq!(file[..9], [0x30, 1, 0, 0, 0, 0, 0, 0, 0]);
    let mut all = [0xff; 13];
    all[..4].copy_from_slice(&[0x36, 4, 0, 0]);
    all[12] = 0;
    assert_eq!(folder.get("g"), all);
}

/// Salts at the limit and beyond, with zeros before them and digits of both cases.
#[test]
fn typed_salts() {
    let folder = Folder::new("typed salts");
    let max = u64::MAX;
    let mut good = vec![];
    for salt in [0, 1, 9, 10, 15, 16, 2_027, 1 << 32, 1 << 63, max - 1, max] {
        good.extend([
            (salt.to_string(), salt),
            (format!("{salt:040}"), salt),
            (format!("0x{salt:x}"), salt),
            (format!("0x{salt:X}"), salt),
            (format!("0x{salt:040x}"), salt),
        ]);
    }
    let bad = [
        "0x",
        "0X1",
        "x1",
        "1x",
        "0x0x1",
        "1f",
        "f",
        "0xg",
        "0x1_0",
        "-1",
        "+1",
        "1.0",
        "1,",
        "18446744073709551616",
        "18446744073709551625",
        "184467440737095516150",
        "0x10000000000000000",
        "0xfffffffffffffffff",
        "0x1ffffffffffffffff",
    ];
    let mut script = vec![];
    for (typed, _) in &good {
        script.extend([format!("settings 1 12 6 0 {typed}"), "settings".into()]);
    }
    for typed in bad {
        script.extend([format!("settings 1 12 6 0 {typed}"), "settings".into()]);
    }
    let lines: Vec<&str> = script.iter().map(String::as_str).collect();
    let answers = check_lines("typed salts", &folder, &lines);
    let told = |salt: u64| format!("rule 1, width 12, buckets 6, mask 0, salt {salt}");
    let pairs: Vec<&[String]> = answers.chunks(2).collect();
    for ((typed, salt), pair) in good.iter().zip(&pairs) {
        assert_eq!(*pair, ["cleared".to_string(), told(*salt)], "{typed}");
    }
    // What is refused leaves the last one.
    for (i, (typed, pair)) in bad.iter().zip(&pairs[good.len()..]).enumerate() {
        let line = 2 * (good.len() + i) + 1;
        assert_eq!(
            *pair,
            [format!("line {line}: {NO_SALT}"), told(max)],
            "{typed}"
        );
    }
}

/// One move and more, and the longest of them, which some commands forget.
#[test]
fn moves() {
    let name = "moves";
    let mut mix = mix(name);
    let folder = Folder::new(name);
    let mut maker = Maker::new(Mix(mix.draw()), &folder);
    maker.line(b"settings 0 8 64 0");
    let mut seen = [0; 3];
    while maker.list.entries() < 250 {
        let tag = mix.draw().to_string();
        maker.say_to("hold", tag);
        match maker.said.last() {
            Some(Ok(line)) if line == "accepted, 0 moves" => seen[0] += 1,
            Some(Ok(line)) if line == "accepted, 1 move" => seen[1] += 1,
            Some(Ok(_)) => seen[2] += 1,
            _ => {}
        }
        assert!(maker.said.len() < 5_000, "the list does not fill up");
    }
    assert!(seen.iter().all(|&n| n > 0), "{seen:?}");
    // What is refused forgets nothing, and what is taken does.
    for line in [
        "stats",
        "save f",
        "pack p",
        "settings 0 8 63 0",
        "load none",
        "load p",
        "unpack f",
        "hold 0x",
        "view 64",
        "stats",
        "load f",
        "stats",
    ] {
        maker.line(line.as_bytes());
    }
    assert!(maker.moves > 1 && maker.list.longest == 0);
    for line in ["unpack p", "clear", "settings 0 8 64 0"] {
        maker.line(b"load f");
        while maker.list.longest == 0 {
            let tag = mix.draw().to_string();
            maker.say_to("hold", tag);
            // Now and then one of those in the list.
            let other = mix.draw().to_string();
            maker.say_to("release", other);
            assert!(maker.said.len() < 50_000, "no hold needs a move");
        }
        maker.line(b"stats");
        maker.line(line.as_bytes());
        maker.line(b"stats");
        assert_eq!(maker.list.longest, 0, "{line}");
    }
    let got = run(
        &folder,
        &maker.script,
        Way::Input(WHOLE),
        &maker.list.counts(),
    );
    compare(name, &maker.script, &maker.said, &got);
}

/// The day at the yard by which the tool is shown, with its stored answers.
#[test]
fn day_at_the_yard() {
    let folder = Folder::new("day");
    let earlier = include_bytes!("../../../crates/gedrunelj/data/earlier.hold");
    folder.put("earlier.hold", earlier);
    let masked = include_bytes!("../../../crates/gedrunelj/data/masked.hold");
    folder.put("masked.hold", masked);
    let script = include_bytes!("../../../crates/gedrunelj/data/day.txt");
    let answers = check("day at the yard", &folder, script, Way::Argument);
    let stored = include_str!("../../../crates/gedrunelj/stdout");
    assert!(answers.iter().eq(stored.lines()));
}

/// Every number that a line can be refused with has a meaning of its own.
#[test]
fn meanings() {
    let folder = Folder::new("meanings");
    let file = hold_file(Settings::new(PLAIN, 4, 1, 0), &[0, 9, 0, 3]);
    folder.put("sound", &file);
    folder.put("short", &file[..8]);
    folder.put("head", &with(&file, 0, &[0x66]));
    folder.put("early", &with(&file, 0, &[0x06]));
    folder.put("map", &with(&file, 4, &[0x1a]));
    folder.put("print", &with(&file, 5, &[0]));
    folder.put("more", &[&file[..], &[0]].concat());
    folder.put("row", &[0xff, 0x0f, 0]);
    folder.put("order", &[0, 0x10, 0]);
    folder.put("end", &[0, 0, 0x10]);
    let refusals = [
        ("settings 3 12 8 0", 1),
        ("settings 0 3 8 0", 2),
        ("settings 0 12 3 0", 3),
        ("settings 0 12 8 1", 4),
        ("hold 0x", 7),
        ("view 4096", 8),
        ("hold a", 9),
        ("load short", 11),
        ("load head", 12),
        ("load map", 13),
        ("load print", 14),
        ("load more", 15),
        ("unpack row", 18),
        ("unpack order", 19),
        ("unpack end", 20),
        ("load early", 23),
        ("convert sound f", 24),
    ];
    let mut script = vec!["settings 0 6 1 0"];
    script.extend(["hold a"; 4]);
    script.extend(refusals.iter().map(|refusal| refusal.0));
    let answers = check_lines("meanings", &folder, &script);
    let mut meanings: Vec<&str> = vec![];
    for ((line, n), answer) in refusals.iter().zip(&answers[5..]) {
        let start = format!("refused {n}: ");
        let meaning = answer.strip_prefix(&start);
        let meaning = meaning.unwrap_or_else(|| panic!("{line}: {answer}"));
        assert!(meaning.len() > 10, "{line}: {answer}");
        assert!(!meanings.contains(&meaning), "{line}: {answer}");
        meanings.push(meaning);
    }
}

#[test]
fn help_names_every_command() {
    let folder = Folder::new("help");
    let answers = check_lines("help", &folder, &["help", " help\t"]);
    assert_eq!(answers[0], answers[1]);
    for command in [
        "settings", "hold", "release", "lookup", "forecast", "view", "clear", "save", "load",
        "pack", "unpack", "convert", "length", "stats", "help",
    ] {
        let named = |word: &str| word.trim_matches(&[',', ';'][..]) == command;
        assert!(answers[0].split(' ').any(named), "{command}");
    }
    assert!(answers[0].contains(", lookup TAG, forecast TAG, view BUCKET, "));
    assert!(answers[0].contains(", unpack FILE, convert FROM TO, length, stats, help; "));
}

// ── the largest lists ──

#[test]
fn largest_lists() {
    let name = "largest lists";
    let mut mix = mix(name);
    let salt = some_salt(&mut mix);
    for (s, holds) in [
        (Settings::new(PLAIN, 16, 65_536, 0), 200_000),
        (Settings::new(RING, 16, 65_536, 0).with_salt(salt), 200_000),
        (Settings::new(MASKED, 16, 65_536, 0x0ff0), 250_000),
    ] {
        let folder = Folder::new(&format!("{name} {}", s.rule));
        let mut script = format!("settings {} {}\n", four(s), s.salt);
        for _ in 0..holds {
            match mix.below(2) {
                0 => script += &format!("hold {}\n", mix.draw()),
                _ => script += &format!("hold 0x{:016x}\n", mix.draw()),
            }
        }
        script += "length\nstats\nsave f\npack p\nload f\nstats\nview 65535\nsave g\n";
        script += "clear\nunpack p\nstats\nview 65535\nsave h\npack q\n";
        let answers = check(name, &folder, script.as_bytes(), Way::Argument);
        let accepted = answers.iter().filter(|line| line.starts_with("accepted"));
        assert_eq!(accepted.count(), holds);
        let stats: Vec<&String> = answers
            .iter()
            .filter(|line| line.starts_with("entries"))
            .collect();
        let load = 1_000 * holds / 262_144;
        let start = format!(
            "entries {holds}, buckets 65536, load {}.{} %, longest relocation ",
            load / 10,
            load % 10
        );
        assert!(stats.iter().all(|line| line.starts_with(&start)));
        assert!(!stats[0].ends_with(" 0"), "{}", stats[0]);
        assert!(stats[1].ends_with(" 0") && stats[2].ends_with(" 0"));
        assert_eq!(folder.get("f"), folder.get("g"));
        assert_eq!(folder.get("p"), folder.get("q"));
        assert_eq!(folder.get("p").len(), 491_520);
        tell(name, &format!(", rule {}: {}", s.rule, stats[0]));
    }
}

/// Files that are as long as any can be, and longer.
#[test]
fn fullest_files() {
    let name = "fullest files";
    let mut mix = mix(name);
    let folder = Folder::new(name);
    let s = Settings::new(MASKED, 16, 65_536, 0x5a5a).with_salt(u64::MAX);
    let table = cells(&mut mix, s, Cells::Full);
    let file = hold_file(s, &table);
    assert_eq!(file.len(), 589_839);
    folder.put("full", &file);
    for (name, more) in [("one more", 1), ("two more", 2), ("far more", 1_000_000)] {
        let more = mix.bytes(more);
        folder.put(name, &[&file[..], &more].concat());
    }
    folder.put("one less", &file[..589_838]);
    folder.put("packed", &packed_form(s, &table));
    folder.put("zeros", &vec![0; 2_000_000]);
    // An empty list of the default settings, and zeros behind it.
    folder.put("empty", &with(&vec![0; 2_000_000], 0, &[0x20]));
    let answers = check_lines(
        name,
        &folder,
        &[
            "load full",
            "stats",
            "hold a",
            "forecast a",
            "length",
            "view 65535",
            "view 65536",
            "save again",
            "pack packed again",
            "load one more",
            "load two more",
            "load far more",
            "load one less",
            "load empty",
            "unpack full",
            "unpack zeros",
            "stats",
            "unpack packed",
            "stats",
            "save sorted",
            "settings 0 4 65536 0",
            "unpack packed",
            "load sorted",
            "hold a",
        ],
    );
    assert_eq!(
        answers[0],
        "loaded, 262144 entries, rule 2, width 16, buckets 65536, mask 23130, salt 18446744073709551615"
    );
    let stats = "entries 262144, buckets 65536, load 100.0 %, longest relocation 0";
    assert_eq!([&answers[1], &answers[16], &answers[18]], [stats; 3]);
    assert!(answers[2].starts_with("refused 9: "));
    assert_eq!(answers[3], answers[2]);
    assert_eq!(answers[4], "589839 bytes");
    assert_eq!(answers[7], "saved, 589839 bytes");
    assert!(folder.get("again") == file);
    for answer in &answers[9..=11] {
        assert!(answer.starts_with("refused 15: "), "{answer}");
    }
}

// ── files ──

#[test]
fn files_that_cannot_be_had() {
    let folder = Folder::new("no files");
    folder.add_folder("folder");
    folder.add_folder("folder/filled");
    folder.put("folder/filled/f", b"here before");
    folder.put("empty", b"");
    folder.put("former", &FORMER);
    let mut script = vec!["settings 0 12 8 0", "hold a", "stats"];
    for line in [
        "save folder",
        "pack folder",
        "save folder/filled",
        "save none/f",
        "pack none/f",
        "save empty/f",
        "load none",
        "unpack none",
        "load folder",
        "unpack folder",
        "load none/f",
        "load empty/f",
        "load empty",
        "unpack empty",
        "convert none f",
        "convert folder f",
        "convert none/f f",
        "convert empty/f f",
        "convert empty f",
        "convert former folder",
        "convert former folder/filled",
        "convert former none/f",
        "convert former empty/f",
        "convert folder folder",
        "convert empty folder",
    ] {
        script.extend([line, "stats", "lookup a"]);
    }
    // What is in memory may be written again once something was read.
    script.extend(["save folder/f", "clear", "hold a"]);
    script.extend(["save folder/f", "load folder/f", "lookup a"]);
    let answers = check_lines("no files", &folder, &script);
    let stats = "entries 1, buckets 8, load 3.1 %, longest relocation 0";
    assert_eq!(answers.iter().filter(|&line| line == stats).count(), 26);
    assert_eq!(answers[3], "line 4: cannot write folder: it is a folder");
    assert_eq!(
        answers[21],
        "line 22: cannot read none: there is no such file or folder"
    );
    assert_eq!(answers[27], "line 28: cannot read folder: it is a folder");
    assert_eq!(
        answers[45],
        "line 46: cannot read none: there is no such file or folder"
    );
    assert_eq!(answers[60], "line 61: cannot write folder: it is a folder");
    // What is read comes before what is written.
    assert_eq!(answers[72], "line 73: cannot read folder: it is a folder");
    assert!(answers[75].starts_with("refused 11: "), "{}", answers[75]);
    let names = [
        "empty",
        "folder",
        "folder/f",
        "folder/filled",
        "folder/filled/f",
        "former",
    ];
    assert_eq!(folder.names(), names);
}

/// Names that no file can have.
#[test]
fn names_that_cannot_be() {
    let folder = Folder::new("no names");
    let long = "n".repeat(300);
    let longer = "n".repeat(5_000);
    // The unfinished file's name is five bytes longer.
    let (fits, too_long) = ("m".repeat(250), "m".repeat(251));
    folder.put(&too_long, b"here before");
    folder.put("former", &FORMER);
    let mut script = vec![];
    let names = ["a\0b", &long, &longer];
    for command in ["save", "pack", "convert former"] {
        script.extend(names.map(|name| format!("{command} {name}")));
    }
    script.push(format!("save {too_long}"));
    script.push(format!("convert former {too_long}"));
    script.push(format!("save {fits}"));
    for command in ["load", "unpack"] {
        script.extend(names.map(|name| format!("{command} {name}")));
    }
    script.extend(names.map(|name| format!("convert {name} {too_long}")));
    script.push(format!("load {fits}"));
    script.push(format!("convert former {fits}"));
    let whole = script.join("\n");
    let got = run(&folder, whole.as_bytes(), Way::Input(WHOLE), &counts(0, 20));
    let got = String::from_utf8(got).expect("text");
    let answers: Vec<&str> = got.lines().collect();
    assert_eq!(answers.len(), script.len());
    for (i, (line, answer)) in script.iter().zip(&answers).enumerate() {
        let words: Vec<&str> = line.split(' ').collect();
        let (what, name) = match words[..] {
            ["save" | "pack", name] => ("write", name),
            ["convert", "former", name] => ("write", name),
            _ => ("read", words[1]),
        };
        let reason = match name {
            "a\0b" => "the name is not one of a file",
            _ => "the name is too long",
        };
        let expected = format!("line {}: cannot {what} {name}: {reason}", i + 1);
        assert!(name == fits || *answer == expected, "{answer}");
    }
    assert_eq!(answers[11], "saved, 4097 bytes");
    assert!(answers[21].starts_with("loaded, 0 entries, "));
    assert_eq!(answers[22], "converted, 9 bytes");
    assert_eq!(folder.names(), ["former", &fits[..], &too_long]);
    assert_eq!(folder.get(&too_long), b"here before");
}

#[test]
fn read_only_folder() {
    let folder = Folder::new("read only");
    folder.add_folder("shut");
    folder.put("shut/f", b"here before");
    folder.put("hidden", b"here before");
    folder.put("former", &FORMER);
    let mode = |name: &str, mode: u32| {
        fs::set_permissions(folder.path(name), fs::Permissions::from_mode(mode)).expect("a mode")
    };
    mode("shut", 0o555);
    mode("hidden", 0o000);
    let bound = fs::write(folder.path("shut/try"), b"").is_err();
    let script = b"save shut/f\npack shut/g\nload hidden\nstats\n\
                   convert former shut/f\nconvert hidden f\nconvert former shut/g\n";
    let got = talk(&mut command(&folder), script, WHOLE);
    mode("shut", 0o755);
    mode("hidden", 0o644);
    if !bound {
        tell(
            "read-only folder",
            ": skipped, permissions do not bind here",
        );
        return;
    }
    let expected = "line 1: cannot write shut/f: permission denied\n\
                    line 2: cannot write shut/g: permission denied\n\
                    line 3: cannot read hidden: permission denied\n\
                    entries 0, buckets 4096, load 0.0 %, longest relocation 0\n\
                    line 5: cannot write shut/f: permission denied\n\
                    line 6: cannot read hidden: permission denied\n\
                    line 7: cannot write shut/g: permission denied\n";
    assert_eq!(String::from_utf8_lossy(&got.stdout), expected);
    assert_eq!(String::from_utf8_lossy(&got.stderr), counts(0, 6));
    assert_eq!(folder.names(), ["former", "hidden", "shut", "shut/f"]);
    assert_eq!(folder.get("shut/f"), b"here before");
}

#[test]
fn files_of_other_lists() {
    let name = "files of other lists";
    let mut mix = mix(name);
    let folder = Folder::new(name);
    let all = [
        Settings::new(PLAIN, 12, 8, 0),
        Settings::new(PLAIN, 12, 16, 0),
        Settings::new(PLAIN, 12, 4_096, 0),
        Settings::new(RING, 12, 8, 0),
        Settings::new(RING, 4, 6, 0),
        Settings::new(MASKED, 12, 8, 3),
        // Forms that are as long as others, of other widths.
        Settings::new(PLAIN, 5, 8, 0),
        Settings::new(MASKED, 9, 4, 2),
        Settings::new(PLAIN, 16, 1, 0),
        // The first one again, with a salt.
        Settings::new(PLAIN, 12, 8, 0).with_salt(2_027),
    ];
    for (i, &s) in all.iter().enumerate() {
        let table = cells(&mut mix, s, Cells::Random(60));
        folder.put(&format!("{i}.hold"), &hold_file(s, &table));
        folder.put(&format!("{i}.pack"), &packed_form(s, &table));
    }
    let mut script = String::new();
    for i in 0..all.len() {
        for j in 0..all.len() {
            script += &format!("load {i}.hold\nhold a\nstats\nunpack {j}.pack\nstats\nlookup a\n");
            script += &format!("view 0\nunpack {j}.hold\nload {j}.pack\nstats\nview 1\nsave s\n");
        }
    }
    let answers = check(name, &folder, script.as_bytes(), Way::Input(WHOLE));
    // With the first list's settings: more bytes, fewer, and as many with another rule.
    let count = |start: &str| {
        let unpacks = answers.chunks(12).map(|group| &group[3]);
        unpacks.filter(|line| line.starts_with(start)).count()
    };
    assert!(count("refused 15: ") > 9 && count("refused 11: ") > 9);
    assert!(count("unpacked, ") > all.len());
    assert!(answers[0].starts_with("loaded, "));
    assert!(answers[0].ends_with(" entries, rule 0, width 12, buckets 8, mask 0, salt 0"));
    assert!(answers[12 * 3 + 3].starts_with("unpacked, "));
    assert!(answers[12 * 5 + 3].starts_with("unpacked, "));
}

/// Lines that show all that is known of a list.
fn look(buckets: u32) -> String {
    let views: String = (0..buckets).map(|i| format!("view {i}\n")).collect();
    format!("stats\n{views}")
}

/// A file that is refused leaves the list and what is known of it alone, and the list is not written until there is another.
#[test]
fn damaged_files() {
    let name = "damaged files";
    let mut mix = mix(name);
    let folder = Folder::new(name);
    let s = Settings::new(RING, 11, 10, 0);
    let mut script = format!("settings {}\n", four(s));
    for i in 0..36 {
        script += &format!("hold {i}\n");
    }
    script += &look(10);
    script += "save before.hold\npack before.pack\n";
    let table = cells(&mut mix, s, Cells::Random(70));
    let mut bad = vec![];
    for (end, whole) in [
        ("hold", hold_file(s, &table)),
        ("pack", packed_form(s, &table)),
    ] {
        let mut put = |kind: &str, bytes: &[u8]| {
            let file = format!("{kind}.{end}");
            folder.put(&file, bytes);
            bad.push(file);
        };
        put("empty", b"");
        put("first", &whole[..1]);
        put("half", &whole[..whole.len() / 2]);
        put("short", &whole[..whole.len() - 1]);
        put("more", &[&whole[..], &[0]].concat());
        put("twice", &[&whole[..], &whole].concat());
        put("wrong", &with(&whole, 0, &[0xff, 0xff]));
        // As good as any until its last bucket, which is five bytes of a packed form.
        let at = whole.len() - 5;
        let late = match end {
            "hold" => with(&whole, at + 4, &[0xff]),
            _ => with(&whole, at, &[0xff, 0xff]),
        };
        put("late", &late);
    }
    for file in &bad {
        let command = if file.ends_with("hold") {
            "load"
        } else {
            "unpack"
        };
        script += &format!("{command} {file}\n{}", look(10));
        script += "save after.hold\npack after.pack\n";
    }
    let answers = check(name, &folder, script.as_bytes(), Way::Input(WHOLE));
    let shown = &answers[37..37 + 11];
    assert!(
        !shown[0].ends_with(" 0"),
        "no hold had a move: {}",
        shown[0]
    );
    let groups: Vec<&[String]> = answers[37 + 13..].chunks(14).collect();
    assert_eq!(groups.len(), bad.len());
    let mut taken = 0;
    for (group, file) in groups.iter().zip(&bad) {
        if group[0].starts_with("refused ") {
            assert_eq!(group[1..12], *shown, "{file}");
            for answer in &group[12..] {
                assert!(answer.ends_with(NOT_THE_LIST), "{file}: {answer}");
            }
        } else {
            taken += 1;
        }
    }
    assert_eq!(taken, 0, "every file is to be refused");
    for end in ["hold", "pack"] {
        assert!(!folder.path(&format!("after.{end}")).exists(), "{end}");
    }
}

#[test]
fn saved_over() {
    let name = "saved over";
    let mut mix = mix(name);
    let folder = Folder::new(name);
    folder.put("f", &mix.bytes(600_000));
    folder.put("g", b"");
    folder.put("h", &FORMER);
    let answers = check_lines(
        name,
        &folder,
        &[
            "save f",
            "save g",
            "settings 2 7 4 1",
            "hold a",
            "pack f",
            "save g",
            "settings 1 16 65536 0",
            "hold a",
            "save f",
            "pack g",
            "load f",
            "unpack g",
            "settings 0 4 1 0",
            "hold a",
            "save f",
            "save f",
            "pack g",
            "convert h i",
            "save i",
            "convert h i",
            "convert h h",
        ],
    );
    assert_eq!(answers[14], "saved, 7 bytes");
    assert_eq!(folder.get("f"), [0x26, 4, 0, 0, 1, 2, 0]);
    assert_eq!(folder.get("g").len(), 2);
    assert_eq!([folder.get("h"), folder.get("i")], [CONVERTED; 2]);
    assert_eq!(folder.names(), ["f", "g", "h", "i"]);
}

#[test]
fn unfinished_files() {
    let folder = Folder::new("unfinished files");
    folder.put("f", b"here before");
    folder.put("f.tmp0", b"in the way");
    folder.put("f.tmp2", b"not in the way");
    folder.put("none.tmp0", b"in the way");
    folder.put("former", &FORMER);
    folder.put("former.tmp0", b"in the way");
    for digit in 0..10 {
        folder.put(&format!("ten.tmp{digit}"), b"in the way");
        folder.put(&format!("nine.tmp{digit}"), b"in the way");
    }
    folder.put("ten", b"here before");
    fs::remove_file(folder.path("nine.tmp9")).expect("a file");
    folder.add_folder("folder");
    folder.add_folder("folder.tmp0");
    // A link that leads nowhere is in the way too.
    let link = folder.path("link.tmp0");
    symlink("elsewhere", &link).expect("a link");
    let script = b"settings 0 12 8 0\nhold a\nsave f\npack none\nsave ten\npack ten\nstats\n\
                   save nine\nsave folder\nsave link\nload f\n\
                   convert former ten\nconvert former former\n";
    let got = run(&folder, script, Way::Input(WHOLE), &counts(0, 4));
    let expected = "cleared\naccepted, 0 moves\nsaved, 13 bytes\npacked, 44 bytes\n\
                    line 5: cannot write ten: unfinished files are in the way, of the same name with .tmp0 to .tmp9\n\
                    line 6: cannot write ten: unfinished files are in the way, of the same name with .tmp0 to .tmp9\n\
                    entries 1, buckets 8, load 3.1 %, longest relocation 0\n\
                    saved, 13 bytes\nline 9: cannot write folder: it is a folder\n\
                    saved, 13 bytes\nloaded, 1 entry, rule 0, width 12, buckets 8, mask 0, salt 0\n\
                    line 12: cannot write ten: unfinished files are in the way, of the same name with .tmp0 to .tmp9\n\
                    converted, 9 bytes\n";
    assert_eq!(String::from_utf8_lossy(&got), expected);
    assert!(link.is_symlink() && !folder.path("elsewhere").exists());
    fs::remove_file(link).expect("a link");
    assert!(!folder.path("f.tmp1").exists() && !folder.path("nine.tmp9").exists());
    assert_eq!(folder.get("f.tmp0"), b"in the way");
    assert_eq!(folder.get("f.tmp2"), b"not in the way");
    assert_eq!(folder.get("ten"), b"here before");
    assert_eq!(folder.get("f"), folder.get("nine"));
    assert_eq!(folder.get("former"), CONVERTED);
    assert_eq!(folder.get("former.tmp0"), b"in the way");
    // Ten of ten, nine of nine, two of f, one of none and of former, the six written or kept and two folders.
    assert_eq!(folder.names().len(), 10 + 9 + 2 + 2 + 6 + 2);
}

/// A write that stops in the middle leaves the old file, and nothing beside it.
#[test]
fn failed_writes() {
    let folder = Folder::new("failed writes");
    folder.put("f", b"here before");
    let large = Settings::new(MASKED, 16, 65_536, 0);
    let large = former_file(large, &vec![0; 4 * 65_536]);
    folder.put("large", &large);
    folder.put("small", &FORMER);
    // Files may have 16 blocks of 512 or 1024 bytes, and a write beyond that fails.
    let limit = r#"trap '' XFSZ; ulimit -f 16 || exit 9; exec "$0""#;
    let mut command = Command::new("sh");
    command.args(["-c", limit]).arg(tool());
    command.current_dir(&folder.0);
    let script = b"settings 0 16 65536 0\nhold a\nsave f\npack f\nsave g\nstats\n\
                   settings 0 16 8 0\nsave h\n\
                   convert large f\nconvert large g\nconvert large large\nconvert small small\n";
    let output = talk(&mut command, script, WHOLE);
    let answers = String::from_utf8(output.stdout).expect("text");
    let answers: Vec<&str> = answers.lines().collect();
    assert_eq!(answers.len(), 12, "{answers:?}");
    let failed = [(3, "f"), (4, "f"), (5, "g")];
    let not_converted = [(9, "f"), (10, "g"), (11, "large")];
    for (i, name) in failed.into_iter().chain(not_converted) {
        let start = format!("line {i}: cannot write {name}: ");
        let answer = answers[i - 1];
        assert!(
            answer.starts_with(&start) && answer.len() > start.len(),
            "{answer}"
        );
    }
    let stats = "entries 1, buckets 65536, load 0.0 %, longest relocation 0";
    assert_eq!(answers[5..8], [stats, "cleared", "saved, 12 bytes"]);
    assert_eq!(answers[11], "converted, 9 bytes");
    assert_eq!(folder.names(), ["f", "h", "large", "small"]);
    assert_eq!(folder.get("f"), b"here before");
    assert!(folder.get("large") == large);
    assert_eq!(folder.get("small"), CONVERTED);
}

// ── conversions ──

/// A list of one bucket under rule 2 and mask 0, and what comes of its file.
const FORMER: [u8; 12] = [0x2f, 2, 4, 0, 0, 0, 0, 0x0a, 9, 0, 3, 0];
const CONVERTED: [u8; 9] = [0x26, 4, 0, 0, 0x0a, 9, 0, 3, 0];

const SOUND: &str =
    "refused 24: the file needs no conversion: it is sound and of another rule or mask";

#[test]
fn known_conversions() {
    let folder = Folder::new("known conversions");
    folder.put("former", &FORMER);
    let salt = [0xef, 0xcd, 0xab, 0x89, 0x67, 0x45, 0x23, 0x01];
    let salted = [&[0x3d, 2, 1, 0, 1, 0][..], &salt, &[0x08, 0xff, 0x0f, 0]].concat();
    folder.put("salted", &salted);
    let in_two = "a \u{e4} \t\r b";
    let to_two = format!("convert former {in_two}");
    let two = |line: u32| format!("line {line}: {NO_NAMES}");
    let none = "cannot read none: there is no such file or folder";
    let loaded = "loaded, 2 entries, rule 0, width 4, buckets 1, mask 0, salt 0";
    let pairs = [
        ("convert former f", "converted, 9 bytes".to_string()),
        ("load f", loaded.into()),
        ("view 0", "bucket 0: 0 9 0 3".into()),
        // The second name is all that follows the first, but for the blanks around it.
        (&to_two[..], "converted, 9 bytes".into()),
        (
            "\r convert\t\tformer \r\t g\t ",
            "converted, 9 bytes".into(),
        ),
        ("convert salted s", "converted, 15 bytes".into()),
        (
            "load s",
            "loaded, 1 entry, rule 0, width 12, buckets 2, mask 0, salt 81985529216486895".into(),
        ),
        ("view 0", "bucket 0: 0 0 0 4095".into()),
        ("convert", two(9)),
        (" convert \t", two(10)),
        ("convert former", two(11)),
        ("convert former \r\t", two(12)),
        ("convert none", two(13)),
        ("convert none f", format!("line 14: {none}")),
        ("convert none former", format!("line 15: {none}")),
        ("convert none none", format!("line 16: {none}")),
        // A first name in two parts is not one.
        (
            "convert a \u{e4} former",
            "line 17: cannot read a: there is no such file or folder".into(),
        ),
        ("convert f h", SOUND.into()),
        ("convert f f", SOUND.into()),
        // In its place, which can be done once.
        ("convert former former", "converted, 9 bytes".into()),
        ("convert former former", SOUND.into()),
        ("load former", loaded.into()),
        ("convert salted  salted ", "converted, 15 bytes".into()),
        ("convert salted salted", SOUND.into()),
    ];
    let script: Vec<&str> = pairs.iter().map(|pair| pair.0).collect();
    let answers = check_lines("known conversions", &folder, &script);
    for ((line, expected), answer) in pairs.iter().zip(&answers) {
        assert_eq!(answer, expected, "{line}");
    }
    let plain_salted = [&[0x34, 1, 0][..], &salt, &[0x08, 0xff, 0x0f, 0]].concat();
    assert_eq!(folder.names(), [in_two, "f", "former", "g", "s", "salted"]);
    for name in [in_two, "f", "former", "g"] {
        assert_eq!(folder.get(name), CONVERTED, "{name}");
    }
    assert_eq!(
        [folder.get("s"), folder.get("salted")],
        [&plain_salted[..]; 2]
    );
}

/// Lists that were filled under a mask that does no work: their files become those of the plain rule
/// with the same cells, and every tag is held there as often as it was.
#[test]
fn converted_lists() {
    let name = "converted lists";
    let mut mix = mix(name);
    let mut orders = [0; 3];
    for buckets in [1, 2, 4, 64, 4_096, 65_536] {
        for width in [4, 12, 16] {
            for mask in [0, buckets - 1] {
                let s = Settings::new(MASKED, width, buckets, mask);
                converted_list(&mut mix, s, &mut orders);
                let salt = some_salt(&mut mix);
                converted_list(&mut mix, s.with_salt(salt), &mut orders);
            }
        }
    }
    tell(name, &format!(": clear, held once and more: {orders:?}"));
    assert!(orders.iter().all(|&n| n > 300), "{orders:?}");
}

fn converted_list(mix: &mut Mix, s: Settings, orders: &mut [u32; 3]) {
    let name = format!("{s:?}");
    let folder = Folder::new("converted list");
    let mut table = vec![0; 4 * s.buckets as usize];
    let mut scratch = vec![0; 2 * s.buckets as usize];
    // Few kinds of tags, so that some are held more than once.
    let kinds = 2 * s.buckets.clamp(8, 64);
    for _ in 0..kinds {
        let kind = mix.below(kinds.into());
        let _ = former::hold(s, &mut table, &mut scratch, &tag(kind));
    }
    let file = former_file(s, &table);
    let plain = Settings {
        rule: PLAIN,
        mask: 0,
        ..s
    };
    let expected = hold_file(plain, &table);
    assert_eq!(file.len(), expected.len() + 3, "{name}");
    folder.put("from.hold", &file);
    let mut script = "load from.hold\nconvert from.hold the plain one.hold\n".to_string();
    script += "load the plain one.hold\nstats\n";
    for kind in 0..kinds {
        script += &format!("lookup 0x{}\n", to_hex(&tag(kind)));
    }
    let answers = check(&name, &folder, script.as_bytes(), Way::Input(WHOLE));
    assert!(answers[0].starts_with("refused 4: "), "{name}");
    assert!(answers[0].contains("convert"), "{}", answers[0]);
    let converted = format!("converted, {} bytes", expected.len());
    assert_eq!(answers[1], converted, "{name}");
    let entries = table.iter().filter(|&&cell| cell != 0).count();
    let start = format!("entries {entries}, buckets {}, ", s.buckets);
    assert!(answers[3].starts_with(&start), "{name}: {}", answers[3]);
    for (kind, answer) in (0..kinds).zip(&answers[4..]) {
        let copies = former::lookup(s, &table, &tag(kind)).expect("a good tag");
        let told = match copies {
            0 => "clear".to_string(),
            1 => "held, 1 order".to_string(),
            _ => format!("held, {copies} orders"),
        };
        assert_eq!(*answer, told, "{name}");
        orders[copies.min(2) as usize] += 1;
    }
    assert!(folder.get("from.hold") == file, "{name}");
    assert!(folder.get("the plain one.hold") == expected, "{name}");

    let again = ["convert from.hold from.hold"; 2];
    let answers = check_lines(&name, &folder, &again);
    assert_eq!(answers, [&converted[..], SOUND], "{name}");
    assert!(folder.get("from.hold") == expected, "{name}");
    assert_eq!(folder.names().len(), 2, "{name}");
}

/// The longest files that there were, and longer ones.
#[test]
fn fullest_conversions() {
    let name = "fullest conversions";
    let mut mix = mix(name);
    let folder = Folder::new(name);
    let s = Settings::new(MASKED, 16, 65_536, 0xffff).with_salt(u64::MAX);
    let table = cells(&mut mix, s, Cells::Full);
    let file = former_file(s, &table);
    assert_eq!(file.len(), 589_839);
    folder.put("full", &file);
    folder.put("less", &file[..589_838]);
    for (name, more) in [("one", 1), ("two", 2), ("far", 1_000_000)] {
        folder.put(name, &[&file[..], &mix.bytes(more)].concat());
    }
    let from = ["full", "less", "one", "two", "far"];
    let lines = from.map(|from| format!("convert {from} of {from}"));
    let mut script: Vec<&str> = lines.iter().map(String::as_str).collect();
    script.extend(["load of full", "save again", "convert full full"]);
    let answers = check_lines(name, &folder, &script);
    let starts = [
        "converted, 589836 bytes",
        "refused 11: ",
        "refused 15: ",
        "refused 15: ",
        "refused 15: ",
        "loaded, 262144 entries, rule 0, ",
        "saved, 589836 bytes",
        "converted, 589836 bytes",
    ];
    for (answer, start) in answers.iter().zip(starts) {
        assert!(answer.starts_with(start), "{answer}: {start}");
    }
    assert!(folder.get("of full") == folder.get("again"));
    assert!(folder.get("full") == folder.get("again"));
}

/// What is refused makes no file and changes none, and no conversion, good or bad, changes the list.
#[test]
fn refused_conversions() {
    let name = "refused conversions";
    let folder = Folder::new(name);
    let good = [
        0x2f, 2, 4, 3, 0, 3, 0, 0x0a, 9, 0, 3, 0, 0x00, 0x01, 15, 0, 0x0c, 1, 0, 2, 0,
    ];
    let more = |bytes: &[u8]| [bytes, &[0]].concat();
    let ring = hold_file(Settings::new(RING, 12, 6, 0), &[7; 24]);
    let masked = hold_file(Settings::new(MASKED, 12, 4, 1), &[7; 16]);
    let bad = [
        ("empty", vec![], 11),
        ("first", good[..1].to_vec(), 11),
        ("head", good[..6].to_vec(), 11),
        ("half", good[..10].to_vec(), 11),
        ("short", good[..20].to_vec(), 11),
        ("more", more(&good), 15),
        ("twice", [good, good].concat(), 15),
        ("marked", with(&good, 0, &[0x6f]), 12),
        ("default", with(&good, 2, &[12]), 12),
        ("early", with(&good, 0, &[0x0f]), 23),
        ("rule", vec![0x21, 3], 1),
        ("width", with(&good, 2, &[17]), 2),
        ("buckets", with(&good, 3, &[2]), 3),
        ("mask", with(&good, 5, &[4]), 4),
        ("map", with(&good, 7, &[0x1a]), 13),
        ("print", with(&good, 8, &[0]), 14),
        ("wide", with(&good, 9, &[1]), 14),
        // As good as any until its last bucket.
        ("late", with(&good, 19, &[0]), 14),
        // Sound files of other rules and masks, and such files with a fault.
        ("plain", CONVERTED.to_vec(), 24),
        ("ring", ring.clone(), 24),
        ("masked", masked.clone(), 24),
        ("working", with(&good, 5, &[2]), 24),
        ("plain-short", CONVERTED[..8].to_vec(), 11),
        ("ring-more", more(&ring), 15),
        ("masked-map", with(&masked, 6, &[0xff]), 13),
    ];
    folder.put("good", &good);
    folder.put("there", b"here before");
    for (file, bytes, _) in &bad {
        folder.put(file, bytes);
    }
    let mut script = "settings 1 11 10 0\n".to_string();
    for i in 0..36 {
        script += &format!("hold {i}\n");
    }
    script += &look(10);
    script += "save before\n";
    for (file, _, _) in &bad {
        script += &format!("convert {file} new\nconvert {file} there\nconvert {file} {file}\n");
        script += &look(10);
    }
    script += &format!("convert good good\n{}save after\n", look(10));
    let answers = check(name, &folder, script.as_bytes(), Way::Input(WHOLE));
    let shown = &answers[37..37 + 11];
    assert!(
        !shown[0].ends_with(" 0"),
        "no hold had a move: {}",
        shown[0]
    );
    let rest = &answers[37 + 12..];
    for ((file, bytes, n), group) in bad.iter().zip(rest.chunks(14)) {
        let start = format!("refused {n}: ");
        for answer in &group[..3] {
            assert!(answer.starts_with(&start), "{file}: {answer}, not {n}");
        }
        assert_eq!(group[3..], *shown, "{file}");
        assert!(folder.get(file) == *bytes, "{file}");
    }
    let end = &rest[14 * bad.len()..];
    assert_eq!(end[0], "converted, 18 bytes");
    assert_eq!(end[1..12], *shown);
    assert_eq!(folder.get("before"), folder.get("after"));
    assert_eq!(folder.get("there"), b"here before");
    assert!(!folder.path("new").exists());
}

/// Whether the list may be written is what the last load or unpack says, not a conversion.
#[test]
fn conversions_and_the_list() {
    let folder = Folder::new("conversions and the list");
    folder.put("former", &FORMER);
    let not_written = |line: u32| format!("line {line}: {NOT_THE_LIST}");
    let pairs = [
        ("settings 1 12 6 0 7", "cleared".to_string()),
        ("hold a", "accepted, 0 moves".into()),
        ("load former", "refused 4: ".into()),
        ("save f", not_written(4)),
        ("convert former plain", "converted, 9 bytes".into()),
        ("save f", not_written(6)),
        ("pack p", not_written(7)),
        ("convert former former", "converted, 9 bytes".into()),
        ("convert former former", SOUND.into()),
        ("save former", not_written(10)),
        // The list is the one from before.
        (
            "settings",
            "rule 1, width 12, buckets 6, mask 0, salt 7".into(),
        ),
        ("lookup a", "held, 1 order".into()),
        ("load plain", "loaded, 2 entries, rule 0, ".into()),
        ("save f", "saved, 9 bytes".into()),
        // And a conversion that fails forbids nothing.
        ("convert none x", "line 15: cannot read none: ".into()),
        ("save f", "saved, 9 bytes".into()),
        ("convert plain x", SOUND.into()),
        ("pack p", "packed, 2 bytes".into()),
        ("convert plain", format!("line 19: {NO_NAMES}")),
        ("save f", "saved, 9 bytes".into()),
    ];
    let script: Vec<&str> = pairs.iter().map(|pair| pair.0).collect();
    let answers = check_lines("conversions and the list", &folder, &script);
    for ((line, start), answer) in pairs.iter().zip(&answers) {
        assert!(answer.starts_with(start), "{line}: {answer}");
    }
    assert_eq!(folder.get("f"), CONVERTED);
    assert_eq!(folder.names(), ["f", "former", "p", "plain"]);
}

// ── forecasts ──

const FULL: &str = "refused 9: the list is full for this tag, however its entries are moved";

#[test]
fn known_forecasts() {
    let folder = Folder::new("known forecasts");
    let pairs = [
        ("length", "4097 bytes".to_string()),
        ("forecast a", "would be accepted, 0 moves".into()),
        // It was not held by this.
        ("lookup a", "clear".into()),
        ("hold a", "accepted, 0 moves".into()),
        (" \tlength\r", "4099 bytes".into()),
        ("save f", "saved, 4099 bytes".into()),
        ("settings 0 4 1 0", "cleared".into()),
        ("length", "5 bytes".into()),
        ("hold a", "accepted, 0 moves".into()),
        ("hold a", "accepted, 0 moves".into()),
        ("hold a", "accepted, 0 moves".into()),
        ("forecast a", "would be accepted, 0 moves".into()),
        ("hold a", "accepted, 0 moves".into()),
        ("forecast a", FULL.into()),
        ("\r forecast\t\t0x61 ", FULL.into()),
        ("forecast another", FULL.into()),
        ("hold a", FULL.into()),
        ("length", "13 bytes".into()),
        ("release a", "released".into()),
        ("forecast 0x61", "would be accepted, 0 moves".into()),
        ("forecast a b", "would be accepted, 0 moves".into()),
        ("length", "11 bytes".into()),
        ("forecast", format!("line 23: {NO_TAG}")),
        ("forecast \t", format!("line 24: {NO_TAG}")),
        ("forecast 0x6", format!("line 25: {NO_HEX}")),
        (
            "forecast 0x",
            "refused 7: the tag has no byte or more than 64".into(),
        ),
        ("length x", format!("line 27: {ALONE}")),
        ("forecasts a", format!("line 28: {NO_COMMAND}")),
        ("lengths", format!("line 29: {NO_COMMAND}")),
        ("FORECAST a", format!("line 30: {NO_COMMAND}")),
        // Nothing is written, so that a list that is not the last file's will do.
        ("load none", format!("line 31: cannot read none: {NO_FILE}")),
        ("length", "11 bytes".into()),
        ("forecast a", "would be accepted, 0 moves".into()),
        ("save f", format!("line 34: {NOT_THE_LIST}")),
        ("clear", "cleared".into()),
        ("length", "5 bytes".into()),
        // The salt has eight bytes, the rule one and the mask two.
        ("settings 2 4 4 1 1", "cleared".into()),
        ("length", "19 bytes".into()),
        (
            "load f",
            "loaded, 1 entry, rule 0, width 12, buckets 4096, mask 0, salt 0".into(),
        ),
        ("length", "4099 bytes".into()),
    ];
    let script: Vec<&str> = pairs.iter().map(|pair| pair.0).collect();
    let answers = check_lines("known forecasts", &folder, &script);
    for ((line, expected), answer) in pairs.iter().zip(&answers) {
        assert_eq!(answer, expected, "{line}");
    }
    assert_eq!(folder.names(), ["f"]);
}

/// Each hold of lists that fill up answers what was forecast, and each file has the length that was
/// told before.
#[test]
fn forecasts_come_true() {
    let name = "forecasts come true";
    let mut mix = mix(name);
    // No move, one, more, and refused.
    let mut seen = [0; 4];
    for s in [
        Settings::new(PLAIN, 8, 64, 0),
        Settings::new(RING, 12, 50, 0).with_salt(2_027),
        Settings::new(MASKED, 9, 32, 21),
    ] {
        let name = format!("{name} {}", s.rule);
        let folder = Folder::new(&name);
        let mut script = format!("settings {} {}\n", four(s), s.salt);
        for _ in 0..6 * s.buckets {
            let tag = mix.draw().to_string();
            let digits = to_hex(tag.as_bytes());
            script += &format!("stats\nforecast {tag}\nstats\nhold 0x{digits}\n");
            script += "length\nsave f\n";
        }
        let answers = check(&name, &folder, script.as_bytes(), Way::Input(WHOLE));
        for group in answers[1..].chunks(6) {
            let (forecast, held) = (&group[1], &group[3]);
            assert_eq!(group[0], group[2], "{name}: {forecast}");
            match &held[..] {
                FULL => assert_eq!(forecast, FULL, "{name}"),
                _ => assert_eq!(*forecast, format!("would be {held}"), "{name}"),
            }
            seen[match &held[..] {
                "accepted, 0 moves" => 0,
                "accepted, 1 move" => 1,
                FULL => 3,
                _ => 2,
            }] += 1;
            assert_eq!(group[5], format!("saved, {}", group[4]), "{name}");
        }
    }
    tell(name, &format!(": no move, one, more, refused: {seen:?}"));
    assert!(seen.iter().all(|&n| n > 0), "{seen:?}");
}

/// However many forecasts there are, of moves too, the list stays, and so does its longest relocation.
#[test]
fn forecasts_change_nothing() {
    let name = "forecasts change nothing";
    let mut mix = mix(name);
    let folder = Folder::new(name);
    let s = Settings::new(RING, 11, 50, 0);
    let mut list = List::new(folder.files());
    list.begin(s);
    // In some lists that are fuller, what has no room by itself has none by moves either.
    while list.entries() < 174 {
        let _ = list.with_tag(b"hold", mix.draw().to_string().as_bytes());
    }
    // Read back, so that no hold has moved anything.
    folder.put("f", &hold_file(s, &list.table));
    let mut script = format!("load f\n{}", look(50));
    for _ in 0..500 {
        script += &format!("forecast {}\n", mix.draw());
    }
    script += "length\nforecast 0x\nforecast\n";
    script += &format!("{}save g\n", look(50));
    let answers = check(name, &folder, script.as_bytes(), Way::Input(WHOLE));
    let moved = |line: &&String| line.starts_with("would be ") && !line.ends_with(" 0 moves");
    let moved = answers.iter().filter(moved).count();
    assert!(moved > 5, "{moved} forecasts had moves");
    assert_eq!(answers[1..52], answers[52 + 503..][..51]);
    assert!(answers[1].ends_with("longest relocation 0"));
    assert_eq!(folder.get("f"), folder.get("g"));
}

/// A forecast of a refusal counts as one: it ends a strict run, and shows in the exit status.
#[test]
fn forecasts_that_are_refused() {
    let folder = Folder::new("refused forecasts");
    let full = "settings 0 4 1 0\nhold a\nhold a\nhold a\nhold a\n";
    let wrapper = Path::new(env!("CARGO_MANIFEST_DIR")).join("../../gedrunelj");
    let stopped = "gedrunelj: 1 refused, 0 failed; stopped at line 6\n";
    for (args, last, status, told, lines) in [
        (&[][..], "release a\nforecast a\nlength\n", 0, "", 8),
        (&[], "forecast a\nlength\n", 1, &counts(1, 0), 7),
        (&[], "forecast a\nlength\nhold a\n", 1, &counts(2, 0), 8),
        (&["--strict"], "forecast a\nlength\n", 1, stopped, 6),
    ] {
        let mut command = Command::new(&wrapper);
        command.current_dir(&folder.0).env("GEDRUNELJ", tool());
        let script = full.to_string() + last;
        let output = talk(command.args(args), script.as_bytes(), WHOLE);
        assert_eq!(output.status.code(), Some(status), "{last}");
        assert_eq!(String::from_utf8_lossy(&output.stderr), told, "{last}");
        let answers = String::from_utf8_lossy(&output.stdout);
        assert_eq!(answers.lines().count(), lines, "{last}: {answers}");
    }
}

// ── long lines ──

/// A text with blanks before it, up to so many bytes.
fn padded(line: &str, length: usize) -> Vec<u8> {
    let mut all = vec![b' '; length - line.len()];
    all.extend(line.bytes());
    all
}

#[test]
fn long_lines() {
    let name = "long lines";
    let lengths = [
        65_533, 65_534, 65_535, 65_536, 65_537, 65_538, 131_070, 131_071, 131_072, 131_073, 200_000,
    ];
    let folder = Folder::new(name);
    for way in [
        Way::Argument,
        Way::Input(WHOLE),
        Way::Input(&[1_000]),
        Way::Input(&[LINE]),
        Way::Input(&[LINE + 1]),
    ] {
        for length in lengths {
            let fits = length <= LINE;
            let name = format!("{name}, {length} bytes, {way:?}");
            // The last has no line end.
            let script = [
                b"hold a".to_vec(),
                padded("hold b", length),
                b"stats".to_vec(),
                padded("clear", length),
                b"lookup a".to_vec(),
                b"no command".to_vec(),
                vec![b'#'; length],
                vec![b' '; length],
                b"stats".to_vec(),
                padded("hold a", length),
            ];
            let answers = check(&name, &folder, &script.join(&b'\n'), way);
            let long = |i: usize| format!("line {i}: the line is longer than 65535 bytes");
            assert_eq!(answers.len(), 10, "{name}");
            match fits {
                true => {
                    assert_eq!(answers[1], "accepted, 0 moves", "{name}");
                    assert_eq!(answers[4], "clear", "{name}");
                    assert_eq!(answers[6].len(), length, "{name}");
                    assert_eq!(answers[7].len(), length, "{name}");
                    assert_eq!(answers[9], "accepted, 0 moves", "{name}");
                }
                false => {
                    for i in [2, 4, 7, 8, 10] {
                        assert_eq!(answers[i - 1], long(i), "{name}");
                    }
                    assert_eq!(answers[4], "held, 1 order", "{name}");
                }
            }
            assert_eq!(
                answers[5],
                "line 6: there is no such command; help names them"
            );
        }
    }
}

/// Lines that are as long as can be, with everything that may be long.
#[test]
fn long_arguments() {
    let folder = Folder::new("long arguments");
    let text = "hold ".to_string() + &"a".repeat(LINE - 5);
    let even = "hold 0x".to_string() + &"1f".repeat((LINE - 7) / 2);
    let odd = &even[..even.len() - 1];
    let wrong = odd.to_string() + "g";
    let zeros = "view ".to_string() + &"0".repeat(LINE - 6) + "7";
    let nines = "view ".to_string() + &"9".repeat(LINE - 5);
    let words = "settings".to_string() + &" 1".repeat((LINE - 8) / 2);
    let gap = "lookup ".to_string() + &" ".repeat(LINE - 8) + "a";
    let forecast = "forecast ".to_string() + &"a".repeat(LINE - 9);
    let alone = "length".to_string() + &" ".repeat(LINE - 7) + "x";
    let one_name = "convert ".to_string() + &"n".repeat(LINE - 8);
    let two_names = "convert none".to_string() + &" ".repeat(LINE - 13) + "f";
    let long_name = "convert none ".to_string() + &"n".repeat(LINE - 13);
    let unknown = "x".repeat(LINE);
    let lines = [
        &text[..],
        &even,
        &even[..even.len() - 2],
        odd,
        &wrong,
        &zeros,
        &nines,
        &words,
        &gap,
        &forecast,
        &alone,
        &one_name,
        &two_names,
        &long_name,
        &unknown,
    ];
    assert!(lines.iter().all(|line| line.len() <= LINE));
    let answers = check_lines("long arguments", &folder, &lines);
    let starts = [
        "refused 7: ",
        "refused 7: ",
        "refused 7: ",
        "line 4: what stands after 0x",
        "line 5: what stands after 0x",
        "bucket 7: 0 0 0 0",
        "line 7: the bucket is not a number",
        "line 8: settings takes four numbers and a salt, and no more",
        "clear",
        "refused 7: ",
        "line 11: the command stands alone",
        "line 12: convert takes two names of files",
        "line 13: cannot read none: ",
        "line 14: cannot read none: ",
        "line 15: there is no such command",
    ];
    assert_eq!(answers.len(), starts.len());
    for (answer, start) in answers.iter().zip(starts) {
        assert!(answer.starts_with(start), "{answer}: {start}");
    }
}

// ── arguments ──

#[test]
fn arguments() {
    let folder = Folder::new("arguments");
    folder.put("script", b"stats\n");
    folder.put("empty", b"");
    let given = |args: &[&str]| {
        let output = talk(command(&folder).args(args), b"help\n", WHOLE);
        let both = [output.stdout, output.stderr];
        both.map(|bytes| String::from_utf8(bytes).expect("text"))
    };
    let stats = "entries 0, buckets 4096, load 0.0 %, longest relocation 0\n";
    assert_eq!(given(&["script"]), [stats, ""]);
    assert_eq!(given(&["empty"]), ["", ""]);
    let help = given(&["--help"]);
    assert!(help[0].starts_with("usage: gedrunelj ") && help[1].is_empty());
    for named in ["--strict", "--help", "-h", "--version", "SCRIPT"] {
        assert!(help[0].contains(named), "{named}");
    }
    assert_eq!(given(&["-h"]), help);
    assert_eq!(given(&["script", "-h"]), help);
    let version = include_str!("../../../VERSION").trim();
    let told = format!("gedrunelj {version}\n");
    assert_eq!(given(&["--version"]), [&told[..], ""]);
    for args in [
        &["script", "script"][..],
        &["script", "script", "script"],
        &["-", "script"],
        &["--none"],
        &["-x", "script"],
        &["--strict=1"],
    ] {
        assert_eq!(given(args), [String::new(), help[0].clone()], "{args:?}");
    }
    assert_eq!(given(&["--strict", "script"]), [stats, ""]);
    assert_eq!(given(&["script", "--strict"]), [stats, ""]);
    assert_eq!(given(&["-"]), [self::help() + "\n", String::new()]);
    for missing in ["none", "none/script", "script/none", ""] {
        let [out, error] = given(&[missing]);
        assert_eq!(out, "", "{missing}");
        assert!(
            error.starts_with(missing) && error.ends_with('\n'),
            "{error}"
        );
        assert!(error.len() > missing.len() + 3, "{error}");
    }
    // A folder can be opened, but not read.
    let [out, error] = given(&["."]);
    assert_eq!(out, "");
    assert!(error.lines().count() == 1 && error.len() > 20, "{error}");
    assert_eq!(given(&[]), [self::help() + "\n", String::new()]);
}

/// No input, and input that is no text.
#[test]
fn any_input() {
    let name = "any input";
    let mut mix = mix(name);
    let folder = Folder::new(name);
    for script in [&b""[..], b"\n", b"\n\n", b" ", b"\r\n", b"#"] {
        check(name, &folder, script, Way::Input(WHOLE));
        check(name, &folder, script, Way::Argument);
    }
    for _ in 0..20 * long() {
        let length = mix.below(100_000) as usize;
        let mut script = mix.bytes(length);
        // Most lines short, some with a command.
        for i in 0..length / 20 {
            let at = mix.below(length as u64) as usize;
            let commands: [&[u8]; 8] = [
                b"hold ",
                b"lookup ",
                b"release ",
                b"forecast ",
                b"view ",
                b"length",
                b"stats",
                b"#",
            ];
            let command = one_of(&mut mix, &commands);
            if i % 2 == 0 && at > 0 && at + command.len() < length {
                script[at - 1] = b'\n';
                script[at..at + command.len()].copy_from_slice(command);
            } else {
                script[at] = b'\n';
            }
        }
        check(name, &folder, &script, Way::Input(WHOLE));
    }
}
