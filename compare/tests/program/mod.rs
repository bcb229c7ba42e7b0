//! The thin program as tests run it: what it says, what a run writes, and what it must write by the second program.

// Each file of tests uses a part of this.
#![allow(dead_code)]

use std::fmt::Display;
use std::fs;
use std::path::{Path, PathBuf};
use std::process::{Command, Output};

use second::cases::{sequence, Call, Rng};
use second::report::{generate, initiate, terminate, Answer};
use second::state::State;
use second::{description, record};

/// Where `rt` puts the program, seen from this package; BAILCURLEW_SHEET names another.
const PROGRAM: &str = "../target/bin/sheet";

// ---- what the program says: one line on standard error, words in braces filled in

pub const USAGE: &str = "usage: sheet [--progress] DESCRIPTION RECORDS|-";
pub const NOT_OPENED: &str = "sheet: {file}: No such file or directory";
pub const NOT_READ: &str = "sheet: {file}: Is a directory";
pub const NOT_WRITTEN: &str = "sheet: standard output: No space left on device";
pub const INITIATE: &str = "sheet: {words}; refusal {number}, extra number {extra}";
pub const GENERATE: &str = "sheet: row {row}: {words}; refusal {number}, extra number {extra}";
pub const TERMINATE: &str = "sheet: TERMINATE: {words}; refusal {number}, extra number {extra}";

/// What each of D1 to D8 is about.
const RULES: [&str; 9] =
    ["sections", "page", "fields", "controls", "groups", "lines", "items", "counters", "pictures"];

pub fn filled(message: &str, words: &[(&str, &dyn Display)]) -> String {
    let put = |text: String, (name, value): &(&str, &dyn Display)| {
        text.replace(&format!("{{{name}}}"), &value.to_string())
    };
    words.iter().fold(message.to_string(), put) + "\n"
}

/// A refusal in words. Those that a sheet cannot meet are left out: 2, 3, 4, and 9 with this program's output.
fn words(desc: &[u8], length: usize, answer: &Answer) -> String {
    let extra = answer.extra as usize;
    let tables = description::check(desc);
    match (answer.number, tables) {
        (1, _) => format!("description breaks rule {extra} ({})", RULES[extra - 1]),
        (5, Ok(tables)) => format!("the record's length is {length}, not {}", tables.r),
        (6, Ok(tables)) => {
            let field = tables.fields[extra];
            let last = field.offset + field.width - 1;
            format!("field {extra} (bytes {} to {last}) is malformed", field.offset)
        }
        (7, _) => "an addition would leave the sum range".into(),
        (8, _) => "a page change would pass page 999999".into(),
        _ => panic!("{answer:?}"),
    }
}

pub fn refused(message: &str, desc: &[u8], row: usize, length: usize, answer: &Answer) -> String {
    let words = words(desc, length, answer);
    filled(message, &[("words", &words), ("row", &row), ("number", &answer.number), ("extra", &answer.extra)])
}

pub fn about_file(message: &str, file: &Path) -> String {
    filled(message, &[("file", &file.display())])
}

// ---- running it

/// What a run writes.
#[derive(Debug, PartialEq, Eq)]
pub struct Written {
    pub sheet: Vec<u8>,
    pub errors: String,
}

impl Written {
    pub fn errors(errors: String) -> Written {
        Written { sheet: Vec::new(), errors }
    }
}

pub fn command() -> Command {
    let root = Path::new(env!("CARGO_MANIFEST_DIR"));
    Command::new(std::env::var("BAILCURLEW_SHEET").map_or(root.join(PROGRAM), PathBuf::from))
}

pub fn finished(mut command: Command) -> Written {
    let Output { status, stdout, stderr } =
        command.output().unwrap_or_else(|error| panic!("{command:?}: {error}"));
    assert!(status.code().is_some(), "{command:?}: {status}");
    Written { sheet: stdout, errors: String::from_utf8_lossy(&stderr).into_owned() }
}

pub fn sheet(args: &[&Path]) -> Written {
    let mut command = command();
    command.args(args);
    finished(command)
}

pub fn example(name: &str) -> PathBuf {
    Path::new(env!("CARGO_MANIFEST_DIR")).join("../examples").join(name)
}

/// A folder of a test's own, removed with all that is in it.
pub struct Folder(pub PathBuf);

impl Folder {
    pub fn new(name: &str) -> Folder {
        let path = std::env::temp_dir().join(format!("bailcurlew-{name}-{}", std::process::id()));
        fs::create_dir_all(&path).expect("a temporary folder");
        Folder(path)
    }

    pub fn file(&self, name: &str, bytes: &[u8]) -> PathBuf {
        let path = self.0.join(name);
        fs::write(&path, bytes).expect("a temporary file");
        path
    }
}

impl Drop for Folder {
    fn drop(&mut self) {
        let _ = fs::remove_dir_all(&self.0);
    }
}

// ---- what it must write, by the second program

const ROOM: usize = 1 << 18;

/// The sheet of rows that stand back to back, up to the first refusal.
pub fn wanted(desc: &[u8], rows: &[u8]) -> Written {
    let begun = initiate(desc, &State::fresh());
    if begun.number != 0 {
        return Written::errors(refused(INITIATE, desc, 0, 0, &begun));
    }
    let length = usize::from(description::check(desc).expect("accepted by INITIATE").r);
    let mut written = Written::errors(String::new());
    let mut output = vec![0; ROOM];
    let mut state = begun.state;
    for (row, record) in rows.chunks(length).enumerate() {
        let answer = generate(desc, &state, 0, record, &mut output);
        if answer.number != 0 {
            written.errors = refused(GENERATE, desc, row + 1, record.len(), &answer);
            return written;
        }
        written.sheet.extend(&output[..answer.count]);
        state = answer.state;
    }
    let ended = terminate(desc, &state, &mut output);
    if ended.number != 0 {
        written.errors = refused(TERMINATE, desc, 0, 0, &ended);
        return written;
    }
    written.sheet.extend(&output[..ended.count]);
    written
}

// ---- random rows

/// Rows as they follow each other in a random sequence of calls: well-formed for most sheets, for others also
/// malformed ones or a short last one.
pub fn random_rows(rng: &mut Rng, desc: &[u8]) -> Vec<u8> {
    let tables = description::check(desc).expect("an accepted description");
    let (any_row, cut) = (rng.chance(20), rng.chance(10));
    let mut steps = sequence(rng, desc, 150);
    let mut rows = Vec::new();
    let mut last = None;
    while let Some(step) = steps.step(last.as_ref()) {
        if let Call::Generate { record, .. } = &step.call {
            let fits = record.len() == usize::from(tables.r);
            if fits && (any_row || record::malformed_field(&tables, record).is_none()) {
                rows.extend(record);
            }
        }
        last = Some(second::cases::play(desc, &step).0);
    }
    if cut {
        rows.pop();
    }
    rows
}
