//! `read` and `repair` as tests run them: their runs, their exit statuses, and sheets.

// Each file of tests uses a part of this.
#![allow(dead_code)]

use std::io::Write;
use std::path::{Path, PathBuf};
use std::process::{Command, Output, Stdio};
use std::thread;

use crate::program::{finished, Folder, Written};

// ---- running them

/// Where `rt` puts a program, seen from this package.
pub fn program(name: &str) -> Command {
    Command::new(Path::new(env!("CARGO_MANIFEST_DIR")).join("../target/bin").join(name))
}

pub fn run(name: &str, args: &[&str]) -> Written {
    let mut command = program(name);
    command.args(args);
    finished(command)
}

/// The same with these bytes as standard input.
pub fn fed(name: &str, args: &[&str], bytes: &[u8]) -> Written {
    let mut command = program(name);
    command.args(args).stdin(Stdio::piped()).stdout(Stdio::piped()).stderr(Stdio::piped());
    let mut child = command.spawn().expect("the program");
    let mut input = child.stdin.take().expect("its standard input");
    let Output { stdout, stderr, .. } = thread::scope(|scope| {
        // A program that is told something wrong reads no more.
        scope.spawn(move || input.write_all(bytes).ok());
        child.wait_with_output().expect("the program's output")
    });
    Written { sheet: stdout, errors: String::from_utf8_lossy(&stderr).into_owned() }
}

/// The same in 16 MB of address space, its output into a file.
pub fn in_little_memory(name: &str, args: &[&str], out: &Path) -> Written {
    let mut command = Command::new("sh");
    command.args(["-c", "ulimit -v 16384; exec \"$@\"", "sh"]).arg(program(name).get_program()).args(args);
    command.stdout(std::fs::File::create(out).expect("a file"));
    finished(command)
}

/// The exit status of a command of `bin/`, and what it tells.
pub fn status(name: &str, args: &[&str]) -> (Option<i32>, String) {
    let bin = Path::new(env!("CARGO_MANIFEST_DIR")).join("../bin").join(name);
    let output = Command::new(bin).args(args).stdin(Stdio::null()).output().expect("the command");
    (output.status.code(), String::from_utf8_lossy(&output.stderr).into_owned())
}

pub fn text(path: &Path) -> &str {
    path.to_str().expect("a path in plain characters")
}

// ---- sheets

/// The width that the first record of a sheet shows.
pub fn width_in(sheet: &[u8]) -> Option<usize> {
    let end = sheet.iter().take(142).position(|&byte| byte == b'\n')?;
    (end >= 10).then(|| end - 9)
}

/// A sheet of so many records, 50 to a page.
pub fn sheet_of(records: usize, w: usize) -> Vec<u8> {
    let mut sheet = Vec::with_capacity(records * (w + 10));
    for k in 0..records {
        let (page, line) = (k / 50 + 1, k % 50 + 1);
        let text: String = format!("{k:<w$}").chars().take(w).collect();
        writeln!(sheet, "{page:06}{line:03}{text}").expect("room");
    }
    sheet
}

/// How many records a program has in hand at a time: half of 65,536 bytes.
pub fn part_of(w: usize) -> usize {
    32_768 / (w + 10)
}

// ---- wrong usage, widths and files

pub fn says_its_usage(name: &str, usage: &str, help: &str, wrong: &[&[&str]]) {
    for args in wrong {
        assert_eq!(run(name, args), Written::errors(usage.into()), "{args:?}");
    }
    for word in ["--help", "-h"] {
        assert_eq!(
            run(name, &[word]),
            Written { sheet: [usage, help].concat().into(), errors: String::new() }
        );
    }
}

/// A width that is refused, whether the sheet can be opened or not, and a sheet that shows none.
pub fn says_a_width_that_it_refuses(name: &str) {
    let folder = Folder::new(&format!("{name}-width"));
    let good = folder.file("good", &sheet_of(2, 1));
    let told = |why: &str| Written::errors(format!("{name}: {why}; refusal 12, extra number 0\n"));
    for w in ["0", "000", "133", "999", "18446744073709551617", "100000000000000000000000000000"] {
        for sheet in [text(&good), "none"] {
            assert_eq!(run(name, &[w, sheet]), told(&format!("W is {w}, not 1 to 132")));
        }
    }
    let unknown = "record 1 (byte 0) does not end after 11 to 142 bytes, so W is not known";
    let shows_none =
        [&sheet_of(1, 133)[..], b"\n", b"000001001\n", b"000001001a", &[b'1'; 142], &[b'1'; 200_000]];
    for bytes in shows_none {
        let sheet = folder.file("sheet", bytes);
        assert_eq!(run(name, &[text(&sheet)]), told(unknown));
        assert_eq!(fed(name, &["-"], bytes), told(unknown));
    }
    for w in [1, 2, 131, 132] {
        let sheet = folder.file("sheet", &sheet_of(3, w));
        let width = w.to_string();
        let [shown, given] = [run(name, &[text(&sheet)]), run(name, &[&width, text(&sheet)])];
        assert_eq!(shown.errors, "");
        assert!(!shown.sheet.is_empty() && shown == given);
        assert_eq!(run(name, &[&format!("00{width}"), text(&sheet)]), given);
    }
}

/// An empty sheet is one, whatever its width.
pub fn takes_an_empty_sheet(name: &str) {
    let folder = Folder::new(&format!("{name}-empty"));
    let empty = folder.file("empty", b"");
    for args in [&[text(&empty)][..], &["1", text(&empty)], &["132", text(&empty)]] {
        assert_eq!(run(name, args), Written::errors(String::new()), "{args:?}");
        assert_eq!(status(name, args), (Some(0), String::new()));
    }
    assert_eq!(fed(name, &["-"], b""), Written::errors(String::new()));
    assert_eq!(fed(name, &["7", "-"], b""), Written::errors(String::new()));
}

pub fn names_a_file_that_it_cannot_read(name: &str) {
    let folder = Folder::new(&format!("{name}-unreadable"));
    let told = |path: &PathBuf, why: &str| Written::errors(format!("{name}: {}: {why}\n", path.display()));
    let none = folder.0.join("none");
    for args in [&[][..], &["80"]] {
        let with = |path: &Path| run(name, &[args, &[text(path)]].concat());
        assert_eq!(with(&none), told(&none, "No such file or directory"));
        assert_eq!(with(&folder.0), told(&folder.0, "Is a directory"));
        let mut command = program(name);
        command.args(args).arg("-").stdin(std::fs::File::open(&folder.0).expect("the folder"));
        assert_eq!(finished(command), told(&PathBuf::from("standard input"), "Is a directory"));
    }
}

pub fn says_that_it_cannot_write(name: &str) {
    let folder = Folder::new(&format!("{name}-full"));
    for records in [1, 10_000] {
        let Ok(full) = std::fs::File::options().write(true).open("/dev/full") else {
            return;
        };
        let mut command = program(name);
        command.arg(folder.file("sheet", &sheet_of(records, 60))).stdout(Stdio::from(full));
        let told = format!("{name}: standard output: No space left on device\n");
        assert_eq!(finished(command), Written::errors(told));
    }
}
