//! The thin program as a user runs it: the examples, what it says of wrong input, and random sheets against the
//! second program's.

mod program;

use std::fs::{self, File};
use std::path::{Path, PathBuf};
use std::process::{Command, Stdio};

use program::*;
use second::cases::{accepted_description, sample, Rng};
use second::description;

/// `--help` says this on standard output and nothing on standard error.
const HELP: &str = "\
usage: sheet [--progress] DESCRIPTION RECORDS|-

Prints the sheet of a record file: INITIATE, GENERATE every record as detail 0, TERMINATE. A refused call is told on
standard error and ends the sheet; what was accepted before stands. Rows count from 1, fields and bytes from 0.

  -           take the records from standard input; the lines of a row are written before more is read
              (a file of this name is ./-)
  --progress  tell on standard error how many rows are done
  --help      print this
";

fn agrees(desc: &Path, rows: &Path) -> Written {
    let bytes = |path: &Path| fs::read(path).expect("a file of the test");
    let written = sheet(&[desc, rows]);
    assert_eq!(written, wanted(&bytes(desc), &bytes(rows)), "{desc:?} {rows:?}");
    written
}

// ---- the examples

#[test]
fn prints_the_examples() {
    for name in ["whole_run", "day_sheet", "pictures"] {
        let file = |kind: &str| example(&format!("{name}.{kind}"));
        let written = sheet(&[&file("desc"), &file("rows")]);
        assert_eq!(written.errors, "", "{name}");
        let sheet = fs::read(file("sheet")).expect("the example's sheet");
        assert!(written.sheet == sheet, "{name}: {}", String::from_utf8_lossy(&written.sheet));
    }
}

// ---- wrong usage and wrong files

#[test]
fn says_its_usage() {
    let [desc, rows] = ["whole_run.desc", "whole_run.rows"].map(example);
    let [progress, unknown] = ["--progress", "--fast"].map(PathBuf::from);
    let wrong = [
        &[][..],
        &[&desc],
        &[&desc, &rows, &rows],
        &[&progress, &desc],
        &[&unknown, &rows],
        &[&unknown, &desc, &rows],
        &[&progress, &unknown, &rows],
    ];
    for args in wrong {
        let args: Vec<&Path> = args.iter().map(|path| path.as_path()).collect();
        assert_eq!(sheet(&args), Written::errors(filled(USAGE, &[])), "{args:?}");
    }
    let help = sheet(&[Path::new("--help")]);
    assert_eq!(help, Written { sheet: HELP.into(), errors: String::new() });
}

#[test]
fn names_a_file_that_it_cannot_read() {
    let folder = Folder::new("unreadable");
    let [desc, rows] = ["whole_run.desc", "whole_run.rows"].map(example);
    let none = folder.0.join("none");
    assert_eq!(sheet(&[&none, &rows]), Written::errors(about_file(NOT_OPENED, &none)));
    assert_eq!(sheet(&[&desc, &none]), Written::errors(about_file(NOT_OPENED, &none)));
    assert_eq!(sheet(&[&folder.0, &rows]), Written::errors(about_file(NOT_READ, &folder.0)));
    assert_eq!(sheet(&[&desc, &folder.0]), Written::errors(about_file(NOT_READ, &folder.0)));
}

/// "TERMINATE when started prints nothing": a day without rows has an empty sheet.
#[test]
fn prints_nothing_for_a_record_file_without_rows() {
    let folder = Folder::new("empty");
    let empty = folder.file("rows", b"");
    assert_eq!(sheet(&[&example("whole_run.desc"), &empty]), Written::errors(String::new()));
}

/// Rows are read in parts of about 65,536 bytes; after each, the count so far.
#[test]
fn tells_its_progress() {
    let folder = Folder::new("progress");
    let rows = folder.file("rows", &b"AA+005".repeat(25_000));
    let desc = example("whole_run.desc");
    let told = sheet(&[Path::new("--progress"), &desc, &rows]);
    assert_eq!(told.errors, "sheet: 10922 rows\nsheet: 21844 rows\nsheet: 25000 rows\n");
    assert_eq!(told.sheet, agrees(&desc, &rows).sheet);
}

/// One line, whether the output is written at the end or in the middle of the rows.
#[test]
fn says_that_it_cannot_write() {
    let folder = Folder::new("full");
    let many = folder.file("rows", &b"AA+005".repeat(25_000));
    for rows in [example("whole_run.rows"), many] {
        let Ok(full) = File::options().write(true).open("/dev/full") else {
            return;
        };
        let mut command = command();
        command.args([example("whole_run.desc"), rows]).stdout(Stdio::from(full));
        assert_eq!(finished(command), Written::errors(filled(NOT_WRITTEN, &[])));
    }
}

// ---- refusals

#[test]
fn names_the_rule_that_a_description_breaks() {
    let folder = Folder::new("refused");
    let rows = example("whole_run.rows");
    let good = fs::read(example("whole_run.desc")).expect("the example");
    let mut no_page = good.clone();
    no_page[good.len() - 16] = 0;
    let cases = [
        ("empty", Vec::new(), "1 (sections)", 1),
        ("long", vec![0; 70_000], "1 (sections)", 1),
        ("no_page", no_page, "2 (page)", 2),
    ];
    for (name, bytes, rule, extra) in cases {
        let desc = folder.file(name, &bytes);
        let line = format!("sheet: description breaks rule {rule}; refusal 1, extra number {extra}\n");
        assert_eq!(sheet(&[&desc, &rows]), Written::errors(line), "{name}");
        agrees(&desc, &rows);
    }
}

/// Every rule has its word: descriptions that break one, drawn until each was seen.
#[test]
fn has_a_word_for_every_rule() {
    let folder = Folder::new("rules");
    let rows = example("whole_run.rows");
    let mut rng = Rng::new(7);
    let mut seen = [false; 9];
    while seen.contains(&false) {
        let drawn = sample(&mut rng);
        if let Err(rule) = description::check(&drawn.bytes) {
            if !seen[usize::from(rule) - 1] {
                seen[usize::from(rule) - 1] = true;
                agrees(&folder.file("desc", &drawn.bytes), &rows);
            }
        }
    }
}

/// What was accepted before a refused row stands.
#[test]
fn names_the_row_that_is_refused() {
    let folder = Folder::new("rows");
    let desc = example("whole_run.desc");
    let amount = "field 1 (bytes 2 to 5) is malformed; refusal 6, extra number 1";
    let cases: [(&[u8], usize, &str); 5] = [
        (b"AA+005AA+007BB*002BB+009", 3, amount),
        (b"\x07A+005", 1, "field 0 (bytes 0 to 1) is malformed; refusal 6, extra number 0"),
        (b"AA 005AA 07 ", 2, amount),
        (b"AA+005AA+007BB-002BB", 4, "the record's length is 2, not 6; refusal 5, extra number 0"),
        (b"AA+005\n", 2, "the record's length is 1, not 6; refusal 5, extra number 0"),
    ];
    for (rows, row, words) in cases {
        let written = agrees(&desc, &folder.file("rows", rows));
        assert_eq!(written.errors, format!("sheet: row {row}: {words}\n"));
        assert_eq!(written.sheet.is_empty(), row == 1);
    }
}

// ---- the exit status, by `bin/sheet`

#[test]
fn bin_sheet_has_an_exit_status() {
    let folder = Folder::new("status");
    let [desc, rows] = ["whole_run.desc", "whole_run.rows"].map(example);
    let bad_row = folder.file("bad_row", b"AA+005AA*007");
    let none = folder.0.join("none");
    let words = |args: &[&Path]| args.iter().map(|path| path.to_path_buf()).collect::<Vec<_>>();
    let cases = [
        (words(&[&desc, &rows]), 0, 176, ""),
        (words(&[Path::new("--progress"), &desc, &rows]), 0, 176, "sheet: 4 rows\n"),
        (words(&[Path::new("--help")]), 0, HELP.len(), ""),
        (words(&[&desc, &bad_row]), 1, 44, "sheet: row 2: field 1 (bytes 2 to 5) is malformed"),
        (words(&[&rows, &rows]), 1, 0, "sheet: description breaks rule 1 (sections)"),
        (words(&[&desc, &none]), 1, 0, "sheet: "),
        (words(&[&desc]), 2, 0, USAGE),
    ];
    for (args, status, length, errors) in cases {
        let mut command = Command::new(Path::new(env!("CARGO_MANIFEST_DIR")).join("../bin/sheet"));
        let output = command.args(&args).output().expect("bin/sheet");
        assert_eq!(output.status.code(), Some(status), "{args:?}");
        assert_eq!(output.stdout.len(), length, "{args:?}");
        let told = String::from_utf8_lossy(&output.stderr);
        assert!(told.starts_with(errors) && told.is_empty() == errors.is_empty(), "{args:?}: {told}");
    }
}

// ---- random sheets

const SHEETS: usize = 200;

#[test]
fn random_sheets_are_the_second_programs() {
    let folder = Folder::new("random");
    let mut rng = Rng::new(2_026);
    let mut ends = [0usize; 3];
    while ends.iter().sum::<usize>() < SHEETS {
        let desc = accepted_description(&mut rng);
        let rows = random_rows(&mut rng, &desc);
        if rows.is_empty() {
            continue;
        }
        let written = agrees(&folder.file("desc", &desc), &folder.file("rows", &rows));
        let whole = usize::from(written.errors.is_empty());
        ends[if written.sheet.is_empty() { 2 } else { 1 - whole }] += 1;
    }
    println!("whole, refused in the middle, nothing printed: {ends:?}");
    assert!(ends[0] >= 50 && ends[1] >= 20, "{ends:?}");
}
