//! `read` as a user runs it: printed sheets read back, up to the first record that is not well-formed.

mod program;
mod read_back;

use std::fs;

use program::{example, Folder, Written};
use read_back::{fed, in_little_memory, part_of, run, sheet_of, status, text, width_in};
use second::cases::repair_case;
use second::read::{Read, Walker};

const USAGE: &str = "usage: read [W] SHEET|-\n";

/// `--help` says this behind the usage.
const HELP: &str = "
Prints a sheet to be read, a line for each record: its page in 6 columns, its line in 3, its text. W is the width of the
text, 1 to 132; where it is left out, the first line end of the sheet shows it. A record that is not well-formed is told
on standard error and ends the work; what stands before it is printed. Records count from 1, bytes from 0.

  -       take the sheet from standard input (a file of this name is ./-)
  --help  print this
";

// ---- what it must write, by the second program

/// The lines of a sheet, up to a record that is refused.
fn lines(sheet: &[u8], w: usize) -> Written {
    let mut walker = Walker::new(sheet, w);
    let mut written = Written::errors(String::new());
    loop {
        let at = walker.place();
        match walker.step() {
            Ok(Read::End) => return written,
            Ok(Read::Record(record)) => {
                written.sheet.extend(format!("{:>6} {:>3}  ", record.page, record.line).bytes());
                written.sheet.extend(walker.text(&record));
                written.sheet.push(b'\n');
            }
            Err(refusal) => {
                let (number, size) = (at / (w + 10) + 1, w + 10);
                let what = match sheet.len() - at {
                    left if left < size => format!("is cut off: {left} of {size} bytes came"),
                    _ => "is not well-formed".into(),
                };
                assert_eq!(refusal.extra, at as u64);
                written.errors = format!(
                    "read: record {number} (byte {at}) {what}; refusal {}, extra number {at}\n",
                    refusal.number
                );
                return written;
            }
        }
    }
}

/// Reads a sheet with its width, and without where its first record shows the same.
fn agrees(folder: &Folder, sheet: &[u8], w: usize) -> Written {
    let file = folder.file("sheet", sheet);
    let expected = lines(sheet, w);
    let width = w.to_string();
    let told = run("read", &[&width, text(&file)]);
    assert_eq!(told.errors, expected.errors);
    assert!(told.sheet == expected.sheet, "{}", String::from_utf8_lossy(&told.sheet));
    if width_in(sheet) == Some(w) {
        assert!(run("read", &[text(&file)]) == expected);
    }
    expected
}

// ---- sheets

#[test]
fn reads_the_examples() {
    let folder = Folder::new("read-examples");
    for name in ["whole_run", "day_sheet", "two_reports", "pictures"] {
        let sheet = fs::read(example(&format!("{name}.sheet"))).expect("the example");
        let w = width_in(&sheet).expect("a width");
        let read = agrees(&folder, &sheet, w);
        assert_eq!(read.errors, "", "{name}");
        assert_eq!(read.sheet.len(), sheet.len() / (w + 10) * (w + 13));
        assert_eq!(fed("read", &["-"], &sheet), read);
        assert_eq!(fed("read", &[&w.to_string(), "-"], &sheet), read);
    }
}

#[test]
fn shows_page_line_and_text_in_columns() {
    let sheet = b"000001001 a \n000001012~  \n012345999   \n999999001x y\n";
    let lines = "     1   1   a \n     1  12  ~  \n 12345 999     \n999999   1  x y\n";
    assert_eq!(fed("read", &["-"], sheet), Written { sheet: lines.into(), errors: String::new() });
}

/// Every byte of a record at the limits of what may stand there.
#[test]
fn refuses_a_byte_by_the_place_of_its_record() {
    let folder = Folder::new("read-bytes");
    let sheet = sheet_of(3, 4);
    let mut refused = 0;
    for at in 14..28 {
        for byte in [0, 9, 10, 11, 31, 32, 47, 48, 57, 58, 126, 127, 128, 255] {
            let mut wrong = sheet.clone();
            wrong[at] = byte;
            refused += usize::from(!agrees(&folder, &wrong, 4).errors.is_empty());
        }
    }
    // Other than digits; a page and a line 0; other than 32 to 126; other than 10.
    assert_eq!(refused, 9 * 12 + 2 + 4 * 8 + 13);
}

/// Zero is no page and no line; a page may fall, since the reader does not ask for an order.
#[test]
fn refuses_page_and_line_zero() {
    let folder = Folder::new("read-zero");
    for (record, is_good) in [("000000001a\n", false), ("000001000a\n", false), ("000001001a\n", true)] {
        let sheet = format!("000009009a\n{record}000001001b\n");
        assert_eq!(agrees(&folder, sheet.as_bytes(), 1).errors.is_empty(), is_good);
    }
}

const CASES: u64 = 50;

#[test]
fn random_sheets_and_damaged_copies() {
    let folder = Folder::new("read-random");
    let (mut whole, mut refused, mut cut) = (0, 0, 0);
    for seed in 0..CASES {
        let case = repair_case(seed);
        assert_eq!(agrees(&folder, &case.sheet.bytes, case.sheet.w).errors, "", "{seed}");
        for copy in &case.copies {
            let told = agrees(&folder, &copy.bytes, case.sheet.w).errors;
            whole += usize::from(told.is_empty());
            refused += usize::from(told.contains("is not well-formed"));
            cut += usize::from(told.contains("is cut off"));
        }
    }
    println!("whole, refused, cut off: {whole} {refused} {cut}");
    assert!(whole > 20 && refused > 120 && cut > 20, "{whole} {refused} {cut}");
}

/// A sheet in several parts, with a bad record at their borders, and cut there.
#[test]
fn sheets_of_several_parts() {
    let folder = Folder::new("read-parts");
    for w in [1, 71, 132] {
        let (size, part) = (w + 10, part_of(w));
        let sheet = sheet_of(7 * part + 3, w);
        assert!(sheet.len() > 200_000);
        assert_eq!(agrees(&folder, &sheet, w).errors, "");
        for record in [part - 1, part, part + 1, 3 * part - 1, 3 * part, 7 * part - 1, 7 * part] {
            let mut wrong = sheet.clone();
            wrong[record * size + 9] = 7;
            assert!(agrees(&folder, &wrong, w).errors.contains(&format!("record {} ", record + 1)));
            let end = record * size;
            assert_eq!(agrees(&folder, &sheet[..end], w).errors, "");
            assert!(agrees(&folder, &sheet[..end + 1], w).errors.contains("1 of "));
        }
        assert_eq!(fed("read", &["-"], &sheet), lines(&sheet, w));
    }
}

// ---- wrong usage, widths and files

#[test]
fn says_its_usage() {
    let wrong: [&[&str]; 9] = [
        &[],
        &["80", "sheet", "more"],
        &["", "sheet"],
        &["+80", "sheet"],
        &["-80", "sheet"],
        &["8o", "sheet"],
        &["80.", "sheet"],
        &["--fast"],
        &["--fast", "sheet"],
    ];
    read_back::says_its_usage("read", USAGE, HELP, &wrong);
}

#[test]
fn says_a_width_that_it_refuses() {
    read_back::says_a_width_that_it_refuses("read");
}

#[test]
fn takes_an_empty_sheet() {
    read_back::takes_an_empty_sheet("read");
}

#[test]
fn names_a_file_that_it_cannot_read() {
    read_back::names_a_file_that_it_cannot_read("read");
}

#[test]
fn says_that_it_cannot_write() {
    read_back::says_that_it_cannot_write("read");
}

// ---- the exit status, by `bin/read`

#[test]
fn the_command_has_an_exit_status() {
    let folder = Folder::new("read-status");
    let [sheet, damaged] = ["day_sheet.sheet", "damaged.sheet"].map(example);
    let short = folder.file("short", b"000001001abc\n0000");
    let [sheet, damaged, short] = [&sheet, &damaged, &short].map(|path| text(path));
    let cases: [(&[&str], i32, &str); 9] = [
        (&[sheet], 0, ""),
        (&["80", sheet], 0, ""),
        (&["--help"], 0, ""),
        (&[damaged], 1, "read: record 12 (byte 990) is not well-formed; refusal 12, extra number 990\n"),
        (&["79", sheet], 1, "read: record 1 (byte 0) is not well-formed; refusal 12, extra number 0\n"),
        (
            &[short],
            1,
            "read: record 2 (byte 13) is cut off: 4 of 13 bytes came; refusal 12, extra number 13\n",
        ),
        (&["133", sheet], 1, "read: W is 133, not 1 to 132; refusal 12, extra number 0\n"),
        (&["none"], 1, "read: none: No such file or directory\n"),
        (&["W", sheet], 2, USAGE),
    ];
    for (args, code, told) in cases {
        assert_eq!(status("read", args), (Some(code), told.into()), "{args:?}");
    }
}

// ---- large files

#[test]
fn a_million_lines_take_little_memory() {
    let folder = Folder::new("read-large");
    let sheet = folder.file("sheet", &sheet_of(1_000_000, 71));
    let out = folder.0.join("lines");
    assert_eq!(in_little_memory("read", &[text(&sheet)], &out), Written::errors(String::new()));
    assert_eq!(fs::metadata(&out).expect("the lines").len(), 1_000_000 * 84);
}
