//! The wrapper's reader, walker and repair tool: the examples' sheets read back, what refusals say and leave, and the example
//! program.

use std::fs;
use std::path::{Path, PathBuf};
use std::process::{Command, Output};

use bailcurlew::{read, repair, Reading, Record, Refusal, Repaired, Walker, ENTRY_BYTES, FORM, ORDER};

/// The examples of one report each, and the characters of their lines.
const SHEETS: [(&str, usize); 3] = [("whole_run", 12), ("day_sheet", 80), ("pictures", 56)];

fn example(name: &str) -> PathBuf {
    Path::new(env!("CARGO_MANIFEST_DIR")).join("../examples").join(name)
}

fn sheet(name: &str) -> Vec<u8> {
    fs::read(example(&format!("{name}.sheet"))).expect("an example")
}

fn bad_width() -> Refusal {
    Refusal { number: 12, extra: 0 }
}

fn bad_record(at: u64) -> Refusal {
    Refusal { number: 12, extra: at }
}

fn accepted(copied: usize, listed: usize) -> Repaired {
    Repaired { number: 0, extra: 0, copied, listed }
}

fn refused(number: u64) -> Repaired {
    Repaired { number, extra: 0, copied: 0, listed: 0 }
}

fn entry(offset: u64, why: u8) -> Vec<u8> {
    [&offset.to_le_bytes()[..], &[why]].concat()
}

// ---- read

/// Page, line and text of every record, put together again, are the sheet.
#[test]
fn reads_the_examples_back() {
    for (name, w) in SHEETS {
        let sheet = sheet(name);
        let mut walker = Walker::new(&sheet, w);
        let mut again = Vec::new();
        let mut last = (0, 0);
        for record in walker.by_ref() {
            let Record { page, line, text, text_at, next } = record.expect("a record");
            assert_eq!(
                (text.len(), &sheet[text_at..text_at + w], next - text_at),
                (w, text, w + 1),
                "{name}"
            );
            assert!(last < (page, line), "{name}");
            last = (page, line);
            again.extend(format!("{page:06}{line:03}").bytes());
            again.extend(text);
            again.push(b'\n');
        }
        assert!(again == sheet, "{name}");
        assert_eq!((walker.place(), walker.next()), (sheet.len(), None));
        assert_eq!(read(&sheet, sheet.len(), w), Ok(Reading::End));
    }
}

#[test]
fn a_record_end_and_refusal_are_told_apart() {
    let sheet = b"000001001a\n999999999~\n";
    let first = Record { page: 1, line: 1, text: b"a", text_at: 9, next: 11 };
    let last = Record { page: 999_999, line: 999, text: b"~", text_at: 20, next: 22 };
    assert_eq!(read(sheet, 0, 1), Ok(Reading::Record(first)));
    assert_eq!(read(sheet, 11, 1), Ok(Reading::Record(last)));
    assert_eq!(read(sheet, 22, 1), Ok(Reading::End));
    assert_eq!(read(b"", 0, 132), Ok(Reading::End));
    for at in [1, 12, 21, 23, usize::MAX] {
        assert_eq!(read(sheet, at, 1), Err(bad_record(at as u64)));
    }
    // The width is tried first, and a bad record's place may be 0 as well.
    for at in [0, 1, 22, usize::MAX] {
        for w in [0, 133, usize::MAX] {
            assert_eq!(read(sheet, at, w), Err(bad_width()));
        }
    }
    assert_eq!(read(sheet, 0, 132), Err(bad_record(0)));
}

/// Each part of a record, one byte past what may stand there.
#[test]
fn a_bad_byte_is_refused_by_the_records_place() {
    let good = b"000001001ab\n";
    for (at, byte) in [
        (0, b'/'),
        (5, b':'),
        (5, b'0'),
        (6, b' '),
        (8, b'0'),
        (9, 31),
        (10, 127),
        (10, 10),
        (11, 13),
        (11, 0),
    ] {
        let mut sheet = [*good, *good].concat();
        sheet[12 + at] = byte;
        assert_eq!(read(&sheet, 12, 2), Err(bad_record(12)), "{at}: {byte}");
        let mut walker = Walker::new(&sheet, 2);
        assert!(matches!(walker.next(), Some(Ok(Record { page: 1, line: 1, text: b"ab", .. }))));
        assert_eq!(walker.next(), Some(Err(bad_record(12))));
        assert_eq!((walker.next(), walker.next(), walker.place()), (None, None, 12));
    }
    let mut walker = Walker::new(good, 0);
    assert_eq!((walker.next(), walker.next()), (Some(Err(bad_width())), None));
}

// ---- repair

/// A sheet of one report as it was printed: all kept, nothing listed, the bytes behind stay.
#[test]
fn an_undamaged_sheet_stays() {
    for (name, w) in SHEETS {
        let sheet = sheet(name);
        let mut copy = vec![7; sheet.len() + 3];
        let mut list = [7; 9];
        assert_eq!(repair(&sheet, w, &mut copy, &mut list), accepted(sheet.len(), 0));
        assert!(copy[..sheet.len()] == sheet, "{name}");
        assert_eq!((&copy[sheet.len()..], list), (&[7; 3][..], [7; 9]));
        // and without the room for a byte of a list
        assert_eq!(repair(&sheet, w, &mut copy, &mut []), accepted(sheet.len(), 0));
    }
}

/// A blot, a record once more, one from a page before and a short tail.
#[test]
fn what_is_dropped_is_listed() {
    let sheet = b"000001001a\n000002001b\n00000200\x07c\n000002001d\n000001009e\n000002002f\n000003";
    let kept = b"000001001a\n000002001b\n000002002f\n";
    let entries = [entry(22, FORM), entry(33, ORDER), entry(44, ORDER), entry(66, FORM)].concat();
    let (mut copy, mut list) = ([7; 40], [7; 40]);
    assert_eq!(repair(sheet, 1, &mut copy, &mut list), accepted(33, 36));
    assert_eq!((&copy[..33], &copy[33..]), (&kept[..], &[7; 7][..]));
    assert_eq!((&list[..36], &list[36..]), (&entries[..], &[7; 4][..]));
    let repaired = copy[..33].to_vec();
    assert_eq!(repair(&repaired, 1, &mut copy, &mut list), accepted(33, 0));
}

#[test]
fn a_refused_repair_leaves_all_as_it_was() {
    let sheet = b"000001001a\n000001001b\n";
    let (mut copy, mut list) = ([7; 11], [7; ENTRY_BYTES]);
    for w in [0, 133, usize::MAX] {
        assert_eq!(repair(sheet, w, &mut copy, &mut list), refused(12));
        assert_eq!(repair(sheet, w, &mut [], &mut []), refused(12));
    }
    assert_eq!(repair(sheet, 1, &mut copy[..10], &mut list), refused(9));
    assert_eq!(repair(sheet, 1, &mut copy, &mut list[..8]), refused(9));
    assert_eq!(repair(sheet, 1, &mut [], &mut []), refused(9));
    assert_eq!((copy, list), ([7; 11], [7; ENTRY_BYTES]));
    assert_eq!(repair(sheet, 1, &mut copy, &mut list), accepted(11, 9));
    assert_eq!((&copy, list.to_vec()), (b"000001001a\n", entry(11, ORDER)));
    assert_eq!(repair(b"", 1, &mut [], &mut []), accepted(0, 0));
}

// ---- the example program

/// `cargo test` builds the examples beside the tests; `cargo test --test read` alone does not.
fn program() -> Command {
    let mut path = std::env::current_exe().expect("the test's own path");
    path.pop();
    path.pop();
    let program = path.join("examples/read");
    assert!(
        program.exists(),
        "{program:?}: build it with cargo build --example read, with --release as the test"
    );
    Command::new(program)
}

fn ends(output: &Output, code: i32, message: &str) {
    let told = String::from_utf8_lossy(&output.stderr).into_owned();
    assert_eq!((output.status.code(), told.as_str()), (Some(code), message));
}

fn temporary(name: &str) -> PathBuf {
    Path::new(env!("CARGO_TARGET_TMPDIR")).join(name)
}

#[test]
fn the_program_tells_the_records() {
    let told = |path: &Path, w: &str| program().arg(path).arg(w).output().expect("the example program");
    let output = told(&example("whole_run.sheet"), "12");
    ends(&output, 0, "");
    let text = String::from_utf8_lossy(&output.stdout).into_owned();
    assert!(text.starts_with("page 1 line 1: PAGE  1     \npage 1 line 3: AA      5   \n"), "{text}");
    assert_eq!(text.lines().count(), 8);
    let bad = temporary("bad.sheet");
    fs::write(&bad, b"000001001a\n00000100x\n").expect("a temporary file");
    let output = told(&bad, "1");
    ends(&output, 1, "read: no well-formed record at 11\n");
    assert_eq!(output.stdout, b"page 1 line 1: a\n");
    ends(&told(&bad, "0"), 1, "read: a line has 1 to 132 characters\n");
    ends(&told(&bad, "x"), 1, "read: no number: \"x\"\n");
    ends(&program().output().expect("the example program"), 2, "usage: read SHEET W [COPY]\n");
}

#[test]
fn the_program_repairs() {
    let [damaged, copy] = ["damaged.sheet", "copy.sheet"].map(temporary);
    fs::write(&damaged, b"000001001a\n00000100x\n000001001b\n000001001c\n").expect("a temporary file");
    let output = program().arg(&damaged).arg("1").arg(&copy).output().expect("the example program");
    ends(&output, 0, "");
    assert_eq!(output.stdout, b"dropped at 11: form\ndropped at 22: form\ndropped at 33: form\n");
    assert_eq!(fs::read(&copy).expect("the copy"), b"000001001a\n");
    let output = program().arg(&damaged).arg("133").arg(&copy).output().expect("the example program");
    ends(&output, 1, "read: a line has 1 to 132 characters\n");
}
