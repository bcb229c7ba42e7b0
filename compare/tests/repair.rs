//! `repair` as a user runs it: damaged sheets, what is kept of them and what is told, held to the second program.

mod program;
mod read_back;

use std::fs;
use std::path::Path;

use program::{example, Folder, Written};
use read_back::{fed, in_little_memory, part_of, run, sheet_of, status, text, width_in};
use second::cases::damage::{damage, KINDS};
use second::cases::{repair_case, Rng};
use second::repair::{repaired, FORM};

const USAGE: &str = "usage: repair [W] SHEET|- [-o FILE]\n";

/// `--help` says this behind the usage.
const HELP: &str = "
Prints a damaged sheet without its damage: of each W + 10 bytes from the start, those that are a well-formed record with
a later page, or a later line on the same page, than the last one kept. What is dropped is told on standard error, a
line each, and at the end how many were kept and dropped; of a sheet without damage nothing is told. W is the width of
the text, 1 to 132; where it is left out, the first line end of the sheet shows it. Records count from 1, bytes from 0.

  -o FILE  put the repaired sheet into FILE, which is made for it: a file that is there already is left as it is; the
           option may stand in front too
  -        take the sheet from standard input (a file of this name is ./-)
  --help   print this
";

// ---- what it must write, by the second program

/// The repaired sheet, and a line for each record that is dropped.
fn mended(sheet: &[u8], w: usize) -> Written {
    let size = w + 10;
    let answer = repaired(sheet, w).expect("a width");
    let mut errors = String::new();
    let mut form = 0;
    for dropped in &answer.dropped {
        let at = dropped.offset as usize;
        let what = match sheet.len() - at {
            _ if dropped.reason != FORM => "is out of order".into(),
            left if left < size => format!("is cut off: {left} of {size} bytes came"),
            _ => "is not well-formed".into(),
        };
        form += usize::from(dropped.reason == FORM);
        errors += &format!("repair: record {} (byte {at}) {what}\n", at / size + 1);
    }
    let (kept, dropped) = (answer.copy.len() / size, answer.dropped.len());
    if dropped > 0 {
        let order = dropped - form;
        errors += &format!(
            "repair: {kept} kept, {dropped} dropped: {form} not well-formed, {order} out of order\n"
        );
    }
    Written { sheet: answer.copy, errors }
}

fn same(told: &Written, expected: &Written) {
    assert_eq!(told.errors, expected.errors);
    assert!(told.sheet == expected.sheet, "{}", String::from_utf8_lossy(&told.sheet));
}

/// Repairs a sheet with its width, and without where its first record shows the same.
fn agrees(folder: &Folder, sheet: &[u8], w: usize) -> Written {
    let file = folder.file("sheet", sheet);
    let expected = mended(sheet, w);
    same(&run("repair", &[&w.to_string(), text(&file)]), &expected);
    if width_in(sheet) == Some(w) {
        same(&run("repair", &[text(&file)]), &expected);
    }
    expected
}

// ---- sheets

/// Sheets of one report, which stay as they are.
#[test]
fn keeps_the_examples() {
    let folder = Folder::new("repair-examples");
    for name in ["whole_run", "day_sheet", "pictures"] {
        let sheet = fs::read(example(&format!("{name}.sheet"))).expect("the example");
        let w = width_in(&sheet).expect("a width");
        let whole = Written { sheet: sheet.clone(), errors: String::new() };
        assert!(agrees(&folder, &sheet, w) == whole, "{name}");
        assert!(
            fed("repair", &["-"], &sheet) == whole && fed("repair", &[&w.to_string(), "-"], &sheet) == whole
        );
    }
}

/// The damage that `examples/README.md` tells of.
fn damaged_day_sheet() -> Vec<u8> {
    let sheet = fs::read(example("day_sheet.sheet")).expect("the example");
    let mut records: Vec<&[u8]> = sheet.chunks(90).collect();
    records.insert(30, records[29]);
    records.swap(99, 100);
    let mut damaged = records.concat();
    damaged[11 * 90] ^= 0x40;
    damaged.truncate(damaged.len() - 50);
    damaged
}

#[test]
fn repairs_the_example() {
    let folder = Folder::new("repair-example");
    let sheet = fs::read(example("damaged.sheet")).expect("the example");
    assert!(sheet == damaged_day_sheet(), "examples/damaged.sheet");
    let told = agrees(&folder, &sheet, 80);
    let lines = "\
repair: record 12 (byte 990) is not well-formed
repair: record 31 (byte 2700) is out of order
repair: record 101 (byte 9000) is out of order
repair: record 357 (byte 32040) is cut off: 40 of 90 bytes came
repair: 353 kept, 4 dropped: 2 not well-formed, 2 out of order
";
    assert_eq!(told.errors, lines);
    // Of the day sheet, the record with the wrong byte, the later one of the two that were swapped, and the last one are lost.
    let day = fs::read(example("day_sheet.sheet")).expect("the example");
    let lost = [11, 98, 355];
    let left = day.chunks(90).enumerate().filter(|(k, _)| !lost.contains(k));
    assert!(told.sheet == left.map(|(_, record)| record).collect::<Vec<_>>().concat());
    let readme = fs::read_to_string(example("README.md")).expect("examples/README.md");
    for line in lines.lines() {
        assert!(readme.contains(line), "examples/README.md: {line}");
    }
}

const CASES: u64 = 50;

#[test]
fn random_sheets_and_damaged_copies() {
    let folder = Folder::new("repair-random");
    let mut met = [0; 4];
    for seed in 1_000..1_000 + CASES {
        let case = repair_case(seed);
        let w = case.sheet.w;
        let whole = agrees(&folder, &case.sheet.bytes, w);
        if case.sheet.reports == 1 {
            assert_eq!(whole, Written { sheet: case.sheet.bytes.clone(), errors: String::new() });
        }
        for copy in &case.copies {
            let told = agrees(&folder, &copy.bytes, w).errors;
            let words =
                ["is not well-formed", "is out of order", "is cut off"].map(|word| told.contains(word));
            for (count, is_met) in met.iter_mut().zip(words.iter().chain([&told.is_empty()])) {
                *count += usize::from(*is_met);
            }
        }
    }
    println!("form, order, cut off, nothing: {met:?}");
    assert!(met.iter().all(|&count| count > 10), "{met:?}");
}

/// A sheet in several parts, damaged at their borders: a byte, a record repeated, two swapped, the end cut.
#[test]
fn sheets_of_several_parts() {
    let folder = Folder::new("repair-parts");
    for w in [1, 71, 132] {
        let (size, part) = (w + 10, part_of(w));
        let sheet = sheet_of(7 * part + 3, w);
        assert!(sheet.len() > 200_000);
        assert_eq!(agrees(&folder, &sheet, w).errors, "");
        for border in [part, 3 * part, 7 * part] {
            let of = |k: usize| k * size..(k + 1) * size;
            let mut wrong = sheet.clone();
            for k in [border - 1, border, border + 1] {
                wrong[k * size + 9] = 7;
            }
            let mut repeated = sheet.clone();
            repeated.splice(border * size..border * size, sheet[of(border - 1)].iter().copied());
            let mut swapped = sheet.clone();
            swapped[of(border - 1)].copy_from_slice(&sheet[of(border)]);
            swapped[of(border)].copy_from_slice(&sheet[of(border - 1)]);
            for (damaged, dropped) in [(wrong, 3), (repeated, 1), (swapped, 1)] {
                let told = agrees(&folder, &damaged, w).errors;
                assert_eq!(told.lines().count(), dropped + 1, "{told}");
                assert!(fed("repair", &["-"], &damaged) == mended(&damaged, w));
            }
            for end in [border * size - 1, border * size, border * size + 1] {
                agrees(&folder, &sheet[..end], w);
            }
        }
    }
}

/// Damage of every kind, many times over, to a sheet in several parts.
#[test]
fn random_damage_in_several_parts() {
    let folder = Folder::new("repair-many");
    let mut rng = Rng::new(8);
    for kind in KINDS {
        let mut sheet = sheet_of(4_000, 60);
        for _ in 0..rng.between(1, 40) {
            damage(&mut rng, &mut sheet, 60, kind);
        }
        agrees(&folder, &sheet, 60);
    }
}

// ---- the file for the copy

#[test]
fn puts_the_copy_into_a_file() {
    let folder = Folder::new("repair-file");
    let damaged = example("damaged.sheet");
    let out = folder.0.join("out");
    let expected = mended(&fs::read(&damaged).expect("the example"), 80);
    let [file, sheet] = [text(&out), text(&damaged)];
    let orders = [
        &["-o", file, sheet][..],
        &["-o", file, "80", sheet],
        &[sheet, "-o", file],
        &["80", sheet, "-o", file],
    ];
    for args in orders {
        assert_eq!(run("repair", args), Written::errors(expected.errors.clone()));
        assert!(fs::read(&out).expect("the copy") == expected.sheet);
        fs::remove_file(&out).expect("the copy");
    }
    for args in [&["-o", text(&out), "-"][..], &["-o", text(&out), "5", "-"]] {
        assert_eq!(fed("repair", args, b""), Written::errors(String::new()));
        assert_eq!(fs::read(&out).expect("the copy"), b"");
        fs::remove_file(&out).expect("the copy");
    }
}

/// A file that is there is left as it is: also the sheet itself, however it is named.
#[test]
fn overwrites_nothing() {
    let folder = Folder::new("repair-itself");
    let bytes = damaged_day_sheet();
    let sheet = folder.file("sheet", &bytes);
    let other = folder.file("other", b"mine");
    let [soft, hard, dotted] = ["soft", "hard", "./sheet"].map(|name| folder.0.join(name));
    std::os::unix::fs::symlink(&sheet, &soft).expect("a link");
    fs::hard_link(&sheet, &hard).expect("a link");
    for out in [&sheet, &other, &soft, &hard, &dotted, &folder.0] {
        let told = format!("repair: {}: File exists\n", out.display());
        assert_eq!(run("repair", &["-o", text(out), text(&sheet)]), Written::errors(told));
    }
    assert!(fs::read(&sheet).expect("the sheet") == bytes && fs::read(&other).expect("the file") == b"mine");
}

#[test]
fn makes_no_file_where_nothing_can_be_done() {
    let folder = Folder::new("repair-none");
    let out = folder.0.join("out");
    let bad = folder.file("bad", b"no line end");
    for args in [&["133", text(&bad)][..], &[text(&bad)], &["none"], &["5", text(&folder.0.join("none"))]] {
        let told = run("repair", &[&["-o", text(&out)], args].concat());
        assert!(
            told.sheet.is_empty() && told.errors.lines().count() == 1 && !out.exists(),
            "{args:?}: {told:?}"
        );
    }
    let inside = bad.join("out");
    let told = format!("repair: {}: Not a directory\n", inside.display());
    assert_eq!(run("repair", &["-o", text(&inside), "1", text(&bad)]), Written::errors(told));
}

// ---- wrong usage, widths and files

#[test]
fn says_its_usage() {
    let wrong: [&[&str]; 12] = [
        &[],
        &["80", "sheet", "more"],
        &["", "sheet"],
        &["+80", "sheet"],
        &["8o", "sheet"],
        &["--fast", "sheet"],
        &["-o"],
        &["-o", "out"],
        &["-o", "out", "80", "sheet", "more"],
        &["-o", "out", "W", "sheet"],
        &["-o", "out", "-o", "sheet"],
        &["80", "sheet", "more", "-o", "out"],
    ];
    read_back::says_its_usage("repair", USAGE, HELP, &wrong);
    assert!(!Path::new("out").exists());
}

#[test]
fn says_a_width_that_it_refuses() {
    read_back::says_a_width_that_it_refuses("repair");
}

#[test]
fn takes_an_empty_sheet() {
    read_back::takes_an_empty_sheet("repair");
}

#[test]
fn names_a_file_that_it_cannot_read() {
    read_back::names_a_file_that_it_cannot_read("repair");
}

/// Then no count is told.
#[test]
fn says_that_it_cannot_write() {
    read_back::says_that_it_cannot_write("repair");
}

// ---- the exit status, by `bin/repair`

#[test]
fn the_command_has_an_exit_status() {
    let folder = Folder::new("repair-status");
    let [sheet, damaged] = ["day_sheet.sheet", "damaged.sheet"].map(example);
    let out = folder.0.join("out");
    let [sheet, damaged, out] = [&sheet, &damaged, &out].map(|path| text(path));
    let exists = format!("repair: {out}: File exists\n");
    let dropped = mended(&damaged_day_sheet(), 80).errors;
    let cases: [(&[&str], i32, &str); 9] = [
        (&[sheet], 0, ""),
        (&["-o", out, "80", sheet], 0, ""),
        (&["-o", out, sheet], 1, &exists),
        (&["--help"], 0, ""),
        (&[damaged], 1, &dropped),
        (&["80", damaged], 1, &dropped),
        (&["0", sheet], 1, "repair: W is 0, not 1 to 132; refusal 12, extra number 0\n"),
        (&["none"], 1, "repair: none: No such file or directory\n"),
        (&["-o", out], 2, USAGE),
    ];
    for (args, code, told) in cases {
        assert_eq!(status("repair", args), (Some(code), told.into()), "{args:?}");
    }
}

// ---- large files

#[test]
fn a_million_lines_take_little_memory() {
    let folder = Folder::new("repair-large");
    let mut bytes = sheet_of(1_000_000, 71);
    (0..100).for_each(|k| bytes[k * 810_081 + 9] = 7);
    let sheet = folder.file("sheet", &bytes);
    let out = folder.0.join("copy");
    let expected = mended(&bytes, 71);
    assert_eq!(in_little_memory("repair", &[text(&sheet)], &out), Written::errors(expected.errors));
    assert!(fs::read(&out).expect("the copy") == expected.sheet);
}
