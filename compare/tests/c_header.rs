//! The header for C: C programs are compiled with it, linked with the libraries and print the examples.

use std::path::{Path, PathBuf};
use std::process::{Command, Output};

const STRICT: [&str; 5] = ["-std=c99", "-pedantic", "-Wall", "-Wextra", "-Werror"];

/// A file of this package or beside it.
fn at(path: &str) -> PathBuf {
    Path::new(env!("CARGO_MANIFEST_DIR")).join(path)
}

fn run(command: &mut Command) -> Output {
    command.output().unwrap_or_else(|error| panic!("{command:?}: {error}"))
}

fn shown(output: &Output) -> String {
    String::from_utf8_lossy(&output.stderr).into_owned()
}

/// Where the static libraries are; BAILCURLEW_STATICLIB names another folder, as for the Rust package.
fn library() -> PathBuf {
    std::env::var_os("BAILCURLEW_STATICLIB").map_or(at("../target/staticlib"), PathBuf::from)
}

/// Compiles a program of the folder `c` and links it with the static libraries named; gives the program. Tests run side by side,
/// so each names a file of its own.
fn compiled(name: &str, libraries: &[&str], file: &str) -> PathBuf {
    let program = Path::new(env!("CARGO_TARGET_TMPDIR")).join(file);
    let mut compiler = Command::new("cc");
    compiler.args(STRICT).arg("-O2").arg("-I").arg(at("../include")).arg(at(&format!("c/{name}.c")));
    compiler.arg("-L").arg(library()).args(libraries).arg("-o").arg(&program);
    let output = run(&mut compiler);
    assert!(output.status.success(), "{}", shown(&output));
    program
}

fn example(name: &str, kind: &str) -> PathBuf {
    at(&format!("../examples/{name}.{kind}"))
}

/// Runs a program on the files of an example and compares what it prints.
fn prints_the_example(program: &Path, name: &str, more: &[&str]) {
    let mut command = Command::new(program);
    command.arg(example(name, "desc")).arg(example(name, "rows")).args(more);
    let output = run(&mut command);
    assert!(output.status.success(), "{command:?}: {}", shown(&output));
    let sheet = std::fs::read(example(name, "sheet")).expect("the example's sheet");
    assert!(output.stdout == sheet, "{command:?}: {}", String::from_utf8_lossy(&output.stdout));
}

#[test]
fn a_c_program_prints_the_examples() {
    let program = compiled("sheet", &["-lreport_c"], "c_sheet");
    for name in ["whole_run", "day_sheet", "pictures"] {
        prints_the_example(&program, name, &[]);
    }
}

/// Both libraries in one program, in either order. In the smaller rooms the lines of one call fit, but not those of a long
/// chunk, which stops for want of output and is fed on.
#[test]
fn a_c_program_feeds_the_examples() {
    let orders = [(["-lfeeder_c", "-lreport_c"], "c_feed_1"), (["-lreport_c", "-lfeeder_c"], "c_feed_2")];
    for (libraries, file) in orders {
        let program = compiled("feed", &libraries, file);
        for (name, sizes, rooms) in [
            ("whole_run", ["1", "5", "6", "7", "4096"], ["100000", "44"]),
            ("day_sheet", ["1", "66", "67", "68", "4096"], ["100000", "900"]),
        ] {
            for size in sizes {
                rooms.iter().for_each(|room| prints_the_example(&program, name, &[size, room]));
            }
        }
    }
}

/// What the C program says where a chunk is too long, where a record's lines do not fit and where the last is unfinished.
#[test]
fn a_c_program_is_told_the_feeders_refusals() {
    let program = compiled("feed", &["-lreport_c", "-lfeeder_c"], "c_feed_refused");
    let unfinished = Path::new(env!("CARGO_TARGET_TMPDIR")).join("unfinished.rows");
    std::fs::write(&unfinished, b"AA+005AA+0").expect("a temporary file");
    let whole = example("whole_run", "rows");
    let long = example("day_sheet", "rows");
    for (rows, size, room, message) in [
        (&whole, "0", "200", "feed: refusal 18, extra number 0\n"),
        (&long, "4097", "200", "feed: refusal 18, extra number 0\n"),
        (&whole, "4096", "43", "feed: refusal 9, extra number 0\n"),
        (&unfinished, "4096", "200", "TERMINATE: refusal 10, extra number 4\n"),
    ] {
        let mut command = Command::new(&program);
        let output = run(command.arg(example("whole_run", "desc")).arg(rows).args([size, room]));
        assert_eq!((output.status.code(), shown(&output).as_str()), (Some(1), message), "{command:?}");
    }
}

/// Two agents with the example's rows, the second by any number but 0: lines of each one's code are the example's sheet.
#[test]
fn a_c_program_prints_two_sheets_in_one() {
    let program = compiled("report_file", &["-lreport_file_c"], "c_report_file");
    for name in ["whole_run", "day_sheet", "pictures"] {
        let sheet = std::fs::read(example(name, "sheet")).expect("the example's sheet");
        let width = 1 + sheet.iter().position(|&byte| byte == b'\n').expect("a line");
        for second in ["1", "2", "256", "2147483648", "4294967295"] {
            let output = two_sheets(&program, name, second, "1000000");
            assert!(output.status.success(), "{}", shown(&output));
            for code in [b"NO", b"SO"] {
                let lines = output.stdout.chunks(width + 2).filter_map(|line| line.strip_prefix(code));
                let taken: Vec<u8> = lines.flatten().copied().collect();
                assert!(taken == sheet, "{name}, second agent {second}");
            }
        }
    }
}

/// What the C program says where the second agent is the first again, and where the common output is a byte too short.
#[test]
fn a_c_program_is_told_the_report_files_refusals() {
    let program = compiled("report_file", &["-lreport_c", "-lreport_file_c"], "c_report_file_refused");
    for (second, room, message, printed) in [
        ("0", "1000", "INITIATE: refusal 3, extra number 0\n", 0),
        ("1", "383", "TERMINATE: refusal 9, extra number 0\n", 360),
        ("1", "47", "GENERATE: refusal 9, extra number 0\n", 0),
    ] {
        let output = two_sheets(&program, "whole_run", second, room);
        let told = (output.status.code(), shown(&output), output.stdout.len());
        assert_eq!(told, (Some(1), message.to_string(), printed));
    }
    assert!(two_sheets(&program, "whole_run", "1", "384").status.success());
}

fn two_sheets(program: &Path, name: &str, second: &str, room: &str) -> Output {
    let rows = example(name, "rows");
    run(Command::new(program).arg(example(name, "desc")).args([&rows, &rows]).args([second, room]))
}

/// The examples' sheets, read and printed again, and kept whole by a repair.
#[test]
fn a_c_program_reads_the_examples_back() {
    let program = compiled("read", &["-lreader_c"], "c_read");
    for (name, w) in [("whole_run", "12"), ("day_sheet", "80"), ("pictures", "56")] {
        let sheet = std::fs::read(example(name, "sheet")).expect("the example's sheet");
        let output =
            run(Command::new(&program).arg(example(name, "sheet")).args([w, &sheet.len().to_string()]));
        assert_eq!((output.status.code(), shown(&output)), (Some(0), String::new()));
        assert!(output.stdout == [sheet.as_slice(), &sheet].concat(), "{name}");
    }
}

/// What the C program tells of a damaged sheet, of too little room for the list and of a width out of range.
#[test]
fn a_c_program_repairs_a_sheet() {
    let program = compiled("read", &["-lreport_c", "-lreader_c"], "c_repair");
    let damaged = Path::new(env!("CARGO_TARGET_TMPDIR")).join("damaged.sheet");
    std::fs::write(&damaged, b"000001001a\n00000100b\n\n000001001c\n00000").expect("a temporary file");
    for (w, room, code, told, printed) in [
        (
            "1",
            "27",
            0,
            "read: refusal 12, extra number 11\n",
            "000001001a\n000001001a\n11 form\n22 order\n33 form\n",
        ),
        (
            "1",
            "26",
            1,
            "read: refusal 12, extra number 11\nrepair: refusal 9, extra number 0\n",
            "000001001a\n",
        ),
        ("133", "27", 1, "read: refusal 12, extra number 0\nrepair: refusal 12, extra number 0\n", ""),
    ] {
        let output = run(Command::new(&program).arg(&damaged).args([w, room]));
        assert_eq!((output.status.code(), shown(&output).as_str()), (Some(code), told));
        assert_eq!(String::from_utf8_lossy(&output.stdout), printed);
    }
}

/// The header alone, as C and as C++ where there is a compiler for it.
#[test]
fn the_header_stands_alone() {
    let header = at("../include/bailcurlew.h");
    let c = run(Command::new("cc").args(STRICT).args(["-fsyntax-only", "-x", "c"]).arg(&header));
    assert!(c.status.success(), "{}", shown(&c));
    let strict = &STRICT[1..];
    match Command::new("c++").args(strict).args(["-fsyntax-only", "-x", "c++"]).arg(&header).output() {
        Ok(cpp) => assert!(cpp.status.success(), "{}", shown(&cpp)),
        Err(error) => println!("no C++ compiler: {error}"),
    }
}
