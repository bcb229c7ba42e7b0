//! The command line: what it prints, where, and its exit code; bad input above all.

mod common;

use std::io::Write;
use std::path::{Path, PathBuf};
use std::process::{Command, Stdio};

use common::{sheet_bytes, whole_run, WHOLE_RUN_ROWS, WHOLE_RUN_SHEET};
use second::builder::Builder;
use second::description::*;

/// A directory of its own for a test.
fn directory(test: &str) -> PathBuf {
    let path = Path::new(env!("CARGO_TARGET_TMPDIR")).join(test);
    let _ = std::fs::remove_dir_all(&path);
    std::fs::create_dir_all(&path).unwrap();
    path
}

/// Exit code, standard output and standard error of a run in a directory.
fn run(directory: &Path, args: &[&str]) -> (i32, Vec<u8>, String) {
    run_with(directory, args, b"")
}

/// The same, with this standard input.
fn run_with(directory: &Path, args: &[&str], input: &[u8]) -> (i32, Vec<u8>, String) {
    let mut command = Command::new(env!("CARGO_BIN_EXE_second"));
    command.args(args).current_dir(directory);
    let pipes = command.stdin(Stdio::piped()).stdout(Stdio::piped()).stderr(Stdio::piped());
    let mut child = pipes.spawn().unwrap();
    // A run that ends before it has read all leaves a broken pipe.
    let _ = child.stdin.take().unwrap().write_all(input);
    let output = child.wait_with_output().unwrap();
    (output.status.code().unwrap(), output.stdout, String::from_utf8(output.stderr).unwrap())
}

/// The run fails with this code, prints nothing, and says one line that holds these words.
fn fails(directory: &Path, args: &[&str], code: i32, words: &str) {
    fails_after(directory, args, code, b"", words);
}

/// The same, after some output.
fn fails_after(directory: &Path, args: &[&str], code: i32, printed: &[u8], words: &str) {
    failed_after(run(directory, args), args, code, printed, words);
}

fn failed_after(ran: (i32, Vec<u8>, String), args: &[&str], code: i32, printed: &[u8], words: &str) {
    let (exit, out, error) = ran;
    assert_eq!(exit, code, "{args:?}: {error}");
    assert_eq!(String::from_utf8_lossy(&out), String::from_utf8_lossy(printed), "{args:?}");
    assert_eq!(error.lines().count(), 1, "{args:?}: {error}");
    assert!(error.ends_with('\n') && error.contains(words), "{args:?}: {error}");
}

/// A directory with the whole run's files `d` and `r`, an empty file `empty`, and no file `none`.
fn whole_run_directory(test: &str) -> PathBuf {
    let path = directory(test);
    std::fs::write(path.join("d"), whole_run().bytes()).unwrap();
    std::fs::write(path.join("r"), WHOLE_RUN_ROWS.concat()).unwrap();
    std::fs::write(path.join("empty"), b"").unwrap();
    path
}

#[test]
fn help_is_given() {
    let path = directory("help");
    for args in [
        &["--help"][..],
        &["-h"],
        &["help"],
        &["check", "--help"],
        &["print", "--help"],
        &["feed", "--help"],
        &["explain", "--help"],
        &["two", "--help"],
        &["apart", "-h"],
        &["read", "--help"],
        &["repair", "--help"],
        &["build", "--help"],
    ] {
        let (code, out, error) = run(&path, args);
        assert_eq!((code, error.as_str()), (0, ""), "{args:?}");
        assert!(String::from_utf8(out).unwrap().contains("usage: second"), "{args:?}");
    }
}

#[test]
fn bad_usage_is_one_line_and_code_2() {
    let path = whole_run_directory("usage");
    for args in [
        &[][..],
        &["what"],
        &["check"],
        &["check", "d", "r"],
        &["print"],
        &["print", "d"],
        &["print", "d", "r", "x"],
        &["print", "d", "r", "-o"],
        &["print", "d", "-o", "x"],
        &["print", "d", "r", "-o", "x", "y"],
        &["feed"],
        &["feed", "d", "r"],
        &["feed", "d", "-o"],
        &["feed", "-o", "x"],
        &["feed", "d", "-n"],
        &["feed", "d", "-n", "0"],
        &["feed", "d", "-n", "4097"],
        &["feed", "d", "-n", "one"],
        &["feed", "d", "-n", "-1"],
        &["two"],
        &["two", "d", "A1", "r", "B2"],
        &["two", "d", "A1", "r", "B2", "r", "x"],
        &["two", "d", "A1", "r", "B2", "r", "-o"],
        &["two", "d", "A1", "r", "B2", "r", "--order"],
        &["two", "d", "A1", "r", "B2", "r", "--order", "r", "-o"],
        &["two", "d", "A1", "r", "B2", "r", "x", "y"],
        &["two", "-o", "x", "d", "A1", "r", "B2", "r"],
        &["two", "d", "A", "r", "B2", "r", "-o", "x"],
        &["two", "d", "A1", "r", "B22", "r", "-o", "x"],
        &["two", "d", "A1", "r", "", "r", "-o", "x"],
        &["apart"],
        &["apart", "12", "r"],
        &["apart", "12", "r", "A1", "x"],
        &["apart", "12", "r", "A1", "-o"],
        &["apart", "0", "r", "A1", "-o", "x"],
        &["apart", "133", "r", "A1", "-o", "x"],
        &["apart", "-1", "r", "A1", "-o", "x"],
        &["apart", "W", "r", "A1", "-o", "x"],
        &["apart", "12", "r", "A", "-o", "x"],
        &["apart", "12", "r", "A11", "-o", "x"],
        &["read"],
        &["read", "12"],
        &["read", "12", "r", "x"],
        &["read", "W", "r"],
        &["read", "-1", "r"],
        &["read", "", "r"],
        &["repair"],
        &["repair", "12"],
        &["repair", "12", "r", "x"],
        &["repair", "12", "r", "-o"],
        &["repair", "12", "r", "-o", "x", "-l"],
        &["repair", "W", "r", "-o", "x"],
        &["repair", "-1", "r", "-l", "x"],
        &["build"],
        &["build", "d"],
        &["build", "d", "x", "y"],
    ] {
        fails(&path, args, 2, "usage: second");
    }
    assert!(!path.join("x").exists());
}

#[test]
fn check_says_accepted_or_the_rule() {
    let path = whole_run_directory("check");
    assert_eq!(run(&path, &["check", "d"]), (0, b"accepted\n".to_vec(), String::new()));
    fails(&path, &["check", "empty"], 1, "refused 1, rule 1");
    fails(&path, &["check", "r"], 1, "refused 1, rule 1");
    fails(&path, &["check", "none"], 1, "second: none: ");
    fails(&path, &["check", "."], 1, "second: .: ");
    let mut b = whole_run();
    b.tables.lines[1].integer = 0;
    std::fs::write(path.join("broken"), b.bytes()).unwrap();
    let (code, out, error) = run(&path, &["check", "broken"]);
    assert_eq!((code, out.len(), error.as_str()), (1, 0, "refused 1, rule 6\n"));
}

#[test]
fn print_gives_the_sheet() {
    let path = whole_run_directory("print");
    let sheet = sheet_bytes(WHOLE_RUN_SHEET);
    assert_eq!(run(&path, &["print", "d", "r"]), (0, sheet.clone(), String::new()));
    for args in [["print", "d", "r", "-o", "out"], ["print", "-o", "out", "d", "r"]] {
        assert_eq!(run(&path, &args), (0, Vec::new(), String::new()));
        assert_eq!(std::fs::read(path.join("out")).unwrap(), sheet);
        std::fs::remove_file(path.join("out")).unwrap();
    }
}

#[test]
fn print_without_its_files_says_so() {
    let path = whole_run_directory("files");
    fails(&path, &["print", "none", "r"], 1, "second: none: ");
    fails(&path, &["print", "d", "none"], 1, "second: none: ");
    fails(&path, &["print", ".", "r"], 1, "second: .: ");
    fails(&path, &["print", "d", "."], 1, "second: .: ");
    fails(&path, &["print", "empty", "r"], 1, "INITIATE refused: refusal 1, extra number 1");
    fails(&path, &["print", "r", "r"], 1, "INITIATE refused: refusal 1, extra number 1");
    fails(&path, &["print", "d", "empty"], 1, "second: empty: the file is empty");
    fails(&path, &["print", "d", "r", "-o", "no/out"], 1, "second: no/out: ");
}

#[test]
fn what_was_printed_before_a_refused_row_stands() {
    let path = whole_run_directory("rows");
    let sheet = sheet_bytes(WHOLE_RUN_SHEET);
    let rows = WHOLE_RUN_ROWS.concat();
    let refused = |name: &str, rows: &[u8], printed: usize, words: &str| {
        std::fs::write(path.join(name), rows).unwrap();
        fails_after(&path, &["print", "d", name], 1, &sheet[..printed], words);
    };
    // Two lines come of row 1, one of row 2, two of row 3, two of row 4.
    refused("short1", &rows[..5], 0, "GENERATE of row 1 refused: refusal 5, extra number 0");
    refused("short3", &rows[..13], 66, "GENERATE of row 3 refused: refusal 5, extra number 0");
    refused(
        "long",
        &[&rows[..], b"\n"].concat(),
        154,
        "GENERATE of row 5 refused: refusal 5, extra number 0",
    );
    let mut wrong = rows.clone();
    wrong[9] = b'x';
    refused("wrong", &wrong, 44, "GENERATE of row 2 refused: refusal 6, extra number 1");
    // The same with -o.
    let (code, out, error) = run(&path, &["print", "d", "wrong", "-o", "out"]);
    assert_eq!((code, out.len(), error.lines().count()), (1, 0, 1));
    assert_eq!(std::fs::read(path.join("out")).unwrap(), sheet[..44]);
}

/// One number field of 18 bytes, added to a sum and to one that adds that sum too.
fn large_sums() -> Builder {
    let mut b = Builder::new(10, 1, 3, 6, 8, 12, 18);
    let value = b.number(0, 18);
    b.control(FINAL);
    b.group(DE, 0);
    let cf = b.group(CF, 0);
    b.counter(cf, 0);
    b.add_field(value, 1);
    b.counter(cf, 0);
    b.add_field(value, 1);
    b.add_counter(0);
    b
}

#[test]
fn a_refused_terminate_is_told_apart() {
    let path = directory("terminate");
    std::fs::write(path.join("d"), large_sums().bytes()).unwrap();
    std::fs::write(path.join("r"), b"+99999999999999999".repeat(6)).unwrap();
    fails(&path, &["print", "d", "r"], 1, "TERMINATE after row 6 refused: refusal 7, extra number 0");
    std::fs::write(path.join("r"), b"+99999999999999999".repeat(11)).unwrap();
    fails(&path, &["print", "d", "r"], 1, "GENERATE of row 11 refused: refusal 7, extra number 0");
}

#[test]
fn a_call_with_more_lines_than_the_first_output_prints() {
    // Every heading and footing turns the page, with 16 lines of PF and of PH.
    let mut b = Builder::new(60, 1, 20, 30, 30, 132, 8);
    b.group(PH, 0);
    b.line(LINE_ABSOLUTE, 1);
    for _ in 1..16 {
        b.line(LINE_RELATIVE, 1);
    }
    b.group(DE, 0);
    for level in 0..8 {
        let field = b.text(level, 1);
        b.control(field);
        for kind in [CH, CF] {
            b.group(kind, level);
            b.line(LINE_NEXT_PAGE, 20);
        }
    }
    b.group(PF, 0);
    b.line(LINE_ABSOLUTE, 31);
    for _ in 1..16 {
        b.line(LINE_RELATIVE, 1);
    }
    let path = directory("large");
    std::fs::write(path.join("d"), b.bytes()).unwrap();
    let rows = b"aaaaaaaabaaaaaaa";
    std::fs::write(path.join("r"), rows).unwrap();
    let (code, out, error) = run(&path, &["print", "d", "r"]);
    assert_eq!((code, error.as_str()), (0, ""));
    // 8 + 16 + 8 groups of one line, 31 page changes, the first PH and the last PF.
    assert_eq!(out.len(), (32 + 32 * 32) * 142);
    for n in ["1", "16"] {
        assert!(run_with(&path, &["feed", "d", "-n", n], rows) == (0, out.clone(), String::new()));
    }
    assert_eq!(run(&path, &["two", "d", "A1", "r", "B2", "r", "-o", "file"]), (0, Vec::new(), String::new()));
    for code in ["A1", "B2"] {
        assert!(run(&path, &["apart", "132", "file", code]) == (0, out.clone(), String::new()));
    }
}

#[test]
fn feed_gives_the_sheet_of_print() {
    let path = whole_run_directory("feed");
    let rows = WHOLE_RUN_ROWS.concat();
    let sheet = sheet_bytes(WHOLE_RUN_SHEET);
    assert_eq!(run_with(&path, &["feed", "d"], &rows), (0, sheet.clone(), String::new()));
    for n in ["1", "2", "5", "6", "7", "23", "24", "25", "4096"] {
        assert_eq!(run_with(&path, &["feed", "d", "-n", n], &rows), (0, sheet.clone(), String::new()));
        let args = ["feed", "-o", "out", "-n", n, "d"];
        assert_eq!(run_with(&path, &args, &rows), (0, Vec::new(), String::new()));
        assert_eq!(std::fs::read(path.join("out")).unwrap(), sheet);
        std::fs::remove_file(path.join("out")).unwrap();
    }
}

#[test]
fn feed_without_its_files_or_bytes_says_so() {
    let path = whole_run_directory("feed_files");
    fails(&path, &["feed", "none"], 1, "second: none: ");
    fails(&path, &["feed", "."], 1, "second: .: ");
    fails(&path, &["feed", "empty"], 1, "INITIATE refused: refusal 1, extra number 1");
    fails(&path, &["feed", "d"], 1, "second: standard input is empty");
    fails(&path, &["feed", "d", "-o", "no/out"], 1, "second: no/out: ");
}

#[test]
fn what_was_printed_before_a_refused_row_of_feed_stands() {
    let path = whole_run_directory("feed_rows");
    let sheet = sheet_bytes(WHOLE_RUN_SHEET);
    let rows = WHOLE_RUN_ROWS.concat();
    let mut wrong = rows.clone();
    wrong[15] = b'x';
    for n in ["1", "4", "6", "9", "4096"] {
        let args = ["feed", "d", "-n", n];
        let refused = |rows: &[u8], printed: usize, words: &str| {
            failed_after(run_with(&path, &args, rows), &args, 1, &sheet[..printed], words);
        };
        refused(&wrong, 66, "GENERATE of row 3 refused: refusal 6, extra number 1");
        // Bytes are left over at the end.
        refused(&rows[..5], 0, "TERMINATE after row 0 refused: refusal 10, extra number 5");
        refused(&rows[..13], 66, "TERMINATE after row 2 refused: refusal 10, extra number 1");
    }
}

#[test]
fn a_blank_for_a_plus_gives_the_same_sheet() {
    let path = whole_run_directory("blank");
    let rows = b"AA 005AA+007BB-002BB 009";
    std::fs::write(path.join("r"), rows).unwrap();
    let sheet = (0, sheet_bytes(WHOLE_RUN_SHEET), String::new());
    assert_eq!(run(&path, &["print", "d", "r"]), sheet);
    for n in ["1", "2", "3", "4096"] {
        assert_eq!(run_with(&path, &["feed", "d", "-n", n], rows), sheet);
    }
}

// ---- two agents, one file (R-7)

/// The whole run's rows for agent 1; three others, in the file `s`, for agent 2: their sheets in turn.
const IN_TURN: &str = "\
A1000001001PAGE..1.....
A1000001003AA......5...
B2000001001PAGE..1.....
B2000001003CC....100...
A1000001004........7...
B2000001004.....-150...
A1000001005SUM....12...
A1000001006BB.....-2...
B2000001005SUM...-50...
B2000001006DD....999...
A1000002001PAGE..2.....
A1000002003BB......9...
A1000002004SUM.....7...
B2000001007SUM...999...
";

const OTHER_SHEET: &str = "\
000001001PAGE..1.....
000001003CC....100...
000001004.....-150...
000001005SUM...-50...
000001006DD....999...
000001007SUM...999...
";

/// `whole_run_directory` with the file `s`.
fn two_agents_directory(test: &str) -> PathBuf {
    let path = whole_run_directory(test);
    std::fs::write(path.join("s"), b"CC+100CC-150DD+999").unwrap();
    path
}

#[test]
fn two_prints_the_rows_of_both_in_turn() {
    let path = two_agents_directory("two");
    let file = sheet_bytes(IN_TURN);
    assert_eq!(run(&path, &["two", "d", "A1", "r", "B2", "s"]), (0, file.clone(), String::new()));
    assert_eq!(run(&path, &["two", "d", "A1", "r", "B2", "s", "-o", "out"]), (0, Vec::new(), String::new()));
    assert_eq!(std::fs::read(path.join("out")).unwrap(), file);
    for (code, sheet) in [("A1", WHOLE_RUN_SHEET), ("B2", OTHER_SHEET), ("A2", "")] {
        let sheet = sheet_bytes(sheet);
        assert_eq!(run(&path, &["apart", "12", "out", code]), (0, sheet.clone(), String::new()));
        for args in [["apart", "12", "out", code, "-o", "sheet"], ["apart", "-o", "sheet", "12", "out", code]]
        {
            assert_eq!(run(&path, &args), (0, Vec::new(), String::new()));
            assert_eq!(std::fs::read(path.join("sheet")).unwrap(), sheet);
        }
    }
    // A code may look like an option.
    let (code, out, _) = run(&path, &["two", "d", "-o", "r", "--", "s"]);
    assert_eq!((code, String::from_utf8(out)), (0, String::from_utf8(with_codes(&file, *b"-o", *b"--"))));
}

/// The file with other codes.
fn with_codes(file: &[u8], first: [u8; 2], second: [u8; 2]) -> Vec<u8> {
    let code = |line: &[u8]| if line.starts_with(b"A1") { first } else { second };
    file.chunks(24).flat_map(|line| [&code(line), &line[2..]].concat()).collect()
}

#[test]
fn two_prints_in_the_order_of_a_list() {
    let path = two_agents_directory("order");
    let file = sheet_bytes(IN_TURN);
    let lines: Vec<&[u8]> = file.chunks(24).collect();
    let ordered = |list: &str| {
        std::fs::write(path.join("list"), list).unwrap();
        run(&path, &["two", "d", "A1", "r", "B2", "s", "--order", "list"])
    };
    // Two lines come of the first row of each, one of the second, two of the others; TERMINATE prints one.
    let [a, b, c, d, end] = [&lines[0..2], &lines[4..5], &lines[6..8], &lines[10..12], &lines[12..13]];
    let [e, f, g, other_end] = [&lines[2..4], &lines[5..6], &lines[8..10], &lines[13..14]];
    for (list, parts) in [
        ("", [a, e, b, f, c, g, d]),
        ("12 12 12\n1\n", [a, e, b, f, c, g, d]),
        ("1111222", [a, b, c, d, e, f, g]),
        ("222\r\n1111", [e, f, g, a, b, c, d]),
        (" 2 1 1 2 \n\n 1 2 1 ", [e, a, b, f, c, g, d]),
        // What the list leaves follows in turn, agent 1 first.
        ("2", [e, a, f, b, g, c, d]),
        ("1", [a, b, e, c, f, d, g]),
        ("11", [a, b, c, e, d, f, g]),
        ("222", [e, f, g, a, b, c, d]),
    ] {
        let sheet = [&parts[..], &[end, other_end]].concat().concat().concat();
        assert_eq!(ordered(list), (0, sheet, String::new()), "{list:?}");
    }
}

#[test]
fn a_list_that_cannot_be_followed_fails_before_the_rows() {
    let path = two_agents_directory("bad_order");
    for (list, words) in [
        ("12x", "second: list: character 3 is neither 1 nor 2"),
        ("3", "second: list: character 1 is neither 1 nor 2"),
        ("1\t2", "second: list: character 2 is neither 1 nor 2"),
        ("1 2\n\n0", "second: list: character 6 is neither 1 nor 2"),
        ("2 2 2\n2x", "second: list: character 7 names agent 2, who has no row left"),
        ("12121211", "second: list: character 8 names agent 1, who has no row left"),
    ] {
        std::fs::write(path.join("list"), list).unwrap();
        fails(&path, &["two", "d", "A1", "r", "B2", "s", "--order", "list"], 1, words);
    }
    fails(&path, &["two", "d", "A1", "r", "B2", "s", "--order", "none"], 1, "second: none: ");
}

#[test]
fn two_without_its_files_says_so() {
    let path = two_agents_directory("two_files");
    fails(&path, &["two", "none", "A1", "r", "B2", "s"], 1, "second: none: ");
    fails(&path, &["two", "d", "A1", "none", "B2", "s"], 1, "second: none: ");
    fails(&path, &["two", "d", "A1", "r", "B2", "."], 1, "second: .: ");
    let refused = "INITIATE of agent 1 refused: refusal 1, extra number 1";
    fails(&path, &["two", "empty", "A1", "empty", "A1", "s"], 1, refused);
    fails(&path, &["two", "d", "A1", "empty", "B2", "s"], 1, "second: empty: the file is empty");
    fails(&path, &["two", "d", "A1", "r", "B2", "empty"], 1, "second: empty: the file is empty");
    fails(&path, &["two", "d", "A1", "r", "B2", "s", "-o", "no/out"], 1, "second: no/out: ");
    fails(&path, &["apart", "12", "none", "A1"], 1, "second: none: ");
    fails(&path, &["apart", "12", "r", "A1", "-o", "no/out"], 1, "second: no/out: ");
    // A file without lines has an empty sheet.
    assert_eq!(run(&path, &["apart", "12", "empty", "A1"]), (0, Vec::new(), String::new()));
    assert_eq!(run(&path, &["apart", "1", "r", "AA"]), (0, b"+005AA+007B".to_vec(), String::new()));
}

#[test]
fn two_tells_codes_that_are_refused() {
    let path = two_agents_directory("codes");
    let refused = "INITIATE of agent 1 refused: refusal 11, extra number 0";
    // The last is two bytes of one character.
    for (first, second) in [("A1", "A1"), ("A\u{1f}", "B2"), ("A1", "\u{7f}2"), ("é", "B2")] {
        fails(&path, &["two", "d", first, "r", second, "s"], 1, refused);
    }
    assert_eq!(run(&path, &["two", "d", " ~", "r", "~ ", "s"]).0, 0);
}

#[test]
fn what_was_printed_before_a_refused_row_of_two_stands() {
    let path = two_agents_directory("two_rows");
    let file = sheet_bytes(IN_TURN);
    // Both print two lines of their first rows and one of their second.
    std::fs::write(path.join("wrong"), b"CC+100CC 15xDD+999").unwrap();
    let words = "GENERATE of row 2 of agent 2 refused: refusal 6, extra number 1";
    fails_after(&path, &["two", "d", "A1", "r", "B2", "wrong"], 1, &file[..120], words);
    std::fs::write(path.join("short"), b"AA+005AA+0").unwrap();
    let words = "GENERATE of row 2 of agent 1 refused: refusal 5, extra number 0";
    fails_after(&path, &["two", "d", "A1", "short", "B2", "s"], 1, &file[..96], words);
    // The sums leave their range in TERMINATE, of agent 2 alone.
    std::fs::write(path.join("large"), large_sums().bytes()).unwrap();
    std::fs::write(path.join("few"), b"+99999999999999999".repeat(2)).unwrap();
    std::fs::write(path.join("many"), b"+99999999999999999".repeat(6)).unwrap();
    let words = "TERMINATE after row 6 of agent 2 refused: refusal 7, extra number 0";
    fails(&path, &["two", "large", "A1", "few", "B2", "many"], 1, words);
}

// ---- a sheet read back and repaired (R-8)

/// What `second read` prints of the whole run's sheet, the blanks of the text shown as dots.
const READ_BACK: &str = "\
1 1 PAGE..1.....
1 3 AA......5...
1 4 ........7...
1 5 SUM....12...
1 6 BB.....-2...
2 1 PAGE..2.....
2 3 BB......9...
2 4 SUM.....7...
";

/// A directory with the whole run's sheet in the file `sheet`, the same damaged in `damaged`, and an empty file `empty`: line 4
/// has a byte 31, the line of page 1, line 6 stands behind it again, and half a record is at the end.
fn damaged_directory(test: &str) -> PathBuf {
    let path = whole_run_directory(test);
    let sheet = sheet_bytes(WHOLE_RUN_SHEET);
    let mut damaged = [&sheet[..110], &sheet[88..], &sheet[..11]].concat();
    damaged[44 + 10] = 31;
    std::fs::write(path.join("sheet"), sheet).unwrap();
    std::fs::write(path.join("damaged"), damaged).unwrap();
    path
}

#[test]
fn read_gives_page_line_and_text() {
    let path = damaged_directory("read");
    assert_eq!(run(&path, &["read", "12", "sheet"]), (0, sheet_bytes(READ_BACK), String::new()));
    assert_eq!(run(&path, &["read", "12", "empty"]), (0, Vec::new(), String::new()));
    let words = "second: damaged: reading at offset 44 refused: refusal 12, extra number 44";
    let before: String = READ_BACK.split_inclusive('\n').take(2).collect();
    fails_after(&path, &["read", "12", "damaged"], 1, &sheet_bytes(&before), words);
    let words = "second: sheet: reading at offset 0 refused: refusal 12, extra number 0";
    for width in ["0", "133", "11", "13"] {
        fails(&path, &["read", width, "sheet"], 1, words);
    }
    fails(&path, &["read", "0", "empty"], 1, "refusal 12, extra number 0");
    fails(&path, &["read", "12", "none"], 1, "second: none: ");
}

#[test]
fn repair_of_an_undamaged_sheet_says_nothing() {
    let path = damaged_directory("repair");
    let sheet = sheet_bytes(WHOLE_RUN_SHEET);
    assert_eq!(run(&path, &["repair", "12", "sheet"]), (0, sheet.clone(), String::new()));
    assert_eq!(run(&path, &["repair", "12", "empty"]), (0, Vec::new(), String::new()));
    let args = ["repair", "12", "sheet", "-o", "out", "-l", "list"];
    assert_eq!(run(&path, &args), (0, Vec::new(), String::new()));
    assert_eq!(std::fs::read(path.join("out")).unwrap(), sheet);
    assert_eq!(std::fs::read(path.join("list")).unwrap(), b"");
}

#[test]
fn repair_tells_what_it_drops() {
    let path = damaged_directory("repair_damaged");
    let sheet = sheet_bytes(WHOLE_RUN_SHEET);
    let kept = [&sheet[..44], &sheet[66..]].concat();
    let told = "\
second: damaged: dropped at offset 44: out of form
second: damaged: dropped at offset 110: out of order
second: damaged: dropped at offset 198: out of form
second: damaged: 3 dropped: 2 out of form, 1 out of order
";
    assert_eq!(run(&path, &["repair", "12", "damaged"]), (1, kept.clone(), told.to_string()));
    let args = ["repair", "-l", "list", "12", "-o", "out", "damaged"];
    assert_eq!(run(&path, &args), (1, Vec::new(), told.to_string()));
    assert_eq!(std::fs::read(path.join("out")).unwrap(), kept);
    let list = [[44, 0, 0, 0, 0, 0, 0, 0, 1], [110, 0, 0, 0, 0, 0, 0, 0, 2], [198, 0, 0, 0, 0, 0, 0, 0, 1]];
    assert_eq!(std::fs::read(path.join("list")).unwrap(), list.concat());
    // What is repaired stays so.
    assert_eq!(run(&path, &["repair", "12", "out"]), (0, kept, String::new()));
}

#[test]
fn repair_without_its_files_or_a_width_says_so() {
    let path = damaged_directory("repair_files");
    fails(&path, &["repair", "12", "none"], 1, "second: none: ");
    fails(&path, &["repair", "12", "sheet", "-o", "no/out"], 1, "second: no/out: ");
    fails(&path, &["repair", "12", "empty", "-l", "no/list"], 1, "second: no/list: ");
    for width in ["0", "133"] {
        let args = ["repair", width, "damaged", "-o", "out", "-l", "list"];
        fails(&path, &args, 1, "second: damaged: repair refused: refusal 12, extra number 0");
    }
    assert!(!path.join("out").exists() && !path.join("list").exists());
}

#[test]
fn build_writes_a_description_or_nothing() {
    let path = directory("build");
    let good = "page 10 heading 1 first 3 last 6 footing 8\nwidth 1\nrecord 1\ngroup DE\n";
    let files: [(&str, &[u8]); 5] = [
        ("good", good.as_bytes()),
        ("word", b"page 10\n"),
        ("rule", b"width 0\n"),
        ("bytes", b"width \xff\n"),
        ("empty", b""),
    ];
    for (name, text) in files {
        std::fs::write(path.join(name), text).unwrap();
    }
    assert_eq!(run(&path, &["build", "good", "out"]), (0, Vec::new(), String::new()));
    assert_eq!(run(&path, &["check", "out"]), (0, b"accepted\n".to_vec(), String::new()));
    std::fs::remove_file(path.join("out")).unwrap();
    fails(&path, &["build", "word", "out"], 1, "second: word: line 1: not understood: page 10");
    fails(&path, &["build", "rule", "out"], 1, "second: rule: refused 1, rule 2");
    fails(&path, &["build", "bytes", "out"], 1, "second: bytes: ");
    fails(&path, &["build", "empty", "out"], 1, "second: empty: ");
    fails(&path, &["build", "none", "out"], 1, "second: none: ");
    fails(&path, &["build", "good", "no/out"], 1, "second: no/out: ");
    assert!(!path.join("out").exists());
}
