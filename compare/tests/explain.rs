//! `explain` as a user runs it: every total of the examples, routes, large files, and what it says of wrong input.

mod program;

use std::fs::{self, File};
use std::path::{Path, PathBuf};
use std::process::{Command, Stdio};

use program::{about_file, example, filled, finished, random_rows, wanted, Folder, Written};
use second::cases::{accepted_description, Rng};
use second::source;

const USAGE: &str = "usage: explain [--short] [--progress] DESCRIPTION RECORDS PAGE LINE";

/// Two totals of a name, of which the second has two routes, and their total of the day.
const TWICE: &str = "
page 20 heading 1 first 3 last 16 footing 18
width 40
record 6
field who text 0 2
field amount number 2 4
control FINAL
control who
group DE
  line relative 1
    item 1 2 field who
    item 5 6 field amount
group CF who
  line relative 1
    item 5 6 sum one
    item 15 6 sum two
  sum one
    add field amount
  sum two
    add field amount
    add sum one
group CF FINAL
  line relative 1
    item 5 6 sum all
  sum all
    add sum two
";

// ---- running it

/// Where `rt` puts the program, seen from this package; BAILCURLEW_EXPLAIN names another.
fn command() -> Command {
    let root = Path::new(env!("CARGO_MANIFEST_DIR")).join("../target/bin/explain");
    Command::new(std::env::var("BAILCURLEW_EXPLAIN").map_or(root, PathBuf::from))
}

fn explain(options: &[&str], desc: &Path, rows: &Path, page: usize, line: usize) -> Written {
    let mut command = command();
    command.args(options).args([desc, rows]).args([page.to_string(), line.to_string()]);
    finished(command)
}

/// What is told of a line that is explained.
fn explained(options: &[&str], desc: &Path, rows: &Path, page: usize, line: usize) -> String {
    let written = explain(options, desc, rows, page, line);
    assert_eq!(written.errors, "", "page {page}, line {line}");
    String::from_utf8(written.sheet).expect("words")
}

fn of_example(name: &str, page: usize, line: usize) -> String {
    let [desc, rows] = ["desc", "rows"].map(|kind| example(&format!("{name}.{kind}")));
    explained(&[], &desc, &rows, page, line)
}

fn built(text: &str) -> Vec<u8> {
    source::build(text).expect("a description").bytes()
}

fn says(words: &str) -> Written {
    Written::errors(format!("explain: {words}\n"))
}

// ---- the totals of the day sheet

/// Page, line and characters of each line of a sheet.
fn lines_of(sheet: &[u8]) -> Vec<(usize, usize, String)> {
    let text = String::from_utf8(sheet.to_vec()).expect("a sheet");
    let number = |digits: &str| digits.parse().expect("digits");
    text.lines().map(|line| (number(&line[..6]), number(&line[6..9]), line[9..].to_string())).collect()
}

/// A number of hundredths as the day sheet prints it, without blanks.
fn hundredths(total: i64) -> String {
    let sign = if total < 0 { "-" } else { "" };
    format!("{sign}{}.{:02}", total.abs() / 100, total.abs() % 100)
}

fn between<'a>(text: &'a str, before: &str, after: &str) -> &'a str {
    let rest = &text[text.find(before).unwrap_or_else(|| panic!("{before} in {text}")) + before.len()..];
    &rest[..rest.find(after).unwrap_or_else(|| panic!("{after} in {text}"))]
}

/// The rows told of a sum: their numbers in order, and what they come to.
fn rows_told(told: &str) -> (Vec<usize>, i64) {
    let row = |line: &str| -> (usize, i64) {
        let after = &line[line.rfind(": ").expect("an amount") + 2..];
        let (amount, times) = after.split_once(", ").expect("an amount and times");
        let times = times.split(' ').next().expect("times");
        let worth = amount.parse::<i64>().expect("an amount") * times.parse::<i64>().expect("times");
        (between(line, "row ", ":").parse().expect("a row"), worth)
    };
    let rows: Vec<(usize, i64)> = told.lines().filter(|line| line.starts_with("  row ")).map(row).collect();
    (rows.iter().map(|row| row.0).collect(), rows.iter().map(|row| row.1).sum())
}

/// One sum of a line: the printed characters are those of the sheet, the rows follow each other and come to the total, which is printed.
fn sum_is_right(told: &str, characters: &str) {
    let column: usize = between(told, "column ", ",").parse().expect("a column");
    let width: usize = between(told, "width ", ":").parse().expect("a width");
    let printed = between(told, "printed \"", "\"");
    assert_eq!(printed, &characters[column - 1..column - 1 + width]);
    let total: i64 = between(told, "total ", ":").parse().expect("a total");
    assert_eq!(printed.trim(), hundredths(total));
    assert!(told.ends_with(": the printed total\n"), "{told}");
    let (rows, worth) = rows_told(told);
    assert_eq!(worth, total, "{told}");
    let (first, last) = (rows[0], rows[rows.len() - 1]);
    assert_eq!(rows, (first..=last).collect::<Vec<_>>());
    let count = if first == last {
        format!("1 row ({first})")
    } else {
        format!("{} rows ({first} to {last})", rows.len())
    };
    assert!(told.contains(&format!("\n  {count}, total ")), "{told}");
}

/// The long form without its routes and rows is the short one.
fn shortened(told: &str) -> String {
    let kept = |line: &&str| {
        !(line.starts_with("  field ") || line.starts_with("    ") || line.starts_with("  row "))
    };
    told.lines().filter(kept).map(|line| format!("{line}\n")).collect()
}

#[test]
fn explains_every_total_of_the_day_sheet() {
    let [desc, rows] = ["day_sheet.desc", "day_sheet.rows"].map(example);
    let sheet = fs::read(example("day_sheet.sheet")).expect("the example's sheet");
    let mut totals = 0;
    for (page, line, characters) in lines_of(&sheet) {
        if !characters.contains(" TOTAL ") {
            assert_eq!(
                explain(&[], &desc, &rows, page, line),
                says(&format!("page {page}, line {line} shows no sum"))
            );
            continue;
        }
        totals += 1;
        let told = explained(&[], &desc, &rows, page, line);
        let level = 4 - characters.trim_start().chars().take_while(|&c| c == '*').count();
        assert!(
            told.starts_with(&format!("page {page}, line {line}: control footing of level {level}\n")),
            "{told}"
        );
        assert_eq!(told.matches("\ncontrol ").count(), level + 1);
        let sums: Vec<&str> = told.split("column ").skip(1).collect();
        assert_eq!(sums.len(), 2, "{told}");
        sums.iter().for_each(|sum| sum_is_right(&format!("column {sum}"), &characters));
        assert_eq!(explained(&["--short"], &desc, &rows, page, line), shortened(&told));
    }
    assert_eq!(totals, 83);
}

// ---- the other examples, word for word

#[test]
fn explains_the_whole_run() {
    let first = "\
page 1, line 5: control footing of level 0
control 0 (field 0): \"AA\"
column 4, width 6: counter 0, printed \"    12\"
  field 1 counts 1 time in each row:
    field 1, counter 0
  row 1: field 1: +5, 1 time
  row 2: field 1: +7, 1 time
  2 rows (1 to 2), total +12: the printed total
";
    assert_eq!(of_example("whole_run", 1, 5), first);
    let last = of_example("whole_run", 2, 4);
    assert!(last.contains("  row 3: field 1: -2, 1 time\n  row 4: field 1: +9, 1 time\n  2 rows (3 to 4), total +7: the printed total\n"), "{last}");
}

/// What is wider than its place is printed as stars; its total is told all the same.
#[test]
fn explains_the_pictures() {
    let till = of_example("pictures", 2, 7);
    assert!(till.contains("column 32, width 12: counter 0, printed \"************\"\n"), "{till}");
    assert!(till.contains("  3 rows (9 to 11), total +223456888: the printed total\n"), "{till}");
    let day = of_example("pictures", 2, 8);
    assert!(day.contains("    field 3, counter 0, counter 2\n"), "{day}");
    assert!(day.contains("printed \"*2,233,966.05  \"\n"), "{day}");
    assert!(day.contains("total +223396605: the printed total\n"), "{day}");
}

// ---- routes

#[test]
fn tells_each_route() {
    let folder = Folder::new("explain-routes");
    let desc = folder.file("desc", &built(TWICE));
    let rows = folder.file("rows", b"AA+005AA+007BB-002");
    let told = "\
page 1, line 5: control footing of level 1
control 0: FINAL
control 1 (field 0): \"AA\"
column 5, width 6: counter 0, printed \"    12\"
  field 1 counts 1 time in each row:
    field 1, counter 0
  row 1: field 1: +5, 1 time
  row 2: field 1: +7, 1 time
  2 rows (1 to 2), total +12: the printed total
column 15, width 6: counter 1, printed \"    24\"
  field 1 counts 2 times in each row:
    field 1, counter 1
    field 1, counter 0, counter 1
  row 1: field 1: +5, 2 times
  row 2: field 1: +7, 2 times
  2 rows (1 to 2), total +24: the printed total
";
    assert_eq!(explained(&[], &desc, &rows, 1, 5), told);
    let one = explained(&["--short"], &desc, &rows, 1, 7);
    assert!(one.ends_with("  1 row (3), total -4: the printed total\n"), "{one}");
    let day = explained(&[], &desc, &rows, 1, 8);
    assert!(
        day.contains("    field 1, counter 1, counter 2\n    field 1, counter 0, counter 1, counter 2\n"),
        "{day}"
    );
    assert!(day.ends_with("  3 rows (1 to 3), total +20: the printed total\n"), "{day}");
}

/// Seven times two counters that both feed the next two: 128 routes, of which 100 are listed.
#[test]
fn lists_at_most_100_routes() {
    let mut text = String::from(
        "page 20 heading 1 first 3 last 16 footing 18\nwidth 40\nrecord 6\nfield who text 0 2\nfield amount number 2 4\ncontrol who\n\
         group DE\n  line relative 1\n    item 5 6 field amount\ngroup CF who\n  line relative 1\n    item 5 6 sum last\n",
    );
    for pair in 0..7 {
        for side in ["a", "b"] {
            text += &format!("  sum {side}{pair}\n");
            if pair == 0 {
                text += "    add field amount\n";
            } else {
                text += &format!("    add sum a{0}\n    add sum b{0}\n", pair - 1);
            }
        }
    }
    text += "  sum last\n    add sum a6\n    add sum b6\n";
    let folder = Folder::new("explain-many");
    let desc = folder.file("desc", &built(&text));
    let told = explained(&[], &desc, &folder.file("rows", b"AA+003"), 1, 4);
    assert!(told.contains("  field 1 counts 128 times in each row:\n"), "{told}");
    assert_eq!(told.matches("\n    field 1, counter ").count(), 100);
    assert!(told.contains("\n    and 28 more\n  row 1: field 1: +3, 128 times\n  1 row (1), total +384: the printed total\n"), "{told}");
}

// ---- what is not explained

#[test]
fn says_that_a_line_is_not_there() {
    let [desc, rows] = ["whole_run.desc", "whole_run.rows"].map(example);
    for (page, line) in [(1, 2), (1, 999), (3, 1), (999_999, 1)] {
        let words = format!("the sheet has no line {line} on page {page}");
        assert_eq!(explain(&[], &desc, &rows, page, line), says(&words));
    }
    let folder = Folder::new("explain-empty");
    let empty = folder.file("rows", b"");
    assert_eq!(explain(&[], &desc, &empty, 1, 1), says("the sheet has no line 1 on page 1"));
}

/// A total printed before the refused row is explained; the line of a later one is not there.
#[test]
fn names_the_row_that_is_refused() {
    let folder = Folder::new("explain-refused");
    let desc = example("whole_run.desc");
    let rows = folder.file("rows", b"AA+005AA+007BB-002BB*009");
    let words = "row 4: field 1 (bytes 2 to 5) is malformed; refusal 6, extra number 1";
    assert_eq!(explain(&[], &desc, &rows, 2, 4), says(words));
    assert!(explained(&[], &desc, &rows, 1, 5).ends_with(": the printed total\n"));
    let cut = folder.file("cut", b"AA+005AA");
    assert_eq!(
        explain(&[], &desc, &cut, 2, 4),
        says("row 2: the record's length is 2, not 6; refusal 5, extra number 0")
    );
}

#[test]
fn names_the_rule_that_a_description_breaks() {
    let folder = Folder::new("explain-rule");
    let mut bytes = fs::read(example("whole_run.desc")).expect("the example");
    let at = bytes.len() - 16;
    bytes[at] = 0;
    let words = "description breaks rule 2 (page); refusal 1, extra number 2";
    assert_eq!(explain(&[], &folder.file("desc", &bytes), &example("whole_run.rows"), 1, 5), says(words));
}

/// "no counter that feeds another has a reset level senior to its own group's": else nothing is claimed.
#[test]
fn claims_nothing_outside_the_hypothesis() {
    let folder = Folder::new("explain-outside");
    let desc = folder
        .file("desc", &built(&TWICE.replace("sum one\n    add field", "sum one reset FINAL\n    add field")));
    let rows = folder.file("rows", b"AA+005AA+007BB-002");
    let words = "counter 0 feeds counter 1 but is reset at level 0, senior to its own level 1: no total of this description is explained";
    for line in [5, 99] {
        assert_eq!(explain(&[], &desc, &rows, 1, line), says(words));
    }
}

#[test]
fn names_a_file_that_it_cannot_read() {
    let folder = Folder::new("explain-unreadable");
    let [desc, rows] = ["whole_run.desc", "whole_run.rows"].map(example);
    let none = folder.0.join("none");
    let [not_opened, not_read] =
        ["explain: {file}: No such file or directory", "explain: {file}: Is a directory"];
    let cases = [
        (&none, &rows, about_file(not_opened, &none)),
        (&desc, &none, about_file(not_opened, &none)),
        (&folder.0, &rows, about_file(not_read, &folder.0)),
        (&desc, &folder.0, about_file(not_read, &folder.0)),
    ];
    for (desc, rows, words) in cases {
        assert_eq!(explain(&[], desc, rows, 1, 5), Written::errors(words));
    }
}

#[test]
fn says_that_it_cannot_write() {
    let Ok(full) = File::options().write(true).open("/dev/full") else {
        return;
    };
    let mut command = command();
    command
        .args([example("day_sheet.desc"), example("day_sheet.rows")])
        .args(["7", "52"])
        .stdout(Stdio::from(full));
    assert_eq!(finished(command), says("standard output: No space left on device"));
}

// ---- usage

#[test]
fn says_its_usage() {
    let run = |args: &[&str]| {
        let mut command = command();
        command.args(args);
        finished(command)
    };
    let usage = Written::errors(filled(USAGE, &[]));
    for args in [
        &[][..],
        &["d", "r", "1"],
        &["d", "r", "1", "2", "3"],
        &["--fast", "d", "r", "1", "2"],
        &["--short", "d", "r", "1"],
        &["--short", "--fast", "d", "r", "1", "2"],
    ] {
        assert_eq!(run(args), usage, "{args:?}");
    }
    let numbers = [
        ("x", "1", "PAGE", 999_999, "x"),
        ("0", "1", "PAGE", 999_999, "0"),
        ("1000000", "1", "PAGE", 999_999, "1000000"),
        ("-1", "1", "PAGE", 999_999, "-1"),
        ("1", "1000", "LINE", 999, "1000"),
        ("1", "2x", "LINE", 999, "2x"),
        ("1", "", "LINE", 999, ""),
    ];
    for (page, line, name, most, text) in numbers {
        let words = format!("explain: {name} is a number from 1 to {most}, not \"{text}\"\n{USAGE}\n");
        assert_eq!(run(&["d", "r", page, line]), Written::errors(words));
    }
    let help = run(&["--help"]);
    assert_eq!(help.errors, "");
    assert!(help.sheet.starts_with(USAGE.as_bytes()));
    // page and line as they are printed
    let [desc, rows] = ["whole_run.desc", "whole_run.rows"].map(example);
    let mut command = command();
    command.args([desc, rows]).args(["000001", "005"]);
    assert!(finished(command).sheet.starts_with(b"page 1, line 5: "));
}

#[test]
fn tells_its_progress() {
    let folder = Folder::new("explain-progress");
    let rows = folder.file("rows", &b"AA+005".repeat(25_000));
    let desc = example("whole_run.desc");
    let written = explain(&["--progress", "--short"], &desc, &rows, 999_999, 1);
    assert_eq!(written.errors, "explain: 10922 rows\nexplain: 21844 rows\nexplain: 25000 rows\nexplain: the sheet has no line 1 on page 999999\n");
}

#[test]
fn bin_explain_has_an_exit_status() {
    let folder = Folder::new("explain-status");
    let [desc, rows] = ["whole_run.desc", "whole_run.rows"].map(|name| example(name).display().to_string());
    let outside = folder
        .file("desc", &built(&TWICE.replace("sum one\n    add field", "sum one reset FINAL\n    add field")))
        .display()
        .to_string();
    let bad = folder.file("bad", b"AA*005").display().to_string();
    let cases: [(&[&str], i32); 10] = [
        (&[&desc, &rows, "1", "5"], 0),
        (&["--progress", "--short", &desc, &rows, "1", "5"], 0),
        (&["--help"], 0),
        (&[&desc, &rows, "1", "1"], 1),
        (&[&desc, &rows, "9", "9"], 1),
        (&[&desc, &bad, "1", "5"], 1),
        (&[&rows, &rows, "1", "5"], 1),
        (&[&outside, &rows, "1", "5"], 1),
        (&[&desc, &rows, "1"], 2),
        (&[&desc, &rows, "one", "5"], 2),
    ];
    for (args, status) in cases {
        let mut command = Command::new(Path::new(env!("CARGO_MANIFEST_DIR")).join("../bin/explain"));
        let output = command.args(args).output().expect("bin/explain");
        assert_eq!(output.status.code(), Some(status), "{args:?}");
        assert_eq!(output.stdout.is_empty(), status != 0, "{args:?}");
    }
}

// ---- random sheets

const SHEETS: usize = 60;

/// Every line of random sheets: it has no sum, or the rows come to each sum on it, or the description is outside the hypothesis.
#[test]
fn random_totals_come_from_the_rows() {
    let folder = Folder::new("explain-random");
    let mut rng = Rng::new(6);
    let mut seen = [0usize; 3];
    for _ in 0..SHEETS {
        let bytes = accepted_description(&mut rng);
        let rows = random_rows(&mut rng, &bytes);
        let sheet = wanted(&bytes, &rows).sheet;
        let [desc, rows] = [("desc", bytes), ("rows", rows)].map(|(name, bytes)| folder.file(name, &bytes));
        for (page, line, _) in lines_of(&sheet).into_iter().take(60) {
            let written = explain(&["--short"], &desc, &rows, page, line);
            let told = String::from_utf8(written.sheet).expect("words");
            let totals = told.matches(", total ").count();
            assert_eq!(told.matches(": the printed total\n").count(), totals, "{told}");
            let no_sum = format!("explain: page {page}, line {line} shows no sum\n");
            let kind = match written.errors.as_str() {
                "" => 0,
                words if words == no_sum => 1,
                words => {
                    assert!(words.ends_with(": no total of this description is explained\n"), "{words}");
                    2
                }
            };
            assert_eq!(totals > 0, kind == 0, "{told}");
            seen[kind] += 1;
            if kind == 2 {
                break;
            }
        }
    }
    println!("lines explained, lines without a sum, descriptions outside: {seen:?}");
    assert!(seen.iter().all(|&count| count >= 10), "{seen:?}");
}

// ---- a large file

const ROWS: usize = 1_000_000;

/// A million rows of 67 bytes, in 16 MB of address space: the file is read in parts, several times over.
#[test]
fn explains_a_large_file_in_little_memory() {
    let folder = Folder::new("explain-large");
    let day = fs::read(example("day_sheet.rows")).expect("the example");
    let rows = folder.file("rows", &day.repeat(ROWS / 228 + 1)[..67 * ROWS]);
    let desc = example("day_sheet.desc");
    let mut sheet = Command::new(Path::new(env!("CARGO_MANIFEST_DIR")).join("../target/bin/sheet"));
    sheet.args([&desc, &rows]);
    let (page, line, characters) = lines_of(&finished(sheet).sheet)
        .into_iter()
        .rev()
        .find(|line| line.2.contains("DAY TOTAL"))
        .expect("a total");
    let mut limited = Command::new("sh");
    limited.args(["-c", "ulimit -v 16384; exec \"$@\"", "sh"]).arg(command().get_program());
    limited.arg("--short").args([&desc, &rows]).args([page.to_string(), line.to_string()]);
    let written = finished(limited);
    assert_eq!(written.errors, "");
    let told = String::from_utf8(written.sheet).expect("words");
    let totals: Vec<&str> =
        told.lines().filter(|line| line.starts_with("  1000000 rows (1 to 1000000), total ")).collect();
    assert_eq!(totals.len(), 2, "{told}");
    for total in totals {
        assert!(total.ends_with(": the printed total"), "{told}");
        assert!(
            characters.contains(&hundredths(between(total, "total ", ":").parse().expect("a total"))),
            "{told}"
        );
    }
}
