//! The files in examples/: sources build to the descriptions, and the sheets come out byte for byte.

mod common;

use std::path::PathBuf;
use std::process::Command;

use common::{sheet_bytes, whole_run, Run, WHOLE_RUN_ROWS, WHOLE_RUN_SHEET};
use second::description::check;
use second::repair::{repaired, ORDER};
use second::source;

fn example(name: &str) -> PathBuf {
    PathBuf::from(concat!(env!("CARGO_MANIFEST_DIR"), "/../examples")).join(name)
}

fn bytes(name: &str) -> Vec<u8> {
    std::fs::read(example(name)).unwrap_or_else(|error| panic!("{name}: {error}"))
}

const EXAMPLES: [&str; 3] = ["whole_run", "day_sheet", "pictures"];

#[test]
fn sources_build_to_the_descriptions() {
    for name in EXAMPLES {
        let text = String::from_utf8(bytes(&format!("{name}.txt"))).unwrap();
        assert_eq!(source::build(&text).unwrap().bytes(), bytes(&format!("{name}.desc")), "{name}");
    }
}

#[test]
fn sheets_come_out_by_the_calls() {
    for name in EXAMPLES {
        let desc = bytes(&format!("{name}.desc"));
        let length = usize::from(check(&desc).unwrap().r);
        let mut run = Run::begin(&desc);
        for row in bytes(&format!("{name}.rows")).chunks(length) {
            run.generate(0, row);
        }
        run.terminate();
        assert!(run.sheet == bytes(&format!("{name}.sheet")), "{name}: the sheets differ");
    }
}

#[test]
fn sheets_come_out_by_the_command() {
    for name in EXAMPLES {
        let output = Command::new(env!("CARGO_BIN_EXE_second"))
            .arg("print")
            .args([example(&format!("{name}.desc")), example(&format!("{name}.rows"))])
            .output()
            .unwrap();
        assert!(output.status.success(), "{name}");
        assert!(output.stdout == bytes(&format!("{name}.sheet")), "{name}: the sheets differ");
    }
}

#[test]
fn sheets_of_one_report_are_kept_whole_and_the_second_of_two_is_dropped() {
    for name in EXAMPLES {
        let width = usize::from(check(&bytes(&format!("{name}.desc"))).unwrap().w);
        let sheet = bytes(&format!("{name}.sheet"));
        let repaired = repaired(&sheet, width).unwrap();
        assert!(repaired.copy == sheet && repaired.dropped.is_empty(), "{name}");
    }
    // The first report ends on page 3 behind 17 lines; the second has 8 on pages before that.
    let sheet = bytes("two_reports.sheet");
    let repaired = repaired(&sheet, 7).unwrap();
    assert_eq!(repaired.copy, sheet[..17 * 17]);
    let dropped: Vec<_> = repaired.dropped.iter().map(|dropped| (dropped.offset, dropped.reason)).collect();
    assert_eq!(dropped, (17..25).map(|nth| (17 * nth, ORDER)).collect::<Vec<_>>());
}

#[test]
fn the_whole_run_is_document_01s() {
    assert_eq!(bytes("whole_run.desc"), whole_run().bytes());
    assert_eq!(bytes("whole_run.rows"), WHOLE_RUN_ROWS.concat());
    assert_eq!(bytes("whole_run.sheet"), sheet_bytes(WHOLE_RUN_SHEET));
}

#[test]
fn only_the_one_with_pictures_is_version_2() {
    for name in EXAMPLES {
        let desc = bytes(&format!("{name}.desc"));
        let version = if name == "pictures" { 2 } else { 1 };
        assert_eq!(desc[desc.len() - 2..], [version, 0], "{name}");
    }
}

#[test]
fn the_pictures_show_what_r_4_asks_for() {
    let sheet = String::from_utf8(bytes("pictures.sheet")).unwrap();
    let lines: Vec<&str> = sheet.lines().collect();
    // The line on the sheet, a column from 1, and what stands there.
    let rows = [
        (0, 54, "  1"),          // the page
        (2, 1, "004"),           // the line
        (2, 32, "*****14.40  "), // a comma hidden by stars
        (3, 26, "   "),          // a 0 under Z
        (3, 32, "******0.00  "),
        (4, 32, "**1,000.00  "), // a comma shown
        (5, 26, " 1-"),
        (5, 32, "**1,000.00CR"),
        (5, 47, "  2.50-"),
        (6, 26, "***"),           // 100 pieces are too many for two places
        (7, 47, "*******"),       // a sum too wide
        (15, 32, "************"), // 1,234,567.89
        (16, 32, "999,999.99  "), // the widest that goes through
        (16, 47, "   .01-"),
        (19, 29, "*2,233,966.05  "),
    ];
    for (line, column, shown) in rows {
        assert_eq!(&lines[line][8 + column..][..shown.len()], shown, "line {line}, column {column}");
    }
}

#[test]
fn the_day_sheets_totals_are_those_of_its_rows() {
    let rows = bytes("day_sheet.rows");
    let number = |bytes: &[u8]| std::str::from_utf8(bytes).unwrap().parse::<i64>().unwrap();
    let amount: i64 = rows.chunks(67).map(|row| number(&row[51..60])).sum();
    let commission: i64 = rows.chunks(67).map(|row| number(&row[60..67])).sum();
    let sheet = String::from_utf8(bytes("day_sheet.sheet")).unwrap();
    let total = sheet.lines().find(|line| line.contains("DAY TOTAL")).unwrap();
    let money = |hundredths: i64| format!("{}.{:02}", hundredths / 100, hundredths % 100);
    let shown: Vec<&str> = total.split_whitespace().rev().take(2).collect();
    assert_eq!(shown, [money(commission), money(amount)]);
}
