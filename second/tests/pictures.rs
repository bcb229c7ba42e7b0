//! Pictures: what numbers look like through them, on every kind of number item.

mod common;

use common::{item, marked_page, whole_run, Run, WHOLE_RUN_ROWS};
use second::builder::{padded, Builder};
use second::description::*;
use second::{picture, record};

/// What a number field of these bytes prints through a picture, by the calls; blanks are shown as '_'.
fn printed(text: &str, field: &str) -> String {
    let width = text.len() as u16;
    let mut b = marked_page(width, field.len() as u16);
    let number = b.number(0, field.len() as u16);
    b.group(DE, 0);
    b.line(LINE_RELATIVE, 1);
    let picture = b.picture(text);
    let decimals = picture::decimals(&padded(text.as_bytes())) as u16;
    b.item(Item { decimals, picture, ..item(1, width, FIELD, number) });
    let mut run = Run::begin(&b.bytes());
    run.generate(0, field.as_bytes());
    String::from_utf8(run.sheet[9..9 + text.len()].to_vec()).unwrap().replace(' ', "_")
}

/// Picture, field, what is printed; blanks are shown as '_'.
const TABLE: &[(&str, &str, &str)] = &[
    // Z blanks a leading zero, a lone 0 too.
    ("ZZ9", "+000", "__0"),
    ("ZZ9", "+007", "__7"),
    ("ZZ9", "+070", "_70"),
    ("ZZ9", "+700", "700"),
    ("ZZ9", "+999", "999"),
    ("ZZZ", "+000", "___"),
    ("ZZZ", "+001", "__1"),
    ("ZZZ", "+100", "100"),
    ("Z", "+0", "_"),
    ("Z", "+9", "9"),
    // * stars it.
    ("**9", "+000", "**0"),
    ("**9", "+007", "**7"),
    ("**9", "+070", "*70"),
    ("***", "+000", "***"),
    ("***", "+005", "**5"),
    ("*", "+0", "*"),
    ("*", "+5", "5"),
    // A 9 shows its zero.
    ("999", "+000", "000"),
    ("999", "+007", "007"),
    ("Z99", "+000", "_00"),
    ("*99", "+007", "*07"),
    ("9", "+0", "0"),
    // Commas hidden and shown, with both fills.
    ("Z,ZZ9", "+0000", "____0"),
    ("Z,ZZ9", "+0999", "__999"),
    ("Z,ZZ9", "+1000", "1,000"),
    ("*,**9", "+0000", "****0"),
    ("*,**9", "+0999", "**999"),
    ("*,**9", "+1000", "1,000"),
    ("ZZZ,ZZZ,ZZ9", "+000001234", "______1,234"),
    ("***,***,**9", "+012345678", "*12,345,678"),
    ("Z,ZZZ", "+0000", "_____"),
    ("*,***", "+0000", "*****"),
    ("Z,Z,Z", "+010", "__1,0"),
    ("Z,999", "+0005", "__005"),
    ("*,999", "+0005", "**005"),
    ("ZZ,999", "+01005", "_1,005"),
    ("9,999", "+0005", "0,005"),
    ("9,9,9", "+000", "0,0,0"),
    // A comma in front of the first digit shown, which stands behind the point.
    ("Z,ZZZ.99", "+000005", "_____.05"),
    ("*,***.99", "+000000", "*****.00"),
    // CR and '-' show only when negative.
    ("ZZ9CR", "+007", "__7__"),
    ("ZZ9CR", "-007", "__7CR"),
    ("ZZ9-", "+007", "__7_"),
    ("ZZ9-", "-007", "__7-"),
    ("**9CR", "+000", "**0__"),
    ("**9-", "-999", "999-"),
    ("***-", "+000", "***_"),
    ("ZZZCR", "+000", "_____"),
    // "-000" is not negative.
    ("ZZ9CR", "-000", "__0__"),
    ("ZZ9-", "-000", "__0_"),
    ("ZZZ-", "-000", "____"),
    ("ZZ9", "-000", "__0"),
    // " 007" is "+007".
    ("ZZ9", " 007", "__7"),
    ("ZZ9CR", " 007", "__7__"),
    ("ZZ9-", " 000", "__0_"),
    ("ZZZ", " 000", "___"),
    ("**9", " 1000", "***"),
    // A negative number without a sign.
    ("ZZ9", "-001", "***"),
    ("999", "-999", "***"),
    ("Z,ZZ9.99", "-000001", "********"),
    // Too wide, by one digit and by more; the sign's places too.
    ("ZZ9", "+0999", "999"),
    ("ZZ9", "+1000", "***"),
    ("ZZ9", "+9999999", "***"),
    ("ZZ9-", "+1000", "****"),
    ("ZZ9CR", "-1000", "*****"),
    ("999CR", "+1000", "*****"),
    ("9,999", "+10000", "*****"),
    ("Z", "+10", "*"),
    ("9", "-10", "*"),
    // Decimals, 1 to 4.
    ("ZZ9.9", "+0005", "__0.5"),
    ("ZZ9.99", "+00005", "__0.05"),
    ("ZZ9.999", "+000005", "__0.005"),
    ("ZZ9.9999", "+0000005", "__0.0005"),
    ("ZZZ.99", "+00005", "___.05"),
    ("***.99", "+00105", "**1.05"),
    ("ZZZ.99", "+00000", "___.00"),
    ("999.99", "+00005", "000.05"),
    ("ZZZ,ZZ9.99CR", "-00012345", "____123.45CR"),
    ("***,**9.99CR", "+01234567", "*12,345.67__"),
    ("ZZ9.99", "+99999", "999.99"),
    ("ZZ9.99", "+100000", "******"),
    // No place in front of the point.
    (".99", "+00", ".00"),
    (".99", "+05", ".05"),
    (".99", "+99", ".99"),
    (".99", "+100", "***"),
    (".9999-", "-0001", ".0001-"),
    (".9CR", "+9", ".9__"),
    // 24 characters, and more places than any number has digits.
    ("999999999999999999999999", "+12345678901234567", "000000012345678901234567"),
    ("ZZZZZZZZZZZZZZZZZZZZZZZZ", "+00000000000000000", "________________________"),
    ("***********************9", "+99999999999999999", "*******99999999999999999"),
    ("ZZZ,ZZZ,ZZZ,ZZZ,ZZ9.99CR", "-99999999999999999", "999,999,999,999,999.99CR"),
    ("ZZZ,ZZZ,ZZZ,ZZZ,ZZ9.99CR", "-00000000000000001", "__________________0.01CR"),
    ("Z,ZZZ,ZZZ,ZZZ,ZZ9.9999CR", "+99999999999999999", "9,999,999,999,999.9999__"),
    ("ZZZ,ZZZ,ZZZ,ZZ9.9999CR", "+99999999999999999", "**********************"),
];

#[test]
fn the_table() {
    for &(text, field, expected) in TABLE {
        assert_eq!(printed(text, field), expected, "{field} through {text}");
    }
}

#[test]
fn a_blank_prints_what_a_plus_prints() {
    for &(text, field, expected) in TABLE {
        assert_eq!(printed(text, &field.replace('+', " ")), expected, "{field} through {text}");
    }
}

// Every short picture

const SIGNS: [&str; 3] = ["", "-", "CR"];

/// Every picture in order of up to five characters, put together part by part.
fn short_pictures() -> Vec<String> {
    let mut all = Vec::new();
    for fill in ["Z", "*"] {
        for (fills, nines) in (0..=5).flat_map(|fills| (0..=5).map(move |nines| (fills, nines))) {
            let places = fill.repeat(fills) + &"9".repeat(nines);
            for whole in with_commas(&places) {
                for (decimals, sign) in (0..=4).flat_map(|decimals| SIGNS.map(|sign| (decimals, sign))) {
                    let point = if decimals > 0 { "." } else { "" };
                    if !places.is_empty() || decimals > 0 {
                        all.push(format!("{whole}{point}{}{sign}", "9".repeat(decimals)));
                    }
                }
            }
        }
    }
    all.retain(|text| text.len() <= 5);
    all.sort();
    all.dedup();
    all
}

/// Digit places with a comma or none between each two of them.
fn with_commas(places: &str) -> Vec<String> {
    let gaps = places.len().saturating_sub(1);
    let with = |mask: usize| {
        let mut text = String::new();
        for (nth, place) in places.chars().enumerate() {
            if nth > 0 && mask >> (nth - 1) & 1 == 1 {
                text.push(',');
            }
            text.push(place);
        }
        text
    };
    (0..1 << gaps).map(with).collect()
}

#[test]
fn no_other_short_picture_is_right() {
    let alphabet = b"Z*9,.-CR X";
    let mut right = Vec::new();
    let mut texts = vec![Vec::new()];
    for _ in 0..5 {
        let longer = |text: &Vec<u8>| alphabet.map(|byte| [text.as_slice(), &[byte]].concat());
        texts = texts.iter().flat_map(longer).collect();
        // A blank at the end is padding, and the text one met before.
        let ends = texts.iter().filter(|text| text.last() != Some(&b' '));
        right.extend(ends.filter(|text| picture::is_right(&padded(text))).cloned());
    }
    let mut right: Vec<String> = right.into_iter().map(|text| String::from_utf8(text).unwrap()).collect();
    right.sort();
    assert_eq!(right, short_pictures());
}

/// What R-4 asks to be printed, from the first digit shown.
fn expected(text: &str, value: i64) -> String {
    let sign = SIGNS.into_iter().rev().find(|sign| text.ends_with(sign)).unwrap();
    let number = &text[..text.len() - sign.len()];
    let places = number.bytes().filter(|byte| b"Z*9".contains(byte)).count();
    let digits = format!("{:0places$}", value.unsigned_abs());
    if digits.len() > places.max(1) || (value < 0 && sign.is_empty()) {
        return "*".repeat(text.len());
    }
    let mut digits = digits.chars();
    let put = |byte: char| if "Z*9".contains(byte) { digits.next().unwrap() } else { byte };
    let with_digits: String = number.chars().map(put).collect();
    let is_shown = |(place, digit): (char, char)| place == '9' || (place != ',' && digit != '0');
    let first = number.chars().zip(with_digits.chars()).position(is_shown).unwrap_or(number.len());
    // A point is shown, so what is hidden ends in front of it.
    let fill = if text.contains('*') { "*" } else { " " };
    let end = if value < 0 { sign.to_string() } else { " ".repeat(sign.len()) };
    fill.repeat(first) + &with_digits[first..] + &end
}

#[test]
fn short_pictures_show_every_edge() {
    let sizes = [0, 1, 5, 9, 10, 11, 50, 99, 100, 101, 909, 999, 1000, 1001, 9999, 10000, 99999, 100000];
    let mut widest = vec![i64::MAX, 999_999_999_999_999_999];
    widest.extend(sizes);
    for text in short_pictures() {
        for value in widest.iter().flat_map(|&size| [size, -size]) {
            let mut part = vec![b' '; text.len()];
            picture::write(&padded(text.as_bytes()), value, &mut part);
            let shown = String::from_utf8(part).unwrap();
            assert_eq!(shown, expected(&text, value), "{value} through {text}");
        }
    }
}

#[test]
fn the_table_by_the_other_writing() {
    for (text, field, shown) in TABLE {
        let value = record::value(field.as_bytes());
        assert_eq!(expected(text, value).replace(' ', "_"), *shown, "{field} through {text}");
    }
}

// Every kind of number item

/// Pages of one detail: the page counter, the line counter and the amount in the detail; the sum in the footing.
fn all_sources(pictures: [&str; 4]) -> Builder {
    let [page, line, amount, sum] = pictures;
    let mut b = Builder::new(10, 1, 3, 3, 5, 60, 4);
    let key = b.text(0, 1);
    let field = b.number(1, 3);
    b.control(key);
    b.group(DE, 0);
    b.line(LINE_RELATIVE, 1);
    pictured_item(&mut b, 1, PAGE_COUNTER, 0, page);
    pictured_item(&mut b, 11, LINE_COUNTER, 0, line);
    pictured_item(&mut b, 21, FIELD, field, amount);
    let cf = b.group(CF, 0);
    b.line(LINE_RELATIVE, 1);
    let total = b.counter(cf, 0);
    b.add_field(field, 1);
    pictured_item(&mut b, 31, SUM, total, sum);
    b
}

fn pictured_item(b: &mut Builder, column: u16, source: u16, index: u16, text: &str) {
    let picture = b.picture(text);
    let decimals = picture::decimals(&padded(text.as_bytes())) as u16;
    b.item(Item { decimals, picture, ..item(column, text.len() as u16, source, index) });
}

/// The sheet of some rows, blanks at the lines' ends left off.
fn sheet(b: &Builder, rows: &[&str]) -> Vec<String> {
    let mut run = Run::begin(&b.bytes());
    for row in rows {
        run.generate(0, row.as_bytes());
    }
    run.terminate();
    run.dots().lines().map(|line| line.trim_end_matches('.').to_string()).collect()
}

#[test]
fn counters_and_sums_have_pictures() {
    let b = all_sources(["ZZ9", "***", "9,9-", "ZZ,ZZ9CR"]);
    assert_eq!(
        sheet(&b, &["A+05", "A-07", "A+00", "B-99", "B-99"]),
        [
            "000001003..1.......**3.......0,5",
            "000002003..2.......**3.......0,7-",
            "000003003..3.......**3.......0,0",
            "000003004...................................2CR",
            "000004003..4.......**3.......9,9-",
            "000005003..5.......**3.......9,9-",
            "000005004.................................198CR",
        ]
    );
}

#[test]
fn counters_and_sums_can_be_too_wide() {
    let b = all_sources(["9", "ZZ", "99", "99"]);
    let desc = b.bytes();
    // From page 9 on, where the page counter's one place is used up; the sum 99 is not, and 100 is.
    let mut run = Run::begin(&desc);
    run.generate(0, b"A+50");
    run.state.page = 9;
    run.sheet.clear();
    run.generate(0, b"A+49").generate(0, b"B+99");
    run.generate(0, b"B+01").terminate();
    let lines: Vec<String> = run.dots().lines().map(|line| line.trim_end_matches('.').to_string()).collect();
    assert_eq!(
        lines,
        [
            "000010003*..........3........49",
            "000010004..............................99",
            "000011003*..........3........99",
            "000012003*..........3........01",
            "000012004..............................**",
        ]
    );
}

#[test]
fn the_widest_sums_go_through() {
    let last = 999_999_999_999_999_999;
    for (text, sum, shown) in [
        ("999999999999999999CR", last, "999999999999999999.."),
        ("999999999999999999CR", -last, "999999999999999999CR"),
        ("ZZ,ZZZ,ZZZ,ZZZ,ZZ9.9999-", last, "99,999,999,999,999.9999."),
        ("Z,ZZZ,ZZZ,ZZZ,ZZ9.9999-", last, "***********************"),
        ("ZZZZZZ,ZZZ,ZZZ,ZZ9.9999-", last, ".99999,999,999,999.9999."),
        ("******,***,***,**9.9999-", -last, "*99999,999,999,999.9999-"),
        ("99999999999999999CR", last, "*******************"),
        ("999999999999999999", -1, "******************"),
        ("Z,ZZZ,ZZZ,ZZZ,ZZZ,ZZZ-", 0, "......................"),
    ] {
        let desc = all_sources(["9", "9", "99", text]).bytes();
        let mut run = Run::begin(&desc);
        run.generate(0, b"A+00");
        run.state.sums[0] = sum;
        run.sheet.clear();
        run.terminate();
        let dots = run.dots();
        assert_eq!(dots[9 + 30..9 + 30 + text.len()], *shown, "{sum} through {text}");
    }
}

#[test]
fn an_indicated_item_with_a_picture_is_blank_when_not_shown() {
    let mut b = marked_page(5, 3);
    let number = b.number(0, 3);
    b.group(DE, 0);
    b.line(LINE_RELATIVE, 1);
    let picture = b.picture("***CR");
    b.item(Item { indicate: 1, picture, ..item(1, 5, FIELD, number) });
    assert_eq!(sheet(&b, &["-07", "-08"]), ["000001003**7CR", "000001004"]);
}

// Versions

#[test]
fn without_pictures_both_versions_print_the_same() {
    let sheet_of = |b: &Builder| {
        let mut run = Run::begin(&b.bytes());
        WHOLE_RUN_ROWS.into_iter().for_each(|row| {
            run.generate(0, row);
        });
        run.terminate();
        (run.sheet, run.state)
    };
    let first = whole_run();
    let second = Builder { version: 2, ..whole_run() };
    // Two bytes more for each item, four for the trailer.
    assert_eq!(second.bytes().len(), first.bytes().len() + 2 * first.tables.items.len() + 4);
    assert_eq!(sheet_of(&first), sheet_of(&second));
    // A picture that no item uses prints nothing.
    let mut unused = second.clone();
    unused.picture("ZZ9");
    assert_eq!(unused.bytes().len(), second.bytes().len() + 24);
    assert_eq!(sheet_of(&first), sheet_of(&unused));
}

#[test]
fn the_bytes_of_a_version_2_description() {
    let mut b = marked_page(3, 2);
    b.number(0, 2);
    b.group(DE, 0);
    b.line(LINE_RELATIVE, 1);
    b.literal(1, "x");
    let picture = b.picture("Z9");
    b.item(Item { picture, ..item(2, 2, FIELD, 0) });
    let numbers: [&[u16]; 5] =
        [&[1, 0, 2], &[3, 0, 0, 1, 0, 0], &[2, 1, 0, 2], &[1, 1, 0, 0, 0, 0, 65535], &[2, 2, 1, 0, 0, 0, 0]];
    let mut bytes: Vec<u8> = numbers.concat().iter().flat_map(|number| number.to_le_bytes()).collect();
    bytes.extend(b"xZ9                      ");
    let trailer: [u16; 26] = [
        0, 1, 6, 0, 6, 1, 18, 1, 26, 2, 54, 0, 54, 0, 54, 1, 55, 1, // starts and counts
        10, 1, 3, 6, 8, 3, 2, 2, // P, H, FD, LD, FT, W, R, version
    ];
    bytes.extend(trailer.iter().flat_map(|number| number.to_le_bytes()));
    assert_eq!(b.bytes(), bytes);
    assert_eq!(check(&bytes), Ok(b.tables));
}
