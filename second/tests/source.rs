//! The text source of descriptions.

mod common;

use common::{item, whole_run};
use second::builder::Builder;
use second::description::*;
use second::source::{build, FORMAT};

#[test]
fn every_entry_is_understood() {
    let text = r#"
        page 30 heading 2 first 8 last 20 footing 24   # a comment
        width 40
        record 30
        field name text 0 4
        field amount number 4 6
        control FINAL
        control name
        group RH
        group CH name
            next absolute 9
            line next-page 8
                item 1 3 line
                literal 5 "a # ""b"""
        group DE
            next relative 2
            line absolute 9
                item 1 4 field name indicate
                item 6 10 field amount decimals 2 indicate
                literal 20 "x" indicate
            line relative 1
        group DE
        group CF FINAL
            next page
            sum all reset FINAL
                add sum part
                add field amount upon 1
        group CF name
            line relative 1
                item 1 10 sum part decimals 2
            sum part
                add field amount
    "#;
    let mut b = Builder::new(30, 2, 8, 20, 24, 40, 30);
    let name = b.text(0, 4);
    let amount = b.number(4, 6);
    b.control(FINAL);
    b.control(name);
    b.group(RH, 0);
    b.group(CH, 1);
    b.next(NEXT_ABSOLUTE, 9);
    b.line(LINE_NEXT_PAGE, 8);
    b.item(item(1, 3, LINE_COUNTER, 0));
    b.literal(5, "a # \"b\"");
    b.group(DE, 0);
    b.next(NEXT_RELATIVE, 2);
    b.line(LINE_ABSOLUTE, 9);
    b.item(Item { indicate: 1, ..item(1, 4, FIELD, name) });
    b.item(Item { indicate: 1, decimals: 2, ..item(6, 10, FIELD, amount) });
    let literal = b.literal(20, "x");
    b.tables.items[usize::from(literal)].indicate = 1;
    b.line(LINE_RELATIVE, 1);
    b.group(DE, 0);
    let all = b.group(CF, 0);
    b.next(NEXT_PAGE, 0);
    b.counter(all, 0);
    b.add_counter(1);
    b.add_field(amount, 0b10);
    let part = b.group(CF, 1);
    b.line(LINE_RELATIVE, 1);
    b.item(Item { decimals: 2, ..item(1, 10, SUM, 1) });
    b.counter(part, 1);
    b.add_field(amount, 0b11);
    let built = build(text).unwrap();
    assert_eq!(built, b);
    assert!(check(&built.bytes()).is_ok());
}

#[test]
fn errors_say_their_line() {
    let rows = [
        ("nonsense", "line 1: not understood: nonsense"),
        ("\npage 1", "line 2: not understood: page 1"),
        ("width wide", "line 1: wide is not a number from 0 to 65535"),
        ("width 65536", "line 1: 65536 is not a number from 0 to 65535"),
        ("width -1", "line 1: -1 is not a number from 0 to 65535"),
        ("field a text 0 1\nfield a text 1 1", "line 2: the name a is taken"),
        ("field FINAL text 0 1", "line 1: the name FINAL is taken"),
        ("field a money 0 1", "line 1: a field is text or number, not money"),
        ("control a", "line 1: no field is named a"),
        ("group CH FINAL", "line 1: FINAL is no control"),
        ("control FINAL\ngroup DE FINAL", "line 2: this form of group is CH, CF, not DE"),
        ("group CF", "line 1: this form of group is RH, PH, DE, PF, RF, not CF"),
        ("next page", "line 1: no group stands before this"),
        ("line relative 1", "line 1: no group stands before this"),
        ("group DE\nline up 1", "line 2: a line is absolute, next-page or relative, not up"),
        ("group DE\nliteral 1 \"x\"", "line 2: no line stands before this"),
        ("group DE\nline relative 1\nliteral 1 x", "line 3: a literal's text stands in quotes"),
        ("literal 1 \"x", "line 1: the text has no closing quote"),
        ("group DE\nline relative 1\nitem 1 2 row", "line 3: an item shows a field, a sum, page or line"),
        ("group DE\nline relative 1\nitem 1 2 page twice", "line 3: not understood: twice"),
        ("group DE\nline relative 1\nitem 1 2 sum a", "line 3: no sum is named a"),
        ("sum a", "line 1: no group stands before this"),
        ("group DE\nsum a\nsum a", "line 2: the name a is taken"),
        ("add sum a", "line 1: no sum stands before this"),
        ("field a number 0 2\ngroup DE\nsum s\nadd field a upon 16", "line 4: there is no detail 16"),
    ];
    for (text, message) in rows {
        assert_eq!(build(text).unwrap_err(), message, "{text}");
    }
}

/// A source of one detail with these items, on a line of 80.
fn with_items(items: &[&str]) -> String {
    let head = "page 10 heading 1 first 3 last 6 footing 8\nwidth 80\nrecord 12\n\
                field amount number 0 8\nfield name text 8 4\ngroup DE\nline relative 1\n";
    format!("{head}{}\n", items.join("\n"))
}

#[test]
fn pictures_make_version_2() {
    let text = with_items(&[
        r#"item 1 12 field amount decimals 2 picture "ZZZ,ZZ9.99CR" indicate"#,
        r#"item 14 12 field amount picture "ZZZ,ZZ9.99CR""#,
        r#"item 30 3 page picture "ZZ9""#,
        r#"item 34 3 line picture "***""#,
        "item 40 4 field name",
        r##"item 50 4 field amount picture "*,**" # a comment"##,
    ]);
    let built = build(&text).unwrap();
    assert_eq!(built.version, 2);
    let tables = check(&built.bytes()).unwrap();
    let pictures: Vec<String> =
        tables.pictures.iter().map(|picture| String::from_utf8(picture.to_vec()).unwrap()).collect();
    assert_eq!(pictures, ["ZZZ,ZZ9.99CR", "ZZ9", "***", "*,**"].map(|text| format!("{text:<24}")));
    let items: Vec<[u16; 7]> = tables.items.iter().map(Item::numbers).collect();
    assert_eq!(
        items,
        [
            [1, 12, FIELD, 0, 2, 1, 0],
            [14, 12, FIELD, 0, 2, 0, 0],
            [30, 3, PAGE_COUNTER, 0, 0, 0, 1],
            [34, 3, LINE_COUNTER, 0, 0, 0, 2],
            [40, 4, FIELD, 1, 0, 0, NO_PICTURE],
            [50, 4, FIELD, 0, 0, 0, 3],
        ]
    );
}

#[test]
fn a_picture_on_a_sum() {
    let detail = with_items(&[]).replace("group DE", "control name\ngroup DE");
    let footing = "group CF name\nline relative 1\nitem 1 7 sum s picture \"**9.99-\"\n";
    let text = format!("{detail}{footing}sum s\nadd field amount\n");
    let tables = check(&build(&text).unwrap().bytes()).unwrap();
    assert_eq!(tables.items[0].numbers(), [1, 7, SUM, 0, 2, 0, 0]);
}

#[test]
fn version_2_where_the_source_says_so() {
    let plain = with_items(&["item 1 8 field amount"]);
    let built = build(&plain).unwrap();
    assert_eq!(built.version, 1);
    let asked = build(&format!("version 2\n{plain}")).unwrap();
    assert_eq!((asked.version, &asked.tables), (2, &built.tables));
    assert_eq!(check(&asked.bytes()), check(&built.bytes()));
    // At the end, or with a picture, it is the same.
    assert_eq!(build(&format!("{plain}version 2\n")).unwrap(), asked);
    let pictured = with_items(&[r#"item 1 1 page picture "9""#]);
    assert_eq!(build(&format!("version 2\n{pictured}")), build(&pictured));
}

#[test]
fn errors_of_pictures_say_their_line() {
    let rows = [
        (r#"item 1 4 page picture "ZZ9""#, "line 8: the item's width is 4, its picture's length 3"),
        (r#"item 1 2 page picture "ZZ9""#, "line 8: the item's width is 2, its picture's length 3"),
        (r#"item 1 4 page picture "ZZ9 ""#, "line 8: the item's width is 4, its picture's length 3"),
        (r#"item 1 1 page picture """#, "line 8: the item's width is 1, its picture's length 0"),
        (
            r#"item 1 25 page picture "9999999999999999999999999""#,
            "line 8: a picture has up to 24 characters, this one 25",
        ),
        ("item 1 3 page picture ZZ9", "line 8: a picture stands in quotes"),
        ("item 1 3 page picture", "line 8: not understood: picture"),
        (r#"item 1 3 field name picture "ZZ9""#, "line 8: a picture is for a number, and the field is text"),
        (r#"item 1 3 page indicate picture "ZZ9""#, "line 8: not understood: indicate picture \"ZZ9"),
        (r#"literal 1 "abc" picture "ZZ9""#, "line 8: not understood: literal 1 \"abc picture \"ZZ9"),
        ("version 1", "line 8: a source asks for version 2, not 1"),
        ("version 3", "line 8: a source asks for version 2, not 3"),
        ("version", "line 8: not understood: version"),
    ];
    for (line, message) in rows {
        assert_eq!(build(&with_items(&[line])).unwrap_err(), message, "{line}");
    }
    // What else a picture breaks is CHECK's to say.
    for (line, rule) in [
        (r#"item 1 3 page picture "Z*9""#, 9),
        (r#"item 1 3 page decimals 0 picture "9.9""#, 9),
        (r#"item 1 4 field amount decimals 1 picture "9.99""#, 9),
        (r#"item 1 3 field amount decimals 1 picture "ZZ9""#, 9),
        (r#"item 1 3 page picture "9.9""#, 7),
    ] {
        assert_eq!(check(&build(&with_items(&[line])).unwrap().bytes()), Err(rule), "{line}");
    }
}

#[test]
fn a_builder_sets_any_number() {
    let mut b = whole_run();
    b.tables.groups[1].first_line = 65535;
    b.tables.r = 0;
    b.version = 7;
    let bytes = b.bytes();
    let at_end = |from_end: usize| {
        u16::from_le_bytes([bytes[bytes.len() - from_end], bytes[bytes.len() - from_end + 1]])
    };
    assert_eq!((at_end(2), at_end(4), at_end(6)), (7, 0, 12));
    let groups = 2 * 6 + 2;
    assert_eq!(bytes[groups + 12 + 4..groups + 12 + 6], [255, 255]);
}

#[test]
fn the_readme_shows_the_format() {
    let readme = include_str!("../README.md");
    for line in FORMAT.lines().filter_map(|line| line.strip_prefix("  ")) {
        assert!(readme.contains(&format!("\n    {line}\n")), "{line}");
    }
}
