//! Every edge of D1 to D8 and of rule 9 from both sides: the last value accepted, the first value refused.

mod common;

use common::item;
use second::builder::{padded, Builder};
use second::description::*;
use second::picture;

/// What is changed, the rule it may break, a change that is accepted, and one that is refused.
type Edge = (&'static str, u8, fn(&mut Builder), fn(&mut Builder));

fn rule(b: &Builder) -> u8 {
    check(&b.bytes()).err().unwrap_or(0)
}

fn run(edges: &[Edge]) {
    run_on(base, edges);
    run_on(base_2, edges);
}

fn run_on(base: fn() -> Builder, edges: &[Edge]) {
    for (what, broken, accepted, refused) in edges {
        let mut b = base();
        accepted(&mut b);
        assert_eq!(rule(&b), 0, "accepted side of: {what}, version {}", b.version);
        let mut b = base();
        refused(&mut b);
        assert_eq!(rule(&b), *broken, "refused side of: {what}, version {}", b.version);
    }
}

// The groups of the base description.
const RH_: usize = 0;
const PH_: usize = 1;
const CH1: usize = 2;
const DE0: usize = 3;
const DE1: usize = 4;
const CF2: usize = 5;
const CF1: usize = 6;
const CF0: usize = 7;
const PF_: usize = 8;
const RF_: usize = 9;

/// A description with every kind of entry: P 30, H 2, FD 8, LD 20, FT 24, W 40, R 40.
fn base() -> Builder {
    let mut b = Builder::new(30, 2, 8, 20, 24, 40, 40);
    let name = b.text(0, 4);
    let count = b.number(4, 6);
    let value = b.number(10, 18);
    let note = b.text(28, 12);
    b.control(FINAL);
    b.control(name);
    b.control(count);
    b.group(RH, 0);
    b.line(LINE_ABSOLUTE, 2);
    b.literal(1, "REPORT");
    b.line(LINE_RELATIVE, 1);
    b.group(PH, 0);
    b.line(LINE_RELATIVE, 1);
    b.literal(1, "PAGE");
    b.item(item(6, 6, PAGE_COUNTER, 0));
    b.item(item(12, 3, LINE_COUNTER, 0));
    b.group(CH, 1);
    b.line(LINE_RELATIVE, 1);
    b.item(item(1, 4, FIELD, name));
    b.group(DE, 0);
    b.line(LINE_RELATIVE, 1);
    b.item(Item { indicate: 1, ..item(1, 4, FIELD, name) });
    b.item(Item { decimals: 2, ..item(6, 10, FIELD, count) });
    b.item(item(16, 12, FIELD, note));
    b.line(LINE_RELATIVE, 1);
    b.item(item(1, 19, FIELD, value));
    b.group(DE, 0);
    b.line(LINE_ABSOLUTE, 10);
    b.group(CF, 2);
    b.line(LINE_RELATIVE, 1);
    b.item(Item { decimals: 2, ..item(1, 20, SUM, 0) });
    b.item(item(21, 20, SUM, 1));
    b.group(CF, 1);
    b.line(LINE_NEXT_PAGE, 8);
    b.item(item(1, 20, SUM, 2));
    b.item(item(21, 6, FIELD, count));
    b.group(CF, 0);
    b.line(LINE_RELATIVE, 2);
    b.item(item(1, 20, SUM, 3));
    b.group(PF, 0);
    b.line(LINE_ABSOLUTE, 26);
    b.item(item(1, 6, PAGE_COUNTER, 0));
    b.group(RF, 0);
    b.line(LINE_RELATIVE, 1);
    b.literal(1, "END");
    let first = b.counter(CF2 as u16, 2);
    b.add_field(count, 0b11);
    b.add_field(value, 0b10);
    let second = b.counter(CF2 as u16, 1);
    b.add_field(value, 0b01);
    b.add_counter(first);
    let third = b.counter(CF1 as u16, 1);
    b.add_counter(first);
    b.counter(CF0 as u16, 0);
    b.add_counter(third);
    b.add_counter(second);
    b
}

/// The same in version 2, without a picture.
fn base_2() -> Builder {
    Builder { version: 2, ..base() }
}

fn group(b: &mut Builder, g: usize) -> &mut Group {
    &mut b.tables.groups[g]
}

/// Line `i` of a group.
fn line(b: &mut Builder, g: usize, i: usize) -> &mut Line {
    let first = usize::from(b.tables.groups[g].first_line);
    &mut b.tables.lines[first + i]
}

/// Item `i` of a group's first line.
fn item_of(b: &mut Builder, g: usize, i: usize) -> &mut Item {
    let first = usize::from(line(b, g, 0).first_item);
    &mut b.tables.items[first + i]
}

fn same(_: &mut Builder) {}

/// Adds a group without lines.
fn add(b: &mut Builder, kind: u16, level: u16) {
    b.group(kind, level);
}

#[test]
fn the_bases_are_accepted() {
    for b in [base(), base_2(), pictured()] {
        assert_eq!(rule(&b), 0);
        assert_eq!(check(&b.bytes()).unwrap(), b.tables);
    }
}

// D1

#[test]
fn d1_at_least_48_bytes() {
    let empty = Builder::new(30, 2, 8, 20, 24, 40, 40).bytes();
    assert_eq!(empty.len(), 48);
    // Without a group D5 is the lowest broken rule: D1 holds.
    assert_eq!(check(&empty), Err(5));
    assert_eq!(check(&empty[1..]), Err(1));
    assert_eq!(check(&[]), Err(1));
}

#[test]
fn d1_version_2_at_least_52_bytes() {
    let empty = Builder { version: 2, ..Builder::new(30, 2, 8, 20, 24, 40, 40) }.bytes();
    assert_eq!(empty.len(), 52);
    assert_eq!(check(&empty), Err(5));
    for cut in 1..52 {
        assert_eq!(check(&empty[cut..]), Err(1), "{} bytes", 52 - cut);
    }
    // 48 to 51 bytes that are enough for version 1, but say version 2.
    for length in 48..52 {
        let mut bytes = vec![0; length];
        bytes[length - 2] = 2;
        assert_eq!(check(&bytes), Err(1), "{length} bytes");
    }
}

#[test]
fn d1_version_and_sections() {
    version_and_sections(&base(), 48);
    version_and_sections(&base_2(), 52);
    version_and_sections(&pictured(), 52);
}

fn version_and_sections(b: &Builder, trailer_bytes: usize) {
    let trailer = b.trailer();
    assert_eq!(2 * trailer.len(), trailer_bytes);
    let rule_with = |place: usize, number: u16| {
        let mut changed = trailer.clone();
        changed[place] = number;
        check(&b.bytes_with_trailer(&changed)).err().unwrap_or(0)
    };
    let last = trailer.len() - 1;
    assert_eq!(rule_with(last, b.version), 0);
    for version in [0, 1, 2, 3, 256, 257, 258, 65535].into_iter().filter(|&version| version != b.version) {
        assert_eq!(rule_with(last, version), 1, "version {version}");
    }
    // Every start and every count one up or one down.
    for (i, number) in trailer[..trailer.len() - 8].iter().enumerate() {
        for change in [1, u16::MAX] {
            assert_eq!(rule_with(i, number.wrapping_add(change)), 1, "number {i} changed by {change}");
        }
    }
    // A byte more or less before the trailer.
    let bytes = b.bytes();
    let start = bytes.len() - trailer_bytes;
    let mut longer = bytes.clone();
    longer.insert(start, b' ');
    assert_eq!(check(&longer), Err(1));
    let mut shorter = bytes.clone();
    shorter.remove(start - 1);
    assert_eq!(check(&shorter), Err(1));
    // An empty section's start must still be the running place.
    let mut empty = Builder::new(30, 2, 8, 20, 24, 40, 40);
    empty.group(DE, 0);
    assert_eq!(rule(&empty), 0);
    let mut moved = empty.trailer();
    moved[2] = 12;
    assert_eq!(check(&empty.bytes_with_trailer(&moved)), Err(1));
}

/// A description with `n` of one thing and what it needs.
fn many(fields: u16, controls: u16, lines: usize, items: usize, counters: u16, addends: usize) -> Builder {
    let mut b = Builder::new(999, 1, 1, 999, 999, 132, 256);
    for i in 0..fields {
        b.number(2 * i, 2);
    }
    for i in 0..controls {
        b.control(i);
    }
    let mut details: Vec<usize> = vec![0; 8];
    (0..lines).for_each(|i| details[i % 8] += 1);
    let mut left = items;
    for lines in details {
        b.group(DE, 0);
        for _ in 0..lines {
            b.line(LINE_RELATIVE, 1);
            for column in 1..=left.min(132) {
                b.item(item(column as u16, 1, LINE_COUNTER, 0));
            }
            left -= left.min(132);
        }
    }
    if counters > 0 {
        let cf = b.group(CF, 0);
        let mut left = addends;
        for c in 0..counters {
            b.counter(cf, 0);
            let own = left.div_ceil(usize::from(counters - c));
            for field in 0..own {
                b.add_field(field as u16, 1);
            }
            left -= own;
        }
    }
    b
}

#[test]
fn d1_most_entries() {
    let rows = [
        ("fields", many(32, 0, 0, 0, 0, 0), many(33, 0, 0, 0, 0, 0)),
        ("controls", many(9, 8, 0, 0, 0, 0), many(9, 9, 0, 0, 0, 0)),
        ("lines", many(1, 0, 128, 0, 0, 0), many(1, 0, 129, 0, 0, 0)),
        ("items", many(1, 0, 8, 512, 0, 0), many(1, 0, 8, 513, 0, 0)),
        ("counters", many(1, 1, 0, 0, 32, 32), many(1, 1, 0, 0, 33, 33)),
        ("addends", many(8, 1, 0, 0, 32, 128), many(8, 1, 0, 0, 32, 129)),
    ];
    for (what, most, more) in rows {
        assert_eq!(rule(&most), 0, "most {what}");
        assert_eq!(rule(&more), 1, "one more of {what}");
    }
    let mut b = base();
    b.tables.literals.resize(4096, b' ');
    assert_eq!(rule(&b), 0);
    b.tables.literals.push(b' ');
    assert_eq!(rule(&b), 1);
    // Of 32 groups some are too many for D5: RH, PH, PF, RF, eight CH, eight CF and eight DE are 28.
    let mut b = Builder::new(30, 2, 8, 20, 24, 40, 40);
    for i in 0..8 {
        b.text(i, 1);
    }
    for level in 0..8 {
        b.control(level);
        b.group(CH, level);
        b.group(CF, level);
        b.group(DE, 0);
    }
    for kind in [RH, PH, PF, RF] {
        b.group(kind, 0);
    }
    assert_eq!((b.tables.groups.len(), rule(&b)), (28, 0));
    add_details(&mut b, 4);
    assert_eq!((b.tables.groups.len(), rule(&b)), (32, 5));
    b.group(DE, 0);
    assert_eq!((b.tables.groups.len(), rule(&b)), (33, 1));
}

#[test]
fn d1_most_pictures() {
    for mut b in [base_2(), pictured()] {
        b.tables.pictures.resize(64, padded(b"9"));
        assert_eq!(rule(&b), 0);
        b.tables.pictures.push(padded(b"9"));
        assert_eq!(rule(&b), 1);
        // One more is D1 also where the pictures are not what rule 9 asks for.
        b.tables.pictures.fill(padded(b""));
        assert_eq!(rule(&b), 1);
        b.tables.pictures.pop();
        assert_eq!(rule(&b), 9);
    }
}

// D2

#[test]
fn d2_page_width_and_record() {
    // A description of one lineless detail, with the numbers P, H, FD, LD, FT, W, R.
    let rule_of = |[p, h, fd, ld, ft, w, r]: [u16; 7]| {
        let mut b = Builder::new(p, h, fd, ld, ft, w, r);
        b.group(DE, 0);
        rule(&b)
    };
    let rows = [
        ("H from 1", [30, 1, 8, 20, 24, 40, 40], [30, 0, 8, 20, 24, 40, 40]),
        ("H to FD", [30, 8, 8, 20, 24, 40, 40], [30, 9, 8, 20, 24, 40, 40]),
        ("FD to LD", [30, 2, 20, 20, 24, 40, 40], [30, 2, 21, 20, 24, 40, 40]),
        ("LD to FT", [30, 2, 8, 24, 24, 40, 40], [30, 2, 8, 25, 24, 40, 40]),
        ("FT to P", [30, 2, 8, 20, 30, 40, 40], [30, 2, 8, 20, 31, 40, 40]),
        ("P to 999", [999, 2, 8, 20, 24, 40, 40], [1000, 2, 8, 20, 24, 40, 40]),
        ("W from 1", [30, 2, 8, 20, 24, 1, 40], [30, 2, 8, 20, 24, 0, 40]),
        ("W to 132", [30, 2, 8, 20, 24, 132, 40], [30, 2, 8, 20, 24, 133, 40]),
        ("R from 1", [30, 2, 8, 20, 24, 40, 1], [30, 2, 8, 20, 24, 40, 0]),
        ("R to 256", [30, 2, 8, 20, 24, 40, 256], [30, 2, 8, 20, 24, 40, 257]),
        ("all one", [1, 1, 1, 1, 1, 1, 1], [0, 1, 1, 1, 1, 1, 1]),
        ("all 999", [999, 999, 999, 999, 999, 1, 1], [999, 999, 999, 999, 1000, 1, 1]),
    ];
    for (what, accepted, refused) in rows {
        assert_eq!(rule_of(accepted), 0, "accepted side of: {what}");
        assert_eq!(rule_of(refused), 2, "refused side of: {what}");
    }
}

// D3

#[test]
fn d3_fields() {
    let rule_of = |kind, offset, width| {
        let mut b = Builder::new(30, 2, 8, 20, 24, 40, 100);
        b.field(kind, offset, width);
        b.group(DE, 0);
        rule(&b)
    };
    let rows = [
        ("kinds", (NUMBER, 0, 10), (2, 0, 10)),
        ("text width from 1", (TEXT, 0, 1), (TEXT, 0, 0)),
        ("text width to 64", (TEXT, 0, 64), (TEXT, 0, 65)),
        ("number width from 2", (NUMBER, 0, 2), (NUMBER, 0, 1)),
        ("number width to 18", (NUMBER, 0, 18), (NUMBER, 0, 19)),
        ("text inside the record", (TEXT, 90, 10), (TEXT, 91, 10)),
        ("number inside the record", (NUMBER, 98, 2), (NUMBER, 99, 2)),
        ("offset near 65535", (TEXT, 99, 1), (TEXT, 65535, 2)),
    ];
    for (what, (kind, offset, width), (bad_kind, bad_offset, bad_width)) in rows {
        assert_eq!(rule_of(kind, offset, width), 0, "accepted side of: {what}");
        assert_eq!(rule_of(bad_kind, bad_offset, bad_width), 3, "refused side of: {what}");
    }
}

// D4

#[test]
fn d4_controls() {
    let rule_of = |controls: &[u16]| {
        let mut b = Builder::new(30, 2, 8, 20, 24, 40, 40);
        for i in 0..3 {
            b.text(i, 1);
        }
        for &control in controls {
            b.control(control);
        }
        b.group(DE, 0);
        rule(&b)
    };
    let rows: [(&str, &[u16], &[u16]); 5] = [
        ("FINAL only first", &[FINAL, 0], &[0, FINAL]),
        ("FINAL once", &[FINAL], &[FINAL, FINAL]),
        ("the index exists", &[2], &[3]),
        ("none twice", &[0, 1, 2], &[0, 1, 0]),
        ("no number but 65535 is FINAL", &[], &[65534]),
    ];
    for (what, accepted, refused) in rows {
        assert_eq!(rule_of(accepted), 0, "accepted side of: {what}");
        assert_eq!(rule_of(refused), 4, "refused side of: {what}");
    }
}

// D5

#[test]
fn d5_groups() {
    run(&[
        ("types to RF", 5, same, |b| add(b, 7, 0)),
        ("one RH", 5, same, |b| add(b, RH, 0)),
        ("one PH", 5, same, |b| add(b, PH, 0)),
        ("one PF", 5, same, |b| add(b, PF, 0)),
        ("one RF", 5, same, |b| add(b, RF, 0)),
        ("one CH a level", 5, |b| add(b, CH, 0), |b| add(b, CH, 1)),
        ("one CF a level", 5, same, |b| add(b, CF, 2)),
        ("CH's level exists", 5, |b| group(b, CH1).level = 2, |b| group(b, CH1).level = 3),
        ("CF's level exists", 5, same, |b| group(b, CF2).level = 3),
        ("RH has level 0", 5, same, |b| group(b, RH_).level = 1),
        ("PH has level 0", 5, same, |b| group(b, PH_).level = 1),
        ("DE has level 0", 5, same, |b| group(b, DE1).level = 1),
        ("PF has level 0", 5, same, |b| group(b, PF_).level = 1),
        ("RF has level 0", 5, same, |b| group(b, RF_).level = 1),
        ("to 8 details", 5, |b| add_details(b, 6), |b| add_details(b, 7)),
        ("the first line begins the share", 5, same, |b| group(b, RH_).first_line = 1),
        ("a share begins where the last ends", 5, same, |b| group(b, DE0).first_line -= 1),
        (
            "a lineless group's too",
            5,
            |b| add(b, CH, 0),
            |b| {
                b.group(CH, 0);
                b.tables.groups.last_mut().unwrap().first_line = 0;
            },
        ),
        ("no line is left over", 5, same, |b| {
            b.tables.lines.push(Line { kind: LINE_RELATIVE, integer: 1, first_item: 16, item_count: 0 });
        }),
        ("no line is missing", 5, same, |b| group(b, RF_).line_count = 2),
        ("counts near 65535", 5, same, |b| group(b, RF_).line_count = 65535),
    ]);
    // 1 to 8 details
    let mut b = Builder::new(30, 2, 8, 20, 24, 40, 40);
    assert_eq!(rule(&b), 5);
    b.group(DE, 0);
    assert_eq!(rule(&b), 0);
}

/// Adds lineless details.
fn add_details(b: &mut Builder, count: usize) {
    for _ in 0..count {
        b.group(DE, 0);
    }
}

fn next(b: &mut Builder, g: usize, kind: u16, integer: u16) {
    (group(b, g).next_kind, group(b, g).next_integer) = (kind, integer);
}

#[test]
fn d5_next_groups() {
    for g in [CH1, DE0, CF2] {
        for (kind, integer, broken) in [
            (NEXT_NONE, 0, 0),
            (NEXT_NONE, 1, 5),
            (NEXT_ABSOLUTE, 7, 5),
            (NEXT_ABSOLUTE, 8, 0),
            (NEXT_ABSOLUTE, 24, 0),
            (NEXT_ABSOLUTE, 25, 5),
            (NEXT_RELATIVE, 0, 5),
            (NEXT_RELATIVE, 1, 0),
            (NEXT_RELATIVE, 999, 0),
            (NEXT_RELATIVE, 1000, 5),
            (NEXT_PAGE, 0, 0),
            (NEXT_PAGE, 1, 5),
            (4, 0, 5),
        ] {
            let mut b = base();
            next(&mut b, g, kind, integer);
            assert_eq!(rule(&b), broken, "group {g}, kind {kind}, integer {integer}");
        }
    }
    for g in [RH_, PH_, PF_, RF_] {
        for (kind, integer) in [(NEXT_NONE, 1), (NEXT_ABSOLUTE, 8), (NEXT_RELATIVE, 1), (NEXT_PAGE, 0)] {
            let mut b = base();
            next(&mut b, g, kind, integer);
            assert_eq!(rule(&b), 5, "group {g}, kind {kind}, integer {integer}");
        }
    }
}

// D6

#[test]
fn d6_lines() {
    run(&[
        ("to 16 lines a group", 6, |b| *b = tall(16), |b| *b = tall(17)),
        ("first integer from 1", 6, same, |b| line(b, DE0, 0).integer = 0),
        ("first integer to 999", 6, |b| line(b, DE0, 0).integer = 999, |b| line(b, DE0, 0).integer = 1000),
        ("later integer from 1", 6, same, |b| line(b, DE0, 1).integer = 0),
        ("later integer to 99", 6, |b| *b = stepped(99), |b| *b = stepped(100)),
        ("later lines not absolute", 6, same, |b| line(b, DE0, 1).kind = LINE_ABSOLUTE),
        ("later lines not next page", 6, same, |b| line(b, DE0, 1).kind = LINE_NEXT_PAGE),
        ("later line kinds", 6, same, |b| line(b, DE0, 1).kind = 3),
        ("first line kinds", 6, |b| line(b, DE0, 0).kind = LINE_RELATIVE, |b| line(b, DE0, 0).kind = 3),
        ("an item share begins where the last ends", 6, same, |b| line(b, DE0, 0).first_item += 1),
        ("an itemless line's too", 6, same, |b| line(b, RH_, 1).first_item = 0),
        ("no item is left over", 6, same, |b| b.tables.items.push(item(1, 1, PAGE_COUNTER, 0))),
        ("no item is missing", 6, same, |b| line(b, RF_, 0).item_count = 2),
    ]);
}

/// One detail of so many lines.
fn tall(lines: usize) -> Builder {
    let mut b = Builder::new(30, 2, 8, 24, 24, 40, 40);
    b.group(DE, 0);
    for _ in 0..lines {
        b.line(LINE_RELATIVE, 1);
    }
    b
}

/// One detail of two lines, the second this step down.
fn stepped(step: u16) -> Builder {
    let mut b = Builder::new(200, 1, 1, 200, 200, 40, 40);
    b.group(DE, 0);
    b.line(LINE_RELATIVE, 1);
    b.line(LINE_RELATIVE, step);
    b
}

#[test]
fn d6_first_line_kinds() {
    // (type, a first line that fits, where next page fits too)
    for (kind, n, may) in [
        (RH, 2, [true, false, true]),
        (PH, 2, [true, false, true]),
        (CH, 8, [true, true, true]),
        (DE, 8, [true, true, true]),
        (CF, 8, [true, true, true]),
        (PF, 25, [true, false, false]),
        (RF, 25, [true, true, true]),
    ] {
        for line_kind in [LINE_ABSOLUTE, LINE_NEXT_PAGE, LINE_RELATIVE] {
            let n = if line_kind == LINE_RELATIVE { 1 } else { n };
            let broken = if may[usize::from(line_kind)] { 0 } else { 6 };
            assert_eq!(rule_of_fit(&[(kind, line_kind, n, 0)]), broken, "type {kind}, line kind {line_kind}");
        }
        assert_eq!(rule_of_fit(&[(kind, 3, n, 0)]), 6, "type {kind}, line kind 3");
    }
}

/// The rule broken by groups (type, kind of the first line, its integer, span) on the base's page:
/// P 30, H 2, FD 8, LD 20, FT 24. An integer 0 stands for a group without lines.
fn rule_of_fit(groups: &[(u16, u16, u16, u16)]) -> u8 {
    let mut b = Builder::new(30, 2, 8, 20, 24, 40, 40);
    b.control(FINAL);
    b.group(DE, 0);
    for &(kind, line_kind, n, span) in groups {
        b.group(kind, 0);
        if n > 0 {
            b.line(line_kind, n);
        }
        if span > 0 {
            b.line(LINE_RELATIVE, span);
        }
    }
    rule(&b)
}

#[test]
fn d6_groups_fit() {
    const ABS: u16 = LINE_ABSOLUTE;
    const REL: u16 = LINE_RELATIVE;
    const NP: u16 = LINE_NEXT_PAGE;
    type Groups = &'static [(u16, u16, u16, u16)];
    let rows: &[(&str, Groups, Groups)] = &[
        ("CH from FD", &[(CH, ABS, 8, 0)], &[(CH, ABS, 7, 0)]),
        ("CH to LD", &[(CH, ABS, 20, 0)], &[(CH, ABS, 21, 0)]),
        ("CH to LD with span", &[(CH, ABS, 18, 2)], &[(CH, ABS, 18, 3)]),
        ("CH relative", &[(CH, REL, 999, 12)], &[(CH, REL, 1, 13)]),
        ("CH next page from FD", &[(CH, NP, 8, 12)], &[(CH, NP, 7, 0)]),
        ("CH next page to LD", &[(CH, NP, 20, 0)], &[(CH, NP, 20, 1)]),
        ("DE from FD", &[(DE, ABS, 8, 0)], &[(DE, ABS, 7, 0)]),
        ("DE to LD", &[(DE, ABS, 20, 0)], &[(DE, ABS, 21, 0)]),
        ("DE to LD with span", &[(DE, ABS, 18, 2)], &[(DE, ABS, 18, 3)]),
        ("DE relative", &[(DE, REL, 999, 12)], &[(DE, REL, 1, 13)]),
        ("DE next page from FD", &[(DE, NP, 8, 12)], &[(DE, NP, 7, 0)]),
        ("DE next page to LD", &[(DE, NP, 20, 0)], &[(DE, NP, 20, 1)]),
        ("CF from FD", &[(CF, ABS, 8, 0)], &[(CF, ABS, 7, 0)]),
        ("CF to FT", &[(CF, ABS, 24, 0)], &[(CF, ABS, 25, 0)]),
        ("CF to FT with span", &[(CF, ABS, 20, 4)], &[(CF, ABS, 20, 5)]),
        ("CF relative", &[(CF, REL, 999, 16)], &[(CF, REL, 1, 17)]),
        ("CF next page from FD", &[(CF, NP, 8, 16)], &[(CF, NP, 7, 0)]),
        ("CF next page to FT", &[(CF, NP, 24, 0)], &[(CF, NP, 24, 1)]),
        ("RH from H", &[(RH, ABS, 2, 0)], &[(RH, ABS, 1, 0)]),
        ("RH to FD-1", &[(RH, ABS, 7, 0)], &[(RH, ABS, 8, 0)]),
        ("RH to FD-1 with span", &[(RH, ABS, 2, 5)], &[(RH, ABS, 2, 6)]),
        ("RH relative at H-1+n", &[(RH, REL, 6, 0)], &[(RH, REL, 7, 0)]),
        ("RH relative with span", &[(RH, REL, 1, 5)], &[(RH, REL, 1, 6)]),
        ("PH from H", &[(PH, ABS, 2, 0)], &[(PH, ABS, 1, 0)]),
        ("PH to FD-1", &[(PH, ABS, 7, 0)], &[(PH, ABS, 8, 0)]),
        ("PH to FD-1 with span", &[(PH, ABS, 2, 5)], &[(PH, ABS, 2, 6)]),
        ("PH relative at H-1+n", &[(PH, REL, 6, 0)], &[(PH, REL, 7, 0)]),
        ("PH relative with span", &[(PH, REL, 1, 5)], &[(PH, REL, 1, 6)]),
        ("PH below RH", &[(RH, ABS, 3, 1), (PH, ABS, 5, 0)], &[(RH, ABS, 3, 1), (PH, ABS, 4, 0)]),
        ("PH below relative RH", &[(RH, REL, 2, 1), (PH, ABS, 5, 0)], &[(RH, REL, 2, 1), (PH, ABS, 4, 0)]),
        ("relative PH below RH", &[(RH, ABS, 3, 1), (PH, REL, 3, 0)], &[(RH, ABS, 3, 1), (PH, REL, 4, 0)]),
        (
            "PH before RH in group order",
            &[(PH, ABS, 5, 0), (RH, ABS, 4, 0)],
            &[(PH, ABS, 5, 0), (RH, ABS, 5, 0)],
        ),
        ("a lineless RH is absent", &[(RH, ABS, 0, 0), (PH, REL, 6, 0)], &[(RH, ABS, 0, 0), (PH, REL, 7, 0)]),
        ("a lineless PH is absent", &[(RH, ABS, 7, 0), (PH, ABS, 0, 0)], &[(RH, ABS, 7, 0), (PH, REL, 1, 0)]),
        ("PF from FT+1", &[(PF, ABS, 25, 0)], &[(PF, ABS, 24, 0)]),
        ("PF to P", &[(PF, ABS, 30, 0)], &[(PF, ABS, 31, 0)]),
        ("PF to P with span", &[(PF, ABS, 25, 5)], &[(PF, ABS, 25, 6)]),
        ("RF from FT+1", &[(RF, ABS, 25, 0)], &[(RF, ABS, 24, 0)]),
        ("RF to P", &[(RF, ABS, 30, 0)], &[(RF, ABS, 31, 0)]),
        ("RF to P with span", &[(RF, ABS, 25, 5)], &[(RF, ABS, 25, 6)]),
        ("RF relative at FT+n", &[(RF, REL, 6, 0)], &[(RF, REL, 7, 0)]),
        ("RF relative with span", &[(RF, REL, 1, 5)], &[(RF, REL, 1, 6)]),
        ("RF next page from H", &[(RF, NP, 2, 28)], &[(RF, NP, 1, 0)]),
        ("RF next page to P", &[(RF, NP, 30, 0)], &[(RF, NP, 31, 0)]),
        ("RF next page with span", &[(RF, NP, 2, 28)], &[(RF, NP, 2, 29)]),
        ("RF below PF", &[(PF, ABS, 26, 1), (RF, ABS, 28, 0)], &[(PF, ABS, 26, 1), (RF, ABS, 27, 0)]),
        ("relative RF below PF", &[(PF, ABS, 26, 1), (RF, REL, 3, 0)], &[(PF, ABS, 26, 1), (RF, REL, 4, 0)]),
        (
            "RF before PF in group order",
            &[(RF, ABS, 26, 0), (PF, ABS, 25, 0)],
            &[(RF, ABS, 26, 0), (PF, ABS, 26, 0)],
        ),
        ("a lineless PF is absent", &[(PF, ABS, 0, 0), (RF, REL, 6, 0)], &[(PF, ABS, 0, 0), (RF, REL, 7, 0)]),
        (
            "RF on a page of its own",
            &[(PF, ABS, 30, 0), (RF, NP, 2, 0)],
            &[(PF, ABS, 30, 0), (RF, REL, 1, 0)],
        ),
    ];
    for (what, accepted, refused) in rows {
        assert_eq!(rule_of_fit(accepted), 0, "accepted side of: {what}");
        assert_eq!(rule_of_fit(refused), 6, "refused side of: {what}");
    }
}

// D7

#[test]
fn d7_items() {
    run(&[
        ("column from 1", 7, same, |b| item_of(b, CH1, 0).column = 0),
        ("to column W", 7, |b| item_of(b, CH1, 0).column = 37, |b| item_of(b, CH1, 0).column = 38),
        ("column near 65535", 7, same, |b| item_of(b, CH1, 0).column = 65535),
        ("width near 65535", 7, same, |b| item_of(b, CH1, 0).width = 65535),
        ("no overlap", 7, |b| item_of(b, DE0, 0).width = 5, |b| item_of(b, DE0, 0).width = 6),
        ("columns rise", 7, same, |b| item_of(b, DE0, 2).column = 1),
        ("width from 1", 7, |b| item_of(b, CH1, 0).width = 1, |b| item_of(b, CH1, 0).width = 0),
        ("source kinds", 7, same, |b| item_of(b, PH_, 1).source = 5),
        // The base has 13 literal bytes, END at 10.
        ("literal offset", 7, |b| item_of(b, RF_, 0).index = 10, |b| item_of(b, RF_, 0).index = 11),
        ("literal width", 7, |b| item_of(b, RH_, 0).width = 13, |b| item_of(b, RH_, 0).width = 14),
        ("literal offset near 65535", 7, same, |b| item_of(b, RF_, 0).index = 65535),
        ("field index", 7, |b| item_of(b, DE0, 2).index = 3, |b| item_of(b, DE0, 2).index = 4),
        ("page counter index", 7, same, |b| item_of(b, PH_, 1).index = 1),
        ("line counter index", 7, same, |b| item_of(b, PH_, 2).index = 1),
        ("sum index", 7, same, |b| item_of(b, CF0, 0).index = 4),
        ("literal bytes from 32", 7, |b| b.tables.literals[0] = 32, |b| b.tables.literals[0] = 31),
        ("literal bytes to 126", 7, |b| b.tables.literals[0] = 126, |b| b.tables.literals[0] = 127),
        ("unused literal bytes", 7, |b| b.tables.literals.push(126), |b| b.tables.literals.push(127)),
        ("decimals to 4, field", 7, |b| item_of(b, DE0, 1).decimals = 4, |b| item_of(b, DE0, 1).decimals = 5),
        ("decimals to 4, sum", 7, |b| item_of(b, CF2, 0).decimals = 4, |b| item_of(b, CF2, 0).decimals = 5),
        ("decimals below the width", 7, |b| shape(b, 3, 2), |b| shape(b, 3, 3)),
        ("decimals below width 1", 7, |b| shape(b, 1, 0), |b| shape(b, 1, 1)),
        ("no decimals on a literal", 7, same, |b| item_of(b, RF_, 0).decimals = 1),
        ("no decimals on text", 7, same, |b| item_of(b, DE0, 2).decimals = 1),
        ("no decimals on the page counter", 7, same, |b| item_of(b, PH_, 1).decimals = 1),
        ("no decimals on the line counter", 7, same, |b| item_of(b, PH_, 2).decimals = 1),
        ("indicate 0 or 1", 7, |b| item_of(b, DE0, 2).indicate = 1, |b| item_of(b, DE0, 2).indicate = 2),
        ("no indicate in RH", 7, same, |b| item_of(b, RH_, 0).indicate = 1),
        ("no indicate in PH", 7, same, |b| item_of(b, PH_, 1).indicate = 1),
        ("no indicate in CH", 7, same, |b| item_of(b, CH1, 0).indicate = 1),
        ("no indicate in CF", 7, same, |b| item_of(b, CF2, 0).indicate = 1),
        ("no indicate in PF", 7, same, |b| item_of(b, PF_, 0).indicate = 1),
        ("no indicate in RF", 7, same, |b| item_of(b, RF_, 0).indicate = 1),
        ("a control's field in CH", 7, |b| item_of(b, CH1, 0).index = 1, |b| item_of(b, CH1, 0).index = 3),
        ("a control's field in CF", 7, |b| item_of(b, CF1, 1).index = 0, |b| item_of(b, CF1, 1).index = 2),
        ("a control's field in PF", 7, |b| field_in(b, PF_, 0), |b| field_in(b, PF_, 3)),
        ("a control's field in PH", 7, |b| field_in(b, PH_, 1), |b| field_in(b, PH_, 3)),
        ("a sum in its own group", 7, |b| item_of(b, CF2, 0).index = 1, |b| item_of(b, CF2, 0).index = 2),
        ("no sum in a detail", 7, same, |b| *item_of(b, DE0, 0) = item(1, 4, SUM, 0)),
    ]);
    // A counter placed in a detail: its sum item passes D7, and D8 breaks.
    let mut b = base();
    b.tables.counters[3].group = DE0 as u16;
    *item_of(&mut b, DE0, 0) = item(1, 4, SUM, 3);
    item_of(&mut b, CF0, 0).source = PAGE_COUNTER;
    item_of(&mut b, CF0, 0).index = 0;
    assert_eq!(rule(&b), 8);
}

/// Width and decimals of a number item.
fn shape(b: &mut Builder, width: u16, decimals: u16) {
    let item = item_of(b, DE0, 1);
    (item.width, item.decimals) = (width, decimals);
}

/// Shows a field in place of a group's first item.
fn field_in(b: &mut Builder, g: usize, index: u16) {
    *item_of(b, g, 0) = item(1, 4, FIELD, index);
}

// D8

#[test]
fn d8_counters() {
    run(&[
        ("the group is a CF", 8, same, |b| move_counter(b, CH1)),
        ("the group exists", 8, same, |b| move_counter(b, 10)),
        ("reset level of CF 2", 8, |b| b.tables.counters[1].reset = 2, |b| b.tables.counters[1].reset = 3),
        ("reset level of CF 1", 8, |b| b.tables.counters[2].reset = 0, |b| b.tables.counters[2].reset = 2),
        ("reset level of CF 0", 8, same, |b| b.tables.counters[3].reset = 1),
        ("from 1 addend", 8, |b| *b = adding(1), |b| *b = adding(0)),
        ("to 8 addends", 8, |b| *b = adding(8), |b| *b = adding(9)),
        ("no field twice", 8, same, |b| b.tables.addends[1].index = 1),
        ("no counter twice", 8, same, |b| b.tables.addends[6].index = 2),
        ("kinds apart", 8, |b| *b = field_0_and_counter_0(), |b| *b = counter_0_twice()),
        ("the first addend begins the share", 8, same, |b| b.tables.counters[0].first_addend = 1),
        ("a share begins where the last ends", 8, same, |b| b.tables.counters[2].first_addend = 3),
        ("no addend is left over", 8, same, |b| b.tables.addends.push(Addend { kind: 0, index: 1, mask: 1 })),
        ("no addend is missing", 8, same, |b| b.tables.counters[3].addend_count = 3),
        ("addend kinds", 8, same, |b| b.tables.addends[6].kind = 2),
        ("a number field", 8, same, |b| b.tables.addends[1].index = 3),
        ("a field that exists", 8, same, |b| b.tables.addends[1].index = 4),
        ("mask nonzero", 8, |b| b.tables.addends[0].mask = 1, |b| b.tables.addends[0].mask = 0),
        ("mask names details", 8, |b| b.tables.addends[0].mask = 3, |b| b.tables.addends[0].mask = 4),
        ("mask names 8 details", 8, |b| masked(b, 0xff), |b| masked(b, 0x100)),
        ("mask with a high bit too", 8, same, |b| b.tables.addends[0].mask = 0x8001),
        ("a counter's mask 0", 8, same, |b| b.tables.addends[4].mask = 1),
        ("a counter that exists", 8, same, |b| b.tables.addends[6].index = 4),
        (
            "a more junior CF's counter",
            8,
            |b| b.tables.addends[4].index = 1,
            |b| b.tables.addends[4].index = 3,
        ),
        ("an earlier counter of the CF", 8, same, |b| b.tables.addends[3].index = 1),
        ("no later counter of the CF", 8, same, |b| *b.tables.addends[0..1].first_mut().unwrap() = later()),
    ]);
    // The counter named may stand later when its CF is more junior: levels count, not indexes.
    let mut b = Builder::new(30, 2, 8, 20, 24, 40, 40);
    let (field, amount) = (b.text(0, 1), b.number(1, 5));
    b.control(FINAL);
    b.control(field);
    b.group(DE, 0);
    let senior = b.group(CF, 0);
    let junior = b.group(CF, 1);
    b.counter(senior, 0);
    b.add_counter(1);
    b.counter(junior, 1);
    b.add_field(amount, 1);
    assert_eq!(rule(&b), 0);
}

/// Puts the last counter in another group, and takes its sum item away.
fn move_counter(b: &mut Builder, g: usize) {
    b.tables.counters[3].group = g as u16;
    *item_of(b, CF0, 0) = item(1, 4, PAGE_COUNTER, 0);
}

/// Counter 1, named by counter 0 of the same CF.
fn later() -> Addend {
    Addend { kind: ADD_COUNTER, index: 1, mask: 0 }
}

/// Eight details, and a mask that names some.
fn masked(b: &mut Builder, mask: u16) {
    add_details(b, 6);
    b.tables.addends[0].mask = mask;
}

/// One counter with so many addends.
fn adding(addends: u16) -> Builder {
    let mut b = Builder::new(30, 2, 8, 20, 24, 40, 40);
    for i in 0..9 {
        b.number(2 * i, 2);
    }
    b.control(FINAL);
    b.group(DE, 0);
    let cf = b.group(CF, 0);
    b.counter(cf, 0);
    for field in 0..addends {
        b.add_field(field, 1);
    }
    b
}

fn field_0_and_counter_0() -> Builder {
    let mut b = adding(1);
    b.counter(1, 0);
    b.add_field(0, 1);
    b.add_counter(0);
    b
}

fn counter_0_twice() -> Builder {
    let mut b = field_0_and_counter_0();
    b.tables.addends[1] = Addend { kind: ADD_COUNTER, index: 0, mask: 0 };
    b
}

// Rule 9

// The pictures of `pictured`.
const COUNT: usize = 0;
const UNUSED: usize = 5;

/// The base in version 2 with a picture on each kind of number item, and one that none uses.
fn pictured() -> Builder {
    let mut b = base_2();
    let used = [
        (DE0, 1, "ZZ,ZZ9.99-"),
        (PH_, 1, "ZZZZZZ"),
        (PH_, 2, "999"),
        (CF2, 0, "***,***,***,**9.99CR"),
        (CF1, 1, "*****9"),
    ];
    for (g, i, text) in used {
        item_of(&mut b, g, i).picture = b.picture(text);
    }
    b.picture("ZZ9");
    b
}

#[test]
fn rule_9_items() {
    run_on(
        pictured,
        &[
            ("the picture exists", 9, |b| item_of(b, CF2, 1).picture = 65535, |b| use_on(b, CF2, 1, 6)),
            ("no number but 65535 is none", 9, same, |b| use_on(b, CF2, 1, 65534)),
            ("none on text", 9, same, |b| text_as_wide(b, DE0, 0)),
            ("none on text outside a detail", 9, same, |b| text_as_wide(b, CH1, 0)),
            ("none on a literal", 9, same, |b| text_as_wide(b, RH_, 0)),
            ("no picture that does not exist on text", 9, same, |b| use_on(b, DE0, 0, 6)),
            ("width one more", 9, same, |b| item_of(b, CF1, 1).width = 7),
            ("width one less", 9, same, |b| item_of(b, CF1, 1).width = 5),
            ("the item's width to 24", 9, |b| wide(b, 24), |b| wide(b, 25)),
            ("decimals one more", 9, same, |b| item_of(b, DE0, 1).decimals = 3),
            ("decimals one less", 9, same, |b| item_of(b, DE0, 1).decimals = 1),
            ("no decimals with a point", 9, same, |b| item_of(b, DE0, 1).decimals = 0),
            ("decimals without a point", 9, |b| pointless(b, 0), |b| pointless(b, 1)),
            ("a point on the page counter", 9, same, |b| b.tables.pictures[1] = padded(b"ZZZZ.9")),
            ("a point on the line counter", 9, same, |b| b.tables.pictures[2] = padded(b"9.9")),
            ("a picture used twice", 9, |b| use_on(b, PF_, 0, 1), |b| use_on(b, PF_, 0, 2)),
        ],
    );
    // Rule 9 is not asked of version 1: what the builder has of pictures is not in the file.
    let mut b = pictured();
    b.tables.pictures[UNUSED] = padded(b"?");
    assert_eq!(rule(&b), 9);
    b.version = 1;
    assert_eq!(rule(&b), 0);
}

fn use_on(b: &mut Builder, g: usize, i: usize, picture: u16) {
    item_of(b, g, i).picture = picture;
}

/// A picture on an item that shows text, of its own width.
fn text_as_wide(b: &mut Builder, g: usize, i: usize) {
    let width = item_of(b, g, i).width;
    let picture = b.picture(&"9".repeat(usize::from(width)));
    use_on(b, g, i, picture);
}

/// The long number through a picture of 24 characters, in an item of this width.
fn wide(b: &mut Builder, width: u16) {
    let picture = b.picture("ZZZ,ZZZ,ZZZ,ZZZ,ZZZ,ZZ9-");
    *item_of(b, DE0, 0) = Item { picture, ..item(1, width, FIELD, 2) };
    item_of(b, DE0, 1).column = 27;
    item_of(b, DE0, 2).column = 37;
    item_of(b, DE0, 2).width = 4;
}

/// A field's picture without a point, its item with these decimals.
fn pointless(b: &mut Builder, decimals: u16) {
    b.tables.pictures[COUNT] = padded(b"ZZ,ZZZ,ZZ9");
    item_of(b, DE0, 1).decimals = decimals;
}

/// The rules broken where a picture is on an item of its length, and where none uses it.
fn rules_of_picture(entry: Picture) -> (u8, u8) {
    let mut b = pictured();
    b.tables.pictures[UNUSED] = entry;
    let unused = rule(&b);
    let mut b = Builder::new(30, 2, 8, 20, 24, 40, 40);
    b.version = 2;
    b.number(0, 18);
    b.group(DE, 0);
    b.line(LINE_RELATIVE, 1);
    let width = picture::text(&entry).len().max(1) as u16;
    let decimals = picture::decimals(&entry).min(4) as u16;
    b.item(Item { decimals, picture: 0, ..item(1, width, FIELD, 0) });
    b.tables.pictures.push(entry);
    (rule(&b), unused)
}

#[test]
fn rule_9_pictures() {
    let rows: &[(&str, &[&str], &[&str])] = &[
        (
            "characters",
            &["Z", "*", "9", "9-", "9CR", "Z,Z", "9.9"],
            &["z", "0", "8", "X", "+9", "$9", "9+", "9/9", "9B9", "9V9", "cr", "9cr", "9DB", "é9"],
        ),
        ("no blank inside", &["9", "99"], &[" 9", "9 9", "9 -", "9 CR", "9C R", "9. 9"]),
        ("not empty", &["9"], &[""]),
        ("a digit place", &["9-", "ZCR", ".9", "*"], &["-", "CR", ".", "."]),
        ("never mixed", &["ZZ", "**"], &["Z*", "*Z", "ZZ*9", "*Z,999.99CR"]),
        (
            "Z and * before the first 9",
            &["Z9", "*9", "Z,Z99"],
            &["9Z", "9*", "Z9Z", "*9*", "9,ZZ9", "99,*.9"],
        ),
        ("a comma not first", &["9,9"], &[",9", ",99", ",", ",9.9"]),
        ("a comma not last", &["9,9"], &["9,", "Z,ZZZ,"]),
        ("commas not side by side", &["9,9,9", "Z,Z,Z"], &["9,,9", "Z,,,ZZ9"]),
        ("a comma not next to the point", &["9,9.9"], &["9,.9", "9.,9", ",.9"]),
        ("a comma before the point", &["9,999.9999"], &["9.9,9", "9.99,99", ".9,9"]),
        ("a comma not next to the sign", &["9,9-", "9,9CR"], &["9,-", "9,CR"]),
        ("one point", &["9.9", "9"], &["9.9.9", "9..9", "..9", "9.9."]),
        (
            "1 to 4 9s behind the point",
            &["9.9", "9.99", "9.999", "9.9999", ".9999CR"],
            &["9.", "9.-", "9.CR", "9.99999", ".99999", "9.999999"],
        ),
        (
            "9s alone behind the point",
            &["Z.9", "*.99", ".9"],
            &["Z.Z", "Z.ZZ", "*.**", "*.*9", "Z.Z9", "Z.9Z"],
        ),
        (
            "the sign at the end",
            &["9-", "9CR", "9.9-"],
            &["-9", "CR9", "9-9", "9CR9", "9-.9", "9CR.9", "9.-9"],
        ),
        ("one sign", &["9-", "9CR"], &["9--", "9CRCR", "9-CR", "9CR-", "-9-"]),
        ("C and R", &["9CR"], &["9C", "9R", "9RC", "9CRR", "9CCR", "C9R", "9.9C", "9.9R"]),
        (
            "up to 24 characters",
            &["999999999999999999999999", "ZZZ,ZZZ,ZZZ,ZZZ,ZZZ,ZZCR", "*******************.9999"],
            &["ZZZ,ZZZ,ZZZ,ZZZ,ZZZ,ZZZC", "99999999999999999999999,"],
        ),
    ];
    for (what, accepted, refused) in rows {
        for text in *accepted {
            assert_eq!(rules_of_picture(padded(text.as_bytes())), (0, 0), "accepted side of: {what}, {text}");
        }
        for text in *refused {
            assert_eq!(rules_of_picture(padded(text.as_bytes())), (9, 9), "refused side of: {what}, {text}");
        }
    }
}

#[test]
fn rule_9_padding() {
    for byte in (0..=255).filter(|&byte| byte != b' ') {
        for at in [3, 4, 23] {
            let mut entry = padded(b"ZZ9");
            entry[at] = byte;
            // Some of them make a picture of four characters.
            let makes_one = at == 3 && b"9-".contains(&byte);
            let broken = if makes_one { 0 } else { 9 };
            assert_eq!(rules_of_picture(entry), (broken, broken), "byte {byte} at {at}");
        }
    }
}

// The lowest broken rule

#[test]
fn the_lowest_broken_rule_is_given() {
    let breakers: [fn(&mut Builder); 9] = [
        |b| b.tables.pictures.resize(65, padded(b"9")),
        |b| b.tables.w = 133,
        |b| b.tables.fields[0].width = 0,
        |b| b.tables.controls[1] = 4,
        |b| group(b, DE1).level = 1,
        |b| line(b, DE0, 0).integer = 0,
        |b| item_of(b, DE0, 0).indicate = 2,
        |b| b.tables.addends[0].mask = 0,
        |b| b.tables.pictures[UNUSED] = padded(b"Z*"),
    ];
    for (low, break_low) in breakers.iter().enumerate() {
        for break_high in &breakers[low..] {
            let mut b = pictured();
            break_high(&mut b);
            break_low(&mut b);
            assert_eq!(usize::from(rule(&b)), low + 1);
        }
    }
}

#[test]
fn odd_but_accepted() {
    // No fields, no controls, a lineless detail.
    let mut b = Builder::new(1, 1, 1, 1, 1, 1, 1);
    b.group(DE, 0);
    assert_eq!(rule(&b), 0);
    // Overlapping fields; a literal section of odd length.
    let mut b = Builder::new(1, 1, 1, 1, 1, 5, 5);
    b.text(0, 4);
    b.number(1, 4);
    b.group(DE, 0);
    b.line(LINE_RELATIVE, 1);
    b.literal(1, "odd");
    assert_eq!(b.bytes().len() % 2, 1);
    assert_eq!(rule(&b), 0);
}
