//! The marked cases M1 to M12 of document 01, as one table.

mod common;

use common::{item, marked_page, Run};
use second::description::*;
use second::state::{State, RUNNING};

enum Case {
    /// A one-line relative detail, step 1, with this next group, on a page seen. From (line, saved) it prints
    /// at (pages on, line) and leaves (line, saved).
    Detail { next: (u16, u16), from: (u16, u16), prints: (u32, u32), leaves: (u16, u16) },
    /// Pairs of a number control's bytes and those of the next row: whether there is a break.
    Break { pairs: [[&'static [u8]; 2]; 2], breaks: bool },
    /// A value with decimals, printed in a width.
    Number { value: i64, decimals: u16, width: u16, prints: &'static str },
}

use Case::{Break, Detail, Number};

const NONE: (u16, u16) = (NEXT_NONE, 0);

const MARKED: [(&str, Case); 12] = [
    ("M1", Detail { next: NONE, from: (5, 0), prints: (0, 6), leaves: (6, 0) }),
    ("M2", Detail { next: NONE, from: (6, 0), prints: (1, 3), leaves: (3, 0) }),
    ("M3", Detail { next: (NEXT_RELATIVE, 2), from: (4, 0), prints: (0, 5), leaves: (7, 0) }),
    ("M4", Detail { next: (NEXT_RELATIVE, 3), from: (4, 0), prints: (0, 5), leaves: (8, 0) }),
    ("M5", Detail { next: (NEXT_RELATIVE, 4), from: (4, 0), prints: (0, 5), leaves: (8, 0) }),
    ("M6", Detail { next: (NEXT_ABSOLUTE, 5), from: (3, 0), prints: (0, 4), leaves: (5, 0) }),
    ("M7", Detail { next: (NEXT_ABSOLUTE, 5), from: (4, 0), prints: (0, 5), leaves: (8, 5) }),
    ("M8", Detail { next: NONE, from: (8, 5), prints: (1, 6), leaves: (6, 0) }),
    ("M9", Detail { next: NONE, from: (8, 6), prints: (2, 3), leaves: (3, 0) }),
    // "+000" after "-000"; R-5: "+007" and " 007", "that pair joins case M10".
    ("M10", Break { pairs: [[b"-000", b"+000"], [b"+007", b" 007"]], breaks: false }),
    ("M11", Number { value: 5, decimals: 2, width: 6, prints: "  0.05" }),
    ("M12", Number { value: -123456, decimals: 0, width: 6, prints: "******" }),
];

#[test]
fn the_marked_cases_hold() {
    for (name, case) in MARKED {
        match case {
            Detail { next, from, prints, leaves } => detail(name, next, from, prints, leaves),
            Break { pairs, breaks } => {
                // Equal whichever comes first.
                for [one, other] in pairs {
                    control_break(name, one, other, breaks);
                    control_break(name, other, one, breaks);
                }
            }
            Number { value, decimals, width, prints } => number(name, value, decimals, width, prints),
        }
    }
}

fn detail(name: &str, next: (u16, u16), from: (u16, u16), prints: (u32, u32), leaves: (u16, u16)) {
    let mut b = marked_page(1, 1);
    b.group(DE, 0);
    b.line(LINE_RELATIVE, 1);
    b.next(next.0, next.1);
    let state = State { phase: RUNNING, page: 40, line: from.0, seen: 1, saved: from.1, ..State::fresh() };
    let mut run = Run::from(&b.bytes(), state);
    run.generate(0, b"x");
    let (pages, line) = prints;
    assert_eq!(run.dots(), format!("{:06}{line:03}.\n", 40 + pages), "{name}");
    assert_eq!((run.state.line, run.state.saved), leaves, "{name}");
}

fn control_break(name: &str, kept: &[u8], then: &[u8], breaks: bool) {
    let mut b = marked_page(1, 4);
    let field = b.number(0, 4);
    b.control(field);
    b.group(DE, 0);
    b.group(CF, 0);
    b.line(LINE_RELATIVE, 1);
    let mut run = Run::begin(&b.bytes());
    run.generate(0, kept).generate(0, then);
    assert_eq!(!run.sheet.is_empty(), breaks, "{name}");
    // "the kept record keeps the older bytes".
    assert_eq!(&run.state.kept[..4], if breaks { then } else { kept }, "{name}");
}

fn number(name: &str, value: i64, decimals: u16, width: u16, prints: &str) {
    let mut b = marked_page(width, 18);
    let field = b.number(0, 18);
    b.group(DE, 0);
    b.line(LINE_RELATIVE, 1);
    b.item(Item { decimals, ..item(1, width, FIELD, field) });
    let mut run = Run::begin(&b.bytes());
    run.generate(0, format!("{value:+018}").as_bytes());
    assert_eq!(run.sheet, format!("000001003{prints}\n").as_bytes(), "{name}");
}
