//! Row by row, and where groups land: the sentences of document 01 and their readings, one test each.

mod common;

use common::{item, marked_page, Run};
use second::builder::Builder;
use second::description::*;
use second::report::{generate, terminate};
use second::state::{State, IDLE, RUNNING};

/// Adds a group of one line that shows a literal.
fn says(b: &mut Builder, kind: u16, level: u16, line_kind: u16, n: u16, text: &str) {
    b.group(kind, level);
    b.line(line_kind, n);
    b.literal(1, text);
}

/// The page, line and text of each printed line, as "page/line text".
fn printed(run: &Run) -> Vec<String> {
    let text = String::from_utf8(run.sheet.clone()).unwrap();
    text.lines()
        .map(|l| {
            let (page, line): (u32, u32) = (l[..6].parse().unwrap(), l[6..9].parse().unwrap());
            format!("{page}/{line} {}", l[9..].trim_end())
        })
        .collect()
}

/// Every group says its name; controls FINAL, field 0, field 1; the detail shows the whole row.
fn named_groups() -> Builder {
    let mut b = Builder::new(40, 1, 3, 36, 38, 12, 3);
    let (first, second, rest) = (b.text(0, 1), b.text(1, 1), b.text(2, 1));
    b.control(FINAL);
    b.control(first);
    b.control(second);
    says(&mut b, RH, 0, LINE_ABSOLUTE, 1, "RH");
    says(&mut b, PH, 0, LINE_ABSOLUTE, 2, "PH");
    for (level, name) in [(2, "CH2"), (0, "CH0"), (1, "CH1")] {
        says(&mut b, CH, level, LINE_RELATIVE, 1, name);
        b.item(item(5, 1, FIELD, first));
        b.item(item(6, 1, FIELD, second));
    }
    says(&mut b, DE, 0, LINE_RELATIVE, 1, "DE");
    for (column, field) in [(5, first), (6, second), (7, rest)] {
        b.item(item(column, 1, FIELD, field));
    }
    for (level, name) in [(1, "CF1"), (2, "CF2"), (0, "CF0")] {
        says(&mut b, CF, level, LINE_RELATIVE, 1, name);
        b.item(item(5, 1, FIELD, first));
        b.item(item(6, 1, FIELD, second));
    }
    says(&mut b, PF, 0, LINE_ABSOLUTE, 39, "PF");
    says(&mut b, RF, 0, LINE_ABSOLUTE, 40, "RF");
    b
}

#[test]
fn groups_come_in_their_order_and_read_their_record() {
    let mut run = Run::begin(&named_groups().bytes());
    run.generate(0, b"aa1").generate(0, b"aa2").generate(0, b"ab3").generate(0, b"bb4").terminate();
    let expected = [
        "1/1 RH",
        "1/2 PH",
        "1/3 CH0 aa",
        "1/4 CH1 aa",
        "1/5 CH2 aa",
        "1/6 DE  aa1",
        "1/7 DE  aa2",
        // a break at level 2
        "1/8 CF2 aa",
        "1/9 CH2 ab",
        "1/10 DE  ab3",
        // a break at level 1
        "1/11 CF2 ab",
        "1/12 CF1 ab",
        "1/13 CH1 bb",
        "1/14 CH2 bb",
        "1/15 DE  bb4",
        // "break at level 0, all CFs, then PF, RF"
        "1/16 CF2 bb",
        "1/17 CF1 bb",
        "1/18 CF0 bb",
        "1/39 PF",
        "1/40 RF",
    ];
    assert_eq!(printed(&run), expected);
    assert_eq!((run.state.phase, run.state.line, run.state.seen), (IDLE, 40, 1));
}

#[test]
fn a_page_heading_or_footing_reads_as_the_group_it_prints_for() {
    let mut b = marked_page(8, 2);
    let (agent, rest) = (b.text(0, 1), b.text(1, 1));
    b.control(agent);
    says(&mut b, PH, 0, LINE_ABSOLUTE, 1, "PH");
    b.item(item(5, 1, FIELD, agent));
    says(&mut b, CH, 0, LINE_RELATIVE, 1, "CH");
    b.item(item(5, 1, FIELD, agent));
    says(&mut b, DE, 0, LINE_RELATIVE, 1, "DE");
    b.item(item(5, 1, FIELD, agent));
    b.item(item(6, 1, FIELD, rest));
    says(&mut b, CF, 0, LINE_RELATIVE, 1, "CF");
    b.item(item(5, 1, FIELD, agent));
    says(&mut b, PF, 0, LINE_ABSOLUTE, 9, "PF");
    b.item(item(5, 1, FIELD, agent));
    says(&mut b, RF, 0, LINE_RELATIVE, 1, "RF");
    b.item(item(5, 1, FIELD, agent));
    let mut run = Run::begin(&b.bytes());
    run.state = State { phase: RUNNING, line: 8, seen: 1, ..State::fresh() };
    run.state.keep(b"a1");
    // The footing turns the page: PF, PH and CF read the kept record; CH and DE the record in hand.
    run.generate(0, b"b2");
    assert_eq!(printed(&run), ["1/9 PF  a", "2/1 PH  a", "2/3 CF  a", "2/4 CH  b", "2/5 DE  b2"]);
    // The heading turns it: its PF and PH read the record in hand.
    run.sheet.clear();
    run.state.line = 7;
    run.generate(0, b"c3");
    assert_eq!(printed(&run), ["2/8 CF  b", "2/9 PF  c", "3/1 PH  c", "3/3 CH  c", "3/4 DE  c3"]);
    // "All that TERMINATE prints" reads the kept record, a page change for its footing too.
    run.sheet.clear();
    run.state.line = 8;
    run.terminate();
    assert_eq!(printed(&run), ["3/9 PF  c", "4/1 PH  c", "4/3 CF  c", "4/9 PF  c", "4/10 RF  c"]);
}

#[test]
fn without_a_break_the_kept_record_stays() {
    let mut run = Run::begin(&named_groups().bytes());
    run.generate(0, b"aa1").generate(0, b"aa2");
    assert_eq!(run.state.kept[..4], *b"aa1\0");
    run.generate(0, b"ab3");
    assert_eq!(run.state.kept[..4], *b"ab3\0");
}

#[test]
fn indicate_shows_once_after_a_break() {
    let mut b = Builder::new(60, 1, 3, 50, 50, 6, 3);
    let (agent, note) = (b.text(0, 1), b.text(1, 2));
    b.control(agent);
    for name in ["D0", "D1"] {
        says(&mut b, DE, 0, LINE_RELATIVE, 1, name);
        b.item(Item { indicate: 1, ..item(3, 1, FIELD, agent) });
        b.item(item(4, 2, FIELD, note));
    }
    b.group(DE, 0); // lineless: keeps its flag
    let mut run = Run::begin(&b.bytes());
    let calls: [(u32, &[u8], [u8; 3]); 6] = [
        (0, b"a01", [0, 1, 1]),
        (0, b"a02", [0, 1, 1]),
        (1, b"a03", [0, 0, 1]),
        (2, b"a04", [0, 0, 1]),
        (1, b"b05", [1, 0, 1]),
        (0, b"b06", [0, 0, 1]),
    ];
    for (d, record, flags) in calls {
        run.generate(d, record);
        assert_eq!(run.state.flags[..3], flags);
    }
    assert_eq!(printed(&run), ["1/3 D0a01", "1/4 D0 02", "1/5 D1a03", "1/6 D1b05", "1/7 D0b06"]);
    // TERMINATE's break sets no flag and keeps no record.
    run.terminate();
    assert_eq!(run.state.flags[..3], [0, 0, 1]);
    assert_eq!(run.state.kept[..4], *b"b05\0");
}

/// A control with both its groups, two details that indicate it, a third without lines. P 10, H 1, FD 3, LD 6, FT 8.
fn indicating() -> Builder {
    let mut b = marked_page(6, 3);
    let (agent, note) = (b.text(0, 1), b.text(1, 2));
    b.control(agent);
    says(&mut b, CH, 0, LINE_RELATIVE, 1, "CH");
    for name in ["D0", "D1"] {
        says(&mut b, DE, 0, LINE_RELATIVE, 1, name);
        b.item(Item { indicate: 1, ..item(3, 1, FIELD, agent) });
        b.item(item(4, 2, FIELD, note));
    }
    b.group(DE, 0);
    says(&mut b, CF, 0, LINE_RELATIVE, 1, "CF");
    b
}

/// A report under way on page 1, agent a, every flag clear.
fn at_line(b: &Builder, line: u16) -> Run {
    let mut state = State { phase: RUNNING, line, seen: 1, ..State::fresh() };
    state.keep(b"a00");
    Run::from(&b.bytes(), state)
}

/// Flags of the three details; "flags beyond the description's are 0".
fn flags(first: u8, second: u8, third: u8) -> [u8; 8] {
    [first, second, third, 0, 0, 0, 0, 0]
}

#[test]
fn a_page_change_sets_each_flag_also_when_the_detail_itself_causes_it() {
    let mut run = at_line(&indicating(), 6);
    run.generate(0, b"a01");
    assert_eq!(run.state.flags, flags(0, 1, 1));
    // The other details keep theirs until they print.
    run.generate(0, b"a02");
    assert_eq!(run.state.flags, flags(0, 1, 1));
    run.generate(1, b"a03").generate(1, b"a04");
    assert_eq!(run.state.flags, flags(0, 0, 1));
    assert_eq!(printed(&run), ["2/3 D0a01", "2/4 D0 02", "2/5 D1a03", "2/6 D1 04"]);
}

#[test]
fn two_page_changes_show_an_indicated_item_once() {
    let mut run = at_line(&indicating(), 8);
    run.state.saved = 6;
    run.generate(1, b"a01").generate(1, b"a02");
    assert_eq!(printed(&run), ["3/3 D1a01", "3/4 D1 02"]);
    assert_eq!(run.state.flags, flags(1, 0, 1));
}

#[test]
fn a_page_change_for_a_footing_or_a_heading_counts_too() {
    // The page ends before the footing, before the heading, before the detail.
    for (line, lines) in [
        (8, ["2/3 CF", "2/4 CH", "2/5 D0b01"]),
        (6, ["1/7 CF", "2/3 CH", "2/4 D0b01"]),
        (4, ["1/5 CF", "1/6 CH", "2/3 D0b01"]),
    ] {
        let mut run = at_line(&indicating(), line);
        run.generate(0, b"b01");
        assert_eq!(printed(&run), lines);
        assert_eq!(run.state.flags, flags(0, 1, 1));
    }
}

#[test]
fn a_detail_without_lines_turns_no_page_and_keeps_every_flag() {
    for before in [flags(0, 1, 0), flags(1, 0, 1)] {
        let mut run = at_line(&indicating(), 8);
        run.state.flags = before;
        run.generate(2, b"a01");
        assert_eq!((run.state.page, run.state.flags), (1, before));
    }
    // A footing before it turns the page: nothing clears a flag.
    let mut run = at_line(&indicating(), 8);
    run.generate(2, b"b01");
    assert_eq!((run.state.page, run.state.flags), (2, flags(1, 1, 1)));
}

#[test]
fn terminate_leaves_the_flags_that_its_page_changes_set() {
    // (line before the footing, RF's first line, page and flags left)
    for (line, rf, page, left) in [
        (7, (LINE_RELATIVE, 1), 1, flags(0, 0, 0)),
        (8, (LINE_RELATIVE, 1), 2, flags(1, 1, 1)),
        (7, (LINE_NEXT_PAGE, 1), 2, flags(1, 1, 1)),
        (8, (LINE_NEXT_PAGE, 1), 3, flags(1, 1, 1)),
    ] {
        let mut b = indicating();
        says(&mut b, RF, 0, rf.0, rf.1, "RF");
        let mut run = at_line(&b, line);
        run.terminate();
        assert_eq!((run.state.page, run.state.flags), (page, left));
    }
}

#[test]
fn a_refused_call_leaves_the_flags() {
    let mut b = indicating();
    says(&mut b, RF, 0, LINE_NEXT_PAGE, 1, "RF");
    let desc = b.bytes();
    let mut state = at_line(&b, 6).state;
    state.flags = flags(0, 1, 0);
    // The detail's page change needs room for one line, TERMINATE's CF and RF for two; both would set flags.
    for (page, room, number) in [(999_999, 32, 8), (1, 15, 9)] {
        state.page = page;
        let row = generate(&desc, &state, 0, b"a01", &mut vec![0; room]);
        assert_eq!((row.number, row.state), (number, state.clone()));
        let end = terminate(&desc, &state, &mut vec![0; room]);
        assert_eq!((end.number, end.state), (number, state.clone()));
    }
}

#[test]
fn a_number_control_compares_by_value() {
    let mut b = marked_page(4, 4);
    let field = b.number(0, 4);
    b.control(field);
    b.group(DE, 0);
    says(&mut b, CF, 0, LINE_RELATIVE, 1, "CF");
    let rows = [
        ("+012", "+012", false),
        ("+012", "-012", true),
        ("+012", "+013", true),
        ("+012", "+120", true),
        ("-012", "-012", false),
        // "take blank as plus".
        (" 012", " 012", false),
        ("+012", " 012", false),
        (" 012", "+012", false),
        ("-012", " 012", true),
        (" 012", "-012", true),
        ("+012", " 013", true),
        (" 012", "+013", true),
        (" 012", " 120", true),
        // Zeros of any sign.
        (" 000", "+000", false),
        ("+000", " 000", false),
        (" 000", "-000", false),
        ("-000", " 000", false),
        ("-000", " 001", true),
    ];
    for (first, then, breaks) in rows {
        let mut run = Run::begin(&b.bytes());
        run.generate(0, first.as_bytes()).generate(0, then.as_bytes());
        assert_eq!(!run.sheet.is_empty(), breaks, "{first}, then {then}");
    }
    // Text compares by bytes.
    b.tables.fields[0].kind = TEXT;
    for (first, then) in [(b"-000", b"+000"), (b"+007", b" 007"), (b" 007", b"+007")] {
        let mut run = Run::begin(&b.bytes());
        run.generate(0, first).generate(0, then);
        assert_eq!(printed(&run), ["1/3 CF"]);
    }
}

#[test]
fn the_kept_record_keeps_the_older_bytes() {
    let mut b = Builder::new(60, 1, 3, 50, 50, 4, 5);
    let (number, _) = (b.number(0, 4), b.text(4, 1));
    b.control(number);
    b.group(DE, 0);
    b.group(CF, 0);
    b.line(LINE_RELATIVE, 1);
    b.item(item(1, 4, FIELD, number));
    let mut run = Run::begin(&b.bytes());
    // (row, the kept record after it)
    for (row, kept) in [
        ("+007a", "+007a"),
        // "equal and make no break, and the kept record keeps the older bytes".
        (" 007b", "+007a"),
        ("+007c", "+007a"),
        // A break keeps the bytes as they come.
        (" 008d", " 008d"),
        ("+008e", " 008d"),
        ("-008f", "-008f"),
        ("-000g", "-000g"),
        (" 000h", "-000g"),
        ("+000i", "-000g"),
        (" 001j", " 001j"),
    ] {
        run.generate(0, row.as_bytes());
        assert_eq!(String::from_utf8_lossy(&run.state.kept[..6]), format!("{kept}\0"), "after {row}");
    }
    run.terminate();
    assert_eq!(run.state.kept[..6], *b" 001j\0");
    assert_eq!(printed(&run), ["1/3    7", "1/4    8", "1/5   -8", "1/6    0", "1/7    1"]);
}

#[test]
fn a_break_is_found_below_a_control_written_otherwise() {
    let mut b = marked_page(4, 4);
    let (first, second) = (b.number(0, 2), b.number(2, 2));
    b.control(first);
    b.control(second);
    b.group(DE, 0);
    says(&mut b, CF, 0, LINE_RELATIVE, 1, "CF0");
    says(&mut b, CF, 1, LINE_RELATIVE, 1, "CF1");
    let both = ["1/3 CF1", "1/4 CF0"];
    for (then, lines) in [(" 1 2", &both[..0]), (" 1+3", &both[..1]), (" 1-2", &both[..1]), ("-1 2", &both)] {
        let mut run = Run::begin(&b.bytes());
        run.generate(0, b"+1+2").generate(0, then.as_bytes());
        assert_eq!(printed(&run), lines, "{then}");
    }
}

#[test]
fn a_blank_adds_as_a_plus() {
    // The narrowest and the widest number.
    let mut b = marked_page(4, 20);
    let fields = [b.number(0, 2), b.number(2, 18)];
    b.control(FINAL);
    b.group(DE, 0);
    let cf = b.group(CF, 0);
    for field in fields {
        b.counter(cf, 0);
        b.add_field(field, 1);
    }
    let mut run = Run::begin(&b.bytes());
    for (row, sums) in [
        (" 9 99999999999999999", [9, 99_999_999_999_999_999]),
        ("+1-99999999999999999", [10, 0]),
        (" 0 00000000000000000", [10, 0]),
        ("-3 00000000000000007", [7, 7]),
    ] {
        run.generate(0, row.as_bytes());
        assert_eq!(run.state.sums[..2], sums, "after {row}");
    }
}

#[test]
fn a_reset_level_senior_to_the_break_keeps_the_sum() {
    // Controls a, b; the junior footing's sums reset at b and at a.
    let mut b = Builder::new(60, 1, 3, 50, 50, 12, 6);
    let (first, second, amount) = (b.text(0, 1), b.text(1, 1), b.number(2, 4));
    b.control(first);
    b.control(second);
    b.group(DE, 0);
    let junior = b.group(CF, 1);
    b.line(LINE_RELATIVE, 1);
    for (column, reset) in [(1, 1), (7, 0)] {
        let counter = b.counter(junior, reset);
        b.add_field(amount, 1);
        b.item(item(column, 6, SUM, counter));
    }
    let mut run = Run::begin(&b.bytes());
    run.generate(0, b"xk+001").generate(0, b"xl+010").generate(0, b"yl+100");
    assert_eq!(run.dots(), "000001003.....1.....1\n000001004....10....11\n");
    assert_eq!(run.state.sums[..2], [100, 100]);
    // "A level 0 that is not FINAL is reset at TERMINATE."
    run.terminate();
    assert_eq!(run.state.sums, [0; 32]);
}

#[test]
fn a_lineless_footing_adds_and_resets() {
    let mut b = marked_page(6, 5);
    let (agent, amount) = (b.text(0, 1), b.number(1, 4));
    b.control(FINAL);
    b.control(agent);
    b.group(DE, 0);
    let junior = b.group(CF, 1);
    let senior = b.group(CF, 0);
    b.line(LINE_RELATIVE, 1);
    let fed = b.counter(junior, 1);
    b.add_field(amount, 1);
    let total = b.counter(senior, 0);
    b.add_counter(fed);
    b.item(item(1, 6, SUM, total));
    let mut run = Run::begin(&b.bytes());
    run.generate(0, b"a+003").generate(0, b"b+004").terminate();
    assert_eq!(printed(&run), ["1/3      7"]);
    // FINAL's own sum stays.
    assert_eq!(run.state.sums[..2], [0, 7]);
}

#[test]
fn levels_may_be_skipped_in_a_roll_up_and_counters_are_added_in_order() {
    // Level 2's counter feeds a counter of level 0, named by two of them; the seniors stand first.
    let mut b = marked_page(6, 5);
    let (agent, amount) = (b.text(0, 1), b.number(1, 4));
    b.control(FINAL);
    b.control(agent);
    b.control(amount);
    b.group(DE, 0);
    let senior = b.group(CF, 0);
    let junior = b.group(CF, 2);
    for _ in 0..2 {
        b.counter(senior, 0);
        b.add_counter(2);
    }
    b.counter(junior, 2);
    b.add_field(amount, 1);
    let mut run = Run::begin(&b.bytes());
    run.generate(0, b"a+003").generate(0, b"a+004");
    assert_eq!(run.state.sums[..3], [3, 3, 4]);
    run.terminate();
    assert_eq!(run.state.sums[..3], [7, 7, 0]);
}

#[test]
fn a_crossfoot_sees_the_counters_before_it() {
    // Three counters of one footing: fed; twice adds fed; third adds fed and twice.
    let mut b = marked_page(6, 4);
    let amount = b.number(0, 4);
    b.control(FINAL);
    b.group(DE, 0);
    let cf = b.group(CF, 0);
    b.counter(cf, 0);
    b.add_field(amount, 1);
    b.counter(cf, 0);
    b.add_field(amount, 1);
    b.add_counter(0);
    b.counter(cf, 0);
    b.add_counter(0);
    b.add_counter(1);
    let mut run = Run::begin(&b.bytes());
    run.generate(0, b"+005").terminate();
    assert_eq!(run.state.sums[..3], [5, 10, 15]);
}

#[test]
fn a_mask_chooses_the_details() {
    let mut b = marked_page(6, 4);
    let amount = b.number(0, 4);
    b.control(FINAL);
    b.group(DE, 0);
    let cf = b.group(CF, 0);
    b.group(DE, 0);
    for mask in [0b01, 0b10, 0b11] {
        b.counter(cf, 0);
        b.add_field(amount, mask);
    }
    let mut run = Run::begin(&b.bytes());
    run.generate(0, b"+001").generate(1, b"+010").generate(1, b"-100");
    assert_eq!(run.state.sums[..3], [1, -90, -89]);
}

#[test]
fn headings_start_where_d6_says() {
    // (RH's first line, PH's first line, PH on page 1, PH on page 2) with H 2, FD 9
    for (rh, ph, first, later) in [
        (Some((LINE_RELATIVE, 2)), (LINE_RELATIVE, 2), 6, 3),
        (Some((LINE_ABSOLUTE, 2)), (LINE_ABSOLUTE, 5), 5, 5),
        (None, (LINE_RELATIVE, 2), 3, 3),
    ] {
        let mut b = Builder::new(20, 2, 9, 12, 14, 3, 1);
        b.group(RH, 0);
        if let Some((kind, n)) = rh {
            b.line(kind, n);
            b.line(LINE_RELATIVE, 1);
        }
        says(&mut b, PH, 0, ph.0, ph.1, "PH");
        says(&mut b, DE, 0, LINE_ABSOLUTE, 12, "DE");
        let mut run = Run::begin(&b.bytes());
        run.generate(0, b"x").generate(0, b"x");
        let expected = [format!("1/{first} PH"), "1/12 DE".into(), format!("2/{later} PH"), "2/12 DE".into()];
        assert_eq!(printed(&run)[if rh.is_some() { 2 } else { 0 }..], expected);
    }
}

#[test]
fn the_report_footing_starts_where_d6_says() {
    // (PF's first line, RF's first line, RF's page and line) with FT 14, P 20
    for (pf, rf, lands) in [
        (None, (LINE_RELATIVE, 2), "1/16 RF"),
        (Some(16), (LINE_RELATIVE, 2), "1/19 RF"),
        (Some(16), (LINE_ABSOLUTE, 20), "1/20 RF"),
        (Some(16), (LINE_NEXT_PAGE, 3), "2/3 RF"),
    ] {
        let mut b = Builder::new(20, 2, 9, 12, 14, 3, 1);
        says(&mut b, PH, 0, LINE_ABSOLUTE, 2, "PH");
        b.group(DE, 0);
        b.group(PF, 0);
        if let Some(n) = pf {
            b.line(LINE_ABSOLUTE, n);
            b.line(LINE_RELATIVE, 1);
        }
        says(&mut b, RF, 0, rf.0, rf.1, "RF");
        let mut run = Run::begin(&b.bytes());
        run.generate(0, b"x").terminate();
        let lines = printed(&run);
        assert_eq!(lines.last().unwrap(), lands);
        // "PF prints once before RF's own page", and "no heading prints" there.
        assert_eq!(lines.len(), if pf.is_some() { 4 } else { 2 });
    }
}

/// One call of a body group on the marked page from (line, seen, saved): where it lands, and what it leaves.
fn lands(kind: u16, line_kind: u16, n: u16, span: u16, from: (u16, u8, u16)) -> (u32, String, u16, u16) {
    lands_on(marked_page(2, 1), kind, line_kind, n, span, from)
}

fn lands_on(
    mut b: Builder,
    kind: u16,
    line_kind: u16,
    n: u16,
    span: u16,
    from: (u16, u8, u16),
) -> (u32, String, u16, u16) {
    let field = b.text(0, 1);
    b.control(field);
    if kind == CF {
        b.group(DE, 0);
    }
    says(&mut b, kind, 0, line_kind, n, "X");
    if span > 0 {
        b.line(LINE_RELATIVE, span);
    }
    let mut state =
        State { phase: RUNNING, page: 1, line: from.0, seen: from.1, saved: from.2, ..State::fresh() };
    state.keep(b"a");
    let mut run = Run::from(&b.bytes(), state);
    run.generate(0, if kind == CF { b"b" } else { b"a" });
    (run.state.page, printed(&run)[0].clone(), run.state.line, run.state.saved)
}

#[test]
fn body_groups_land() {
    const ABS: u16 = LINE_ABSOLUTE;
    const REL: u16 = LINE_RELATIVE;
    const NP: u16 = LINE_NEXT_PAGE;
    // (type, first line, span, (line, seen, saved), lands at, line left): P 10, H 1, FD 3, LD 6, FT 8
    let rows = [
        // Absolute.
        (DE, ABS, 5, 0, (4, 1, 0), "1/5 X", 5),
        (DE, ABS, 5, 0, (5, 1, 0), "2/5 X", 5),
        (DE, ABS, 5, 1, (4, 1, 0), "1/5 X", 6),
        (DE, ABS, 5, 0, (0, 0, 0), "1/5 X", 5),
        (DE, ABS, 5, 0, (8, 1, 4), "2/5 X", 5),
        (DE, ABS, 5, 0, (8, 1, 5), "3/5 X", 5),
        (CF, ABS, 8, 0, (7, 1, 0), "1/8 X", 8),
        (CF, ABS, 8, 0, (8, 1, 0), "2/8 X", 8),
        (CF, ABS, 8, 0, (8, 1, 7), "2/8 X", 8),
        (CF, ABS, 8, 0, (8, 1, 8), "3/8 X", 8),
        // Relative.
        (DE, REL, 2, 0, (4, 1, 0), "1/6 X", 6),
        (DE, REL, 2, 0, (5, 1, 0), "2/3 X", 3),
        (DE, REL, 1, 1, (4, 1, 0), "1/5 X", 6),
        (DE, REL, 1, 1, (5, 1, 0), "2/3 X", 4),
        (DE, REL, 9, 0, (0, 0, 0), "1/3 X", 3),
        (DE, REL, 9, 0, (3, 1, 0), "2/3 X", 3),
        (DE, REL, 9, 0, (8, 1, 4), "2/5 X", 5),
        (DE, REL, 1, 1, (8, 1, 4), "2/5 X", 6),
        (DE, REL, 1, 1, (8, 1, 5), "3/3 X", 4),
        (CF, REL, 1, 0, (7, 1, 0), "1/8 X", 8),
        (CF, REL, 1, 0, (8, 1, 0), "2/3 X", 3),
        (CF, REL, 1, 0, (8, 1, 7), "2/8 X", 8),
        (CF, REL, 1, 0, (8, 1, 8), "3/3 X", 3),
        // Next page.
        (DE, NP, 4, 0, (3, 1, 0), "2/4 X", 4),
        (DE, NP, 4, 0, (0, 0, 0), "1/4 X", 4),
        (DE, NP, 4, 0, (8, 1, 3), "2/4 X", 4),
        (DE, NP, 4, 0, (8, 1, 4), "3/4 X", 4),
        (CF, NP, 8, 0, (8, 1, 7), "2/8 X", 8),
        (CF, NP, 8, 0, (8, 1, 8), "3/8 X", 8),
    ];
    for (kind, line_kind, n, span, from, at, line) in rows {
        let (page, first, left, saved) = lands(kind, line_kind, n, span, from);
        let row = (kind, line_kind, n, span, from);
        assert_eq!((first.as_str(), left, saved), (at, line, 0), "{row:?}");
        assert_eq!(page.to_string(), at[..1], "{row:?}");
    }
}

#[test]
fn saved_may_be_1_where_fd_is_1() {
    // (first line, where it lands from line FT with saved 1)
    for (line_kind, n, at) in [
        (LINE_ABSOLUTE, 1, "3/1 X"),
        (LINE_ABSOLUTE, 2, "2/2 X"),
        (LINE_RELATIVE, 1, "2/2 X"),
        (LINE_NEXT_PAGE, 1, "3/1 X"),
        (LINE_NEXT_PAGE, 2, "2/2 X"),
    ] {
        let page = Builder::new(10, 1, 1, 6, 8, 2, 1);
        let (_, first, _, saved) = lands_on(page, DE, line_kind, n, 0, (8, 1, 1));
        assert_eq!((first.as_str(), saved), (at, 0), "line kind {line_kind}, n {n}");
    }
}

#[test]
fn a_next_group_is_ignored_on_a_footing_more_junior_than_the_break() {
    let mut b = Builder::new(60, 1, 3, 50, 50, 4, 2);
    let (first, second) = (b.text(0, 1), b.text(1, 1));
    b.control(first);
    b.control(second);
    says(&mut b, DE, 0, LINE_RELATIVE, 1, "DE");
    says(&mut b, CF, 1, LINE_RELATIVE, 1, "CF1");
    b.next(NEXT_RELATIVE, 10);
    says(&mut b, CF, 0, LINE_RELATIVE, 1, "CF0");
    b.next(NEXT_ABSOLUTE, 3);
    let mut run = Run::begin(&b.bytes());
    run.generate(0, b"aa").generate(0, b"ab").generate(0, b"bb").terminate();
    let expected = ["1/3 DE", "1/4 CF1", "1/15 DE", "1/16 CF1", "1/17 CF0", "2/4 DE", "2/5 CF1", "2/6 CF0"];
    assert_eq!(printed(&run), expected);
    // "The level-0 CF's next group is obeyed" at TERMINATE, and what it leaves stays.
    assert_eq!((run.state.line, run.state.saved, run.state.seen), (50, 3, 1));
}

#[test]
fn a_group_without_lines_changes_nothing() {
    let mut b = marked_page(2, 1);
    says(&mut b, PH, 0, LINE_ABSOLUTE, 2, "PH");
    b.group(DE, 0);
    b.next(NEXT_PAGE, 0);
    let mut run = Run::begin(&b.bytes());
    run.generate(0, b"x").generate(0, b"x");
    assert_eq!(printed(&run), ["1/2 PH"]);
    let state = &run.state;
    assert_eq!((state.page, state.line, state.seen, state.saved), (1, 2, 0, 0));
}

#[test]
fn items_print_as_told() {
    // (the field's bytes, item width, decimals, printed)
    let rows: [(&[u8], u16, u16, &str); 20] = [
        (b"+00000", 6, 0, "     0"),
        (b"-00000", 6, 0, "     0"),
        (b"-00000", 6, 2, "  0.00"),
        (b"+00005", 6, 2, "  0.05"),
        (b"-00005", 6, 2, " -0.05"),
        (b"-00005", 5, 2, "-0.05"),
        (b"-00005", 4, 2, "****"),
        (b"+00012", 2, 0, "12"),
        (b"+00012", 1, 0, "*"),
        (b"-00012", 2, 0, "**"),
        (b"+12345", 7, 4, " 1.2345"),
        (b"+12345", 6, 4, "1.2345"),
        (b"+00012", 6, 1, "   1.2"),
        (b"-99999", 7, 1, "-9999.9"),
        // "take blank as plus".
        (b" 00000", 6, 0, "     0"),
        (b" 00005", 6, 2, "  0.05"),
        (b" 00012", 2, 0, "12"),
        (b" 00012", 1, 0, "*"),
        (b" 12345", 6, 4, "1.2345"),
        (b" 99999", 5, 0, "99999"),
    ];
    for (bytes, width, decimals, expected) in rows {
        let mut b = marked_page(width, 6);
        let field = b.number(0, 6);
        b.group(DE, 0);
        b.line(LINE_RELATIVE, 1);
        b.item(Item { decimals, ..item(1, width, FIELD, field) });
        let mut run = Run::begin(&b.bytes());
        run.generate(0, bytes);
        assert_eq!(String::from_utf8_lossy(&run.sheet[9..]), format!("{expected}\n"));
    }
    // Text is cut or padded; counters show the page and their own line; a line without items is blank.
    let mut b = marked_page(12, 4);
    let field = b.text(0, 4);
    b.group(DE, 0);
    b.line(LINE_RELATIVE, 1);
    b.item(item(1, 2, FIELD, field));
    b.item(item(3, 6, FIELD, field));
    b.item(item(9, 2, LINE_COUNTER, 0));
    b.line(LINE_RELATIVE, 2);
    b.item(item(1, 3, LINE_COUNTER, 0));
    b.item(item(4, 3, PAGE_COUNTER, 0));
    b.line(LINE_RELATIVE, 1);
    let state = State { phase: RUNNING, page: 1234, ..State::fresh() };
    let mut run = Run::from(&b.bytes(), State { kept: kept(b"abcd"), ..state });
    run.generate(0, b"a c~");
    assert_eq!(run.dots(), "001234003a.a.c~...3..\n001234005..5***......\n001234006............\n");
}

fn kept(record: &[u8]) -> [u8; 256] {
    let mut state = State::fresh();
    state.keep(record);
    state.kept
}
