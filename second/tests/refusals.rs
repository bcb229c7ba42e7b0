//! The nine refusals: each one, their order, and what a refusal leaves.

mod common;

use common::{marked_page, whole_run, Run, WHOLE_RUN_ROWS};
use second::builder::Builder;
use second::description::*;
use second::report::{generate, initiate, terminate, Answer};
use second::state::{State, IDLE, RUNNING, STARTED, SUM_LIMIT};

/// A GENERATE of the whole run's description that turns the page: two lines, 44 bytes.
struct Call {
    desc: Vec<u8>,
    state: State,
    d: u32,
    record: Vec<u8>,
    out: usize,
}

impl Call {
    fn new() -> Call {
        let mut state = State { phase: RUNNING, page: 3, line: 6, seen: 1, ..State::fresh() };
        state.keep(b"BB+001");
        Call { desc: whole_run().bytes(), state, d: 0, record: b"BB+009".to_vec(), out: 44 }
    }

    /// The answer and the output, which held bytes 170 before.
    fn make(&self) -> (Answer, Vec<u8>) {
        let mut out = vec![170; self.out];
        let answer = generate(&self.desc, &self.state, self.d, &self.record, &mut out);
        (answer, out)
    }

    fn refused(&self, number: u8, extra: u32) {
        let (answer, out) = self.make();
        assert_eq!(answer, Answer { number, extra, count: 0, state: self.state.clone() });
        assert!(out.iter().all(|&byte| byte == 170), "refusal {number} left the output changed");
    }
}

/// A change to a call that deserves a refusal, and the refusal's extra number.
type Deserve = (fn(&mut Call), u32);

/// One for each refusal, in order.
const DESERVE: [Deserve; 9] = [
    (
        |call| {
            let mut b = whole_run();
            b.tables.items[0].decimals = 1;
            call.desc = b.bytes();
        },
        7,
    ),
    (|call| call.state.saved = 1000, 0),
    (|call| call.state.phase = IDLE, 0),
    (|call| call.d = 1, 0),
    (|call| call.record.push(b' '), 0),
    (|call| call.record[5] = b' ', 1),
    (|call| call.state.sums[0] = SUM_LIMIT - 8, 0),
    (|call| call.state.page = 999_999, 0),
    (|call| call.out = 43, 0),
];

#[test]
fn the_call_itself_is_accepted() {
    let (answer, out) = Call::new().make();
    assert_eq!((answer.number, answer.extra, answer.count), (0, 0, 44));
    assert_eq!(out, b"000004001PAGE  4     \n000004003BB      9   \n");
}

#[test]
fn each_refusal_is_given() {
    for ((deserve, extra), number) in DESERVE.into_iter().zip(1..) {
        let mut call = Call::new();
        deserve(&mut call);
        call.refused(number, extra);
    }
}

#[test]
fn of_two_refusals_the_earlier_is_given() {
    for (first, (deserve_first, extra)) in DESERVE.into_iter().enumerate() {
        for (deserve_later, _) in &DESERVE[first + 1..] {
            let mut call = Call::new();
            deserve_later(&mut call);
            deserve_first(&mut call);
            call.refused(first as u8 + 1, extra);
        }
    }
}

#[test]
fn of_all_refusals_the_earliest_is_given() {
    for (first, (_, extra)) in DESERVE.into_iter().enumerate() {
        let mut call = Call::new();
        for (deserve, _) in DESERVE[first..].iter().rev() {
            deserve(&mut call);
        }
        call.refused(first as u8 + 1, extra);
    }
}

#[test]
fn refusal_3_is_about_the_phase() {
    let desc = whole_run().bytes();
    let (idle, started) = (State::fresh(), State { phase: STARTED, ..State::fresh() });
    let running = Call::new().state;
    for (phase, state) in [idle, started, running].iter().enumerate() {
        let (mut big, mut empty) = ([0; 1000], []);
        let answers = |answer: Answer, numbers: [u8; 3]| {
            assert_eq!((answer.number, answer.extra), (numbers[phase], 0), "phase {phase}");
        };
        answers(initiate(&desc, state), [0, 3, 3]);
        answers(generate(&desc, state, 0, b"AA+001", &mut big), [3, 0, 0]);
        answers(terminate(&desc, state, &mut big), [3, 0, 0]);
        // An empty output is enough for a call without lines.
        answers(terminate(&desc, state, &mut empty), [3, 0, 9]);
    }
}

#[test]
fn initiate_begins_afresh_from_any_idle_state() {
    let desc = whole_run().bytes();
    let used = State { phase: IDLE, page: 9, line: 10, seen: 1, saved: 999, sums: [5; 32], ..State::fresh() };
    let answer = initiate(&desc, &used);
    assert_eq!(
        answer,
        Answer { number: 0, extra: 0, count: 0, state: State { phase: STARTED, ..State::fresh() } }
    );
    let mut out = [170; 4];
    let answer = terminate(&desc, &answer.state, &mut out);
    assert_eq!(answer, Answer { number: 0, extra: 0, count: 0, state: State::fresh() });
    assert_eq!(out, [170; 4]);
}

#[test]
fn refusal_4_names_no_detail() {
    for d in [1, 2, 8, 255, 256, 65536, u32::MAX] {
        let mut call = Call::new();
        call.d = d;
        call.refused(4, 0);
    }
}

#[test]
fn refusal_5_is_any_other_length() {
    for length in [0, 1, 5, 7, 256, 257, 70000] {
        let mut call = Call::new();
        call.record.resize(length, b'0');
        call.refused(5, 0);
    }
}

#[test]
fn refusal_6_gives_the_lowest_field() {
    for (record, field) in [
        (b"\x1fB+009", 0),
        (b"B\x7f+009", 0),
        (b"\x80B009 ", 0),
        (b"BB  09", 1),
        (b"BB+0-9", 1),
        (b"BB0009", 1),
    ] {
        let mut call = Call::new();
        call.record = record.to_vec();
        call.refused(6, field);
    }
}

/// Whether these bytes are a number, as document 01 and R-5 have it.
fn is_number(bytes: &[u8]) -> bool {
    b"+- ".contains(&bytes[0]) && bytes[1..].iter().all(|byte| b"0123456789".contains(byte))
}

#[test]
fn a_blank_is_a_plus() {
    // "Refusal 6 narrows": the row that it was given to prints what the row with '+' prints.
    let with_plus = Call::new();
    let with_blank = Call { record: b"BB 009".to_vec(), ..Call::new() };
    assert_eq!(with_blank.make(), with_plus.make());
    // Every refusal is given to it too.
    for ((deserve, extra), number) in DESERVE.into_iter().zip(1..) {
        let mut call = Call { record: b"BB 009".to_vec(), ..Call::new() };
        deserve(&mut call);
        call.refused(number, extra);
    }
}

#[test]
fn refusal_6_tries_every_byte_of_a_number() {
    for sign in *b"+- " {
        for (at, byte) in (2..6).flat_map(|at| (0..=255).map(move |byte| (at, byte))) {
            let mut call = Call::new();
            call.record[2] = sign;
            call.record[at] = byte;
            // The kept amount is neither a control nor printed: any will do.
            let mut state = call.state.clone();
            state.keep(&call.record);
            let kept = Call { state, record: b"BB+009".to_vec(), ..Call::new() };
            if is_number(&call.record[2..]) {
                assert_eq!((call.make().0.number, kept.make().0.number), (0, 0));
            } else {
                call.refused(6, 1);
                kept.refused(2, 0);
            }
        }
    }
}

/// What tills might send too; R-5 takes a blank only where the '+' stood.
const NO_NUMBERS: [&str; 14] = [
    "    ", "  09", "   9", "  +9", "  -9", " +09", " -09", "+ 09", "- 09", "009+", "009 ", "009-", "0009",
    "\t009",
];

#[test]
fn a_blank_is_no_digit_and_does_not_move_a_sign() {
    for number in NO_NUMBERS {
        let mut call = Call::new();
        call.record[2..].copy_from_slice(number.as_bytes());
        call.refused(6, 1);
        let mut call = Call::new();
        call.state.kept[2..6].copy_from_slice(number.as_bytes());
        call.refused(2, 0);
    }
}

#[test]
fn refusal_6_passes_over_a_blank_for_a_plus() {
    // Three numbers, used as a control, as an addend and not at all; a text at the end.
    let mut b = marked_page(4, 10);
    let fields = [b.number(0, 3), b.number(3, 3), b.number(6, 3), b.text(9, 1)];
    b.control(fields[0]);
    b.group(DE, 0);
    let cf = b.group(CF, 0);
    b.counter(cf, 0);
    b.add_field(fields[1], 1);
    let desc = b.bytes();
    for (record, number, field) in [
        (" 01 02 03x", 0, 0),
        (" 01 02 03\x7f", 6, 3),
        (" 01 02  3x", 6, 2),
        (" 01 02   \x7f", 6, 2),
        (" 01  2 03x", 6, 1),
        ("  1 02  3x", 6, 0),
        ("+01+02 03x", 0, 0),
    ] {
        let answer = generate(&desc, &State::started(), 0, record.as_bytes(), &mut []);
        assert_eq!((answer.number, answer.extra), (number, field), "{record}");
    }
}

/// Two levels with crossfoot and roll-up: a counter of the junior CF, one that adds it there, one above.
/// The first detail feeds the junior counter, the second the senior one.
fn summing() -> Builder {
    let mut b = marked_page(20, 6);
    let agent = b.text(0, 2);
    let amount = b.number(2, 4);
    b.control(FINAL);
    b.control(agent);
    b.group(DE, 0);
    b.group(DE, 0);
    let junior = b.group(CF, 1);
    let senior = b.group(CF, 0);
    let fed = b.counter(junior, 1);
    b.add_field(amount, 0b01);
    b.counter(junior, 1);
    b.add_counter(fed);
    b.counter(senior, 0);
    b.add_counter(fed);
    b.add_field(amount, 0b10);
    b
}

/// Sums before, detail, record, and the sums after when accepted.
type Addition = ([i64; 3], u32, &'static [u8], Option<[i64; 3]>);

#[test]
fn refusal_7_is_any_addition() {
    let desc = summing().bytes();
    let l = SUM_LIMIT;
    let rows: [Addition; 10] = [
        // Subtotal, the last sum in range and the first beyond it, both signs.
        ([l - 9, 0, 0], 0, b"AA+009", Some([l, 0, 0])),
        ([l - 8, 0, 0], 0, b"AA+009", None),
        ([9 - l, 0, 0], 0, b"AA-009", Some([-l, 0, 0])),
        ([8 - l, 0, 0], 0, b"AA-009", None),
        ([0, 0, l], 0, b"AA+009", Some([9, 0, l])),
        ([0, 0, l], 1, b"AA+001", None),
        // Break: crossfoot, then roll-up, then the resets, then subtotal.
        ([5, l - 5, 0], 0, b"BB+000", Some([0, 0, 5])),
        ([5, l - 4, 0], 0, b"BB+000", None),
        ([5, 0, l - 5], 0, b"BB+000", Some([0, 0, l])),
        ([5, 0, l - 4], 0, b"BB+000", None),
    ];
    for (before, d, record, after) in rows {
        let mut state = State { phase: RUNNING, ..State::fresh() };
        state.keep(b"AA+000");
        state.sums[..3].copy_from_slice(&before);
        let answer = generate(&desc, &state, d, record, &mut []);
        match after {
            Some(after) => {
                assert_eq!((answer.number, &answer.state.sums[..3]), (0, &after[..]), "{before:?}")
            }
            None => assert_eq!((answer.number, answer.state), (7, state), "{before:?}"),
        }
    }
    // TERMINATE adds as a break does.
    for (sum, number) in [(l - 5, 0), (l - 4, 7)] {
        let mut state = State { phase: RUNNING, ..State::fresh() };
        state.keep(b"AA+000");
        (state.sums[0], state.sums[2]) = (5, sum);
        let answer = terminate(&desc, &state, &mut []);
        assert_eq!((answer.number, answer.extra), (number, 0));
    }
}

#[test]
fn refusal_7_comes_before_8_even_where_the_page_change_is_earlier() {
    let mut call = Call::new();
    // The footing needs a page beyond the last; only the subtotal after it leaves the range.
    let mut b = whole_run();
    b.tables.counters[0].reset = 0;
    b.tables.controls.insert(0, FINAL);
    b.tables.groups[2].level = 1;
    call.desc = b.bytes();
    call.state.page = 999_999;
    call.state.line = 8;
    call.state.sums[0] = SUM_LIMIT;
    call.record = b"CC+001".to_vec();
    call.refused(7, 0);
    call.record = b"CC-001".to_vec();
    call.refused(8, 0);
}

#[test]
fn refusal_8_guards_the_last_page() {
    // "Page 999,999 may print; the change from it is refused."
    let mut call = Call::new();
    call.state.page = 999_998;
    let (answer, out) = call.make();
    assert_eq!((answer.number, answer.state.page), (0, 999_999));
    assert_eq!(&out[..22], b"999999001PAGE **     \n");
    call.state = answer.state;
    assert_eq!(call.make().0.number, 0);
    call.state.line = 6;
    call.refused(8, 0);
    // A saved integer may need two pages.
    call.state = State { page: 999_998, line: 8, saved: 6, ..call.state };
    call.refused(8, 0);
    call.state.saved = 5;
    assert_eq!(call.make().0.number, 0);
}

/// PF on line 9, RF on a page of its own.
fn with_own_page() -> Builder {
    let mut b = marked_page(3, 1);
    b.group(DE, 0);
    b.group(PF, 0);
    b.line(LINE_ABSOLUTE, 9);
    b.literal(1, "PF");
    b.group(RF, 0);
    b.line(LINE_NEXT_PAGE, 5);
    b.literal(1, "RF");
    b
}

#[test]
fn refusal_8_at_the_report_footings_turn() {
    let mut desc = with_own_page();
    let mut out = [170; 40];
    let mut state = State { phase: RUNNING, page: 999_999, line: 4, seen: 1, ..State::fresh() };
    state.keep(b"x");
    let answer = terminate(&desc.bytes(), &state, &mut out);
    assert_eq!(answer, Answer { number: 8, extra: 0, count: 0, state: state.clone() });
    assert_eq!(out, [170; 40]);
    let state = State { page: 999_998, ..state };
    let answer = terminate(&desc.bytes(), &state, &mut out);
    assert_eq!((answer.number, answer.count), (0, 26));
    assert_eq!(&out[..26], b"999998009PF \n999999005RF \n");
    // "RF's turn too, sets each detail's flag".
    let flags = [1, 0, 0, 0, 0, 0, 0, 0];
    assert_eq!(answer.state, State { phase: IDLE, page: 999_999, line: 5, seen: 0, flags, ..state.clone() });
    // A lineless RF asks for no page.
    desc.tables.groups[2].line_count = 0;
    desc.tables.lines.pop();
    desc.tables.items.pop();
    let state = State { page: 999_999, ..state };
    assert_eq!(terminate(&desc.bytes(), &state, &mut out).number, 0);
}

#[test]
fn refusal_9_is_about_the_last_byte() {
    let mut call = Call::new();
    for length in [0, 1, 21, 22, 43] {
        call.out = length;
        call.refused(9, 0);
    }
    // "Output bytes from that count on stay as they were."
    call.out = 50;
    let (answer, out) = call.make();
    assert_eq!((answer.number, answer.count), (0, 44));
    assert_eq!(out[44..], [170; 6]);
}

#[test]
fn a_repeat_after_refusal_9_equals_a_first_call() {
    let desc = whole_run().bytes();
    let mut patient = Run::begin(&desc);
    let mut state = patient.state.clone();
    let mut sheet = Vec::new();
    for row in WHOLE_RUN_ROWS.into_iter().map(Some).chain([None]) {
        let call = |state: &State, out: &mut [u8]| match row {
            Some(row) => generate(&desc, state, 0, row, out),
            None => terminate(&desc, state, out),
        };
        let mut length = 0;
        let (answer, out) = loop {
            let mut out = vec![170; length];
            let answer = call(&state, &mut out);
            if answer.number == 0 {
                break (answer, out);
            }
            assert_eq!(answer, Answer { number: 9, extra: 0, count: 0, state: state.clone() });
            assert!(out.iter().all(|&byte| byte == 170));
            state = answer.state;
            length += 11;
        };
        sheet.extend_from_slice(&out[..answer.count]);
        state = answer.state;
        match row {
            Some(row) => patient.generate(0, row),
            None => patient.terminate(),
        };
        assert_eq!((&state, &sheet), (&patient.state, &patient.sheet));
    }
    assert_eq!(sheet.len(), 176);
}

#[test]
fn any_bytes_may_come_in() {
    // Each byte of a description changed to each of some values; each byte of a state too.
    let desc = whole_run().bytes();
    let mut call = Call::new();
    call.out = 1000;
    for at in 0..desc.len() {
        for byte in [0, 1, 2, 3, 9, 31, 127, 128, 255] {
            call.desc = desc.clone();
            call.desc[at] = byte;
            let (answer, _) = call.make();
            assert_eq!(answer.number == 1, check(&call.desc).is_err());
        }
    }
    let mut call = Call::new();
    let bytes = call.state.to_bytes();
    for at in 0..bytes.len() {
        for byte in [0, 1, 2, 3, 9, 31, 127, 128, 255] {
            let mut changed = bytes;
            changed[at] = byte;
            call.state = State::from_bytes(&changed);
            let (answer, out) = call.make();
            if answer.number != 0 {
                assert_eq!(answer.state, call.state);
                assert!(out.iter().all(|&byte| byte == 170));
            }
        }
    }
}
