//! Two agents, one printer file: a run of both by hand, the refusals and their order, the room in the common output,
//! what a call leaves alone, the sheets taken apart again.

mod common;

use common::{item, marked_page, sheet_bytes, whole_run, Run, WHOLE_RUN_ROWS, WHOLE_RUN_SHEET};
use second::builder::Builder;
use second::cases::{Interleaved, Rng};
use second::description::*;
use second::report;
use second::state::{State, IDLE, RUNNING, STARTED, SUM_LIMIT};
use second::two::{bytes, generate, initiate, take_apart, terminate, Answer, TwoAgents, TWO_AGENTS_BYTES};

/// What no call has written.
const UNTOUCHED: u8 = 170;

const CODES: [[u8; 2]; 2] = [*b"A1", *b"B2"];

fn accepted(count: usize, next: TwoAgents) -> Answer {
    Answer { number: 0, extra: 0, count, next }
}

fn refusal(number: u8, extra: u32, two: &TwoAgents) -> Answer {
    Answer { number, extra, count: 0, next: two.clone() }
}

/// A running state of the whole run on line 6: a row of BB turns the page.
fn running() -> State {
    let mut state = State { phase: RUNNING, page: 3, line: 6, seen: 1, ..State::fresh() };
    state.keep(b"BB+001");
    state
}

/// A state that keeps no rules.
fn no_state() -> State {
    State::from_bytes(&std::array::from_fn(|i| 255 - (i % 251) as u8))
}

// ---- the two agents and their bytes

#[test]
fn fresh_agents_are_fresh_and_begin_at_0() {
    let two = TwoAgents { states: [State::fresh(), State::fresh()], codes: CODES, start: 0 };
    assert_eq!(TwoAgents::fresh(CODES), two);
    assert_eq!(bytes::fresh(CODES), two.to_bytes());
}

#[test]
fn bytes_have_their_layout() {
    let mut two = TwoAgents::fresh([[1, 2], [3, 4]]);
    two.start = 0x0c0b_0a09_0807_0605;
    (two.states[0].page, two.states[1].page) = (7, 8);
    let bytes = two.to_bytes();
    assert_eq!(bytes.len(), 1072);
    assert_eq!(bytes[..530], two.states[0].to_bytes());
    assert_eq!(bytes[530..1060], two.states[1].to_bytes());
    assert_eq!(bytes[1060..], [1, 2, 3, 4, 5, 6, 7, 8, 9, 10, 11, 12]);
    assert_eq!(TwoAgents::from_bytes(&bytes), two);
    let any: [u8; TWO_AGENTS_BYTES] = std::array::from_fn(|i| (i * 37 % 251) as u8);
    assert_eq!(TwoAgents::from_bytes(&any).to_bytes(), any);
}

// ---- the whole run, by hand

/// Document 01's rows for agent 0; for agent 1 others, so that the two sheets differ in every line but the first.
const OTHER_ROWS: [&[u8]; 3] = [b"CC+100", b"CC-150", b"DD+999"];

const OTHER_SHEET: &str = "\
000001001PAGE..1.....
000001003CC....100...
000001004.....-150...
000001005SUM...-50...
000001006DD....999...
000001007SUM...999...
";

/// The lines of both as the calls of `interleaved` print them, blanks shown as dots.
const COMMON_FILE: &str = "\
A1000001001PAGE..1.....
A1000001003AA......5...
B2000001001PAGE..1.....
B2000001003CC....100...
A1000001004........7...
A1000001005SUM....12...
A1000001006BB.....-2...
B2000001004.....-150...
A1000002001PAGE..2.....
A1000002003BB......9...
B2000001005SUM...-50...
B2000001006DD....999...
B2000001007SUM...999...
A1000002004SUM.....7...
";

/// An agent's GENERATE of a row, or with `None` its TERMINATE.
type Turn = (usize, Option<&'static [u8]>);

/// The calls after both INITIATEs, with the lines that each prints.
fn interleaved() -> [(Turn, usize); 9] {
    let [a, b, c, d] = WHOLE_RUN_ROWS;
    let [e, f, g] = OTHER_ROWS;
    [
        ((0, Some(a)), 2),
        ((1, Some(e)), 2),
        ((0, Some(b)), 1),
        ((0, Some(c)), 2),
        ((1, Some(f)), 1),
        ((0, Some(d)), 2),
        ((1, Some(g)), 2),
        ((1, None), 1),
        ((0, None), 1),
    ]
}

fn make(desc: &[u8], two: &TwoAgents, (agent, row): Turn, out: &mut [u8]) -> Answer {
    match row {
        Some(row) => generate(desc, two, agent, 0, row, out),
        None => terminate(desc, two, agent, out),
    }
}

fn both_started(desc: &[u8]) -> TwoAgents {
    let mut two = TwoAgents::fresh(CODES);
    for agent in [0, 1] {
        let answer = initiate(desc, &two, agent);
        two.states[agent] = State::started();
        assert_eq!(answer, accepted(0, two.clone()));
    }
    two
}

#[test]
fn the_whole_run_of_two_agents_prints_336_bytes() {
    let desc = whole_run().bytes();
    let mut two = both_started(&desc);
    let mut out = [UNTOUCHED; 340];
    for (turn, lines) in interleaved() {
        let answer = make(&desc, &two, turn, &mut out);
        assert_eq!((answer.number, answer.count), (0, 24 * lines), "{turn:?}");
        // "Each starting where the accepted call before ended."
        assert_eq!(answer.next.start, two.start + answer.count as u64);
        assert_eq!(answer.next.states[1 - turn.0], two.states[1 - turn.0]);
        assert_eq!(answer.next.codes, CODES);
        two = answer.next;
    }
    assert_eq!(out[..336], sheet_bytes(COMMON_FILE));
    assert_eq!(out[336..], [UNTOUCHED; 4]);
    assert_eq!(take_apart(&out[..336], 12, CODES[0]), sheet_bytes(WHOLE_RUN_SHEET));
    assert_eq!(take_apart(&out[..336], 12, CODES[1]), sheet_bytes(OTHER_SHEET));
    // The states are those of the two alone.
    for (agent, rows) in [&WHOLE_RUN_ROWS[..], &OTHER_ROWS].into_iter().enumerate() {
        let mut run = Run::begin(&desc);
        for row in rows {
            run.generate(0, row);
        }
        run.terminate();
        assert_eq!(two.states[agent], run.state, "agent {agent}");
    }
}

#[test]
fn the_whole_run_is_the_same_in_an_output_of_336_bytes_and_refused_in_a_shorter_one() {
    let desc = whole_run().bytes();
    let sheet = sheet_bytes(COMMON_FILE);
    for length in 0..=336 {
        let mut two = both_started(&desc);
        let mut out = vec![UNTOUCHED; length];
        for (turn, lines) in interleaved() {
            let answer = make(&desc, &two, turn, &mut out);
            let end = two.start as usize + 24 * lines;
            if end > length {
                assert_eq!(answer, refusal(9, 0, &two), "{turn:?}, {length} bytes");
                break;
            }
            assert_eq!((answer.number, answer.next.start), (0, end as u64), "{turn:?}, {length} bytes");
            two = answer.next;
        }
        let end = two.start as usize;
        assert!(end == length - length % 24 || end + 24 == length - length % 24);
        assert!(out[..end] == sheet[..end] && out[end..].iter().all(|&byte| byte == UNTOUCHED));
    }
}

#[test]
fn refused_calls_between_change_nothing() {
    let desc = whole_run().bytes();
    let mut two = both_started(&desc);
    let mut out = [UNTOUCHED; 340];
    for (turn, _) in interleaved() {
        for agent in [0, 1] {
            let running = two.states[agent].phase != IDLE;
            // INITIATE of one who has begun; or of one who has ended, its answer dropped.
            assert_eq!(initiate(&desc, &two, agent).number, if running { 3 } else { 0 });
            let refused = [
                generate(&desc, &two, agent, 1, b"AA+005", &mut out),
                generate(&desc, &two, agent, 0, b"AA+05", &mut out),
                generate(&desc, &two, agent, 0, b"AA+0x5", &mut out),
                generate(&desc, &two, agent, 0, b"AA+005", &mut []),
            ];
            for (answer, (number, extra)) in refused.into_iter().zip([(4, 0), (5, 0), (6, 1), (9, 0)]) {
                let number = if running { (number, extra) } else { (3, 0) };
                assert_eq!(answer, refusal(number.0, number.1, &two));
            }
        }
        two = make(&desc, &two, turn, &mut out).next;
    }
    assert_eq!(out[..336], sheet_bytes(COMMON_FILE));
    assert_eq!(out[336..], [UNTOUCHED; 4]);
}

#[test]
fn a_second_report_goes_on_behind_the_first() {
    let desc = whole_run().bytes();
    let mut two = both_started(&desc);
    let mut out = [UNTOUCHED; 1000];
    two = generate(&desc, &two, 1, 0, b"CC+100", &mut out).next;
    for _ in 0..2 {
        for row in WHOLE_RUN_ROWS {
            two = generate(&desc, &two, 0, 0, row, &mut out).next;
        }
        two = terminate(&desc, &two, 0, &mut out).next;
        two = initiate(&desc, &two, 0).next;
    }
    assert_eq!(two.start, 24 * 18);
    let sheet = sheet_bytes(WHOLE_RUN_SHEET);
    assert_eq!(take_apart(&out[..24 * 18], 12, CODES[0]), [&sheet[..], &sheet].concat());
    assert_eq!(take_apart(&out[..24 * 18], 12, CODES[1]), sheet_bytes(OTHER_SHEET)[..44]);
}

// ---- the record: W + 12 bytes, the code in front

/// Two lines of `w` characters a detail, the text of the record at both ends.
fn lines_of(w: u16) -> Vec<u8> {
    let mut b = Builder::new(20, 1, 1, 20, 20, w, 1);
    let text = b.text(0, 1);
    b.group(DE, 0);
    for _ in 0..2 {
        b.line(LINE_RELATIVE, 1);
        b.item(item(1, 1, FIELD, text));
        if w > 1 {
            b.item(item(w, 1, FIELD, text));
        }
    }
    b.bytes()
}

#[test]
fn a_record_is_the_code_then_the_line_as_it_was() {
    for w in [1, 2, 131, 132] {
        let desc = lines_of(w);
        let two = TwoAgents { states: [State::started(), State::started()], ..TwoAgents::fresh(CODES) };
        for agent in [0, 1] {
            let bytes = 2 * (usize::from(w) + 12);
            let mut out = vec![UNTOUCHED; bytes];
            let answer = generate(&desc, &two, agent, 0, b"x", &mut out);
            assert_eq!((answer.number, answer.count), (0, bytes));
            let code = std::str::from_utf8(&CODES[agent]).unwrap();
            let text = if w > 1 { format!("x{}x", " ".repeat(usize::from(w) - 2)) } else { "x".to_string() };
            let lines = format!("{code}000001001{text}\n{code}000001002{text}\n");
            assert_eq!(String::from_utf8(out).unwrap(), lines);
            // One byte less is too little.
            let mut out = vec![UNTOUCHED; bytes - 1];
            assert_eq!(generate(&desc, &two, agent, 0, b"x", &mut out), refusal(9, 0, &two));
            assert!(out.iter().all(|&byte| byte == UNTOUCHED));
        }
    }
}

#[test]
fn a_call_of_many_lines_has_the_code_in_front_of_each() {
    // Every heading and footing turns the page, with 16 lines of PF and of PH.
    let mut b = Builder::new(60, 1, 20, 30, 30, 1, 8);
    b.group(PH, 0);
    b.line(LINE_ABSOLUTE, 1);
    for _ in 1..16 {
        b.line(LINE_RELATIVE, 1);
    }
    b.group(DE, 0);
    for level in 0..8 {
        let field = b.text(level, 1);
        b.control(field);
        for kind in [CH, CF] {
            b.group(kind, level);
            b.line(LINE_NEXT_PAGE, 20);
        }
    }
    b.group(PF, 0);
    b.line(LINE_ABSOLUTE, 31);
    for _ in 1..16 {
        b.line(LINE_RELATIVE, 1);
    }
    let desc = b.bytes();
    let mut state = report::initiate(&desc, &State::fresh()).state;
    let mut two = TwoAgents { states: [State::started(), no_state()], start: 5, codes: CODES };
    let (mut sheet, mut out) = (vec![UNTOUCHED; 1 << 16], vec![UNTOUCHED; 1 << 16]);
    for row in [b"aaaaaaaa", b"baaaaaaa"] {
        let answer = report::generate(&desc, &state, 0, row, &mut sheet);
        let coded = generate(&desc, &two, 0, 0, row, &mut out);
        let lines: Vec<u8> =
            sheet[..answer.count].chunks(11).flat_map(|line| [b"A1", line].concat()).collect();
        assert!(lines.len() >= 13 * 200);
        assert_eq!((coded.number, coded.count), (0, lines.len()));
        assert!(out[two.start as usize..][..lines.len()] == lines);
        (state, two) = (answer.state, coded.next);
        assert_eq!(two.states, [state.clone(), no_state()]);
    }
    assert_eq!(out[..5], [UNTOUCHED; 5]);
    assert!(out[two.start as usize..].iter().all(|&byte| byte == UNTOUCHED));
}

// ---- refusals and their order

/// All that goes into a call.
#[derive(Clone)]
struct Call {
    desc: Vec<u8>,
    two: TwoAgents,
    agent: usize,
    detail: u32,
    record: Vec<u8>,
    /// The whole common output's length.
    length: usize,
}

impl Call {
    fn state(&mut self) -> &mut State {
        &mut self.two.states[self.agent]
    }
}

type Make = fn(&Call, &mut [u8; TWO_AGENTS_BYTES], &mut [u8]) -> Answer;

/// A refusal, its extra number, and a change to a call that deserves it.
type Deserve = (u8, u32, fn(&mut Call));

const INITIATE: Make = |call, area, _| bytes::initiate(&call.desc, area, call.agent);
const GENERATE: Make =
    |call, area, out| bytes::generate(&call.desc, area, call.agent, call.detail, &call.record, out);
const TERMINATE: Make = |call, area, out| bytes::terminate(&call.desc, area, call.agent, out);

/// Makes the call on the agents' bytes, which become the next ones; gives the answer, those bytes and the output.
fn played(call: &Call, make: Make) -> (Answer, [u8; TWO_AGENTS_BYTES], Vec<u8>) {
    let (mut area, mut out) = (call.two.to_bytes(), vec![UNTOUCHED; call.length]);
    let answer = make(call, &mut area, &mut out);
    assert_eq!(area, answer.next.to_bytes());
    (answer, area, out)
}

/// The call is refused so, and every byte lent is as it was.
fn refused(call: &Call, make: Make, number: u8, extra: u32) {
    let (answer, area, out) = played(call, make);
    assert_eq!(answer, refusal(number, extra, &call.two));
    assert!(area == call.two.to_bytes(), "refusal {number} left the agents' bytes changed");
    assert!(out.iter().all(|&byte| byte == UNTOUCHED), "refusal {number} left the output changed");
}

/// The call is accepted, whichever agent makes it; each change deserves its refusal; of two refusals the earlier listed
/// is given.
fn in_this_order(call: fn(usize) -> Call, make: Make, deserve: &[Deserve]) {
    for agent in [0, 1] {
        assert_eq!(played(&call(agent), make).0.number, 0);
        for (first, &(number, extra, change)) in deserve.iter().enumerate() {
            let mut alone = call(agent);
            change(&mut alone);
            refused(&alone, make, number, extra);
            for (_, _, later) in &deserve[first + 1..] {
                let mut both = call(agent);
                later(&mut both);
                change(&mut both);
                refused(&both, make, number, extra);
            }
        }
    }
}

/// The agent in this state, the other in none.
fn agents(agent: usize, state: State, start: u64) -> TwoAgents {
    let mut two = TwoAgents { states: [no_state(), no_state()], codes: CODES, start };
    two.states[agent] = state;
    two
}

fn break_rule_7(call: &mut Call) {
    let mut b = whole_run();
    b.tables.items[0].decimals = 1;
    call.desc = b.bytes();
}

fn equal_codes(call: &mut Call) {
    call.two.codes[1] = call.two.codes[0];
}

fn code_byte_of_the_caller(call: &mut Call) {
    call.two.codes[call.agent][1] = 127;
}

fn code_byte_of_the_other(call: &mut Call) {
    call.two.codes[1 - call.agent][0] = 31;
}

fn break_the_state(call: &mut Call) {
    call.state().saved = 1000;
}

fn break_the_flags(call: &mut Call) {
    call.state().flags[7] = 2;
}

fn idle(call: &mut Call) {
    call.state().phase = IDLE;
}

fn one_byte_short(call: &mut Call) {
    call.length -= 1;
}

fn start_past_the_end(call: &mut Call) {
    call.two.start = call.length as u64 + 1;
}

fn start_far_past_the_end(call: &mut Call) {
    call.two.start = u64::MAX;
}

/// A row that turns the page, 48 bytes, from byte 100 on.
fn a_generate(agent: usize) -> Call {
    Call {
        desc: whole_run().bytes(),
        two: agents(agent, running(), 100),
        agent,
        detail: 0,
        record: b"BB+009".to_vec(),
        length: 148,
    }
}

#[test]
fn generate_is_refused_by_1_11_and_2_to_9_in_this_order() {
    in_this_order(
        a_generate,
        GENERATE,
        &[
            (1, 7, break_rule_7),
            (11, 0, equal_codes),
            (11, 0, code_byte_of_the_caller),
            (11, 0, code_byte_of_the_other),
            (2, 0, break_the_state),
            (2, 0, break_the_flags),
            (3, 0, idle),
            (4, 0, |call| call.detail = 1),
            (5, 0, |call| call.record.truncate(5)),
            (6, 1, |call| call.record[3] = b' '),
            (7, 0, |call| call.state().sums[0] = SUM_LIMIT - 8),
            (8, 0, |call| call.state().page = 999_999),
            (9, 0, one_byte_short),
            (9, 0, start_past_the_end),
            (9, 0, start_far_past_the_end),
        ],
    );
}

#[test]
fn initiate_is_refused_by_1_11_2_3_in_this_order() {
    in_this_order(
        |agent| Call { two: agents(agent, State::fresh(), u64::MAX), length: 0, ..a_generate(agent) },
        INITIATE,
        &[
            (1, 7, break_rule_7),
            (11, 0, equal_codes),
            (11, 0, code_byte_of_the_caller),
            (11, 0, code_byte_of_the_other),
            (2, 0, break_the_state),
            (2, 0, break_the_flags),
            (3, 0, |call| call.state().phase = STARTED),
        ],
    );
}

/// Two control footings: the junior one turns the page and prints 24 bytes, its sum is added to the senior's.
fn a_terminate(agent: usize) -> Call {
    let mut b = marked_page(12, 6);
    let agent_field = b.text(0, 2);
    let amount = b.number(2, 4);
    b.control(FINAL);
    b.control(agent_field);
    b.group(DE, 0);
    let junior = b.group(CF, 1);
    b.line(LINE_RELATIVE, 1);
    let senior = b.group(CF, 0);
    let added = b.counter(junior, 1);
    b.add_field(amount, 1);
    b.counter(senior, 0);
    b.add_counter(added);
    let mut state = State { line: 8, ..running() };
    state.sums[0] = 1;
    Call { desc: b.bytes(), two: agents(agent, state, 100), length: 124, ..a_generate(agent) }
}

#[test]
fn terminate_is_refused_by_1_11_2_3_7_8_9_in_this_order() {
    in_this_order(
        a_terminate,
        TERMINATE,
        &[
            (1, 7, break_rule_7),
            (11, 0, equal_codes),
            (11, 0, code_byte_of_the_caller),
            (11, 0, code_byte_of_the_other),
            (2, 0, break_the_state),
            (2, 0, break_the_flags),
            (3, 0, idle),
            (7, 0, |call| call.state().sums[1] = SUM_LIMIT),
            (8, 0, |call| call.state().page = 999_999),
            (9, 0, one_byte_short),
            (9, 0, start_past_the_end),
            (9, 0, start_far_past_the_end),
        ],
    );
}

/// Each call, accepted, of each agent.
fn each_call() -> Vec<(Call, Make)> {
    let mut calls = Vec::new();
    for agent in [0, 1] {
        calls.push((a_generate(agent), GENERATE));
        calls.push((a_terminate(agent), TERMINATE));
        calls.push((Call { two: agents(agent, State::fresh(), 100), ..a_generate(agent) }, INITIATE));
    }
    calls
}

#[test]
fn refusal_11_is_a_code_byte_outside_32_to_126() {
    for (call, make) in each_call() {
        for place in 0..4 {
            for byte in 0..=255 {
                let mut call = call.clone();
                call.two.codes[place / 2][place % 2] = byte;
                if (32..=126).contains(&byte) {
                    let (answer, _, out) = played(&call, make);
                    assert_eq!(answer.number, 0, "byte {byte} at {place}");
                    let lines = out[100..100 + answer.count].chunks(24);
                    assert!(lines.into_iter().all(|line| line[..2] == call.two.codes[call.agent]));
                    assert_eq!(answer.next.codes, call.two.codes);
                } else {
                    refused(&call, make, 11, 0);
                }
            }
        }
    }
}

#[test]
fn refusal_11_is_equal_codes() {
    for (call, make) in each_call() {
        for code in [*b"A1", *b"  ", *b"~~", *b"00"] {
            let two = TwoAgents { codes: [code, code], ..call.two.clone() };
            refused(&Call { two, ..call.clone() }, make, 11, 0);
        }
        // Codes that differ in one byte only, that are each other turned round, and blank ones.
        for codes in
            [[*b"A1", *b"A2"], [*b"A1", *b"B1"], [*b"A1", *b"1A"], [*b"  ", *b" ~"], [*b"a1", *b"A1"]]
        {
            let two = TwoAgents { codes, ..call.two.clone() };
            assert_eq!(played(&Call { two, ..call.clone() }, make).0.number, 0, "{codes:?}");
        }
    }
}

// ---- the room in the common output

/// Calls that print nothing: TERMINATE without rows, GENERATE of a detail without lines.
fn calls_without_lines(agent: usize) -> [(Call, Make); 2] {
    let terminate = Call { two: agents(agent, State::started(), 0), ..a_generate(agent) };
    let mut b = marked_page(12, 6);
    b.group(DE, 0);
    [(Call { desc: b.bytes(), ..terminate.clone() }, GENERATE), (terminate, TERMINATE)]
}

#[test]
fn a_call_without_lines_may_start_at_the_end_but_not_past_it() {
    for (call, make) in [calls_without_lines(0), calls_without_lines(1)].concat() {
        for length in [0, 1, 23, 24, 100] {
            for (start, fits) in [(0, true), (length, true), (length + 1, false), (length + 2, false)] {
                let mut call = Call { length, ..call.clone() };
                call.two.start = start as u64;
                if fits {
                    let (answer, _, out) = played(&call, make);
                    assert_eq!((answer.number, answer.count), (0, 0), "start {start} of {length}");
                    assert_eq!(answer.next.start, call.two.start);
                    assert_ne!(answer.next.states[call.agent], call.two.states[call.agent]);
                    assert!(out.iter().all(|&byte| byte == UNTOUCHED));
                } else {
                    refused(&call, make, 9, 0);
                }
            }
            for start in [1 << 31, (1 << 32) + length as u64, 1 << 63, u64::MAX - 1, u64::MAX] {
                let mut call = Call { length, ..call.clone() };
                call.two.start = start;
                refused(&call, make, 9, 0);
            }
        }
    }
}

#[test]
fn a_call_with_lines_has_the_room_behind_the_start() {
    for (call, make, bytes) in [0, 1]
        .map(|agent| (a_generate(agent), GENERATE, 48))
        .into_iter()
        .chain([(a_terminate(0), TERMINATE, 24), (a_terminate(1), TERMINATE, 24)])
    {
        for (start, length) in [(0, 48), (0, 200), (1, 49), (7, 60), (100, 148), (152, 200), (24, 72)] {
            for length in [length - 48 + bytes, length] {
                let mut call = Call { length, ..call.clone() };
                call.two.start = start as u64;
                let (answer, _, out) = played(&call, make);
                assert_eq!((answer.number, answer.count), (0, bytes), "start {start} of {length}");
                assert_eq!(answer.next.start, (start + bytes) as u64);
                // Before the start and behind the lines the output is as it was; between them every byte is written.
                let is_touched = |at: &usize| out[*at] != UNTOUCHED;
                let touched: Vec<usize> = (0..length).filter(is_touched).collect();
                assert_eq!(touched, (start..start + bytes).collect::<Vec<_>>());
            }
        }
        // Room for all lines but a byte, for one line, for the lines without their codes, for none; no room at all.
        for room in [bytes - 1, bytes - 2, bytes - 4, 24.min(bytes - 1), 22, 1, 0] {
            for start in [0, 1, 100] {
                let mut call = Call { length: start + room, ..call.clone() };
                call.two.start = start as u64;
                refused(&call, make, 9, 0);
            }
        }
    }
}

#[test]
fn initiate_is_accepted_wherever_the_start_is() {
    let desc = whole_run().bytes();
    for start in [0, 1, 100, 1 << 32, u64::MAX] {
        for agent in [0, 1] {
            // "INITIATE yields started, from any idle state."
            for state in [State::fresh(), State { phase: IDLE, page: 9, line: 4, ..State::fresh() }] {
                let two = agents(agent, state, start);
                let next = agents(agent, State::started(), start);
                assert_eq!(initiate(&desc, &two, agent), accepted(0, next));
            }
        }
    }
}

// ---- what the other does

#[test]
fn the_others_state_is_neither_asked_nor_changed() {
    let others = [State::fresh(), State::started(), running(), no_state(), State { phase: 3, ..running() }];
    for (call, make) in each_call() {
        let (wanted, _, sheet) = played(&call, make);
        for other in &others {
            let mut call = call.clone();
            call.two.states[1 - call.agent] = other.clone();
            let (answer, _, out) = played(&call, make);
            let mut next = wanted.next.clone();
            next.states[1 - call.agent] = other.clone();
            assert_eq!(answer, accepted(wanted.count, next));
            assert!(out == sheet);
        }
    }
}

#[test]
fn agents_are_told_apart_by_their_numbers_alone() {
    let desc = whole_run().bytes();
    let two = TwoAgents { states: [running(), running()], codes: CODES, start: 0 };
    let (mut first, mut second) = ([UNTOUCHED; 48], [UNTOUCHED; 48]);
    let answers = [
        generate(&desc, &two, 0, 0, b"BB+009", &mut first),
        generate(&desc, &two, 1, 0, b"BB+009", &mut second),
    ];
    assert_eq!(answers[0].next.states[0], answers[1].next.states[1]);
    assert_eq!((&answers[0].next.states[1], &answers[1].next.states[0]), (&running(), &running()));
    assert_eq!(take_apart(&first, 12, CODES[0]), take_apart(&second, 12, CODES[1]));
    assert_eq!((&first[..2], &first[24..26]), (&b"A1"[..], &b"A1"[..]));
    assert_eq!((&second[..2], &second[24..26]), (&b"B2"[..], &b"B2"[..]));
}

#[test]
fn any_bytes_may_come_in() {
    let mut rng = Rng::new(14);
    for (call, make) in each_call() {
        for at in 0..TWO_AGENTS_BYTES {
            let mut area = call.two.to_bytes();
            let any = rng.byte();
            area[at] = rng.pick(&[0, 1, 2, 3, 31, 126, 127, 128, 255, any]);
            let call = Call { two: TwoAgents::from_bytes(&area), ..call.clone() };
            let (answer, left, out) = played(&call, make);
            let other = 530 * (1 - call.agent)..530 * (2 - call.agent);
            assert!(left[other.clone()] == area[other] && left[1060..1064] == area[1060..1064]);
            if answer.number != 0 {
                assert_eq!(answer.count, 0);
                assert!(left == area && out.iter().all(|&byte| byte == UNTOUCHED), "byte {at}");
            }
        }
    }
}

// ---- taken apart

#[test]
fn lines_are_taken_apart_by_the_two_bytes_in_front() {
    // The text begins with the other's code; the page number begins with a code.
    let file = b"A1000001003B2\nB2000001003A1\n00000001004A1\nA1000002003A1\n";
    let sheet = |code: &[u8; 2]| String::from_utf8(take_apart(file, 2, *code)).unwrap();
    assert_eq!(sheet(b"A1"), "000001003B2\n000002003A1\n");
    assert_eq!(sheet(b"B2"), "000001003A1\n");
    assert_eq!(sheet(b"00"), "000001004A1\n");
    for none in [b"1A", b"A2", b"B1", b"a1", b"\n0"] {
        assert_eq!(sheet(none), "");
    }
}

#[test]
fn what_stands_behind_the_last_whole_record_is_no_line() {
    let file = sheet_bytes(COMMON_FILE);
    let last = sheet_bytes(WHOLE_RUN_SHEET);
    for length in 0..file.len() {
        let whole = length - length % 24;
        for code in CODES {
            assert_eq!(take_apart(&file[..length], 12, code), take_apart(&file[..whole], 12, code));
        }
    }
    assert_eq!(take_apart(&file[..335], 12, CODES[0]), last[..154]);
    assert_eq!(take_apart(&[&file[..], b"A1"].concat(), 12, CODES[0]), last);
    assert_eq!(take_apart(&file, usize::MAX, CODES[0]), b"");
    assert_eq!(take_apart(b"", 12, CODES[0]), b"");
}

// ---- by chance

#[test]
fn random_interleavings_print_what_each_agent_prints_alone() {
    let run = Interleaved::run(13, 12_000);
    assert_eq!(run.wrong, Vec::<String>::new());
    assert!(run.calls >= 12_000 && run.lines >= 10_000, "{} calls, {} lines", run.calls, run.lines);
    let never: Vec<_> = run.reached.iter().filter(|(_, &times)| times == 0).collect();
    assert!(never.is_empty(), "{never:?}");
}
