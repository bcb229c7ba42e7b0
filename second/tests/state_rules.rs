//! The rules of the state, from both sides, and its bytes.

mod common;

use common::marked_page;
use second::description::*;
use second::report::initiate;
use second::state::{State, IDLE, RUNNING, STARTED, SUM_LIMIT};

/// P 10, H 1, FD 3, LD 6, FT 8; two details, two counters; R 7 with its last byte in no field.
fn description() -> Vec<u8> {
    let mut b = marked_page(12, 7);
    let agent = b.text(0, 2);
    let amount = b.number(2, 4);
    b.control(agent);
    b.group(DE, 0);
    b.group(DE, 0);
    let cf = b.group(CF, 0);
    for detail in 0..2 {
        b.counter(cf, 0);
        b.add_field(amount, 1 << detail);
    }
    b.bytes()
}

/// A running state that keeps the rules, with a saved integer.
fn running() -> State {
    let mut state = State { phase: RUNNING, page: 7, line: 8, seen: 1, saved: 5, ..State::fresh() };
    state.keep(b"AA+001 ");
    state
}

/// Started, as INITIATE leaves it.
fn started() -> State {
    State { phase: STARTED, ..State::fresh() }
}

/// An idle state with every number at its greatest.
fn idle() -> State {
    State {
        phase: IDLE,
        page: 999_999,
        line: 10,
        seen: 1,
        saved: 999,
        sums: [SUM_LIMIT; 32],
        flags: [1; 8],
        kept: [255; 256],
    }
}

/// Whether the state keeps its rules: INITIATE refuses with 2 when it does not.
fn keeps_rules(state: &State) -> bool {
    let answer = initiate(&description(), state);
    assert_eq!(answer.extra, 0);
    answer.number != 2
}

/// What is changed, a change that keeps the rules, and one that breaks them.
type Edge = (&'static str, fn(&mut State), fn(&mut State));

fn run(start: fn() -> State, edges: &[Edge]) {
    for (what, keeps, breaks) in edges {
        let mut state = start();
        keeps(&mut state);
        assert!(keeps_rules(&state), "kept side of: {what}");
        let mut state = start();
        breaks(&mut state);
        assert!(!keeps_rules(&state), "broken side of: {what}");
    }
}

fn same(_: &mut State) {}

#[test]
fn phases() {
    for phase in 0..=255 {
        assert_eq!(keeps_rules(&State { phase, ..State::fresh() }), phase <= 1, "phase {phase}");
    }
    assert!(keeps_rules(&running()));
}

#[test]
fn idle_asks_only_the_ranges() {
    run(
        idle,
        &[
            ("page from 1", |s| s.page = 1, |s| s.page = 0),
            ("page to 999,999", same, |s| s.page = 1_000_000),
            ("line from 0", |s| s.line = 0, |s| s.line = 11),
            ("seen", |s| s.seen = 0, |s| s.seen = 2),
            ("saved to 999", |s| s.saved = 0, |s| s.saved = 1000),
            ("first sum", |s| s.sums[0] = -SUM_LIMIT, |s| s.sums[0] = -SUM_LIMIT - 1),
            ("last sum", |s| s.sums[31] = SUM_LIMIT, |s| s.sums[31] = SUM_LIMIT + 1),
            ("least sum of all", same, |s| s.sums[9] = i64::MIN),
            ("first flag", |s| s.flags[0] = 0, |s| s.flags[0] = 2),
            ("last flag", |s| s.flags[7] = 0, |s| s.flags[7] = 255),
        ],
    );
}

#[test]
fn started_is_fresh_but_for_the_phase() {
    run(
        started,
        &[
            ("page", same, |s| s.page = 2),
            ("line", same, |s| s.line = 1),
            ("seen", same, |s| s.seen = 1),
            ("saved", same, |s| s.saved = 3),
            ("first sum", same, |s| s.sums[0] = 1),
            ("last sum", same, |s| s.sums[31] = -1),
            ("first flag", same, |s| s.flags[0] = 1),
            ("last flag", same, |s| s.flags[7] = 1),
            ("first kept byte", same, |s| s.kept[0] = 32),
            ("last kept byte", same, |s| s.kept[255] = 1),
        ],
    );
}

fn place(s: &mut State, line: u16, seen: u8, saved: u16) {
    (s.line, s.seen, s.saved) = (line, seen, saved);
}

#[test]
fn running_has_its_own_rules() {
    run(
        running,
        &[
            ("page from 1", |s| s.page = 1, |s| s.page = 0),
            ("page to 999,999", |s| s.page = 999_999, |s| s.page = 1_000_000),
            ("seen", same, |s| s.seen = 2),
            ("line from FD when seen", |s| place(s, 3, 1, 0), |s| place(s, 2, 1, 0)),
            ("line to FT when seen", |s| place(s, 8, 1, 0), |s| place(s, 9, 1, 0)),
            ("line from 0 when not seen", |s| place(s, 0, 0, 0), |s| place(s, 8, 0, 0)),
            ("line below FD when not seen", |s| place(s, 2, 0, 0), |s| place(s, 3, 0, 0)),
            ("saved from FD", |s| s.saved = 3, |s| s.saved = 2),
            ("saved to FT", |s| s.saved = 8, |s| s.saved = 9),
            ("saved with line FT", same, |s| s.line = 7),
            ("saved with seen", same, |s| place(s, 2, 0, 5)),
            ("first sum to the limit", |s| s.sums[0] = SUM_LIMIT, |s| s.sums[0] = SUM_LIMIT + 1),
            ("last sum to the limit", |s| s.sums[1] = -SUM_LIMIT, |s| s.sums[1] = -SUM_LIMIT - 1),
            ("sums beyond the description's", |s| s.sums[1] = 1, |s| s.sums[2] = 1),
            ("flags beyond the description's", |s| s.flags[1] = 1, |s| s.flags[2] = 1),
            ("flags 0 or 1", |s| s.flags[0] = 1, |s| s.flags[0] = 2),
            ("text from 32", |s| s.kept[0] = 32, |s| s.kept[0] = 31),
            ("text to 126", |s| s.kept[1] = 126, |s| s.kept[1] = 127),
            ("sign", |s| s.kept[2] = b'-', |s| s.kept[2] = b'0'),
            // "take blank as plus in every number field", of the kept record too.
            ("blank for a plus", |s| s.kept[2] = b' ', |s| s.kept[2] = b'\t'),
            ("one blank", |s| s.keep(b"AA 001 "), |s| s.keep(b"AA  01 ")),
            ("blank and digits", |s| s.keep(b"AA 000 "), |s| s.keep(b"AA    ")),
            ("no sign behind a blank", |s| s.keep(b"AA 999 "), |s| s.keep(b"AA +01 ")),
            ("no blank behind a sign", |s| s.keep(b"AA-001 "), |s| s.keep(b"AA- 01 ")),
            ("no blank behind digits", |s| s.keep(b"AA+001 "), |s| s.keep(b"AA+01  ")),
            ("digits from 0", |s| s.kept[3] = b'0', |s| s.kept[3] = b'/'),
            ("digits to 9", |s| s.kept[5] = b'9', |s| s.kept[5] = b':'),
            ("bytes in no field, then zeros", |s| s.kept[6] = 255, |s| s.kept[7] = 32),
            ("zeros to the end", same, |s| s.kept[255] = 1),
        ],
    );
}

#[test]
fn bytes_have_their_layout() {
    let mut state = State {
        phase: 2,
        page: 0x0403_0201,
        line: 0x0605,
        seen: 10,
        saved: 0x0807,
        flags: [11, 12, 13, 14, 15, 16, 17, 18],
        ..State::fresh()
    };
    state.sums[0] = -2;
    state.sums[31] = 0x0102_0304_0506_0708;
    state.kept[0] = 99;
    state.kept[255] = 100;
    let bytes = state.to_bytes();
    assert_eq!(bytes.len(), 530);
    assert_eq!(bytes[..18], [1, 2, 3, 4, 5, 6, 7, 8, 2, 10, 11, 12, 13, 14, 15, 16, 17, 18]);
    assert_eq!(bytes[18..26], [254, 255, 255, 255, 255, 255, 255, 255]);
    assert_eq!(bytes[266..274], [8, 7, 6, 5, 4, 3, 2, 1]);
    assert_eq!((bytes[274], bytes[529]), (99, 100));
    assert_eq!(State::from_bytes(&bytes), state);
    let any: [u8; 530] = std::array::from_fn(|i| (i * 37 % 251) as u8);
    assert_eq!(State::from_bytes(&any).to_bytes(), any);
}
