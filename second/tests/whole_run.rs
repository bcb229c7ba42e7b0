//! "A whole run" of document 01, byte for byte.

mod common;

use common::{sheet_bytes, whole_run, Run, WHOLE_RUN_ROWS, WHOLE_RUN_SHEET};
use second::state::{State, IDLE};

#[test]
fn the_whole_run_prints_176_bytes() {
    let mut run = Run::begin(&whole_run().bytes());
    for row in WHOLE_RUN_ROWS {
        run.generate(0, row);
    }
    run.terminate();
    assert_eq!(run.dots(), WHOLE_RUN_SHEET);
    assert_eq!(run.sheet, sheet_bytes(WHOLE_RUN_SHEET));
    assert_eq!(run.sheet.len(), 176);
}

#[test]
fn each_call_leaves_its_state() {
    let mut run = Run::begin(&whole_run().bytes());
    // (row, page, line, sum, flag) after each GENERATE
    let after = [(1, 3, 5, 0), (1, 4, 12, 0), (1, 6, -2, 0), (2, 3, 7, 0)];
    for (row, (page, line, sum, flag)) in WHOLE_RUN_ROWS.into_iter().zip(after) {
        run.generate(0, row);
        let state = &run.state;
        assert_eq!((state.page, state.line, state.sums[0], state.flags[0]), (page, line, sum, flag));
        assert_eq!((state.seen, state.saved), (1, 0));
    }
    // Without a break the kept record stays the older one.
    assert_eq!(&run.state.kept[..7], b"BB-002\0");
    run.terminate();
    // "TERMINATE: idle after, the rest as these steps leave it." The one control is no FINAL: the sum is reset.
    let mut left = State { phase: IDLE, page: 2, line: 4, seen: 1, ..State::fresh() };
    left.keep(b"BB-002");
    assert_eq!(run.state, left);
}
