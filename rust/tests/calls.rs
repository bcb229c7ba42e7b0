//! The wrapper: the examples printed through it, and refused calls, which leave state and output as they were.

use std::fs;
use std::path::Path;

use bailcurlew::{check, Answer, State, STATE_BYTES};

fn example(name: &str) -> Vec<u8> {
    fs::read(Path::new(env!("CARGO_MANIFEST_DIR")).join("../examples").join(name)).expect("an example")
}

fn refused(number: u64, extra: u64) -> Answer {
    Answer { number, extra, count: 0 }
}

#[test]
fn prints_the_examples() {
    for (name, length) in [("whole_run", 6), ("day_sheet", 67), ("pictures", 38)] {
        let [description, rows, wanted] =
            ["desc", "rows", "sheet"].map(|kind| example(&format!("{name}.{kind}")));
        let at = description.len() - 4;
        assert_eq!([description[at], description[at + 1]], [length, 0], "{name}: R");
        let mut sheet = vec![0; wanted.len()];
        let mut state = State::fresh();
        assert_eq!(check(&description), 0);
        assert!(state.initiate(&description).accepted());
        let mut end = 0;
        for row in rows.chunks(length.into()) {
            let answer = state.generate(&description, 0, row, &mut sheet[end..]);
            assert!(answer.accepted(), "{name}: {answer:?}");
            end += answer.count;
        }
        let answer = state.terminate(&description, &mut sheet[end..]);
        assert!(answer.accepted());
        assert_eq!(end + answer.count, wanted.len());
        assert!(sheet == wanted, "{name}");
    }
}

/// Refusal 1 comes before 2; a call with empty slices is refused like any other.
#[test]
fn refusals_leave_all_as_it_was() {
    let description = example("whole_run.desc");
    let none = State::from_bytes([0xff; STATE_BYTES]);
    let mut state = none.clone();
    let mut output = [7; 40];
    assert_eq!(check(&[]), 1);
    assert_eq!(state.initiate(&[]), refused(1, 1));
    assert_eq!(state.initiate(&description), refused(2, 0));
    assert_eq!(state.generate(&[], 0, &[], &mut []), refused(1, 1));
    assert_eq!(state.generate(&description, 0, b"AA+005", &mut output), refused(2, 0));
    assert_eq!(state.terminate(&description, &mut output), refused(2, 0));
    assert_eq!(state, none);
    assert_eq!(output, [7; 40]);

    let mut state = State::fresh();
    assert_eq!(state.terminate(&description, &mut output), refused(3, 0));
    assert!(state.initiate(&description).accepted());
    let started = state.clone();
    assert_eq!(state.initiate(&description), refused(3, 0));
    assert_eq!(state.generate(&description, 1, b"AA+005", &mut output), refused(4, 0));
    assert_eq!(state.generate(&description, 0, &[], &mut output), refused(5, 0));
    assert_eq!(state.generate(&description, 0, b"AA*005", &mut output), refused(6, 1));
    assert_eq!(state.generate(&description, 0, b"AA+005", &mut []), refused(9, 0));
    assert_eq!(state, started);
    assert_eq!(output, [7; 40]);
    assert_eq!(state.terminate(&description, &mut []), Answer { number: 0, extra: 0, count: 0 });
}
