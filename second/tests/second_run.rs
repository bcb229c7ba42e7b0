//! The second run, beside document 01's own: two reports, a page turned by a footing, a call refused by 9 and repeated.
//! `crates/whole_run/specs/Second.antt` has the same description, calls and sheet.

use second::report::{generate, initiate, terminate};
use second::state::State;

const DESCRIPTION: &[u8] = include_bytes!("../../examples/two_reports.desc");
const SHEET: &[u8] = include_bytes!("../../examples/two_reports.sheet");

enum Call {
    Initiate,
    Generate(&'static [u8; 4]),
    Terminate,
}

#[test]
fn two_reports_with_a_refused_call_print_the_sheet() {
    // each call with the room of its output and the number it answers
    let calls = [
        (Call::Initiate, 0, 0),
        (Call::Generate(b"A+05"), 136, 0),
        (Call::Generate(b"A+07"), 136, 0),
        (Call::Generate(b"B-12"), 135, 9),
        (Call::Generate(b"B-12"), 136, 0),
        (Call::Terminate, 136, 0),
        (Call::Initiate, 0, 0),
        (Call::Generate(b"C+99"), 136, 0),
        (Call::Terminate, 136, 0),
    ];
    let mut state = State::fresh();
    let mut sheet: Vec<u8> = Vec::new();
    for (call, room, number) in calls {
        let mut out = vec![0u8; room];
        let answer = match call {
            Call::Initiate => initiate(DESCRIPTION, &state),
            Call::Generate(row) => generate(DESCRIPTION, &state, 0, row, &mut out),
            Call::Terminate => terminate(DESCRIPTION, &state, &mut out),
        };
        assert_eq!(answer.number, number);
        sheet.extend(&out[..answer.count]);
        state = answer.state;
    }
    assert_eq!(sheet, SHEET);
}
