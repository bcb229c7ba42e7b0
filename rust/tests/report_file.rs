//! The wrapper's report file: the examples by two agents, its bytes, what refusals leave, and the example program.

use std::fs;
use std::path::{Path, PathBuf};
use std::process::{Command, Output};

use bailcurlew::{Agent, Answer, ReportFile, State, REPORT_FILE_BYTES, STATE_BYTES};

const AGENTS: [Agent; 2] = [Agent::First, Agent::Second];
const CODES: [[u8; 2]; 2] = [*b"NO", *b"SO"];

fn example(name: &str) -> PathBuf {
    Path::new(env!("CARGO_MANIFEST_DIR")).join("../examples").join(name)
}

fn read(name: &str) -> Vec<u8> {
    fs::read(example(name)).expect("an example")
}

/// R stands last but one in the trailer.
fn record_length(description: &[u8]) -> usize {
    let at = description.len() - 4;
    usize::from(u16::from_le_bytes([description[at], description[at + 1]]))
}

fn refused(number: u64, extra: u64) -> Answer {
    Answer { number, extra, count: 0 }
}

fn accepted(count: usize) -> Answer {
    Answer { number: 0, extra: 0, count }
}

fn fresh() -> ReportFile {
    ReportFile::fresh(CODES[0], CODES[1])
}

/// A report file after both INITIATEs.
fn begun(description: &[u8]) -> ReportFile {
    let mut file = fresh();
    AGENTS.iter().for_each(|&agent| assert_eq!(file.initiate(description, agent), accepted(0)));
    file
}

/// The lines of a sheet, by its first line end.
fn lines(sheet: &[u8]) -> std::slice::Chunks<'_, u8> {
    let end = sheet.iter().position(|&byte| byte == b'\n').expect("a line");
    sheet.chunks(end + 1)
}

/// The lines that carry a code, with the code taken off.
fn with_code(file: &[u8], code: [u8; 2]) -> Vec<u8> {
    lines(file).filter_map(|line| line.strip_prefix(&code)).flatten().copied().collect()
}

// ---- the calls

/// Both agents print the example, in turn, one behind the other, or the second three rows ahead: each one's lines are the
/// example's sheet.
#[test]
fn prints_the_examples_for_both() {
    for name in ["whole_run", "day_sheet", "pictures"] {
        let [description, rows, wanted] =
            ["desc", "rows", "sheet"].map(|kind| read(&format!("{name}.{kind}")));
        let rows: Vec<&[u8]> = rows.chunks(record_length(&description)).collect();
        let coded_length = wanted.len() + 2 * lines(&wanted).count();
        for lead in [0, 3, rows.len()] {
            let mut output = vec![0; 2 * coded_length];
            let mut file = begun(&description);
            let mut print = |agent: Agent, at: usize| match rows.get(at) {
                Some(row) => assert!(file.generate(&description, agent, 0, row, &mut output).accepted()),
                None if at == rows.len() => {
                    assert!(file.terminate(&description, agent, &mut output).accepted())
                }
                None => {}
            };
            (0..lead).for_each(|at| print(Agent::Second, at));
            for at in 0..=rows.len() {
                print(Agent::First, at);
                print(Agent::Second, at + lead);
            }
            assert_eq!(file.place(), output.len() as u64, "{name}, {lead} rows ahead");
            for code in CODES {
                assert!(with_code(&output, code) == wanted, "{name}, {lead} rows ahead");
            }
        }
    }
}

#[test]
fn bytes_have_their_layout() {
    let file = fresh();
    assert_eq!(&file.as_bytes()[..STATE_BYTES], State::fresh().as_bytes());
    assert_eq!(&file.as_bytes()[STATE_BYTES..2 * STATE_BYTES], State::fresh().as_bytes());
    assert_eq!(&file.as_bytes()[1060..], b"NOSO\0\0\0\0\0\0\0\0");
    assert_eq!(ReportFile::fresh([0, 255], [0, 255]).as_bytes()[1060..1064], [0, 255, 0, 255]);

    let description = read("whole_run.desc");
    let mut file = begun(&description);
    let mut output = [7; 400];
    assert_eq!(file.generate(&description, Agent::Second, 0, b"AA+005", &mut output), accepted(48));
    assert_eq!(&output[..12], b"SO000001001P");
    assert_eq!((output[47], output[48]), (b'\n', 7));
    assert_eq!(file.as_bytes()[1064..], [48, 0, 0, 0, 0, 0, 0, 0]);
    let mut state = State::fresh();
    assert!(state.initiate(&description).accepted());
    assert_eq!(&file.as_bytes()[..STATE_BYTES], state.as_bytes());
    assert!(state.generate(&description, 0, b"AA+005", &mut [0; 44]).accepted());
    assert_eq!(&file.as_bytes()[STATE_BYTES..2 * STATE_BYTES], state.as_bytes());

    // A place goes on from whatever it is, in an output that is long enough.
    let mut bytes = *file.as_bytes();
    bytes[1064..].copy_from_slice(&[1, 1, 0, 0, 0, 0, 0, 0]);
    let mut stored = ReportFile::from_bytes(bytes);
    assert_eq!(stored.generate(&description, Agent::First, 0, b"AA+005", &mut output), accepted(48));
    assert_eq!((output[256], &output[257..269], output[305]), (7, &b"NO000001001P"[..], 7));
    assert_eq!((stored.place(), stored.as_bytes()[1064..1066].to_vec()), (305, vec![49, 1]));
}

/// Each refusal; the report file and the output stay as they were.
#[test]
fn refusals_leave_all_as_it_was() {
    let description = read("whole_run.desc");
    let mut output = [7; 100];
    let none = ReportFile::from_bytes([0xff; REPORT_FILE_BYTES]);
    let mut file = none.clone();
    for (description, refusal) in [(&[][..], refused(1, 1)), (&description, refused(11, 0))] {
        for agent in AGENTS {
            assert_eq!(file.initiate(description, agent), refusal);
            assert_eq!(file.generate(description, agent, 9, b"", &mut output), refusal);
            assert_eq!(file.terminate(description, agent, &mut output), refusal);
        }
    }
    assert_eq!(file, none);
    let codes = [[*b"AA", *b"AA"], [*b"A\x1f", *b"AB"], [*b"AA", *b"\x7fB"]];
    for [first, second] in codes {
        let mut file = ReportFile::fresh(first, second);
        AGENTS.iter().for_each(|&agent| assert_eq!(file.initiate(&description, agent), refused(11, 0)));
    }
    for [first, second] in [[*b"A~", *b"AA"], [*b"  ", *b" ~"], [*b"AB", *b"BA"]] {
        let mut file = ReportFile::fresh(first, second);
        AGENTS.iter().for_each(|&agent| assert_eq!(file.initiate(&description, agent), accepted(0)));
    }

    let mut file = fresh();
    for agent in AGENTS {
        assert_eq!(file.generate(&description, agent, 0, b"AA+005", &mut output), refused(3, 0));
        assert_eq!(file.terminate(&description, agent, &mut output), refused(3, 0));
    }
    assert_eq!(file, fresh());

    let mut file = begun(&description);
    for agent in AGENTS {
        let mut generate = |detail, row: &[u8], room: usize| {
            file.generate(&description, agent, detail, row, &mut output[..room])
        };
        assert_eq!(generate(1, b"AA+005", 100), refused(4, 0));
        assert_eq!(generate(0, b"AA+00", 100), refused(5, 0));
        assert_eq!(generate(0, b"AA+0x5", 100), refused(6, 1));
        assert_eq!(generate(0, b"AA+005", 47), refused(9, 0));
        assert_eq!(file.initiate(&description, agent), refused(3, 0));
    }
    assert_eq!(file, begun(&description));
    assert_eq!(output, [7; 100]);
}

/// A bad state of the other agent refuses nothing, and stays as it was.
#[test]
fn an_agent_goes_by_its_own_state() {
    let description = read("whole_run.desc");
    let [rows, wanted] = ["rows", "sheet"].map(|kind| read(&format!("whole_run.{kind}")));
    for (agent, code, others) in
        [(Agent::First, CODES[0], STATE_BYTES..2 * STATE_BYTES), (Agent::Second, CODES[1], 0..STATE_BYTES)]
    {
        let mut bytes = *fresh().as_bytes();
        bytes[others.clone()].fill(0xff);
        let mut file = ReportFile::from_bytes(bytes);
        let mut output = [0; 192];
        assert!(file.initiate(&description, agent).accepted());
        for row in rows.chunks(6) {
            assert!(file.generate(&description, agent, 0, row, &mut output).accepted());
        }
        assert_eq!(file.terminate(&description, agent, &mut output), accepted(24));
        assert_eq!(with_code(&output, code), wanted);
        assert!(file.as_bytes()[others].iter().all(|&byte| byte == 0xff));
    }
}

/// A call that prints nothing is accepted with the place at the output's end, and refused with 9 past it; INITIATE is lent no
/// output.
#[test]
fn a_place_past_the_end_is_refused() {
    let description = read("whole_run.desc");
    for (place, room, wanted) in [
        (0u64, 0, accepted(0)),
        (3, 3, accepted(0)),
        (4, 3, refused(9, 0)),
        (u64::MAX, 3, refused(9, 0)),
        (1 << 32, 3, refused(9, 0)),
    ] {
        let mut bytes = *begun(&description).as_bytes();
        bytes[1064..].copy_from_slice(&place.to_le_bytes());
        let mut file = ReportFile::from_bytes(bytes);
        let mut output = [7; 3];
        assert_eq!(file.terminate(&description, Agent::First, &mut output[..room]), wanted, "{place}");
        assert_eq!(file.generate(&description, Agent::Second, 0, b"AA+0", &mut output), refused(5, 0));
        assert_eq!(file.generate(&description, Agent::Second, 0, b"AA+005", &mut output), refused(9, 0));
        assert_eq!((file.place(), output), (place, [7; 3]));

        bytes[STATE_BYTES..2 * STATE_BYTES].copy_from_slice(State::fresh().as_bytes());
        let mut file = ReportFile::from_bytes(bytes);
        assert_eq!(file.initiate(&description, Agent::Second), accepted(0), "{place}");
    }
}

// ---- the example program

/// `cargo test` builds the examples beside the tests; `cargo test --test report_file` alone does not.
fn program() -> Command {
    let mut path = std::env::current_exe().expect("the test's own path");
    path.pop();
    path.pop();
    let program = path.join("examples/report_file");
    assert!(
        program.exists(),
        "{program:?}: build it with cargo build --example report_file, with --release as the test"
    );
    Command::new(program)
}

fn printed(description: &str, codes: [&str; 2], rows: [&str; 2]) -> Output {
    let mut command = program();
    command.arg(example(description));
    codes.iter().zip(rows).for_each(|(code, rows)| drop(command.arg(code).arg(example(rows))));
    command.output().expect("the example program")
}

#[test]
fn the_program_prints_two_sheets_in_one() {
    for name in ["whole_run", "day_sheet", "pictures"] {
        let rows = format!("{name}.rows");
        let output = printed(&format!("{name}.desc"), ["NO", "SO"], [&rows, &rows]);
        assert_eq!((output.status.code(), output.stderr), (Some(0), Vec::new()));
        let sheet = read(&format!("{name}.sheet"));
        CODES.iter().for_each(|&code| assert!(with_code(&output.stdout, code) == sheet, "{name}"));
        assert_eq!(output.stdout.len(), 2 * (sheet.len() + 2 * lines(&sheet).count()));
    }
    // The turns are by rows: both agents' first pages begin before either's second row.
    let output = printed("whole_run.desc", ["NO", "SO"], ["whole_run.rows", "whole_run.rows"]);
    let codes: Vec<&[u8]> = output.stdout.chunks(24).map(|line| &line[..2]).collect();
    assert_eq!(codes.concat(), b"NONOSOSONOSONONOSOSONONOSOSONOSO");
}

#[test]
fn the_program_says_what_is_refused() {
    let ends = |output: Output, code: i32, message: &str| {
        let told = String::from_utf8_lossy(&output.stderr).into_owned();
        assert_eq!((output.status.code(), told.as_str(), output.stdout.len()), (Some(code), message, 0));
    };
    let rows = ["whole_run.rows", "whole_run.rows"];
    let codes = "report_file: First agent, INITIATE: the codes are equal, or not of characters 32 to 126\n";
    ends(printed("whole_run.desc", ["NO", "NO"], rows), 1, codes);
    let length = "report_file: a code has two characters, not \"NOR\"\n";
    ends(printed("whole_run.desc", ["NO", "NOR"], rows), 1, length);
    let broken = "report_file: First agent, INITIATE: the description breaks rule 1\n";
    ends(printed("whole_run.rows", ["NO", "SO"], rows), 1, broken);
    let malformed = "report_file: Second agent, row 1: field 0, counted from 0, is malformed\n";
    ends(printed("whole_run.desc", ["NO", "SO"], ["whole_run.rows", "whole_run.desc"]), 1, malformed);
    let usage = "usage: report_file DESCRIPTION CODE RECORDS CODE RECORDS\n";
    ends(program().output().expect("the example program"), 2, usage);
}
