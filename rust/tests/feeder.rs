//! The wrapper's feeder: the examples in pieces, its bytes, what refusals leave, and the example program.

use std::fs;
use std::io::{Read, Write};
use std::path::{Path, PathBuf};
use std::process::{Command, Output, Stdio};

use bailcurlew::{Fed, Feeder, State, FEEDER_BYTES, LONGEST_CHUNK, STATE_BYTES};

fn example(name: &str) -> PathBuf {
    Path::new(env!("CARGO_MANIFEST_DIR")).join("../examples").join(name)
}

fn read(name: &str) -> Vec<u8> {
    fs::read(example(name)).expect("an example")
}

fn refused(number: u64, extra: u64) -> Fed {
    Fed { number, extra, count: 0, taken: 0 }
}

fn accepted(count: usize, taken: usize) -> Fed {
    Fed { number: 0, extra: 0, count, taken }
}

/// A feeder of the whole run after INITIATE.
fn begun(description: &[u8]) -> Feeder {
    let mut feeder = Feeder::fresh(0);
    assert_eq!(feeder.initiate(description), accepted(0, 0));
    feeder
}

// ---- the calls

#[test]
fn prints_the_examples_from_pieces_of_any_size() {
    for name in ["whole_run", "day_sheet", "pictures"] {
        let [description, rows, wanted] =
            ["desc", "rows", "sheet"].map(|kind| read(&format!("{name}.{kind}")));
        for size in [1, 5, 6, 7, 66, 67, 68, 1000, LONGEST_CHUNK] {
            let mut sheet = vec![0; wanted.len()];
            let mut feeder = begun(&description);
            let mut end = 0;
            for piece in rows.chunks(size) {
                let fed = feeder.feed(&description, piece, &mut sheet[end..]);
                assert_eq!((fed.number, fed.taken), (0, piece.len()), "{name}, pieces of {size}");
                end += fed.count;
            }
            let ended = feeder.terminate(&description, &mut sheet[end..]);
            assert_eq!(ended, accepted(wanted.len() - end, 0), "{name}, pieces of {size}");
            assert!(sheet == wanted, "{name}, pieces of {size}");
        }
    }
}

#[test]
fn bytes_have_their_layout() {
    let detail = 0x0807_0605_0403_0201;
    let fresh = Feeder::fresh(detail);
    assert_eq!(&fresh.as_bytes()[..STATE_BYTES], State::fresh().as_bytes());
    assert_eq!(fresh.as_bytes()[530..538], [1, 2, 3, 4, 5, 6, 7, 8]);
    assert_eq!(fresh.as_bytes()[538..], [0; 258]);

    let description = read("whole_run.desc");
    let mut feeder = begun(&description);
    assert_eq!(feeder.feed(&description, b"AA+0", &mut []), accepted(0, 4));
    assert_eq!(feeder.as_bytes()[538..545], [4, 0, b'A', b'A', b'+', b'0', 0]);
    let mut stored = Feeder::from_bytes(*feeder.as_bytes());
    assert_eq!(stored, feeder);
    assert_eq!(stored.feed(&description, b"05", &mut [0; 44]), accepted(44, 2));
    let mut state = State::fresh();
    assert!(state.initiate(&description).accepted());
    assert!(state.generate(&description, 0, b"AA+005", &mut [0; 44]).accepted());
    assert_eq!(&stored.as_bytes()[..STATE_BYTES], state.as_bytes());
}

/// Each refusal that takes nothing; the feeder and the output stay as they were.
#[test]
fn refusals_leave_all_as_it_was() {
    let description = read("whole_run.desc");
    let mut output = [7; 100];
    let none = Feeder::from_bytes([0xff; FEEDER_BYTES]);
    let mut feeder = none.clone();
    assert_eq!(feeder.feed(&[], &[], &mut []), refused(18, 0));
    assert_eq!(feeder.feed(&description, &[b' '; LONGEST_CHUNK + 1], &mut output), refused(18, 0));
    assert_eq!(feeder.feed(&[], b"A", &mut output), refused(1, 1));
    assert_eq!(feeder.initiate(&[]), refused(1, 1));
    assert_eq!(feeder.terminate(&[], &mut output), refused(1, 1));
    assert_eq!(feeder.feed(&description, b"A", &mut output), refused(2, 0));
    assert_eq!(feeder.initiate(&description), refused(2, 0));
    assert_eq!(feeder.terminate(&description, &mut output), refused(2, 0));
    assert_eq!(feeder, none);

    let mut feeder = Feeder::fresh(0);
    assert_eq!(feeder.feed(&description, b"A", &mut output), refused(3, 0));
    assert_eq!(feeder.terminate(&description, &mut output), refused(3, 0));
    assert_eq!(feeder, Feeder::fresh(0));

    let mut other = Feeder::fresh(1);
    assert!(other.initiate(&description).accepted());
    assert_eq!(other.feed(&description, b"A", &mut output), refused(4, 0));

    let mut feeder = begun(&description);
    assert_eq!(feeder.initiate(&description), refused(3, 0));
    assert_eq!(feeder.feed(&description, b"AA+", &mut output), accepted(0, 3));
    let holding = feeder.clone();
    assert_eq!(feeder.terminate(&description, &mut output), refused(10, 3));
    assert_eq!(feeder.feed(&description, b"0x5AA", &mut output), refused(6, 1));
    assert_eq!(feeder.feed(&description, b"005", &mut output[..43]), refused(9, 0));
    assert_eq!(feeder, holding);
    assert_eq!(output, [7; 100]);

    feeder.discard();
    assert_eq!(feeder, begun(&description));
    assert_eq!(feeder.terminate(&description, &mut []), accepted(0, 0));
}

/// The rows before a refused one stand; the bytes not taken are fed again.
#[test]
fn a_refused_row_stops_the_chunk() {
    let description = read("whole_run.desc");
    let mut output = [7; 100];
    let mut feeder = begun(&description);
    let chunk = b"AA+005AA+006AA";
    let fed = feeder.feed(&description, chunk, &mut output[..65]);
    assert_eq!(fed, Fed { number: 9, extra: 0, count: 44, taken: 6 });
    assert_eq!(output[44..], [7; 56]);
    let fed = feeder.feed(&description, &chunk[fed.taken..], &mut output[44..]);
    assert_eq!(fed, accepted(22, 8));
    assert_eq!(output[66..], [7; 34]);

    let mut at_once = begun(&description);
    let mut other = [7; 100];
    assert_eq!(at_once.feed(&description, chunk, &mut other), accepted(66, 14));
    assert_eq!((at_once, other), (feeder, output));
}

// ---- the example program

/// `cargo test` builds the examples beside the tests; `cargo test --test feeder` alone does not.
fn program() -> PathBuf {
    let mut path = std::env::current_exe().expect("the test's own path");
    path.pop();
    path.pop();
    let program = path.join("examples/feed");
    assert!(
        program.exists(),
        "{program:?}: build it with cargo build --example feed, with --release as the test"
    );
    program
}

fn fed_to_the_program(description: &Path, pieces: &[&[u8]]) -> Output {
    let mut command = Command::new(program());
    command.arg(description).stdin(Stdio::piped()).stdout(Stdio::piped()).stderr(Stdio::piped());
    let mut child = command.spawn().expect("the example program");
    let mut input = child.stdin.take().expect("a pipe");
    // It may have ended before: what it says then is looked at.
    let _ = pieces.iter().try_for_each(|piece| input.write_all(piece));
    drop(input);
    child.wait_with_output().expect("its end")
}

fn ends_with(output: &Output, code: i32, message: &str, lines: &[u8]) {
    assert_eq!(output.status.code(), Some(code));
    assert_eq!(String::from_utf8_lossy(&output.stderr), message);
    assert!(output.stdout == lines, "{}", String::from_utf8_lossy(&output.stdout));
}

#[test]
fn the_program_prints_the_examples() {
    for name in ["whole_run", "day_sheet", "pictures"] {
        let rows = read(&format!("{name}.rows"));
        let pieces: Vec<&[u8]> = rows.chunks(501).collect();
        let output = fed_to_the_program(&example(&format!("{name}.desc")), &pieces);
        ends_with(&output, 0, "", &read(&format!("{name}.sheet")));
    }
}

/// A piece's lines are there while the next one has not come.
#[test]
fn the_program_prints_each_piece_at_once() {
    let mut command = Command::new(program());
    command.arg(example("whole_run.desc")).stdin(Stdio::piped()).stdout(Stdio::piped());
    let mut child = command.spawn().expect("the example program");
    let (mut input, mut lines) = (child.stdin.take().expect("a pipe"), child.stdout.take().expect("a pipe"));
    let sheet = read("whole_run.sheet");
    let mut end = 0;
    for (piece, count) in [(&b"AA+0"[..], 0), (b"05A", 44), (b"A+007", 22)] {
        input.write_all(piece).expect("the pipe");
        let mut came = vec![0; count];
        lines.read_exact(&mut came).expect("the piece's lines");
        assert_eq!(came, sheet[end..end + count]);
        end += count;
    }
    drop(input);
    assert!(child.wait().expect("its end").success());
}

#[test]
fn the_program_says_what_is_refused() {
    let description = example("whole_run.desc");
    let sheet = read("whole_run.sheet");
    let begins = |bytes: &[u8], message: &str, end: usize| {
        ends_with(&fed_to_the_program(&description, &[bytes]), 1, message, &sheet[..end]);
    };
    begins(b"AA+005AA+0x6", "feed: record 2: field 1, counted from 0, is malformed\n", 44);
    let unfinished = "feed: TERMINATE after 1 records: the last record is unfinished, 3 bytes of it came\n";
    begins(b"AA+005AA+", unfinished, 44);
    let broken = fed_to_the_program(&example("whole_run.rows"), &[b"AA+005"]);
    ends_with(&broken, 1, "feed: INITIATE: the description breaks rule 1\n", b"");
    let usage = Command::new(program()).output().expect("the example program");
    ends_with(&usage, 2, "usage: feed DESCRIPTION < RECORDS\n", b"");
}
