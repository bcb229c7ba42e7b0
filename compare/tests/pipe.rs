//! The thin program with its records from standard input: pieces of any size, lines written before the next piece
//! is read, rows refused and cut off, an output that nobody reads; held to file mode and to the second program.

mod program;

use std::ffi::{OsStr, OsString};
use std::fs::{self, File};
use std::io::{Read, Write};
use std::os::fd::OwnedFd;
use std::os::unix::net::UnixDatagram;
use std::path::{Path, PathBuf};
use std::process::{Child, Command, ExitStatus, Output, Stdio};
use std::sync::mpsc::{self, Receiver, RecvTimeoutError};
use std::thread;
use std::time::{Duration, Instant};

use program::*;
use second::cases::{accepted_description, Rng};
use second::report::{generate, initiate};
use second::state::State;
use second::{description, source};

/// The input ended inside a record: refusal 10, with the bytes that came of it.
const CUT_OFF: &str =
    "sheet: row {row}: the record is cut off: {held} of {length} bytes came; refusal 10, extra number {held}";

/// What the kernel ends a program with that writes where nobody reads.
const SIGPIPE: i32 = 13;

/// More than a test waits for the program.
const LIMIT: Duration = Duration::from_secs(20);

// ---- the records through a pipe

fn read(path: &Path) -> Vec<u8> {
    fs::read(path).unwrap_or_else(|error| panic!("{path:?}: {error}"))
}

fn with_input(desc: &Path) -> Command {
    let mut command = command();
    command.arg(desc).arg("-");
    command
}

/// The program begun; what this process held of its input is closed with the command.
fn begun(mut command: Command, input: Stdio) -> Child {
    command.stdin(input).stdout(Stdio::piped()).stderr(Stdio::piped());
    command.spawn().unwrap_or_else(|error| panic!("{command:?}: {error}"))
}

fn written(child: Child) -> Written {
    let Output { status, stdout, stderr } = child.wait_with_output().expect("the program's output");
    assert!(status.code().is_some(), "{status}");
    Written { sheet: stdout, errors: String::from_utf8_lossy(&stderr).into_owned() }
}

/// Each read of the program gets one piece: a datagram stays whole, and one without bytes reads as the end.
fn in_reads(command: Command, pieces: &[&[u8]]) -> Written {
    let (ours, theirs) = UnixDatagram::pair().expect("two sockets");
    let child = begun(command, Stdio::from(OwnedFd::from(theirs)));
    thread::scope(|scope| {
        scope.spawn(move || {
            // The program may end before its input does; that it has ended is the only way out of here.
            let mut sent = pieces.iter().try_for_each(|piece| ours.send(piece).map(|_| ()));
            while sent.is_ok() {
                sent = ours.send(b"").map(|_| ());
            }
        });
        written(child)
    })
}

/// The pieces written to a pipe one after the other; the kernel decides what a read gets.
fn in_writes(command: Command, pieces: &[&[u8]]) -> Written {
    let mut child = begun(command, Stdio::piped());
    let mut input = child.stdin.take().expect("the program's input");
    thread::scope(|scope| {
        scope.spawn(move || {
            let _ = pieces.iter().try_for_each(|piece| input.write_all(piece));
        });
        written(child)
    })
}

fn pieces(rows: &[u8], size: usize) -> Vec<&[u8]> {
    rows.chunks(size).collect()
}

/// As a file's sheet, but for the record that the input ends in, which is no record yet.
fn wanted_of_pieces(desc: &[u8], rows: &[u8]) -> Written {
    let mut written = wanted(desc, rows);
    if let Ok(tables) = description::check(desc) {
        let length = usize::from(tables.r);
        let (row, held) = (rows.len() / length + 1, rows.len() % length);
        if held > 0 && written.errors.starts_with(&format!("sheet: row {row}: ")) {
            written.errors = filled(CUT_OFF, &[("row", &row), ("held", &held), ("length", &length)]);
        }
    }
    written
}

// ---- pieces of any size

#[test]
fn prints_the_examples_from_pieces_of_any_size() {
    for name in ["whole_run", "day_sheet"] {
        let file = |kind: &str| example(&format!("{name}.{kind}"));
        let (desc, rows) = (file("desc"), read(&file("rows")));
        let by_file = sheet(&[&desc, &file("rows")]);
        assert_eq!(by_file, Written { sheet: read(&file("sheet")), errors: String::new() });
        for size in [1, 7, 61, 4096] {
            assert_eq!(
                in_reads(with_input(&desc), &pieces(&rows, size)),
                by_file,
                "{name}, {size} at a time"
            );
        }
        for size in [1, 7, 61, 4096, 4097, 10_000, rows.len()] {
            assert_eq!(in_writes(with_input(&desc), &pieces(&rows, size)), by_file, "{name}, {size} at once");
        }
        let mut whole = with_input(&desc);
        whole.stdin(File::open(file("rows")).expect("the rows"));
        assert_eq!(finished(whole), by_file, "{name}, from a file");
    }
}

/// "TERMINATE when started prints nothing".
#[test]
fn prints_nothing_without_input() {
    let desc = example("whole_run.desc");
    assert_eq!(in_writes(with_input(&desc), &[]), Written::errors(String::new()));
    assert_eq!(in_reads(with_input(&desc), &[]), Written::errors(String::new()));
}

/// One piece can print far more than the output holds, which is written when it is full, and the row fed again.
#[test]
fn prints_more_for_a_piece_than_its_output_holds() {
    let folder = Folder::new("pipe-room");
    let lines = "  line relative 1\n    item 1 1 field mark\n    literal 3 \"LINE\"\n".repeat(8);
    let page = "page 60 heading 1 first 1 last 60 footing 60\nwidth 132\nrecord 1\nfield mark text 0 1\n";
    let text = format!("{page}group DE\n{lines}");
    let desc = source::build(&text).expect("a description").bytes();
    let rows: Vec<u8> = (0..5000).map(|row| b'A' + (row % 26) as u8).collect();
    let wanted = wanted(&desc, &rows);
    assert!(wanted.errors.is_empty() && wanted.sheet.len() > 5 << 20, "{}", wanted.errors);
    let file = folder.file("desc", &desc);
    assert!(in_reads(with_input(&file), &pieces(&rows, 4096)) == wanted);
    assert!(in_reads(with_input(&file), &pieces(&rows, 301)) == wanted);
    assert!(sheet(&[&file, &folder.file("rows", &rows)]) == wanted);
}

// ---- lines before the next piece

/// What the program writes, as it comes.
fn as_it_comes(mut output: impl Read + Send + 'static) -> Receiver<Vec<u8>> {
    let (to, from) = mpsc::channel();
    thread::spawn(move || {
        let mut bytes = [0; 4096];
        while let Ok(n @ 1..) = output.read(&mut bytes) {
            if to.send(bytes[..n].to_vec()).is_err() {
                break;
            }
        }
    });
    from
}

/// So many bytes, waited for.
fn next(output: &Receiver<Vec<u8>>, count: usize) -> Vec<u8> {
    let mut bytes = Vec::new();
    while bytes.len() < count {
        bytes.extend(
            output.recv_timeout(LIMIT).unwrap_or_else(|error| panic!("{} of {count}: {error}", bytes.len())),
        );
    }
    bytes
}

/// The lines of each row, by the second program.
fn lines_by_row(desc: &[u8], rows: &[u8]) -> Vec<Vec<u8>> {
    let length = usize::from(description::check(desc).expect("an accepted description").r);
    let mut output = vec![0; 1 << 18];
    let mut state = initiate(desc, &State::fresh()).state;
    let mut lines = |record: &[u8]| {
        let answer = generate(desc, &state, 0, record, &mut output);
        assert_eq!(answer.number, 0);
        state = answer.state;
        output[..answer.count].to_vec()
    };
    rows.chunks(length).map(&mut lines).collect()
}

/// Input stays open all the while. Half a record prints nothing, the other half its lines.
#[test]
fn writes_the_lines_of_a_row_before_it_reads_on() {
    for (name, pause) in [("whole_run", 50), ("day_sheet", 0)] {
        let file = |kind: &str| example(&format!("{name}.{kind}"));
        let (desc, rows, all) = (read(&file("desc")), read(&file("rows")), read(&file("sheet")));
        let lines = lines_by_row(&desc, &rows);
        let length = rows.len() / lines.len();
        let mut child = begun(with_input(&file("desc")), Stdio::piped());
        let mut input = child.stdin.take().expect("the program's input");
        let output = as_it_comes(child.stdout.take().expect("the program's output"));
        let mut printed = Vec::new();
        for (record, lines) in rows.chunks(length).zip(&lines) {
            let (half, rest) = record.split_at(length / 2);
            input.write_all(half).expect("half a record");
            if pause > 0 {
                let none = output.recv_timeout(Duration::from_millis(pause));
                assert_eq!(none, Err(RecvTimeoutError::Timeout));
            }
            input.write_all(rest).expect("the rest of a record");
            printed.extend(next(&output, lines.len()));
            assert!(printed.ends_with(lines), "{name}");
        }
        drop(input);
        printed.extend(next(&output, all.len() - printed.len()));
        assert!(printed == all, "{name}");
        assert_eq!(written(child), Written::errors(String::new()), "{name}");
    }
}

// ---- rows refused and cut off

/// In the middle of a piece, or begun in an earlier one: what a file of the same rows gives.
#[test]
fn names_the_row_that_is_refused() {
    let folder = Folder::new("pipe-rows");
    let desc = example("whole_run.desc");
    for rows in [&b"AA+005AA+007BB*002BB+009"[..], b"\x07A+005BB+009", b"AA 005AA 07 "] {
        let by_file = sheet(&[&desc, &folder.file("rows", rows)]);
        assert_eq!(by_file, wanted(&read(&desc), rows));
        assert!(by_file.errors.contains("is malformed; refusal 6"), "{}", by_file.errors);
        for size in 1..=rows.len() {
            assert_eq!(in_reads(with_input(&desc), &pieces(rows, size)), by_file, "{size} at a time");
        }
        assert_eq!(in_writes(with_input(&desc), &[rows]), by_file);
    }
}

/// The refusal does not wait for the end of the input.
#[test]
fn ends_at_a_refused_row_while_its_input_is_open() {
    let mut child = begun(with_input(&example("whole_run.desc")), Stdio::piped());
    let mut input = child.stdin.take().expect("the program's input");
    input.write_all(b"AA+005AA*00").expect("a row and most of one");
    input.write_all(b"7").expect("its last byte");
    assert!(ended(&mut child).success());
    drop(input);
    let written = written(child);
    assert_eq!(
        written.errors,
        "sheet: row 2: field 1 (bytes 2 to 5) is malformed; refusal 6, extra number 1\n"
    );
    assert_eq!(written.sheet.len(), 44);
}

/// What was printed before stands.
#[test]
fn names_the_record_that_is_cut_off() {
    let desc = example("whole_run.desc");
    let cases = [
        (
            &b"AA+005AA+007BB-002BB"[..],
            "row 4: the record is cut off: 2 of 6 bytes came; refusal 10, extra number 2",
            110,
        ),
        (b"AA+005\n", "row 2: the record is cut off: 1 of 6 bytes came; refusal 10, extra number 1", 44),
        (b"AA+00", "row 1: the record is cut off: 5 of 6 bytes came; refusal 10, extra number 5", 0),
    ];
    for (rows, words, count) in cases {
        let wanted = wanted_of_pieces(&read(&desc), rows);
        assert_eq!(wanted.errors, format!("sheet: {words}\n"));
        assert_eq!(wanted.sheet.len(), count);
        for size in 1..=rows.len() {
            assert_eq!(in_reads(with_input(&desc), &pieces(rows, size)), wanted, "{size} at a time");
        }
    }
}

#[test]
fn names_the_rule_that_a_description_breaks() {
    let [desc, rows] = ["whole_run.rows", "whole_run.rows"].map(example);
    let line = "sheet: description breaks rule 1 (sections); refusal 1, extra number 1\n";
    assert_eq!(sheet(&[&desc, &rows]), Written::errors(line.into()));
    assert_eq!(in_writes(with_input(&desc), &[b"AA+005"]), Written::errors(line.into()));
}

// ---- input and output that fail

#[test]
fn says_that_it_cannot_read() {
    let folder = Folder::new("pipe-unreadable");
    let mut command = with_input(&example("whole_run.desc"));
    command.stdin(File::open(&folder.0).expect("a folder"));
    assert_eq!(finished(command), Written::errors(about_file(NOT_READ, Path::new("standard input"))));
}

#[test]
fn says_that_it_cannot_write() {
    let Ok(full) = File::options().write(true).open("/dev/full") else {
        return;
    };
    let mut command = with_input(&example("whole_run.desc"));
    command.stdin(File::open(example("whole_run.rows")).expect("the rows")).stdout(full);
    assert_eq!(finished(command), Written::errors(filled(NOT_WRITTEN, &[])));
}

/// How the program ended, waited for.
fn ended(child: &mut Child) -> ExitStatus {
    let start = Instant::now();
    while start.elapsed() < LIMIT {
        if let Some(status) = child.try_wait().expect("the program's end") {
            return status;
        }
        thread::sleep(Duration::from_millis(2));
    }
    child.kill().expect("the program stopped");
    panic!("the program did not end");
}

/// A run whose output nobody reads from the start; its input gets these rows and stays open.
fn unread(mut command: Command, rows: &[u8]) -> (ExitStatus, String) {
    let (reader, writer) = std::io::pipe().expect("a pipe");
    drop(reader);
    command.stdin(Stdio::piped()).stdout(writer).stderr(Stdio::piped());
    let mut child = command.spawn().unwrap_or_else(|error| panic!("{command:?}: {error}"));
    let mut input = child.stdin.take().expect("the program's input");
    // The program may have ended.
    let _ = input.write_all(rows);
    let status = ended(&mut child);
    drop(input);
    let mut errors = String::new();
    let mut told = child.stderr.take().expect("the program's errors");
    told.read_to_string(&mut errors).expect("the program's errors");
    (status, errors)
}

/// The same program and arguments, with the signal of a closed pipe ignored.
fn ignoring(program: &Command, desc: &Path, records: &OsStr) -> Command {
    let mut command = Command::new("sh");
    let ignore = "trap '' PIPE; exec \"$@\"";
    command.args(["-c", ignore, "sh"]).arg(program.get_program()).args(program.get_args());
    command.arg(desc).arg(records);
    command
}

/// As with a file: the program tells the failure and ends; the command ends as by the signal, or tells it where the signal is ignored. The
/// input is still open.
#[test]
fn ends_when_nobody_reads_its_output() {
    let [desc, file] = ["whole_run.desc", "whole_run.rows"].map(example);
    let rows = read(&file);
    for records in [OsStr::new("-"), file.as_os_str()] {
        let mut plain = command();
        plain.arg(&desc).arg(records);
        let (status, errors) = unread(plain, &rows);
        let broken = "sheet: standard output: Broken pipe\n";
        assert_eq!((status.code(), errors.as_str()), (Some(0), broken), "{records:?}");

        let (status, errors) = unread(ignoring(&command(), &desc, records), &rows);
        assert_eq!((status.code(), errors.as_str()), (Some(0), broken), "{records:?}");

        let mut by_bin = bin_sheet();
        by_bin.arg(&desc).arg(records);
        let (status, errors) = unread(by_bin, &rows);
        assert_eq!((status.code(), errors.as_str()), (Some(128 + SIGPIPE), ""), "{records:?}");

        let (status, errors) = unread(ignoring(&bin_sheet(), &desc, records), &rows);
        assert_eq!((status.code(), errors.as_str()), (Some(1), broken), "{records:?}");
    }
}

/// The other commands that print: nothing is told, and the status is the signal's.
#[test]
fn commands_end_quietly_when_nobody_reads_their_output() {
    let [desc, rows, sheet] =
        ["day_sheet.desc", "day_sheet.rows", "day_sheet.sheet"].map(|name| example(name).into_os_string());
    let words = |words: &[&str]| words.iter().map(OsString::from).collect::<Vec<_>>();
    let commands = [
        ("explain", [vec![desc.clone(), rows.clone()], words(&["1", "21"])].concat()),
        ("sheets", [vec![desc], words(&["NQ"]), vec![rows.clone()], words(&["SQ"]), vec![rows]].concat()),
        ("read", vec![sheet.clone()]),
        ("repair", vec![sheet]),
    ];
    for (name, args) in commands {
        let root = Path::new(env!("CARGO_MANIFEST_DIR")).join("..");
        assert!(root.join("target/bin").join(name).exists(), "target/bin/{name} is not built");
        let mut command = Command::new(root.join("bin").join(name));
        command.args(args);
        let (status, errors) = unread(command, b"");
        assert_eq!((status.code(), errors.as_str()), (Some(128 + SIGPIPE), ""), "{name}");
    }
}

// ---- arguments

/// The count at the first row past each thousand, and at the end, if it was not told yet.
#[test]
fn tells_its_progress() {
    let desc = example("whole_run.desc");
    let told = |rows: &[u8], size: usize| {
        let mut command = command();
        command.arg("--progress").arg(&desc).arg("-");
        in_reads(command, &pieces(rows, size)).errors
    };
    let rows = |count: usize| b"AA+005".repeat(count);
    assert_eq!(told(&rows(4), 1), "sheet: 4 rows\n");
    assert_eq!(told(&rows(0), 1), "");
    assert_eq!(told(&rows(2500), 7), "sheet: 1001 rows\nsheet: 2000 rows\nsheet: 2500 rows\n");
    assert_eq!(told(&rows(2000), 6), "sheet: 1000 rows\nsheet: 2000 rows\n");
    assert_eq!(told(&rows(2500), 4096), "sheet: 1365 rows\nsheet: 2048 rows\nsheet: 2500 rows\n");
    let cut = told(b"AA+005AA", 3);
    assert_eq!(
        cut,
        "sheet: 1 rows\nsheet: row 2: the record is cut off: 2 of 6 bytes came; refusal 10, extra number 2\n"
    );
}

/// A file named `-` is `./-`; a description named `-` is taken for an option.
#[test]
fn takes_only_its_own_word_for_standard_input() {
    let folder = Folder::new("pipe-dash");
    folder.file("-", &read(&example("whole_run.rows")));
    folder.file("--", &read(&example("whole_run.rows")));
    let desc = example("whole_run.desc");
    let run = |desc: &Path, records: &str| {
        let mut command = command();
        command.arg(desc).arg(records).current_dir(&folder.0).stdin(Stdio::null());
        finished(command)
    };
    let whole = Written { sheet: read(&example("whole_run.sheet")), errors: String::new() };
    assert_eq!(run(&desc, "-"), Written::errors(String::new()));
    assert_eq!(run(&desc, "./-"), whole);
    assert_eq!(run(&desc, "--"), whole);
    assert_eq!(run(Path::new("-"), "./-"), Written::errors(filled(USAGE, &[])));
}

// ---- the exit status, by `bin/sheet`

fn bin_sheet() -> Command {
    Command::new(Path::new(env!("CARGO_MANIFEST_DIR")).join("../bin/sheet"))
}

#[test]
fn bin_sheet_has_an_exit_status() {
    let [desc, no_desc] = ["whole_run.desc", "whole_run.rows"].map(example);
    let dash = PathBuf::from("-");
    let cases: [(&Path, &[u8], i32, usize, &str); 6] = [
        (&desc, b"AA+005AA+007BB-002BB+009", 0, 176, ""),
        (&desc, b"", 0, 0, ""),
        (&desc, b"AA+005AA*007", 1, 44, "sheet: row 2: field 1 (bytes 2 to 5) is malformed"),
        (&desc, b"AA+005AA+00", 1, 44, "sheet: row 2: the record is cut off: 5 of 6 bytes came"),
        (&no_desc, b"AA+005", 1, 0, "sheet: description breaks rule 1 (sections)"),
        (&dash, b"AA+005", 2, 0, USAGE),
    ];
    for (desc, rows, status, length, errors) in cases {
        let mut command = bin_sheet();
        command.arg(desc).arg("-");
        let mut child = begun(command, Stdio::piped());
        // The program may end before its input does.
        let _ = child.stdin.take().expect("the program's input").write_all(rows);
        let output = child.wait_with_output().expect("bin/sheet");
        assert_eq!(output.status.code(), Some(status), "{rows:?}");
        assert_eq!(output.stdout.len(), length, "{rows:?}");
        let told = String::from_utf8_lossy(&output.stderr);
        assert!(told.starts_with(errors) && told.is_empty() == errors.is_empty(), "{rows:?}: {told}");
    }
    let mut unreadable = bin_sheet();
    unreadable.arg(&desc).arg("-").stdin(File::open(std::env::temp_dir()).expect("a folder"));
    assert_eq!(unreadable.output().expect("bin/sheet").status.code(), Some(1));
}

// ---- random sheets

const SHEETS: usize = 100;

/// Random rows in random pieces, each read by itself.
#[test]
fn random_sheets_are_the_second_programs() {
    let folder = Folder::new("pipe-random");
    let mut rng = Rng::new(18);
    let (mut whole, mut refused, mut cut) = (0, 0, 0);
    while whole + refused + cut < SHEETS {
        let desc = accepted_description(&mut rng);
        let rows = random_rows(&mut rng, &desc);
        if rows.is_empty() {
            continue;
        }
        let wanted = wanted_of_pieces(&desc, &rows);
        let most = if rng.chance(50) { 40 } else { 4096 };
        let mut pieces = Vec::new();
        let mut rest = &rows[..];
        while !rest.is_empty() {
            let (piece, left) = rest.split_at(rest.len().min(1 + rng.below(most) as usize));
            pieces.push(piece);
            rest = left;
        }
        assert_eq!(in_reads(with_input(&folder.file("desc", &desc)), &pieces), wanted);
        match wanted.errors.as_str() {
            "" => whole += 1,
            errors if errors.contains("cut off") => cut += 1,
            _ => refused += 1,
        }
    }
    println!("whole {whole}, refused {refused}, cut off {cut}");
    assert!(whole >= 30 && refused >= 5 && cut >= 3, "{whole}, {refused}, {cut}");
}
