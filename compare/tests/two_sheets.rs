//! `sheets` and `apart` as a user runs them: two agents' sheets in one output, and such an output taken apart.

mod program;

use std::fs::{self, File};
use std::path::{Path, PathBuf};
use std::process::{Command, Stdio};

use program::{about_file, example, filled, finished, random_rows, refused, sheet, wanted, Folder, Written};
use second::cases::{accepted_description, Rng};
use second::two::{generate, initiate, take_apart, terminate, Answer, TwoAgents};
use second::{description, report};

const USAGE: &str = "usage: sheets [--order LIST] [--progress] DESCRIPTION CODE1 RECORDS1 CODE2 RECORDS2\n";
const APART_USAGE: &str = "usage: apart FILE CODE1 SHEET1 CODE2 SHEET2\n";

/// `--help` says this behind the usage.
const HELP: &str = "
Prints the sheets of two agents into one output, each line with its agent's code of two characters in front: INITIATE of
both, GENERATE every record as detail 0, in turn, the first agent's first, TERMINATE of the first and of the second. When
one file is used up the other goes on alone. A refused call is told on standard error and ends the output; what was
accepted before stands. Rows of each agent count from 1, fields and bytes from 0.

  --order LIST  a file whose characters 1 and 2 say whose row is next, blanks and line ends aside; the rows left when it
                ends follow in turn
  --progress    tell on standard error how many rows are done
  --help        print this
";
const APART_HELP: &str = "
Takes a file with the sheets of two agents apart: the lines that carry CODE1 go to the file SHEET1, those with CODE2 to
SHEET2, in order, with the code taken off. Both are made anew. A line that carries neither code or does not end where
the first one does is told on standard error and ends the work; what stands before it is written. Records count from 1,
bytes from 0.

  --help  print this
";

// ---- running them

/// Where `rt` puts a program, seen from this package.
fn program(name: &str) -> Command {
    Command::new(Path::new(env!("CARGO_MANIFEST_DIR")).join("../target/bin").join(name))
}

fn run(name: &str, args: &[&str]) -> Written {
    let mut command = program(name);
    command.args(args);
    finished(command)
}

fn text(path: &Path) -> &str {
    path.to_str().expect("a path in plain characters")
}

/// The two codes as arguments.
fn words(codes: &[[u8; 2]; 2]) -> [&str; 2] {
    codes.each_ref().map(|code| std::str::from_utf8(code).expect("plain characters"))
}

/// The sheets of two record files in one output.
fn sheets(options: &[&str], desc: &Path, codes: &[[u8; 2]; 2], rows: [&Path; 2]) -> Written {
    let [one, two] = words(codes);
    let [first, second] = rows.map(text);
    run("sheets", &[options, &[text(desc), one, first, two, second]].concat())
}

/// Takes a file apart; what was told, and the two sheets.
fn apart(folder: &Folder, file: &Path, codes: &[[u8; 2]; 2]) -> (String, [Vec<u8>; 2]) {
    let [one, two] = words(codes);
    let sheets = ["one.sheet", "two.sheet"].map(|name| folder.0.join(name));
    let [first, second] = sheets.each_ref().map(|path| text(path));
    let written = run("apart", &[text(file), one, first, two, second]);
    assert_eq!(written.sheet, b"", "standard output");
    (written.errors, sheets.map(|path| fs::read(path).expect("a sheet")))
}

fn says(words: &str) -> Written {
    Written::errors(format!("sheets: {words}\n"))
}

// ---- what they must write, by the second program

const ROOM: usize = 1 << 18;
const CODES: [[u8; 2]; 2] = [*b"NQ", *b"SQ"];

/// An order list, with the name that it is told by.
struct List {
    path: PathBuf,
    bytes: Vec<u8>,
    at: usize,
}

impl List {
    fn none() -> List {
        List { path: PathBuf::new(), bytes: Vec::new(), at: 0 }
    }

    /// The agent that is named next, 0 or 1; none at the end; else what is told.
    fn next(&mut self, left: [usize; 2]) -> Result<Option<usize>, String> {
        while let Some(&character) = self.bytes.get(self.at) {
            self.at += 1;
            let agent = match character {
                b' ' | b'\n' | b'\r' => continue,
                b'1' | b'2' => usize::from(character - b'1'),
                _ => return Err(self.about(" is neither 1 nor 2")),
            };
            if left[agent] == 0 {
                return Err(self.about(&format!(": the rows of agent {} are used up", agent + 1)));
            }
            return Ok(Some(agent));
        }
        Ok(None)
    }

    fn about(&self, what: &str) -> String {
        format!("sheets: {}: character {}{what}\n", self.path.display(), self.at)
    }
}

/// One output while it is printed, by the second program's calls, each at the start of an output of its own.
struct Common<'a> {
    desc: &'a [u8],
    two: TwoAgents,
    out: Vec<u8>,
    printed: Vec<u8>,
}

impl Common<'_> {
    /// A call of an agent, and what is told where it is refused; `call` has the name of the call or the row.
    fn call(
        &mut self,
        agent: usize,
        call: &str,
        length: usize,
        asked: impl Fn(&[u8], &TwoAgents, &mut [u8]) -> Answer,
    ) -> Result<(), String> {
        self.two.start = 0;
        let answer = asked(self.desc, &self.two, &mut self.out);
        if answer.number != 0 {
            let code = String::from_utf8_lossy(&self.two.codes[agent]).into_owned();
            let told = format!(
                "sheets: agent {code}, {call}: {{words}}; refusal {{number}}, extra number {{extra}}"
            );
            return Err(self.refusal(&told, length, &answer));
        }
        self.printed.extend(&self.out[..answer.count]);
        self.two = answer.next;
        Ok(())
    }

    fn refusal(&self, told: &str, length: usize, answer: &Answer) -> String {
        if answer.number == 11 {
            let [one, two] = self.two.codes;
            let why = if one == two { "the codes are equal" } else { "a code byte is outside 32 to 126" };
            return filled(told, &[("words", &why), ("number", &11), ("extra", &0)]);
        }
        let state = self.two.states[0].clone();
        let own = report::Answer { number: answer.number, extra: answer.extra, count: 0, state };
        refused(told, self.desc, 0, length, &own)
    }

    /// INITIATE of both, the rows as the list has them and then in turn, TERMINATE of both.
    fn print(&mut self, rows: [&[u8]; 2], list: &mut List) -> Result<(), String> {
        for agent in [0, 1] {
            self.call(agent, "INITIATE", 0, |desc, two, _| initiate(desc, two, agent))?;
        }
        let length = usize::from(description::check(self.desc).expect("accepted by INITIATE").r);
        let rows = rows.map(|bytes| bytes.chunks(length).collect::<Vec<_>>());
        let mut done = [0, 0];
        let mut in_turn = 0;
        loop {
            let left = [0, 1].map(|agent| rows[agent].len() - done[agent]);
            let named = list.next(left)?;
            if named.is_none() && left == [0, 0] {
                break;
            }
            let agent = named.unwrap_or(if left[in_turn] > 0 { in_turn } else { 1 - in_turn });
            if named.is_none() {
                in_turn = 1 - agent;
            }
            let row = rows[agent][done[agent]];
            let call = format!("row {}", done[agent] + 1);
            self.call(agent, &call, row.len(), |desc, two, out| generate(desc, two, agent, 0, row, out))?;
            done[agent] += 1;
        }
        for agent in [0, 1] {
            self.call(agent, "TERMINATE", 0, |desc, two, out| terminate(desc, two, agent, out))?;
        }
        Ok(())
    }
}

fn common(desc: &[u8], codes: [[u8; 2]; 2], rows: [&[u8]; 2], mut list: List) -> Written {
    let mut common = Common { desc, two: TwoAgents::fresh(codes), out: vec![0; ROOM], printed: Vec::new() };
    let errors = common.print(rows, &mut list).err().unwrap_or_default();
    Written { sheet: common.printed, errors }
}

// ---- the example

fn example_files() -> [PathBuf; 4] {
    ["day_sheet.desc", "day_sheet.rows", "day_sheet_second.rows", "two_agents.order"].map(example)
}

#[test]
fn prints_the_example() {
    let [desc, first, second, order] = example_files();
    let written = sheets(&["--order", text(&order)], &desc, &CODES, [&first, &second]);
    assert_eq!(written.errors, "");
    let expected = fs::read(example("two_agents.sheet")).expect("the example");
    assert!(written.sheet == expected, "{}", String::from_utf8_lossy(&written.sheet));
    let [desc, first, second, order] =
        [desc, first, second, order.clone()].map(|path| fs::read(path).expect("the example"));
    let list = List { path: PathBuf::new(), bytes: order, at: 0 };
    assert_eq!(common(&desc, CODES, [&first, &second], list).sheet, expected);
}

#[test]
fn takes_the_example_apart() {
    let folder = Folder::new("apart-example");
    let [desc, first, second, _] = example_files();
    let (errors, [one, two]) = apart(&folder, &example("two_agents.sheet"), &CODES);
    assert_eq!(errors, "");
    assert_eq!(one, sheet(&[&desc, &first]).sheet);
    assert_eq!(two, sheet(&[&desc, &second]).sheet);
}

// ---- random pairs

const PAIRS: usize = 60;

/// Two codes that differ; one byte of one in twenty is outside 32 to 126, or they are equal.
fn random_codes(rng: &mut Rng) -> [[u8; 2]; 2] {
    const BYTES: &[u8] = b" !09AZaz~";
    let mut byte = || BYTES[rng.below(BYTES.len())];
    let one = [byte(), byte()];
    let mut two = [byte(), byte()];
    if one == two {
        two[1] ^= 1;
    }
    match rng.below(20) {
        0 => [one, one],
        1 => [one, [two[0], 9]],
        _ => [one, two],
    }
}

/// A list for rows of which there are so many: rows in some order, blanks and line ends between; now and then a wrong character.
fn random_list(rng: &mut Rng, mut left: [usize; 2]) -> Vec<u8> {
    let mut list = Vec::new();
    let length = rng.below(left[0] + left[1] + 1);
    for _ in 0..length {
        let agent = rng.below(2);
        let agent = if left[agent] > 0 { agent } else { 1 - agent };
        left[agent] -= 1;
        list.push(b'1' + agent as u8);
        match rng.below(12) {
            0 => list.push(b' '),
            1 => list.extend(b"\r\n"),
            2 => list.push(b'\n'),
            _ => {}
        }
    }
    match rng.below(12) {
        0 => list.push(0),
        1 => list.extend(b"1 ".repeat(left[0] + 1)),
        2 => list.extend(b"2".repeat(left[1] + 1)),
        3 if !list.is_empty() => {
            let at = rng.below(list.len());
            list[at] = b'3';
        }
        _ => {}
    }
    list
}

/// What two files print in one output is what the second program's calls print, and taken apart it is the two sheets.
#[test]
fn random_pairs_are_two_sheets() {
    let folder = Folder::new("sheets-random");
    let mut rng = Rng::new(7);
    let (mut whole, mut stopped, mut large) = (0, 0, 0);
    while whole < PAIRS {
        let pair = whole + stopped;
        let desc = accepted_description(&mut rng);
        let mut rows = [0, 1].map(|_| random_rows(&mut rng, &desc));
        if pair % 2 == 0 {
            rows = rows.map(|rows| rows.repeat(1 + 40_000 / (1 + rows.len())));
        }
        let length = usize::from(description::check(&desc).expect("accepted").r);
        let codes = random_codes(&mut rng);
        let list = random_list(&mut rng, rows.each_ref().map(|rows| rows.len().div_ceil(length)));
        let desc_file = folder.file("desc", &desc);
        let files = [folder.file("rows1", &rows[0]), folder.file("rows2", &rows[1])];
        let order = folder.file("order", &list);
        let has_list = rng.chance(70);
        let options: &[&str] = if has_list { &["--order", text(&order)] } else { &[] };
        let written = sheets(options, &desc_file, &codes, [&files[0], &files[1]]);
        let list = if has_list { List { path: order.clone(), bytes: list, at: 0 } } else { List::none() };
        let expected = common(&desc, codes, [&rows[0], &rows[1]], list);
        assert_eq!(written.errors, expected.errors, "pair {pair}");
        assert!(written.sheet == expected.sheet, "pair {pair}");
        large += usize::from(written.sheet.len() > ROOM);
        if !written.errors.is_empty() {
            stopped += 1;
            continue;
        }
        whole += 1;
        let (errors, parts) = apart(&folder, &folder.file("common", &written.sheet), &codes);
        assert_eq!(errors, "", "pair {pair}");
        let width = usize::from(description::check(&desc).expect("accepted").w);
        for agent in [0, 1] {
            assert!(parts[agent] == wanted(&desc, &rows[agent]).sheet, "pair {pair}, agent {agent}");
            assert!(
                parts[agent] == take_apart(&written.sheet, width, codes[agent]),
                "pair {pair}, agent {agent}"
            );
        }
    }
    println!("whole, stopped, larger than the output: {whole} {stopped} {large}");
    assert!(stopped >= 30 && large >= 10, "{stopped} {large}");
}

// ---- wrong usage and wrong files

#[test]
fn sheets_says_its_usage() {
    let [desc, rows] = ["whole_run.desc", "whole_run.rows"].map(example);
    let (desc, rows) = (text(&desc), text(&rows));
    let wrong: [&[&str]; 9] = [
        &[],
        &[desc, "AA", rows, "BB"],
        &[desc, "AA", rows, "BB", rows, rows],
        &[desc, "A", rows, "BB", rows],
        &[desc, "AA", rows, "BBB", rows],
        &[desc, "", rows, "BB", rows],
        &["--order", desc, "AA", rows, "BB", rows],
        &["--fast", desc, "AA", rows, "BB", rows],
        &["--progress", "--progress", desc, "AA", rows, "BB", rows],
    ];
    for args in wrong {
        assert_eq!(run("sheets", args), Written::errors(USAGE.into()), "{args:?}");
    }
    assert_eq!(
        run("sheets", &["--help"]),
        Written { sheet: [USAGE, HELP].concat().into(), errors: String::new() }
    );
}

#[test]
fn apart_says_its_usage() {
    let wrong: [&[&str]; 4] =
        [&[], &["f", "AA", "a", "BB"], &["f", "AA", "a", "BB", "b", "c"], &["f", "AAA", "a", "BB", "b"]];
    for args in wrong {
        assert_eq!(run("apart", args), Written::errors(APART_USAGE.into()), "{args:?}");
    }
    let help = Written { sheet: [APART_USAGE, APART_HELP].concat().into(), errors: String::new() };
    assert_eq!(run("apart", &["--help"]), help);
}

#[test]
fn sheets_names_a_file_that_it_cannot_read() {
    let folder = Folder::new("sheets-unreadable");
    let [desc, rows] = ["whole_run.desc", "whole_run.rows"].map(example);
    let none = folder.0.join("none");
    let missing = Written::errors(about_file("sheets: {file}: No such file or directory", &none));
    let unread = Written::errors(about_file("sheets: {file}: Is a directory", &folder.0));
    for (path, told) in [(&none, missing), (&folder.0, unread)] {
        assert_eq!(sheets(&[], path, &CODES, [&rows, &rows]), told);
        assert_eq!(sheets(&[], &desc, &CODES, [path, &rows]), told);
        assert_eq!(sheets(&[], &desc, &CODES, [&rows, path]), told);
        assert_eq!(sheets(&["--order", text(path)], &desc, &CODES, [&rows, &rows]), told);
    }
}

/// One line, whether the output is written at the end or in the middle of the rows.
#[test]
fn sheets_says_that_it_cannot_write() {
    let folder = Folder::new("sheets-full");
    let many = folder.file("rows", &b"AA+005".repeat(25_000));
    for rows in [example("whole_run.rows"), many] {
        let Ok(full) = File::options().write(true).open("/dev/full") else {
            return;
        };
        let mut command = program("sheets");
        command
            .arg(example("whole_run.desc"))
            .arg("AA")
            .arg(&rows)
            .arg("BB")
            .arg(&rows)
            .stdout(Stdio::from(full));
        assert_eq!(finished(command), says("standard output: No space left on device"));
    }
}

/// The count is told where the output is written, and at the end.
#[test]
fn sheets_tells_its_progress() {
    let folder = Folder::new("sheets-progress");
    let rows = folder.file("rows", &b"AA+005".repeat(20_000));
    let [desc, few] = ["whole_run.desc", "whole_run.rows"].map(example);
    let order = folder.file("order", b"");
    for options in [&["--progress", "--order", text(&order)][..], &["--order", text(&order), "--progress"]] {
        let told = sheets(options, &desc, &CODES, [&rows, &few]);
        let counts: Vec<usize> = told
            .errors
            .lines()
            .map(|line| {
                line.strip_prefix("sheets: ").and_then(|line| line.strip_suffix(" rows")).expect("a count")
            })
            .map(|count| count.parse().expect("a number"))
            .collect();
        assert!(counts.len() >= 3 && counts.is_sorted() && counts.ends_with(&[20_004]), "{counts:?}");
        assert_eq!(told.sheet, sheets(&[], &desc, &CODES, [&rows, &few]).sheet);
    }
}

// ---- refusals

#[test]
fn sheets_names_the_call_that_is_refused() {
    let folder = Folder::new("sheets-refused");
    let [desc, rows] = ["whole_run.desc", "whole_run.rows"].map(example);
    let bad = folder.file("bad", b"AA+005AA*007");
    let short = folder.file("short", b"AA+005AA");
    let both = |first: &Path, second: &Path| sheets(&[], &desc, &CODES, [first, second]);
    let first = both(&bad, &rows);
    assert_eq!(
        first.errors,
        "sheets: agent NQ, row 2: field 1 (bytes 2 to 5) is malformed; refusal 6, extra number 1\n"
    );
    let second = both(&rows, &bad);
    assert_eq!(
        second.errors,
        "sheets: agent SQ, row 2: field 1 (bytes 2 to 5) is malformed; refusal 6, extra number 1\n"
    );
    assert_eq!((first.sheet.len(), second.sheet.len()), (4 * 24, 5 * 24));
    let cut = both(&short, &short);
    assert_eq!(
        cut.errors,
        "sheets: agent NQ, row 2: the record's length is 2, not 6; refusal 5, extra number 0\n"
    );
    let no_page = sheets(&[], &rows, &CODES, [&rows, &rows]);
    assert_eq!(
        no_page,
        says("agent NQ, INITIATE: description breaks rule 1 (sections); refusal 1, extra number 1")
    );
}

/// Refusal 11 comes behind 1: a description that is refused is told, whatever the codes are.
#[test]
fn sheets_names_codes_that_are_refused() {
    let [desc, rows] = ["whole_run.desc", "whole_run.rows"].map(example);
    let with = |desc: &Path, codes| sheets(&[], desc, &codes, [&rows, &rows]);
    let equal = says("agent AA, INITIATE: the codes are equal; refusal 11, extra number 0");
    assert_eq!(with(&desc, [*b"AA", *b"AA"]), equal);
    let outside = "INITIATE: a code byte is outside 32 to 126; refusal 11, extra number 0";
    assert_eq!(with(&desc, [*b"AA", *b"A\x7f"]), says(&format!("agent AA, {outside}")));
    assert_eq!(with(&desc, [*b"A\x1f", *b"AA"]), says(&format!("agent A\x1f, {outside}")));
    let bytes = [desc, rows.clone(), rows.clone()].map(|path| fs::read(path).expect("the example"));
    let edges = with(&example("whole_run.desc"), [*b" ~", *b"~ "]);
    assert_eq!(edges, common(&bytes[0], [*b" ~", *b"~ "], [&bytes[1], &bytes[2]], List::none()));
    assert_eq!(edges.errors, "");
    assert!(with(&rows, [*b"AA", *b"AA"]).errors.contains("refusal 1,"));
}

// ---- what is wrong with a file that is taken apart

#[test]
fn apart_tells_what_is_wrong_with_a_file() {
    let folder = Folder::new("apart-wrong");
    let good = fs::read(example("two_agents.sheet")).expect("the example");
    let size = 92;
    let changed = |at: usize, byte: u8| {
        let mut bytes = good.clone();
        bytes[at] = byte;
        bytes
    };
    let inserted = [&good[..5 * size], b"x", &good[5 * size..]].concat();
    let cases: [(Vec<u8>, &str, usize); 9] = [
        (changed(800 / size * size, b'X'), "record 9 (byte 736) carries neither code", 736),
        (changed(1, b'X'), "record 1 (byte 0) carries neither code", 0),
        (changed(3 * size + size - 1, b' '), "record 4 (byte 276) does not end after 92 bytes", 276),
        (inserted, "record 6 (byte 460) does not end after 92 bytes", 460),
        (good[..1000].to_vec(), "record 11 (byte 920) is cut off: 80 of 92 bytes came", 920),
        (good[..good.len() - 1].to_vec(), "record 453 (byte 41584) is cut off: 91 of 92 bytes came", 41584),
        (good[..50].to_vec(), "record 1 (byte 0) does not end after 13 to 144 bytes", 0),
        (b"NQ000001001\n".to_vec(), "record 1 (byte 0) does not end after 13 to 144 bytes", 0),
        (
            [b"NQ".to_vec(), vec![b'0'; 142], b"\n".to_vec()].concat(),
            "record 1 (byte 0) does not end after 13 to 144 bytes",
            0,
        ),
    ];
    for (bytes, told, whole) in cases {
        let (errors, sheets) = apart(&folder, &folder.file("file", &bytes), &CODES);
        assert_eq!(errors, format!("apart: {told}\n"));
        assert_eq!(sheets, CODES.map(|code| take_apart(&bytes[..whole], size - 12, code)), "{told}");
    }
    assert_eq!(apart(&folder, &folder.file("file", b""), &CODES), (String::new(), [Vec::new(), Vec::new()]));
}

/// The least and the largest record, and a stray record behind the first part of a file.
#[test]
fn apart_takes_records_of_every_size() {
    let folder = Folder::new("apart-sizes");
    for width in [1, 2, 50, 131, 132] {
        let line = |code: &str, nth: usize| format!("{code}{nth:09}{}\n", "x".repeat(width));
        let lines: Vec<String> =
            (0..2_000).map(|nth| line(if nth % 3 == 0 { "NQ" } else { "SQ" }, nth)).collect();
        let mut bytes = lines.concat().into_bytes();
        let (errors, sheets) = apart(&folder, &folder.file("file", &bytes), &CODES);
        assert_eq!(errors, "");
        assert_eq!(sheets, CODES.map(|code| take_apart(&bytes, width, code)));
        assert_eq!(sheets.each_ref().map(Vec::len), [667 * (width + 10), 1_333 * (width + 10)]);
        let at = 1_900 * (width + 12);
        bytes[at] = b'?';
        let (errors, sheets) = apart(&folder, &folder.file("file", &bytes), &CODES);
        assert_eq!(errors, format!("apart: record 1901 (byte {at}) carries neither code\n"));
        assert_eq!(sheets, CODES.map(|code| take_apart(&bytes[..at], width, code)));
    }
}

#[test]
fn apart_tells_what_is_wrong_with_its_arguments() {
    let folder = Folder::new("apart-arguments");
    let good = folder.file("file", &fs::read(example("two_agents.sheet")).expect("the example"));
    let [one, two, none] = ["one", "two", "none"].map(|name| folder.0.join(name));
    let inside = none.join("sheet");
    let with = |file: &Path, first: &Path, second: &Path, code: &str| {
        run("apart", &[text(file), "NQ", text(first), code, text(second)])
    };
    let told = |words: &str| Written::errors(format!("apart: {words}\n"));
    let twice = |path: &Path| told(&format!("{}: two of the files have this name", path.display()));
    let failed =
        |words: &str, path: &Path| Written::errors(about_file(&format!("apart: {{file}}: {words}"), path));
    assert_eq!(with(&good, &one, &two, "NQ"), told("the codes are equal"));
    assert_eq!(with(&good, &one, &two, "S\t"), told("a code byte is outside 32 to 126"));
    assert_eq!(with(&good, &good, &two, "SQ"), twice(&good));
    assert_eq!(with(&good, &one, &good, "SQ"), twice(&good));
    assert_eq!(with(&good, &one, &one, "SQ"), twice(&one));
    assert_eq!(with(&none, &one, &two, "SQ"), failed("No such file or directory", &none));
    assert_eq!(with(&folder.0, &one, &two, "SQ"), failed("Is a directory", &folder.0));
    assert!(!one.exists() && !two.exists(), "nothing is made where nothing can be read");
    assert_eq!(
        fs::read(&good).expect("the file"),
        fs::read(example("two_agents.sheet")).expect("the example")
    );
    assert_eq!(with(&good, &one, &inside, "SQ"), failed("No such file or directory", &inside));
    if Path::new("/dev/full").exists() {
        assert_eq!(
            with(&good, &one, Path::new("/dev/full"), "SQ"),
            failed("No space left on device", Path::new("/dev/full"))
        );
    }
}

// ---- the exit status, by `bin/sheets` and `bin/apart`

#[test]
fn the_commands_have_an_exit_status() {
    let folder = Folder::new("sheets-status");
    let [desc, rows] = ["whole_run.desc", "whole_run.rows"].map(example);
    let common = example("two_agents.sheet");
    let bad = folder.file("bad", b"AA*005");
    let order = folder.file("order", b"1 3");
    let [one, two] = ["one", "two"].map(|name| folder.0.join(name));
    let [desc, rows, bad, order, one, two] = [&desc, &rows, &bad, &order, &one, &two].map(|path| text(path));
    let common = text(&common);
    let cases: [(&str, &[&str], i32, &str); 11] = [
        ("sheets", &[desc, "AA", rows, "BB", rows], 0, ""),
        ("sheets", &["--progress", desc, "AA", rows, "BB", rows], 0, "sheets: 8 rows\n"),
        ("sheets", &["--help"], 0, ""),
        ("sheets", &[desc, "AA", rows, "BB", bad], 1, "sheets: agent BB, row 1: "),
        ("sheets", &[desc, "AA", rows, "AA", rows], 1, "sheets: agent AA, INITIATE: the codes are equal"),
        ("sheets", &["--order", order, desc, "AA", rows, "BB", rows], 1, "sheets: "),
        ("sheets", &[desc, "AAA", rows, "BB", rows], 2, USAGE),
        ("apart", &[common, "NQ", one, "SQ", two], 0, ""),
        ("apart", &["--help"], 0, ""),
        ("apart", &[common, "NQ", one, "SX", two], 1, "apart: record 8 (byte 644) carries neither code\n"),
        ("apart", &[common, "NQ", one], 2, APART_USAGE),
    ];
    for (name, args, status, errors) in cases {
        let bin = Path::new(env!("CARGO_MANIFEST_DIR")).join("../bin").join(name);
        let output = Command::new(bin).args(args).output().expect("the command");
        assert_eq!(output.status.code(), Some(status), "{name} {args:?}");
        let told = String::from_utf8_lossy(&output.stderr);
        assert!(told.starts_with(errors) && told.is_empty() == errors.is_empty(), "{name} {args:?}: {told}");
    }
}

// ---- large files

const ROWS: usize = 150_000;

/// 150,000 rows of each agent, in 16 MB of address space: the files are read in parts, printed and taken apart.
#[test]
fn large_files_take_little_memory() {
    let folder = Folder::new("sheets-large");
    let desc = example("day_sheet.desc");
    let rows = ["day_sheet.rows", "day_sheet_second.rows"].map(|name| {
        let day = fs::read(example(name)).expect("the example");
        folder.file(name, &day.repeat(67 * ROWS / day.len() + 1)[..67 * ROWS])
    });
    let common = folder.0.join("common");
    let limited = |name: &str| {
        let mut command = Command::new("sh");
        command.args(["-c", "ulimit -v 16384; exec \"$@\"", "sh"]).arg(program(name).get_program());
        command
    };
    let mut print = limited("sheets");
    print.arg(&desc).arg("NQ").arg(&rows[0]).arg("SQ").arg(&rows[1]);
    print.stdout(Stdio::from(File::create(&common).expect("a file")));
    assert_eq!(finished(print), Written::errors(String::new()));
    let parts = ["one", "two"].map(|name| folder.0.join(name));
    let mut take = limited("apart");
    take.arg(&common).arg("NQ").arg(&parts[0]).arg("SQ").arg(&parts[1]);
    assert_eq!(finished(take), Written::errors(String::new()));
    for agent in [0, 1] {
        assert!(
            fs::read(&parts[agent]).expect("a sheet") == sheet(&[&desc, &rows[agent]]).sheet,
            "agent {agent}"
        );
    }
}
