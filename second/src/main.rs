//! The command line of the second program.

use std::fs::File;
use std::io::{self, BufReader, BufWriter, Read, Write};
use std::process::exit;

use second::description::{Item, SUM};
use second::explain::{self, Explainer, Explanation};
use second::feeder::{self, Feeder, LONGEST_CHUNK};
use second::read::{Read as ReadBack, Refusal, Walker};
use second::repair::{repaired, Dropped, FORM};
use second::report::{generate, initiate, terminate, Answer, Call};
use second::state::State;
use second::two::{self, TwoAgents, CODE_BYTES};
use second::{cases, description, source};

const USAGE: &str = "\
second: document 01, and R-1, R-2 and R-4 to R-8 of document 02, a second time, on its own

usage: second COMMAND ...

  second check DESCRIPTION                    says whether a description keeps D1 to D8 and rule 9
  second print DESCRIPTION RECORDS [-o OUT]   prints the sheet of a record file
  second feed DESCRIPTION [-n N] [-o OUT]     prints the sheet of standard input, fed in pieces
  second explain DESCRIPTION RECORDS PAGE LINE
                                              says which rows make up the sums of a printed line
  second two DESCRIPTION CODE1 RECORDS1 CODE2 RECORDS2 [--order LIST] [-o OUT]
                                              prints the sheets of two agents into one file
  second apart WIDTH FILE CODE [-o OUT]       takes the sheet of one code out of such a file
  second read WIDTH SHEET                     reads a printed sheet back, record by record
  second repair WIDTH SHEET [-o OUT] [-l LIST]
                                              drops the records of a damaged sheet that are out of form or order
  second build SOURCE OUT                     makes a description from its text source
  second cases ...                            random cases

second COMMAND --help tells more. Exit code: 0 done, 1 refused or failed, 2 bad usage.
";

const CHECK_USAGE: &str = "\
usage: second check DESCRIPTION

Prints `accepted`, or on standard error `refused 1, rule N` with the lowest broken rule: 1 to 8 for D1 to D8, or 9.
Descriptions are of version 1 or, with pictures, version 2.
";

const PRINT_USAGE: &str = "\
usage: second print DESCRIPTION RECORDS [-o OUT]

INITIATE, GENERATE every row as detail 0, TERMINATE. RECORDS holds rows back to back, each as long as the
description says. The sheet goes to standard output or to OUT. A refusal ends the run; what was printed
before it stands.
";

const FEED_USAGE: &str = "\
usage: second feed DESCRIPTION [-n N] [-o OUT]

INITIATE, the bytes of standard input through the feeder, TERMINATE; every row as detail 0. A piece is what one
read gives, at most N bytes (1 to 4096, else 4096), cut anywhere; its rows are printed before the next is read. The
sheet, to standard output or to OUT, is the one that `second print` gives. A refusal ends the run; what was printed
before it stands. Input that ends within a row is refusal 10, with the count of that row's bytes.
";

const EXPLAIN_USAGE: &str = "\
usage: second explain DESCRIPTION RECORDS PAGE LINE

Makes the calls of `second print` up to the one that prints line LINE of page PAGE, and explains each sum on that line
from the rows alone (R-6): its counter, its total, and each amount that makes it up, with its row counted from 1, its
field, and how many times it counts. Counters and fields are numbered from 0 and amounts are whole, as in the
description and the records. Only for descriptions in which no counter that feeds another has a reset level senior to
its own group's.
";

const TWO_USAGE: &str = "\
usage: second two DESCRIPTION CODE1 RECORDS1 CODE2 RECORDS2 [--order LIST] [-o OUT]

Two agents' sheets of one description in one file (R-7), each line with its agent's code of two characters in front.
INITIATE of both; GENERATE of every row as detail 0, the rows of both in turn, agent 1 first, and when one has no more the
other's alone; TERMINATE of agent 1, then of agent 2. LIST is a file that says whose row is next: its characters 1 and 2,
blanks and line ends left out. Rows that it leaves follow in turn. A list that names an agent without a row left fails
before any row is printed. A refusal ends the run; what was printed before it stands.
";

const APART_USAGE: &str = "\
usage: second apart WIDTH FILE CODE [-o OUT]

The lines of a file of two agents that carry a code, in order, with the code taken off: an ordinary sheet, as `second
print` gives it. WIDTH is the description's W, 1 to 132, so that a line of the file has WIDTH + 12 bytes. What stands
behind the last whole line is left out.
";

const READ_USAGE: &str = "\
usage: second read WIDTH SHEET

Reads a printed sheet back (R-8), without codes: one line a record, with its page, its line and its WIDTH characters of
text. A record that is not well-formed ends the run with refusal 12 and its offset; what was read before it stands.
";

const REPAIR_USAGE: &str = "\
usage: second repair WIDTH SHEET [-o OUT] [-l LIST]

Looks at each WIDTH + 10 bytes of a printed sheet (R-8) and keeps the records that are well-formed and on a later page, or
on a later line of the same page, than the last one kept. These go to standard output or to OUT. Each dropped one is told
on standard error, with its offset and whether it is out of form or out of order, and LIST gets 9 bytes of it: the offset
in 8, low byte first, then 1 for form or 2 for order. Exit code 0 where nothing was dropped, else 1.
";

const BUILD_USAGE: &str = "\
usage: second build SOURCE OUT

Makes a description from its text source: version 2 where it uses a picture or says so, else version 1. A description
that breaks a rule, D1 to D8 or 9, is not written.

";

/// Why a command did not do its work.
enum Failure {
    /// Bad usage, with the usage to show: exit code 2.
    Usage(&'static str),
    /// Refused or failed, with one line to show: exit code 1.
    Line(String),
}

fn main() {
    let args: Vec<String> =
        std::env::args_os().skip(1).map(|arg| arg.to_string_lossy().into_owned()).collect();
    let args_of_command = args.get(1..).unwrap_or_default();
    let outcome = match args.first().map(String::as_str) {
        Some("cases") => exit(cases::main(args_of_command)),
        Some("--help" | "-h" | "help") => show(USAGE),
        Some("check") => check(args_of_command),
        Some("print") => print(args_of_command),
        Some("feed") => feed(args_of_command),
        Some("explain") => explain(args_of_command),
        Some("two") => two(args_of_command),
        Some("apart") => apart(args_of_command),
        Some("read") => read_back(args_of_command),
        Some("repair") => repair(args_of_command),
        Some("build") => build(args_of_command),
        _ => Err(Failure::Usage(USAGE)),
    };
    exit(match outcome {
        Ok(()) => 0,
        Err(Failure::Line(line)) => {
            eprintln!("{line}");
            1
        }
        Err(Failure::Usage(usage)) => {
            eprintln!("second: bad usage; {}", usage_line(usage));
            2
        }
    });
}

/// The line of a help text that begins with "usage:".
fn usage_line(usage: &str) -> &str {
    usage.lines().find(|line| line.starts_with("usage:")).unwrap_or(usage)
}

fn show(text: &str) -> Result<(), Failure> {
    io::stdout().write_all(text.as_bytes()).map_err(|error| failed("standard output", error))
}

fn wants_help(args: &[String]) -> bool {
    args.iter().any(|arg| arg == "--help" || arg == "-h")
}

fn failed(name: &str, error: io::Error) -> Failure {
    Failure::Line(format!("second: {name}: {error}"))
}

fn read(name: &str) -> Result<Vec<u8>, Failure> {
    std::fs::read(name).map_err(|error| failed(name, error))
}

fn check(args: &[String]) -> Result<(), Failure> {
    if wants_help(args) {
        return show(CHECK_USAGE);
    }
    let [name] = args else {
        return Err(Failure::Usage(CHECK_USAGE));
    };
    match description::check(&read(name)?) {
        Ok(_) => show("accepted\n"),
        Err(rule) => Err(Failure::Line(format!("refused 1, rule {rule}"))),
    }
}

fn build(args: &[String]) -> Result<(), Failure> {
    if wants_help(args) {
        show(BUILD_USAGE)?;
        return show(source::FORMAT);
    }
    let [name, out] = args else {
        return Err(Failure::Usage(BUILD_USAGE));
    };
    let text = std::fs::read_to_string(name).map_err(|error| failed(name, error))?;
    let builder =
        source::build(&text).map_err(|message| Failure::Line(format!("second: {name}: {message}")))?;
    let bytes = builder.bytes();
    if let Err(rule) = description::check(&bytes) {
        return Err(Failure::Line(format!("second: {name}: refused 1, rule {rule}")));
    }
    std::fs::write(out, bytes).map_err(|error| failed(out, error))
}

fn print(args: &[String]) -> Result<(), Failure> {
    if wants_help(args) {
        return show(PRINT_USAGE);
    }
    let words: Vec<&str> = args.iter().map(String::as_str).collect();
    let (description, records, out) = match words[..] {
        [description, records] => (description, records, None),
        [description, records, "-o", out] | ["-o", out, description, records] => {
            (description, records, Some(out))
        }
        _ => return Err(Failure::Usage(PRINT_USAGE)),
    };
    let description = read(description)?;
    let input = File::open(records).map_err(|error| failed(records, error))?;
    let rows = Rows { input: BufReader::new(input), name: records };
    with_output(out, |output| print_rows(&description, rows, output))
}

fn feed(args: &[String]) -> Result<(), Failure> {
    if wants_help(args) {
        return show(FEED_USAGE);
    }
    let (mut description, mut longest, mut out) = (None, LONGEST_CHUNK, None);
    let mut words = args.iter().map(String::as_str);
    while let Some(word) = words.next() {
        match word {
            "-n" => longest = words.next().and_then(chunk_length).ok_or(Failure::Usage(FEED_USAGE))?,
            "-o" => out = Some(words.next().ok_or(Failure::Usage(FEED_USAGE))?),
            _ if description.is_none() => description = Some(word),
            _ => return Err(Failure::Usage(FEED_USAGE)),
        }
    }
    let description = read(description.ok_or(Failure::Usage(FEED_USAGE))?)?;
    with_output(out, |output| feed_pieces(&description, longest, output))
}

fn chunk_length(word: &str) -> Option<usize> {
    word.parse().ok().filter(|length| (1..=LONGEST_CHUNK).contains(length))
}

/// Where the sheet goes.
struct Output<'a> {
    to: BufWriter<Box<dyn Write>>,
    name: &'a str,
}

impl Output<'_> {
    fn write(&mut self, bytes: &[u8]) -> Result<(), Failure> {
        self.to.write_all(bytes).map_err(|error| failed(self.name, error))
    }

    fn flush(&mut self) -> Result<(), Failure> {
        self.to.flush().map_err(|error| failed(self.name, error))
    }
}

/// Lends an output: OUT or standard output. What was printed before a failure is handed on too.
fn with_output(
    out: Option<&str>,
    print: impl FnOnce(&mut Output) -> Result<(), Failure>,
) -> Result<(), Failure> {
    let to: Box<dyn Write> = match out {
        None => Box::new(io::stdout()),
        Some(name) => Box::new(File::create(name).map_err(|error| failed(name, error))?),
    };
    let mut output = Output { to: BufWriter::new(to), name: out.unwrap_or("standard output") };
    let outcome = print(&mut output);
    let flushed = output.flush();
    outcome.and(flushed)
}

/// The record file, read row by row.
struct Rows<'a> {
    input: BufReader<File>,
    name: &'a str,
}

impl Rows<'_> {
    /// The next row, at most `length` bytes long; shorter only at the end of the file.
    fn next(&mut self, length: u16) -> Result<Vec<u8>, Failure> {
        let mut row = Vec::with_capacity(usize::from(length));
        let mut part = self.input.by_ref().take(u64::from(length));
        part.read_to_end(&mut row).map_err(|error| failed(self.name, error))?;
        Ok(row)
    }
}

/// INITIATE, GENERATE every row as detail 0, TERMINATE.
fn print_rows(description: &[u8], mut rows: Rows, output: &mut Output) -> Result<(), Failure> {
    let answer = initiate(description, &State::fresh());
    accepted(answer.number, answer.extra, "INITIATE")?;
    let mut state = answer.state;
    let record_length = record_length(description);
    let mut out = vec![0; 1 << 16];
    for number in 1u64.. {
        let row = rows.next(record_length)?;
        if row.is_empty() && number == 1 {
            return Err(Failure::Line(format!("second: {}: the file is empty", rows.name)));
        }
        let (call, answer) = if row.is_empty() {
            let answer = with_room(&mut out, |out| terminate(description, &state, out));
            (format!("TERMINATE after row {}", number - 1), answer)
        } else {
            let answer = with_room(&mut out, |out| generate(description, &state, 0, &row, out));
            (format!("GENERATE of row {number}"), answer)
        };
        accepted(answer.number, answer.extra, &call)?;
        output.write(&out[..answer.count])?;
        if row.is_empty() {
            break;
        }
        state = answer.state;
    }
    Ok(())
}

/// Makes a call again with more output as long as it is refused for want of it.
fn with_room(out: &mut Vec<u8>, call: impl Fn(&mut [u8]) -> Answer) -> Answer {
    loop {
        let answer = call(out);
        if answer.number != 9 {
            return answer;
        }
        out.resize(2 * out.len(), 0);
    }
}

fn accepted(number: u8, extra: u32, call: &str) -> Result<(), Failure> {
    if number == 0 {
        return Ok(());
    }
    Err(Failure::Line(format!("second: {call} refused: refusal {number}, extra number {extra}")))
}

/// The length of a record; 0 under no description.
fn record_length(description: &[u8]) -> u16 {
    description::check(description).map_or(0, |description| description.r)
}

/// INITIATE, the bytes of standard input through the feeder, TERMINATE.
fn feed_pieces(description: &[u8], longest: usize, output: &mut Output) -> Result<(), Failure> {
    let answer = feeder::initiate(description, &Feeder::fresh(0));
    accepted(answer.number, answer.extra, "INITIATE")?;
    let mut fed = Fed { description, feeder: answer.feeder, taken: 0, out: vec![0; 1 << 16], output };
    let mut piece = vec![0; longest];
    loop {
        let length = read_piece(&mut piece)?;
        if length == 0 {
            return fed.terminate();
        }
        fed.feed(&piece[..length])?;
        // The next piece may be long in coming.
        fed.output.flush()?;
    }
}

/// One read of standard input; 0 at its end.
fn read_piece(piece: &mut [u8]) -> Result<usize, Failure> {
    loop {
        match io::stdin().read(piece) {
            Err(error) if error.kind() == io::ErrorKind::Interrupted => {}
            outcome => return outcome.map_err(|error| failed("standard input", error)),
        }
    }
}

/// A feeder with its output.
struct Fed<'a, 'b> {
    description: &'a [u8],
    feeder: Feeder,
    /// Bytes taken of all pieces.
    taken: usize,
    out: Vec<u8>,
    output: &'a mut Output<'b>,
}

impl Fed<'_, '_> {
    /// The rows whose bytes are all taken.
    fn rows(&self) -> usize {
        self.taken / usize::from(record_length(self.description))
    }

    fn feed(&mut self, piece: &[u8]) -> Result<(), Failure> {
        let mut rest = piece;
        while !rest.is_empty() {
            let answer = feeder::feed(self.description, &self.feeder, rest, &mut self.out);
            self.output.write(&self.out[..answer.printed])?;
            self.feeder = answer.feeder;
            self.taken += answer.taken;
            rest = &rest[answer.taken..];
            match answer.number {
                // The row had all of the output and wants more.
                9 if answer.printed == 0 => self.double(),
                // It is tried again with all of the output.
                9 => {}
                number => accepted(number, answer.extra, &format!("GENERATE of row {}", self.rows() + 1))?,
            }
        }
        Ok(())
    }

    fn terminate(mut self) -> Result<(), Failure> {
        if self.taken == 0 {
            return Err(Failure::Line("second: standard input is empty".to_string()));
        }
        let mut answer = feeder::terminate(self.description, &self.feeder, &mut self.out);
        while answer.number == 9 {
            self.double();
            answer = feeder::terminate(self.description, &self.feeder, &mut self.out);
        }
        accepted(answer.number, answer.extra, &format!("TERMINATE after row {}", self.rows()))?;
        self.output.write(&self.out[..answer.printed])
    }

    fn double(&mut self) {
        self.out.resize(2 * self.out.len(), 0);
    }
}

fn explain(args: &[String]) -> Result<(), Failure> {
    if wants_help(args) {
        return show(EXPLAIN_USAGE);
    }
    let [description, records, page, line] = args else {
        return Err(Failure::Usage(EXPLAIN_USAGE));
    };
    let number = |word: &str| word.parse::<u32>().map_err(|_| Failure::Usage(EXPLAIN_USAGE));
    let (page, line) = (number(page)?, number(line)?);
    let bytes = read(description)?;
    let answer = initiate(&bytes, &State::fresh());
    accepted(answer.number, answer.extra, "INITIATE")?;
    let mut asked = Asked {
        explainer: explainer(description, &bytes)?,
        description: &bytes,
        state: answer.state,
        out: vec![0; 1 << 16],
        page,
        line,
    };
    let rows = read(records)?;
    if rows.is_empty() {
        return Err(Failure::Line(format!("second: {records}: the file is empty")));
    }
    show(&asked.explanation(&rows)?)
}

/// An explainer of a report just initiated, if the description keeps R-6's condition.
fn explainer(name: &str, bytes: &[u8]) -> Result<Explainer, Failure> {
    let mut explainer =
        Explainer::new(bytes).map_err(|rule| Failure::Line(format!("refused 1, rule {rule}")))?;
    if let Some(counter) = explain::first_outside(explainer.description()) {
        let why = format!("counter {counter} feeds another and has a reset level senior to its group's");
        return Err(Failure::Line(format!("second: {name}: outside R-6: {why}")));
    }
    explainer.enter(&Call::Initiate);
    Ok(explainer)
}

/// A printed line that is asked about, and the report so far.
struct Asked<'a> {
    description: &'a [u8],
    explainer: Explainer,
    state: State,
    out: Vec<u8>,
    page: u32,
    line: u32,
}

impl Asked<'_> {
    /// The calls one after the other, up to the one that prints the line; what is to be said of it.
    fn explanation(&mut self, rows: &[u8]) -> Result<String, Failure> {
        let length = usize::from(self.explainer.description().r);
        for (row, number) in rows.chunks(length).zip(1..) {
            let call = Call::Generate { d: 0, record: row.to_vec() };
            if let Some(text) = self.make(&call, &format!("GENERATE of row {number}"))? {
                return Ok(text);
            }
        }
        let name = format!("TERMINATE after row {}", rows.len().div_ceil(length));
        let (page, line) = (self.page, self.line);
        let none = || Failure::Line(format!("second: there is no line {line} on page {page}"));
        self.make(&Call::Terminate, &name)?.ok_or_else(none)
    }

    /// Makes one call. Where it prints the line, says what is to be said of it.
    fn make(&mut self, call: &Call, name: &str) -> Result<Option<String>, Failure> {
        let (description, state) = (self.description, &self.state);
        let answer = with_room(&mut self.out, |out| match call {
            Call::Initiate => initiate(description, state),
            Call::Generate { d, record } => generate(description, state, *d, record, out),
            Call::Terminate => terminate(description, state, out),
        });
        accepted(answer.number, answer.extra, name)?;
        if let Some((nth, line)) = explain::line_at(&self.explainer, state, call, self.page, self.line) {
            let items = self.explainer.description().items_of(line);
            let bytes = usize::from(self.explainer.description().w) + 10;
            return self.told(items, &self.out[nth * bytes..][..bytes], call).map(Some);
        }
        self.explainer.enter(call);
        self.state = answer.state;
        Ok(None)
    }

    /// The sums among a line's items, each with what the line shows of it and what makes it up.
    fn told(&self, items: &[Item], line: &[u8], call: &Call) -> Result<String, Failure> {
        let explanations = self.explainer.explain(call);
        let mut text = format!("page {}, line {}\n", self.page, self.line);
        for item in items.iter().filter(|item| item.source == SUM) {
            let of_item = |explanation: &&Explanation| explanation.counter == usize::from(item.index);
            let Some(explanation) = explanations.iter().find(of_item) else { continue };
            let shown = &line[8 + usize::from(item.column)..][..usize::from(item.width)];
            text += &format!("column {} shows \"{}\"\n", item.column, String::from_utf8_lossy(shown));
            text += &told_sum(explanation);
        }
        if text.lines().count() == 1 {
            let (page, line) = (self.page, self.line);
            return Err(Failure::Line(format!("second: line {line} on page {page} shows no sum")));
        }
        Ok(text)
    }
}

/// A counter's total and the amounts that make it up.
fn told_sum(explanation: &Explanation) -> String {
    let mut text = format!("  counter {}, total {}\n", explanation.counter, explanation.total);
    for share in &explanation.shares {
        let (row, field, amount, times) = (share.row + 1, share.field, share.amount, share.times);
        text += &format!("  row {row}, field {field}: amount {amount}, times {times}\n");
    }
    text
}

fn two(args: &[String]) -> Result<(), Failure> {
    if wants_help(args) {
        return show(TWO_USAGE);
    }
    let [description, code_1, records_1, code_2, records_2, options @ ..] = args else {
        return Err(Failure::Usage(TWO_USAGE));
    };
    let (mut list, mut out) = (None, None);
    for option in options.chunks(2) {
        match option {
            [name, value] if name == "--order" => list = Some(value),
            [name, value] if name == "-o" => out = Some(value.as_str()),
            _ => return Err(Failure::Usage(TWO_USAGE)),
        }
    }
    let code = |word: &str| code(word).ok_or(Failure::Usage(TWO_USAGE));
    let codes = [code(code_1)?, code(code_2)?];
    let description = read(description)?;
    let files = [Whole::read(records_1)?, Whole::read(records_2)?];
    let list = list.map(|name| Whole::read(name)).transpose()?;
    with_output(out, |output| {
        let out = vec![0; 1 << 16];
        let common = Common { description: &description, two: TwoAgents::fresh(codes), out, output };
        common.print(&files, list.as_ref())
    })
}

/// A code given as a word; `None` for a word of any other length.
fn code(word: &str) -> Option<[u8; CODE_BYTES]> {
    word.as_bytes().try_into().ok()
}

/// A file read whole.
struct Whole<'a> {
    name: &'a str,
    bytes: Vec<u8>,
}

impl Whole<'_> {
    fn read(name: &str) -> Result<Whole<'_>, Failure> {
        Ok(Whole { name, bytes: read(name)? })
    }

    fn failed(&self, what: &str) -> Failure {
        Failure::Line(format!("second: {}: {what}", self.name))
    }
}

/// Two agents with their common output.
struct Common<'a, 'b> {
    description: &'a [u8],
    two: TwoAgents,
    /// The common output: what is printed, then room.
    out: Vec<u8>,
    output: &'a mut Output<'b>,
}

impl Common<'_, '_> {
    /// INITIATE of both, GENERATE of every row as detail 0, TERMINATE of both.
    fn print(mut self, files: &[Whole; 2], list: Option<&Whole>) -> Result<(), Failure> {
        let description = self.description;
        for agent in [0, 1] {
            let name = format!("INITIATE of agent {}", agent + 1);
            self.call(&name, |two, _| two::initiate(description, two, agent))?;
        }
        if let Some(empty) = files.iter().find(|file| file.bytes.is_empty()) {
            return Err(empty.failed("the file is empty"));
        }
        let length = usize::from(record_length(description));
        let rows = files.each_ref().map(|file| file.bytes.chunks(length).collect::<Vec<_>>());
        let mut taken = [0, 0];
        for agent in order(list, rows.each_ref().map(Vec::len))? {
            let row = rows[agent][taken[agent]];
            taken[agent] += 1;
            let name = format!("GENERATE of row {} of agent {}", taken[agent], agent + 1);
            self.call(&name, |two, out| two::generate(description, two, agent, 0, row, out))?;
        }
        for agent in [0, 1] {
            let name = format!("TERMINATE after row {} of agent {}", taken[agent], agent + 1);
            self.call(&name, |two, out| two::terminate(description, two, agent, out))?;
        }
        Ok(())
    }

    /// Makes a call, again with more output as long as it is refused for want of it, and hands on what it prints.
    fn call(
        &mut self,
        name: &str,
        call: impl Fn(&TwoAgents, &mut [u8]) -> two::Answer,
    ) -> Result<(), Failure> {
        let mut answer = call(&self.two, &mut self.out);
        while answer.number == 9 {
            self.out.resize(2 * self.out.len(), 0);
            answer = call(&self.two, &mut self.out);
        }
        accepted(answer.number, answer.extra, name)?;
        self.output.write(&self.out[self.two.start as usize..][..answer.count])?;
        self.two = answer.next;
        Ok(())
    }
}

/// Whose row is next, for all rows of both agents, 0 and 1: as the list has it, then in turn, the first agent first.
fn order(list: Option<&Whole>, rows: [usize; 2]) -> Result<Vec<usize>, Failure> {
    let mut left = rows;
    let mut order = match list {
        Some(list) => named(list, &mut left)?,
        None => Vec::new(),
    };
    while left != [0, 0] {
        for agent in [0, 1] {
            if left[agent] > 0 {
                left[agent] -= 1;
                order.push(agent);
            }
        }
    }
    Ok(order)
}

/// The agents that a list names, each taken off the rows left.
fn named(list: &Whole, left: &mut [usize; 2]) -> Result<Vec<usize>, Failure> {
    let mut agents = Vec::new();
    for (character, place) in list.bytes.iter().zip(1u64..) {
        let agent = match character {
            b'1' => 0,
            b'2' => 1,
            b' ' | b'\n' | b'\r' => continue,
            _ => return Err(list.failed(&format!("character {place} is neither 1 nor 2"))),
        };
        if left[agent] == 0 {
            let what = format!("character {place} names agent {}, who has no row left", agent + 1);
            return Err(list.failed(&what));
        }
        left[agent] -= 1;
        agents.push(agent);
    }
    Ok(agents)
}

fn apart(args: &[String]) -> Result<(), Failure> {
    if wants_help(args) {
        return show(APART_USAGE);
    }
    let words: Vec<&str> = args.iter().map(String::as_str).collect();
    let (width, file, word, out) = match words[..] {
        [width, file, word] => (width, file, word, None),
        [width, file, word, "-o", out] | ["-o", out, width, file, word] => (width, file, word, Some(out)),
        _ => return Err(Failure::Usage(APART_USAGE)),
    };
    let (Some(width), Some(code)) = (line_width(width), code(word)) else {
        return Err(Failure::Usage(APART_USAGE));
    };
    let sheet = two::take_apart(&read(file)?, width, code);
    with_output(out, |output| output.write(&sheet))
}

/// D2: "W 1 to 132".
fn line_width(word: &str) -> Option<usize> {
    word.parse().ok().filter(|width| (1..=132).contains(width))
}

fn read_back(args: &[String]) -> Result<(), Failure> {
    if wants_help(args) {
        return show(READ_USAGE);
    }
    let [width, name] = args else {
        return Err(Failure::Usage(READ_USAGE));
    };
    let width = width.parse().map_err(|_| Failure::Usage(READ_USAGE))?;
    let sheet = Whole::read(name)?;
    with_output(None, |output| read_records(&sheet, width, output))
}

/// Each record in a line; any W goes in, for the reader refuses those outside 1 to 132.
fn read_records(sheet: &Whole, width: usize, output: &mut Output) -> Result<(), Failure> {
    let mut walker = Walker::new(&sheet.bytes, width);
    loop {
        let read = walker.step().map_err(|refusal| bad_sheet(sheet, refusal, walker.place()))?;
        let ReadBack::Record(record) = read else { return Ok(()) };
        output.write(format!("{} {} ", record.page, record.line).as_bytes())?;
        output.write(walker.text(&record))?;
        output.write(b"\n")?;
    }
}

fn bad_sheet(sheet: &Whole, refusal: Refusal, offset: usize) -> Failure {
    let Refusal { number, extra } = refusal;
    sheet.failed(&format!("reading at offset {offset} refused: refusal {number}, extra number {extra}"))
}

fn repair(args: &[String]) -> Result<(), Failure> {
    if wants_help(args) {
        return show(REPAIR_USAGE);
    }
    let (mut names, mut out, mut list) = (Vec::new(), None, None);
    let mut words = args.iter().map(String::as_str);
    while let Some(word) = words.next() {
        match word {
            "-o" => out = Some(words.next().ok_or(Failure::Usage(REPAIR_USAGE))?),
            "-l" => list = Some(words.next().ok_or(Failure::Usage(REPAIR_USAGE))?),
            _ => names.push(word),
        }
    }
    let [width, name] = names[..] else {
        return Err(Failure::Usage(REPAIR_USAGE));
    };
    let width = width.parse().map_err(|_| Failure::Usage(REPAIR_USAGE))?;
    repair_sheet(&Whole::read(name)?, width, out, list)
}

/// Writes the copy and the list, then tells the drops.
fn repair_sheet(sheet: &Whole, width: usize, out: Option<&str>, list: Option<&str>) -> Result<(), Failure> {
    let repaired = repaired(&sheet.bytes, width).map_err(|Refusal { number, extra }| {
        sheet.failed(&format!("repair refused: refusal {number}, extra number {extra}"))
    })?;
    with_output(out, |output| output.write(&repaired.copy))?;
    if let Some(list) = list {
        std::fs::write(list, repaired.list()).map_err(|error| failed(list, error))?;
    }
    told_drops(sheet, &repaired.dropped)
}

/// A line for each dropped record, then their count; nothing where none is.
fn told_drops(sheet: &Whole, dropped: &[Dropped]) -> Result<(), Failure> {
    for Dropped { offset, reason } in dropped {
        let why = if *reason == FORM { "form" } else { "order" };
        eprintln!("second: {}: dropped at offset {offset}: out of {why}", sheet.name);
    }
    if dropped.is_empty() {
        return Ok(());
    }
    let form = dropped.iter().filter(|dropped| dropped.reason == FORM).count();
    let order = dropped.len() - form;
    Err(sheet.failed(&format!("{} dropped: {form} out of form, {order} out of order", dropped.len())))
}
