//! `report_file DESCRIPTION CODE RECORDS CODE RECORDS`: the record files of two agents in one output, each line with its
//! agent's code in front, by the calls of a report file from Rust. The agents take turns, row by row; where one has no more,
//! the other goes on.

use std::fs;
use std::io::{self, Write};
use std::process::ExitCode;

use bailcurlew::{Agent, Answer, ReportFile};

/// More than any one call prints: 1,216 lines of 144 bytes (docs/DECISIONS.md, A-20).
const ROOM: usize = 175_104;

const AGENTS: [Agent; 2] = [Agent::First, Agent::Second];

struct Sheets {
    description: Vec<u8>,
    file: ReportFile,
    /// What the calls have printed, and room for the next one.
    output: Vec<u8>,
}

impl Sheets {
    fn begin(description: Vec<u8>, codes: [[u8; 2]; 2]) -> Result<Sheets, String> {
        let mut sheets =
            Sheets { description, file: ReportFile::fresh(codes[0], codes[1]), output: Vec::new() };
        for agent in AGENTS {
            let begun = sheets.file.initiate(&sheets.description, agent);
            accepted(begun, || format!("{agent:?} agent, INITIATE"))?;
        }
        Ok(sheets)
    }

    fn row(&mut self, agent: Agent, number: usize, row: &[u8]) -> Result<(), String> {
        self.make_room();
        let printed = self.file.generate(&self.description, agent, 0, row, &mut self.output);
        accepted(printed, || format!("{agent:?} agent, row {number}"))
    }

    fn end(mut self) -> Result<Vec<u8>, String> {
        for agent in AGENTS {
            self.make_room();
            let ended = self.file.terminate(&self.description, agent, &mut self.output);
            accepted(ended, || format!("{agent:?} agent, TERMINATE"))?;
        }
        self.output.truncate(self.printed());
        Ok(self.output)
    }

    fn make_room(&mut self) {
        self.output.resize(self.printed() + ROOM, 0);
    }

    /// The place of a fresh report file that goes on is what was printed, and so a `usize`.
    fn printed(&self) -> usize {
        self.file.place() as usize
    }
}

fn accepted(answer: Answer, call: impl Fn() -> String) -> Result<(), String> {
    let reason = match answer {
        Answer { number: 0, .. } => return Ok(()),
        Answer { number: 1, extra, .. } => format!("the description breaks rule {extra}"),
        Answer { number: 6, extra, .. } => format!("field {extra}, counted from 0, is malformed"),
        Answer { number: 11, .. } => "the codes are equal, or not of characters 32 to 126".to_string(),
        Answer { number, extra, .. } => format!("refusal {number}, extra number {extra}"),
    };
    Err(format!("{}: {reason}", call()))
}

fn read(path: &str) -> Result<Vec<u8>, String> {
    fs::read(path).map_err(|error| format!("{path}: {error}"))
}

fn code(text: &str) -> Result<[u8; 2], String> {
    text.as_bytes().try_into().map_err(|_| format!("a code has two characters, not {text:?}"))
}

fn run([description, first, first_rows, second, second_rows]: [&str; 5]) -> Result<(), String> {
    let mut sheets = Sheets::begin(read(description)?, [code(first)?, code(second)?])?;
    let records = [read(first_rows)?, read(second_rows)?];
    // R, at least 1, stands last but one in the trailer of a description that INITIATE has accepted.
    let at = sheets.description.len() - 4;
    let length = usize::from(u16::from_le_bytes([sheets.description[at], sheets.description[at + 1]]));
    let mut rows = records.each_ref().map(|records| records.chunks(length));
    for number in 1.. {
        let turn = rows.each_mut().map(|rows| rows.next());
        if turn == [None, None] {
            break;
        }
        for (agent, row) in AGENTS.into_iter().zip(turn) {
            row.map_or(Ok(()), |row| sheets.row(agent, number, row))?;
        }
    }
    let lines = sheets.end()?;
    io::stdout().write_all(&lines).map_err(|error| format!("standard output: {error}"))
}

fn main() -> ExitCode {
    let args: Vec<String> = std::env::args().collect();
    let args: Vec<&str> = args.iter().map(String::as_str).collect();
    let Ok([_, told @ ..]) = <[&str; 6]>::try_from(args) else {
        eprintln!("usage: report_file DESCRIPTION CODE RECORDS CODE RECORDS");
        return ExitCode::from(2);
    };
    match run(told) {
        Ok(()) => ExitCode::SUCCESS,
        Err(message) => {
            eprintln!("report_file: {message}");
            ExitCode::FAILURE
        }
    }
}
