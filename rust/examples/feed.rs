//! `feed DESCRIPTION < RECORDS`: the sheet of records that come on standard input in whatever pieces, by the feeder's calls
//! from Rust. The lines of a piece are out before the next piece is read.

use std::io::{self, ErrorKind, Read, Write};
use std::process::ExitCode;

use bailcurlew::{Fed, Feeder, LONGEST_CHUNK};

/// More than any one record prints: 1,216 lines of 142 bytes (docs/DECISIONS.md, A-20). A piece of many records may print
/// more.
const ROOM: usize = 172_672;

/// The refusal of an output that is too short.
const NO_ROOM: u64 = 9;

struct Sheet {
    description: Vec<u8>,
    feeder: Feeder,
    output: Vec<u8>,
    /// Bytes of records taken so far.
    taken: usize,
}

impl Sheet {
    fn begin(description: Vec<u8>) -> Result<Sheet, String> {
        let mut feeder = Feeder::fresh(0);
        let begun = feeder.initiate(&description);
        if !begun.accepted() {
            return Err(format!("INITIATE: {}", reason(begun)));
        }
        Ok(Sheet { description, feeder, output: vec![0; ROOM], taken: 0 })
    }

    /// Feeds a piece and prints its lines. Where the output is full, what it has is printed and the rest is fed again.
    fn feed(&mut self, mut piece: &[u8]) -> Result<(), String> {
        while !piece.is_empty() {
            let fed = self.feeder.feed(&self.description, piece, &mut self.output);
            print(&self.output[..fed.count])?;
            self.taken += fed.taken;
            piece = &piece[fed.taken..];
            let may_go_on = fed.number == NO_ROOM && fed.taken > 0;
            if !fed.accepted() && !may_go_on {
                return Err(format!("record {}: {}", self.whole_records() + 1, reason(fed)));
            }
        }
        Ok(())
    }

    fn end(&mut self) -> Result<(), String> {
        let ended = self.feeder.terminate(&self.description, &mut self.output);
        print(&self.output[..ended.count])?;
        if !ended.accepted() {
            return Err(format!("TERMINATE after {} records: {}", self.whole_records(), reason(ended)));
        }
        Ok(())
    }

    /// R, at least 1, stands last but one in the trailer of a description that INITIATE has accepted.
    fn whole_records(&self) -> usize {
        let at = self.description.len() - 4;
        let length = u16::from_le_bytes([self.description[at], self.description[at + 1]]);
        self.taken / usize::from(length)
    }
}

fn reason(refused: Fed) -> String {
    match refused {
        Fed { number: 1, extra, .. } => format!("the description breaks rule {extra}"),
        Fed { number: 6, extra, .. } => format!("field {extra}, counted from 0, is malformed"),
        Fed { number: 7, .. } => "a sum would leave its range".to_string(),
        Fed { number: 8, .. } => "the page after 999,999 would be needed".to_string(),
        Fed { number: 10, extra, .. } => format!("the last record is unfinished, {extra} bytes of it came"),
        other => format!("refusal {}, extra number {}", other.number, other.extra),
    }
}

fn print(lines: &[u8]) -> Result<(), String> {
    let mut out = io::stdout().lock();
    out.write_all(lines).and_then(|()| out.flush()).map_err(|error| format!("standard output: {error}"))
}

/// The next bytes that come, at most a chunk; none at the end.
fn next_piece(chunk: &mut [u8; LONGEST_CHUNK]) -> Result<&[u8], String> {
    loop {
        match io::stdin().lock().read(chunk) {
            Ok(count) => return Ok(&chunk[..count]),
            Err(error) if error.kind() == ErrorKind::Interrupted => {}
            Err(error) => return Err(format!("standard input: {error}")),
        }
    }
}

fn run(path: &str) -> Result<(), String> {
    let description = std::fs::read(path).map_err(|error| format!("{path}: {error}"))?;
    let mut sheet = Sheet::begin(description)?;
    let mut chunk = [0; LONGEST_CHUNK];
    loop {
        let piece = next_piece(&mut chunk)?;
        if piece.is_empty() {
            return sheet.end();
        }
        sheet.feed(piece)?;
    }
}

fn main() -> ExitCode {
    let args: Vec<String> = std::env::args().collect();
    let [_, path] = &args[..] else {
        eprintln!("usage: feed DESCRIPTION < RECORDS");
        return ExitCode::from(2);
    };
    match run(path) {
        Ok(()) => ExitCode::SUCCESS,
        Err(message) => {
            eprintln!("feed: {message}");
            ExitCode::FAILURE
        }
    }
}
