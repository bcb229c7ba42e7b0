//! `sheet DESCRIPTION RECORDS`: the sheet of a record file, by the calls from Rust.

use std::io::{self, Write};
use std::process::ExitCode;

use bailcurlew::State;

/// More than any one call prints: 1,216 lines of 142 bytes (docs/DECISIONS.md, A-20).
const ROOM: usize = 172_672;

/// R stands last but one in the trailer.
fn record_length(description: &[u8]) -> usize {
    let at = description.len() - 4;
    usize::from(u16::from_le_bytes([description[at], description[at + 1]]))
}

fn main() -> io::Result<ExitCode> {
    let args: Vec<String> = std::env::args().collect();
    let [_, description, records] = &args[..] else {
        eprintln!("usage: sheet DESCRIPTION RECORDS");
        return Ok(ExitCode::from(2));
    };
    let (description, records) = (std::fs::read(description)?, std::fs::read(records)?);
    let mut state = State::fresh();
    let begun = state.initiate(&description);
    if !begun.accepted() {
        eprintln!("INITIATE: {begun:?}");
        return Ok(ExitCode::FAILURE);
    }
    let mut output = vec![0; ROOM];
    for (row, record) in records.chunks(record_length(&description)).enumerate() {
        let answer = state.generate(&description, 0, record, &mut output);
        if !answer.accepted() {
            eprintln!("GENERATE, row {}: {answer:?}", row + 1);
            return Ok(ExitCode::FAILURE);
        }
        io::stdout().write_all(&output[..answer.count])?;
    }
    let ended = state.terminate(&description, &mut output);
    io::stdout().write_all(&output[..ended.count])?;
    Ok(ExitCode::SUCCESS)
}
