//! `read SHEET W`: page, line and text of each record of a printed sheet whose lines have W characters, by the walker from Rust.
//! `read SHEET W COPY`: repairs the sheet into the file COPY and tells what was dropped.

use std::fs;
use std::io::{self, Write};
use std::process::ExitCode;

use bailcurlew::{repair, Refusal, Walker, ENTRY_BYTES, FORM};

/// A line for each record, up to the first bad one.
fn records(sheet: &[u8], w: usize) -> Result<(), String> {
    let mut told = Vec::new();
    let mut walker = Walker::new(sheet, w);
    let refused = walker.try_for_each(|record| {
        let record = record?;
        told.extend(format!("page {} line {}: ", record.page, record.line).bytes());
        told.extend(record.text);
        told.push(b'\n');
        Ok(())
    });
    print(&told)?;
    refused.map_err(|refusal| reason(refusal, w))
}

/// A bad record's place may be 0 too.
fn reason(refusal: Refusal, w: usize) -> String {
    if !(1..=132).contains(&w) {
        return "a line has 1 to 132 characters".to_string();
    }
    format!("no well-formed record at {}", refusal.extra)
}

/// A line for each entry of the list.
fn repaired(sheet: &[u8], w: usize, to: &str) -> Result<(), String> {
    // Room that always suffices.
    let mut copy = vec![0; sheet.len()];
    let mut list = vec![0; sheet.len() + ENTRY_BYTES];
    let answer = repair(sheet, w, &mut copy, &mut list);
    if !answer.accepted() {
        return Err("a line has 1 to 132 characters".to_string());
    }
    fs::write(to, &copy[..answer.copied]).map_err(|error| format!("{to}: {error}"))?;
    let told: String = list[..answer.listed].chunks(ENTRY_BYTES).map(dropped).collect();
    print(told.as_bytes())
}

fn dropped(entry: &[u8]) -> String {
    let offset = u64::from_le_bytes(std::array::from_fn(|at| entry[at]));
    let why = if entry[8] == FORM { "form" } else { "order" };
    format!("dropped at {offset}: {why}\n")
}

fn print(bytes: &[u8]) -> Result<(), String> {
    io::stdout().write_all(bytes).map_err(|error| format!("standard output: {error}"))
}

fn run(sheet: &str, w: &str, copy: Option<&str>) -> Result<(), String> {
    let bytes = fs::read(sheet).map_err(|error| format!("{sheet}: {error}"))?;
    let w = w.parse().map_err(|_| format!("no number: {w:?}"))?;
    match copy {
        Some(copy) => repaired(&bytes, w, copy),
        None => records(&bytes, w),
    }
}

fn main() -> ExitCode {
    let args: Vec<String> = std::env::args().skip(1).collect();
    let args: Vec<&str> = args.iter().map(String::as_str).collect();
    let done = match args[..] {
        [sheet, w] => run(sheet, w, None),
        [sheet, w, copy] => run(sheet, w, Some(copy)),
        _ => {
            eprintln!("usage: read SHEET W [COPY]");
            return ExitCode::from(2);
        }
    };
    match done {
        Ok(()) => ExitCode::SUCCESS,
        Err(message) => {
            eprintln!("read: {message}");
            ExitCode::FAILURE
        }
    }
}
