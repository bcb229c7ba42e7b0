//! The same call of a report file made of both programs, and all that it leaves compared byte for byte.

pub mod tally;

use bailcurlew::{Agent, ReportFile, REPORT_FILE_BYTES, STATE_BYTES};
use second::cases::pattern;
use second::two;

pub type FileBytes = [u8; REPORT_FILE_BYTES];

/// Where the codes and the place stand; the states are in front.
pub const CODES_AT: usize = 1060;
pub const PLACE_AT: usize = 1064;

pub const AGENTS: [Agent; 2] = [Agent::First, Agent::Second];

#[derive(Clone, Copy, Debug, PartialEq, Eq)]
pub enum Call<'a> {
    Initiate,
    Generate { detail: usize, record: &'a [u8] },
    Terminate,
}

/// All that goes into a call, but for the output.
#[derive(Clone, Copy, Debug)]
pub struct Asked<'a> {
    pub desc: &'a [u8],
    pub file: FileBytes,
    pub agent: Agent,
    pub call: Call<'a>,
    /// So many bytes of the output are lent.
    pub room: usize,
}

/// All that a call leaves, but for the output.
#[derive(Clone, Debug, PartialEq, Eq)]
pub struct Left {
    pub number: u64,
    pub extra: u64,
    pub count: usize,
    pub file: FileBytes,
}

// ---- the bytes of a report file

pub fn place(file: &FileBytes) -> u64 {
    u64::from_le_bytes(std::array::from_fn(|at| file[PLACE_AT + at]))
}

pub fn set_place(file: &mut FileBytes, place: u64) {
    file[PLACE_AT..].copy_from_slice(&place.to_le_bytes());
}

pub fn code(file: &FileBytes, agent: Agent) -> [u8; 2] {
    let at = CODES_AT + 2 * agent as usize;
    [file[at], file[at + 1]]
}

pub fn state(file: &FileBytes, agent: Agent) -> [u8; STATE_BYTES] {
    std::array::from_fn(|at| file[STATE_BYTES * agent as usize + at])
}

pub fn set_state(file: &mut FileBytes, agent: Agent, state: &[u8; STATE_BYTES]) {
    let at = STATE_BYTES * agent as usize;
    file[at..at + STATE_BYTES].copy_from_slice(state);
}

pub fn other(agent: Agent) -> Agent {
    match agent {
        Agent::First => Agent::Second,
        Agent::Second => Agent::First,
    }
}

// ---- the common output

const GUARD: u8 = 0x5a;
const GUARDS: usize = 64;

/// An output of each program's own, alike byte for byte between the calls. Guards stand around the library's.
pub struct Outputs {
    library: Vec<u8>,
    second: Vec<u8>,
}

impl Outputs {
    /// Of bytes that no line would show.
    pub fn lent(length: usize, salt: u8) -> Outputs {
        let second: Vec<u8> = (0..length).map(|at| pattern(at, salt)).collect();
        Outputs { library: [&[GUARD; GUARDS], second.as_slice(), &[GUARD; GUARDS]].concat(), second }
    }

    pub fn bytes(&self) -> &[u8] {
        &self.second
    }

    /// Where they part, or where a guard is touched.
    fn difference(&self) -> Option<String> {
        let (before, rest) = self.library.split_at(GUARDS);
        let (bytes, after) = rest.split_at(self.second.len());
        if before.iter().chain(after).any(|&byte| byte != GUARD) {
            return Some("bytes beside the output are touched".to_string());
        }
        if bytes == self.second {
            return None;
        }
        let at = bytes.iter().zip(&self.second).position(|(byte, right)| byte != right)?;
        Some(format!("output byte {at}: {} left, {} wanted", bytes[at], self.second[at]))
    }
}

/// Makes the call of both programs; what they both leave, or where they part.
pub fn both(asked: &Asked, outputs: &mut Outputs) -> Result<Left, String> {
    let left = library(asked, &mut outputs.library[GUARDS..GUARDS + asked.room]);
    let wanted = second_program(asked, &mut outputs.second[..asked.room]);
    match difference(&left, &wanted).or_else(|| outputs.difference()) {
        None => Ok(left),
        Some(what) => Err(format!("{what}; {asked:?}")),
    }
}

// ---- the two programs

/// The proved call. Bytes around the report file must stay as they were too.
fn library(asked: &Asked, output: &mut [u8]) -> Left {
    let guard = ReportFile::from_bytes([GUARD; REPORT_FILE_BYTES]);
    let mut files = [guard.clone(), ReportFile::from_bytes(asked.file), guard.clone()];
    let file = &mut files[1];
    let answer = match asked.call {
        Call::Initiate => file.initiate(asked.desc, asked.agent),
        Call::Generate { detail, record } => file.generate(asked.desc, asked.agent, detail, record, output),
        Call::Terminate => file.terminate(asked.desc, asked.agent, output),
    };
    assert!(files[0] == guard && files[2] == guard, "bytes beside the report file are touched");
    Left { number: answer.number, extra: answer.extra, count: answer.count, file: *files[1].as_bytes() }
}

fn second_program(asked: &Asked, output: &mut [u8]) -> Left {
    let mut file = asked.file;
    let agent = asked.agent as usize;
    let answer = match asked.call {
        Call::Initiate => two::bytes::initiate(asked.desc, &mut file, agent),
        Call::Generate { detail, record } => {
            // It takes 32 bits; no detail stands at any of those that do not fit.
            let detail = u32::try_from(detail).unwrap_or(u32::MAX);
            two::bytes::generate(asked.desc, &mut file, agent, detail, record, output)
        }
        Call::Terminate => two::bytes::terminate(asked.desc, &mut file, agent, output),
    };
    Left { number: answer.number.into(), extra: answer.extra.into(), count: answer.count, file }
}

// ---- where they part

fn difference(left: &Left, wanted: &Left) -> Option<String> {
    let answer = |left: &Left| (left.number, left.extra, left.count);
    if answer(left) != answer(wanted) {
        return Some(format!("{:?} answered, {:?} wanted", answer(left), answer(wanted)));
    }
    if left.file == wanted.file {
        return None;
    }
    let at = left.file.iter().zip(&wanted.file).position(|(byte, right)| byte != right)?;
    let (byte, right) = (left.file[at], wanted.file[at]);
    Some(format!("report file, {}: {byte} left, {right} wanted", part_of_file(at)))
}

fn part_of_file(at: usize) -> String {
    match at {
        0..=529 => format!("byte {at} of the first state"),
        530..=1059 => format!("byte {} of the second state", at - STATE_BYTES),
        1060..=1063 => format!("code byte {}", at - CODES_AT),
        _ => format!("byte {} of the place", at - PLACE_AT),
    }
}
