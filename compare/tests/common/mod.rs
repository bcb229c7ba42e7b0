//! The same call made of both programs, and all that it leaves compared byte for byte.

use bailcurlew::STATE_BYTES;
use second::{cases, report};

pub type StateBytes = [u8; STATE_BYTES];

#[derive(Clone, Debug)]
pub enum Call<'a> {
    Initiate,
    Generate { detail: usize, record: &'a [u8] },
    Terminate,
}

impl<'a> From<&'a cases::Call> for Call<'a> {
    fn from(call: &'a cases::Call) -> Call<'a> {
        match call {
            cases::Call::Initiate => Call::Initiate,
            cases::Call::Generate { d, record } => Call::Generate { detail: *d as usize, record },
            cases::Call::Terminate => Call::Terminate,
        }
    }
}

/// All that goes into a call.
#[derive(Clone, Debug)]
pub struct Asked<'a> {
    pub desc: &'a [u8],
    pub state: StateBytes,
    pub call: Call<'a>,
    /// The output as it is lent, with what no call has written.
    pub output: Vec<u8>,
}

/// All that a call leaves.
#[derive(Clone, Debug, PartialEq, Eq)]
pub struct Left {
    pub number: u64,
    pub extra: u64,
    pub count: usize,
    pub state: StateBytes,
    pub output: Vec<u8>,
}

impl<'a> Asked<'a> {
    pub fn of_step(desc: &'a [u8], step: &'a cases::Step) -> Asked<'a> {
        let call = Call::from(&step.call);
        Asked { desc, state: step.state.to_bytes(), call, output: step.output() }
    }
}

/// Makes the call of both programs; what they both leave, or where they part.
pub fn both(asked: &Asked) -> Result<Left, String> {
    let left = library(asked);
    let wanted = second_program(asked);
    match difference(&left, &wanted) {
        None => Ok(left),
        Some(what) => Err(format!("{what}; description {:?}, call {:?}", asked.desc, asked.call)),
    }
}

// ---- the two programs

const GUARD: u8 = 0x5a;
const GUARDS: usize = 64;

/// The proved call. Bytes around the output and around the state must stay as they were too.
pub fn library(asked: &Asked) -> Left {
    let guard = bailcurlew::State::from_bytes([GUARD; STATE_BYTES]);
    let mut states = [guard.clone(), bailcurlew::State::from_bytes(asked.state), guard.clone()];
    let mut buffer = [&[GUARD; GUARDS], asked.output.as_slice(), &[GUARD; GUARDS]].concat();
    let lent = GUARDS..GUARDS + asked.output.len();
    let (state, output) = (&mut states[1], &mut buffer[lent.clone()]);
    let answer = match asked.call {
        Call::Initiate => state.initiate(asked.desc),
        Call::Generate { detail, record } => state.generate(asked.desc, detail, record, output),
        Call::Terminate => state.terminate(asked.desc, output),
    };
    assert!(states[0] == guard && states[2] == guard, "bytes beside the state are touched");
    let (before, after) = (&buffer[..lent.start], &buffer[lent.end..]);
    assert!(before.iter().chain(after).all(|&byte| byte == GUARD), "bytes beside the output are touched");
    Left {
        number: answer.number,
        extra: answer.extra,
        count: answer.count,
        state: *states[1].as_bytes(),
        output: buffer[lent].to_vec(),
    }
}

fn second_program(asked: &Asked) -> Left {
    let state = second::state::State::from_bytes(&asked.state);
    let mut output = asked.output.clone();
    let answer = match asked.call {
        Call::Initiate => report::initiate(asked.desc, &state),
        Call::Generate { detail, record } => {
            // It takes 32 bits; no detail stands at any of those that do not fit.
            let detail = u32::try_from(detail).unwrap_or(u32::MAX);
            report::generate(asked.desc, &state, detail, record, &mut output)
        }
        Call::Terminate => report::terminate(asked.desc, &state, &mut output),
    };
    Left {
        number: answer.number.into(),
        extra: answer.extra.into(),
        count: answer.count,
        state: answer.state.to_bytes(),
        output,
    }
}

// ---- where they part

fn difference(left: &Left, wanted: &Left) -> Option<String> {
    let answer = |left: &Left| (left.number, left.extra, left.count);
    if answer(left) != answer(wanted) {
        return Some(format!("{:?} answered, {:?} wanted", answer(left), answer(wanted)));
    }
    if let Some(at) = first_difference(&left.state, &wanted.state) {
        let (byte, right) = (left.state[at], wanted.state[at]);
        return Some(format!("state, {}: {byte} left, {right} wanted", part_of_state(at)));
    }
    let at = first_difference(&left.output, &wanted.output)?;
    let (byte, right) = (left.output[at], wanted.output[at]);
    Some(format!("output byte {at}: {byte} left, {right} wanted"))
}

fn first_difference(left: &[u8], wanted: &[u8]) -> Option<usize> {
    left.iter().zip(wanted).position(|(byte, right)| byte != right)
}

fn part_of_state(at: usize) -> String {
    match at {
        0..=3 => "page".to_string(),
        4..=5 => "line".to_string(),
        6..=7 => "saved".to_string(),
        8 => "phase".to_string(),
        9 => "seen".to_string(),
        10..=17 => format!("flag {}", at - 10),
        18..=273 => format!("sum {}", (at - 18) / 8),
        _ => format!("kept byte {}", at - 274),
    }
}
