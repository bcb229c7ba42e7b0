//! The same call of the feeder made of both programs, and all that it leaves compared byte for byte.

pub mod material;
pub mod tally;

use bailcurlew::{Fed, Feeder, FEEDER_BYTES};
use second::cases::pattern;
use second::feeder;

pub type FeederBytes = [u8; FEEDER_BYTES];

/// Where the detail number, the count of bytes held and those bytes stand; the state is in front.
pub const DETAIL_AT: usize = 530;
pub const HELD_AT: usize = 538;
pub const TAIL_AT: usize = 540;

#[derive(Clone, Copy, Debug, PartialEq, Eq)]
pub enum Call<'a> {
    Initiate,
    Feed(&'a [u8]),
    Discard,
    Terminate,
}

/// All that goes into a call.
#[derive(Clone, Debug)]
pub struct Asked<'a> {
    pub desc: &'a [u8],
    pub feeder: FeederBytes,
    pub call: Call<'a>,
    /// The output as it is lent, with what no call has written.
    pub output: Vec<u8>,
}

/// All that a call leaves; discard answers nothing, which stands here as 0.
#[derive(Clone, Debug, PartialEq, Eq)]
pub struct Left {
    pub number: u64,
    pub extra: u64,
    pub count: usize,
    pub taken: usize,
    pub feeder: FeederBytes,
    pub output: Vec<u8>,
}

/// An output as it is lent: bytes that no line would show.
pub fn lent(room: usize, salt: u8) -> Vec<u8> {
    (0..room).map(|at| pattern(at, salt)).collect()
}

/// The count of bytes held.
pub fn held(feeder: &FeederBytes) -> usize {
    usize::from(u16::from_le_bytes([feeder[HELD_AT], feeder[HELD_AT + 1]]))
}

/// Makes the call of both programs; what they both leave, or where they part.
pub fn both(asked: &Asked) -> Result<Left, String> {
    let left = library(asked);
    let wanted = second_program(asked);
    match difference(&left, &wanted) {
        None => Ok(left),
        Some(what) => Err(format!(
            "{what}; description {:?}, feeder {:?}, call {:?}, room {}",
            asked.desc,
            asked.feeder,
            asked.call,
            asked.output.len()
        )),
    }
}

// ---- the two programs

const GUARD: u8 = 0x5a;
const GUARDS: usize = 64;
const NONE: Fed = Fed { number: 0, extra: 0, count: 0, taken: 0 };

/// The proved call. Bytes around the output and around the feeder must stay as they were too.
pub fn library(asked: &Asked) -> Left {
    let guard = Feeder::from_bytes([GUARD; FEEDER_BYTES]);
    let mut feeders = [guard.clone(), Feeder::from_bytes(asked.feeder), guard.clone()];
    let mut buffer = [&[GUARD; GUARDS], asked.output.as_slice(), &[GUARD; GUARDS]].concat();
    let lent = GUARDS..GUARDS + asked.output.len();
    let (feeder, output) = (&mut feeders[1], &mut buffer[lent.clone()]);
    let fed = match asked.call {
        Call::Initiate => feeder.initiate(asked.desc),
        Call::Feed(chunk) => feeder.feed(asked.desc, chunk, output),
        Call::Terminate => feeder.terminate(asked.desc, output),
        Call::Discard => {
            feeder.discard();
            NONE
        }
    };
    assert!(feeders[0] == guard && feeders[2] == guard, "bytes beside the feeder are touched");
    let (before, after) = (&buffer[..lent.start], &buffer[lent.end..]);
    assert!(before.iter().chain(after).all(|&byte| byte == GUARD), "bytes beside the output are touched");
    buffer.truncate(lent.end);
    Left {
        number: fed.number,
        extra: fed.extra,
        count: fed.count,
        taken: fed.taken,
        feeder: *feeders[1].as_bytes(),
        output: buffer.split_off(lent.start),
    }
}

fn second_program(asked: &Asked) -> Left {
    let mut bytes = asked.feeder;
    let mut output = asked.output.clone();
    let answer = match asked.call {
        Call::Initiate => Some(feeder::bytes::initiate(asked.desc, &mut bytes)),
        Call::Feed(chunk) => Some(feeder::bytes::feed(asked.desc, &mut bytes, chunk, &mut output)),
        Call::Terminate => Some(feeder::bytes::terminate(asked.desc, &mut bytes, &mut output)),
        Call::Discard => {
            feeder::bytes::discard(&mut bytes);
            None
        }
    };
    let (number, extra, count, taken) =
        answer.map_or((0, 0, 0, 0), |a| (a.number.into(), a.extra.into(), a.printed, a.taken));
    Left { number, extra, count, taken, feeder: bytes, output }
}

// ---- where they part

fn difference(left: &Left, wanted: &Left) -> Option<String> {
    let answer = |left: &Left| (left.number, left.extra, left.count, left.taken);
    if answer(left) != answer(wanted) {
        return Some(format!("{:?} answered, {:?} wanted", answer(left), answer(wanted)));
    }
    if let Some(at) = first_difference(&left.feeder, &wanted.feeder) {
        let (byte, right) = (left.feeder[at], wanted.feeder[at]);
        return Some(format!("feeder, {}: {byte} left, {right} wanted", part_of_feeder(at)));
    }
    let at = first_difference(&left.output, &wanted.output)?;
    let (byte, right) = (left.output[at], wanted.output[at]);
    Some(format!("output byte {at}: {byte} left, {right} wanted"))
}

fn first_difference(left: &[u8], wanted: &[u8]) -> Option<usize> {
    if left == wanted {
        return None;
    }
    left.iter().zip(wanted).position(|(byte, right)| byte != right)
}

fn part_of_feeder(at: usize) -> String {
    match at {
        0..=529 => format!("state byte {at}"),
        530..=537 => "detail number".to_string(),
        538..=539 => "count of bytes held".to_string(),
        _ => format!("tail byte {}", at - TAIL_AT),
    }
}
