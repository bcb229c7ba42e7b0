//! Two agents, one printer file, request R-7 (document 02): two reports of one description print into one output, each
//! line with its agent's code in front.

use crate::description::{check, Description};
use crate::print::line_bytes;
use crate::report;
use crate::state::{bytes_at, State, STATE_BYTES};

/// Two states, two codes of 2 bytes, 8 bytes of start.
pub const TWO_AGENTS_BYTES: usize = 2 * STATE_BYTES + 2 * CODE_BYTES + 8;

/// Source document 003, CODE: "a literal of two characters".
pub const CODE_BYTES: usize = 2;

/// "Each has a state and a code of two characters." The agents are numbered 0 and 1.
#[derive(Clone, Debug, PartialEq, Eq)]
pub struct TwoAgents {
    pub states: [State; 2],
    pub codes: [[u8; CODE_BYTES]; 2],
    /// Where in the common output the next call begins: "where the accepted call before ended, the first at 0".
    pub start: u64,
}

impl TwoAgents {
    /// Two fresh reports; nothing printed.
    pub fn fresh(codes: [[u8; CODE_BYTES]; 2]) -> TwoAgents {
        TwoAgents { states: [State::fresh(), State::fresh()], codes, start: 0 }
    }

    /// Numbers low byte first: the states, the codes, the start.
    pub fn to_bytes(&self) -> [u8; TWO_AGENTS_BYTES] {
        let mut bytes = [0; TWO_AGENTS_BYTES];
        bytes[..530].copy_from_slice(&self.states[0].to_bytes());
        bytes[530..1060].copy_from_slice(&self.states[1].to_bytes());
        bytes[1060..1062].copy_from_slice(&self.codes[0]);
        bytes[1062..1064].copy_from_slice(&self.codes[1]);
        bytes[1064..].copy_from_slice(&self.start.to_le_bytes());
        bytes
    }

    /// The two agents whose `to_bytes` are these, whatever they are.
    pub fn from_bytes(bytes: &[u8; TWO_AGENTS_BYTES]) -> TwoAgents {
        TwoAgents {
            states: [State::from_bytes(&bytes_at(bytes, 0)), State::from_bytes(&bytes_at(bytes, 530))],
            codes: [bytes_at(bytes, 1060), bytes_at(bytes, 1062)],
            start: u64::from_le_bytes(bytes_at(bytes, 1064)),
        }
    }

    /// "11, equal codes or a code byte outside 32 to 126": both codes are asked, whichever agent calls.
    fn codes_are_right(&self) -> bool {
        let [first, second] = self.codes;
        first != second && self.codes.concat().iter().all(|byte| (32..=126).contains(byte))
    }
}

#[derive(Clone, Debug, PartialEq, Eq)]
pub struct Answer {
    /// 0 accepted, else the refusal number.
    pub number: u8,
    /// The refusal's extra number.
    pub extra: u32,
    /// Bytes written, from the start handed in on.
    pub count: usize,
    /// What the next call gets; what was handed in when refused.
    pub next: TwoAgents,
}

/// A refusal: its number and its extra number.
struct Refusal(u8, u32);

/// An agent's INITIATE. It prints nothing and is lent no output, so the start does not matter to it.
pub fn initiate(desc: &[u8], two: &TwoAgents, agent: usize) -> Answer {
    answer(two, agent, try_initiate(desc, two, agent))
}

/// An agent's GENERATE of one record as detail number `detail`. `out` is the whole common output.
pub fn generate(
    desc: &[u8],
    two: &TwoAgents,
    agent: usize,
    detail: u32,
    record: &[u8],
    out: &mut [u8],
) -> Answer {
    let call = |state: &State, room: &mut [u8]| report::generate(desc, state, detail, record, room);
    answer(two, agent, try_to_print(desc, two, agent, out, call))
}

/// An agent's TERMINATE. `out` is the whole common output.
pub fn terminate(desc: &[u8], two: &TwoAgents, agent: usize, out: &mut [u8]) -> Answer {
    let call = |state: &State, room: &mut [u8]| report::terminate(desc, state, room);
    answer(two, agent, try_to_print(desc, two, agent, out, call))
}

/// An accepted call's count and the agent's next state. "Nothing the other does alters a state": the other's stays.
fn answer(two: &TwoAgents, agent: usize, outcome: Result<(usize, State), Refusal>) -> Answer {
    let mut next = two.clone();
    match outcome {
        Ok((count, state)) => {
            next.states[agent] = state;
            next.start += count as u64;
            Answer { number: 0, extra: 0, count, next }
        }
        Err(Refusal(number, extra)) => Answer { number, extra, count: 0, next },
    }
}

fn try_initiate(desc: &[u8], two: &TwoAgents, agent: usize) -> Result<(usize, State), Refusal> {
    checked(desc, two)?;
    accepted(report::initiate(desc, &two.states[agent]))
}

/// GENERATE or TERMINATE: `call` makes the report's own with a state and some room.
fn try_to_print(
    desc: &[u8],
    two: &TwoAgents,
    agent: usize,
    out: &mut [u8],
    call: impl Fn(&State, &mut [u8]) -> report::Answer,
) -> Result<(usize, State), Refusal> {
    let d = checked(desc, two)?;
    let state = &two.states[agent];
    let Some(room) = room_left(two.start, out) else {
        // The refusals before 9, whatever the call prints; then "9 also for a start past the output's end".
        accepted(call(state, &mut []))?;
        return Err(Refusal(9, 0));
    };
    // The report has room for as many lines without the code as there is room for with it.
    let most_lines = room.len() / coded_bytes(&d);
    let (bytes, next) = accepted(call(state, &mut room[..most_lines * line_bytes(&d)]))?;
    let count = bytes / line_bytes(&d) * coded_bytes(&d);
    put_code(two.codes[agent], line_bytes(&d), &mut room[..count]);
    Ok((count, next))
}

/// Refusal 1, and "11 ... after 1".
fn checked(desc: &[u8], two: &TwoAgents) -> Result<Description, Refusal> {
    let d = check(desc).map_err(|rule| Refusal(1, u32::from(rule)))?;
    if !two.codes_are_right() {
        return Err(Refusal(11, 0));
    }
    Ok(d)
}

fn accepted(answer: report::Answer) -> Result<(usize, State), Refusal> {
    match answer.number {
        0 => Ok((answer.count, answer.state)),
        number => Err(Refusal(number, answer.extra)),
    }
}

/// "The room left in the common output"; `None` for a start past its end.
fn room_left(start: u64, out: &mut [u8]) -> Option<&mut [u8]> {
    out.get_mut(usize::try_from(start).ok()?..)
}

/// The bytes of one printed record, "W + 12 bytes in all".
fn coded_bytes(d: &Description) -> usize {
    CODE_BYTES + line_bytes(d)
}

/// Source document 003, CODE, general rules: the literal "is placed in the first two character positions of each logical
/// record of the report"; these positions "are not included in the description of the print line, but are included in
/// the size of the logical record". Lines of `line` bytes stand back to back at the front of a place that they fill with
/// their codes; the last one moves first, for each moves towards the end.
fn put_code(code: [u8; CODE_BYTES], line: usize, place: &mut [u8]) {
    let coded = CODE_BYTES + line;
    for nth in (0..place.len() / coded).rev() {
        let start = nth * coded;
        place.copy_within(nth * line..(nth + 1) * line, start + CODE_BYTES);
        place[start..start + CODE_BYTES].copy_from_slice(&code);
    }
}

/// "Lines carrying one code, taken in order", "with the code taken off": an ordinary sheet of lines of `w` characters.
/// What stands behind the last whole record is no line.
pub fn take_apart(file: &[u8], w: usize, code: [u8; CODE_BYTES]) -> Vec<u8> {
    let records = file.chunks_exact(w.saturating_add(12));
    let lines = records.filter_map(|record| record.strip_prefix(&code));
    lines.flatten().copied().collect()
}

/// The same calls on the two agents' 1072 bytes, which become the next ones.
pub mod bytes {
    use super::{Answer, TwoAgents, CODE_BYTES, TWO_AGENTS_BYTES};

    pub fn fresh(codes: [[u8; CODE_BYTES]; 2]) -> [u8; TWO_AGENTS_BYTES] {
        TwoAgents::fresh(codes).to_bytes()
    }

    pub fn initiate(desc: &[u8], two: &mut [u8; TWO_AGENTS_BYTES], agent: usize) -> Answer {
        left(two, super::initiate(desc, &TwoAgents::from_bytes(two), agent))
    }

    pub fn generate(
        desc: &[u8],
        two: &mut [u8; TWO_AGENTS_BYTES],
        agent: usize,
        detail: u32,
        record: &[u8],
        out: &mut [u8],
    ) -> Answer {
        left(two, super::generate(desc, &TwoAgents::from_bytes(two), agent, detail, record, out))
    }

    pub fn terminate(desc: &[u8], two: &mut [u8; TWO_AGENTS_BYTES], agent: usize, out: &mut [u8]) -> Answer {
        left(two, super::terminate(desc, &TwoAgents::from_bytes(two), agent, out))
    }

    fn left(two: &mut [u8; TWO_AGENTS_BYTES], answer: Answer) -> Answer {
        *two = answer.next.to_bytes();
        answer
    }
}
