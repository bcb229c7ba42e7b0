//! The calls INITIATE, GENERATE and TERMINATE, with their refusals in the table's order.

use crate::description::{check, Description};
use crate::place::{self, Place};
use crate::print;
use crate::record;
use crate::state::{State, IDLE, STARTED};
use crate::turns::{self, Turn};

/// One call: INITIATE, GENERATE a record as detail number `d`, or TERMINATE.
#[derive(Clone, Debug, PartialEq, Eq)]
pub enum Call {
    Initiate,
    Generate { d: u32, record: Vec<u8> },
    Terminate,
}

#[derive(Clone, Debug, PartialEq, Eq)]
pub struct Answer {
    /// 0 accepted, else the refusal number.
    pub number: u8,
    /// The refusal's extra number.
    pub extra: u32,
    /// Bytes written.
    pub count: usize,
    /// The next state; the state handed in when refused.
    pub state: State,
}

/// A refusal: its number and its extra number.
struct Refusal(u8, u32);

/// INITIATE.
pub fn initiate(desc: &[u8], state: &State) -> Answer {
    answer(state, try_initiate(desc, state))
}

/// GENERATE one record as detail number `d`.
pub fn generate(desc: &[u8], state: &State, d: u32, record: &[u8], out: &mut [u8]) -> Answer {
    answer(state, try_generate(desc, state, d, record, out))
}

/// TERMINATE.
pub fn terminate(desc: &[u8], state: &State, out: &mut [u8]) -> Answer {
    answer(state, try_terminate(desc, state, out))
}

/// "Every refusal returns its number, count 0 and the state handed in"; "acceptance returns the next state and
/// the count of bytes written".
fn answer(state: &State, outcome: Result<(usize, State), Refusal>) -> Answer {
    match outcome {
        Ok((count, next)) => Answer { number: 0, extra: 0, count, state: next },
        Err(Refusal(number, extra)) => Answer { number, extra, count: 0, state: state.clone() },
    }
}

fn try_initiate(desc: &[u8], state: &State) -> Result<(usize, State), Refusal> {
    checked(desc, state)?;
    if state.phase != IDLE {
        return Err(Refusal(3, 0));
    }
    // "INITIATE yields started, from any idle state."
    Ok((0, State::started()))
}

fn try_generate(
    desc: &[u8],
    state: &State,
    number: u32,
    record: &[u8],
    out: &mut [u8],
) -> Result<(usize, State), Refusal> {
    let d = checked(desc, state)?;
    if state.phase == IDLE {
        return Err(Refusal(3, 0));
    }
    let detail = d.detail(number).ok_or(Refusal(4, 0))?;
    if record.len() != usize::from(d.r) {
        return Err(Refusal(5, 0));
    }
    if let Some(field) = record::malformed_field(&d, record) {
        return Err(Refusal(6, field as u32));
    }
    let mut next = state.clone();
    let turns =
        turns::of_generate(&d, &mut next, number as usize, detail, record).map_err(|_| Refusal(7, 0))?;
    let count = put(&d, state, &mut next, &turns, record, out)?;
    Ok((count, next))
}

fn try_terminate(desc: &[u8], state: &State, out: &mut [u8]) -> Result<(usize, State), Refusal> {
    let d = checked(desc, state)?;
    if state.phase == IDLE {
        return Err(Refusal(3, 0));
    }
    let mut next = state.clone();
    // "Idle after, the rest as these steps leave it."
    next.phase = IDLE;
    // "TERMINATE when started prints nothing."
    if state.phase == STARTED {
        return Ok((0, next));
    }
    let turns = turns::of_terminate(&d, &mut next).map_err(|_| Refusal(7, 0))?;
    let count = put(&d, state, &mut next, &turns, &[], out)?;
    Ok((count, next))
}

/// Refusals 1 and 2.
fn checked(desc: &[u8], state: &State) -> Result<Description, Refusal> {
    let d = check(desc).map_err(|rule| Refusal(1, u32::from(rule)))?;
    if !state.keeps_its_rules(&d) {
        return Err(Refusal(2, 0));
    }
    Ok(d)
}

/// Places the groups due and prints them; refusals 8 and 9. Gives the count of bytes written.
fn put(
    d: &Description,
    state: &State,
    next: &mut State,
    turns: &[Turn],
    record: &[u8],
    out: &mut [u8],
) -> Result<usize, Refusal> {
    // The flags that a break sets are set already. Page changes only set more, and the detail, which alone reads
    // one, prints last: so the order of setting does not show.
    let (landed, place) = place::land(d, place_of(next), turns).map_err(|_| Refusal(8, 0))?;
    let count = print::bytes_needed(d, &landed);
    if out.len() < count {
        return Err(Refusal(9, 0));
    }
    print::write(d, &landed, &state.kept[..usize::from(d.r)], record, out);
    next.page = place.page;
    next.line = place.line as u16;
    next.seen = u8::from(place.seen);
    next.saved = place.saved as u16;
    next.flags = place.flags;
    Ok(count)
}

/// The place on the sheet that a state tells.
pub fn place_of(state: &State) -> Place {
    Place {
        page: state.page,
        line: u32::from(state.line),
        seen: state.seen == 1,
        saved: u32::from(state.saved),
        flags: state.flags,
    }
}
