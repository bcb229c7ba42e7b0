//! States that no call has given: in order but far away, and damaged ones.

use super::draft::Draft;
use super::rng::Rng;
use super::rows;
use crate::state::{State, IDLE, RUNNING, STARTED};

pub const LAST_PAGE: u32 = 999_999;
pub const LARGEST_SUM: i64 = 999_999_999_999_999_999;

/// An idle state with anything in it that the ranges allow.
pub fn idle(rng: &mut Rng, draft: &Draft) -> State {
    let mut state = State::fresh();
    state.page = page(rng);
    state.line = rng.number(0, draft.page.p);
    state.seen = rng.below(2) as u8;
    state.saved = rng.number(0, 999);
    state.sums.iter_mut().for_each(|sum| *sum = any_sum(rng));
    state.flags.iter_mut().for_each(|flag| *flag = rng.below(2) as u8);
    state.kept.iter_mut().for_each(|byte| *byte = rng.byte());
    state
}

/// A running state in order, often near a limit; `None` where no record can be well formed.
pub fn running(rng: &mut Rng, draft: &Draft, kept: &[u8]) -> Option<State> {
    if rows::first_malformed(draft, kept).is_some() {
        return None;
    }
    let limits = &draft.page;
    let mut state = State::fresh();
    state.phase = RUNNING;
    state.page = page(rng);
    state.seen = u8::from(rng.chance(80));
    state.line = match state.seen {
        0 => rng.number(0, limits.fd - 1),
        _ if rng.chance(50) => limits.ft,
        _ => rng.number(limits.fd, limits.ft),
    };
    if state.seen == 1 && state.line == limits.ft && rng.chance(75) {
        let any = rng.number(limits.fd, limits.ft);
        state.saved = rng.pick(&[limits.fd, limits.fd, limits.ft, any]);
    }
    let near_the_limit = rng.chance(50);
    for sum in &mut state.sums[..draft.counters.len()] {
        *sum = if near_the_limit { any_sum(rng) } else { small_sum(rng) };
    }
    state.flags[..draft.details()].iter_mut().for_each(|flag| *flag = rng.below(2) as u8);
    state.kept[..kept.len()].copy_from_slice(kept);
    Some(state)
}

fn page(rng: &mut Rng) -> u32 {
    match rng.below(10) {
        0..=1 => LAST_PAGE - rng.below(3) as u32,
        2 => rng.between(1, LAST_PAGE as usize) as u32,
        _ => rng.between(1, 120) as u32,
    }
}

/// Of a few digits, often where a picture becomes too narrow: 10^k - 1 and 10^k, of either sign.
fn small_sum(rng: &mut Rng) -> i64 {
    let power = 10i64.pow(rng.below(7) as u32);
    match rng.below(6) {
        0 => power - 1,
        1 => power,
        2 => 1 - power,
        3 => -power,
        _ => rng.below(1000) as i64,
    }
}

fn any_sum(rng: &mut Rng) -> i64 {
    let sum = match rng.below(6) {
        0 => LARGEST_SUM,
        1 => LARGEST_SUM - rng.below(10) as i64,
        2 => LARGEST_SUM / 2 + rng.below(3) as i64,
        3 => (rng.draw() % LARGEST_SUM as u64) as i64,
        _ => rng.below(100_000) as i64,
    };
    if rng.chance(50) {
        -sum
    } else {
        sum
    }
}

/// A state that breaks its rules in one place, whatever its phase, with the name of the damage.
/// `state` keeps them.
pub fn damaged(rng: &mut Rng, draft: &Draft, state: &State) -> (State, &'static str) {
    loop {
        let mut damaged = state.clone();
        let name = match state.phase {
            IDLE => out_of_range(rng, draft, &mut damaged),
            STARTED if rng.chance(60) => no_longer_fresh(rng, draft, &mut damaged),
            RUNNING if rng.chance(70) => not_running_so(rng, draft, &mut damaged),
            _ => out_of_range(rng, draft, &mut damaged),
        };
        if let Some(name) = name {
            return (damaged, name);
        }
    }
}

/// Names of all damages.
pub const DAMAGES: [&str; 23] = [
    "phase",
    "page",
    "line",
    "seen",
    "saved",
    "sum",
    "flag",
    "started page",
    "started line",
    "started seen",
    "started saved",
    "started sum",
    "started flag",
    "started kept",
    "seen and line",
    "not seen and line",
    "saved and not seen",
    "saved and line",
    "saved outside",
    "sum beyond",
    "flag beyond",
    KEPT_RECORD,
    "kept beyond",
];

/// The damage of a kept record that is not well formed.
pub const KEPT_RECORD: &str = "kept record";

/// Something no phase allows.
fn out_of_range(rng: &mut Rng, draft: &Draft, state: &mut State) -> Option<&'static str> {
    let damage = rng.below(7);
    match damage {
        0 => state.phase = rng.pick(&[3, 4, 255]),
        1 => state.page = rng.pick(&[0, LAST_PAGE + 1, u32::MAX]),
        2 => state.line = rng.pick(&[draft.page.p + 1, 65535]),
        3 => state.seen = rng.pick(&[2, 3, 255]),
        4 => state.saved = rng.pick(&[1000, 65535]),
        5 => {
            let past = [LARGEST_SUM + 1, -LARGEST_SUM - 1, i64::MAX, i64::MIN];
            state.sums[rng.below(32)] = rng.pick(&past);
        }
        _ => state.flags[rng.below(8)] = rng.pick(&[2, 128, 255]),
    }
    Some(DAMAGES[damage])
}

/// Something in range that a started state may not have.
fn no_longer_fresh(rng: &mut Rng, draft: &Draft, state: &mut State) -> Option<&'static str> {
    let damage = 7 + rng.below(7);
    match damage {
        7 => state.page = rng.pick(&[2, LAST_PAGE]),
        8 => state.line = rng.pick(&[1, draft.page.p]),
        9 => state.seen = 1,
        10 => state.saved = rng.pick(&[1, draft.page.fd, 999]),
        11 => state.sums[rng.below(32)] = rng.pick(&[1, -1, LARGEST_SUM]),
        12 => state.flags[rng.below(8)] = 1,
        _ => state.kept[rng.below(256)] = rng.pick(&[1, 32, 255]),
    }
    Some(DAMAGES[damage])
}

/// Something in range that a running state may not have; `None` where the draft gives no place.
fn not_running_so(rng: &mut Rng, draft: &Draft, state: &mut State) -> Option<&'static str> {
    let limits = &draft.page;
    // The kept record more often: it can be malformed in many ways.
    let damage = if rng.chance(15) { 21 } else { 14 + rng.below(9) };
    match damage {
        14 => {
            (state.seen, state.saved) = (1, 0);
            state.line = rng.pick(&[0, limits.fd - 1, limits.ft + 1]);
        }
        15 => {
            (state.seen, state.saved) = (0, 0);
            state.line = rng.pick(&[limits.fd, limits.ft, limits.p]);
        }
        16 => {
            (state.seen, state.line) = (0, limits.fd - 1);
            state.saved = rng.pick(&[limits.fd, limits.ft, 1]);
        }
        17 => {
            (state.seen, state.saved) = (1, limits.fd);
            state.line = rng.pick(&[limits.fd, limits.ft - 1]);
            if state.line == limits.ft || state.line < limits.fd {
                return None;
            }
        }
        18 => {
            (state.seen, state.line) = (1, limits.ft);
            state.saved = rng.pick(&[limits.fd - 1, limits.ft + 1, 999]);
            if state.saved == 0 || state.saved == limits.ft {
                return None;
            }
        }
        19 => {
            let beyond = 32 - draft.counters.len();
            (beyond > 0).then(|| state.sums[31 - rng.below(beyond)] = rng.pick(&[1, -1, LARGEST_SUM]))?;
        }
        20 => {
            let beyond = 8 - draft.details();
            (beyond > 0).then(|| state.flags[7 - rng.below(beyond)] = 1)?;
        }
        21 => {
            let kept = &mut state.kept[..draft.record as usize];
            rows::malform(rng, draft, kept);
            rows::first_malformed(draft, kept)?;
        }
        _ => {
            let beyond = 256 - draft.record as usize;
            let any = rng.below(beyond.max(1));
            let at = rng.pick(&[0, beyond.saturating_sub(1), any]);
            (beyond > 0).then(|| state.kept[255 - at] = rng.pick(&[1, 32, b'0', 255]))?;
        }
    }
    Some(DAMAGES[damage])
}
