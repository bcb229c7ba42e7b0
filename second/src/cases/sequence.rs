//! Calls for one description, one after the other, each knowing the answer before.

use std::rc::Rc;

use super::draft::Draft;
use super::rng::Rng;
use super::{rows, states};
use crate::description::{CF, CH, DE, PF, PH, RF, RH};
use crate::report::Answer;
use crate::state::{State, IDLE, RUNNING, STARTED};

pub use crate::report::Call;

/// What the generator knows of the answer beforehand.
#[derive(Clone, Copy, Debug, PartialEq, Eq)]
pub enum Expect {
    /// This number (0 accepted) with this extra number.
    Exactly(u8, u32),
    /// Nothing wrong before the additions: accepted, 7 or 8.
    Late,
    /// As `Late`, and the output may be too short: 9 as well.
    LateOrShort,
}

/// One call to make: all that goes in, and what is known of the answer.
#[derive(Clone, Debug)]
pub struct Step {
    pub state: State,
    pub call: Call,
    /// Length of the output lent to the call.
    pub room: usize,
    /// Chooses the pattern the output is filled with beforehand.
    pub salt: u8,
    pub expect: Expect,
    /// What is special about the step; for a damaged state, the damage.
    pub name: &'static str,
    /// An accepted answer's state is the one to go on with.
    adopt: bool,
}

impl Step {
    /// The output as it is lent: bytes that no line would show in this order.
    pub fn output(&self) -> Vec<u8> {
        (0..self.room).map(|at| pattern(at, self.salt)).collect()
    }

    /// Whether the sequence goes on from an accepted answer's state.
    pub fn goes_on(&self) -> bool {
        self.adopt
    }
}

/// The byte at a place of an output that no call has written.
pub fn pattern(at: usize, salt: u8) -> u8 {
    (at as u8).wrapping_mul(89).wrapping_add((at >> 8) as u8).wrapping_add(salt) | 0x80
}

/// The steps for one description. The state is handed on from call to call.
#[derive(Clone, Debug)]
pub struct Sequence {
    rng: Rng,
    /// The description taken apart, or the rule it breaks.
    draft: Result<Rc<Draft>, u8>,
    state: State,
    row: Vec<u8>,
    left: usize,
    /// How often, in a hundred steps, it goes on from a state far away.
    jumps: usize,
    /// How often, in a hundred rows, all controls stay as they are.
    calm: usize,
    /// Steps to follow, the next one last.
    waiting: Vec<Step>,
    last: Option<Step>,
}

impl Sequence {
    /// `draft` is `Err` with the broken rule where CHECK does not accept.
    pub fn new(rng: &mut Rng, draft: Result<Draft, u8>, calls: usize) -> Sequence {
        let mut rng = rng.fork();
        let row = draft.as_ref().map_or(Vec::new(), |draft| rows::fresh(&mut rng, draft));
        let draft = draft.map(Rc::new);
        let jumps = rng.pick(&[0, 0, 30, 60]);
        Sequence {
            rng,
            draft,
            state: State::fresh(),
            row,
            left: calls,
            jumps,
            calm: 0,
            waiting: Vec::new(),
            last: None,
        }
    }

    /// The same, never going on from a state far away: the calls it goes on from make one run from a fresh state. Some
    /// have longer groups of rows between their breaks.
    pub fn from_fresh(rng: &mut Rng, draft: Result<Draft, u8>, calls: usize) -> Sequence {
        let calm = rng.pick(&[0, 40, 70, 85]);
        Sequence { jumps: 0, calm, ..Sequence::new(rng, draft, calls) }
    }

    pub fn draft(&self) -> Result<&Draft, u8> {
        self.draft.as_deref().map_err(|rule| *rule)
    }

    /// The next step, given the answer to the one before; `None` when all are done.
    pub fn step(&mut self, last: Option<&Answer>) -> Option<Step> {
        if let (Some(step), Some(answer)) = (self.last.take(), last) {
            self.learn(step, answer);
        }
        self.left = self.left.checked_sub(1)?;
        let step = match (self.waiting.pop(), self.draft.clone()) {
            (Some(step), _) => step,
            (None, Ok(draft)) => self.invent(&draft),
            (None, Err(rule)) => self.refused(rule),
        };
        self.last = Some(step.clone());
        Some(step)
    }

    fn learn(&mut self, step: Step, answer: &Answer) {
        if answer.number != 0 {
            return;
        }
        if step.name == PROBE {
            self.try_other_rooms(step, answer.count);
        } else if step.adopt {
            self.state = answer.state.clone();
            if let Call::Generate { record, .. } = step.call {
                self.row = record;
            }
        }
    }

    /// The same call with too little room, then with just enough or a little more.
    fn try_other_rooms(&mut self, step: Step, count: usize) {
        let more = self.rng.pick(&[0, 0, 1, 7]);
        let expect = Expect::Exactly(0, 0);
        self.waiting.push(Step { room: count + more, expect, name: ENOUGH, adopt: true, ..step.clone() });
        if count > 0 {
            let any = self.rng.below(count);
            let room = self.rng.pick(&[count - 1, count - 1, 0, any]);
            self.waiting.push(Step { room, expect: Expect::Exactly(9, 0), name: SHORT, ..step });
        }
    }
}

const ORDINARY: &str = "ordinary";
const PROBE: &str = "ample room, then others";
const SHORT: &str = "too little room";
const ENOUGH: &str = "just enough room";
const ANY_ROOM: &str = "any room";
const FAULTY: &str = "faulty";
const BROKEN: &str = "broken description";

/// Names of the steps whose state is in order.
pub const MANNERS: [&str; 7] = [ORDINARY, PROBE, SHORT, ENOUGH, ANY_ROOM, FAULTY, BROKEN];

// ---- steps in order

impl Sequence {
    fn invent(&mut self, draft: &Draft) -> Step {
        if self.rng.chance(20) {
            return self.faulty(draft);
        }
        if self.rng.chance(self.jumps) {
            self.jump(draft);
        }
        self.ordinary(draft)
    }

    /// Goes on from a state far away instead, but one in order.
    fn jump(&mut self, draft: &Draft) {
        if self.rng.chance(15) {
            self.state = states::idle(&mut self.rng, draft);
            return;
        }
        if self.rng.chance(30) {
            self.row = rows::fresh(&mut self.rng, draft);
        }
        if let Some(state) = states::running(&mut self.rng, draft, &self.row) {
            self.state = state;
        }
    }

    /// The call that the phase asks for.
    fn ordinary(&mut self, draft: &Draft) -> Step {
        let call = match self.state.phase {
            IDLE => Call::Initiate,
            _ if self.rng.chance(6) => Call::Terminate,
            _ => {
                let mut record = rows::after(&mut self.rng, draft, &self.row);
                if self.calm > 0 && self.rng.chance(self.calm) {
                    rows::copy_controls(draft, &self.row, &mut record);
                }
                Call::Generate { d: self.rng.below(draft.details()) as u32, record }
            }
        };
        let expect = expectation(draft, &self.state, &call);
        let mut step = self.with_ample_room(draft, self.state.clone(), call, expect);
        match self.rng.below(10) {
            0..=2 if expect == Expect::Late => (step.name, step.adopt) = (PROBE, false),
            3 if expect == Expect::Late => {
                step.room = self.rng.between(0, step.room);
                step.expect = Expect::LateOrShort;
                step.name = ANY_ROOM;
            }
            _ => {}
        }
        step
    }

    fn with_ample_room(&mut self, draft: &Draft, state: State, call: Call, expect: Expect) -> Step {
        let room = most_lines(draft) * line_bytes(draft) + self.rng.below(9);
        Step { state, call, room, salt: self.rng.byte(), expect, name: ORDINARY, adopt: true }
    }
}

/// Bytes of a printed line: page, line, W characters and the end.
pub fn line_bytes(draft: &Draft) -> usize {
    draft.width as usize + 10
}

/// No call prints more lines than this: each body group once, with two page changes before it.
pub fn most_lines(draft: &Draft) -> usize {
    let once = draft.lines_of(RH) + draft.lines_of(PH) + draft.lines_of(PF) + draft.lines_of(RF);
    let lines_of = |kind: u16| draft.groups.iter().filter(move |g| g.kind == kind).map(|g| g.lines.len());
    let body: usize = lines_of(CH).sum::<usize>() + lines_of(CF).sum::<usize>();
    let detail = lines_of(DE).max().unwrap_or(0);
    let turns = 2 * (draft.groups_of(CH).len() + draft.groups_of(CF).len() + 1);
    once + body + detail + turns * (draft.lines_of(PF) + draft.lines_of(PH))
}

/// What a call with a state in order must answer, its room ample.
fn expectation(draft: &Draft, state: &State, call: &Call) -> Expect {
    let idle = state.phase == IDLE;
    match call {
        Call::Initiate => Expect::Exactly(if idle { 0 } else { 3 }, 0),
        _ if idle => Expect::Exactly(3, 0),
        Call::Terminate if state.phase == STARTED => Expect::Exactly(0, 0),
        Call::Terminate => Expect::Late,
        Call::Generate { d, .. } if *d as usize >= draft.details() => Expect::Exactly(4, 0),
        Call::Generate { record, .. } if record.len() != draft.record as usize => Expect::Exactly(5, 0),
        Call::Generate { record, .. } => {
            rows::first_malformed(draft, record).map_or(Expect::Late, |field| Expect::Exactly(6, field))
        }
    }
}

// ---- steps with something wrong

impl Sequence {
    /// A call with one thing wrong or more; the first of them in the table's order decides.
    fn faulty(&mut self, draft: &Draft) -> Step {
        let call = match self.rng.below(20) {
            0..=2 => Call::Initiate,
            3..=5 => Call::Terminate,
            _ => self.faulty_generate(draft),
        };
        let right = match call {
            Call::Initiate => IDLE,
            _ => self.rng.pick(&[STARTED, RUNNING, RUNNING]),
        };
        let phase = if self.rng.chance(20) { self.rng.below(3) as u8 } else { right };
        let state = self.state_in(draft, phase);
        let expect = expectation(draft, &state, &call);
        let mut step = self.with_ample_room(draft, state, call, expect);
        (step.name, step.adopt) = (FAULTY, false);
        if self.rng.chance(40) {
            (step.state, step.name) = states::damaged(&mut self.rng, draft, &step.state);
            step.expect = Expect::Exactly(2, 0);
        }
        if self.rng.chance(30) {
            step.room = self.rng.between(0, 2 * line_bytes(draft));
            if step.expect == Expect::Late {
                step.expect = Expect::LateOrShort;
            }
        }
        step
    }

    fn faulty_generate(&mut self, draft: &Draft) -> Call {
        let mut d = self.rng.below(draft.details()) as u32;
        let mut record = rows::after(&mut self.rng, draft, &self.row);
        if self.rng.chance(25) {
            let details = draft.details() as u32;
            d = self.rng.pick(&[details, details, details + 1, 8, 255, 256 + d, 65536 + d, u32::MAX]);
        }
        if self.rng.chance(60) {
            rows::malform(&mut self.rng, draft, &mut record);
        }
        if self.rng.chance(25) {
            let length = record.len();
            let any = self.rng.between(0, 300);
            let length = self.rng.pick(&[0, length - 1, length + 1, length + 1, 2 * length, 256, 257, any]);
            record.resize(length, b'0');
        }
        Call::Generate { d, record }
    }

    /// A state of this phase that keeps the rules: the one at hand where it has that phase.
    fn state_in(&mut self, draft: &Draft, phase: u8) -> State {
        if self.state.phase == phase {
            return self.state.clone();
        }
        let started = State { phase: STARTED, ..State::fresh() };
        match phase {
            IDLE if self.rng.chance(50) => State::fresh(),
            IDLE => states::idle(&mut self.rng, draft),
            RUNNING => states::running(&mut self.rng, draft, &self.row).unwrap_or(started),
            _ => started,
        }
    }

    /// Any call on a description that breaks a rule.
    fn refused(&mut self, rule: u8) -> Step {
        let mut state = State::fresh();
        state.phase = self.rng.below(4) as u8;
        state.page = self.rng.below(3) as u32;
        state.seen = self.rng.below(3) as u8;
        let record: Vec<u8> = (0..self.rng.below(20)).map(|_| self.rng.byte()).collect();
        let d = self.rng.below(3) as u32;
        let call = match self.rng.below(3) {
            0 => Call::Initiate,
            1 => Call::Terminate,
            _ => Call::Generate { d, record },
        };
        let room = self.rng.pick(&[0, 200]);
        let expect = Expect::Exactly(1, u32::from(rule));
        Step { state, call, room, salt: self.rng.byte(), expect, name: BROKEN, adopt: false }
    }
}
