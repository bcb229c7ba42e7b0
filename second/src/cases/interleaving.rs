//! R-7 by chance: calls of two agents into one output, from fresh states handed on, with refused calls between and outputs
//! that are too short.

use super::draft::Draft;
use super::rng::Rng;
use super::sequence::{line_bytes, pattern, Call, Sequence, Step};
use super::valid::printable;
use super::{accepted_description, description, rows, states};
use crate::description::check;
use crate::report;
use crate::state::State;
use crate::two::{self, Answer, TwoAgents};

/// One call of an agent: all that goes in.
#[derive(Clone, Debug)]
pub struct TwoStep {
    pub two: TwoAgents,
    pub agent: usize,
    pub call: Call,
    /// Length of the whole common output. INITIATE is lent none of it.
    pub length: usize,
    /// What the run has printed so far.
    pub file: Vec<u8>,
    /// Chooses the pattern behind it.
    pub salt: u8,
    /// What is special about the step.
    pub name: &'static str,
    /// The agent's own sequence learns the answer.
    told: bool,
    /// An accepted answer is the one to go on from.
    adopt: bool,
}

impl TwoStep {
    /// The common output as it is lent: the file so far, cut or followed by bytes that no line would show in this order.
    pub fn output(&self) -> Vec<u8> {
        let mut output = self.file[..self.file.len().min(self.length)].to_vec();
        output.extend((output.len()..self.length).map(|at| pattern(at, self.salt)));
        output
    }

    /// Whether the run goes on from an accepted answer.
    pub fn goes_on(&self) -> bool {
        self.adopt
    }
}

/// Makes one call of the second program; gives its answer and what it left of the common output.
pub fn play_two(desc: &[u8], step: &TwoStep) -> (Answer, Vec<u8>) {
    let mut output = step.output();
    let (two, agent) = (&step.two, step.agent);
    let answer = match &step.call {
        Call::Initiate => two::initiate(desc, two, agent),
        Call::Generate { d, record } => two::generate(desc, two, agent, *d, record, &mut output),
        Call::Terminate => two::terminate(desc, two, agent, &mut output),
    };
    (answer, output)
}

/// A description with calls of two agents to make.
#[derive(Clone, Debug)]
pub struct TwoCase {
    /// `two_case` makes the same case of it again.
    pub seed: u64,
    pub desc: Vec<u8>,
    pub steps: Interleaving,
}

/// The case of a seed for R-7: up to 100 calls; nearly all descriptions are accepted.
pub fn two_case(seed: u64) -> TwoCase {
    let mut rng = Rng::new(seed);
    let desc = if rng.chance(92) { accepted_description(&mut rng) } else { description(&mut rng) };
    let steps = Interleaving::new(&mut rng, &desc);
    TwoCase { seed, desc, steps }
}

/// The calls of two agents, each agent's as a `Sequence` has them, the two mixed.
#[derive(Clone, Debug)]
pub struct Interleaving {
    rng: Rng,
    /// The description taken apart, or the rule it breaks.
    draft: Result<Draft, u8>,
    agents: [Sequence; 2],
    /// What each agent's sequence is to be told next.
    answers: [Option<report::Answer>; 2],
    two: TwoAgents,
    file: Vec<u8>,
    /// Whose call was the last, and how often, in a hundred, the same agent calls again.
    turn: usize,
    again: usize,
    last: Option<TwoStep>,
}

impl Interleaving {
    fn new(rng: &mut Rng, desc: &[u8]) -> Interleaving {
        let mut rng = rng.fork();
        let draft = check(desc).map(|_| Draft::read(desc));
        let most = if draft.is_ok() { 50 } else { 10 };
        let mut calls = [rng.between(1, most), rng.between(1, most)];
        if rng.chance(4) {
            // One of the two never calls.
            calls[rng.below(2)] = 0;
        }
        let agents = calls.map(|calls| Sequence::from_fresh(&mut rng, draft.clone(), calls));
        let two = TwoAgents::fresh(codes(&mut rng));
        let again = rng.pick(&[0, 50, 50, 85, 95]);
        let turn = rng.below(2);
        Interleaving {
            rng,
            draft,
            agents,
            answers: [None, None],
            two,
            file: Vec::new(),
            turn,
            again,
            last: None,
        }
    }

    pub fn draft(&self) -> Result<&Draft, u8> {
        self.draft.as_ref().map_err(|rule| *rule)
    }

    /// The two agents as the calls so far leave them.
    pub fn two(&self) -> &TwoAgents {
        &self.two
    }

    /// What the calls so far have printed.
    pub fn file(&self) -> &[u8] {
        &self.file
    }

    /// The next step, given the answer to the one before and the output that it left; `None` when all are done.
    pub fn step(&mut self, last: Option<&(Answer, Vec<u8>)>) -> Option<TwoStep> {
        if let (Some(step), Some((answer, output))) = (self.last.take(), last) {
            self.learn(&step, answer, output);
        }
        if !self.rng.chance(self.again) {
            self.turn = 1 - self.turn;
        }
        let first = self.turn;
        let step = self.step_of(first).or_else(|| self.step_of(1 - first))?;
        self.turn = step.agent;
        self.last = Some(step.clone());
        Some(step)
    }

    fn learn(&mut self, step: &TwoStep, answer: &Answer, output: &[u8]) {
        if !step.told {
            return;
        }
        // The agent's own sequence counts lines without the code.
        let coded = self.line_bytes() + 2;
        let count = answer.count / coded * self.line_bytes();
        let state = answer.next.states[step.agent].clone();
        self.answers[step.agent] =
            Some(report::Answer { number: answer.number, extra: answer.extra, count, state });
        if answer.number == 0 && step.adopt {
            self.file.extend(output.iter().skip(self.file.len()).take(answer.count));
            self.two = answer.next.clone();
        }
    }

    /// Bytes of a line without its code; any number will do where nothing is printed.
    fn line_bytes(&self) -> usize {
        self.draft.as_ref().map_or(1, line_bytes)
    }

    /// An agent's next step, if it has one.
    fn step_of(&mut self, agent: usize) -> Option<TwoStep> {
        let own = self.agents[agent].step(self.answers[agent].take().as_ref())?;
        let adopt = own.goes_on();
        let Step { state, call, room, salt, name, .. } = own;
        let mut two = self.two.clone();
        two.states[agent] = state;
        let length = self.file.len() + self.with_codes(room);
        let file = self.file.clone();
        let mut step = TwoStep { two, agent, call, length, file, salt, name, told: true, adopt };
        let two = step.two.clone();
        while self.rng.chance(25) {
            self.alter(&mut step);
        }
        // What is not the run's does not lead on.
        step.told = step.two == two;
        step.adopt &= step.told;
        Some(step)
    }

    /// Room for as many lines with the code; a byte short of a line stays a byte short.
    fn with_codes(&self, room: usize) -> usize {
        let line = self.line_bytes();
        let rest = room % line;
        room / line * (line + 2) + if rest + 1 == line { rest + 2 } else { rest }
    }
}

pub const EQUAL_CODES: &str = "equal codes";
pub const WRONG_CODE: &str = "code byte outside 32 to 126";
pub const AT_THE_END: &str = "start at the output's end";
pub const PAST_THE_END: &str = "start past the output's end";
pub const FAR_PAST: &str = "start far past the output's end";
pub const ELSEWHERE: &str = "start elsewhere";
pub const OTHER_STATE: &str = "the other's state out of order";
const FAR_STATE: &str = "a state far away";

impl Interleaving {
    /// Changes something that only two agents have, or the state to one near a limit.
    fn alter(&mut self, step: &mut TwoStep) {
        let rng = &mut self.rng;
        step.name = rng.pick(&[
            EQUAL_CODES,
            WRONG_CODE,
            WRONG_CODE,
            AT_THE_END,
            AT_THE_END,
            PAST_THE_END,
            PAST_THE_END,
            PAST_THE_END,
            FAR_PAST,
            ELSEWHERE,
            OTHER_STATE,
            FAR_STATE,
            FAR_STATE,
        ]);
        let two = &mut step.two;
        match step.name {
            EQUAL_CODES => two.codes = [rng.pick(&two.codes); 2],
            WRONG_CODE => {
                two.codes[rng.below(2)][rng.below(2)] = rng.pick(&[31, 127, 31, 127, 0, 10, 128, 255])
            }
            AT_THE_END => step.length = self.file.len(),
            // The output is shorter than the file so far; where there is no file, the start is moved.
            PAST_THE_END if self.file.is_empty() => {
                two.start = (step.length + rng.pick(&[1, 1, 2, 30])) as u64
            }
            PAST_THE_END => {
                let any = rng.below(self.file.len());
                step.length = rng.pick(&[self.file.len() - 1, self.file.len() - 1, any]);
            }
            FAR_PAST => {
                two.start = rng.pick(&[u64::MAX, u64::MAX - 1, 1 << 63, (1 << 32) + self.two.start, 1 << 31])
            }
            ELSEWHERE => two.start = rng.below(step.length + 1) as u64,
            OTHER_STATE => two.states[1 - step.agent] = any_state(rng),
            _ => {
                if let Some(state) = self.draft.as_ref().ok().and_then(|draft| far_state(rng, draft)) {
                    two.states[step.agent] = state;
                    if rng.chance(30) {
                        step.call = Call::Terminate;
                    }
                }
            }
        }
    }
}

/// A running state in order, often near a limit.
fn far_state(rng: &mut Rng, draft: &Draft) -> Option<State> {
    let kept = rows::fresh(rng, draft);
    states::running(rng, draft, &kept)
}

/// A state of any bytes.
fn any_state(rng: &mut Rng) -> State {
    State::from_bytes(&std::array::from_fn(|_| rng.byte()))
}

/// Two codes in order: any, or alike in some way, or such as lines begin with.
fn codes(rng: &mut Rng) -> [[u8; 2]; 2] {
    let mut code = || [printable(rng), printable(rng)];
    let (any, other) = (code(), code());
    let codes = match rng.below(8) {
        0 => [any, [any[0], other[1]]],
        1 => [any, [other[0], any[1]]],
        2 => [any, [any[1], any[0]]],
        3 => [*b"00", other],
        4 => [*b"A ", *b"B "],
        5 => [[32, 126], [126, 32]],
        6 => [[32, 32], [126, 126]],
        _ => [any, other],
    };
    if codes[0] == codes[1] {
        [*b"A1", *b"B2"]
    } else {
        codes
    }
}
