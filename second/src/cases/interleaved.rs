//! R-7 by chance: each call of two agents is made once more with the output to its agent alone, and the two are compared.

use std::collections::BTreeMap;

use super::draft::Draft;
use super::hex;
use super::interleaving::{self, play_two, two_case, TwoCase, TwoStep};
use super::rng::Rng;
use super::sequence::{line_bytes, most_lines, Call};
use crate::report;
use crate::state::{State, IDLE, RUNNING};
use crate::two::{self, bytes, Answer, TwoAgents};

/// What should be met, and how often at least in a run of the usual amount.
const WANTED: [(&str, u64); 62] = [
    ("turns: the other's call before, accepted", 5_000),
    ("turns: the other's call before, refused", 2_000),
    ("turns: its own call before", 10_000),
    ("turns: both run", 10_000),
    ("turns: both run, on pages that differ", 5_000),
    ("turns: the other has not begun", 1_000),
    ("turns: the other's report has ended", 500),
    ("turns: its second report or a later one", 1_000),
    ("lines: none", 1_000),
    ("lines: one", 5_000),
    ("lines: ten or more", 1_000),
    ("lines: one whose text begins with the other's code", 100),
    ("codes: alike but for the first byte", 2_000),
    ("codes: alike but for the second byte", 2_000),
    ("codes: one the other turned round", 2_000),
    ("codes: with a byte 32", 2_000),
    ("codes: with a byte 126", 2_000),
    ("codes: 00, as pages begin", 2_000),
    ("output: the lines end where it ends", 1_000),
    ("output: bytes behind the lines", 10_000),
    ("output: bytes before the lines", 10_000),
    ("output: start at its end, nothing to print", 100),
    ("output: start past its end, INITIATE", 100),
    ("output: start elsewhere, lines", 100),
    ("output: start elsewhere, in the file so far", 100),
    ("accepted: the other's state out of order", 200),
    ("refused 1: codes too", 20),
    ("refused 1: start past the end too", 20),
    ("refused 11: equal codes", 1_000),
    ("refused 11: first code, first byte", 100),
    ("refused 11: first code, second byte", 100),
    ("refused 11: second code, first byte", 100),
    ("refused 11: second code, second byte", 100),
    ("refused 11: byte 31", 100),
    ("refused 11: byte 127", 100),
    ("refused 11: 2 due too", 100),
    ("refused 11: 3 due too", 20),
    ("refused 11: 4 due too", 20),
    ("refused 11: 5 due too", 20),
    ("refused 11: 6 due too", 20),
    ("refused 11: 7 due too", 20),
    ("refused 11: 8 due too", 20),
    ("refused 2: no room too", 100),
    ("refused 3: no room too", 15),
    ("refused 4: no room too", 15),
    ("refused 5: no room too", 15),
    ("refused 6: no room too", 15),
    ("refused 7: no room too", 15),
    ("refused 8: no room too", 15),
    ("refused 9: start past the end by one", 100),
    ("refused 9: start past the end by more", 100),
    ("refused 9: start far past the end", 100),
    ("refused 9: start past the end, nothing to print", 100),
    ("refused 9: start at the end", 100),
    ("refused 9: a byte short", 1_000),
    ("refused 9: room for the lines without their codes", 1_000),
    ("refused 9: room for all of this agent's lines, without the other's", 1_000),
    ("ended: both agents have lines", 500),
    ("ended: one agent has no line", 50),
    ("ended: both reports in the middle", 200),
    ("ended: refused calls of both", 500),
    ("ended: over 100 lines", 100),
];

/// The answers each call can give.
const POSSIBLE: [&[usize]; 3] =
    [&[0, 1, 2, 3, 11], &[0, 1, 2, 3, 4, 5, 6, 7, 8, 9, 11], &[0, 1, 2, 3, 7, 8, 9, 11]];

const CALLS: [&str; 3] = ["INITIATE", "GENERATE", "TERMINATE"];

/// How often each of those is wanted at least.
const WANTED_ANSWERS: u64 = 20;

/// The most wrong answers that are told.
const TOLD: usize = 10;

/// A run of R-7: the counts, and what went wrong.
#[derive(Clone, Debug)]
pub struct Interleaved {
    pub cases: u64,
    pub calls: u64,
    /// Lines of both agents that were compared with those of the agents alone.
    pub lines: u64,
    /// Answers of INITIATE, GENERATE and TERMINATE: accepted, then by refusal number.
    pub answers: [[u64; 12]; 3],
    /// Features, by name.
    pub reached: BTreeMap<&'static str, u64>,
    /// What was wrong, by the seeds of the cases.
    pub wrong: Vec<String>,
}

impl Interleaved {
    /// Plays cases until so many calls are made.
    pub fn run(seed: u64, calls: u64) -> Interleaved {
        let mut rng = Rng::new(seed);
        let mut run = Interleaved {
            cases: 0,
            calls: 0,
            lines: 0,
            answers: [[0; 12]; 3],
            reached: WANTED.iter().map(|&(name, _)| (name, 0)).collect(),
            wrong: Vec::new(),
        };
        while run.calls < calls && run.wrong.len() < TOLD {
            run.play(two_case(rng.draw()));
        }
        run
    }

    /// What was not reached as often as it should be.
    pub fn missing(&self) -> Vec<String> {
        let tell = |name: String, times: u64, often: u64| {
            (times < often).then(|| format!("R-7, {name}: {times} times, not {often}"))
        };
        let features = WANTED.iter().map(|&(name, often)| (name.to_string(), self.reached[name], often));
        let answers = POSSIBLE.iter().enumerate().flat_map(|(call, numbers)| {
            numbers.iter().map(move |&number| {
                (format!("{} answered {number}", CALLS[call]), self.answers[call][number], WANTED_ANSWERS)
            })
        });
        features.chain(answers).filter_map(|(name, times, often)| tell(name, times, often)).collect()
    }

    /// A report to read, the features in short or one by one.
    pub fn report(&self, all: bool) -> String {
        let mut text = format!("R-7           {} calls of two agents in {} cases", self.calls, self.cases);
        text += &format!(", {} lines as they are alone\n", self.lines);
        for (name, answers) in CALLS.iter().zip(&self.answers) {
            let given = answers.iter().enumerate().filter(|(_, &times)| times > 0);
            let given: Vec<String> = given.map(|(number, times)| format!("{number}: {times}")).collect();
            text += &format!("  {name:<12}{}\n", given.join(", "));
        }
        for (name, times) in self.reached.iter().filter(|_| all) {
            text += &format!("  {times:>9}  {name}\n");
        }
        text
    }

    fn play(&mut self, case: TwoCase) {
        let mut under = Under::new(case);
        self.cases += 1;
        while let Some(played) = under.play_next() {
            self.calls += 1;
            self.answers[call_index(&played.step.call)][usize::from(played.answer.number).min(11)] += 1;
            self.note(&under, under.keeps(&played).map_err(|what| outline(&played, &what)));
            self.count(&under.features(&played));
            under.enter(played);
        }
        self.note(&under, under.ends_as_alone());
        self.count(&under.features_of_end());
        self.lines += under.lines();
    }

    fn count(&mut self, features: &[Feature]) {
        for (_, name) in features.iter().filter(|(holds, _)| *holds) {
            *self.reached.get_mut(name).expect(name) += 1;
        }
    }

    fn note(&mut self, under: &Under, kept: Result<(), String>) {
        if let Err(what) = kept {
            if self.wrong.len() < TOLD {
                self.wrong.push(format!("{what} (--two-case {})", under.case.seed));
            }
        }
    }
}

fn call_index(call: &Call) -> usize {
    match call {
        Call::Initiate => 0,
        Call::Generate { .. } => 1,
        Call::Terminate => 2,
    }
}

// ---- a case under way

/// An agent with the output to itself: "those that agent's accepted calls would print with the output to themselves".
#[derive(Clone, Debug)]
struct Alone {
    state: State,
    sheet: Vec<u8>,
    /// INITIATEs accepted; calls refused.
    reports: usize,
    refused: usize,
}

/// A step with its answer, the output it left, and the same call of the agent alone with the lines it prints.
struct Played {
    step: TwoStep,
    answer: Answer,
    output: Vec<u8>,
    alone: report::Answer,
    lines: Vec<u8>,
}

struct Under {
    case: TwoCase,
    alone: [Alone; 2],
    last: Option<(Answer, Vec<u8>)>,
    /// Whose call was the last, and whether it was accepted.
    before: Option<(usize, bool)>,
}

impl Under {
    fn new(case: TwoCase) -> Under {
        let alone = Alone { state: State::fresh(), sheet: Vec::new(), reports: 0, refused: 0 };
        Under { case, alone: [alone.clone(), alone], last: None, before: None }
    }

    fn play_next(&mut self) -> Option<Played> {
        let step = self.case.steps.step(self.last.as_ref())?;
        let (answer, output) = play_two(&self.case.desc, &step);
        // A run that goes on does so from the state of the agent alone.
        let state = if step.goes_on() { &self.alone[step.agent].state } else { &step.two.states[step.agent] };
        let mut lines = vec![0; self.ample_room()];
        let alone = play_alone(&self.case.desc, state, &step.call, &mut lines);
        lines.truncate(alone.count);
        Some(Played { step, answer, output, alone, lines })
    }

    fn ample_room(&self) -> usize {
        self.case.steps.draft().map_or(0, |draft| most_lines(draft) * line_bytes(draft))
    }

    /// Looks at one call: the answer, what is handed on, the whole output, and the call on bytes.
    fn keeps(&self, played: &Played) -> Result<(), String> {
        let Played { step, answer, output, .. } = played;
        if step.goes_on() && step.two.states[step.agent] != self.alone[step.agent].state {
            return Err("goes on from another state than the agent alone".to_string());
        }
        let (wanted, left) = wanted(self.case.steps.draft(), played);
        let told = |answer: &Answer| (answer.number, answer.extra, answer.count);
        if told(answer) != told(&wanted) {
            return Err(format!("answered {:?}, not {:?}", told(answer), told(&wanted)));
        }
        if answer.next != wanted.next {
            return Err("hands on something else".to_string());
        }
        if *output != left {
            return Err("leaves another output".to_string());
        }
        if on_bytes(&self.case.desc, step) != (answer.clone(), answer.next.to_bytes(), left) {
            return Err("does otherwise on bytes".to_string());
        }
        Ok(())
    }

    fn enter(&mut self, played: Played) {
        let Played { step, answer, output, alone, lines } = played;
        let own = &mut self.alone[step.agent];
        let accepted = answer.number == 0;
        if accepted && step.goes_on() {
            own.sheet.extend(lines);
            own.state = alone.state;
            own.reports += usize::from(step.call == Call::Initiate);
        }
        own.refused += usize::from(!accepted);
        self.before = Some((step.agent, accepted));
        self.last = Some((answer, output));
    }

    /// "Lines carrying one code, taken in order, are those that agent's accepted calls would print with the output to
    /// themselves", and the states are those of the agents alone.
    fn ends_as_alone(&self) -> Result<(), String> {
        let Ok(draft) = self.case.steps.draft() else { return Ok(()) };
        let (two, file) = (self.case.steps.two(), self.case.steps.file());
        for (agent, alone) in self.alone.iter().enumerate() {
            if two::take_apart(file, usize::from(draft.width), two.codes[agent]) != alone.sheet {
                return Err(format!("agent {agent}: the sheet is not the one of the agent alone"));
            }
            if two.states[agent] != alone.state {
                return Err(format!("agent {agent}: the state is not the one of the agent alone"));
            }
        }
        let bytes: usize = self.alone.iter().map(|alone| alone.sheet.len()).sum();
        if two.start as usize != file.len() || bytes / line_bytes(draft) * coded_bytes(draft) != file.len() {
            return Err(format!("{} bytes of both, the file has {}", bytes, file.len()));
        }
        Ok(())
    }

    fn lines(&self) -> u64 {
        let line = self.case.steps.draft().map_or(1, line_bytes);
        self.alone.iter().map(|alone| (alone.sheet.len() / line) as u64).sum()
    }
}

/// "W + 12 bytes in all."
fn coded_bytes(draft: &Draft) -> usize {
    usize::from(draft.width) + 12
}

/// The same call of an agent that has an output to itself.
fn play_alone(desc: &[u8], state: &State, call: &Call, out: &mut [u8]) -> report::Answer {
    match call {
        Call::Initiate => report::initiate(desc, state),
        Call::Generate { d, record } => report::generate(desc, state, *d, record, out),
        Call::Terminate => report::terminate(desc, state, out),
    }
}

/// The call on the two agents' bytes: its answer, those bytes and the output.
fn on_bytes(desc: &[u8], step: &TwoStep) -> (Answer, [u8; two::TWO_AGENTS_BYTES], Vec<u8>) {
    let (mut area, mut out, agent) = (step.two.to_bytes(), step.output(), step.agent);
    let answer = match &step.call {
        Call::Initiate => bytes::initiate(desc, &mut area, agent),
        Call::Generate { d, record } => bytes::generate(desc, &mut area, agent, *d, record, &mut out),
        Call::Terminate => bytes::terminate(desc, &mut area, agent, &mut out),
    };
    (answer, area, out)
}

/// The answer that follows from the call of the agent alone, and the output that it leaves.
fn wanted(draft: Result<&Draft, u8>, played: &Played) -> (Answer, Vec<u8>) {
    let Played { step, alone, lines, .. } = played;
    let mut output = step.output();
    let mut next = step.two.clone();
    let number = wanted_number(draft, played);
    if number != 0 {
        let extra = if number == alone.number { alone.extra } else { 0 };
        return (Answer { number, extra, count: 0, next }, output);
    }
    let mut at = step.two.start as usize;
    for line in lines.chunks(draft.map_or(1, line_bytes)) {
        for byte in step.two.codes[step.agent].iter().chain(line) {
            output[at] = *byte;
            at += 1;
        }
    }
    let count = if lines.is_empty() { 0 } else { at - step.two.start as usize };
    next.states[step.agent] = alone.state.clone();
    next.start += count as u64;
    (Answer { number, extra: 0, count, next }, output)
}

/// 1, 11, then what the agent alone is refused by, then 9.
fn wanted_number(draft: Result<&Draft, u8>, played: &Played) -> u8 {
    let Played { step, alone, .. } = played;
    if draft.is_err() {
        return 1;
    }
    if !in_order(&step.two.codes) {
        return 11;
    }
    match alone.number {
        0 if step.call != Call::Initiate && !fits(draft, played) => 9,
        number => number,
    }
}

fn in_order(codes: &[[u8; 2]; 2]) -> bool {
    codes[0] != codes[1] && codes.iter().flatten().all(|&byte| byte > 31 && byte < 127)
}

/// The bytes that the lines need with their codes.
fn needed(draft: Result<&Draft, u8>, played: &Played) -> usize {
    draft.map_or(0, |draft| played.lines.len() / line_bytes(draft) * coded_bytes(draft))
}

/// Whether the call's lines, if any, begin and end within the common output.
fn fits(draft: Result<&Draft, u8>, played: &Played) -> bool {
    u128::from(played.step.two.start) + needed(draft, played) as u128 <= played.step.length as u128
}

// ---- features

type Feature = (bool, &'static str);

impl Under {
    fn features(&self, played: &Played) -> Vec<Feature> {
        let mut features = of_refusals(self.case.steps.draft(), played);
        if let (Ok(draft), 0) = (self.case.steps.draft(), played.answer.number) {
            if played.step.goes_on() {
                features.extend(self.of_turns(&played.step));
                features.extend(of_codes(&played.step.two.codes));
                features.extend(of_lines(draft, played));
            }
            features.extend(of_output(played));
        }
        if let (Ok(draft), 9, true) = (self.case.steps.draft(), played.answer.number, played.step.goes_on()) {
            let own = self.alone[played.step.agent].sheet.len() / line_bytes(draft) * coded_bytes(draft);
            features.push((
                own + needed(Ok(draft), played) <= played.step.length,
                "refused 9: room for all of this agent's lines, without the other's",
            ));
        }
        features
    }

    fn of_turns(&self, step: &TwoStep) -> Vec<Feature> {
        let other = 1 - step.agent;
        let [own_state, other_state] = [&step.two.states[step.agent], &step.two.states[other]];
        let both_run = own_state.phase == RUNNING && other_state.phase == RUNNING;
        let reports = |agent: usize| self.alone[agent].reports;
        vec![
            (self.before == Some((other, true)), "turns: the other's call before, accepted"),
            (self.before == Some((other, false)), "turns: the other's call before, refused"),
            (self.before.is_some_and(|(agent, _)| agent == step.agent), "turns: its own call before"),
            (both_run, "turns: both run"),
            (both_run && own_state.page != other_state.page, "turns: both run, on pages that differ"),
            (reports(other) == 0, "turns: the other has not begun"),
            (reports(other) > 0 && other_state.phase == IDLE, "turns: the other's report has ended"),
            (reports(step.agent) > 1, "turns: its second report or a later one"),
        ]
    }

    fn features_of_end(&self) -> Vec<Feature> {
        if self.case.steps.draft().is_err() {
            return Vec::new();
        }
        let holds = |test: fn(&Alone) -> bool| self.alone.iter().filter(|alone| test(alone)).count();
        vec![
            (holds(|alone| !alone.sheet.is_empty()) == 2, "ended: both agents have lines"),
            (holds(|alone| !alone.sheet.is_empty()) == 1, "ended: one agent has no line"),
            (holds(|alone| alone.state.phase == RUNNING) == 2, "ended: both reports in the middle"),
            (holds(|alone| alone.refused > 0) == 2, "ended: refused calls of both"),
            (self.lines() > 100, "ended: over 100 lines"),
        ]
    }
}

fn of_codes(codes: &[[u8; 2]; 2]) -> Vec<Feature> {
    let [first, second] = codes;
    let (same_first, same_second) = (first[0] == second[0], first[1] == second[1]);
    vec![
        (same_second, "codes: alike but for the first byte"),
        (same_first, "codes: alike but for the second byte"),
        (first[0] == second[1] && first[1] == second[0], "codes: one the other turned round"),
        (codes.concat().contains(&32), "codes: with a byte 32"),
        (codes.concat().contains(&126), "codes: with a byte 126"),
        (codes.contains(b"00"), "codes: 00, as pages begin"),
    ]
}

fn of_lines(draft: &Draft, played: &Played) -> Vec<Feature> {
    let prints = played.step.call != Call::Initiate;
    let count = played.lines.len() / line_bytes(draft);
    let other = played.step.two.codes[1 - played.step.agent];
    let begins = played.lines.chunks(line_bytes(draft)).any(|line| line[9..].starts_with(&other));
    vec![
        (prints && count == 0, "lines: none"),
        (count == 1, "lines: one"),
        (count >= 10, "lines: ten or more"),
        (begins, "lines: one whose text begins with the other's code"),
    ]
}

fn of_output(played: &Played) -> Vec<Feature> {
    let Played { step, answer, .. } = played;
    let (length, start) = (step.length as u64, step.two.start);
    let (prints, has_lines) = (step.call != Call::Initiate, answer.count > 0);
    let is = |name: &str| step.name == name;
    vec![
        (has_lines && answer.next.start == length, "output: the lines end where it ends"),
        (has_lines && answer.next.start < length, "output: bytes behind the lines"),
        (has_lines && start > 0, "output: bytes before the lines"),
        (prints && !has_lines && start == length, "output: start at its end, nothing to print"),
        (!prints && start > length, "output: start past its end, INITIATE"),
        (has_lines && is(interleaving::ELSEWHERE), "output: start elsewhere, lines"),
        (has_lines && start < step.file.len() as u64, "output: start elsewhere, in the file so far"),
        (is(interleaving::OTHER_STATE), "accepted: the other's state out of order"),
    ]
}

fn of_refusals(draft: Result<&Draft, u8>, played: &Played) -> Vec<Feature> {
    let Played { step, alone, answer, .. } = played;
    let no_room = step.call != Call::Initiate && step.two.start > step.length as u64;
    match answer.number {
        1 => vec![
            (!in_order(&step.two.codes), "refused 1: codes too"),
            (no_room, "refused 1: start past the end too"),
        ],
        11 => of_refusal_11(&step.two, alone.number),
        number @ 2..=8 => {
            let names = [
                "refused 2: no room too",
                "refused 3: no room too",
                "refused 4: no room too",
                "refused 5: no room too",
                "refused 6: no room too",
                "refused 7: no room too",
                "refused 8: no room too",
            ];
            vec![(no_room, names[usize::from(number) - 2])]
        }
        9 => of_refusal_9(draft, played),
        _ => Vec::new(),
    }
}

/// `alone` is what the agent alone is refused by.
fn of_refusal_11(two: &TwoAgents, alone: u8) -> Vec<Feature> {
    let [first, second] = two.codes;
    let wrong = |byte: u8| !(32..127).contains(&byte);
    let has = |byte: u8| two.codes.concat().contains(&byte);
    vec![
        (first == second, "refused 11: equal codes"),
        (wrong(first[0]), "refused 11: first code, first byte"),
        (wrong(first[1]), "refused 11: first code, second byte"),
        (wrong(second[0]), "refused 11: second code, first byte"),
        (wrong(second[1]), "refused 11: second code, second byte"),
        (has(31), "refused 11: byte 31"),
        (has(127), "refused 11: byte 127"),
        (alone == 2, "refused 11: 2 due too"),
        (alone == 3, "refused 11: 3 due too"),
        (alone == 4, "refused 11: 4 due too"),
        (alone == 5, "refused 11: 5 due too"),
        (alone == 6, "refused 11: 6 due too"),
        (alone == 7, "refused 11: 7 due too"),
        (alone == 8, "refused 11: 8 due too"),
    ]
}

fn of_refusal_9(draft: Result<&Draft, u8>, played: &Played) -> Vec<Feature> {
    let Played { step, lines, .. } = played;
    let (start, length) = (step.two.start, step.length as u64);
    let past = start.saturating_sub(length);
    let room = length.saturating_sub(start) as usize;
    let needed = needed(draft, played);
    vec![
        (past == 1, "refused 9: start past the end by one"),
        (past > 1, "refused 9: start past the end by more"),
        (past > 1 << 30, "refused 9: start far past the end"),
        (past > 0 && lines.is_empty(), "refused 9: start past the end, nothing to print"),
        (start == length, "refused 9: start at the end"),
        (past == 0 && room + 1 == needed, "refused 9: a byte short"),
        (past == 0 && room >= lines.len(), "refused 9: room for the lines without their codes"),
    ]
}

// ---- one case to read

/// A call and what is wrong with it, in one line.
fn outline(played: &Played, what: &str) -> String {
    format!("{what}: {}", in_short(played))
}

fn in_short(played: &Played) -> String {
    let Played { step, answer, .. } = played;
    let (call, agent, name) = (CALLS[call_index(&step.call)], step.agent, step.name);
    let (start, length) = (step.two.start, step.length);
    let Answer { number, extra, count, .. } = answer;
    format!("{call} of agent {agent} ({name}), start {start} of {length} -> {number} {extra}, {count} bytes")
}

/// Prints a case whole; gives the exit code.
pub fn show_case(case: TwoCase) -> i32 {
    let mut under = Under::new(case);
    println!("description {}", hex(&under.case.desc));
    let mut code = 0;
    let mut tell = |kept: Result<(), String>| {
        if let Err(what) = kept {
            println!("WRONG: {what}");
            code = 1;
        }
    };
    while let Some(played) = under.play_next() {
        println!("\n{}", in_short(&played));
        println!("agents before {}", hex(&played.step.two.to_bytes()));
        if let Call::Generate { d, record } = &played.step.call {
            println!("detail {d}, record {}", record.escape_ascii());
        }
        println!("agents after  {}", hex(&played.answer.next.to_bytes()));
        let printed = played.output.iter().skip(played.step.two.start as usize).take(played.answer.count);
        print!("{}", String::from_utf8_lossy(&printed.copied().collect::<Vec<u8>>()));
        tell(under.keeps(&played));
        under.enter(played);
    }
    tell(under.ends_as_alone());
    code
}

#[cfg(test)]
mod tests {
    use super::*;

    /// Something wrong with a call that printed lines: with its answer or with its output.
    type Spoil = fn(&mut Played, usize);

    /// What is wrong, and how; the lines have so many bytes with their codes.
    const SPOILT: [(&str, Spoil); 12] = [
        ("start moved by W + 10", |played, coded| {
            let lines = played.answer.count / coded;
            played.answer.next.start -= 2 * lines as u64;
        }),
        ("start not moved", |played, _| played.answer.next.start = played.step.two.start),
        ("count of W + 10 a line", |played, coded| {
            played.answer.count = played.answer.count / coded * (coded - 2)
        }),
        ("the other's state started", |played, _| {
            let other = 1 - played.step.agent;
            played.answer.next.states[other] = State { phase: 7, ..State::started() };
        }),
        ("the state not handed on", |played, _| played.answer.next.states = played.step.two.states.clone()),
        ("codes turned round", |played, _| played.answer.next.codes.reverse()),
        ("refused", |played, _| played.answer.number = 9),
        ("an extra number", |played, _| played.answer.extra = 1),
        ("code behind the page number", |played, _| {
            let start = played.step.two.start as usize;
            played.output[start..start + 8].rotate_left(2);
        }),
        ("the other's code", |played, _| {
            let start = played.step.two.start as usize;
            played.output[start..start + 2].copy_from_slice(&played.step.two.codes[1 - played.step.agent]);
        }),
        ("a byte before the start", |played, _| {
            if let Some(at) = (played.step.two.start as usize).checked_sub(1) {
                played.output[at] ^= 1;
            } else {
                played.answer.count += 1;
            }
        }),
        ("a byte behind the lines", |played, _| {
            match played.output.get_mut(played.answer.next.start as usize) {
                Some(byte) => *byte ^= 1,
                None => played.answer.count += 1,
            }
        }),
    ];

    #[test]
    fn a_wrong_answer_to_one_of_two_agents_is_seen() {
        let mut rng = Rng::new(15);
        let mut seen = 0;
        while seen < 60 {
            let mut under = Under::new(two_case(rng.draw()));
            while let Some(mut played) = under.play_next() {
                assert_eq!(under.keeps(&played), Ok(()));
                // One whose first line does not begin with its code twice over, as 00 before a page does.
                let begin = &played.output[(played.step.two.start as usize).min(played.output.len())..];
                let is_plain = begin.len() > 8 && begin[0] != begin[2];
                if let (Ok(draft), true, true) = (under.case.steps.draft(), played.answer.count > 0, is_plain)
                {
                    let (name, spoil) = SPOILT[seen % SPOILT.len()];
                    let right = (played.answer.clone(), played.output.clone());
                    spoil(&mut played, coded_bytes(draft));
                    assert!(under.keeps(&played).is_err(), "{name}");
                    (played.answer, played.output) = right;
                    seen += 1;
                }
                under.enter(played);
            }
            assert_eq!(under.ends_as_alone(), Ok(()));
        }
    }

    #[test]
    fn a_line_lost_or_a_state_changed_is_seen_at_the_end() {
        let mut rng = Rng::new(16);
        let mut seen = 0;
        while seen < 20 {
            let mut under = Under::new(two_case(rng.draw()));
            while let Some(played) = under.play_next() {
                under.enter(played);
            }
            let agent = rng.below(2);
            let sheet = under.alone[agent].sheet.clone();
            let Ok(draft) = under.case.steps.draft() else { continue };
            let shorter = sheet.len().saturating_sub(line_bytes(draft));
            if shorter > 0 {
                under.alone[agent].sheet.truncate(shorter);
                assert!(under.ends_as_alone().is_err());
                under.alone[agent].sheet = sheet;
                under.alone[agent].state.page += 1;
                assert!(under.ends_as_alone().is_err());
                seen += 1;
            }
        }
    }

    #[test]
    fn the_same_seed_gives_the_same_calls() {
        let played = |seed| {
            let mut under = Under::new(two_case(seed));
            let mut answers = Vec::new();
            while let Some(played) = under.play_next() {
                answers.push((in_short(&played), played.output.clone()));
                under.enter(played);
            }
            answers
        };
        assert_eq!(played(17), played(17));
        assert_ne!(played(17), played(18));
    }
}
