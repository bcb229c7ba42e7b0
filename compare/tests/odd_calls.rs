//! Calls with bytes that no caller should hand in: states that are none, details and records of any size.

mod common;

use bailcurlew::STATE_BYTES;
use common::{both, Asked, Call, StateBytes};
use second::cases::{case, Case, Rng, Step};

/// Cases whose steps are made odd.
const CASES: usize = 2_000;

/// How often each answer came: accepted, then refusals 1 to 9.
type Answers = [u64; 10];

/// Every answer is wanted at least so often.
const OFTEN: u64 = 20;

/// Plays random cases by the second program, and makes odd calls from each of their steps.
fn with_odd_calls(seed: u64, mut odd: impl FnMut(&mut Rng, &[u8], &Step) -> Vec<u64>) -> Answers {
    let mut rng = Rng::new(seed);
    let mut answers = [0; 10];
    for _ in 0..CASES {
        let Case { desc, mut steps, .. } = case(rng.draw());
        let mut last = None;
        while let Some(step) = steps.step(last.as_ref()) {
            if rng.chance(25) {
                odd(&mut rng, &desc, &step).into_iter().for_each(|number| answers[number as usize] += 1);
            }
            last = Some(second::cases::play(&desc, &step).0);
        }
    }
    println!("accepted, then refusals 1 to 9: {answers:?}");
    answers
}

fn number_of(asked: &Asked) -> u64 {
    both(asked).unwrap_or_else(|what| panic!("{what}; state {:?}", asked.state)).number
}

fn assert_often(answers: Answers, numbers: &[usize]) {
    for &number in numbers {
        assert!(answers[number] >= OFTEN, "answer {number}: {} times", answers[number]);
    }
}

// ---- states

#[test]
fn states_that_no_call_has_given() {
    let answers = with_odd_calls(31, |rng, desc, step| {
        let asked = Asked::of_step(desc, step);
        let states = [any_bytes(rng), with_any_span(rng, &asked.state), one_byte_changed(rng, &asked.state)];
        states.map(|state| number_of(&Asked { state, ..asked.clone() })).to_vec()
    });
    assert_often(answers, &[0, 1, 2, 3, 4, 5, 6, 7, 8, 9]);
}

/// Random bytes, or one byte throughout; sometimes under a phase that exists.
fn any_bytes(rng: &mut Rng) -> StateBytes {
    let same = rng.pick(&[0, 1, 2, 32, 48, 127, 128, 255]);
    let mut state = [same; STATE_BYTES];
    if rng.chance(70) {
        state.iter_mut().for_each(|byte| *byte = rng.byte());
    }
    if rng.chance(50) {
        state[8] = rng.below(3) as u8;
    }
    state
}

/// Random bytes at some place of a state.
fn with_any_span(rng: &mut Rng, state: &StateBytes) -> StateBytes {
    let mut changed = *state;
    let start = rng.below(STATE_BYTES);
    let end = rng.between(start, (start + 40).min(STATE_BYTES));
    changed[start..end].iter_mut().for_each(|byte| *byte = rng.byte());
    changed
}

/// Half of the changes hit the 18 bytes in front, where each one says much.
fn one_byte_changed(rng: &mut Rng, state: &StateBytes) -> StateBytes {
    let mut changed = *state;
    let at = if rng.chance(50) { rng.below(18) } else { rng.below(STATE_BYTES) };
    let bit = 1 << rng.below(8);
    changed[at] = rng.pick(&[changed[at] ^ bit, changed[at].wrapping_add(1), changed[at].wrapping_sub(1)]);
    changed
}

/// Each byte of a fresh, a started and a running state changed: those in front to every other value.
#[test]
fn every_byte_of_a_state_changed() {
    let desc = include_bytes!("../../examples/whole_run.desc");
    for state in states_of_the_whole_run(desc) {
        for at in 0..STATE_BYTES {
            let changes: Vec<u8> = if at < 18 { (1..=255).collect() } else { vec![1, 2, 16, 128, 255] };
            for change in changes {
                let mut bytes = *state.as_bytes();
                bytes[at] = bytes[at].wrapping_add(change);
                let call = Call::Generate { detail: 0, record: b"BB-002" };
                number_of(&Asked { desc, state: bytes, call, output: vec![7; 200] });
            }
        }
    }
}

fn states_of_the_whole_run(desc: &[u8]) -> [bailcurlew::State; 3] {
    let fresh = bailcurlew::State::fresh();
    let mut started = fresh.clone();
    assert!(started.initiate(desc).accepted());
    let mut running = started.clone();
    assert!(running.generate(desc, 0, b"AA+005", &mut [0; 200]).accepted());
    [fresh, started, running]
}

// ---- details, records and outputs

#[test]
fn details_of_any_size() {
    let answers = with_odd_calls(32, |rng, desc, step| {
        let asked = Asked::of_step(desc, step);
        let Call::Generate { detail, record } = asked.call else {
            return Vec::new();
        };
        let ask = |detail| number_of(&Asked { call: Call::Generate { detail, record }, ..asked.clone() });
        // Some whose low bits alone would name a detail.
        let low = detail % 8;
        let any = rng.draw() as usize;
        let high = [1 << 8, 1 << 16, 1 << 32, 1 << 63].map(|bit| bit + low);
        [usize::MAX, usize::MAX - low, i64::MAX as usize, any, rng.below(9)]
            .into_iter()
            .chain(high)
            .map(ask)
            .collect()
    });
    assert_often(answers, &[0, 1, 2, 3, 4, 5, 6, 7, 8, 9]);
}

const LONGEST: usize = 70_000;

#[test]
fn records_of_any_length() {
    let answers = with_odd_calls(33, |rng, desc, step| {
        let asked = Asked::of_step(desc, step);
        let Call::Generate { detail, record } = asked.call else {
            return Vec::new();
        };
        let whole = record.len();
        let any = rng.between(0, LONGEST);
        // Some whose low bits alone would be the described length.
        let lengths = [0, 1, whole + 1, whole + 256, whole + 65_536, any, LONGEST, 255, 256, 257];
        let record: Vec<u8> = record.iter().copied().cycle().take(LONGEST).collect();
        let record = if record.is_empty() { vec![b'0'; LONGEST] } else { record };
        let ask = |length: usize| {
            let call = Call::Generate { detail, record: &record[..length] };
            number_of(&Asked { call, ..asked.clone() })
        };
        (0..2).map(|_| ask(rng.pick(&lengths))).collect()
    });
    assert_often(answers, &[1, 2, 3, 4, 5]);
}

#[test]
fn outputs_of_few_bytes() {
    let answers = with_odd_calls(34, |rng, desc, step| {
        let asked = Asked::of_step(desc, step);
        let rooms = [0, 1, 9, rng.below(300)];
        rooms.map(|room| number_of(&Asked { output: vec![255; room], ..asked.clone() })).to_vec()
    });
    assert_often(answers, &[0, 1, 2, 3, 4, 5, 6, 7, 8, 9]);
}
