//! Random calls of the proved library against the second program's: answer, state and output, byte for byte.
//!
//! The parts of a row are seen in what a call leaves:
//! - fields: refusal 6 with its extra number, the first malformed field;
//! - break level: the groups printed, the flags and the kept record, which change with a break only;
//! - subtotal, crossfoot, roll-up, resets: the sums of the state (bytes 18 to 273) and the sum items printed;
//! - indicate: the flags of the state (10 to 17) and blanks in the output;
//! - kept record: bytes 274 to 529 of the state;
//! - placement: page, line, saved, seen (0 to 9) and the first nine bytes of each printed record;
//! - text: the W characters of each printed record; the count: answer and the bytes that stay untouched.

mod common;

use common::{both, Asked, Call, Left};
use second::cases::{case, sample, Case, Rng, Sample, Tally};
use second::description;
use second::report::Answer;
use second::state::State;

/// With these the second program's own run meets everything that it lists.
const SEED: u64 = 1;
const DESCRIPTIONS: usize = 50_000;
const CALLS: usize = 200_000;

/// Each refusal is wanted at least so often, and so is each rule in refusal 1.
const OFTEN: u64 = 1_000;

#[test]
fn calls_leave_alike_and_everything_listed_is_reached() {
    let mut rng = Rng::new(SEED);
    let mut tally = Tally::new();
    let mut rules = [0u64; 10];
    for _ in 0..DESCRIPTIONS {
        let drawn = sample(&mut rng);
        let rule = checked_and_initiated(&drawn);
        rules[usize::from(rule)] += 1;
        tally.check(drawn.name, &drawn.bytes, rule);
    }
    let mut calls = 0;
    while calls < CALLS {
        calls += play_through(case(rng.draw()), &mut tally);
    }
    print!("{calls} calls\n{}", tally.report(false));
    assert_eq!(tally.missing(), Vec::<String>::new(), "not reached");
    assert!(rules.iter().all(|&times| times >= OFTEN), "rules through INITIATE: {rules:?}");
    for number in 0..10 {
        let times: u64 = tally.answers.iter().map(|answers| answers[number]).sum();
        assert!(times >= OFTEN, "refusal {number}: {times} times");
    }
}

/// CHECK and INITIATE of a fresh state; gives the first broken rule or 0.
fn checked_and_initiated(drawn: &Sample) -> u8 {
    let wanted = description::check(&drawn.bytes).map_or_else(|rule| rule, |_| 0);
    assert_eq!(bailcurlew::check(&drawn.bytes), u32::from(wanted), "{}: {:?}", drawn.name, drawn.bytes);
    let state = *bailcurlew::State::fresh().as_bytes();
    let asked = Asked { desc: &drawn.bytes, state, call: Call::Initiate, output: Vec::new() };
    let left = both(&asked).unwrap_or_else(|what| panic!("{}: {what}", drawn.name));
    assert_eq!((left.number, left.extra), (u64::from(wanted > 0), u64::from(wanted)));
    wanted
}

/// Plays a case to its end; gives the count of its calls.
fn play_through(case: Case, tally: &mut Tally) -> usize {
    let Case { seed, desc, mut steps } = case;
    let mut last = None;
    let mut calls = 0;
    while let Some(step) = steps.step(last.as_ref()) {
        let left = both(&Asked::of_step(&desc, &step)).unwrap_or_else(|what| {
            panic!("second cases --case {seed}, call {calls} ({}): {what}", step.name)
        });
        let answer = answer_of(&left);
        tally.call(steps.draft(), &step, &answer);
        last = Some(answer);
        calls += 1;
    }
    calls
}

fn answer_of(left: &Left) -> Answer {
    let state = State::from_bytes(&left.state);
    Answer { number: left.number as u8, extra: left.extra as u32, count: left.count, state }
}

#[test]
fn a_fresh_state_is_the_second_programs() {
    assert_eq!(bailcurlew::State::fresh().as_bytes(), &State::fresh().to_bytes());
}
