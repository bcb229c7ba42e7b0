//! The shop's accident: a call refused for want of output leaves nothing behind, so that the same call with more
//! output gives what a first call with it would have given.

mod common;

use common::{both, library, Asked, Left};
use second::cases::{case, pattern, Case, Rng};

/// Calls that print, from random cases.
const PRINTING: usize = 4_000;
/// Of each case at most so many, so that there are many cases.
const OF_A_CASE: usize = 2;
/// One call in so many, if it prints few bytes, is tried with every room that is too short.
const STRIDE: usize = 20;
const FEW: usize = 1_200;

#[test]
fn a_call_repeated_with_more_output_gives_what_a_first_one_gives() {
    let mut rng = Rng::new(9);
    let (mut printing, mut whole, mut refused) = (0, 0, 0);
    while printing < PRINTING {
        let Case { desc, mut steps, seed } = case(rng.draw());
        let mut last = None;
        let mut left_of_case = OF_A_CASE;
        while let Some(step) = steps.step(last.as_ref()) {
            let (answer, _) = second::cases::play(&desc, &step);
            if answer.number == 0 && answer.count > 0 && left_of_case > 0 {
                let every = printing % STRIDE == 0 && answer.count <= FEW;
                let asked = Asked::of_step(&desc, &step);
                let rooms = rooms(&mut rng, answer.count, every);
                refused += rooms.len();
                tried(&mut rng, &asked, answer.count, &rooms, seed);
                (printing, whole, left_of_case) =
                    (printing + 1, whole + usize::from(every), left_of_case - 1);
            }
            last = Some(answer);
        }
    }
    println!("{printing} calls that print, {refused} refusals 9, every short room for {whole} calls");
    assert!(whole >= 100, "every room only for {whole} calls");
}

/// Rooms below `count`: all of them, or the ends, a line's end and any other.
fn rooms(rng: &mut Rng, count: usize, every: bool) -> Vec<usize> {
    if every {
        return (0..count).collect();
    }
    vec![0, 1, count / 2, rng.below(count), count - 1]
}

/// Each short room, then the same call with just enough or more, from what the refusal left.
fn tried(rng: &mut Rng, asked: &Asked, count: usize, rooms: &[usize], seed: u64) {
    let larger = Asked { output: lent(count + rng.pick(&[0, 1, 7, 500])), ..asked.clone() };
    let first = both(&larger).unwrap_or_else(|what| panic!("case {seed}: {what}"));
    assert_eq!((first.number, first.count), (0, count), "case {seed}");
    for &room in rooms {
        let short = Asked { output: lent(room), ..asked.clone() };
        let refused = library(&short);
        assert_eq!(refused, refusal_9(&short), "case {seed}, room {room} of {count}");
        let again = library(&Asked { state: refused.state, ..larger.clone() });
        assert_eq!(again, first, "case {seed}, after room {room} of {count}");
    }
}

fn lent(room: usize) -> Vec<u8> {
    (0..room).map(|at| pattern(at, 77)).collect()
}

/// Refusal 9 with all else as it was handed in.
fn refusal_9(asked: &Asked) -> Left {
    Left { number: 9, extra: 0, count: 0, state: asked.state, output: asked.output.clone() }
}
