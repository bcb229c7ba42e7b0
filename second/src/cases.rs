//! Random cases: descriptions for CHECK and sequences of calls, the same for the same seed.
//!
//! A comparison draws `case`s, asks each `Sequence` for its `Step`s and hands every step to both
//! programs, with an output filled by `Step::output`; the answer of one of them leads to the next
//! step. `main` runs the second program alone and looks at what any implementation must keep.
//!
//! For R-6 it draws `explained_case`s and tells an `Explainer` each accepted step that `goes_on`; `Explained::run` does
//! so with the second program alone.
//!
//! For R-7 it draws `two_case`s, whose `Interleaving` gives `TwoStep`s in the same way; `Interleaved::run` plays them with
//! the second program and each agent's calls once more alone.
//!
//! For R-8 it draws a `sheets::sheet` or a `sheets::one_report`, a printed sheet with its W, and makes copies of it by
//! `damage::damaged`, or `repair_case`s of both; `Repairs::run` reads and repairs them with the second program.

mod broken;
pub mod damage;
mod draft;
mod explained;
mod features;
mod interleaved;
mod interleaving;
mod keep;
mod pictures;
mod repairs;
mod rng;
mod rows;
mod rule_9;
mod sample;
mod sequence;
pub mod sheets;
mod shown;
mod signs;
mod states;
mod summing;
mod tally;
mod valid;
mod walk;

pub use draft::{Block, Count, Draft, Page, Row};
pub use explained::{explained_case, summing_description, Explained};
pub use interleaved::Interleaved;
pub use interleaving::{play_two, two_case, Interleaving, TwoCase, TwoStep};
pub use keep::call as keeps;
pub use repairs::{repair_case, RepairCase, Repairs};
pub use rng::Rng;
pub use sample::{damaged, sample, Sample};
pub use sequence::{pattern, Call, Expect, Sequence, Step};
pub use tally::Tally;

use crate::description::check;
use crate::report::{self, Answer};
use crate::state::State;

/// A random description of either version; about half of them keep D1 to D8 and rule 9.
pub fn description(rng: &mut Rng) -> Vec<u8> {
    sample(rng).bytes
}

/// A random description of either version that keeps D1 to D8 and rule 9.
pub fn accepted_description(rng: &mut Rng) -> Vec<u8> {
    let draft = match rng.below(100) {
        0..=2 => valid::rich(rng),
        3..=17 => valid::turning(rng),
        _ => valid::draft(rng),
    };
    draft.bytes()
}

/// A random description of version 2 that keeps D1 to D8 and rule 9; nearly all of them have pictures.
pub fn pictured_description(rng: &mut Rng) -> Vec<u8> {
    valid::with_pictures(rng).bytes()
}

/// A random description whose lowest broken rule is `rule`, 1 to 9, and what is wrong with it.
pub fn broken_description(rng: &mut Rng, rule: u8) -> (Vec<u8>, &'static str) {
    broken::description(rng, rule)
}

/// `calls` steps for a description, accepted or not.
pub fn sequence(rng: &mut Rng, desc: &[u8], calls: usize) -> Sequence {
    Sequence::new(rng, check(desc).map(|_| Draft::read(desc)), calls)
}

/// A description with calls to make.
#[derive(Clone, Debug)]
pub struct Case {
    /// `case` makes the same case of it again.
    pub seed: u64,
    pub desc: Vec<u8>,
    pub steps: Sequence,
}

/// The case of a seed: 4 to 60 calls; most descriptions are accepted.
pub fn case(seed: u64) -> Case {
    let mut rng = Rng::new(seed);
    let (desc, calls) = if rng.chance(90) {
        (accepted_description(&mut rng), rng.between(5, 60))
    } else {
        (description(&mut rng), 4)
    };
    let steps = sequence(&mut rng, &desc, calls);
    Case { seed, desc, steps }
}

/// Makes one call of the second program; gives its answer and what it left of the output.
pub fn play(desc: &[u8], step: &Step) -> (Answer, Vec<u8>) {
    let mut output = step.output();
    let answer = match &step.call {
        Call::Initiate => report::initiate(desc, &step.state),
        Call::Generate { d, record } => report::generate(desc, &step.state, *d, record, &mut output),
        Call::Terminate => report::terminate(desc, &step.state, &mut output),
    };
    (answer, output)
}

// ---- the command

const HELP: &str = "second cases: random cases against the second program

  second cases [--seed N] [--descriptions N] [--calls N] [--footings N] [--two-calls N] [--files N] [--all]
  second cases --case N
  second cases --explained-case N
  second cases --two-case N
  second cases --repair-case N

  --seed N          where chance begins (1)
  --descriptions N  how many descriptions CHECK gets (50000)
  --calls N         how many calls are made after that, at least (100000)
  --footings N      how many footings are then explained from the rows (R-6), at least (100000)
  --two-calls N     how many calls of two agents are then made (R-7), at least (100000)
  --files N         how many printed sheets and damaged copies are then read and repaired (R-8), at least (20000)
  --all             list every feature with its count
  --case N          show one case: its description, its calls and their answers
  --explained-case N  the same of a case of R-6
  --two-case N      the same of a case of R-7
  --repair-case N      a case of R-8: its files, and what is kept of each

Prints how often each rule and refusal was reached. Ends with 1 where one was not reached, where a
clause of rule 9 or a feature of pictures was not reached 100 times, one of signs 100 or 25 times, one of
R-6, R-7 or R-8 15 to 10000 times, where an answer was not what any implementation must give, where a sum
was not as explained under a description that keeps R-6's condition, where one of two agents was not
answered as it is alone, or where a sheet was not read or repaired as R-8 says; else with 0.
";

#[derive(Clone, Debug)]
struct Amounts {
    seed: u64,
    descriptions: usize,
    calls: usize,
    footings: u64,
    two_calls: u64,
    files: u64,
    all: bool,
    case: Option<Case>,
    two_case: Option<TwoCase>,
    repair_case: Option<RepairCase>,
}

impl Amounts {
    /// The usual amounts.
    fn usual() -> Amounts {
        Amounts {
            seed: 1,
            descriptions: 50_000,
            calls: 100_000,
            footings: 100_000,
            two_calls: 100_000,
            files: 20_000,
            all: false,
            case: None,
            two_case: None,
            repair_case: None,
        }
    }
}

/// The command `second cases`; gives the exit code.
pub fn main(args: &[String]) -> i32 {
    if args.iter().any(|arg| arg == "--help" || arg == "-h") {
        print!("{HELP}");
        return 0;
    }
    match read_args(args) {
        Ok(Amounts { case: Some(case), .. }) => show_case(case),
        Ok(Amounts { two_case: Some(case), .. }) => interleaved::show_case(case),
        Ok(Amounts { repair_case: Some(case), .. }) => repairs::show_case(&case),
        Ok(amounts) => run_and_report(amounts),
        Err(wrong) => {
            eprintln!("second cases: {wrong}; --help tells more");
            2
        }
    }
}

fn read_args(args: &[String]) -> Result<Amounts, String> {
    let mut amounts = Amounts::usual();
    let mut args = args.iter();
    while let Some(name) = args.next() {
        if name == "--all" {
            amounts.all = true;
            continue;
        }
        let mut value = || args.next().and_then(|text| text.parse::<u64>().ok());
        let wanted = || format!("{name} wants a number");
        match name.as_str() {
            "--seed" => amounts.seed = value().ok_or_else(wanted)?,
            "--descriptions" => amounts.descriptions = value().ok_or_else(wanted)? as usize,
            "--calls" => amounts.calls = value().ok_or_else(wanted)? as usize,
            "--footings" => amounts.footings = value().ok_or_else(wanted)?,
            "--two-calls" => amounts.two_calls = value().ok_or_else(wanted)?,
            "--files" => amounts.files = value().ok_or_else(wanted)?,
            "--case" => amounts.case = Some(case(value().ok_or_else(wanted)?)),
            "--explained-case" => amounts.case = Some(explained_case(value().ok_or_else(wanted)?)),
            "--two-case" => amounts.two_case = Some(two_case(value().ok_or_else(wanted)?)),
            "--repair-case" => amounts.repair_case = Some(repair_case(value().ok_or_else(wanted)?)),
            _ => return Err(format!("{name} is unknown")),
        }
    }
    Ok(amounts)
}

fn run_and_report(amounts: Amounts) -> i32 {
    let run = Run::of(&amounts, &|line| eprintln!("{line}"));
    let explained = Explained::run(amounts.seed, amounts.footings);
    eprintln!("{} footings explained", explained.footings);
    let interleaved = Interleaved::run(amounts.seed, amounts.two_calls);
    eprintln!("{} calls of two agents", interleaved.calls);
    let damaged = Repairs::run(amounts.seed, amounts.files);
    eprintln!("{} files read back and repaired", damaged.files());
    print!("{}{}", run.tally.report(amounts.all), explained.report(amounts.all));
    print!("{}{}", interleaved.report(amounts.all), damaged.report(amounts.all));
    let missing =
        [run.tally.missing(), explained.missing(), interleaved.missing(), damaged.missing()].concat();
    for name in &missing {
        println!("NOT REACHED: {name}");
    }
    let wrong = [run.wrong, explained.wrong, interleaved.wrong, damaged.wrong].concat();
    for line in &wrong {
        println!("WRONG: {line}");
    }
    if missing.is_empty() && wrong.is_empty() {
        println!("all reached, nothing wrong (seed {})", amounts.seed);
        return 0;
    }
    1
}

/// The most wrong answers that are told.
const TOLD: usize = 10;

/// A progress line comes every so many descriptions or calls.
const STRIDE: usize = 25_000;

/// A run of the second program: the counts and what went wrong.
struct Run<'a> {
    tally: Tally,
    wrong: Vec<String>,
    progress: &'a dyn Fn(&str),
}

impl Run<'_> {
    fn of<'a>(amounts: &Amounts, progress: &'a dyn Fn(&str)) -> Run<'a> {
        let mut rng = Rng::new(amounts.seed);
        let mut run = Run { tally: Tally::new(), wrong: Vec::new(), progress };
        for done in 1..=amounts.descriptions {
            run.check(&sample(&mut rng));
            run.tell(done, amounts.descriptions, "descriptions");
        }
        let mut done = 0;
        while done < amounts.calls {
            let Case { seed, desc, mut steps } = case(rng.draw());
            let mut last = None;
            while let Some(step) = steps.step(last.as_ref()) {
                last = Some(run.call(seed, &desc, &steps, &step));
                done += 1;
                run.tell(done, amounts.calls, "calls");
            }
        }
        run
    }

    fn check(&mut self, sample: &Sample) {
        let rule = check(&sample.bytes).map_or_else(|rule| rule, |_| 0);
        if let Some(known) = sample.rule.filter(|&known| known != rule) {
            let bytes = hex(&sample.bytes);
            self.note(format!("CHECK answers {rule}, not {known} ({}): {bytes}", sample.name));
        }
        self.tally.check(sample.name, &sample.bytes, rule);
    }

    fn call(&mut self, seed: u64, desc: &[u8], steps: &Sequence, step: &Step) -> Answer {
        let (answer, output) = play(desc, step);
        if let Err(what) = keeps(steps.draft(), step, &answer, &output) {
            self.note(format!("{what}: {} (--case {seed})", outline(step, &answer)));
        }
        self.tally.call(steps.draft(), step, &answer);
        answer
    }

    fn note(&mut self, line: String) {
        if self.wrong.len() < TOLD {
            (self.progress)(&line);
            self.wrong.push(line);
        }
    }

    fn tell(&self, done: usize, count: usize, what: &str) {
        if done.is_multiple_of(STRIDE) {
            (self.progress)(&format!("{done} {what} of {count}"));
        }
    }
}

/// Prints a case whole.
fn show_case(case: Case) -> i32 {
    let Case { desc, mut steps, .. } = case;
    println!("description {}", hex(&desc));
    match steps.draft() {
        Ok(draft) => println!("{draft:#?}"),
        Err(rule) => println!("breaks {}", tally::rule_name(rule as usize)),
    }
    let mut last = None;
    let mut code = 0;
    while let Some(step) = steps.step(last.as_ref()) {
        let (answer, output) = play(&desc, &step);
        println!("\n{}", outline(&step, &answer));
        println!("state before {}", hex(&step.state.to_bytes()));
        if let Call::Generate { record, .. } = &step.call {
            println!("record       {}", record.escape_ascii());
        }
        println!("state after  {}", hex(&answer.state.to_bytes()));
        print!("{}", String::from_utf8_lossy(&output[..answer.count.min(output.len())]));
        if let Err(what) = keeps(steps.draft(), &step, &answer, &output) {
            println!("WRONG: {what}");
            code = 1;
        }
        last = Some(answer);
    }
    code
}

/// A step and its answer in one line.
fn outline(step: &Step, answer: &Answer) -> String {
    let call = match &step.call {
        Call::Initiate => "INITIATE".to_string(),
        Call::Generate { d, .. } => format!("GENERATE detail {d}"),
        Call::Terminate => "TERMINATE".to_string(),
    };
    let (before, after) = (place(&step.state), place(&answer.state));
    let Answer { number, extra, count, .. } = answer;
    format!(
        "{call} ({}), room {}, {before} -> {number} {extra}, {count} bytes, {after}",
        step.name, step.room
    )
}

fn place(state: &State) -> String {
    let State { phase, page, line, seen, saved, .. } = state;
    format!("phase {phase} page {page} line {line} seen {seen} saved {saved}")
}

fn hex(bytes: &[u8]) -> String {
    bytes.iter().map(|byte| format!("{byte:02x}")).collect()
}

#[cfg(test)]
mod tests {
    use super::*;

    #[test]
    fn a_draft_is_read_back_as_it_was_written() {
        let mut rng = Rng::new(2);
        for _ in 0..500 {
            let draft = valid::draft(&mut rng);
            assert_eq!(Draft::read(&draft.bytes()), draft);
        }
    }

    #[test]
    fn the_same_seed_gives_the_same_descriptions() {
        let draw = |seed| {
            let mut rng = Rng::new(seed);
            (0..50).map(|_| description(&mut rng)).collect::<Vec<_>>()
        };
        assert_eq!(draw(3), draw(3));
        assert_ne!(draw(3), draw(4));
    }

    #[test]
    fn about_half_of_the_descriptions_are_accepted() {
        let mut rng = Rng::new(5);
        let accepted = (0..2000).filter(|_| check(&description(&mut rng)).is_ok()).count();
        assert!((800..1200).contains(&accepted), "{accepted} of 2000");
    }

    #[test]
    fn damaged_bytes_have_every_length() {
        let mut rng = Rng::new(6);
        let lengths: Vec<usize> = (0..2000).map(|_| damaged(&mut rng, &[7; 100]).len()).collect();
        assert!([0, 47, 48, 51, 52, 99, 100, 101].iter().all(|length| lengths.contains(length)));
    }

    #[test]
    fn about_half_of_the_descriptions_are_of_version_2() {
        let mut rng = Rng::new(8);
        let is_2 = |bytes: &Vec<u8>| bytes.ends_with(&[2, 0]);
        let accepted = (0..2000).map(|_| accepted_description(&mut rng)).filter(is_2).count();
        assert!((900..1100).contains(&accepted), "{accepted} of 2000");
        let checked = (0..2000).map(|_| description(&mut rng)).filter(is_2).count();
        assert!((900..1400).contains(&checked), "{checked} of 2000");
        assert!((0..200).all(|_| is_2(&pictured_description(&mut rng))));
    }

    #[test]
    fn broken_descriptions_break_their_rule() {
        let mut rng = Rng::new(9);
        for rule in (1..=9).cycle().take(1800) {
            let (bytes, name) = broken_description(&mut rng, rule);
            assert_eq!(check(&bytes).err(), Some(rule), "{name}");
        }
    }

    #[test]
    fn a_wrong_picture_is_seen() {
        let mut rng = Rng::new(10);
        let mut seen = 0;
        while seen < 50 {
            let desc = pictured_description(&mut rng);
            let mut steps = sequence(&mut rng, &desc, 20);
            let mut last = None;
            while let Some(step) = steps.step(last.as_ref()) {
                let (answer, mut output) = play(&desc, &step);
                seen += usize::from(spoil_a_picture(steps.draft(), &step, &answer, &mut output));
                last = Some(answer);
            }
        }
    }

    /// Changes a byte of the first number that is printed through a picture, if one is, and sees that it is noticed.
    fn spoil_a_picture(draft: Result<&Draft, u8>, step: &Step, answer: &Answer, output: &mut [u8]) -> bool {
        let Ok(draft) = draft else { return false };
        if answer.count == 0 {
            return false;
        }
        let printed = output[..answer.count].to_vec();
        let places = keep::places(draft, &printed).expect("lines in order");
        let Ok(walked) = walk::walk(draft, step, &places) else { return false };
        let all = shown::all(draft, step, answer.state.page, &walked.rows, &printed);
        let Some(first) = all.first() else { return false };
        let at = first.part.as_ptr() as usize - printed.as_ptr() as usize;
        output[at] = if output[at] == b'x' { b'y' } else { b'x' };
        assert!(keeps(Ok(draft), step, answer, output).is_err());
        true
    }

    #[test]
    fn a_wrong_answer_is_seen() {
        let mut rng = Rng::new(7);
        let desc = accepted_description(&mut rng);
        let mut steps = sequence(&mut rng, &desc, 50);
        let step = steps.step(None).expect("fifty steps");
        let (mut answer, output) = play(&desc, &step);
        assert_eq!(keeps(steps.draft(), &step, &answer, &output), Ok(()));
        answer.state.page += 1;
        assert!(keeps(steps.draft(), &step, &answer, &output).is_err());
    }

    #[test]
    fn a_kept_record_that_takes_the_newer_bytes_is_seen() {
        let mut rng = Rng::new(11);
        let mut seen = 0;
        while seen < 50 {
            let desc = accepted_description(&mut rng);
            let mut steps = sequence(&mut rng, &desc, 20);
            let mut last = None;
            while let Some(step) = steps.step(last.as_ref()) {
                let (answer, output) = play(&desc, &step);
                seen += usize::from(keep_the_newer_bytes(steps.draft(), &step, &answer, &output));
                last = Some(answer);
            }
        }
    }

    /// Keeps the row instead of an equal one written otherwise, if it is one, and sees that this is noticed.
    fn keep_the_newer_bytes(draft: Result<&Draft, u8>, step: &Step, answer: &Answer, output: &[u8]) -> bool {
        let (Ok(draft), Call::Generate { record, .. }, 0) = (draft, &step.call, answer.number) else {
            return false;
        };
        let kept = &answer.state.kept[..record.len()];
        if signs::turned(draft, draft.controls.len(), kept, record).is_empty() {
            return false;
        }
        let mut wrong = answer.clone();
        wrong.state.keep(record);
        assert!(keeps(Ok(draft), step, &wrong, output).is_err());
        true
    }

    #[test]
    fn a_small_run_reaches_every_rule_and_refusal() {
        let amounts = Amounts { descriptions: 4_000, calls: 10_000, ..Amounts::usual() };
        let run = Run::of(&amounts, &|_| {});
        assert_eq!(run.wrong, Vec::<String>::new());
        let missing = run.tally.missing();
        let never = missing.iter().filter(|name| name.contains("CHECK") || name.contains(": refusal "));
        assert_eq!(never.collect::<Vec<_>>(), Vec::<&String>::new());
    }
}
