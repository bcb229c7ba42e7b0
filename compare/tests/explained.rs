//! R-6 against the second program's own explanation, by brute force over rows and routes: what the proved calls print is
//! what they print with the explained totals in place of the sums, and the program that explains lists the same rows.

mod common;
mod program;

use std::path::Path;
use std::process::Command;

use common::{both, Asked, Left};
use program::{finished, random_rows, sheet, Folder};
use second::cases::{explained_case, summing_description, Call, Case, Rng};
use second::description::SUM;
use second::explain::{keeps_condition, line_at, print_explained, Explainer, Explanation};
use second::report::{generate, initiate, terminate, Answer};
use second::state::State;

const SEED: u64 = 6;

/// Control footings with a counter whose turn came, under descriptions that keep R-6's condition.
const FOOTINGS: usize = 100_000;

/// Counts of a run: footings and counters explained, the accepted calls they came in, and their bytes.
#[derive(Debug, Default)]
struct Counts {
    calls: usize,
    footings: usize,
    counters: usize,
    bytes: usize,
}

#[test]
fn footings_print_the_totals_that_the_rows_explain() {
    let mut rng = Rng::new(SEED);
    let mut counts = Counts::default();
    while counts.footings < FOOTINGS {
        play_through(explained_case(rng.draw()), &mut counts);
    }
    println!("{counts:?}");
    assert!(counts.counters > counts.footings && counts.bytes > counts.calls, "{counts:?}");
}

/// Plays a case to its end, refused calls too; each accepted call of a description inside the condition is printed again
/// from the rows alone.
fn play_through(case: Case, counts: &mut Counts) {
    let Case { seed, desc, mut steps } = case;
    let mut explainer = Explainer::new(&desc).expect("a description that is accepted");
    let keeps = keeps_condition(explainer.description());
    let mut last = None;
    while let Some(step) = steps.step(last.as_ref()) {
        let asked = Asked::of_step(&desc, &step);
        let left = both(&asked).unwrap_or_else(|what| panic!("--explained-case {seed}: {what}"));
        if left.number == 0 && step.goes_on() {
            if keeps {
                let printed = &left.output[..left.count];
                let mut out = vec![0; left.count];
                let explained = print_explained(&explainer, &step.state, &step.call, &mut out)
                    .unwrap_or_else(|| panic!("--explained-case {seed}: not explained: {:?}", step.call));
                assert_eq!(
                    (explained.count, out.as_slice()),
                    (left.count, printed),
                    "--explained-case {seed}"
                );
                counts.calls += 1;
                counts.footings += explained.footings;
                counts.counters += explained.counters;
                counts.bytes += left.count;
            }
            explainer.enter(&step.call);
        }
        last = Some(answer_of(&left));
    }
}

fn answer_of(left: &Left) -> Answer {
    let state = State::from_bytes(&left.state);
    Answer { number: left.number as u8, extra: left.extra as u32, count: left.count, state }
}

// ---- the program that explains, on random sheets

/// Lines with sums that are asked about.
const LINES: usize = 400;

/// Of one sheet at most so many.
const OF_A_SHEET: usize = 4;

#[test]
fn the_program_lists_the_rows_that_the_second_program_finds() {
    let folder = Folder::new("explained");
    let mut rng = Rng::new(SEED);
    let (mut lines, mut sums, mut shares) = (0, 0, 0);
    while lines < LINES {
        let desc = summing_description(&mut rng);
        let explainer = Explainer::new(&desc).expect("a description that is accepted");
        if !keeps_condition(explainer.description()) {
            continue;
        }
        let rows = random_rows(&mut rng, &desc);
        let files = [folder.file("desc", &desc), folder.file("rows", &rows)];
        for (page, line, wanted) in sum_lines(&desc, &rows, &mut rng) {
            let mut command =
                Command::new(Path::new(env!("CARGO_MANIFEST_DIR")).join("../target/bin/explain"));
            command.args(&files).args([page.to_string(), line.to_string()]);
            let written = finished(command);
            assert_eq!(written.errors, "", "page {page}, line {line} of {desc:?}, {rows:?}");
            assert_eq!(told(&String::from_utf8(written.sheet).expect("words")), wanted, "{desc:?}, {rows:?}");
            lines += 1;
            sums += wanted.len();
            shares += wanted.iter().map(|sum| sum.rows.len()).sum::<usize>();
        }
    }
    println!("{lines} lines, {sums} sums, {shares} amounts");
}

/// A sum as it is explained: its counter, the amounts (row from 1, field, amount, times) and the total.
#[derive(Debug, PartialEq, Eq)]
struct Sum {
    counter: usize,
    rows: Vec<(usize, usize, i64, usize)>,
    total: i128,
}

fn sum_of(explanation: &Explanation) -> Sum {
    let shares = explanation.shares.iter();
    Sum {
        counter: explanation.counter,
        rows: shares.map(|share| (share.row + 1, share.field, share.amount, share.times)).collect(),
        total: explanation.total,
    }
}

/// Some lines with sums of a sheet, up to its first refused row, each with its sums explained by the second program.
fn sum_lines(desc: &[u8], rows: &[u8], rng: &mut Rng) -> Vec<(u32, u32, Vec<Sum>)> {
    let mut explainer = Explainer::new(desc).expect("a description that is accepted");
    let length = usize::from(explainer.description().r);
    let width = usize::from(explainer.description().w);
    let mut state = initiate(desc, &State::fresh()).state;
    let mut calls: Vec<Call> =
        rows.chunks(length).map(|row| Call::Generate { d: 0, record: row.to_vec() }).collect();
    calls.push(Call::Terminate);
    let mut found = Vec::new();
    let mut output = vec![0; 1 << 18];
    for call in &calls {
        let answer = match call {
            Call::Generate { d, record } => generate(desc, &state, *d, record, &mut output),
            _ => terminate(desc, &state, &mut output),
        };
        if answer.number != 0 {
            break;
        }
        for record in output[..answer.count].chunks(width + 10) {
            let number = |digits: &[u8]| digits.iter().fold(0, |n, &d| n * 10 + u32::from(d - b'0'));
            let (page, line) = (number(&record[..6]), number(&record[6..9]));
            let d = explainer.description();
            let (_, items) = line_at(&explainer, &state, call, page, line).expect("a printed line");
            let counters: Vec<usize> = d
                .items_of(items)
                .iter()
                .filter(|item| item.source == SUM)
                .map(|item| usize::from(item.index))
                .collect();
            if !counters.is_empty() {
                let all = explainer.explain(call);
                let of = |c: &usize| sum_of(all.iter().find(|e| e.counter == *c).expect("explained"));
                found.push((page, line, counters.iter().map(of).collect()));
            }
        }
        explainer.enter(call);
        state = answer.state;
    }
    while found.len() > OF_A_SHEET {
        let nth = rng.between(0, found.len() - 1);
        found.swap_remove(nth);
    }
    found
}

/// The sums that the program tells of a line; each total is said to be the printed one.
fn told(text: &str) -> Vec<Sum> {
    let number = |words: &str| words.parse::<i128>().unwrap_or_else(|_| panic!("{words} in {text}"));
    let mut sums: Vec<Sum> = Vec::new();
    for line in text.lines() {
        if let Some((_, rest)) = line.split_once(": counter ") {
            let counter = number(rest.split(',').next().expect("a counter")) as usize;
            sums.push(Sum { counter, rows: Vec::new(), total: 0 });
        } else if let Some(rest) = line.strip_prefix("  row ") {
            let parts: Vec<&str> = rest.split(": ").collect();
            let (amount, times) = parts[2].split_once(", ").expect("an amount and times");
            let row = number(parts[0]) as usize;
            let field = number(parts[1].strip_prefix("field ").expect("a field")) as usize;
            let times = number(times.split(' ').next().expect("times")) as usize;
            sums.last_mut().expect("a counter").rows.push((row, field, number(amount) as i64, times));
        } else if let Some((_, rest)) = line.split_once(", total ") {
            let total = rest.strip_suffix(": the printed total").unwrap_or_else(|| panic!("{text}"));
            sums.last_mut().expect("a counter").total = number(total);
        }
    }
    sums
}

// ---- the Czech example

/// Source document 004, 13.5.8: as `second/tests/czech.rs` builds it, with what C's clause RESET says left open.
const CZECH: &str = "
page 65 heading 1 first 1 last 65 footing 65
width 87
record 14
field prvni text 0 1
field druhy text 1 1
field a number 2 4
field b number 6 4
field tally number 10 4
control FINAL
control prvni
control druhy
group DE
  line relative 1
    item 20 6 field b decimals 2
group CF druhy
  line relative 2
    item 20 6 sum c decimals 2
  sum c{reset}
    add field a
group CF prvni
  line relative 2
  sum d
    add field b
    add field tally
  sum e
    add sum c
group CF FINAL
  line relative 5
    item 45 7 sum g decimals 2
    item 60 7 sum f decimals 2
    item 80 8 sum h decimals 2
  sum f
    add sum e
    add sum d
  sum g
    add sum c
  sum h
    add sum f
    add sum g
";

const CZECH_ROWS: &[u8] =
    b"XK+100+020+001XK+200+030+001XL+400+040+001YL-050+005+001YM+001+001+001YM+002+002+001";

/// C feeds E and G and is reset at PRVNI, senior to its own DRUHY: told in words, and nothing is claimed. Without that clause the
/// totals of the last line are the rows' amounts: A once in G, A once, B and TALLY once in F, A twice, B and TALLY once in H.
#[test]
fn the_czech_example_is_told_to_be_outside_and_without_its_reset_explained() {
    let folder = Folder::new("explained-czech");
    let rows = folder.file("rows", CZECH_ROWS);
    let run = |reset: &str| {
        let built = second::source::build(&CZECH.replace("{reset}", reset)).expect("a description");
        let desc = folder.file("desc", &built.bytes());
        // FINAL's line is the last of the sheet
        let text = String::from_utf8(sheet(&[&desc, &rows]).sheet).expect("a sheet");
        let last = text.lines().last().expect("a line");
        let mut command = Command::new(Path::new(env!("CARGO_MANIFEST_DIR")).join("../target/bin/explain"));
        command.args([&desc, &rows]).args([&last[..6], &last[6..9]]);
        finished(command)
    };
    let outside = run(" reset prvni");
    assert!(
        outside.errors.starts_with("explain: counter 0 feeds counter 2 but is reset at level 1"),
        "{}",
        outside.errors
    );
    assert!(outside.sheet.is_empty());
    let within = run("");
    assert_eq!(within.errors, "");
    let totals: Vec<(usize, i128)> = told(&String::from_utf8(within.sheet).expect("words"))
        .iter()
        .map(|sum| (sum.counter, sum.total))
        .collect();
    assert_eq!(totals, [(4, 653), (3, 653 + 98 + 6), (5, 2 * 653 + 98 + 6)]);
}
