//! R-6, "explain a total from the rows": the examples, the example of source document 004, small descriptions by hand,
//! random cases, and the command.

mod common;

use std::path::{Path, PathBuf};
use std::process::Command;

use common::{item, marked_page, whole_run, zprava, C, D, E, F, G, H, WHOLE_RUN_ROWS};
use second::builder::Builder;
use second::cases::Explained;
use second::description::*;
use second::explain::{
    first_outside, keeps_condition, line_at, print_explained, routes, Explainer, Explanation, Printed, Route,
    Share,
};
use second::report::{generate, initiate, terminate, Call};
use second::state::State;
use second::turns;

fn example(name: &str) -> PathBuf {
    PathBuf::from(concat!(env!("CARGO_MANIFEST_DIR"), "/../examples")).join(name)
}

fn bytes(name: &str) -> Vec<u8> {
    std::fs::read(example(name)).unwrap_or_else(|error| panic!("{name}: {error}"))
}

fn row(d: u32, record: &[u8]) -> Call {
    Call::Generate { d, record: record.to_vec() }
}

/// A run from a fresh state, explained call by call.
struct Told {
    desc: Vec<u8>,
    state: State,
    explainer: Explainer,
    /// What the calls print, and what they print with explained totals.
    sheet: Vec<u8>,
    explained_sheet: Vec<u8>,
    footings: usize,
    counters: usize,
}

impl Told {
    fn begin(desc: &[u8]) -> Told {
        let explainer = Explainer::new(desc).unwrap();
        let (sheet, explained_sheet) = (Vec::new(), Vec::new());
        let desc = desc.to_vec();
        let mut told =
            Told { desc, state: State::fresh(), explainer, sheet, explained_sheet, footings: 0, counters: 0 };
        told.call(&Call::Initiate);
        told
    }

    /// Makes a call that is accepted. Gives each counter due with its explanation and the sum its footing shows.
    fn call(&mut self, call: &Call) -> Vec<(Explanation, i64)> {
        let explanations = self.explainer.explain(call);
        let sums = self.sums(call, &explanations);
        let mut out = vec![0; 1 << 17];
        let answer = match call {
            Call::Initiate => initiate(&self.desc, &self.state),
            Call::Generate { d, record } => generate(&self.desc, &self.state, *d, record, &mut out),
            Call::Terminate => terminate(&self.desc, &self.state, &mut out),
        };
        assert_eq!((answer.number, answer.extra), (0, 0), "refused");
        let mut again = vec![0; answer.count];
        if let Some(printed) = print_explained(&self.explainer, &self.state, call, &mut again) {
            assert_eq!(printed.count, answer.count);
            self.explained_sheet.extend(&again);
            self.footings += printed.footings;
            self.counters += printed.counters;
        }
        self.sheet.extend(&out[..answer.count]);
        self.state = answer.state;
        self.explainer.enter(call);
        explanations.into_iter().zip(sums).collect()
    }

    /// The sums as the footings show them.
    fn sums(&self, call: &Call, explanations: &[Explanation]) -> Vec<i64> {
        let d = self.explainer.description();
        let mut state = self.state.clone();
        let turns = match call {
            Call::Generate { d: number, record } => {
                turns::of_generate(d, &mut state, *number as usize, d.detail(*number).unwrap(), record)
                    .unwrap()
            }
            Call::Terminate if !self.explainer.rows().is_empty() => {
                turns::of_terminate(d, &mut state).unwrap()
            }
            _ => Vec::new(),
        };
        let sum = |explained: &Explanation| {
            let turn = turns.iter().find(|turn| turn.group == explained.group).expect("a footing due");
            turn.sums[explained.counter]
        };
        explanations.iter().map(sum).collect()
    }

    /// The explained totals of a call with the shown sums, by counter.
    fn totals(&mut self, call: &Call) -> Vec<(usize, i128, i64)> {
        self.call(call).iter().map(|(explained, sum)| (explained.counter, explained.total, *sum)).collect()
    }
}

// ---- the examples

/// Plays an example whole.
fn play(name: &str) -> Told {
    let desc = bytes(&format!("{name}.desc"));
    let length = usize::from(check(&desc).unwrap().r);
    let mut told = Told::begin(&desc);
    for record in bytes(&format!("{name}.rows")).chunks(length) {
        told.call(&row(0, record));
    }
    told.call(&Call::Terminate);
    told
}

#[test]
fn the_examples_sheets_come_out_with_explained_totals() {
    for (name, footings, counters) in [("whole_run", 2, 2), ("day_sheet", 83, 166), ("pictures", 4, 8)] {
        let told = play(name);
        assert!(keeps_condition(told.explainer.description()), "{name}");
        assert!(told.explained_sheet == bytes(&format!("{name}.sheet")), "{name}: the sheets differ");
        assert_eq!((told.footings, told.counters), (footings, counters), "{name}");
    }
    let lines = String::from_utf8(bytes("day_sheet.sheet")).unwrap();
    assert_eq!(lines.lines().filter(|line| line.contains("TOTAL")).count(), 83);
}

/// The rows that a total line of the day sheet is about, by the plainest reading of the sheet: those printed above it back
/// to the last total of its kind or a more senior one.
fn rows_above(lines: &[&str], at: usize) -> Vec<usize> {
    let stars = |line: &str| line.contains("TOTAL").then(|| line.matches('*').count());
    // A time stands on it.
    let is_detail = |line: &str| &line[60..61] == ":";
    let own = stars(lines[at]).unwrap();
    let number = |end: usize| lines[..end].iter().filter(|line| is_detail(line)).count();
    let start = (0..at).rev().find(|&above| stars(lines[above]).is_some_and(|other| other >= own));
    (number(start.unwrap_or(0))..number(at)).collect()
}

/// Hundredths as the day sheet shows them.
fn money(total: i128) -> String {
    let sign = if total < 0 { "-" } else { "" };
    format!("{sign}{}.{:02}", total.abs() / 100, total.abs() % 100)
}

#[test]
fn every_total_of_the_day_sheet_is_made_up_of_its_rows() {
    let desc = bytes("day_sheet.desc");
    let sheet = String::from_utf8(bytes("day_sheet.sheet")).unwrap();
    let lines: Vec<&str> = sheet.lines().collect();
    let mut totals = (0..lines.len()).filter(|&at| lines[at].contains("TOTAL"));
    let rows = bytes("day_sheet.rows");
    let mut calls: Vec<Call> = rows.chunks(67).map(|record| row(0, record)).collect();
    calls.push(Call::Terminate);
    let mut told = Told::begin(&desc);
    let mut pages = Vec::new();
    for call in &calls {
        let explained = told.call(call);
        for pair in explained.chunks(2) {
            let at = totals.next().expect("a total on the sheet");
            pages.push(&lines[at][..6]);
            let shown: Vec<&str> = lines[at].split_whitespace().rev().take(2).collect();
            // Amount and commission: fields 4 and 5, each of the line's rows once.
            for ((explanation, sum), (field, shown)) in pair.iter().zip([(4, shown[1]), (5, shown[0])]) {
                assert_eq!((explanation.total, money(explanation.total).as_str()), (i128::from(*sum), shown));
                let own: Vec<usize> = explanation.shares.iter().map(|share| share.row).collect();
                assert_eq!(own, rows_above(&lines, at), "line {at}");
                for share in &explanation.shares {
                    let part = if field == 4 { 51..60 } else { 60..67 };
                    let text = std::str::from_utf8(&rows[67 * share.row..][part]).unwrap().trim_start();
                    assert_eq!((share.field, share.amount, share.times), (field, text.parse().unwrap(), 1));
                }
            }
        }
    }
    assert_eq!(totals.next(), None);
    pages.dedup();
    assert_eq!(pages, ["000001", "000002", "000003", "000004", "000005", "000006", "000007"]);
}

#[test]
fn a_new_report_begins_without_rows_and_a_refused_call_counts_for_nothing() {
    let desc = bytes("two_reports.desc");
    let mut told = Told::begin(&desc);
    let refused = |told: &Told| {
        let answer = generate(&desc, &told.state, 0, b"B-12", &mut [0; 135]);
        assert_eq!((answer.number, &answer.state), (9, &told.state));
        assert_eq!(print_explained(&told.explainer, &told.state, &row(0, b"B-12"), &mut [0; 16]), None);
    };
    assert_eq!(told.totals(&row(0, b"A+05")), []);
    assert_eq!(told.totals(&row(0, b"A+07")), []);
    refused(&told);
    assert_eq!(told.totals(&row(0, b"B-12")), [(0, 12, 12)]);
    assert_eq!(told.totals(&Call::Terminate), [(0, -12, -12)]);
    assert_eq!(told.totals(&Call::Initiate), []);
    assert_eq!(told.totals(&row(0, b"C+99")), []);
    assert_eq!(told.totals(&Call::Terminate), [(0, 99, 99)]);
    assert_eq!(told.totals(&Call::Initiate), []);
    // "TERMINATE when started prints nothing."
    assert_eq!(told.totals(&Call::Terminate), []);
    assert!(told.explained_sheet == bytes("two_reports.sheet"));
}

// ---- the example of source document 004

/// PRVNI, DRUHY, A, B, TALLY.
const CZECH_ROWS: [&[u8]; 6] = [
    b"XK+100+020+001",
    b"XK+200+030+001",
    b"XL+400+040+001",
    b"YL-050+005+001",
    b"YM+001+001+001",
    b"YM+002+002+001",
];

/// The totals of each call after the first two rows.
fn czech_totals(b: &Builder) -> Vec<Vec<(usize, i128, i64)>> {
    let mut told = Told::begin(&b.bytes());
    let mut calls: Vec<Call> = CZECH_ROWS.iter().map(|record| row(0, record)).collect();
    calls.push(Call::Terminate);
    let totals: Vec<_> = calls.iter().map(|call| told.totals(call)).collect();
    assert!(totals[..2].concat().is_empty());
    totals[2..].to_vec()
}

#[test]
fn the_czech_example_is_outside_the_condition() {
    let b = zprava();
    // C feeds E and G, and has RESET PRVNI in the footing of DRUHY: it hands on what it has handed on before.
    assert_eq!(first_outside(&check(&b.bytes()).unwrap()), Some(C));
    // (counter, explained, shown)
    let due = [
        vec![(C, 300, 300)],
        // C was not reset: 300 + 400. E has C of both breaks, 300 + 700.
        vec![(C, 700, 700), (D, 93, 93), (E, 700, 1000)],
        vec![(C, -50, -50)],
        vec![],
        vec![
            (C, -47, -47),
            (D, 11, 11),
            (E, -47, -97),
            // A of all rows 653, B and TALLY 98 + 6.
            (F, 653 + 104, 1007),
            (G, 653, 903),
            (H, 2 * 653 + 104, 1910),
        ],
    ];
    assert_eq!(czech_totals(&b), due);
}

#[test]
fn the_czech_example_without_its_reset_is_explained_whole() {
    let mut b = zprava();
    b.tables.counters[C].reset = 2;
    assert!(keeps_condition(&check(&b.bytes()).unwrap()));
    let due: [&[(usize, i128)]; 5] = [
        &[(C, 300)],
        &[(C, 400), (D, 93), (E, 700)],
        &[(C, -50)],
        &[],
        &[(C, 3), (D, 11), (E, -47), (F, 757), (G, 653), (H, 1410)],
    ];
    for (call, due) in czech_totals(&b).iter().zip(due) {
        let due: Vec<_> = due.iter().map(|&(counter, total)| (counter, total, total as i64)).collect();
        assert_eq!(*call, due);
    }
}

#[test]
fn the_czech_routes_are_whole_chains() {
    let d = check(&zprava().bytes()).unwrap();
    let chains = |counter: usize| -> Vec<(usize, Vec<usize>)> {
        routes(&d, counter).into_iter().map(|route| (route.field, route.counters)).collect()
    };
    let (a, b, tally) = (2, 3, 4);
    assert_eq!(chains(C), [(a, vec![C])]);
    assert_eq!(chains(D), [(b, vec![D]), (tally, vec![D])]);
    assert_eq!(chains(E), [(a, vec![C, E])]);
    assert_eq!(chains(F), [(a, vec![C, E, F]), (b, vec![D, F]), (tally, vec![D, F])]);
    assert_eq!(chains(G), [(a, vec![C, G])]);
    let of_h = [(a, vec![C, E, F, H]), (b, vec![D, F, H]), (tally, vec![D, F, H]), (a, vec![C, G, H])];
    assert_eq!(chains(H), of_h);
}

// ---- small descriptions by hand

/// Controls FINAL and an agent; two details; an amount. CF agent: counter 0 adds the amount of detail 0; counter 1 that of
/// both and counter 0. CF FINAL: counter 2 adds counters 0 and 1: three routes for detail 0, one for detail 1.
fn two_routes() -> Builder {
    let mut b = marked_page(12, 4);
    let agent = b.text(0, 1);
    let amount = b.number(1, 3);
    b.control(FINAL);
    b.control(agent);
    b.group(DE, 0);
    b.group(DE, 0);
    let junior = b.group(CF, 1);
    b.line(LINE_RELATIVE, 1);
    b.item(item(1, 4, SUM, 0));
    b.item(item(6, 4, SUM, 1));
    b.counter(junior, 1);
    b.add_field(amount, 1);
    b.counter(junior, 1);
    b.add_field(amount, 3);
    b.add_counter(0);
    let senior = b.group(CF, 0);
    b.line(LINE_RELATIVE, 1);
    b.item(item(1, 4, SUM, 2));
    b.counter(senior, 0);
    b.add_counter(0);
    b.add_counter(1);
    b
}

#[test]
fn a_field_counts_once_for_each_route() {
    let desc = two_routes().bytes();
    let d = check(&desc).unwrap();
    let route = |mask: u16, counters: &[usize]| Route { field: 1, mask, counters: counters.to_vec() };
    assert_eq!(routes(&d, 0), [route(1, &[0])]);
    assert_eq!(routes(&d, 1), [route(3, &[1]), route(1, &[0, 1])]);
    assert_eq!(routes(&d, 2), [route(1, &[0, 2]), route(3, &[1, 2]), route(1, &[0, 1, 2])]);

    let mut told = Told::begin(&desc);
    assert_eq!(told.call(&row(0, b"A+05")), []);
    assert_eq!(told.call(&row(1, b"A+20")), []);
    let share = |row: usize, amount: i64, times: usize| Share { row, field: 1, amount, times };
    let explained = |counter: usize, group: usize, since: usize, total: i64, shares: &[Share]| {
        let total_of_rows = i128::from(total);
        (Explanation { counter, group, total: total_of_rows, since, shares: shares.to_vec() }, total)
    };
    // The row in hand is not in it.
    let due = [
        explained(0, 2, 0, 5, &[share(0, 5, 1)]),
        explained(1, 2, 0, 30, &[share(0, 5, 2), share(1, 20, 1)]),
    ];
    assert_eq!(told.call(&row(0, b"B-07")), due);
    assert_eq!(told.call(&row(0, b"B 01")), []);
    // The row whose call reset them is. FINAL has all rows.
    let due = [
        explained(0, 2, 2, -6, &[share(2, -7, 1), share(3, 1, 1)]),
        explained(1, 2, 2, -12, &[share(2, -7, 2), share(3, 1, 2)]),
        explained(2, 3, 0, 17, &[share(0, 5, 3), share(1, 20, 1), share(2, -7, 3), share(3, 1, 3)]),
    ];
    assert_eq!(told.call(&Call::Terminate), due);
    assert_eq!(told.sheet, told.explained_sheet);
    assert_eq!((told.footings, told.counters), (3, 5));
}

#[test]
fn a_running_total_that_feeds_nobody_is_explained() {
    let mut b = two_routes();
    b.tables.counters[1].reset = 0;
    // Now counter 1 feeds counter 2 with a senior reset level.
    assert_eq!(first_outside(&check(&b.bytes()).unwrap()), Some(1));
    // Without that feed it is in order.
    b.tables.counters[2].addend_count = 1;
    b.tables.addends.truncate(4);
    let desc = b.bytes();
    assert_eq!(first_outside(&check(&desc).unwrap()), None);
    let mut told = Told::begin(&desc);
    assert_eq!(told.totals(&row(0, b"A+05")), []);
    assert_eq!(told.totals(&row(0, b"B+01")), [(0, 5, 5), (1, 10, 10)]);
    assert_eq!(told.totals(&row(0, b"C+02")), [(0, 1, 1), (1, 12, 12)]);
    assert_eq!(told.totals(&Call::Terminate), [(0, 2, 2), (1, 16, 16), (2, 8, 8)]);
    assert_eq!(told.sheet, told.explained_sheet);
}

#[test]
fn outside_the_condition_the_sum_is_another() {
    let mut b = two_routes();
    b.tables.counters[0].reset = 0;
    let desc = b.bytes();
    assert!(!keeps_condition(&check(&desc).unwrap()));
    let mut told = Told::begin(&desc);
    told.call(&row(0, b"A+05"));
    assert_eq!(told.totals(&row(0, b"B+01")), [(0, 5, 5), (1, 10, 10)]);
    // Counter 0 hands its 5 on again: 1 + 6, not 1 + 1.
    assert_eq!(told.totals(&row(0, b"C+02")), [(0, 6, 6), (1, 2, 7)]);
    assert_eq!(told.totals(&Call::Terminate), [(0, 8, 8), (1, 4, 10), (2, 24, 19 + 27)]);
    assert_ne!(told.sheet, told.explained_sheet);
    assert_eq!(told.sheet.len(), told.explained_sheet.len());
}

#[test]
fn equal_controls_written_otherwise_reset_nothing() {
    let mut b = marked_page(12, 6);
    let shop = b.number(0, 3);
    let amount = b.number(3, 3);
    b.control(shop);
    b.group(DE, 0);
    let cf = b.group(CF, 0);
    b.counter(cf, 0);
    b.add_field(amount, 1);
    let mut told = Told::begin(&b.bytes());
    for record in [b"+01+10", b" 01+20", b"+01 30"] {
        assert_eq!(told.totals(&row(0, record)), []);
    }
    assert_eq!(told.totals(&row(0, b"-01+40")), [(0, 60, 60)]);
    let levels: Vec<_> = told.explainer.rows().iter().map(|row| row.break_level).collect();
    assert_eq!(levels, [None, None, None, Some(0)]);
    // The footing has no lines; it is explained all the same.
    assert_eq!((told.footings, told.counters, told.sheet.len()), (1, 1, 0));
}

#[test]
fn a_call_that_cannot_be_accepted_is_not_printed() {
    let desc = whole_run().bytes();
    let mut told = Told::begin(&desc);
    for record in &WHOLE_RUN_ROWS[..2] {
        told.call(&row(0, record));
    }
    let print = |state: &State, call: &Call, room: usize| {
        print_explained(&told.explainer, state, call, &mut vec![0; room])
    };
    let printed = Some(Printed { count: 44, footings: 1, counters: 1 });
    assert_eq!(print(&told.state, &row(0, b"BB-002"), 44), printed);
    assert_eq!(print(&told.state, &row(0, b"BB-002"), 43), None);
    assert_eq!(print(&told.state, &row(1, b"BB-002"), 44), None);
    assert_eq!(print(&told.state, &row(0, b"BB-00"), 44), None);
    // A state of another run, which makes another footing due.
    let mut other = told.state.clone();
    other.keep(b"BB+001");
    assert_eq!(print(&other, &row(0, b"BB-002"), 44), None);
    // Stored sums show nowhere, and no addition to them fails.
    let mut spoilt = told.state.clone();
    spoilt.sums[0] = 999_999_999_999_999_999;
    let mut out = [0; 44];
    assert_eq!(print_explained(&told.explainer, &spoilt, &row(0, b"BB-002"), &mut out), printed);
    assert_eq!(&out, b"000001005SUM    12   \n000001006BB     -2   \n");
    let printed = Some(Printed { count: 22, footings: 0, counters: 0 });
    assert_eq!(print(&spoilt, &row(0, b"AA+001"), 22), printed);
}

#[test]
fn lines_are_found_by_their_page_and_number() {
    let desc = whole_run().bytes();
    let mut told = Told::begin(&desc);
    let mut found = Vec::new();
    let mut calls: Vec<Call> = WHOLE_RUN_ROWS.iter().map(|record| row(0, record)).collect();
    calls.push(Call::Terminate);
    for (number, call) in calls.iter().enumerate() {
        for page in 0..4 {
            for line in 0..12 {
                if let Some((nth, at)) = line_at(&told.explainer, &told.state, call, page, line) {
                    let sums =
                        told.explainer.description().items_of(at).iter().filter(|item| item.source == SUM);
                    found.push((number, nth, page, line, sums.count()));
                }
            }
        }
        told.call(call);
    }
    let due = [
        (0, 0, 1, 1, 0),
        (0, 1, 1, 3, 0),
        (1, 0, 1, 4, 0),
        (2, 0, 1, 5, 1),
        (2, 1, 1, 6, 0),
        (3, 0, 2, 1, 0),
        (3, 1, 2, 3, 0),
        (4, 0, 2, 4, 1),
    ];
    assert_eq!(found, due);
}

// ---- random cases

#[test]
fn random_runs_are_explained() {
    for seed in [1, 6] {
        let run = Explained::run(seed, 25_000);
        assert_eq!(run.wrong, Vec::<String>::new());
        assert_eq!(run.missing(), Vec::<String>::new());
        assert!(run.footings >= 25_000 && run.counters > run.footings);
        assert!(run.outside[1] > 0 && run.outside[0] > run.outside[1]);
        assert!(run.descriptions.iter().all(|&count| count > 100));
    }
}

#[test]
fn the_same_seed_gives_the_same_run() {
    let told = |seed| Explained::run(seed, 300).report(true);
    assert_eq!(told(2), told(2));
    assert_ne!(told(2), told(3));
}

// ---- the command

/// A directory of its own for a test.
fn directory(test: &str) -> PathBuf {
    let path = Path::new(env!("CARGO_TARGET_TMPDIR")).join(format!("explain_{test}"));
    let _ = std::fs::remove_dir_all(&path);
    std::fs::create_dir_all(&path).unwrap();
    path
}

/// Exit code, standard output and standard error.
fn explain(directory: &Path, args: &[&str]) -> (i32, String, String) {
    let mut command = Command::new(env!("CARGO_BIN_EXE_second"));
    let output = command.arg("explain").args(args).current_dir(directory).output().unwrap();
    let text = |bytes| String::from_utf8(bytes).unwrap();
    (output.status.code().unwrap(), text(output.stdout), text(output.stderr))
}

fn fails(directory: &Path, args: &[&str], code: i32, words: &str) {
    let (exit, out, error) = explain(directory, args);
    assert_eq!((exit, out.as_str(), error.lines().count()), (code, "", 1), "{args:?}: {error}");
    assert!(error.contains(words), "{args:?}: {error}");
}

#[test]
fn the_command_tells_the_rows_of_each_sum() {
    let path = directory("sums");
    std::fs::write(path.join("d"), two_routes().bytes()).unwrap();
    std::fs::write(path.join("r"), b"A+05B-07B 01").unwrap();
    let told = "\
page 1, line 4
column 1 shows \"  -6\"
  counter 0, total -6
  row 2, field 1: amount -7, times 1
  row 3, field 1: amount 1, times 1
column 6 shows \" -12\"
  counter 1, total -12
  row 2, field 1: amount -7, times 2
  row 3, field 1: amount 1, times 2
";
    assert_eq!(explain(&path, &["d", "r", "1", "4"]), (0, told.to_string(), String::new()));
    // Line 3 stands before a row that is refused.
    std::fs::write(path.join("r"), b"A+05B-07B=01").unwrap();
    let told = "\
page 1, line 3
column 1 shows \"   5\"
  counter 0, total 5
  row 1, field 1: amount 5, times 1
column 6 shows \"  10\"
  counter 1, total 10
  row 1, field 1: amount 5, times 2
";
    assert_eq!(explain(&path, &["d", "r", "1", "3"]), (0, told.to_string(), String::new()));
    fails(&path, &["d", "r", "1", "4"], 1, "second: GENERATE of row 3 refused: refusal 6, extra number 1");
}

#[test]
fn the_command_tells_the_day_sheets_totals() {
    let (code, out, error) = explain(&example(""), &["day_sheet.desc", "day_sheet.rows", "1", "21"]);
    assert_eq!((code, error.as_str()), (0, ""));
    let told = ["page 1, line 21", "column 56 shows \"       275.00\"", "  counter 2, total 27500"];
    assert!(out.lines().zip(told).all(|(line, due)| line == due), "{out}");
    // The rows of one customer: two sums of so many rows.
    let rows = out.lines().filter(|line| line.starts_with("  row ")).count();
    let amounts = out.lines().filter(|line| line.contains("field 4: amount "));
    let total: i64 = amounts
        .clone()
        .map(|line| line.split("amount ").nth(1).unwrap().split(',').next().unwrap().parse::<i64>().unwrap())
        .sum();
    assert_eq!((rows, total), (2 * amounts.count(), 27500));
}

#[test]
fn the_command_says_what_is_wrong() {
    let path = directory("wrong");
    let write = |name: &str, bytes: &[u8]| std::fs::write(path.join(name), bytes).unwrap();
    write("d", &whole_run().bytes());
    write("r", &WHOLE_RUN_ROWS.concat());
    write("empty", b"");
    write("outside", &zprava().bytes());
    write("short", &WHOLE_RUN_ROWS.concat()[..8]);
    assert_eq!(explain(&path, &["d", "r", "2", "4"]).0, 0);
    for args in [
        &[][..],
        &["d"],
        &["d", "r"],
        &["d", "r", "1"],
        &["d", "r", "1", "5", "6"],
        &["d", "r", "one", "5"],
        &["d", "r", "1", "-5"],
        &["d", "r", "1", ""],
    ] {
        fails(&path, args, 2, "usage: second explain");
    }
    let (code, out, error) = explain(&path, &["--help"]);
    assert!(
        code == 0
            && error.is_empty()
            && out.starts_with("usage: second explain DESCRIPTION RECORDS PAGE LINE")
    );
    fails(&path, &["none", "r", "1", "5"], 1, "second: none: ");
    fails(&path, &["d", "none", "1", "5"], 1, "second: none: ");
    fails(&path, &["empty", "r", "1", "5"], 1, "INITIATE refused: refusal 1, extra number 1");
    fails(&path, &["d", "empty", "1", "5"], 1, "second: empty: the file is empty");
    let outside =
        "second: outside: outside R-6: counter 0 feeds another and has a reset level senior to its group's";
    fails(&path, &["outside", "r", "1", "5"], 1, outside);
    fails(&path, &["d", "r", "1", "2"], 1, "second: there is no line 2 on page 1");
    fails(&path, &["d", "r", "3", "4"], 1, "second: there is no line 4 on page 3");
    fails(&path, &["d", "r", "0", "0"], 1, "second: there is no line 0 on page 0");
    fails(&path, &["d", "r", "1", "1"], 1, "second: line 1 on page 1 shows no sum");
    fails(&path, &["d", "r", "1", "6"], 1, "second: line 6 on page 1 shows no sum");
    fails(&path, &["d", "short", "1", "5"], 1, "GENERATE of row 2 refused: refusal 5, extra number 0");
}
