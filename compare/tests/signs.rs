//! A blank for '+' changes nothing that is printed: the examples through the thin program, and random calls of the proved
//! library made twice, with '+' and with blanks, as `by_value` has it of every list of calls.

mod common;
mod program;

use std::fs::{self, File};

use common::{both, library, Asked, Call, StateBytes};
use program::{command, example, finished, sheet, Folder, Written};
use second::cases::{accepted_description, sequence, Rng, Step};
use second::description::{check, Description, NUMBER};
use second::report::Answer;
use second::state::State;

/// Where the kept record stands in a state.
const KEPT_AT: usize = 274;

/// Where the sign of each number field stands.
fn sign_places(tables: &Description) -> Vec<usize> {
    let numbers = tables.fields.iter().filter(|field| field.kind == NUMBER);
    numbers.map(|field| usize::from(field.offset)).collect()
}

/// Fields that share a byte: a number's sign may be a text's character, which is no sign.
fn share_bytes(tables: &Description) -> bool {
    let mut times = vec![0; usize::from(tables.r)];
    for field in &tables.fields {
        let from = usize::from(field.offset);
        times[from..from + usize::from(field.width)].iter_mut().for_each(|n| *n += 1);
    }
    times.iter().any(|&n| n > 1)
}

/// A record with another byte in place of one in some signs' places; gives the count of these.
fn turn(record: &mut [u8], places: &[usize], from: u8, to: u8, mut some: impl FnMut() -> bool) -> usize {
    let mut turned = 0;
    for &at in places {
        if record.get(at) == Some(&from) && some() {
            record[at] = to;
            turned += 1;
        }
    }
    turned
}

// ---- the thin program

#[test]
fn the_examples_print_alike_with_blanks() {
    let folder = Folder::new("signs");
    for name in ["whole_run", "day_sheet", "pictures"] {
        let [desc, rows, printed] = ["desc", "rows", "sheet"].map(|kind| example(&format!("{name}.{kind}")));
        let tables = check(&fs::read(&desc).expect("a description")).expect("an accepted one");
        let mut bytes = fs::read(&rows).expect("records");
        let records = bytes.chunks_mut(usize::from(tables.r));
        let turned: usize =
            records.map(|record| turn(record, &sign_places(&tables), b'+', b' ', || true)).sum();
        assert!(turned > 0, "{name}");
        let rows = folder.file(name, &bytes);
        let wanted = Written { sheet: fs::read(printed).expect("a sheet"), errors: String::new() };
        assert_eq!(sheet(&[&desc, &rows]), wanted, "{name}");
        let mut piped = command();
        piped.arg(&desc).arg("-").stdin(File::open(&rows).expect("records"));
        assert_eq!(finished(piped), wanted, "{name}");
    }
}

// ---- the library

const CALLS: usize = 100_000;
const STEPS: usize = 60;

/// Blanks wanted in the records in hand, and as many in the kept ones.
const BLANKS: usize = 25_000;

/// A call made with '+' in every sign's place that has a blank, and one with a blank for some.
struct Twins<'a> {
    desc: &'a [u8],
    places: Vec<usize>,
    /// Blanks put for '+' in records in hand, and in kept ones.
    in_hand: usize,
    kept: usize,
}

impl Twins<'_> {
    fn plus(&self, record: &mut [u8]) {
        turn(record, &self.places, b' ', b'+', || true);
    }

    /// Both calls; what the one with '+' leaves.
    fn play(&mut self, rng: &mut Rng, step: &Step) -> Answer {
        let mut asked = Asked::of_step(self.desc, step);
        let mut record = record_of(&asked.call);
        self.plus(&mut record);
        self.plus(&mut asked.state[KEPT_AT..]);
        let left = library(&Asked { call: with_record(&asked.call, &record), ..asked.clone() });
        self.in_hand += turn(&mut record, &self.places, b'+', b' ', || rng.chance(50));
        self.kept += turn(&mut asked.state[KEPT_AT..], &self.places, b'+', b' ', || rng.chance(50));
        let twin = both(&Asked { call: with_record(&asked.call, &record), ..asked.clone() });
        let mut twin = twin.unwrap_or_else(|what| panic!("{}: {what}", step.name));
        self.plus(&mut twin.state[KEPT_AT..]);
        assert_eq!(twin, left, "{}: {:?} {:?}", step.name, self.desc, asked.call);
        Answer {
            number: left.number as u8,
            extra: left.extra as u32,
            count: left.count,
            state: State::from_bytes(&left.state as &StateBytes),
        }
    }
}

fn record_of(call: &Call) -> Vec<u8> {
    match call {
        Call::Generate { record, .. } => record.to_vec(),
        Call::Initiate | Call::Terminate => Vec::new(),
    }
}

fn with_record<'a>(call: &Call, record: &'a [u8]) -> Call<'a> {
    match call {
        Call::Generate { detail, .. } => Call::Generate { detail: *detail, record },
        Call::Initiate => Call::Initiate,
        Call::Terminate => Call::Terminate,
    }
}

#[test]
fn calls_with_blanks_answer_and_print_alike() {
    let mut rng = Rng::new(5);
    let (mut calls, mut in_hand, mut kept) = (0, 0, 0);
    while calls < CALLS {
        let desc = accepted_description(&mut rng);
        let tables = check(&desc).expect("an accepted description");
        if share_bytes(&tables) {
            continue;
        }
        let mut twins = Twins { desc: &desc, places: sign_places(&tables), in_hand: 0, kept: 0 };
        let mut steps = sequence(&mut rng, &desc, STEPS);
        let mut last = None;
        while let Some(step) = steps.step(last.as_ref()) {
            last = Some(twins.play(&mut rng, &step));
            calls += 1;
        }
        in_hand += twins.in_hand;
        kept += twins.kept;
    }
    println!("{calls} calls, {in_hand} blanks in records in hand, {kept} in kept ones");
    assert!(in_hand >= BLANKS && kept >= BLANKS, "{in_hand} and {kept} blanks");
}
