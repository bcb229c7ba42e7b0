//! How often each answer of the calls of a report file came, and each situation that is to be met.

use std::collections::BTreeMap;

use second::state::IDLE;

use super::{code, other, place, state, Asked, Call, Left};

/// How often each answer and each situation came.
#[derive(Default)]
pub struct Tally {
    pub calls: u64,
    times: BTreeMap<String, u64>,
}

/// Each answer and situation is wanted at least so often.
const OFTEN: u64 = 200;

/// The answers of each call.
const ANSWERS: [(&str, &[u64]); 3] = [
    ("INITIATE", &[0, 1, 11, 2, 3]),
    ("GENERATE", &[0, 1, 11, 2, 3, 4, 5, 6, 7, 8, 9]),
    ("TERMINATE", &[0, 1, 11, 2, 3, 7, 8, 9]),
];

const SITUATIONS: [&str; 26] = [
    "printed at 0",
    "printed behind other lines",
    "printed behind the other agent's lines",
    "nothing printed, accepted",
    "the start at the end, nothing printed, accepted",
    "the start at the end, refused with 9",
    "the start past the end by one byte, refused with 9",
    "the start past the end, nothing to print, refused with 9",
    "the start past the end, lines to print, refused with 9",
    "the start past the end, another refusal",
    "the start past the end, INITIATE accepted",
    "just room, accepted",
    "one byte short",
    "room for the lines without codes",
    "equal codes",
    "equal codes and a bad state",
    "code byte 31",
    "code byte 32, accepted",
    "code byte 126, accepted",
    "code byte 127",
    "codes with one byte alike, accepted",
    "the other's state is none, accepted",
    "the other's report is idle, GENERATE accepted",
    "the other's report has begun, INITIATE accepted",
    "a run from fresh states",
    "a run with lines of both agents",
];

impl Tally {
    pub fn note(&mut self, name: &str) {
        match self.times.get_mut(name) {
            Some(times) => *times += 1,
            None => drop(self.times.insert(name.to_string(), 1)),
        }
    }

    pub fn note_if(&mut self, is_so: bool, name: &str) {
        if is_so {
            self.note(name);
        }
    }

    /// What a call answers, and what is to be seen of it by itself.
    pub fn call(&mut self, asked: &Asked, left: &Left) {
        self.calls += 1;
        self.note(&match asked.call {
            Call::Initiate => answer("INITIATE", left.number),
            Call::Generate { .. } => answer("GENERATE", left.number),
            Call::Terminate => answer("TERMINATE", left.number),
        });
        let (accepted, initiate) = (left.number == 0, asked.call == Call::Initiate);
        let (start, end) = (place(&asked.file), asked.room as u64);
        let printed = accepted && left.count > 0;
        self.note_if(printed && start == 0, "printed at 0");
        self.note_if(printed && start > 0, "printed behind other lines");
        self.note_if(accepted && !initiate && left.count == 0, "nothing printed, accepted");
        if !initiate {
            let quiet = accepted && left.count == 0;
            self.note_if(start == end && quiet, "the start at the end, nothing printed, accepted");
            let no_room = left.number == 9;
            self.note_if(start == end && no_room, "the start at the end, refused with 9");
            self.note_if(
                start.checked_sub(end) == Some(1) && no_room,
                "the start past the end by one byte, refused with 9",
            );
            let another = (2..9).contains(&left.number);
            self.note_if(start > end && another, "the start past the end, another refusal");
        }
        self.note_if(initiate && accepted && start > 1 << 40, "the start past the end, INITIATE accepted");
        self.codes(asked, left);
        let others = state(&asked.file, other(asked.agent));
        self.note_if(accepted && others[8] > 2, "the other's state is none, accepted");
        let generated = accepted && matches!(asked.call, Call::Generate { .. });
        self.note_if(generated && others[8] == IDLE, "the other's report is idle, GENERATE accepted");
        let initiated = accepted && initiate;
        self.note_if(
            initiated && (1..=2).contains(&others[8]),
            "the other's report has begun, INITIATE accepted",
        );
    }

    fn codes(&mut self, asked: &Asked, left: &Left) {
        let (own, others) = (code(&asked.file, asked.agent), code(&asked.file, other(asked.agent)));
        let (refused, accepted) = (left.number == 11, left.number == 0);
        let has = |byte: u8| own.contains(&byte) || others.contains(&byte);
        self.note_if(refused && own == others, "equal codes");
        let bad_state = state(&asked.file, asked.agent)[8] > 2;
        self.note_if(refused && own == others && bad_state, "equal codes and a bad state");
        self.note_if(refused && has(31), "code byte 31");
        self.note_if(accepted && has(32), "code byte 32, accepted");
        self.note_if(accepted && has(126), "code byte 126, accepted");
        self.note_if(refused && has(127), "code byte 127");
        let alike = own[0] == others[0] || own[1] == others[1];
        self.note_if(accepted && alike, "codes with one byte alike, accepted");
    }

    /// Tells everything, and fails where something is too seldom, of this list or of `more`.
    pub fn assert_all_often(&self, more: &[&str]) {
        println!("{} calls", self.calls);
        self.times.iter().for_each(|(name, times)| println!("{times:8}  {name}"));
        let answers =
            ANSWERS.iter().flat_map(|(call, numbers)| numbers.iter().map(|&number| answer(call, number)));
        let seldom: Vec<String> = answers
            .chain(SITUATIONS.map(String::from))
            .chain(more.iter().map(|name| name.to_string()))
            .filter(|name| self.times.get(name).is_none_or(|&times| times < OFTEN))
            .collect();
        assert_eq!(seldom, Vec::<String>::new(), "less than {OFTEN} times");
    }
}

fn answer(call: &str, number: u64) -> String {
    format!("{call}: {number}")
}
