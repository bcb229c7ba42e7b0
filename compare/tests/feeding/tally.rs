//! How often each answer of the feeder's calls came, and each situation that is to be met.

use std::collections::BTreeMap;

use bailcurlew::LONGEST_CHUNK;

use super::{held, Asked, Call, FeederBytes, Left, TAIL_AT};

/// How often each answer and each situation came.
#[derive(Default)]
pub struct Tally {
    pub calls: u64,
    times: BTreeMap<String, u64>,
}

/// Each answer and situation is wanted at least so often.
const OFTEN: u64 = 200;

/// The answers of each call.
const ANSWERS: [(&str, &[u64]); 3] = [
    ("feed", &[0, 18, 1, 2, 3, 4, 6, 7, 8, 9]),
    ("INITIATE", &[0, 1, 2, 3]),
    ("TERMINATE", &[0, 1, 2, 3, 10, 7, 8, 9]),
];

const SITUATIONS: [&str; 24] = [
    "R = 1, feed accepted",
    "R = 256, feed accepted",
    "R = 256, 255 bytes held",
    "chunk of 1 byte, accepted",
    "chunk of R - 1 bytes, accepted",
    "chunk of R bytes, accepted",
    "chunk of R + 1 bytes, accepted",
    "chunk of 4096 bytes, accepted",
    "chunk of 0 bytes",
    "chunk of 4097 bytes",
    "no record finished",
    "bytes held before and after",
    "other bytes behind those held, feed accepted",
    "other bytes behind those held, TERMINATE accepted",
    "refused record behind others that stand",
    "refused record, the first of the chunk",
    "refused record begun in an earlier chunk",
    "refusal 9 behind records that stand",
    "INITIATE accepted with bytes held",
    "discard with bytes held",
    "fed on after refusal 9",
    "fed on after refusal 9, accepted",
    "refused record tried again",
    "refused record skipped",
];

impl Tally {
    pub fn note(&mut self, name: &str) {
        match self.times.get_mut(name) {
            Some(times) => *times += 1,
            None => drop(self.times.insert(name.to_string(), 1)),
        }
    }

    /// What a call answers, and what is to be seen of it where the description is in order.
    pub fn call(&mut self, asked: &Asked, left: &Left, r: usize) {
        self.calls += 1;
        let before = held(&asked.feeder);
        match asked.call {
            Call::Feed(chunk) => {
                self.note(&answer("feed", left.number));
                self.fed(asked, left, r, chunk.len());
            }
            Call::Initiate => {
                self.note(&answer("INITIATE", left.number));
                self.note_if(left.number == 0 && before > 0, "INITIATE accepted with bytes held");
            }
            Call::Terminate => {
                self.note(&answer("TERMINATE", left.number));
                let name = "other bytes behind those held, TERMINATE accepted";
                self.note_if(left.number == 0 && other_bytes_behind(&asked.feeder), name);
            }
            Call::Discard => self.note_if(before > 0, "discard with bytes held"),
        }
    }

    fn fed(&mut self, asked: &Asked, left: &Left, r: usize, size: usize) {
        let (before, after) = (held(&asked.feeder), held(&left.feeder));
        let accepted = left.number == 0;
        self.note_if(size == 0, "chunk of 0 bytes");
        self.note_if(size == LONGEST_CHUNK + 1, "chunk of 4097 bytes");
        self.note_if(accepted && r == 1, "R = 1, feed accepted");
        self.note_if(accepted && r == 256, "R = 256, feed accepted");
        self.note_if(accepted && after == 255, "R = 256, 255 bytes held");
        self.note_if(accepted && size == 1, "chunk of 1 byte, accepted");
        self.note_if(accepted && size + 1 == r, "chunk of R - 1 bytes, accepted");
        self.note_if(accepted && size == r, "chunk of R bytes, accepted");
        self.note_if(accepted && size == r + 1, "chunk of R + 1 bytes, accepted");
        self.note_if(accepted && size == LONGEST_CHUNK, "chunk of 4096 bytes, accepted");
        self.note_if(accepted && before + size < r, "no record finished");
        self.note_if(accepted && before > 0 && after > 0, "bytes held before and after");
        let name = "other bytes behind those held, feed accepted";
        self.note_if(accepted && other_bytes_behind(&asked.feeder), name);
        let row_refused = (6..=9).contains(&left.number);
        self.note_if(row_refused && left.taken > 0, "refused record behind others that stand");
        self.note_if(row_refused && left.taken == 0 && before == 0, "refused record, the first of the chunk");
        self.note_if(
            row_refused && left.taken == 0 && before > 0,
            "refused record begun in an earlier chunk",
        );
        self.note_if(left.number == 9 && left.taken > 0, "refusal 9 behind records that stand");
    }

    pub fn note_if(&mut self, is_so: bool, name: &str) {
        if is_so {
            self.note(name);
        }
    }

    /// Tells everything, and fails where something is too seldom, of this list or of `more`.
    pub fn assert_all_often(&self, more: &[&str]) {
        println!("{} calls", self.calls);
        self.times.iter().for_each(|(name, times)| println!("{times:8}  {name}"));
        let answers =
            ANSWERS.iter().flat_map(|(call, numbers)| numbers.iter().map(|&number| answer(call, number)));
        let seldom: Vec<String> = answers
            .chain(SITUATIONS.map(String::from))
            .chain(more.iter().map(|name| name.to_string()))
            .filter(|name| self.times.get(name).is_none_or(|&times| times < OFTEN))
            .collect();
        assert_eq!(seldom, Vec::<String>::new(), "less than {OFTEN} times");
    }
}

fn answer(call: &str, number: u64) -> String {
    format!("{call}: {number}")
}

fn other_bytes_behind(feeder: &FeederBytes) -> bool {
    let behind = feeder.get(TAIL_AT + held(feeder)..).unwrap_or(&[]);
    behind.iter().any(|&byte| byte != 0)
}
