//! What goes into a feeder: a description, records that follow each other under it, states that it may be in.

use bailcurlew::{FEEDER_BYTES, LONGEST_CHUNK};
use second::cases::{accepted_description, play, sequence, Call, Expect, Rng};
use second::description::{check, DE};
use second::state::{State, IDLE};

use super::{FeederBytes, DETAIL_AT, HELD_AT, TAIL_AT};

/// Calls by which records and states are found.
const STEPS: usize = 60;

/// No output is longer.
const MOST_ROOM: usize = 150_000;

#[derive(Clone, Debug)]
pub struct Material {
    /// `Material::of` makes the same of it again.
    pub seed: u64,
    pub desc: Vec<u8>,
    /// Bytes of a record.
    pub r: usize,
    pub details: usize,
    /// Records that are well-formed, each made after the one before; at least one, which may be malformed where all are.
    pub good: Vec<Vec<u8>>,
    pub malformed: Vec<Vec<u8>>,
    /// States that keep the rules, at least one of each; states that break the rules.
    pub idle: Vec<State>,
    pub begun: Vec<State>,
    pub damaged: Vec<State>,
    /// The most bytes that any of the calls printed.
    pub most: usize,
}

impl Material {
    pub fn of(seed: u64) -> Material {
        let mut rng = Rng::new(seed);
        let desc = accepted_description(&mut rng);
        let tables = check(&desc).expect("an accepted description");
        let r = usize::from(tables.r);
        let details = tables.groups.iter().filter(|group| group.kind == DE).count();
        let mut found = Material {
            seed,
            r,
            details,
            good: Vec::new(),
            malformed: Vec::new(),
            idle: vec![State::fresh()],
            begun: vec![State::started()],
            damaged: Vec::new(),
            most: usize::from(tables.w) + 10,
            desc,
        };
        found.look_around(&mut rng);
        if found.good.is_empty() {
            found.good.push((0..r).map(|_| rng.byte()).collect());
        }
        found
    }

    /// Plays calls and keeps the records and states that they are made with.
    fn look_around(&mut self, rng: &mut Rng) {
        let mut steps = sequence(rng, &self.desc, STEPS);
        let mut last = None;
        while let Some(step) = steps.step(last.as_ref()) {
            let answer = play(&self.desc, &step).0;
            self.most = self.most.max(answer.count);
            match step.expect {
                Expect::Exactly(2, _) => self.damaged.push(step.state),
                _ if step.state.phase == IDLE => self.idle.push(step.state),
                _ => self.begun.push(step.state),
            }
            if let Call::Generate { record, .. } = step.call {
                match step.expect {
                    Expect::Late | Expect::LateOrShort => self.good.push(record),
                    Expect::Exactly(6, _) => self.malformed.push(record),
                    _ => {}
                }
            }
            last = Some(answer);
        }
    }

    pub fn detail(&self, rng: &mut Rng) -> u64 {
        rng.below(self.details.max(1)) as u64
    }

    /// A feeder in a state that has begun, with the first bytes of a record held and any bytes behind them; and the
    /// record's other bytes.
    pub fn feeder(&self, rng: &mut Rng) -> (FeederBytes, Vec<u8>) {
        let mut feeder = [0; FEEDER_BYTES];
        let held = if rng.chance(30) { 0 } else { rng.below(self.r) };
        let record = rng.pick(&self.good);
        feeder[..DETAIL_AT].copy_from_slice(&rng.pick(&self.begun).to_bytes());
        feeder[DETAIL_AT..HELD_AT].copy_from_slice(&self.detail(rng).to_le_bytes());
        feeder[HELD_AT..TAIL_AT].copy_from_slice(&(held as u16).to_le_bytes());
        feeder[TAIL_AT..TAIL_AT + held].copy_from_slice(&record[..held]);
        if rng.chance(30) {
            feeder[TAIL_AT + held..].iter_mut().for_each(|byte| *byte = rng.byte());
        }
        (feeder, record[held..].to_vec())
    }

    /// The record behind the one at `next`; in so many of a hundred a malformed one, now and then any of them.
    pub fn record(&self, rng: &mut Rng, next: &mut usize, malformed: usize) -> &[u8] {
        if !self.malformed.is_empty() && rng.chance(malformed) {
            return &self.malformed[rng.below(self.malformed.len())];
        }
        *next = if rng.chance(5) { rng.below(self.good.len()) } else { (*next + 1) % self.good.len() };
        &self.good[*next]
    }

    /// Adds records to some bytes until there are so many.
    pub fn fill(
        &self,
        rng: &mut Rng,
        bytes: &mut Vec<u8>,
        next: &mut usize,
        wanted: usize,
        malformed: usize,
    ) {
        while bytes.len() < wanted {
            bytes.extend_from_slice(self.record(rng, next, malformed));
        }
    }

    /// Bytes of a chunk: 1, R − 1, R, R + 1, 4,096 or any; long ones of short records seldom.
    pub fn chunk_size(&self, rng: &mut Rng) -> usize {
        let (few, any) = (rng.between(1, 3 * self.r), rng.between(1, LONGEST_CHUNK));
        let size = rng.pick(&[1, self.r - 1, self.r, self.r + 1, few, few, any, LONGEST_CHUNK]).max(1);
        if size > 100 * self.r && rng.chance(85) {
            return few;
        }
        size
    }

    /// Room that most chunks of so many bytes do with.
    pub fn ample(&self, bytes: usize) -> usize {
        ((bytes / self.r + 1) * self.most).min(MOST_ROOM.max(2 * self.most))
    }
}
