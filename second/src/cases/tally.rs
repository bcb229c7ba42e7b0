//! How often each rule, refusal and feature was reached.

use std::collections::BTreeMap;

use super::draft::Draft;
use super::features;
use super::sequence::{Call, Step};
use crate::report::Answer;

#[derive(Clone, Debug)]
pub struct Tally {
    /// Answers of CHECK: accepted, then D1 to D8 and rule 9.
    pub rules: [u64; 10],
    /// Answers of INITIATE, GENERATE and TERMINATE: accepted, then refusals 1 to 9.
    pub answers: [[u64; 10]; 3],
    /// Everything else that is wanted, by name.
    pub reached: BTreeMap<String, u64>,
}

const CALLS: [&str; 3] = ["INITIATE", "GENERATE", "TERMINATE"];

impl Default for Tally {
    fn default() -> Tally {
        let wanted = features::wanted().into_iter().map(|name| (name, 0)).collect();
        Tally { rules: [0; 10], answers: [[0; 10]; 3], reached: wanted }
    }
}

impl Tally {
    pub fn new() -> Tally {
        Tally::default()
    }

    fn count(&mut self, name: &str) {
        if let Some(times) = self.reached.get_mut(name) {
            *times += 1;
        }
    }

    /// Counts a description and the answer of CHECK, 0 for accepted.
    pub fn check(&mut self, name: &str, bytes: &[u8], rule: u8) {
        self.rules[rule as usize] += 1;
        self.count(&format!("description: {name}"));
        if rule == 0 {
            features::of_description(&Draft::read(bytes)).iter().for_each(|name| self.count(name));
        }
    }

    /// Counts a call and its answer.
    pub fn call(&mut self, draft: Result<&Draft, u8>, step: &Step, answer: &Answer) {
        let call = match step.call {
            Call::Initiate => 0,
            Call::Generate { .. } => 1,
            Call::Terminate => 2,
        };
        self.answers[call][answer.number.min(9) as usize] += 1;
        self.count(&format!("step: {}", step.name));
        match (answer.number, draft) {
            (0, Ok(draft)) => {
                features::of_call(draft, step, answer).iter().for_each(|name| self.count(name));
            }
            (1, _) => self.count(&format!("refusal 1 with {}", answer.extra)),
            (2, Ok(draft)) => {
                features::of_refusal_2(draft, step).iter().for_each(|name| self.count(name));
            }
            (6, Ok(draft)) => {
                self.count(&format!("refusal 6 with {}", answer.extra));
                features::of_refusal_6(draft, step, answer.extra).iter().for_each(|name| self.count(name));
            }
            _ => {}
        }
    }

    /// What should have been reached and was not, or not often enough.
    pub fn missing(&self) -> Vec<String> {
        let mut missing = Vec::new();
        for (rule, &times) in self.rules.iter().enumerate() {
            if times == 0 {
                missing.push(format!("CHECK: {}", rule_name(rule)));
            }
        }
        for (call, possible) in POSSIBLE.iter().enumerate() {
            let never = possible.iter().filter(|&&number| self.answers[call][number] == 0);
            missing.extend(never.map(|&number| format!("{}: {}", CALLS[call], answer_name(number))));
        }
        missing.extend(self.reached.iter().filter(|(_, &times)| times == 0).map(|(name, _)| name.clone()));
        for (name, often) in features::wanted_often() {
            let times = self.reached[&name];
            if (1..often).contains(&times) {
                missing.push(format!("{name}: {times} times, not {often}"));
            }
        }
        missing
    }

    /// A report to read: rules, refusals, and the features in short or one by one.
    pub fn report(&self, all: bool) -> String {
        let mut text = String::from("CHECK\n");
        for (rule, times) in self.rules.iter().enumerate() {
            text += &format!("  {:<12}{times:>9}\n", rule_name(rule));
        }
        text += &format!("{:<14}{:>9} {:>9} {:>9}\n", "calls", CALLS[0], CALLS[1], CALLS[2]);
        for number in 0..10 {
            let [first, second, third] = [0, 1, 2].map(|call: usize| self.answers[call][number]);
            text += &format!("  {:<12}{first:>9} {second:>9} {third:>9}\n", answer_name(number));
        }
        let reached = self.reached.values().filter(|&&times| times > 0).count();
        let least = self.reached.iter().min_by_key(|(_, &times)| times);
        text += &format!("features      {reached} of {} reached", self.reached.len());
        if let Some((name, times)) = least {
            text += &format!("; the least often, {times} times: {name}");
        }
        text.push('\n');
        for (name, times) in self.reached.iter().filter(|_| all) {
            text += &format!("  {times:>9}  {name}\n");
        }
        text
    }
}

/// The answers each call can give.
const POSSIBLE: [&[usize]; 3] = [&[0, 1, 2, 3], &[0, 1, 2, 3, 4, 5, 6, 7, 8, 9], &[0, 1, 2, 3, 7, 8, 9]];

pub fn rule_name(rule: usize) -> String {
    match rule {
        0 => "accepted".to_string(),
        9 => "rule 9".to_string(),
        _ => format!("D{rule}"),
    }
}

fn answer_name(number: usize) -> String {
    match number {
        0 => "accepted".to_string(),
        _ => format!("refusal {number}"),
    }
}
