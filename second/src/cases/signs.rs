//! Signs of numbers: where a blank stands for a plus, controls whose sign alone changes, and what stays malformed.

use super::draft::{Block, Draft};
use super::rows;
use crate::description::{Field, ADD_FIELD, FIELD, FINAL, NUMBER};

/// The numbers of a record that have a blank for a plus, by their fields' indexes.
pub fn blanks(draft: &Draft, record: &[u8]) -> Vec<usize> {
    numbers(draft).into_iter().filter(|&f| rows::bytes_of(draft.fields[f], record)[0] == b' ').collect()
}

/// The number fields.
pub fn numbers(draft: &Draft) -> Vec<usize> {
    (0..draft.fields.len()).filter(|&f| draft.fields[f].kind == NUMBER).collect()
}

/// Whether a row of this detail adds the field to a sum.
pub fn is_added(draft: &Draft, d: u32, field: usize) -> bool {
    let mut addends = draft.counters.iter().flat_map(|counter| &counter.addends);
    addends.any(|a| a.kind == ADD_FIELD && a.index as usize == field && a.mask >> d & 1 == 1)
}

/// Whether one of the groups shows the field whatever its flag.
pub fn is_shown(groups: &[&Block], field: usize) -> bool {
    let mut items = groups.iter().flat_map(|group| &group.lines).flat_map(|line| &line.items);
    items.any(|item| item.source == FIELD && item.index as usize == field && item.indicate == 0)
}

/// A control with the same digits in two records, but another sign.
#[derive(Clone, Copy, Debug, PartialEq, Eq)]
pub struct Turned {
    pub old: u8,
    pub new: u8,
    pub is_zero: bool,
}

impl Turned {
    /// With the digit 0 for a zero and 7 for every other number.
    pub fn name(&self) -> String {
        let digit = if self.is_zero { '0' } else { '7' };
        format!("control \"{}{digit}\", then \"{}{digit}\"", self.old as char, self.new as char)
    }

    /// Zeros of which one has a '-'.
    pub fn is_negative_zero(&self) -> bool {
        self.is_zero && (self.old == b'-' || self.new == b'-')
    }
}

/// Every one there is.
pub fn all_turned() -> Vec<Turned> {
    let signs = || rows::SIGNS.into_iter();
    let pairs = signs().flat_map(|old| signs().map(move |new| (old, new))).filter(|(old, new)| old != new);
    pairs.flat_map(|(old, new)| [true, false].map(|is_zero| Turned { old, new, is_zero })).collect()
}

/// Those of the first `levels` controls.
pub fn turned(draft: &Draft, levels: usize, kept: &[u8], record: &[u8]) -> Vec<Turned> {
    let controls = draft.controls[..levels].iter().filter(|&&control| control != FINAL);
    controls.filter_map(|&control| turned_field(draft.fields[control as usize], kept, record)).collect()
}

fn turned_field(field: Field, kept: &[u8], record: &[u8]) -> Option<Turned> {
    let (old, new) = (rows::bytes_of(field, kept), rows::bytes_of(field, record));
    let is_turned = field.kind == NUMBER && old[0] != new[0] && old[1..] == new[1..];
    is_turned.then(|| Turned { old: old[0], new: new[0], is_zero: rows::has_digits_of_zero(new) })
}

/// Names of the malformed numbers that come near a blank for a plus.
pub const NEAR: [&str; 8] = [
    "all blanks",
    "several blanks in front",
    "a sign behind a blank",
    "a blank behind a sign",
    "a blank among the digits",
    "no sign",
    "a sign behind the digits",
    "a byte near the blank for a sign",
];

/// Which of them a malformed number is, if any.
pub fn near(bytes: &[u8]) -> Option<&'static str> {
    let all_digits = |part: &[u8]| part.iter().all(u8::is_ascii_digit);
    let (last, most) = bytes.split_last()?;
    let blanks = bytes.iter().take_while(|&&byte| byte == b' ').count();
    match bytes {
        _ if blanks == bytes.len() => Some(NEAR[0]),
        _ if blanks > 1 && all_digits(&bytes[blanks..]) => Some(NEAR[1]),
        [b' ', b'+' | b'-', rest @ ..] if all_digits(rest) => Some(NEAR[2]),
        [b'+' | b'-', b' ', rest @ ..] if all_digits(rest) => Some(NEAR[3]),
        [b'+' | b'-' | b' ', b'0'..=b'9', rest @ ..] if rest.contains(&b' ') => Some(NEAR[4]),
        _ if all_digits(bytes) => Some(NEAR[5]),
        _ if all_digits(most) && rows::SIGNS.contains(last) => Some(NEAR[6]),
        [0 | b'\t' | 31 | b'!' | 0xa0, rest @ ..] if all_digits(rest) => Some(NEAR[7]),
        _ => None,
    }
}
