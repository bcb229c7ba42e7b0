//! Descriptions for CHECK: half of them in order, the others broken in every rule.

use super::broken;
use super::draft::{entry_bytes, Change, Draft, Image, Section, SECTIONS};
use super::rng::Rng;
use super::valid;
use crate::layout::{Layout, LIMIT_NUMBERS};

/// A description with what is known of it.
#[derive(Clone, Debug)]
pub struct Sample {
    pub bytes: Vec<u8>,
    /// What CHECK must answer, 0 for accepted; `None` where the generator does not say.
    pub rule: Option<u8>,
    /// How it was made.
    pub name: &'static str,
}

/// Names of the samples that are no single fault.
pub const NAMES: [&str; 6] = [
    "in order",
    "in order, at a limit",
    "number changed blindly",
    "two faults",
    "bytes damaged",
    "random bytes",
];

/// The rules to break. D1 and rule 9 have the most clauses, and each is wanted often.
const RULES: [u8; 18] = [1, 1, 1, 2, 3, 4, 5, 6, 7, 8, 9, 9, 9, 9, 9, 9, 9, 9];

pub fn sample(rng: &mut Rng) -> Sample {
    match rng.below(100) {
        0..=35 => Sample { bytes: valid::draft(rng).bytes(), rule: Some(0), name: NAMES[0] },
        36..=40 => at_a_limit(rng),
        41..=47 => blind(rng),
        48..=95 => {
            let rule = rng.pick(&RULES);
            let (bytes, name) = broken::description(rng, rule);
            Sample { bytes, rule: Some(rule), name }
        }
        96..=97 => two_faults(rng),
        98 => {
            let bytes = valid::draft(rng).bytes();
            Sample { bytes: damaged(rng, &bytes), rule: None, name: NAMES[4] }
        }
        _ => Sample { bytes: random_bytes(rng), rule: None, name: NAMES[5] },
    }
}

/// In order, one section full.
fn at_a_limit(rng: &mut Rng) -> Sample {
    let section = rng.pick(&SECTIONS);
    Sample { bytes: valid::filled(rng, section, 0).bytes(), rule: Some(0), name: NAMES[1] }
}

/// A number anywhere becomes a neighbour, a limit or a number that stands nearby.
fn blind(rng: &mut Rng) -> Sample {
    let draft = valid::draft(rng);
    let mut image = draft.image();
    match index_of_picture(rng, &draft) {
        Some(index) if rng.chance(25) => change_picture(rng, &mut image, index),
        _ => {
            let change = blind_change(rng, &draft, &image);
            image.change(change);
        }
    }
    Sample { bytes: image.bytes, rule: None, name: NAMES[2] }
}

fn index_of_picture(rng: &mut Rng, draft: &Draft) -> Option<usize> {
    rng.maybe(&(0..draft.pictures.len()).collect::<Vec<_>>())
}

/// A byte of a picture, one of the first ones mostly, becomes another character of pictures.
fn change_picture(rng: &mut Rng, image: &mut Image, index: usize) {
    let any = rng.below(24);
    let at = image.picture(index) + rng.pick(&[0, 1, 2, 3, 4, 5, any]);
    image.bytes[at] = rng.pick(b"Z*9,.-CR ");
}

fn blind_change(rng: &mut Rng, draft: &Draft, image: &Image) -> Change {
    let mut sections = SECTIONS[..7].to_vec();
    sections.push(Section::Trailer);
    sections.retain(|&section| draft.entry_count(section) > 0);
    let section = rng.pick(&sections);
    let columns = entry_bytes(draft.layout, section) / 2;
    let entry = rng.below(draft.entry_count(section));
    let column = rng.below(columns);
    let before = image.number(section, entry, column);
    let other_entry = rng.below(draft.entry_count(section));
    let other_column = rng.below(columns);
    let value = match rng.below(8) {
        0..=1 => before.wrapping_add(1),
        2..=3 => before.wrapping_sub(1),
        4 => image.number(section, other_entry, column),
        5 => image.number(section, entry, other_column),
        6 => rng.number(0, 10),
        _ => rng.pick(&[0, 1, 2, 99, 100, 255, 256, 999, 1000, 32768, 65534, 65535]),
    };
    Change { section, entry, column, value }
}

/// A fault, then a number changed blindly on top: the lower rule has to win.
fn two_faults(rng: &mut Rng) -> Sample {
    let rule = rng.between(2, 9) as u8;
    let (mut bytes, _) = broken::description(rng, rule);
    let at = rng.below(bytes.len() / 2) * 2;
    let value = rng.pick(&[0, 1, 2, 3, 255]);
    bytes[at] = value;
    Sample { bytes, rule: None, name: NAMES[3] }
}

/// Bytes of any length, sometimes with a version and section starts that look right.
fn random_bytes(rng: &mut Rng) -> Vec<u8> {
    let length = rng.pick(&[0, 1, 47, 48, 49, 51, 52, 53, 100, 300]);
    let mut bytes: Vec<u8> = (0..length).map(|_| rng.byte()).collect();
    let version = rng.number(1, 2);
    let trailer_bytes = Layout::of(version).unwrap_or_default().trailer_bytes();
    if length >= trailer_bytes && rng.chance(50) {
        let end = bytes.len();
        bytes[end - trailer_bytes..end - 2 * LIMIT_NUMBERS].fill(0);
        bytes[end - 2..].copy_from_slice(&version.to_le_bytes());
    }
    bytes
}

/// Other bytes made of these: flipped, cut, inserted, appended, swapped or random ones, or hardly any.
pub fn damaged(rng: &mut Rng, bytes: &[u8]) -> Vec<u8> {
    let mut bytes = bytes.to_vec();
    for _ in 0..rng.between(1, 3) {
        damage_once(rng, &mut bytes);
    }
    bytes
}

fn damage_once(rng: &mut Rng, bytes: &mut Vec<u8>) {
    let length = bytes.len();
    if length == 0 {
        bytes.push(rng.byte());
        return;
    }
    let at = rng.below(length);
    match rng.below(12) {
        0..=1 => bytes[at] ^= 1 << rng.below(8),
        2 => bytes[at] = rng.byte(),
        3 => bytes.truncate(at),
        4 => drop(bytes.drain(..at)),
        5 => bytes.insert(at, rng.byte()),
        6 => drop(bytes.remove(at)),
        7 => bytes.extend((0..rng.between(1, 60)).map(|_| 0)),
        8 => bytes.push(rng.byte()),
        9 => bytes.swap(at, rng.below(length)),
        10 => bytes.truncate(rng.pick(&[0, 47, 48, 51, 52])),
        _ => bytes.iter_mut().skip(at).take(8).for_each(|byte| *byte = rng.byte()),
    }
}
