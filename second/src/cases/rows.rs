//! Records: well-formed ones that follow each other as rows do, and malformed ones.

use super::draft::Draft;
use super::rng::Rng;
use super::valid::printable;
use crate::description::{Field, FINAL, NUMBER, TEXT};

/// What a number begins with; a blank stands for a plus.
pub const SIGNS: [u8; 3] = *b"+- ";

/// A record with every field set afresh; the bytes of no field are anything.
pub fn fresh(rng: &mut Rng, draft: &Draft) -> Vec<u8> {
    let mut row: Vec<u8> = (0..draft.record).map(|_| rng.byte()).collect();
    for field in fields_of(draft, TEXT) {
        set_text(rng, field, &mut row);
    }
    for field in fields_of(draft, NUMBER) {
        set_number(rng, field, &mut row);
    }
    row
}

/// A record to come after `last`: mostly the same controls or one of them changed.
pub fn after(rng: &mut Rng, draft: &Draft, last: &[u8]) -> Vec<u8> {
    let mut row = last.to_vec();
    let controls = draft.control_fields();
    let control = rng.maybe(&controls).map(|f| draft.fields[f as usize]);
    match (rng.below(20), control) {
        (0, _) => return fresh(rng, draft),
        (1..=9, Some(field)) => set(rng, field, &mut row),
        (10..=11, Some(field)) => set_sign(rng, field, &mut row),
        _ => {}
    }
    if rng.chance(15) {
        controls.iter().for_each(|&f| write_otherwise(rng, draft.fields[f as usize], &mut row));
    }
    for f in 0..draft.fields.len() as u16 {
        if !controls.contains(&f) && rng.chance(60) {
            set(rng, draft.fields[f as usize], &mut row);
        }
    }
    repair(rng, draft, &mut row);
    row
}

/// Gives a record the controls of the one before it: it makes no break.
pub fn copy_controls(draft: &Draft, last: &[u8], row: &mut [u8]) {
    for f in draft.control_fields() {
        let field = draft.fields[f as usize];
        bytes_mut(field, row).copy_from_slice(bytes_of(field, last));
    }
}

fn fields_of(draft: &Draft, kind: u16) -> impl Iterator<Item = Field> + '_ {
    draft.fields.iter().copied().filter(move |field| field.kind == kind)
}

/// A field's bytes.
pub fn bytes_of(field: Field, row: &[u8]) -> &[u8] {
    &row[field.offset as usize..][..field.width as usize]
}

fn bytes_mut(field: Field, row: &mut [u8]) -> &mut [u8] {
    &mut row[field.offset as usize..][..field.width as usize]
}

fn set(rng: &mut Rng, field: Field, row: &mut [u8]) {
    if field.kind == NUMBER {
        set_number(rng, field, row);
    } else {
        set_text(rng, field, row);
    }
}

/// One of two letters with blanks behind, so that values return; sometimes any text.
fn set_text(rng: &mut Rng, field: Field, row: &mut [u8]) {
    let bytes = bytes_mut(field, row);
    if rng.chance(20) {
        bytes.iter_mut().for_each(|byte| *byte = printable(rng));
    } else {
        bytes.fill(b' ');
        bytes[0] = rng.pick(b"ABZ");
    }
}

fn set_number(rng: &mut Rng, field: Field, row: &mut [u8]) {
    let bytes = bytes_mut(field, row);
    let last = bytes.len() - 1;
    bytes.fill(b'0');
    bytes[0] = rng.pick(&SIGNS);
    // The first of the digits that are not 0 only.
    let first = rng.between(1, last);
    match rng.below(12) {
        0..=1 => {}
        2..=5 => bytes[last] = b'0' + rng.below(10) as u8,
        6 => bytes[1..].fill(b'9'),
        // Where a picture becomes too narrow: 10^k - 1, 10^k and numbers like them.
        7 => bytes[first..].fill(b'9'),
        8 => bytes[first] = b'1',
        9 => bytes[first..].iter_mut().for_each(|byte| *byte = b'0' + rng.below(10) as u8),
        _ => bytes[1..].iter_mut().for_each(|byte| *byte = b'0' + rng.below(10) as u8),
    }
}

/// A number's digits stay, whatever its sign becomes: often another value.
fn set_sign(rng: &mut Rng, field: Field, row: &mut [u8]) {
    if field.kind == NUMBER {
        bytes_mut(field, row)[0] = rng.pick(&SIGNS);
    }
}

/// The same value with another sign: any for a zero, '+' and blank for one another. Text and numbers below 0 stay.
fn write_otherwise(rng: &mut Rng, field: Field, row: &mut [u8]) {
    let bytes = bytes_mut(field, row);
    if field.kind == TEXT {
        return;
    }
    bytes[0] = match bytes[0] {
        b'+' if has_digits_of_zero(bytes) => rng.pick(b"- "),
        b' ' if has_digits_of_zero(bytes) => rng.pick(b"-+"),
        b'-' if has_digits_of_zero(bytes) => rng.pick(b"+ "),
        b'+' => b' ',
        b' ' => b'+',
        other => other,
    };
}

/// Behind the sign stand zeros only.
pub fn has_digits_of_zero(bytes: &[u8]) -> bool {
    bytes[1..].iter().all(|&byte| byte == b'0')
}

/// Sets again the number fields that a text set over them has spoilt.
fn repair(rng: &mut Rng, draft: &Draft, row: &mut [u8]) {
    for field in fields_of(draft, NUMBER) {
        if !well_formed(field, row) {
            set_number(rng, field, row);
        }
    }
}

fn well_formed(field: Field, row: &[u8]) -> bool {
    let bytes = bytes_of(field, row);
    if field.kind == TEXT {
        return bytes.iter().all(|byte| (32..=126).contains(byte));
    }
    SIGNS.contains(&bytes[0]) && bytes[1..].iter().all(u8::is_ascii_digit)
}

/// The first field whose bytes are malformed, in a record of the right length.
pub fn first_malformed(draft: &Draft, row: &[u8]) -> Option<u32> {
    draft.fields.iter().position(|&field| !well_formed(field, row)).map(|field| field as u32)
}

/// Spoils one field, or a few; a record without fields stays as it is.
pub fn malform(rng: &mut Rng, draft: &Draft, row: &mut [u8]) {
    let count = draft.fields.len();
    let times = if rng.chance(75) { 1 } else { rng.between(2, 4) };
    for _ in 0..times.min(count) {
        let target = if rng.chance(25) { count - 1 } else { rng.below(count) };
        spoil(rng, draft, target, row);
    }
}

/// Spoils the target, if it can without a field before it that lies over the same bytes.
fn spoil(rng: &mut Rng, draft: &Draft, target: usize, row: &mut [u8]) {
    let before = row.to_vec();
    for _ in 0..8 {
        row.copy_from_slice(&before);
        let field = draft.fields[target];
        if field.kind == NUMBER && rng.chance(60) {
            misplace_sign(rng, bytes_mut(field, row));
        } else {
            spoil_byte(rng, field, row);
        }
        if first_malformed(draft, row) == Some(target as u32) {
            return;
        }
    }
}

fn spoil_byte(rng: &mut Rng, field: Field, row: &mut [u8]) {
    let bytes = bytes_mut(field, row);
    let any = rng.below(bytes.len());
    let at = rng.pick(&[0, bytes.len() - 1, any]);
    bytes[at] = match (field.kind, at) {
        (TEXT, _) => rng.pick(&[31, 127, 0, 10, 128, 255]),
        (_, 0) => rng.pick(b"05,.*!\t\x1f\x00\xa0\xff"),
        _ => rng.pick(b"/: +-.A\x00\xff"),
    };
}

/// A number as a till might send it that R-5 does not take: a blank or a sign where a digit belongs, or no sign. One of
/// these is well formed in two bytes.
fn misplace_sign(rng: &mut Rng, bytes: &mut [u8]) {
    let last = bytes.len() - 1;
    match rng.below(8) {
        0 => bytes.fill(b' '),
        1 => bytes[..last].fill(b' '),
        2 => bytes[..2].copy_from_slice(&rng.pick(&[*b" +", *b" -"])),
        3 => bytes[..2].copy_from_slice(&rng.pick(&[*b"+ ", *b"- "])),
        4 => bytes[..2].fill(b' '),
        5 => bytes[last] = b' ',
        6 => bytes[0] = b'0',
        // The sign behind the digits.
        _ => bytes.rotate_left(1),
    }
}

/// The level of the first control from the senior end whose value differs.
pub fn break_level(draft: &Draft, kept: &[u8], row: &[u8]) -> Option<usize> {
    draft.controls.iter().position(|&control| {
        control != FINAL && {
            let field = draft.fields[control as usize];
            match field.kind {
                NUMBER => value(bytes_of(field, kept)) != value(bytes_of(field, row)),
                _ => bytes_of(field, kept) != bytes_of(field, row),
            }
        }
    })
}

/// The value of a number field's bytes.
pub fn value(bytes: &[u8]) -> i64 {
    let size = bytes[1..].iter().fold(0, |size, digit| size * 10 + i64::from(digit - b'0'));
    if bytes[0] == b'-' {
        -size
    } else {
        size
    }
}
