//! What groups print: the bytes of each line.

use crate::description::{
    Description, Item, Line, FIELD, LINE_COUNTER, LITERAL, NO_PICTURE, NUMBER, PAGE_COUNTER,
};
use crate::picture;
use crate::place::Landed;
use crate::record;

/// The bytes of one printed record: "six digits of page, three of line, W characters, one byte 10".
pub fn line_bytes(d: &Description) -> usize {
    usize::from(d.w) + 10
}

/// The bytes that the landed groups need.
pub fn bytes_needed(d: &Description, landed: &[Landed]) -> usize {
    let lines: usize = landed.iter().map(|landed| usize::from(d.groups[landed.group].line_count)).sum();
    lines * line_bytes(d)
}

/// Writes the landed groups to the start of an output that is long enough.
pub fn write(d: &Description, landed: &[Landed], kept: &[u8], in_hand: &[u8], out: &mut [u8]) {
    let mut places = out.chunks_exact_mut(line_bytes(d));
    for landed in landed {
        let record = if landed.turn.reads_kept { kept } else { in_hand };
        let mut number = landed.first_line;
        for (i, line) in d.lines_of(&d.groups[landed.group]).iter().enumerate() {
            if i > 0 {
                number += u32::from(line.integer);
            }
            let Some(place) = places.next() else { return };
            write_line(d, landed, line, number, record, place);
        }
    }
}

fn write_line(d: &Description, landed: &Landed, line: &Line, number: u32, record: &[u8], place: &mut [u8]) {
    digits(landed.page, &mut place[..6]);
    digits(number, &mut place[6..9]);
    let (characters, end) = place[9..].split_at_mut(usize::from(d.w));
    end[0] = 10;
    // "Each line starts as blanks."
    characters.fill(b' ');
    for item in d.items_of(line) {
        // "An item flagged indicate prints only the first time its detail prints after a control break; else
        // blanks"; R-2: "also the first time its detail prints after a page change".
        if item.indicate == 0 || landed.indicates {
            let start = usize::from(item.column) - 1;
            let part = &mut characters[start..start + usize::from(item.width)];
            write_item(d, landed, item, number, record, part);
        }
    }
}

fn write_item(d: &Description, landed: &Landed, item: &Item, line: u32, record: &[u8], part: &mut [u8]) {
    let index = usize::from(item.index);
    match item.source {
        LITERAL => part.copy_from_slice(&d.literals[index..index + part.len()]),
        FIELD => {
            let field = &d.fields[index];
            let bytes = record::bytes_of(field, record);
            if field.kind == NUMBER {
                show_number(d, item, record::value(bytes), part);
            } else {
                write_text(bytes, part);
            }
        }
        PAGE_COUNTER => show_number(d, item, i64::from(landed.page), part),
        // "A line counter item shows its own line's number."
        LINE_COUNTER => show_number(d, item, i64::from(line), part),
        _ => show_number(d, item, landed.turn.sums[index], part),
    }
}

/// Through the item's picture; "an item with no picture prints as before".
fn show_number(d: &Description, item: &Item, value: i64, part: &mut [u8]) {
    match item.picture {
        NO_PICTURE => write_number(value, item.decimals, part),
        index => picture::write(&d.pictures[usize::from(index)], value, part),
    }
}

/// The number with leading zeros, as wide as its place.
fn digits(number: u32, place: &mut [u8]) {
    let mut rest = number;
    for byte in place.iter_mut().rev() {
        *byte = b'0' + (rest % 10) as u8;
        rest /= 10;
    }
}

/// "Text is left-aligned, cut or padded." The part holds blanks.
pub fn write_text(text: &[u8], part: &mut [u8]) {
    let width = text.len().min(part.len());
    part[..width].copy_from_slice(&text[..width]);
}

/// "Numbers are right-aligned, no leading zeros, at least one digit before the point, '-' in front when negative;
/// too wide, the item is all '*'." The part holds blanks.
pub fn write_number(value: i64, decimals: u16, part: &mut [u8]) {
    let text = number_text(value, usize::from(decimals));
    match part.len().checked_sub(text.len()) {
        Some(start) => part[start..].copy_from_slice(text.as_bytes()),
        None => part.fill(b'*'),
    }
}

fn number_text(value: i64, decimals: usize) -> String {
    let mut text = format!("{:0width$}", value.unsigned_abs(), width = decimals + 1);
    if decimals > 0 {
        text.insert(text.len() - decimals, '.');
    }
    if value < 0 {
        text.insert(0, '-');
    }
    text
}
