//! Records: whether they are well formed, and the values of their fields.

use crate::description::{Description, Field, FINAL, NUMBER};

/// The first field whose bytes are malformed.
pub fn malformed_field(d: &Description, record: &[u8]) -> Option<usize> {
    d.fields.iter().position(|field| !well_formed(field, bytes_of(field, record)))
}

/// "Text bytes are 32 to 126. A number is '+' or '-' and digits." R-5: "take blank as plus in every number field".
fn well_formed(field: &Field, bytes: &[u8]) -> bool {
    if field.kind == NUMBER {
        matches!(bytes[0], b'+' | b'-' | b' ') && bytes[1..].iter().all(u8::is_ascii_digit)
    } else {
        bytes.iter().all(|byte| (32..=126).contains(byte))
    }
}

/// The field's bytes in a record.
pub fn bytes_of<'a>(field: &Field, record: &'a [u8]) -> &'a [u8] {
    let offset = usize::from(field.offset);
    &record[offset..offset + usize::from(field.width)]
}

/// The value of a number field's bytes; at most 17 digits. A blank in front is a plus.
pub fn value(bytes: &[u8]) -> i64 {
    let size = bytes[1..].iter().fold(0, |size, digit| size * 10 + i64::from(digit - b'0'));
    if bytes[0] == b'-' {
        -size
    } else {
        size
    }
}

/// "The break is at the first control from the senior end whose value differs from the kept one."
pub fn break_level(d: &Description, kept: &[u8], record: &[u8]) -> Option<usize> {
    d.controls.iter().position(|&control| differs(d, control, kept, record))
}

/// "Controls compare by value for numbers, by bytes for text"; "FINAL never differs".
fn differs(d: &Description, control: u16, kept: &[u8], record: &[u8]) -> bool {
    if control == FINAL {
        return false;
    }
    let field = &d.fields[usize::from(control)];
    let (old, new) = (bytes_of(field, kept), bytes_of(field, record));
    if field.kind == NUMBER {
        value(old) != value(new)
    } else {
        old != new
    }
}
