//! Pictures of R-4: what is asked of one, and how a number prints through it.

use crate::tables::Picture;

/// The picture's characters, its padding left off.
pub fn text(picture: &Picture) -> &[u8] {
    let end = picture.iter().rposition(|&byte| byte != b' ').map_or(0, |last| last + 1);
    &picture[..end]
}

/// A picture in its three parts.
struct Parts<'a> {
    /// In front of the point, or of the sign where there is no point.
    whole: &'a [u8],
    /// Behind the point; `None` without one.
    decimals: Option<&'a [u8]>,
    /// CR, '-' or nothing.
    sign: &'a [u8],
}

fn parts(text: &[u8]) -> Parts<'_> {
    let sign_length = match text {
        [.., b'C', b'R'] => 2,
        [.., b'-'] => 1,
        _ => 0,
    };
    let (number, sign) = text.split_at(text.len() - sign_length);
    match number.iter().position(|&byte| byte == b'.') {
        Some(point) => Parts { whole: &number[..point], decimals: Some(&number[point + 1..]), sign },
        None => Parts { whole: number, decimals: None, sign },
    }
}

fn is_fill(byte: u8) -> bool {
    matches!(byte, b'Z' | b'*')
}

fn is_digit_place(byte: u8) -> bool {
    is_fill(byte) || byte == b'9'
}

/// What is asked of a picture, whatever item uses it. "Up to 24 characters" holds of any entry.
pub fn is_right(picture: &Picture) -> bool {
    let text = text(picture);
    let Parts { whole, decimals, .. } = parts(text);
    whole.iter().all(|&byte| is_digit_place(byte) || byte == b',')
        // "After a point come as many 9s as the item has decimals, 1 to 4"
        && decimals.is_none_or(|nines| (1..=4).contains(&nines.len()) && nines.iter().all(|&byte| byte == b'9'))
        // "There is at least one digit place"
        && text.iter().any(|&byte| is_digit_place(byte))
        && fills_come_first(whole)
        && commas_stand_between(whole)
}

/// "All Z or * come before the first 9 and are never mixed."
fn fills_come_first(whole: &[u8]) -> bool {
    let places: Vec<u8> = whole.iter().copied().filter(|&byte| is_digit_place(byte)).collect();
    let fills: Vec<u8> = places.iter().copied().take_while(|&byte| is_fill(byte)).collect();
    places[fills.len()..].iter().all(|&byte| byte == b'9') && fills.iter().all(|&byte| byte == fills[0])
}

/// "A comma stands before any point, a digit place next to it on either side."
fn commas_stand_between(whole: &[u8]) -> bool {
    let is_place =
        |at: Option<usize>| at.and_then(|at| whole.get(at)).is_some_and(|&byte| is_digit_place(byte));
    let mut commas = (0..whole.len()).filter(|&at| whole[at] == b',');
    commas.all(|at| is_place(at.checked_sub(1)) && is_place(Some(at + 1)))
}

/// The decimals its item must have: the 9s behind the point; "without one, decimals are 0".
pub fn decimals(picture: &Picture) -> usize {
    parts(text(picture)).decimals.map_or(0, <[u8]>::len)
}

/// Prints a number through a picture into a part of the picture's length.
pub fn write(picture: &Picture, value: i64, part: &mut [u8]) {
    let text = text(picture);
    let sign = parts(text).sign;
    part.copy_from_slice(text);
    let is_too_wide = !put_digits(value.unsigned_abs(), text, part);
    // "Without CR or '-', a negative number fills the item with '*', as does one too wide."
    if is_too_wide || (value < 0 && sign.is_empty()) {
        part.fill(b'*');
        return;
    }
    hide_leading_zeros(text, part);
    // "CR or '-' shows only when negative, blanks otherwise."
    if value >= 0 {
        let start = part.len() - sign.len();
        part[start..].fill(b' ');
    }
}

/// Puts the number's digits into the digit places, the last into the last. False where places are wanting.
fn put_digits(size: u64, text: &[u8], part: &mut [u8]) -> bool {
    let mut rest = size;
    for (byte, _) in part.iter_mut().zip(text).rev().filter(|(_, &place)| is_digit_place(place)) {
        *byte = b'0' + (rest % 10) as u8;
        rest /= 10;
    }
    rest == 0
}

/// "Z blanks and * stars a leading zero, a lone 0 too; a comma in front of the first digit shown, or where none is, takes
/// the fill character." A 9 always shows its digit, and 9s stand behind a point, so what is hidden ends there.
fn hide_leading_zeros(text: &[u8], part: &mut [u8]) {
    let fill = if text.contains(&b'*') { b'*' } else { b' ' };
    for (byte, &place) in part.iter_mut().zip(text) {
        match place {
            b'Z' | b'*' if *byte == b'0' => *byte = fill,
            b',' => *byte = fill,
            _ => return,
        }
    }
}
