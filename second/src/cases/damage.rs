//! Damage to a printed sheet for R-8: bytes and records changed, lost, added or moved.

use super::rng::Rng;
use super::valid::printable;

/// One kind of damage.
#[derive(Clone, Copy, Debug, PartialEq, Eq)]
pub enum Kind {
    /// A byte, or a few, flipped in one bit, set to a limit of what may stand there, or to another character.
    Flip,
    /// Bytes in a row that become any bytes.
    Blot,
    /// Bytes lost: one, some, or as many as a record has.
    Remove,
    /// Bytes too many: one, some, or as many as a record has.
    Insert,
    /// Two records change places.
    Swap,
    /// A record stands once more, behind itself or elsewhere.
    Repeat,
    /// A record gets another page or line, in digits.
    Renumber,
    /// The end is lost.
    Cut,
}

/// All kinds.
pub const KINDS: [Kind; 8] =
    [Kind::Flip, Kind::Blot, Kind::Remove, Kind::Insert, Kind::Swap, Kind::Repeat, Kind::Renumber, Kind::Cut];

/// A damaged copy of a sheet, and how it came about.
#[derive(Clone, Debug, PartialEq, Eq)]
pub struct Damaged {
    pub bytes: Vec<u8>,
    /// What was done, one after the other.
    pub kinds: Vec<Kind>,
}

/// A copy of a sheet whose lines have `w` characters, damaged once or several times. The sheet may be anything. Chance may
/// leave the copy as it was.
pub fn damaged(rng: &mut Rng, sheet: &[u8], w: usize) -> Damaged {
    let mut bytes = sheet.to_vec();
    let times = rng.pick(&[1, 1, 1, 1, 2, 3, 5]);
    let kinds = (0..times).map(|_| damage_somehow(rng, &mut bytes, w)).collect();
    Damaged { bytes, kinds }
}

/// Damages a sheet in a kind drawn by chance, and says in which.
pub fn damage_somehow(rng: &mut Rng, sheet: &mut Vec<u8>, w: usize) -> Kind {
    // To an empty sheet nothing else can be done.
    let kind = if sheet.is_empty() { Kind::Insert } else { rng.pick(&KINDS) };
    damage(rng, sheet, w, kind);
    kind
}

/// Damages a sheet whose lines have `w` characters in this kind. A sheet without what the kind asks for, bytes or whole
/// records, stays as it is.
pub fn damage(rng: &mut Rng, sheet: &mut Vec<u8>, w: usize, kind: Kind) {
    let records = sheet.len() / record_bytes(w);
    match kind {
        Kind::Insert => insert(rng, sheet, w),
        Kind::Flip if !sheet.is_empty() => flip(rng, sheet, w),
        Kind::Blot if !sheet.is_empty() => blot(rng, sheet, w),
        Kind::Remove if !sheet.is_empty() => remove(rng, sheet, w),
        Kind::Cut if !sheet.is_empty() => cut(rng, sheet, w),
        Kind::Swap if records > 1 => swap(rng, sheet, w),
        Kind::Repeat if records > 0 => repeat(rng, sheet, w),
        Kind::Renumber if records > 0 => renumber(rng, sheet, w),
        _ => {}
    }
}

/// "Six digits of page, three of line, W characters, one byte 10."
fn record_bytes(w: usize) -> usize {
    w + 10
}

/// Where a record begins; the sheet has some.
fn some_record(rng: &mut Rng, sheet: &[u8], w: usize) -> usize {
    rng.below(sheet.len() / record_bytes(w)) * record_bytes(w)
}

/// A place in the sheet, which is not empty: each part of a record as often as the text.
fn some_place(rng: &mut Rng, sheet: &[u8], w: usize) -> usize {
    let any = rng.below(sheet.len());
    let within = match rng.below(5) {
        0 => rng.below(6),
        1 => 6 + rng.below(3),
        2 => 9 + rng.below(w),
        3 => 9 + w,
        _ => return any,
    };
    let place = any / record_bytes(w) * record_bytes(w) + within;
    // The tail may be short.
    place.min(sheet.len() - 1)
}

/// How many bytes are lost or too many.
fn some_count(rng: &mut Rng, w: usize) -> usize {
    let any = rng.between(1, 2 * record_bytes(w));
    rng.pick(&[1, 1, 2, 9, record_bytes(w), record_bytes(w), any])
}

/// The last byte that a part of a record may have, and the first that it may not, at either end.
const LIMITS: [u8; 14] = [b'/', b'0', b'9', b':', 31, 32, 126, 127, 9, 10, 11, 0, 128, 255];

fn flip(rng: &mut Rng, sheet: &mut [u8], w: usize) {
    for _ in 0..rng.pick(&[1, 1, 1, 2, 4]) {
        let place = some_place(rng, sheet, w);
        sheet[place] = match rng.below(5) {
            0..=1 => sheet[place] ^ (1 << rng.below(8)),
            2..=3 => rng.pick(&LIMITS),
            _ => printable(rng),
        };
    }
}

fn blot(rng: &mut Rng, sheet: &mut [u8], w: usize) {
    let place = some_place(rng, sheet, w);
    let count = rng.between(1, 2 * record_bytes(w));
    sheet.iter_mut().skip(place).take(count).for_each(|byte| *byte = rng.byte());
}

fn remove(rng: &mut Rng, sheet: &mut Vec<u8>, w: usize) {
    let start = if rng.chance(40) { boundary(rng, sheet, w) } else { rng.below(sheet.len()) };
    let end = (start + some_count(rng, w)).min(sheet.len());
    sheet.drain(start..end);
}

fn insert(rng: &mut Rng, sheet: &mut Vec<u8>, w: usize) {
    let place = if rng.chance(40) { boundary(rng, sheet, w) } else { rng.below(sheet.len() + 1) };
    let count = some_count(rng, w);
    let kind = rng.below(4);
    let bytes: Vec<u8> = (0..count)
        .map(|_| match kind {
            0 => rng.byte(),
            1 => printable(rng),
            2 => b'0' + rng.below(10) as u8,
            _ => 10,
        })
        .collect();
    sheet.splice(place..place, bytes);
}

fn swap(rng: &mut Rng, sheet: &mut [u8], w: usize) {
    let records = sheet.len() / record_bytes(w);
    let first = rng.below(records - 1);
    let second = if rng.chance(50) { first + 1 } else { rng.between(first + 1, records - 1) };
    let (before, rest) = sheet.split_at_mut(second * record_bytes(w));
    let start = first * record_bytes(w);
    before[start..start + record_bytes(w)].swap_with_slice(&mut rest[..record_bytes(w)]);
}

fn repeat(rng: &mut Rng, sheet: &mut Vec<u8>, w: usize) {
    let start = some_record(rng, sheet, w);
    let record = sheet[start..start + record_bytes(w)].to_vec();
    let place = if rng.chance(50) { start + record_bytes(w) } else { boundary(rng, sheet, w) };
    for _ in 0..rng.pick(&[1, 1, 1, 3]) {
        sheet.splice(place..place, record.iter().copied());
    }
}

/// The place of a record, or the one behind the last whole one.
fn boundary(rng: &mut Rng, sheet: &[u8], w: usize) -> usize {
    rng.below(sheet.len() / record_bytes(w) + 1) * record_bytes(w)
}

/// The page or the line becomes 0, the one of another record, the last there is, one more, one less, or any.
fn renumber(rng: &mut Rng, sheet: &mut [u8], w: usize) {
    let (start, other) = (some_record(rng, sheet, w), some_record(rng, sheet, w));
    let (from, digits) = if rng.chance(50) { (0, 6) } else { (6, 3) };
    let number = |record: usize| {
        let digits = &sheet[record + from..record + from + digits];
        digits.iter().fold(0, |number, digit| (10 * number + usize::from(digit & 15)) % 1_000_000)
    };
    let end = 10usize.pow(digits as u32);
    let own = number(start);
    let any = rng.below(end);
    let new = rng.pick(&[0, number(other), end - 1, own + 1, own + end - 1, any]) % end;
    sheet[start + from..start + from + digits].copy_from_slice(format!("{new:0digits$}").as_bytes());
}

fn cut(rng: &mut Rng, sheet: &mut Vec<u8>, w: usize) {
    let (any, whole) = (rng.below(sheet.len()), boundary(rng, sheet, w));
    let in_the_last = sheet.len().saturating_sub(rng.between(1, record_bytes(w) - 1));
    let length = rng.pick(&[any, whole, in_the_last, in_the_last, sheet.len() - 1]);
    sheet.truncate(length);
}

#[cfg(test)]
mod tests {
    use super::*;

    const SHEET: &[u8; 33] = b"000001001a\n000001002b\n000002001c\n";

    fn each(rng: &mut Rng, kind: Kind, test: impl Fn(&[u8]) -> bool) -> bool {
        (0..500).all(|_| {
            let mut sheet = SHEET.to_vec();
            damage(rng, &mut sheet, 1, kind);
            test(&sheet)
        })
    }

    #[test]
    fn each_kind_does_what_it_says() {
        let mut rng = Rng::new(40);
        let sorted = |sheet: &[u8]| {
            let mut records: Vec<&[u8]> = sheet.chunks(11).collect();
            records.sort();
            records.concat()
        };
        assert!(each(&mut rng, Kind::Flip, |sheet| sheet.len() == 33));
        assert!(each(&mut rng, Kind::Blot, |sheet| sheet.len() == 33));
        assert!(each(&mut rng, Kind::Remove, |sheet| sheet.len() < 33 || sheet == SHEET));
        assert!(each(&mut rng, Kind::Insert, |sheet| sheet.len() > 33));
        assert!(each(&mut rng, Kind::Swap, |sheet| sheet != SHEET && sorted(sheet) == SHEET));
        assert!(each(&mut rng, Kind::Repeat, |sheet| sheet.len() == 44 || sheet.len() == 66));
        assert!(each(&mut rng, Kind::Renumber, |sheet| {
            sheet.chunks(11).zip(b"abc").all(|(record, text)| record[9..] == [*text, 10])
        }));
        assert!(each(&mut rng, Kind::Cut, |sheet| SHEET.starts_with(sheet)));
    }

    #[test]
    fn any_sheet_may_be_damaged() {
        let mut rng = Rng::new(41);
        for kind in KINDS {
            for length in 0..40 {
                for w in [1, 2, 12, 132] {
                    let mut sheet: Vec<u8> = (0..length).map(|_| rng.byte()).collect();
                    damage(&mut rng, &mut sheet, w, kind);
                }
            }
        }
    }

    #[test]
    fn the_same_seed_gives_the_same_damage() {
        let draw = |seed| {
            let mut rng = Rng::new(seed);
            (0..50).map(|_| damaged(&mut rng, SHEET, 1)).collect::<Vec<_>>()
        };
        assert_eq!(draw(42), draw(42));
        assert_ne!(draw(42), draw(43));
    }
}
