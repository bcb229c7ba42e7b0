//! Numbers printed through pictures: read back, whatever printed them, and what they show.

use super::draft::{Block, Draft, Row};
use super::rows;
use super::sequence::{line_bytes, Call, Step};
use super::walk;
use crate::description::{Item, CF, CH, DE, FIELD, LINE_COUNTER, PAGE_COUNTER, RH};
use crate::picture;

/// A number item with a picture, on a printed line.
#[derive(Clone, Debug)]
pub struct Shown<'a> {
    pub item: Item,
    pub picture: &'a [u8],
    /// The item's bytes.
    pub part: &'a [u8],
    /// The number; `None` for a sum, and where the record read is not known here.
    pub value: Option<i64>,
    /// What its field's bytes begin with, where those are known.
    pub field_sign: Option<u8>,
}

/// Those of an accepted call, whose lines hold these rows.
pub fn all<'a>(
    draft: &'a Draft,
    step: &'a Step,
    page: u32,
    rows: &[(&'a Block, &'a Row)],
    output: &'a [u8],
) -> Vec<Shown<'a>> {
    let flags = walk::flags(draft, step, page);
    let indicates = match step.call {
        Call::Generate { d, .. } => flags[d as usize] == 1,
        _ => false,
    };
    let mut all = Vec::new();
    for (line, (block, row)) in output.chunks_exact(line_bytes(draft)).zip(rows) {
        for item in row.items.iter().filter(|item| item.indicate == 0 || indicates) {
            let Some(picture) = draft.picture_of(item) else { continue };
            let part = &line[8 + item.column as usize..][..item.width as usize];
            let field = field_bytes(draft, step, block, item);
            let value = match item.source {
                PAGE_COUNTER => Some(decimal(&line[..6])),
                LINE_COUNTER => Some(decimal(&line[6..9])),
                _ => field.map(rows::value),
            };
            let field_sign = field.map(|bytes| bytes[0]);
            all.push(Shown { item: *item, picture: picture::text(picture), part, value, field_sign });
        }
    }
    all
}

/// The bytes of the item's field, where it is clear which record its group reads: "control footings, and all that
/// TERMINATE prints, read fields from the kept record; other groups read the record in hand". A page heading or footing
/// may be printed for either.
fn field_bytes<'a>(draft: &Draft, step: &'a Step, block: &Block, item: &Item) -> Option<&'a [u8]> {
    if item.source != FIELD {
        return None;
    }
    let record = match (&step.call, block.kind) {
        (Call::Terminate, _) | (_, CF) => &step.state.kept[..],
        (Call::Generate { record, .. }, RH | CH | DE) => record,
        _ => return None,
    };
    Some(rows::bytes_of(draft.fields[item.index as usize], record))
}

fn decimal(digits: &[u8]) -> i64 {
    digits.iter().fold(0, |value, digit| value * 10 + i64::from(digit - b'0'))
}

impl Shown<'_> {
    /// CR, '-' or nothing.
    pub fn sign(&self) -> &'static str {
        match self.picture.last() {
            Some(b'R') => "CR",
            Some(b'-') => "-",
            _ => "",
        }
    }

    /// Z, * or 9: what the first digit place is.
    pub fn fill(&self) -> u8 {
        self.picture.iter().copied().find(|byte| b"Z*9".contains(byte)).unwrap_or(b'9')
    }

    /// How many digits go in.
    pub fn places(&self) -> u32 {
        self.picture.iter().filter(|byte| b"Z*9".contains(byte)).count() as u32
    }

    /// No digit shows: all of it is stars.
    pub fn is_starred(&self) -> bool {
        self.part.iter().all(|&byte| byte == b'*')
    }

    /// A number that does not go through: all stars, and they are not hidden zeros.
    pub fn is_refused(&self, value: i64) -> bool {
        self.is_too_wide(value) || (value < 0 && self.sign().is_empty())
    }

    pub fn is_too_wide(&self, value: i64) -> bool {
        u128::from(value.unsigned_abs()) >= 10u128.pow(self.places())
    }

    /// The printed characters with those of the picture, the sign left off.
    pub fn characters(&self) -> impl Iterator<Item = (u8, u8)> + '_ {
        let end = self.part.len() - self.sign().len();
        self.part[..end].iter().copied().zip(self.picture.iter().copied())
    }

    /// Whether this may stand there, and for a known number, whether it is that number.
    pub fn is_right(&self) -> bool {
        match self.value {
            Some(value) if self.is_refused(value) => self.is_starred(),
            Some(value) => self.reads(value < 0) == Some(value.unsigned_abs()),
            None => self.is_starred() || self.reads(true).or(self.reads(false)).is_some(),
        }
    }

    /// The number that is read back, its hidden digits as zeros; `None` where this cannot be what a number gives.
    fn reads(&self, is_negative: bool) -> Option<u64> {
        let fill = if self.fill() == b'*' { b'*' } else { b' ' };
        let mut hiding = true;
        let mut size = 0;
        for (byte, place) in self.characters() {
            let fits = match place {
                b'.' => byte == b'.',
                b',' => byte == if hiding { fill } else { b',' },
                _ if hiding && place != b'9' && byte == fill => true,
                // The first digit shown is no zero, but where a 9 asks for it.
                _ => byte.is_ascii_digit() && !(hiding && place != b'9' && byte == b'0'),
            };
            if !fits {
                return None;
            }
            if byte.is_ascii_digit() {
                hiding = false;
                size = size * 10 + u64::from(byte - b'0');
            }
        }
        let sign = &self.part[self.part.len() - self.sign().len()..];
        let sign_fits =
            if is_negative { sign == self.sign().as_bytes() } else { sign.iter().all(|&byte| byte == b' ') };
        sign_fits.then_some(size)
    }
}
