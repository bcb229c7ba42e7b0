//! The printed sheet read back, request R-8 (document 02): one record at an offset, and a walker from record to record.

/// "W outside 1 to 132", and "no well-formed record at the offset".
pub const BAD_SHEET: u8 = 12;

/// "Six digits of page, three of line, W characters, one byte 10."
const PAGE_DIGITS: usize = 6;
const TEXT_START: usize = 9;
const END: u8 = 10;

/// What stands at an offset.
#[derive(Clone, Copy, Debug, PartialEq, Eq)]
pub enum Read {
    Record(Record),
    /// The offset is the sheet's length.
    End,
}

/// A well-formed record.
#[derive(Clone, Copy, Debug, PartialEq, Eq)]
pub struct Record {
    /// 1 to 999,999.
    pub page: u32,
    /// 1 to 999.
    pub line: u32,
    /// The offset in the sheet where its W characters of text start.
    pub text: usize,
}

/// A refusal: its number and its extra number.
#[derive(Clone, Copy, Debug, PartialEq, Eq)]
pub struct Refusal {
    pub number: u8,
    pub extra: u64,
}

/// The record at an offset of a sheet whose lines have `w` characters. Refused with 12: W outside 1 to 132 first, extra
/// number 0; then no well-formed record at the offset, which is the extra number.
pub fn read(sheet: &[u8], offset: usize, w: usize) -> Result<Read, Refusal> {
    checked(w)?;
    if offset == sheet.len() {
        return Ok(Read::End);
    }
    let refusal = Refusal { number: BAD_SHEET, extra: offset as u64 };
    // An offset past the end has no bytes; a short tail has too few.
    let bytes = sheet.get(offset..).and_then(|rest| rest.get(..record_bytes(w))).ok_or(refusal)?;
    let (page, line) = well_formed(bytes).ok_or(refusal)?;
    Ok(Read::Record(Record { page, line, text: offset + TEXT_START }))
}

/// Refusal 12 for W, the reader's and the repair tool's.
pub fn checked(w: usize) -> Result<(), Refusal> {
    if (1..=132).contains(&w) {
        return Ok(());
    }
    Err(Refusal { number: BAD_SHEET, extra: 0 })
}

/// The bytes of a record with `w` characters, W + 10.
pub fn record_bytes(w: usize) -> usize {
    TEXT_START + w + 1
}

/// "Well-formed is page and line in digits, 1 or more, W bytes 32 to 126, byte 10." The page and the line of the W + 10
/// bytes of a record that is.
fn well_formed(bytes: &[u8]) -> Option<(u32, u32)> {
    let (numbers, rest) = bytes.split_at(TEXT_START);
    let (end, text) = rest.split_last()?;
    if *end != END || !text.iter().all(|byte| (32..=126).contains(byte)) {
        return None;
    }
    let (page, line) = numbers.split_at(PAGE_DIGITS);
    Some((number(page)?, number(line)?))
}

/// The value of digits, 1 or more.
fn number(digits: &[u8]) -> Option<u32> {
    let mut value = 0;
    for digit in digits {
        if !digit.is_ascii_digit() {
            return None;
        }
        value = 10 * value + u32::from(digit - b'0');
    }
    (value > 0).then_some(value)
}

/// "A small walker that keeps the sheet and its place, over a plain call on bytes and an offset."
#[derive(Clone, Copy, Debug)]
pub struct Walker<'a> {
    sheet: &'a [u8],
    w: usize,
    place: usize,
}

impl<'a> Walker<'a> {
    /// One that stands at the start.
    pub fn new(sheet: &'a [u8], w: usize) -> Walker<'a> {
        Walker { sheet, w, place: 0 }
    }

    /// The offset that it reads next.
    pub fn place(&self) -> usize {
        self.place
    }

    /// The record at its place, and on to the one behind it. At the end, and where it is refused, it stays.
    pub fn step(&mut self) -> Result<Read, Refusal> {
        let read = read(self.sheet, self.place, self.w)?;
        if let Read::Record(_) = read {
            self.place += record_bytes(self.w);
        }
        Ok(read)
    }

    /// The characters of a record that it has read.
    pub fn text(&self, record: &Record) -> &'a [u8] {
        &self.sheet[record.text..record.text + self.w]
    }
}
