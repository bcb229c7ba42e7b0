//! The repair tool of request R-8 (document 02): a damaged sheet without the records that are out of form or out of order,
//! and a list of those.

use crate::read::{self, Read, Record, Refusal};

/// The list's last byte of an entry: "1 form or 2 order".
pub const FORM: u8 = 1;
pub const ORDER: u8 = 2;

/// One entry of the list: "8 bytes of offset, low byte first, then a byte".
pub const ENTRY_BYTES: usize = 9;

/// A record that is dropped, or the short tail.
#[derive(Clone, Copy, Debug, PartialEq, Eq)]
pub struct Dropped {
    /// Where it begins in the sheet.
    pub offset: u64,
    /// `FORM` or `ORDER`.
    pub reason: u8,
}

impl Dropped {
    pub fn to_bytes(&self) -> [u8; ENTRY_BYTES] {
        let mut bytes = [self.reason; ENTRY_BYTES];
        bytes[..8].copy_from_slice(&self.offset.to_le_bytes());
        bytes
    }
}

/// A sheet taken apart: what is kept, back to back, and what is dropped.
#[derive(Clone, Debug, Default, PartialEq, Eq)]
pub struct Repaired {
    pub copy: Vec<u8>,
    pub dropped: Vec<Dropped>,
}

impl Repaired {
    /// The list's bytes.
    pub fn list(&self) -> Vec<u8> {
        self.dropped.iter().flat_map(Dropped::to_bytes).collect()
    }
}

#[derive(Clone, Copy, Debug, PartialEq, Eq)]
pub struct Answer {
    /// 0 accepted, else the refusal number.
    pub number: u8,
    /// The refusal's extra number, always 0.
    pub extra: u64,
    /// Bytes written into the copy.
    pub copied: usize,
    /// Bytes written into the list.
    pub listed: usize,
}

/// Repairs a sheet whose lines have `w` characters into two buffers, the copy and the list; bytes behind what is written
/// stay. Refused with 12 for W, then with 9 where one of them has no room; then both stay as they were.
pub fn repair(sheet: &[u8], w: usize, copy: &mut [u8], list: &mut [u8]) -> Answer {
    let repaired = match repaired(sheet, w) {
        Ok(repaired) => repaired,
        Err(Refusal { number, extra }) => return Answer { number, extra, copied: 0, listed: 0 },
    };
    let (kept, entries) = (&repaired.copy, repaired.list());
    if copy.len() < kept.len() || list.len() < entries.len() {
        return Answer { number: 9, extra: 0, copied: 0, listed: 0 };
    }
    copy[..kept.len()].copy_from_slice(kept);
    list[..entries.len()].copy_from_slice(&entries);
    Answer { number: 0, extra: 0, copied: kept.len(), listed: entries.len() }
}

/// The same with as much room as it takes: "looks at each W + 10 bytes from the start". A short tail is looked at like
/// the rest; it cannot be well-formed.
pub fn repaired(sheet: &[u8], w: usize) -> Result<Repaired, Refusal> {
    read::checked(w)?;
    let mut repaired = Repaired::default();
    let mut last = None;
    for (nth, bytes) in sheet.chunks(read::record_bytes(w)).enumerate() {
        match judged(bytes, w, last) {
            Ok(record) => {
                repaired.copy.extend_from_slice(bytes);
                last = Some(record);
            }
            Err(reason) => {
                let offset = (nth * read::record_bytes(w)) as u64;
                repaired.dropped.push(Dropped { offset, reason });
            }
        }
    }
    Ok(repaired)
}

/// The record of some bytes, if it is to be kept behind the last kept one; else why it is dropped. Form is asked first: a
/// record out of form has no place.
fn judged(bytes: &[u8], w: usize, last: Option<Record>) -> Result<Record, u8> {
    let Ok(Read::Record(record)) = read::read(bytes, 0, w) else {
        return Err(FORM);
    };
    if last.is_some_and(|last| !is_later(&record, &last)) {
        return Err(ORDER);
    }
    Ok(record)
}

/// "A later page, or a later line on the same page."
fn is_later(record: &Record, last: &Record) -> bool {
    record.page > last.page || record.page == last.page && record.line > last.line
}
