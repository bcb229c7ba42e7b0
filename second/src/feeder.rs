//! The feeder of request R-1 (document 02): it takes bytes cut anywhere, keeps the unfinished record and
//! issues a GENERATE for each finished one.

use crate::description::{check, Description};
use crate::report;
use crate::state::{bytes_at, State, IDLE, STATE_BYTES};

/// The state, 8 bytes of detail number, 2 of count, 256 of kept area.
pub const FEEDER_BYTES: usize = STATE_BYTES + 8 + 2 + 256;

/// "Two agents' line hands us 1 to 4,096 bytes at a time."
pub const LONGEST_CHUNK: usize = 4096;

#[derive(Clone, Debug, PartialEq, Eq)]
pub struct Feeder {
    pub state: State,
    /// "The detail number set at the start."
    pub detail: u64,
    /// How many bytes of the unfinished record are kept.
    pub kept_count: u16,
    /// Those bytes; what stands behind them says nothing.
    pub kept: [u8; 256],
}

impl Feeder {
    /// A fresh report whose rows are all of one detail; no bytes kept.
    pub fn fresh(detail: u64) -> Feeder {
        Feeder { state: State::fresh(), detail, kept_count: 0, kept: [0; 256] }
    }

    /// Keeps the bytes of an unfinished record; zeros behind them.
    fn keep(&mut self, bytes: &[u8]) {
        self.kept_count = bytes.len() as u16;
        self.kept = [0; 256];
        self.kept[..bytes.len()].copy_from_slice(bytes);
    }

    /// The detail number as GENERATE takes it: no description has a detail at a number that does not fit.
    fn detail_number(&self) -> u32 {
        u32::try_from(self.detail).unwrap_or(u32::MAX)
    }

    /// Numbers low byte first: state, detail number, count of kept bytes, kept area.
    pub fn to_bytes(&self) -> [u8; FEEDER_BYTES] {
        let mut bytes = [0; FEEDER_BYTES];
        bytes[..530].copy_from_slice(&self.state.to_bytes());
        bytes[530..538].copy_from_slice(&self.detail.to_le_bytes());
        bytes[538..540].copy_from_slice(&self.kept_count.to_le_bytes());
        bytes[540..].copy_from_slice(&self.kept);
        bytes
    }

    /// The feeder whose `to_bytes` are these, whatever they are.
    pub fn from_bytes(bytes: &[u8; FEEDER_BYTES]) -> Feeder {
        Feeder {
            state: State::from_bytes(&bytes_at(bytes, 0)),
            detail: u64::from_le_bytes(bytes_at(bytes, 530)),
            kept_count: u16::from_le_bytes(bytes_at(bytes, 538)),
            kept: bytes_at(bytes, 540),
        }
    }
}

#[derive(Clone, Debug, PartialEq, Eq)]
pub struct Answer {
    /// 0 accepted, else the refusal number.
    pub number: u8,
    /// The refusal's extra number.
    pub extra: u32,
    /// Bytes of the chunk taken; 0 for INITIATE and TERMINATE.
    pub taken: usize,
    /// Bytes written.
    pub printed: usize,
    /// The next feeder; the feeder handed in where a refusal took nothing.
    pub feeder: Feeder,
}

/// A refusal: its number and its extra number.
struct Refusal(u8, u32);

/// INITIATE. It leaves no bytes kept, as there is no row yet.
pub fn initiate(desc: &[u8], feeder: &Feeder) -> Answer {
    if let Err(refusal) = checked(desc, feeder) {
        return refused(feeder, refusal);
    }
    called(feeder, discard(feeder), report::initiate(desc, &feeder.state))
}

/// TERMINATE. "10, TERMINATE with bytes kept, after 3"; "refused with their count".
pub fn terminate(desc: &[u8], feeder: &Feeder, out: &mut [u8]) -> Answer {
    if let Err(refusal) = may_terminate(desc, feeder) {
        return refused(feeder, refusal);
    }
    called(feeder, feeder.clone(), report::terminate(desc, &feeder.state, out))
}

/// "The caller may try again or drop the kept bytes." Nothing refuses it.
pub fn discard(feeder: &Feeder) -> Feeder {
    let mut next = feeder.clone();
    next.keep(&[]);
    next
}

/// Takes the bytes of a chunk and issues a GENERATE for each record that they finish, up to the first refused.
pub fn feed(desc: &[u8], feeder: &Feeder, chunk: &[u8], out: &mut [u8]) -> Answer {
    match may_feed(desc, feeder, chunk) {
        Ok(d) => take_bytes(desc, usize::from(d.r), feeder, chunk, out),
        Err(refusal) => refused(feeder, refusal),
    }
}

/// Byte by byte: each one joins the unfinished record; `r` bytes are a record.
fn take_bytes(desc: &[u8], r: usize, feeder: &Feeder, chunk: &[u8], out: &mut [u8]) -> Answer {
    let mut record = feeder.kept[..usize::from(feeder.kept_count)].to_vec();
    // What a refusal leaves: all up to the last row accepted, at first the feeder handed in.
    let mut stands = Answer { number: 0, extra: 0, taken: 0, printed: 0, feeder: feeder.clone() };
    for (at, &byte) in chunk.iter().enumerate() {
        record.push(byte);
        if record.len() < r {
            continue;
        }
        let room = &mut out[stands.printed..];
        let row = report::generate(desc, &stands.feeder.state, feeder.detail_number(), &record, room);
        if row.number != 0 {
            // "That row's bytes from earlier chunks stay kept, those of this chunk are not taken."
            return Answer { number: row.number, extra: row.extra, ..stands };
        }
        stands.taken = at + 1;
        stands.printed += row.count;
        stands.feeder.state = row.state;
        stands.feeder.keep(&[]);
        record.clear();
    }
    stands.taken = chunk.len();
    stands.feeder.keep(&record);
    stands
}

/// "18, a chunk of 0 or over 4,096 bytes, first; ... 1 to 4 at every chunk", also one that finishes no row.
fn may_feed(desc: &[u8], feeder: &Feeder, chunk: &[u8]) -> Result<Description, Refusal> {
    if chunk.is_empty() || chunk.len() > LONGEST_CHUNK {
        return Err(Refusal(18, 0));
    }
    let d = checked(desc, feeder)?;
    if feeder.state.phase == IDLE {
        return Err(Refusal(3, 0));
    }
    if d.detail(feeder.detail_number()).is_none() {
        return Err(Refusal(4, 0));
    }
    Ok(d)
}

fn may_terminate(desc: &[u8], feeder: &Feeder) -> Result<(), Refusal> {
    checked(desc, feeder)?;
    if feeder.state.phase == IDLE {
        return Err(Refusal(3, 0));
    }
    if feeder.kept_count > 0 {
        return Err(Refusal(10, u32::from(feeder.kept_count)));
    }
    Ok(())
}

/// Refusals 1 and 2: "2 also for R or more bytes kept".
fn checked(desc: &[u8], feeder: &Feeder) -> Result<Description, Refusal> {
    let d = check(desc).map_err(|rule| Refusal(1, u32::from(rule)))?;
    if !feeder.state.keeps_its_rules(&d) || feeder.kept_count >= d.r {
        return Err(Refusal(2, 0));
    }
    Ok(d)
}

/// A refusal that takes and prints nothing: the feeder handed in comes back.
fn refused(feeder: &Feeder, Refusal(number, extra): Refusal) -> Answer {
    Answer { number, extra, taken: 0, printed: 0, feeder: feeder.clone() }
}

/// The answer of the report's own INITIATE or TERMINATE; `next` is the feeder but for its state.
fn called(feeder: &Feeder, next: Feeder, answer: report::Answer) -> Answer {
    if answer.number != 0 {
        return refused(feeder, Refusal(answer.number, answer.extra));
    }
    let feeder = Feeder { state: answer.state, ..next };
    Answer { number: 0, extra: 0, taken: 0, printed: answer.count, feeder }
}

/// The same calls on a feeder's 796 bytes, which become the next feeder's.
pub mod bytes {
    use super::{Answer, Feeder, FEEDER_BYTES};

    pub fn fresh(detail: u64) -> [u8; FEEDER_BYTES] {
        Feeder::fresh(detail).to_bytes()
    }

    pub fn initiate(desc: &[u8], feeder: &mut [u8; FEEDER_BYTES]) -> Answer {
        left(feeder, super::initiate(desc, &Feeder::from_bytes(feeder)))
    }

    pub fn feed(desc: &[u8], feeder: &mut [u8; FEEDER_BYTES], chunk: &[u8], out: &mut [u8]) -> Answer {
        left(feeder, super::feed(desc, &Feeder::from_bytes(feeder), chunk, out))
    }

    pub fn discard(feeder: &mut [u8; FEEDER_BYTES]) {
        *feeder = super::discard(&Feeder::from_bytes(feeder)).to_bytes();
    }

    pub fn terminate(desc: &[u8], feeder: &mut [u8; FEEDER_BYTES], out: &mut [u8]) -> Answer {
        left(feeder, super::terminate(desc, &Feeder::from_bytes(feeder), out))
    }

    fn left(feeder: &mut [u8; FEEDER_BYTES], answer: Answer) -> Answer {
        *feeder = answer.feeder.to_bytes();
        answer
    }
}
