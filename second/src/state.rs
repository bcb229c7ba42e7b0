//! The report's state and its rules.

use crate::description::Description;
use crate::record;

pub const IDLE: u8 = 0;
pub const STARTED: u8 = 1;
pub const RUNNING: u8 = 2;

pub const LAST_PAGE: u32 = 999_999;
/// Sums are within ±(10^18 − 1).
pub const SUM_LIMIT: i64 = 999_999_999_999_999_999;

pub const STATE_BYTES: usize = 530;

#[derive(Clone, Debug, PartialEq, Eq)]
pub struct State {
    /// `IDLE`, `STARTED` or `RUNNING`.
    pub phase: u8,
    pub page: u32,
    pub line: u16,
    /// The body-seen flag, 0 or 1.
    pub seen: u8,
    /// The saved integer; 0 is none.
    pub saved: u16,
    /// One sum a counter.
    pub sums: [i64; 32],
    /// One indicate flag a detail, 0 or 1.
    pub flags: [u8; 8],
    /// The kept record, then zeros.
    pub kept: [u8; 256],
}

impl State {
    /// "A fresh report is idle, line 0, page 1, all else 0."
    pub fn fresh() -> State {
        State {
            phase: IDLE,
            page: 1,
            line: 0,
            seen: 0,
            saved: 0,
            sums: [0; 32],
            flags: [0; 8],
            kept: [0; 256],
        }
    }

    /// "Started: as fresh but for the phase."
    pub fn started() -> State {
        State { phase: STARTED, ..State::fresh() }
    }

    /// Whether the state keeps its rules under a description that keeps D1 to D8.
    pub fn keeps_its_rules(&self, d: &Description) -> bool {
        self.is_in_range(d)
            && match self.phase {
                // "Idle asks only the ranges."
                IDLE => true,
                STARTED => *self == State::started(),
                RUNNING => self.may_be_running(d),
                _ => false,
            }
    }

    /// "Page 1 to 999,999, line 0 to P, body-seen flag, saved integer 0 to 999, up to 32 sums each within
    /// ±(10^18 − 1), eight indicate flags."
    fn is_in_range(&self, d: &Description) -> bool {
        (1..=LAST_PAGE).contains(&self.page)
            && self.line <= d.p
            && self.seen <= 1
            && self.saved <= 999
            && self.sums.iter().all(|&sum| sum_is_in_range(sum))
            && self.flags.iter().all(|&flag| flag <= 1)
    }

    fn may_be_running(&self, d: &Description) -> bool {
        // "Sums and flags beyond the description's are 0"
        let unused_are_zero = self.sums[d.counters.len()..].iter().all(|&sum| sum == 0)
            && self.flags[d.detail_count()..].iter().all(|&flag| flag == 0);
        // "line FD to FT if body-seen, below FD if not"
        let seen = self.seen == 1;
        let line_is_right = if seen { (d.fd..=d.ft).contains(&self.line) } else { self.line < d.fd };
        // "saved 0, or FD to FT with body-seen and line FT"
        let saved_is_right =
            self.saved == 0 || ((d.fd..=d.ft).contains(&self.saved) && seen && self.line == d.ft);
        // "kept bytes a well-formed record, then zeros"
        let (kept, rest) = self.kept.split_at(usize::from(d.r));
        let kept_is_right = record::malformed_field(d, kept).is_none() && rest.iter().all(|&byte| byte == 0);
        unused_are_zero && line_is_right && saved_is_right && kept_is_right
    }

    /// Keeps a record: its bytes, then zeros.
    pub fn keep(&mut self, record: &[u8]) {
        self.kept = [0; 256];
        self.kept[..record.len()].copy_from_slice(record);
    }

    /// Numbers low byte first: page, line, saved, phase, seen, flags, sums, kept.
    pub fn to_bytes(&self) -> [u8; STATE_BYTES] {
        let mut bytes = [0; STATE_BYTES];
        bytes[0..4].copy_from_slice(&self.page.to_le_bytes());
        bytes[4..6].copy_from_slice(&self.line.to_le_bytes());
        bytes[6..8].copy_from_slice(&self.saved.to_le_bytes());
        bytes[8] = self.phase;
        bytes[9] = self.seen;
        bytes[10..18].copy_from_slice(&self.flags);
        for (place, sum) in bytes[18..274].chunks_exact_mut(8).zip(&self.sums) {
            place.copy_from_slice(&sum.to_le_bytes());
        }
        bytes[274..530].copy_from_slice(&self.kept);
        bytes
    }

    /// The state whose `to_bytes` are these.
    pub fn from_bytes(bytes: &[u8; STATE_BYTES]) -> State {
        State {
            page: u32::from_le_bytes(bytes_at(bytes, 0)),
            line: u16::from_le_bytes(bytes_at(bytes, 4)),
            saved: u16::from_le_bytes(bytes_at(bytes, 6)),
            phase: bytes[8],
            seen: bytes[9],
            flags: bytes_at(bytes, 10),
            sums: std::array::from_fn(|i| i64::from_le_bytes(bytes_at(bytes, 18 + 8 * i))),
            kept: bytes_at(bytes, 274),
        }
    }
}

pub fn sum_is_in_range(sum: i64) -> bool {
    (-SUM_LIMIT..=SUM_LIMIT).contains(&sum)
}

/// "Set each detail's indicate flag": those "beyond the description's are 0" and stay so.
pub fn set_flags(d: &Description, flags: &mut [u8; 8]) {
    flags[..d.detail_count()].fill(1);
}

/// `N` bytes from a place on.
pub fn bytes_at<const N: usize>(bytes: &[u8], start: usize) -> [u8; N] {
    std::array::from_fn(|i| bytes[start + i])
}
