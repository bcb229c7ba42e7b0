//! Which groups are due in a call, what becomes of the sums and the kept record, and the indicate flags that a
//! break sets. Nothing is placed or printed here.

use crate::description::{Description, CF, CH, FINAL, PF, PH, RF, RH};
use crate::record;
use crate::state::{set_flags, State, RUNNING, STARTED};
use crate::sums::{self, OutOfRange, Sums};

/// One group whose turn has come.
#[derive(Clone, Debug)]
pub struct Turn {
    /// Its index.
    pub group: usize,
    /// The sums as they stand when it prints.
    pub sums: Sums,
    /// Whether it reads fields from the kept record handed in; else it reads the record in hand.
    pub reads_kept: bool,
    /// Whether its next group is obeyed.
    pub obeys_next: bool,
}

impl Turn {
    /// A group that reads the record in hand.
    fn new(group: usize, sums: &Sums) -> Turn {
        Turn { group, sums: *sums, reads_kept: false, obeys_next: true }
    }
}

/// The groups due in a GENERATE, in order. `number` is the detail's number, `detail` its group's index.
/// All of the next state is left in `state`, but for its place on the sheet and what landing makes of the flags.
pub fn of_generate(
    d: &Description,
    state: &mut State,
    number: usize,
    detail: usize,
    record: &[u8],
) -> Result<Vec<Turn>, OutOfRange> {
    let mut turns = Vec::new();
    if state.phase == STARTED {
        // "First GENERATE: phase running, keep the record, set each detail's indicate flag; RH, PH, all CH
        // senior to junior; then subtotal; then the detail."
        state.phase = RUNNING;
        begin_control_group(d, state, record);
        turns.extend(d.group_at(RH, 0).map(|group| Turn::new(group, &state.sums)));
        turns.extend(d.group_at(PH, 0).map(|group| Turn::new(group, &state.sums)));
        control_headings(d, state, 0, &mut turns);
    } else if let Some(b) = record::break_level(d, &state.kept[..usize::from(d.r)], record) {
        // "On a break at level b: CFs from junior up to b, then keep the record and set indicate flags, then
        // CHs from b down; then subtotal and detail."
        control_footings(d, state, b, &mut turns)?;
        begin_control_group(d, state, record);
        control_headings(d, state, b, &mut turns);
    }
    sums::subtotal(d, &mut state.sums, number, record)?;
    turns.push(Turn::new(detail, &state.sums));
    Ok(turns)
}

/// The groups due in a TERMINATE when running: "break at level 0, all CFs, then PF, RF".
pub fn of_terminate(d: &Description, state: &mut State) -> Result<Vec<Turn>, OutOfRange> {
    let mut turns = Vec::new();
    control_footings(d, state, 0, &mut turns)?;
    for kind in [PF, RF] {
        // "All that TERMINATE prints read fields from the kept record."
        turns.extend(
            d.group_at(kind, 0).map(|group| Turn { reads_kept: true, ..Turn::new(group, &state.sums) }),
        );
    }
    Ok(turns)
}

/// "Keep the record and set indicate flags."
fn begin_control_group(d: &Description, state: &mut State, record: &[u8]) {
    state.keep(record);
    set_flags(d, &mut state.flags);
}

/// "CHs from b down."
fn control_headings(d: &Description, state: &State, b: usize, turns: &mut Vec<Turn>) {
    for level in b..d.controls.len() {
        turns.extend(d.group_at(CH, level as u16).map(|group| Turn::new(group, &state.sums)));
    }
}

/// "CFs from junior up to b." Each: crossfoot, roll up, print, reset.
fn control_footings(
    d: &Description,
    state: &mut State,
    b: usize,
    turns: &mut Vec<Turn>,
) -> Result<(), OutOfRange> {
    for level in (b..d.controls.len()).rev() {
        let Some(group) = d.group_at(CF, level as u16) else {
            continue;
        };
        sums::crossfoot(d, &mut state.sums, group)?;
        sums::roll_up(d, &mut state.sums, group)?;
        // "Control footings read fields from the kept record"; "[next group] ignored on a CF more junior than b"
        turns.push(Turn { reads_kept: true, obeys_next: level == b, ..Turn::new(group, &state.sums) });
        reset(d, &mut state.sums, group, b);
    }
    Ok(())
}

/// "Its own counters with reset level ≥ b go to 0, except where that level is FINAL."
fn reset(d: &Description, sums: &mut Sums, group: usize, b: usize) {
    for (c, counter) in d.counters.iter().enumerate() {
        let level = usize::from(counter.reset);
        if usize::from(counter.group) == group && level >= b && d.controls[level] != FINAL {
            sums[c] = 0;
        }
    }
}
