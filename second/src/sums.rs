//! The additions: subtotal, crossfoot, roll-up.

use crate::description::{Description, ADD_COUNTER, ADD_FIELD};
use crate::record;
use crate::state::sum_is_in_range;

/// One sum a counter.
pub type Sums = [i64; 32];

/// "One addition out of range refuses the call."
#[derive(Clone, Copy, Debug, PartialEq, Eq)]
pub struct OutOfRange;

/// Adds to one sum. Two values in range never leave an i64.
fn add(sums: &mut Sums, c: usize, value: i64) -> Result<(), OutOfRange> {
    let sum = sums[c] + value;
    if !sum_is_in_range(sum) {
        return Err(OutOfRange);
    }
    sums[c] = sum;
    Ok(())
}

/// "Subtotal: counters in order, field addends in order whose mask has d."
pub fn subtotal(d: &Description, sums: &mut Sums, number: usize, record: &[u8]) -> Result<(), OutOfRange> {
    for (c, counter) in d.counters.iter().enumerate() {
        for addend in d.addends_of(counter) {
            if addend.kind == ADD_FIELD && addend.mask >> number & 1 == 1 {
                let field = &d.fields[usize::from(addend.index)];
                add(sums, c, record::value(record::bytes_of(field, record)))?;
            }
        }
    }
    Ok(())
}

/// "Its counters in order add their same-group addends (crossfoot)."
pub fn crossfoot(d: &Description, sums: &mut Sums, group: usize) -> Result<(), OutOfRange> {
    for c in counters_of(d, group) {
        for addend in d.addends_of(&d.counters[c]) {
            let named = usize::from(addend.index);
            if addend.kind == ADD_COUNTER && usize::from(d.counters[named].group) == group {
                add(sums, c, sums[named])?;
            }
        }
    }
    Ok(())
}

/// "Then in order each is added to every more senior counter naming it, in counter order."
pub fn roll_up(d: &Description, sums: &mut Sums, group: usize) -> Result<(), OutOfRange> {
    for c in counters_of(d, group) {
        for senior in 0..d.counters.len() {
            if is_more_senior(d, senior, group) && names(d, senior, c) {
                add(sums, senior, sums[c])?;
            }
        }
    }
    Ok(())
}

/// The counters of a group, in order.
fn counters_of(d: &Description, group: usize) -> impl Iterator<Item = usize> + '_ {
    (0..d.counters.len()).filter(move |&c| usize::from(d.counters[c].group) == group)
}

/// Whether a counter's footing is more senior than the group: a smaller level.
fn is_more_senior(d: &Description, counter: usize, group: usize) -> bool {
    d.groups[usize::from(d.counters[counter].group)].level < d.groups[group].level
}

/// Whether a counter has another among its addends.
fn names(d: &Description, counter: usize, other: usize) -> bool {
    let mut addends = d.addends_of(&d.counters[counter]).iter();
    addends.any(|addend| addend.kind == ADD_COUNTER && usize::from(addend.index) == other)
}
