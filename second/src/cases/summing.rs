//! Counters that feed each other, for R-6: crossfoots, roll-ups over one level and over several, fields that come by two
//! routes, running totals. Most descriptions keep R-6's condition; the others have one counter outside it.

use super::draft::{Count, Draft};
use super::rng::Rng;
use super::valid::{arrange_counters, counters_to_add, mask, number_fields};
use crate::description::{Addend, ADD_COUNTER, ADD_FIELD, CF};

/// How many descriptions in a hundred are to be outside the condition.
const OUTSIDE: usize = 20;

/// Two to twelve counters over the footings: so few that no field has more routes than brute force can go.
pub fn add_counters(rng: &mut Rng, draft: &mut Draft) {
    let footings = draft.groups_of(CF);
    let mut fields = number_fields(draft);
    if footings.is_empty() || fields.is_empty() {
        return;
    }
    // Few fields, so that they meet again.
    rng.shuffle(&mut fields);
    fields.truncate(rng.between(1, 3));
    for _ in 0..rng.between(2, 12) {
        let group = rng.pick(&footings);
        let reset = draft.groups[group].level;
        draft.counters.push(Count { group: group as u16, reset, addends: Vec::new() });
    }
    arrange_counters(rng, draft);
    for counter in 0..draft.counters.len() {
        draft.counters[counter].addends = addends(rng, draft, counter, &fields);
    }
    add_running_totals(rng, draft);
    if rng.chance(OUTSIDE) {
        leave_the_condition(rng, draft);
    }
}

/// Whether a counter adds another.
pub fn feeds(draft: &Draft) -> bool {
    (0..draft.counters.len()).any(|counter| is_fed_on(draft, counter))
}

/// Whether another counter adds this one.
fn is_fed_on(draft: &Draft, counter: usize) -> bool {
    let mut addends = draft.counters.iter().flat_map(|other| &other.addends);
    addends.any(|addend| addend.kind == ADD_COUNTER && addend.index as usize == counter)
}

/// Up to two of the fields, up to three counters where there are any to add; one of either at least.
fn addends(rng: &mut Rng, draft: &Draft, counter: usize, fields: &[u16]) -> Vec<Addend> {
    let mut fields = fields.to_vec();
    let mut counters = counters_to_add(draft, counter);
    rng.shuffle(&mut fields);
    rng.shuffle(&mut counters);
    let (most_fields, most_counters) = match rng.below(10) {
        0..=2 => (2, 0),
        3..=6 if !counters.is_empty() => (0, 3),
        _ => (1, 2),
    };
    fields.truncate(rng.between(most_fields.min(1), most_fields));
    counters.truncate(rng.between(most_counters.min(1), most_counters));
    let mut addends = Vec::new();
    for index in fields {
        addends.push(Addend { kind: ADD_FIELD, index, mask: mask(rng, draft.details()) });
    }
    addends.extend(counters.into_iter().map(|index| Addend { kind: ADD_COUNTER, index, mask: 0 }));
    rng.shuffle(&mut addends);
    addends
}

/// Some of the counters that feed nobody get a senior reset level, which may be FINAL's.
fn add_running_totals(rng: &mut Rng, draft: &mut Draft) {
    for counter in 0..draft.counters.len() {
        if !is_fed_on(draft, counter) && rng.chance(50) {
            draft.counters[counter].reset = rng.number(0, draft.counter_level(counter));
        }
    }
}

/// One counter that feeds another gets a senior reset level, if there is one that can.
fn leave_the_condition(rng: &mut Rng, draft: &mut Draft) {
    let may = |&c: &usize| is_fed_on(draft, c) && draft.counter_level(c) > 0;
    let able: Vec<usize> = (0..draft.counters.len()).filter(may).collect();
    if let Some(counter) = rng.maybe(&able) {
        draft.counters[counter].reset = rng.number(0, draft.counter_level(counter) - 1);
    }
}
