//! R-6, "explain a total from the rows": a footing's sums found again by brute force, from the description, the rows and
//! their breaks alone. No sum of a state is read here, and nothing of `sums` is used.
//!
//! "Each sum, when its footing prints, equals this: for every row accepted before that call, since that counter's last
//! reset (the row whose call reset it included) or INITIATE, each selected field's amount, once for each route of addends
//! leading from the field to the counter."

use crate::description::{check, Counter, Description, Line, ADD_COUNTER, ADD_FIELD, CF, FINAL};
use crate::place::{self, Landed};
use crate::print;
use crate::record;
use crate::report::{place_of, Call};
use crate::state::{sum_is_in_range, State, STARTED};
use crate::turns::{self, Turn};

// ---- the condition

/// "One description in which no counter that feeds another has a reset level senior to its own group's."
pub fn keeps_condition(d: &Description) -> bool {
    first_outside(d).is_none()
}

/// The first counter that feeds another and has a reset level senior to its own group's.
pub fn first_outside(d: &Description) -> Option<usize> {
    (0..d.counters.len()).find(|&c| feeds_another(d, c) && is_reset_later(d, &d.counters[c]))
}

/// Whether a counter is an addend of another; D8 gives every addend to a counter.
fn feeds_another(d: &Description, c: usize) -> bool {
    d.addends.iter().any(|addend| addend.kind == ADD_COUNTER && usize::from(addend.index) == c)
}

/// "A reset level senior to its own group's": a smaller one, FINAL's too.
fn is_reset_later(d: &Description, counter: &Counter) -> bool {
    counter.reset < d.groups[usize::from(counter.group)].level
}

// ---- routes

/// One "route of addends leading from the field to the counter", the whole chain.
#[derive(Clone, Debug, PartialEq, Eq)]
pub struct Route {
    pub field: usize,
    /// The field addend's mask.
    pub mask: u16,
    /// The counters it goes through: the one with the field addend first, the one asked for last.
    pub counters: Vec<usize>,
}

impl Route {
    /// "Each selected field": whether the field addend's mask has the detail.
    pub fn selects(&self, detail: usize) -> bool {
        self.mask >> detail & 1 == 1
    }
}

/// All routes to a counter: its own field addends, and every route to a counter that it adds, one step longer. By D8 a
/// counter adds only more junior ones and earlier ones of its own group, so this ends.
pub fn routes(d: &Description, counter: usize) -> Vec<Route> {
    let mut all = Vec::new();
    for addend in d.addends_of(&d.counters[counter]) {
        let index = usize::from(addend.index);
        if addend.kind == ADD_FIELD {
            all.push(Route { field: index, mask: addend.mask, counters: vec![counter] });
        } else {
            for mut route in routes(d, index) {
                route.counters.push(counter);
                all.push(route);
            }
        }
    }
    all
}

// ---- the rows of a report

/// One accepted row of the report.
#[derive(Clone, Debug, PartialEq, Eq)]
pub struct Row {
    /// Its detail number.
    pub detail: usize,
    pub record: Vec<u8>,
    /// The level at which its call broke; `None` without a break, as for the first row.
    pub break_level: Option<usize>,
}

/// What one field of one row gives to a total: its amount, so many times.
#[derive(Clone, Copy, Debug, PartialEq, Eq)]
pub struct Share {
    /// The row's index in the report, from 0.
    pub row: usize,
    pub field: usize,
    pub amount: i64,
    /// How many routes lead from the field to the counter and select the row's detail; at least 1.
    pub times: usize,
}

/// A counter's total when its footing's turn comes, and what makes it up.
#[derive(Clone, Debug, PartialEq, Eq)]
pub struct Explanation {
    pub counter: usize,
    /// Its footing's group index.
    pub group: usize,
    pub total: i128,
    /// The index of the first row since the last reset, or since INITIATE: 0.
    pub since: usize,
    /// In the order of the rows, of one row in the order of the fields.
    pub shares: Vec<Share>,
}

/// The rows of the report under way, with their breaks. It is told every accepted call, in order, and nothing else.
#[derive(Clone, Debug)]
pub struct Explainer {
    d: Description,
    rows: Vec<Row>,
}

impl Explainer {
    /// For a fresh report; `Err` with the broken rule where CHECK does not accept.
    pub fn new(desc: &[u8]) -> Result<Explainer, u8> {
        Ok(Explainer { d: check(desc)?, rows: Vec::new() })
    }

    pub fn description(&self) -> &Description {
        &self.d
    }

    /// The report's rows so far.
    pub fn rows(&self) -> &[Row] {
        &self.rows
    }

    /// Enters a call that was accepted. INITIATE begins a report without rows; TERMINATE adds none.
    pub fn enter(&mut self, call: &Call) {
        match call {
            Call::Initiate => self.rows.clear(),
            Call::Generate { d, record } => {
                let break_level = self.break_level(call);
                self.rows.push(Row { detail: *d as usize, record: record.clone(), break_level });
            }
            Call::Terminate => {}
        }
    }

    /// The level at which a call breaks, found against the row before it. "TERMINATE when started prints nothing; when
    /// running: break at level 0."
    fn break_level(&self, call: &Call) -> Option<usize> {
        let last = self.rows.last()?;
        match call {
            Call::Initiate => None,
            Call::Generate { record, .. } => record::break_level(&self.d, &last.record, record),
            Call::Terminate => Some(0),
        }
    }

    /// Before an accepted call is entered: the explanation of each counter whose footing's turn comes in it, the
    /// footings in their order ("CFs from junior up to b"), the counters of each in counter order.
    pub fn explain(&self, call: &Call) -> Vec<Explanation> {
        let b = self.break_level(call).unwrap_or(self.d.controls.len());
        let levels = (b..self.d.controls.len()).rev();
        let footings = levels.filter_map(|level| self.d.group_at(CF, level as u16));
        footings.flat_map(|group| self.explain_footing(group)).collect()
    }

    fn explain_footing(&self, group: usize) -> Vec<Explanation> {
        self.counters_of(group).map(|c| self.explain_counter(c)).collect()
    }

    /// The counters of a group, in order.
    fn counters_of(&self, group: usize) -> impl Iterator<Item = usize> + '_ {
        (0..self.d.counters.len()).filter(move |&c| usize::from(self.d.counters[c].group) == group)
    }

    fn explain_counter(&self, counter: usize) -> Explanation {
        let shares = self.shares(counter);
        let total = shares.iter().map(|share| i128::from(share.amount) * share.times as i128).sum();
        let group = usize::from(self.d.counters[counter].group);
        Explanation { counter, group, total, since: self.since(counter), shares }
    }

    /// "Since that counter's last reset (the row whose call reset it included) or INITIATE."
    fn since(&self, counter: usize) -> usize {
        let reset = |row: &Row| row.break_level.is_some_and(|b| self.resets(counter, b));
        self.rows.iter().rposition(reset).unwrap_or(0)
    }

    /// Whether a break at level `b` resets a counter: "its own counters with reset level ≥ b go to 0, except where that
    /// level is FINAL". Its footing's turn comes then: by D8 its reset level is no greater than its group's.
    fn resets(&self, counter: usize, b: usize) -> bool {
        let level = usize::from(self.d.counters[counter].reset);
        level >= b && self.d.controls[level] != FINAL
    }

    /// "Each selected field's amount, once for each route of addends leading from the field to the counter."
    fn shares(&self, counter: usize) -> Vec<Share> {
        let routes = routes(&self.d, counter);
        let mut shares = Vec::new();
        for (number, row) in self.rows.iter().enumerate().skip(self.since(counter)) {
            for (field, entry) in self.d.fields.iter().enumerate() {
                let leads = |route: &&Route| route.field == field && route.selects(row.detail);
                let times = routes.iter().filter(leads).count();
                if times > 0 {
                    let amount = record::value(record::bytes_of(entry, &row.record));
                    shares.push(Share { row: number, field, amount, times });
                }
            }
        }
        shares
    }
}

// ---- a call printed with explained totals

/// What `print_explained` has printed.
#[derive(Clone, Copy, Debug, Default, PartialEq, Eq)]
pub struct Printed {
    /// Bytes written.
    pub count: usize,
    /// Control footings with a counter whose turn came, with lines or without.
    pub footings: usize,
    /// Their counters.
    pub counters: usize,
}

/// Prints a call as `report` does, but for the sums: every footing shows its explained totals. `state` is the one the call
/// was handed, `explainer` has not entered it. `None` where the call cannot have been accepted: no such detail, another
/// length of record, no page or room left, a total that no sum can hold, or other footings due than the explained ones.
pub fn print_explained(explainer: &Explainer, state: &State, call: &Call, out: &mut [u8]) -> Option<Printed> {
    let d = &explainer.d;
    let (mut turns, next) = turns_without_sums(d, state, call)?;
    let mut printed = put_totals(explainer, call, &mut turns)?;
    let (landed, _) = place::land(d, place_of(&next), &turns).ok()?;
    printed.count = print::bytes_needed(d, &landed);
    if out.len() < printed.count {
        return None;
    }
    print::write(d, &landed, &state.kept[..usize::from(d.r)], record_of(call), out);
    Some(printed)
}

/// The line of an accepted call that prints at this page and line number, with its place among the call's lines.
pub fn line_at<'a>(
    explainer: &'a Explainer,
    state: &State,
    call: &Call,
    page: u32,
    number: u32,
) -> Option<(usize, &'a Line)> {
    let d = &explainer.d;
    let (turns, next) = turns_without_sums(d, state, call)?;
    let (landed, _) = place::land(d, place_of(&next), &turns).ok()?;
    let lines = landed.iter().flat_map(|landed| lines_of(d, landed));
    lines.enumerate().find(|(_, (at, _))| *at == (page, number)).map(|(nth, (_, line))| (nth, line))
}

/// The lines of a landed group, each with its page and line number.
fn lines_of<'a>(d: &'a Description, landed: &Landed) -> Vec<((u32, u32), &'a Line)> {
    let mut number = landed.first_line;
    let mut lines = Vec::new();
    for (nth, line) in d.lines_of(&d.groups[landed.group]).iter().enumerate() {
        if nth > 0 {
            number += u32::from(line.integer);
        }
        lines.push(((landed.page, number), line));
    }
    lines
}

/// The record in hand; TERMINATE has none.
fn record_of(call: &Call) -> &[u8] {
    match call {
        Call::Generate { record, .. } => record,
        _ => &[],
    }
}

/// The groups due in a call, and the state whose place they land from. The stored sums are put to 0 first, so that they
/// can show nowhere.
fn turns_without_sums(d: &Description, state: &State, call: &Call) -> Option<(Vec<Turn>, State)> {
    let mut next = State { sums: [0; 32], ..state.clone() };
    let turns = match call {
        Call::Initiate => Vec::new(),
        Call::Generate { record, .. } if record.len() != usize::from(d.r) => return None,
        Call::Generate { d: number, record } => {
            turns::of_generate(d, &mut next, *number as usize, d.detail(*number)?, record).ok()?
        }
        Call::Terminate if state.phase == STARTED => Vec::new(),
        Call::Terminate => turns::of_terminate(d, &mut next).ok()?,
    };
    Some((turns, next))
}

/// Gives each footing's turn its explained totals. "A sum item stands in its counter's own group" (D7), so no other group
/// shows a sum. `None` too where the footings due are not those explained: the state is of other calls.
fn put_totals(explainer: &Explainer, call: &Call, turns: &mut [Turn]) -> Option<Printed> {
    let explanations = explainer.explain(call);
    let mut printed = Printed::default();
    for turn in turns {
        let own: Vec<_> = explanations.iter().filter(|explained| explained.group == turn.group).collect();
        if own.len() != explainer.counters_of(turn.group).count() {
            return None;
        }
        for explained in &own {
            turn.sums[explained.counter] = as_sum(explained.total)?;
        }
        printed.footings += usize::from(!own.is_empty());
        printed.counters += own.len();
    }
    (printed.counters == explanations.len()).then_some(printed)
}

/// The total as a sum can hold it.
fn as_sum(total: i128) -> Option<i64> {
    i64::try_from(total).ok().filter(|&sum| sum_is_in_range(sum))
}
