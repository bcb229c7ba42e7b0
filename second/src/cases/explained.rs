//! R-6 by chance: sequences from a fresh state whose every footing is explained from the rows, and the explained totals
//! compared with the sums that it shows.

use std::collections::BTreeMap;

use super::draft::Draft;
use super::rng::Rng;
use super::sequence::{Call, Sequence, Step};
use super::{outline, play, valid, Case};
use crate::description::{Description, CF, FINAL, SUM};
use crate::explain::{self, Explainer, Explanation, Route, Row};
use crate::report::Answer;
use crate::state::RUNNING;
use crate::{record, turns};

/// What should be met, and how often at least in a run of the usual amount.
const WANTED: [(&str, u64); 40] = [
    ("routes: two or more", 1000),
    ("routes: two or more from one field", 1000),
    ("routes: three or more from one field", 200),
    ("routes: two of one field by masks that differ", 100),
    ("routes: crossfoot", 1000),
    ("routes: crossfoot of a crossfoot", 100),
    ("routes: roll-up over one level", 1000),
    ("routes: roll-up over several levels at once", 500),
    ("routes: fed over two levels", 1000),
    ("routes: fed over three levels", 100),
    ("routes: crossfoot, then roll-up", 500),
    ("routes: roll-up, then crossfoot", 500),
    ("routes: own field and the same by a counter", 200),
    ("routes: by an earlier counter", 1000),
    ("routes: by a later counter", 1000),
    ("reset: by an earlier row", 1000),
    ("reset: by a break above its level", 500),
    ("reset: not yet, its footing's first turn", 1000),
    ("reset: not yet, its footing not for the first time", 500),
    ("reset: a running total, its footing since the reset", 100),
    ("reset: level FINAL on a footing below", 100),
    ("reset: level FINAL, its footing not for the first time", 100),
    ("reset: footing of FINAL", 200),
    ("rows: the one whose call reset it, not 0", 1000),
    ("rows: one alone", 500),
    ("rows: ten or more", 500),
    ("rows: one that counts twice or more", 1000),
    ("rows: one that gives two fields", 500),
    ("rows: one that no route selects, not 0", 200),
    ("rows: one that some routes select, not 0", 100),
    ("rows: a blank for a plus", 1000),
    ("rows: controls written otherwise, no break", 500),
    ("rows: none that counts", 100),
    ("rows: the call's own would count, not 0", 1000),
    ("rows: an earlier report had some", 1000),
    ("calls: one refused since the last row", 1000),
    ("calls: TERMINATE", 1000),
    ("total: 0 of amounts that are not", 100),
    ("shown on a line", 1000),
    ("footing without lines", 1000),
];

/// How often the sums of a description outside the condition are to differ from their explanation.
const WANTED_TO_DIFFER: u64 = 500;

/// A run of R-6: the counts, and what went wrong.
#[derive(Clone, Debug)]
pub struct Explained {
    /// Descriptions that keep R-6's condition, and those that do not.
    pub descriptions: [u64; 2],
    /// Of those that keep it: accepted calls, the footings explained in them, and their counters.
    pub calls: u64,
    pub footings: u64,
    pub counters: u64,
    /// Outside the condition: counters whose sum was as explained, and others.
    pub outside: [u64; 2],
    /// Features, by name.
    pub reached: BTreeMap<&'static str, u64>,
    /// Explanations that differ from the sums, by the seeds of their cases.
    pub wrong: Vec<String>,
}

/// The most wrong answers that are told.
const TOLD: usize = 10;

/// A description whose counters feed each other; most keep R-6's condition.
pub fn summing_description(rng: &mut Rng) -> Vec<u8> {
    valid::summing(rng).bytes()
}

/// The case of a seed for R-6: 20 to 120 calls, those it goes on from a run from a fresh state.
pub fn explained_case(seed: u64) -> Case {
    let mut rng = Rng::new(seed);
    let desc = summing_description(&mut rng);
    let calls = rng.between(20, 120);
    let steps = Sequence::from_fresh(&mut rng, Ok(Draft::read(&desc)), calls);
    Case { seed, desc, steps }
}

impl Explained {
    /// Plays cases until so many footings are explained under descriptions that keep the condition.
    pub fn run(seed: u64, footings: u64) -> Explained {
        let mut rng = Rng::new(seed);
        let mut run = Explained {
            descriptions: [0; 2],
            calls: 0,
            footings: 0,
            counters: 0,
            outside: [0; 2],
            reached: WANTED.iter().map(|&(name, _)| (name, 0)).collect(),
            wrong: Vec::new(),
        };
        // A case explains about twenty footings. Where something is wrong, the run ends all the same.
        let mut cases = 0;
        while run.footings < footings && cases < footings && run.wrong.len() < TOLD {
            run.play(explained_case(rng.draw()));
            cases += 1;
        }
        if run.footings < footings {
            run.wrong.push(format!("{} footings explained, not {footings}", run.footings));
        }
        run
    }

    /// What was not reached as often as it should be.
    pub fn missing(&self) -> Vec<String> {
        let tell = |name: &str, times: u64, often: u64| {
            (times < often).then(|| format!("R-6, {name}: {times} times, not {often}"))
        };
        let features = WANTED.iter().filter_map(|&(name, often)| tell(name, self.reached[name], often));
        features.chain(tell("outside its condition, differs", self.outside[1], WANTED_TO_DIFFER)).collect()
    }

    /// A report to read, the features in short or one by one.
    pub fn report(&self, all: bool) -> String {
        let [keep, outside] = self.descriptions;
        let mut text =
            format!("R-6           {} footings explained, {} counters", self.footings, self.counters);
        text += &format!(", in {} calls of {keep} descriptions\n", self.calls);
        let [same, differ] = self.outside;
        text += &format!(
            "  outside its condition: {outside} descriptions, {differ} counters differ of {}\n",
            same + differ
        );
        for (name, times) in self.reached.iter().filter(|_| all) {
            text += &format!("  {times:>9}  {name}\n");
        }
        text
    }

    fn play(&mut self, case: Case) {
        let Case { seed, desc, mut steps } = case;
        let explainer = Explainer::new(&desc).expect("a description in order");
        let keeps = explain::keeps_condition(explainer.description());
        self.descriptions[usize::from(!keeps)] += 1;
        let mut under = Under { seed, desc, keeps, explainer, refused: false, earlier: false };
        let mut last = None;
        while let Some(step) = steps.step(last.as_ref()) {
            let (answer, output) = play(&under.desc, &step);
            if answer.number == 0 && step.goes_on() {
                self.accepted(&mut under, &step, &answer, &output);
            } else {
                under.refused |= answer.number > 0;
            }
            last = Some(answer);
        }
    }

    /// An accepted call of the run: its footings explained, then the call entered.
    fn accepted(&mut self, under: &mut Under, step: &Step, answer: &Answer, output: &[u8]) {
        let explanations = under.explainer.explain(&step.call);
        let shown = shown_sums(under.explainer.description(), step);
        if !under.keeps {
            for (explanation, &(_, sum)) in explanations.iter().zip(&shown) {
                self.outside[usize::from(explanation.total != sum)] += 1;
            }
        } else if self.compare(under, step, &explanations, &shown, &output[..answer.count]) {
            let features = explanations.iter().flat_map(|explanation| under.features(step, explanation));
            features.for_each(|name| *self.reached.get_mut(name).expect(name) += 1);
        }
        under.enter(&step.call);
    }

    /// "Then each sum, when its footing prints, equals this", number by number and byte by byte.
    fn compare(
        &mut self,
        under: &Under,
        step: &Step,
        explanations: &[Explanation],
        shown: &[(usize, i128)],
        printed: &[u8],
    ) -> bool {
        self.calls += 1;
        let totals: Vec<_> = explanations.iter().map(|e| (e.counter, e.total)).collect();
        if totals != shown {
            self.note(under, step, format!("explained {totals:?}, shown {shown:?}"));
            return false;
        }
        let mut out = vec![0; printed.len()];
        match explain::print_explained(&under.explainer, &step.state, &step.call, &mut out) {
            Some(explained) if explained.count == printed.len() && out == printed => {
                self.footings += explained.footings as u64;
                self.counters += explained.counters as u64;
                true
            }
            other => {
                self.note(under, step, format!("printed otherwise with explained totals: {other:?}"));
                false
            }
        }
    }

    fn note(&mut self, under: &Under, step: &Step, what: String) {
        if self.wrong.len() < TOLD {
            let (answer, _) = play(&under.desc, step);
            self.wrong.push(format!("{what}: {} (--explained-case {})", outline(step, &answer), under.seed));
        }
    }
}

/// The counters of the footings whose turn comes, with their sums as the footings show them.
fn shown_sums(d: &Description, step: &Step) -> Vec<(usize, i128)> {
    let mut state = step.state.clone();
    let turns = match &step.call {
        Call::Generate { d: number, record } => {
            let detail = d.detail(*number).expect("an accepted call");
            turns::of_generate(d, &mut state, *number as usize, detail, record)
        }
        Call::Terminate if step.state.phase == RUNNING => turns::of_terminate(d, &mut state),
        _ => Ok(Vec::new()),
    };
    let mut shown = Vec::new();
    for turn in turns.expect("an accepted call").iter().filter(|turn| d.groups[turn.group].kind == CF) {
        let own = (0..d.counters.len()).filter(|&c| usize::from(d.counters[c].group) == turn.group);
        shown.extend(own.map(|c| (c, i128::from(turn.sums[c]))));
    }
    shown
}

/// A case under way.
struct Under {
    seed: u64,
    desc: Vec<u8>,
    /// R-6's condition.
    keeps: bool,
    explainer: Explainer,
    /// A call was refused since the last row.
    refused: bool,
    /// An earlier report of the run had rows.
    earlier: bool,
}

impl Under {
    fn enter(&mut self, call: &Call) {
        match call {
            Call::Initiate => {}
            Call::Generate { .. } => self.refused = false,
            Call::Terminate => self.earlier |= !self.explainer.rows().is_empty(),
        }
        self.explainer.enter(call);
    }

    fn features(&self, step: &Step, explanation: &Explanation) -> Vec<&'static str> {
        let d = self.explainer.description();
        let routes = explain::routes(d, explanation.counter);
        let rows = self.explainer.rows();
        let mut features = holding(&of_routes(d, &routes));
        features.extend(holding(&of_resets(d, rows, explanation)));
        features.extend(holding(&of_shares(d, rows, &routes, explanation)));
        let is_shown = |group: usize| {
            let mut items = d.lines_of(&d.groups[group]).iter().flat_map(|line| d.items_of(line));
            items.any(|item| item.source == SUM && usize::from(item.index) == explanation.counter)
        };
        features.extend(holding(&[
            (would_count(d, &routes, &step.call), "rows: the call's own would count, not 0"),
            (self.earlier, "rows: an earlier report had some"),
            (self.refused, "calls: one refused since the last row"),
            (step.call == Call::Terminate, "calls: TERMINATE"),
            (is_shown(explanation.group), "shown on a line"),
            (d.groups[explanation.group].line_count == 0, "footing without lines"),
        ]));
        features
    }
}

type Feature = (bool, &'static str);

fn holding(features: &[Feature]) -> Vec<&'static str> {
    features.iter().filter(|(holds, _)| *holds).map(|&(_, name)| name).collect()
}

/// The steps of a route from counter to counter: how many levels up; 0 is a crossfoot.
fn steps_up(d: &Description, route: &Route) -> Vec<u16> {
    let level = |c: usize| d.groups[usize::from(d.counters[c].group)].level;
    route.counters.windows(2).map(|pair| level(pair[0]) - level(pair[1])).collect()
}

fn of_routes(d: &Description, routes: &[Route]) -> Vec<Feature> {
    let steps: Vec<Vec<u16>> = routes.iter().map(|route| steps_up(d, route)).collect();
    let in_a_row = |holds: fn(u16, u16) -> bool| {
        steps.iter().any(|steps| steps.windows(2).any(|pair| holds(pair[0], pair[1])))
    };
    let rolls = |times: usize| steps.iter().any(|steps| steps.iter().filter(|&&up| up > 0).count() >= times);
    let from_one = |times: usize| {
        routes.iter().any(|one| routes.iter().filter(|other| other.field == one.field).count() >= times)
    };
    let named = |holds: fn(usize, usize) -> bool| {
        routes.iter().any(|route| route.counters.windows(2).any(|pair| holds(pair[0], pair[1])))
    };
    let masks_differ = routes
        .iter()
        .any(|one| routes.iter().any(|other| other.field == one.field && other.mask != one.mask));
    let own = |route: &&Route| route.counters.len() == 1;
    let by_both = routes
        .iter()
        .filter(own)
        .any(|own| routes.iter().any(|route| route.field == own.field && route.counters.len() > 1));
    vec![
        (routes.len() > 1, "routes: two or more"),
        (from_one(2), "routes: two or more from one field"),
        (from_one(3), "routes: three or more from one field"),
        (masks_differ, "routes: two of one field by masks that differ"),
        (steps.concat().contains(&0), "routes: crossfoot"),
        (in_a_row(|one, two| one == 0 && two == 0), "routes: crossfoot of a crossfoot"),
        (steps.concat().contains(&1), "routes: roll-up over one level"),
        (steps.concat().iter().any(|&up| up > 1), "routes: roll-up over several levels at once"),
        (rolls(2), "routes: fed over two levels"),
        (rolls(3), "routes: fed over three levels"),
        (in_a_row(|one, two| one == 0 && two > 0), "routes: crossfoot, then roll-up"),
        (in_a_row(|one, two| one > 0 && two == 0), "routes: roll-up, then crossfoot"),
        (by_both, "routes: own field and the same by a counter"),
        (named(|from, to| from < to), "routes: by an earlier counter"),
        (named(|from, to| from > to), "routes: by a later counter"),
    ]
}

fn of_resets(d: &Description, rows: &[Row], explanation: &Explanation) -> Vec<Feature> {
    let counter = &d.counters[explanation.counter];
    let level = usize::from(d.groups[explanation.group].level);
    let reset = usize::from(counter.reset);
    let since = explanation.since;
    // Its footing had turns before this one.
    let turns_after =
        |row: usize| rows.iter().skip(row + 1).any(|row| row.break_level.is_some_and(|b| b <= level));
    let is_final = d.controls[reset] == FINAL;
    let by_senior = rows.get(since).is_some_and(|row| row.break_level.is_some_and(|b| b < level));
    vec![
        (since > 0, "reset: by an earlier row"),
        (since > 0 && by_senior, "reset: by a break above its level"),
        (since == 0 && !turns_after(0), "reset: not yet, its footing's first turn"),
        (since == 0 && turns_after(0), "reset: not yet, its footing not for the first time"),
        (since > 0 && turns_after(since), "reset: a running total, its footing since the reset"),
        (is_final && level > 0, "reset: level FINAL on a footing below"),
        (is_final && turns_after(0), "reset: level FINAL, its footing not for the first time"),
        (is_final && level == 0, "reset: footing of FINAL"),
    ]
}

fn of_shares(d: &Description, rows: &[Row], routes: &[Route], explanation: &Explanation) -> Vec<Feature> {
    let Explanation { since, shares, .. } = explanation;
    let since_then = || rows.iter().skip(*since);
    let amount =
        |route: &Route, row: &Row| record::value(record::bytes_of(&d.fields[route.field], &row.record));
    // Routes that carry an amount of the row: those that select it, and those that do not.
    let carry = |row: &Row, selected: bool| {
        routes.iter().filter(|route| amount(route, row) != 0 && route.selects(row.detail) == selected).count()
    };
    let blank = |share: &explain::Share| {
        let begins = |row: &Row| record::bytes_of(&d.fields[share.field], &row.record)[0] == b' ';
        rows.get(share.row).is_some_and(begins)
    };
    let counting: Vec<usize> = shares.iter().map(|share| share.row).collect();
    let distinct = counting.windows(2).filter(|pair| pair[0] != pair[1]).count() + counting.len().min(1);
    let differ = shares.iter().any(|share| share.amount != 0);
    vec![
        (
            *since > 0 && shares.iter().any(|share| share.row == *since && share.amount != 0),
            "rows: the one whose call reset it, not 0",
        ),
        (distinct == 1, "rows: one alone"),
        (distinct >= 10, "rows: ten or more"),
        (
            shares.iter().any(|share| share.times > 1 && share.amount != 0),
            "rows: one that counts twice or more",
        ),
        (counting.windows(2).any(|pair| pair[0] == pair[1]), "rows: one that gives two fields"),
        (
            since_then().any(|row| carry(row, true) == 0 && carry(row, false) > 0),
            "rows: one that no route selects, not 0",
        ),
        (
            since_then().any(|row| carry(row, true) > 0 && carry(row, false) > 0),
            "rows: one that some routes select, not 0",
        ),
        (shares.iter().any(|share| blank(share)), "rows: a blank for a plus"),
        (
            written_otherwise(d, rows.get(*since..).unwrap_or_default()),
            "rows: controls written otherwise, no break",
        ),
        (shares.is_empty(), "rows: none that counts"),
        (explanation.total == 0 && differ, "total: 0 of amounts that are not"),
    ]
}

/// Whether a row without a break has other bytes in a control than the row before it.
fn written_otherwise(d: &Description, rows: &[Row]) -> bool {
    let controls = || d.controls.iter().filter(|&&control| control != FINAL);
    let bytes = |row: &Row| -> Vec<u8> {
        controls().flat_map(|&f| record::bytes_of(&d.fields[usize::from(f)], &row.record).to_vec()).collect()
    };
    rows.windows(2).any(|pair| pair[1].break_level.is_none() && bytes(&pair[0]) != bytes(&pair[1]))
}

/// Whether the call's own row would count: it may not, its footings come first.
fn would_count(d: &Description, routes: &[Route], call: &Call) -> bool {
    let Call::Generate { d: number, record } = call else { return false };
    let counts = |route: &Route| record::value(record::bytes_of(&d.fields[route.field], record)) != 0;
    routes.iter().any(|route| route.selects(*number as usize) && counts(route))
}
