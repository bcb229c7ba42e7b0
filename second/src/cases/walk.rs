//! The printed lines hold the groups that are due, in their order, each in its part of the page.

use super::draft::{Block, Draft, Row};
use super::rows;
use super::sequence::{Call, Step};
use crate::description::{CF, CH, DE, LINE_NEXT_PAGE, LINE_RELATIVE, PF, PH, RF, RH};
use crate::state::{RUNNING, STARTED};

/// Page and line of a printed line.
pub type Place = (u32, u16);

/// The body groups with lines that a call prints, in their order.
pub fn due<'a>(draft: &'a Draft, step: &Step) -> Vec<&'a Block> {
    let levels = draft.controls.len();
    let (footings, headings) = match &step.call {
        Call::Generate { .. } if step.state.phase == STARTED => (levels, 0),
        Call::Generate { record, .. } => {
            let kept = &step.state.kept[..record.len()];
            let b = rows::break_level(draft, kept, record).unwrap_or(levels);
            (b, b)
        }
        Call::Terminate if step.state.phase == RUNNING => (0, levels),
        _ => (levels, levels),
    };
    let mut due: Vec<&Block> =
        (footings..levels).rev().filter_map(|level| draft.group_at(CF, level)).collect();
    due.extend((headings..levels).filter_map(|level| draft.group_at(CH, level)));
    due.extend(detail(draft, step));
    due.retain(|group| !group.lines.is_empty());
    due
}

/// Where an accepted call's lines lead.
#[derive(Clone, Debug)]
pub struct Walked<'a> {
    /// The page they end on.
    pub page: u32,
    /// The type of the group that each page change was for; RF has the one to its own page.
    pub turned: Vec<u16>,
    /// What each line prints, with its group.
    pub rows: Vec<(&'a Block, &'a Row)>,
}

/// Follows an accepted call's lines.
pub fn walk<'a>(draft: &'a Draft, step: &Step, places: &[Place]) -> Result<Walked<'a>, String> {
    let mut walk = Walk { draft, page: step.state.page, places, turned: Vec::new(), rows: Vec::new() };
    let generate = matches!(step.call, Call::Generate { .. });
    if generate && step.state.phase == STARTED {
        walk.fixed(RH, draft.base(RH))?;
        walk.fixed(PH, draft.base(PH))?;
    }
    for group in due(draft, step) {
        walk.turn_pages(group.kind)?;
        walk.body(group)?;
    }
    if step.call == Call::Terminate && step.state.phase == RUNNING {
        walk.fixed(PF, draft.page.ft)?;
        if own_page(draft) {
            walk.next_page(RF);
        }
        walk.fixed(RF, draft.base(RF))?;
    }
    match walk.places {
        [] => Ok(Walked { page: walk.page, turned: walk.turned, rows: walk.rows }),
        _ => Err(format!("{} lines more than the groups due have", walk.places.len())),
    }
}

/// The detail that a call names.
pub fn detail<'a>(draft: &'a Draft, step: &Step) -> Option<&'a Block> {
    match step.call {
        Call::Generate { d, .. } => Some(&draft.groups[draft.groups_of(DE)[d as usize]]),
        _ => None,
    }
}

/// An accepted call's flags when its detail prints, or at its end: set by the first row, by a break and by a
/// page change to `page`.
pub fn flags(draft: &Draft, step: &Step, page: u32) -> [u8; 8] {
    let mut flags = step.state.flags;
    if begins(draft, step) || page > step.state.page {
        flags[..draft.details()].fill(1);
    }
    flags
}

/// The call is a report's first row or one with a break.
pub fn begins(draft: &Draft, step: &Step) -> bool {
    match &step.call {
        Call::Generate { record, .. } => {
            let kept = &step.state.kept[..record.len()];
            step.state.phase == STARTED || rows::break_level(draft, kept, record).is_some()
        }
        _ => false,
    }
}

/// RF begins on a page of its own.
pub fn own_page(draft: &Draft) -> bool {
    draft.printed(RF).is_some_and(|group| group.first_kind() == Some(LINE_NEXT_PAGE))
}

/// The lines still to follow, and the page they should stand on.
struct Walk<'a, 'p> {
    draft: &'a Draft,
    page: u32,
    places: &'p [Place],
    turned: Vec<u16>,
    rows: Vec<(&'a Block, &'a Row)>,
}

impl<'a> Walk<'a, '_> {
    /// Takes the lines of a group that begins at `start`.
    fn take(&mut self, group: &'a Block, start: u16) -> Result<(), String> {
        let mut line = start;
        for (nth, row) in group.lines.iter().enumerate() {
            line += if nth == 0 { 0 } else { row.integer };
            let Some((&place, rest)) = self.places.split_first() else {
                return Err(format!("a line is missing, due at {:?}", (self.page, line)));
            };
            if place != (self.page, line) {
                return Err(format!("a line at {place:?}, due at {:?}", (self.page, line)));
            }
            self.places = rest;
            self.rows.push((group, row));
        }
        Ok(())
    }

    /// Takes RH, PH, PF or RF, if it has lines; a relative one counts from `above`.
    fn fixed(&mut self, kind: u16, above: u16) -> Result<(), String> {
        match self.draft.printed(kind) {
            Some(group) => self.take(group, group.start(above)),
            None => Ok(()),
        }
    }

    fn next_page(&mut self, kind: u16) {
        self.page += 1;
        self.turned.push(kind);
    }

    /// Takes the page changes before a body group of this type, two at most.
    fn turn_pages(&mut self, kind: u16) -> Result<(), String> {
        let (ft, above) = (self.draft.page.ft, self.draft.page.h - 1);
        for _ in 0..2 {
            let turned = |place: &Place| place.0 > self.page || place.1 > ft;
            if !self.places.first().is_some_and(turned) {
                break;
            }
            self.fixed(PF, ft)?;
            self.next_page(kind);
            self.fixed(PH, above)?;
        }
        Ok(())
    }

    /// Takes a body group: at its own line, or anywhere it fits where that is relative.
    fn body(&mut self, group: &'a Block) -> Result<(), String> {
        let first = &group.lines[0];
        if first.kind != LINE_RELATIVE {
            return self.take(group, first.integer);
        }
        let (top, low) = self.draft.window(group.kind);
        let line = self.places.first().map_or(top, |place| place.1);
        if line < top || line + group.span() > low {
            return Err(format!("a body group at {line}, outside {top} to {low}"));
        }
        self.take(group, line)
    }
}
