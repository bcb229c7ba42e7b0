//! What descriptions and calls have that should be met: the names, and who has them.

use super::draft::{Block, Draft, Section};
use super::sequence::{Call, Step, MANNERS};
use super::shown::{self, Shown};
use super::signs::{self, Turned};
use super::states::{DAMAGES, KEPT_RECORD};
use super::{broken, keep, play, rows, rule_9, sample, walk};
use crate::description::{
    Field, ADD_COUNTER, ADD_FIELD, CF, CH, DE, FIELD, FINAL, LINE_ABSOLUTE, LINE_COUNTER, LINE_NEXT_PAGE,
    LINE_RELATIVE, NUMBER, PAGE_COUNTER, PF, PH, RF, RH, SUM, TEXT,
};
use crate::report::Answer;
use crate::state::{RUNNING, STARTED};

const TYPES: [&str; 7] = ["RH", "PH", "CH", "DE", "CF", "PF", "RF"];
const FIRST_LINES: [&str; 3] = ["absolute", "next page", "relative"];
const NEXT_GROUPS: [&str; 4] = ["none", "absolute", "relative", "next page"];
const SOURCES: [&str; 5] = ["literal", "field", "page counter", "line counter", "sum"];
const LANDINGS: [&str; 4] = ["same page", "next page", "next page, saved line", "two pages"];
const SECTION_NAMES: [&str; 9] =
    ["fields", "controls", "groups", "lines", "items", "counters", "addends", "literals", "pictures"];

/// Features that stand alone.
const SINGLE: [&str; 55] = [
    "text of 64",
    "number of 18",
    "FINAL",
    "text control",
    "number control",
    "sixteen lines",
    "first integer of 999",
    "step of 99",
    "next group of 999",
    "decimals",
    "four decimals",
    "decimals one below the width",
    "sum with decimals",
    "indicate",
    "reset level above the group's",
    "reset level FINAL",
    "eight addends",
    "mask of some details",
    "crossfoot",
    "roll-up",
    "roll-up over a level",
    "roll-up of a later counter",
    "PH below RH, absolute",
    "PH below RH, relative",
    "RF below PF, absolute",
    "RF below PF, relative",
    "odd number of literals",
    "W 1",
    "W 132",
    "R 1",
    "R 256",
    "P 1",
    "P 999",
    "H, FD, LD, FT and P the same",
    "step that never fits",
    "as long as its part of the page",
    "first GENERATE",
    "GENERATE without a break",
    "GENERATE on a page not seen",
    "zeros of both signs",
    "saved line set",
    "call without lines",
    "no body group with lines due",
    "TERMINATE when started",
    "TERMINATE with RF on its own page",
    "indicated item shown by a page change alone",
    "indicated item shown by two page changes alone",
    "indicated item shown without a break or a page change",
    "indicated item not shown",
    "other detail's flag set by a page change alone",
    "detail without lines after a page change",
    "TERMINATE sets a flag by a footing's page change alone",
    "TERMINATE sets a flag by RF's own page alone",
    "TERMINATE sets a flag by both",
    "TERMINATE leaves a flag clear",
];

/// What should be met of numbers printed through pictures.
const SHOWN: [&str; 29] = [
    "picture: Z hides a zero",
    "picture: * hides a zero",
    "picture: Z hides a comma",
    "picture: * hides a comma",
    "picture: comma shown, fill Z",
    "picture: comma shown, fill *",
    "picture: comma shown, 9s alone",
    "picture: lone 0 under Z",
    "picture: lone 0 under *",
    "picture: zero under 9s",
    "picture: CR shown",
    "picture: CR blank",
    "picture: - shown",
    "picture: - blank",
    "picture: -0 is not negative",
    "picture: blank for a plus",
    "picture: blank for a plus, CR or - blank",
    "picture: negative without a sign",
    "picture: too wide",
    "picture: too wide by one digit",
    "picture: as wide as it goes",
    "picture: too wide and negative",
    "picture: sum refused",
    "picture: sum shown",
    "picture: no place before the point",
    "picture: 24 characters",
    "picture: more than 18 places",
    "picture: page counter",
    "picture: line counter",
];

/// What should be met of numbers that have a blank for a plus.
const BLANKS: [&str; 14] = [
    "blank for a plus: control",
    "blank for a plus: added",
    "blank for a plus: printed",
    "blank for a plus: in no use",
    "blank for a plus: zero",
    "blank for a plus: width 2",
    "blank for a plus: width 18",
    "blank for a plus: all of several numbers",
    "blank for a plus: first GENERATE keeps it",
    "blank for a plus: break keeps it",
    "blank for a plus: in the kept record",
    "blank for a plus: printed from the kept record",
    "blank for a plus: before the field of refusal 6",
    "break below a control of another sign",
];

/// Often enough, in a run of the usual amounts, for what brought.
const OFTEN: u64 = 100;

/// Faults of D1 that R-4 brought or moved.
const FAULTS_OF_VERSIONS: [&str; 7] = [
    "D1 version 0",
    "D1 version 3",
    "D1 version 65535",
    "D1 the other version",
    "D1 picture section start",
    "D1 version 2 in fewer than 52 bytes",
    "D1 65 pictures",
];

/// How often each name should be met: the names that should be met more than once.
pub fn wanted_often() -> Vec<(String, u64)> {
    let faults = rule_9::names().into_iter().chain(FAULTS_OF_VERSIONS);
    let mut names: Vec<String> = faults.map(|name| format!("description: {name}")).collect();
    names.extend(SHOWN.map(String::from));
    names.extend((0..=4).map(decimals_name));
    names.extend((1..=2).map(version_name));
    names.extend(BLANKS.map(String::from));
    names.extend(signs::all_turned().iter().map(Turned::name));
    let malformed = signs::NEAR.map(|form| (malformed_name("refusal 6", form), OFTEN / 4));
    names.into_iter().map(|name| (name, OFTEN)).chain(malformed).collect()
}

fn decimals_name(decimals: u16) -> String {
    format!("picture: {decimals} decimals")
}

fn version_name(version: u16) -> String {
    format!("version {version}")
}

fn blank_name(field: usize) -> String {
    format!("blank for a plus: field {field}")
}

fn malformed_name(place: &str, form: &str) -> String {
    format!("{place}: number with {form}")
}

/// Names of all that should be met.
pub fn wanted() -> Vec<String> {
    let mut names: Vec<String> = SINGLE.map(String::from).to_vec();
    names.extend(broken::names().iter().chain(&sample::NAMES).map(|name| format!("description: {name}")));
    names.extend(MANNERS.iter().chain(&DAMAGES).map(|name| format!("step: {name}")));
    names.extend((1..=9).map(|rule| format!("refusal 1 with {rule}")));
    names.extend((0..=10).chain([31]).map(|field| format!("refusal 6 with {field}")));
    names.extend((0..=10).chain([31]).map(blank_name));
    names.extend(signs::NEAR.map(|form| malformed_name(KEPT_RECORD, form)));
    names.extend((0..8).map(|level| format!("break at level {level}")));
    names.extend(SECTION_NAMES.map(|section| format!("full section: {section}")));
    names.extend(SECTION_NAMES.iter().filter(|&&it| it != "groups").map(|it| format!("empty section: {it}")));
    names.extend((1..=8).map(|details| format!("details: {details}")));
    names.extend((0..=8).map(|controls| format!("controls: {controls}")));
    names.extend((0..7).flat_map(wanted_of));
    names.extend([CF, CH, DE].map(turned_name));
    names.extend(wanted_often().into_iter().map(|(name, _)| name));
    names
}

/// What should be met of a group type.
fn wanted_of(kind: u16) -> Vec<String> {
    let mut names = vec![lineless_name(kind)];
    let first_kinds: &[u16] = match kind {
        PF => &[LINE_ABSOLUTE],
        RH | PH => &[LINE_ABSOLUTE, LINE_RELATIVE],
        _ => &[LINE_ABSOLUTE, LINE_NEXT_PAGE, LINE_RELATIVE],
    };
    names.extend(first_kinds.iter().map(|&first| first_name(kind, first)));
    let sources = if kind == CF { 0..5 } else { 0..4 };
    names.extend(sources.map(|source| source_name(kind, source)));
    if matches!(kind, CH | DE | CF) {
        names.extend((0..4).map(|next| next_name(kind, next)));
        for landing in LANDINGS {
            names.extend((0..3).map(|first| landing_name(kind, first, landing)));
        }
    }
    names
}

fn type_name(kind: u16) -> &'static str {
    TYPES[kind as usize]
}

fn lineless_name(kind: u16) -> String {
    format!("{} without lines", type_name(kind))
}

fn first_name(kind: u16, first: u16) -> String {
    format!("{} first line {}", type_name(kind), FIRST_LINES[first as usize])
}

fn source_name(kind: u16, source: u16) -> String {
    format!("{} item {}", type_name(kind), SOURCES[source as usize])
}

fn next_name(kind: u16, next: u16) -> String {
    format!("{} next group {}", type_name(kind), NEXT_GROUPS[next as usize])
}

fn landing_name(kind: u16, first: u16, landing: &str) -> String {
    format!("{} {} lands: {landing}", type_name(kind), FIRST_LINES[first as usize])
}

fn turned_name(kind: u16) -> String {
    format!("indicated item after a page change by {}", type_name(kind))
}

/// The names whose condition holds.
fn holding(list: &[(bool, &str)]) -> Vec<String> {
    list.iter().filter(|(holds, _)| *holds).map(|(_, name)| name.to_string()).collect()
}

// ---- descriptions

/// Features of an accepted description; one that is there twice is named twice.
pub fn of_description(draft: &Draft) -> Vec<String> {
    let mut names = section_features(draft);
    names.push(version_name(draft.layout.version));
    names.extend(page_features(draft));
    names.extend(field_features(draft));
    names.extend(draft.groups.iter().flat_map(|group| group_features(draft, group)));
    names.extend(heading_features(draft));
    names.extend(item_features(draft));
    names.extend((0..draft.counters.len()).flat_map(|c| counter_features(draft, c)));
    names
}

fn section_features(draft: &Draft) -> Vec<String> {
    let mut names = holding(&[(draft.literals.len() % 2 == 1, "odd number of literals")]);
    for &section in draft.sections() {
        // Groups cannot pass 28: four, two a level, eight details.
        let full = if section == Section::Groups { 28 } else { draft.limit(section) };
        let name = SECTION_NAMES[section as usize];
        match draft.entry_count(section) {
            0 => names.push(format!("empty section: {name}")),
            count if count == full => names.push(format!("full section: {name}")),
            _ => {}
        }
    }
    names
}

fn page_features(draft: &Draft) -> Vec<String> {
    let page = &draft.page;
    holding(&[
        (draft.width == 1, "W 1"),
        (draft.width == 132, "W 132"),
        (draft.record == 1, "R 1"),
        (draft.record == 256, "R 256"),
        (page.p == 1, "P 1"),
        (page.p == 999, "P 999"),
        (page.h == page.p, "H, FD, LD, FT and P the same"),
    ])
}

fn field_features(draft: &Draft) -> Vec<String> {
    let fields = draft.control_fields();
    let any = |kind: u16| fields.iter().any(|&f| draft.fields[f as usize].kind == kind);
    let any_of = |kind: u16, width: u16| draft.fields.iter().any(|f| f.kind == kind && f.width == width);
    let mut names = holding(&[
        (any_of(TEXT, 64), "text of 64"),
        (any_of(NUMBER, 18), "number of 18"),
        (draft.controls.first() == Some(&FINAL), "FINAL"),
        (any(TEXT), "text control"),
        (any(NUMBER), "number control"),
    ]);
    names.push(format!("details: {}", draft.details()));
    names.push(format!("controls: {}", draft.controls.len()));
    names
}

fn group_features(draft: &Draft, group: &Block) -> Vec<String> {
    let kind = group.kind;
    let mut names = match group.first_kind() {
        None => vec![lineless_name(kind)],
        Some(first) => vec![first_name(kind, first)],
    };
    if group.is_body() {
        names.push(next_name(kind, group.next));
    }
    if group.is_body() && !group.lines.is_empty() {
        let (top, low) = draft.window(kind);
        names.extend(holding(&[
            (group.lines.len() == 16, "sixteen lines"),
            (group.lines[0].integer == 999, "first integer of 999"),
            (group.lines[1..].iter().any(|line| line.integer == 99), "step of 99"),
            (group.integer == 999, "next group of 999"),
            (group.lines[0].integer > low, "step that never fits"),
            (group.span() > 0 && group.span() == low - top, "as long as its part of the page"),
        ]));
    }
    names
}

/// PH below an RH with lines, RF below a PF with lines.
fn heading_features(draft: &Draft) -> Vec<String> {
    let below = |upper: u16, lower: u16, first: u16| {
        let lower = draft.printed(lower).and_then(Block::first_kind);
        draft.printed(upper).is_some() && lower == Some(first)
    };
    holding(&[
        (below(RH, PH, LINE_ABSOLUTE), "PH below RH, absolute"),
        (below(RH, PH, LINE_RELATIVE), "PH below RH, relative"),
        (below(PF, RF, LINE_ABSOLUTE), "RF below PF, absolute"),
        (below(PF, RF, LINE_RELATIVE), "RF below PF, relative"),
    ])
}

fn item_features(draft: &Draft) -> Vec<String> {
    let mut names = Vec::new();
    for place in draft.item_places() {
        let item = place.item;
        names.push(source_name(draft.groups[place.group].kind, item.source));
        names.extend(holding(&[
            (item.decimals > 0 && item.source == FIELD, "decimals"),
            (item.decimals == 4, "four decimals"),
            (item.decimals > 0 && item.decimals + 1 == item.width, "decimals one below the width"),
            (item.decimals > 0 && item.source == SUM, "sum with decimals"),
            (item.indicate == 1, "indicate"),
        ]));
    }
    names
}

fn counter_features(draft: &Draft, c: usize) -> Vec<String> {
    let counter = &draft.counters[c];
    let level = draft.counter_level(c);
    let all = (1 << draft.details()) - 1;
    let mut names = holding(&[
        (counter.reset < level, "reset level above the group's"),
        (counter.addends.len() == 8, "eight addends"),
        (draft.controls[counter.reset as usize] == FINAL, "reset level FINAL"),
    ]);
    for addend in &counter.addends {
        names.extend(holding(&[(addend.kind == ADD_FIELD && addend.mask != all, "mask of some details")]));
        if addend.kind == ADD_COUNTER {
            let other = addend.index as usize;
            let junior = draft.counter_level(other);
            names.extend(holding(&[
                (junior == level, "crossfoot"),
                (junior == level + 1, "roll-up"),
                (junior > level + 1, "roll-up over a level"),
                (junior > level && other > c, "roll-up of a later counter"),
            ]));
        }
    }
    names
}

// ---- calls

/// Features of an accepted call.
pub fn of_call(draft: &Draft, step: &Step, answer: &Answer) -> Vec<String> {
    let started = step.state.phase == STARTED;
    let mut names = match &step.call {
        Call::Initiate => return Vec::new(),
        Call::Generate { .. } if started => holding(&[(true, "first GENERATE")]),
        Call::Generate { record, .. } => row_features(draft, step, record),
        Call::Terminate => holding(&[
            (started, "TERMINATE when started"),
            (!started && walk::own_page(draft), "TERMINATE with RF on its own page"),
        ]),
    };
    let saved = answer.state.saved;
    names.extend(holding(&[
        (answer.count == 0, "call without lines"),
        (saved != 0 && saved != step.state.saved, "saved line set"),
    ]));
    names.extend(landing(draft, step, answer));
    names.extend(picture_features(draft, step));
    names.extend(blank_features(draft, step));
    names.extend(match walk::detail(draft, step) {
        Some(detail) => indicate_features(draft, step, answer, detail),
        None => end_features(draft, step, answer),
    });
    names
}

/// What a row's detail shows of its indicated items, and why.
fn indicate_features(draft: &Draft, step: &Step, answer: &Answer, detail: &Block) -> Vec<String> {
    let Call::Generate { d, .. } = step.call else { return Vec::new() };
    let (before, page) = (step.state.flags, answer.state.page);
    let turns = page.saturating_sub(step.state.page);
    let shows = detail.indicates() && walk::flags(draft, step, page)[d as usize] == 1;
    let stays = !walk::begins(draft, step);
    let was_clear = before[d as usize] == 0;
    let mut others = draft.groups_of(DE).into_iter().zip(before).enumerate();
    let other_clear =
        others.any(|(other, (g, flag))| other != d as usize && flag == 0 && draft.groups[g].indicates());
    let mut names = holding(&[
        (shows && stays && was_clear && turns == 1, "indicated item shown by a page change alone"),
        (shows && stays && was_clear && turns == 2, "indicated item shown by two page changes alone"),
        (shows && stays && turns == 0, "indicated item shown without a break or a page change"),
        (detail.indicates() && !shows, "indicated item not shown"),
        (stays && turns > 0 && other_clear, "other detail's flag set by a page change alone"),
        (turns > 0 && detail.lines.is_empty(), "detail without lines after a page change"),
    ]);
    if shows {
        let turned = turned(draft, step, answer);
        names.extend([CF, CH, DE].into_iter().filter(|kind| turned.contains(kind)).map(turned_name));
    }
    names
}

/// What TERMINATE leaves of the flags, where the description has a use for them.
fn end_features(draft: &Draft, step: &Step, answer: &Answer) -> Vec<String> {
    let clear = step.state.flags[..draft.details()].contains(&0);
    if step.state.phase == STARTED || !clear || !draft.groups.iter().any(Block::indicates) {
        return Vec::new();
    }
    let turned = turned(draft, step, answer);
    let any = |kind: u16| turned.contains(&kind);
    holding(&[
        (any(CF) && !any(RF), "TERMINATE sets a flag by a footing's page change alone"),
        (any(RF) && !any(CF), "TERMINATE sets a flag by RF's own page alone"),
        (any(RF) && any(CF), "TERMINATE sets a flag by both"),
        (turned.is_empty(), "TERMINATE leaves a flag clear"),
    ])
}

/// The types of the groups that an accepted call changed the page for, found from the lines it prints.
fn turned(draft: &Draft, step: &Step, answer: &Answer) -> Vec<u16> {
    if answer.state.page == step.state.page {
        return Vec::new();
    }
    let (own, output) = play(&draft.bytes(), step);
    let walked =
        keep::places(draft, &output[..own.count]).and_then(|places| walk::walk(draft, step, &places));
    walked.map_or(Vec::new(), |walked| walked.turned)
}

/// What an accepted call's numbers show through their pictures, each name once for each number.
fn picture_features(draft: &Draft, step: &Step) -> Vec<String> {
    if draft.pictures.is_empty() {
        return Vec::new();
    }
    let (own, output) = play(&draft.bytes(), step);
    let printed = &output[..own.count];
    let walked = keep::places(draft, printed).and_then(|places| walk::walk(draft, step, &places));
    let rows = walked.map_or(Vec::new(), |walked| walked.rows);
    let shown = shown::all(draft, step, own.state.page, &rows, printed);
    shown.iter().flat_map(|shown| shown_features(shown).into_iter().chain(value_features(shown))).collect()
}

/// What stands there, whatever the number.
fn shown_features(shown: &Shown) -> Vec<String> {
    let (fill, source) = (shown.fill(), shown.item.source);
    let mut names = holding(&[
        (shown.picture[0] == b'.', "picture: no place before the point"),
        (shown.picture.len() == 24, "picture: 24 characters"),
        (shown.places() > 18, "picture: more than 18 places"),
        (source == PAGE_COUNTER, "picture: page counter"),
        (source == LINE_COUNTER, "picture: line counter"),
    ]);
    names.push(decimals_name(shown.item.decimals));
    if shown.is_starred() {
        let hides_all = shown.picture.iter().all(|byte| b"*,".contains(byte));
        names.extend(holding(&[(source == SUM && !hides_all, "picture: sum refused")]));
        return names;
    }
    let any = |place: u8, byte: u8| shown.characters().any(|pair| pair == (byte, place));
    let sign = &shown.part[shown.part.len() - shown.sign().len()..];
    let sign_shows = sign == shown.sign().as_bytes();
    names.extend(holding(&[
        (any(b'Z', b' '), "picture: Z hides a zero"),
        (any(b'*', b'*'), "picture: * hides a zero"),
        (any(b',', b' '), "picture: Z hides a comma"),
        (any(b',', b'*'), "picture: * hides a comma"),
        (any(b',', b',') && fill == b'Z', "picture: comma shown, fill Z"),
        (any(b',', b',') && fill == b'*', "picture: comma shown, fill *"),
        (any(b',', b',') && fill == b'9', "picture: comma shown, 9s alone"),
        (shown.sign() == "CR" && sign_shows, "picture: CR shown"),
        (shown.sign() == "CR" && !sign_shows, "picture: CR blank"),
        (shown.sign() == "-" && sign_shows, "picture: - shown"),
        (shown.sign() == "-" && !sign_shows, "picture: - blank"),
        (source == SUM, "picture: sum shown"),
    ]));
    names
}

/// What is met of a known number.
fn value_features(shown: &Shown) -> Vec<String> {
    let Some(value) = shown.value else { return Vec::new() };
    let digits = value.unsigned_abs().checked_ilog10().map_or(0, |log| log + 1);
    let has_9 = shown.picture.contains(&b'9');
    let is_wide = shown.is_too_wide(value);
    let is_signed = !shown.sign().is_empty();
    holding(&[
        (value == 0 && !has_9 && shown.fill() == b'Z', "picture: lone 0 under Z"),
        (value == 0 && !has_9 && shown.fill() == b'*', "picture: lone 0 under *"),
        (value == 0 && has_9, "picture: zero under 9s"),
        (value == 0 && shown.field_sign == Some(b'-') && is_signed, "picture: -0 is not negative"),
        (shown.field_sign == Some(b' '), "picture: blank for a plus"),
        (shown.field_sign == Some(b' ') && is_signed, "picture: blank for a plus, CR or - blank"),
        (value < 0 && !is_signed && !is_wide, "picture: negative without a sign"),
        (is_wide, "picture: too wide"),
        (digits == shown.places() + 1, "picture: too wide by one digit"),
        (digits == shown.places(), "picture: as wide as it goes"),
        (is_wide && value < 0 && is_signed, "picture: too wide and negative"),
    ])
}

/// Features of a later row.
fn row_features(draft: &Draft, step: &Step, record: &[u8]) -> Vec<String> {
    let kept = &step.state.kept[..record.len()];
    let level = rows::break_level(draft, kept, record);
    let all = draft.controls.len();
    let looked_at = level.map_or(all, |level| level + 1);
    let turned = signs::turned(draft, looked_at, kept, record);
    let zeros_differ = turned.iter().any(Turned::is_negative_zero);
    let above = level.is_some_and(|level| !signs::turned(draft, level, kept, record).is_empty());
    let mut names = holding(&[
        (level.is_none(), "GENERATE without a break"),
        (level.is_none() && zeros_differ, "zeros of both signs"),
        (above, "break below a control of another sign"),
        (step.state.seen == 0, "GENERATE on a page not seen"),
    ]);
    names.extend(level.map(|level| format!("break at level {level}")));
    names.extend(turned.iter().map(Turned::name));
    names
}

/// Blanks taken as plus in the record in hand and in the kept one.
fn blank_features(draft: &Draft, step: &Step) -> Vec<String> {
    let due = walk::due(draft, step);
    let (footings, others): (Vec<&Block>, Vec<&Block>) = due.iter().partition(|group| group.kind == CF);
    let mut names = match &step.call {
        Call::Generate { d, record } => {
            let mut names = blanks_in_hand(draft, step, record);
            let blanks = signs::blanks(draft, record);
            names.extend(blanks.into_iter().flat_map(|field| blank_uses(draft, *d, &others, field, record)));
            names
        }
        _ => Vec::new(),
    };
    if step.state.phase == RUNNING {
        let blanks = signs::blanks(draft, &step.state.kept);
        let is_shown = blanks.iter().any(|&field| signs::is_shown(&footings, field));
        names.extend(holding(&[
            (!blanks.is_empty(), "blank for a plus: in the kept record"),
            (is_shown, "blank for a plus: printed from the kept record"),
        ]));
    }
    names
}

/// Of all the blanks of a record in hand.
fn blanks_in_hand(draft: &Draft, step: &Step, record: &[u8]) -> Vec<String> {
    let count = signs::blanks(draft, record).len();
    let is_first = step.state.phase == STARTED;
    let keeps = count > 0 && walk::begins(draft, step);
    holding(&[
        (count > 1 && count == signs::numbers(draft).len(), "blank for a plus: all of several numbers"),
        (keeps && is_first, "blank for a plus: first GENERATE keeps it"),
        (keeps && !is_first, "blank for a plus: break keeps it"),
    ])
}

/// Of one of them: what its field is used for, by the groups that read the record in hand and by the sums.
fn blank_uses(draft: &Draft, d: u32, groups: &[&Block], field: usize, record: &[u8]) -> Vec<String> {
    let Field { width, .. } = draft.fields[field];
    let is_control = draft.control_fields().contains(&(field as u16));
    let is_added = signs::is_added(draft, d, field);
    let is_shown = signs::is_shown(groups, field);
    let is_zero = rows::has_digits_of_zero(rows::bytes_of(draft.fields[field], record));
    let mut names = holding(&[
        (is_control, "blank for a plus: control"),
        (is_added, "blank for a plus: added"),
        (is_shown, "blank for a plus: printed"),
        (!is_control && !is_added && !is_shown, "blank for a plus: in no use"),
        (is_zero, "blank for a plus: zero"),
        (width == 2, "blank for a plus: width 2"),
        (width == 18, "blank for a plus: width 18"),
    ]);
    names.push(blank_name(field));
    names
}

/// What a refused record has in its first malformed field, where that is a number.
pub fn of_refusal_6(draft: &Draft, step: &Step, field: u32) -> Vec<String> {
    let Call::Generate { record, .. } = &step.call else { return Vec::new() };
    let field = field as usize;
    let behind = signs::blanks(draft, record).iter().any(|&blank| blank < field);
    let mut names = holding(&[(behind, "blank for a plus: before the field of refusal 6")]);
    names.extend(malformed_number(draft, "refusal 6", field, record));
    names
}

/// The same of a state whose kept record is damaged.
pub fn of_refusal_2(draft: &Draft, step: &Step) -> Option<String> {
    let kept = &step.state.kept[..draft.record as usize];
    let field = rows::first_malformed(draft, kept).filter(|_| step.name == KEPT_RECORD)?;
    malformed_number(draft, KEPT_RECORD, field as usize, kept)
}

fn malformed_number(draft: &Draft, place: &str, field: usize, record: &[u8]) -> Option<String> {
    let field = *draft.fields.get(field).filter(|field| field.kind == NUMBER)?;
    signs::near(rows::bytes_of(field, record)).map(|form| malformed_name(place, form))
}

/// Where the only body group with lines landed, if just one was due.
fn landing(draft: &Draft, step: &Step, answer: &Answer) -> Option<String> {
    let due = walk::due(draft, step);
    let [group] = due.as_slice() else {
        return due.is_empty().then(|| "no body group with lines due".to_string());
    };
    let own_page = step.call == Call::Terminate && walk::own_page(draft);
    let turned = answer.state.page.saturating_sub(step.state.page + u32::from(own_page));
    let landing = match turned {
        0 => LANDINGS[0],
        1 if step.state.saved == 0 => LANDINGS[1],
        1 => LANDINGS[2],
        _ => LANDINGS[3],
    };
    Some(landing_name(group.kind, group.first_kind()?, landing))
}
