//! Random descriptions that keep D1 to D8 and rule 9, of every version.

use super::draft::{Block, Count, Draft, Page, Row, Section};
use super::pictures;
use super::rng::Rng;
use super::summing;
use crate::builder::padded;
use crate::description::{
    Addend, Field, Item, ADD_COUNTER, ADD_FIELD, CF, CH, DE, FIELD, FINAL, LINE_ABSOLUTE, LINE_COUNTER,
    LINE_NEXT_PAGE, LINE_RELATIVE, LITERAL, NEXT_ABSOLUTE, NEXT_NONE, NEXT_PAGE, NEXT_RELATIVE, NO_PICTURE,
    NUMBER, PAGE_COUNTER, PF, PH, RF, RH, SUM, TEXT,
};
use crate::layout::{Layout, PICTURE_BYTES};
use crate::picture;

/// A random description that keeps every rule; half of them are of version 2.
pub fn draft(rng: &mut Rng) -> Draft {
    let version = rng.number(1, 2);
    build(rng, version, false)
}

/// One that is rich in everything: a long page, wide lines, all groups, many fields.
pub fn rich(rng: &mut Rng) -> Draft {
    let version = rng.number(1, 2);
    build(rng, version, true)
}

/// One of version 2.
pub fn with_pictures(rng: &mut Rng) -> Draft {
    let rich = rng.chance(10);
    build(rng, 2, rich)
}

/// One whose pages end often, for the indicate flags: a short page, several details that indicate, a footing and a
/// heading with lines, RF on a page of its own or not.
pub fn turning(rng: &mut Rng) -> Draft {
    loop {
        let draft = draft(rng);
        let has_lines = |kind: u16| draft.groups_of(kind).iter().any(|&g| !draft.groups[g].lines.is_empty());
        let indicating = draft.groups.iter().filter(|group| group.indicates()).count();
        let is_short = draft.page.ft - draft.page.fd <= 8;
        if is_short && indicating > 1 && [CF, CH, RF].into_iter().all(has_lines) {
            return draft;
        }
    }
}

/// One whose counters feed each other, for R-6: at least two footings, and a counter that adds another.
pub fn summing(rng: &mut Rng) -> Draft {
    loop {
        let version = rng.number(1, 2);
        let draft = build_with(rng, version, false, summing::add_counters);
        if draft.groups_of(CF).len() > 1 && summing::feeds(&draft) {
            return draft;
        }
    }
}

/// A rich description with `past` entries in one section beyond its limit. It keeps the rules but for that limit.
/// With none beyond it, groups stop at 28: four, two a level, eight details.
pub fn filled(rng: &mut Rng, section: Section, past: usize) -> Draft {
    loop {
        let mut draft = if section == Section::Pictures { with_pictures(rng) } else { rich(rng) };
        let count = match section {
            Section::Groups if past == 0 => 28,
            _ => draft.limit(section) + past,
        };
        fill(rng, &mut draft, section, count);
        if draft.entry_count(section) == count {
            return draft;
        }
    }
}

fn build(rng: &mut Rng, version: u16, rich: bool) -> Draft {
    build_with(rng, version, rich, add_counters)
}

fn build_with(rng: &mut Rng, version: u16, rich: bool, counters: fn(&mut Rng, &mut Draft)) -> Draft {
    let mut draft = Draft {
        layout: Layout::of(version).expect("an accepted version"),
        page: if rich { long_page(rng) } else { page(rng) },
        width: if rich { 132 } else { line_width(rng) },
        record: if rich { 256 } else { record_length(rng) },
        literals: literals(rng),
        ..Draft::default()
    };
    add_fields(rng, &mut draft, rich);
    add_controls(rng, &mut draft, rich);
    add_groups(rng, &mut draft, rich);
    add_lines(rng, &mut draft, rich);
    if rng.chance(3) {
        stretch(rng, &mut draft, 99);
    }
    counters(rng, &mut draft);
    add_items(rng, &mut draft);
    add_unused_pictures(rng, &mut draft);
    draft
}

// ---- page, widths, literals

fn page(rng: &mut Rng) -> Page {
    let p = match rng.below(100) {
        0..=59 => rng.number(5, 20),
        60..=71 => rng.number(1, 6),
        72..=87 => rng.number(20, 70),
        88..=95 => rng.number(71, 998),
        _ => 999,
    };
    if rng.chance(15) {
        return scattered_page(rng, p);
    }
    let h = 1 + rng.number(0, (p - 1).min(2));
    let fd = h + rng.number(0, (p - h).min(4));
    let ft = p - rng.number(0, (p - fd).min(4));
    let ld = ft - rng.number(0, (ft - fd).min(3));
    Page { p, h, fd, ld, ft }
}

/// Four places anywhere on the page, in order.
fn scattered_page(rng: &mut Rng, p: u16) -> Page {
    let mut places: Vec<u16> = (0..4).map(|_| rng.number(1, p)).collect();
    places.sort_unstable();
    Page { p, h: places[0], fd: places[1], ld: places[2], ft: places[3] }
}

/// Room for sixteen lines and more in every part.
fn long_page(rng: &mut Rng) -> Page {
    let h = rng.number(1, 5);
    let fd = h + rng.number(36, 60);
    let ld = fd + rng.number(20, 60);
    let ft = ld + rng.number(0, 9);
    let p = ft + rng.number(36, 60);
    Page { p, h, fd, ld, ft }
}

fn line_width(rng: &mut Rng) -> u16 {
    match rng.below(10) {
        0 => rng.number(1, 3),
        1 => 132,
        2..=6 => rng.number(8, 40),
        _ => rng.number(1, 132),
    }
}

fn record_length(rng: &mut Rng) -> u16 {
    match rng.below(10) {
        0 => rng.number(1, 3),
        1 => 256,
        2..=6 => rng.number(8, 60),
        _ => rng.number(1, 256),
    }
}

fn literals(rng: &mut Rng) -> Vec<u8> {
    let length = match rng.below(20) {
        0..=2 => 0,
        3 => 4096,
        4 => rng.between(100, 4096),
        5 => 1,
        _ => rng.between(5, 40),
    };
    (0..length).map(|_| printable(rng)).collect()
}

/// A byte 32 to 126, the ends more often than the rest.
pub fn printable(rng: &mut Rng) -> u8 {
    match rng.below(20) {
        0 => 32,
        1 => 126,
        _ => rng.between(32, 126) as u8,
    }
}

// ---- fields and controls

fn add_fields(rng: &mut Rng, draft: &mut Draft, rich: bool) {
    let wanted = match rng.below(12) {
        _ if rich => rng.between(16, 30),
        0 => 0,
        1 => 32,
        2..=8 => rng.between(2, 7),
        _ => rng.between(1, 16),
    };
    if wanted == 32 && rng.chance(70) {
        draft.record = rng.number(100, 256);
    }
    let mut free = 0;
    for _ in 0..wanted {
        let field = next_field(rng, draft, free, wanted);
        free = free.max(field.offset + field.width);
        draft.fields.push(field);
    }
    rng.shuffle(&mut draft.fields);
}

/// Mostly a field in free bytes; else one over bytes already used, in a way that leaves a
/// well-formed record possible (but once in fifty anywhere).
fn next_field(rng: &mut Rng, draft: &Draft, free: u16, wanted: usize) -> Field {
    let left = draft.record - free;
    let share = (draft.record / wanted as u16).max(2);
    if left >= 2 && rng.chance(85) {
        let gap = if rng.chance(20) { rng.number(0, (left - 2).min(2)) } else { 0 };
        return field_at(rng, free + gap, (left - gap).min(2 * share));
    }
    if draft.record >= 2 && rng.chance(2) {
        let offset = rng.number(0, draft.record - 2);
        return field_at(rng, offset, draft.record - offset);
    }
    let numbers: Vec<Field> = draft.fields.iter().copied().filter(|field| field.kind == NUMBER).collect();
    match rng.maybe(&numbers) {
        Some(over) if rng.chance(50) => Field { width: rng.number(2, over.width), ..over },
        _ => text_anywhere(rng, draft.record),
    }
}

fn text_anywhere(rng: &mut Rng, record: u16) -> Field {
    let widest = if rng.chance(80) { 8 } else { 64 };
    let width = rng.number(1, record.min(widest));
    Field { kind: TEXT, offset: rng.number(0, record - width), width }
}

/// A field of either kind with `room` bytes at least 2.
fn field_at(rng: &mut Rng, offset: u16, room: u16) -> Field {
    if rng.chance(55) {
        Field { kind: NUMBER, offset, width: limited(rng, 2, room.min(18), 7) }
    } else {
        Field { kind: TEXT, offset, width: limited(rng, 1, room.min(64), 6) }
    }
}

/// `low` to `high`, mostly no more than `usual`, sometimes `high` itself.
fn limited(rng: &mut Rng, low: u16, high: u16, usual: u16) -> u16 {
    match rng.below(10) {
        0 => high,
        1 => rng.number(low, high),
        _ => rng.number(low, high.min(usual.max(low))),
    }
}

fn add_controls(rng: &mut Rng, draft: &mut Draft, rich: bool) {
    let wanted = match rng.below(10) {
        _ if rich => 8,
        0 => 0,
        1..=2 => 8,
        3..=6 => rng.between(1, 3),
        _ => rng.between(1, 8),
    };
    let mut fields: Vec<u16> = (0..draft.fields.len() as u16).collect();
    rng.shuffle(&mut fields);
    if rng.chance(40) {
        fields.insert(0, FINAL);
    }
    draft.controls = fields.into_iter().take(wanted).collect();
}

// ---- groups

fn add_groups(rng: &mut Rng, draft: &mut Draft, rich: bool) {
    for (kind, percent) in [(RH, 40), (PH, 65), (PF, 50), (RF, 55)] {
        if rich || rng.chance(percent) {
            draft.groups.push(Block::new(kind, 0));
        }
    }
    for level in 0..draft.controls.len() as u16 {
        for (kind, percent) in [(CH, 50), (CF, 70)] {
            if rich || rng.chance(percent) {
                draft.groups.push(Block::new(kind, level));
            }
        }
    }
    let details = match rng.below(10) {
        _ if rich => 8,
        0..=4 => 1,
        5..=7 => rng.between(2, 4),
        8 => 8,
        _ => rng.between(1, 8),
    };
    draft.groups.extend((0..details).map(|_| Block::new(DE, 0)));
    rng.shuffle(&mut draft.groups);
    let page = draft.page;
    for group in draft.groups.iter_mut().filter(|group| group.is_body()) {
        (group.next, group.integer) = next_group(rng, &page);
    }
}

fn next_group(rng: &mut Rng, page: &Page) -> (u16, u16) {
    match rng.below(10) {
        0..=1 => (NEXT_ABSOLUTE, rng.number(page.fd, page.ft)),
        2..=3 => (NEXT_RELATIVE, step(rng)),
        4 => (NEXT_PAGE, 0),
        _ => (NEXT_NONE, 0),
    }
}

/// A relative integer, 1 to 999 but mostly small.
fn step(rng: &mut Rng) -> u16 {
    match rng.below(20) {
        0..=11 => 1,
        12..=16 => rng.number(2, 4),
        17..=18 => rng.number(1, 30),
        _ => rng.pick(&[998, 999, 500, 100]),
    }
}

// ---- lines

fn add_lines(rng: &mut Rng, draft: &mut Draft, rich: bool) {
    let mut left = draft.limit(Section::Lines);
    let mut order: Vec<usize> = (0..draft.groups.len()).collect();
    // PH counts from RH, RF from PF: those come first.
    order.sort_by_key(|&g| matches!(draft.groups[g].kind, PH | RF));
    let lineless = if rich { vec![false; order.len()] } else { lineless(rng, draft) };
    for g in order.into_iter().filter(|&g| !lineless[g]) {
        let kind = draft.groups[g].kind;
        let lines = match kind {
            RF if rng.chance(35) => own_page_lines(rng, &draft.page, left),
            RH | PH | PF | RF => fixed_lines(rng, draft, kind, left),
            _ => body_lines(rng, draft, kind, left),
        };
        left -= lines.len();
        draft.groups[g].lines = lines;
    }
}

/// Which groups get no lines: a few, most, or all body groups but one, which then prints alone.
fn lineless(rng: &mut Rng, draft: &Draft) -> Vec<bool> {
    let percent = rng.pick(&[10, 15, 15, 60]);
    let mut lineless: Vec<bool> = draft.groups.iter().map(|_| rng.chance(percent)).collect();
    let kind = rng.pick(&[CH, CH, DE, CF, CF]);
    let only = rng.maybe(&draft.groups_of(kind)).filter(|_| rng.chance(35));
    if let Some(only) = only {
        for g in (0..draft.groups.len()).filter(|&g| draft.groups[g].is_body()) {
            lineless[g] = g != only;
        }
    }
    lineless
}

/// Lines of RH, PH, PF or RF in their part of the page; none where there is no room. RH and PF leave
/// some for the group below.
fn fixed_lines(rng: &mut Rng, draft: &Draft, kind: u16, left: usize) -> Vec<Row> {
    let base = draft.base(kind);
    let (mut top, mut bottom) = draft.window(kind);
    match kind {
        PH | RF => top = top.max(base + 1),
        _ if top < bottom => bottom = rng.number(top, bottom - 1),
        _ => {}
    }
    if top > bottom || left == 0 {
        return Vec::new();
    }
    let start = if rng.chance(60) { top } else { rng.number(top, bottom) };
    let first = if kind != PF && rng.chance(50) {
        Row::new(LINE_RELATIVE, start - base)
    } else {
        Row::new(LINE_ABSOLUTE, start)
    };
    with_later_lines(rng, first, bottom - start, left)
}

/// Lines of an RF on a page of its own.
fn own_page_lines(rng: &mut Rng, page: &Page, left: usize) -> Vec<Row> {
    if left == 0 {
        return Vec::new();
    }
    let start = rng.number(page.h, page.p);
    with_later_lines(rng, Row::new(LINE_NEXT_PAGE, start), page.p - start, left)
}

fn body_lines(rng: &mut Rng, draft: &Draft, kind: u16, left: usize) -> Vec<Row> {
    if left == 0 {
        return Vec::new();
    }
    let (top, low) = draft.window(kind);
    let start = match rng.below(4) {
        0 => top,
        1..=2 => rng.number(top, low),
        _ => rng.number(top, low.min(top + 6)),
    };
    match rng.below(4) {
        0..=1 => {
            let first = Row::new(LINE_RELATIVE, step(rng));
            with_later_lines(rng, first, low - top, left)
        }
        2 => with_later_lines(rng, Row::new(LINE_ABSOLUTE, start), low - start, left),
        _ => with_later_lines(rng, Row::new(LINE_NEXT_PAGE, start), low - start, left),
    }
}

/// The first line and some later ones, whose steps add up to no more than `room`.
fn with_later_lines(rng: &mut Rng, first: Row, room: u16, left: usize) -> Vec<Row> {
    let most = left.min(16).min(room as usize + 1);
    let count = match rng.below(10) {
        0..=5 => 1,
        6..=8 => rng.between(1, most.min(3)),
        _ => rng.between(1, most),
    };
    let mut lines = vec![first];
    let mut spare = room as usize + 1 - count;
    for _ in 1..count {
        let extra = match rng.below(8) {
            0 => rng.between(0, spare.min(98)),
            1 => spare.min(98),
            _ => 0,
        };
        spare -= extra;
        lines.push(Row::new(LINE_RELATIVE, 1 + extra as u16));
    }
    lines
}

/// Makes the page's body 100 lines longer and one later line of a body group come `step` lines below
/// the one before; false where there is no such line or no such page.
pub fn stretch(rng: &mut Rng, draft: &mut Draft, step: u16) -> bool {
    let long = |g: &usize| draft.groups[*g].is_body() && draft.groups[*g].lines.len() > 1;
    let longs: Vec<usize> = (0..draft.groups.len()).filter(long).collect();
    let Some(g) = rng.maybe(&longs).filter(|_| draft.page.p <= 899) else { return false };
    let page = &mut draft.page;
    (page.ld, page.ft, page.p) = (page.ld + 100, page.ft + 100, page.p + 100);
    for group in draft.groups.iter_mut().filter(|group| matches!(group.kind, PF | RF)) {
        if group.first_kind() == Some(LINE_ABSOLUTE) {
            group.lines[0].integer += 100;
        }
    }
    let lines = &mut draft.groups[g].lines;
    lines[1].integer = step;
    true
}

// ---- counters

/// Every counter has a field it may add, so counters need a number field as well as a footing.
fn add_counters(rng: &mut Rng, draft: &mut Draft) {
    let footings = draft.groups_of(CF);
    let numbers = number_fields(draft);
    if footings.is_empty() || numbers.is_empty() || rng.chance(8) {
        return;
    }
    let wanted = match rng.below(10) {
        0 => 32,
        1..=7 => rng.between(1, 2 * footings.len() + 1),
        _ => rng.between(1, 32),
    };
    for _ in 0..wanted.min(32) {
        let group = rng.pick(&footings);
        draft.counters.push(new_counter(rng, draft, group));
    }
    arrange_counters(rng, draft);
    let mut left = draft.limit(Section::Addends);
    for counter in 0..draft.counters.len() {
        let most = left - (draft.counters.len() - counter - 1);
        let addends = some_addends(rng, draft, counter, most.min(8));
        left -= addends.len();
        draft.counters[counter].addends = addends;
    }
}

/// Often by level: junior footings last, the most usual order, or first. They have no addends yet.
pub fn arrange_counters(rng: &mut Rng, draft: &mut Draft) {
    if rng.chance(60) {
        let levels: Vec<u16> = draft.groups.iter().map(|group| group.level).collect();
        draft.counters.sort_by_key(|counter| levels[counter.group as usize]);
        if rng.chance(30) {
            draft.counters.reverse();
        }
    }
}

fn new_counter(rng: &mut Rng, draft: &Draft, group: usize) -> Count {
    let level = draft.groups[group].level;
    let reset = if rng.chance(60) { level } else { rng.number(0, level) };
    Count { group: group as u16, reset, addends: Vec::new() }
}

pub fn number_fields(draft: &Draft) -> Vec<u16> {
    (0..draft.fields.len() as u16).filter(|&f| draft.fields[f as usize].kind == NUMBER).collect()
}

/// Counters that `counter` may add: of a more junior footing, or earlier in the same one.
pub fn counters_to_add(draft: &Draft, counter: usize) -> Vec<u16> {
    let own = draft.counters[counter].group;
    let level = draft.counter_level(counter);
    let may = |&other: &usize| {
        draft.counter_level(other) > level || (draft.counters[other].group == own && other < counter)
    };
    (0..draft.counters.len()).filter(may).map(|other| other as u16).collect()
}

/// Every addend a counter may have, in random order.
fn addends_to_choose(rng: &mut Rng, draft: &Draft, counter: usize) -> Vec<Addend> {
    let details = draft.details();
    let mut choice: Vec<Addend> = number_fields(draft)
        .into_iter()
        .map(|index| Addend { kind: ADD_FIELD, index, mask: mask(rng, details) })
        .collect();
    rng.shuffle(&mut choice);
    let mut counters: Vec<Addend> = counters_to_add(draft, counter)
        .into_iter()
        .map(|index| Addend { kind: ADD_COUNTER, index, mask: 0 })
        .collect();
    rng.shuffle(&mut counters);
    counters.truncate(choice.len().max(2));
    choice.extend(counters);
    rng.shuffle(&mut choice);
    choice
}

pub fn mask(rng: &mut Rng, details: usize) -> u16 {
    let all = (1 << details) - 1;
    if rng.chance(50) {
        all
    } else {
        rng.number(1, all)
    }
}

fn some_addends(rng: &mut Rng, draft: &Draft, counter: usize, most: usize) -> Vec<Addend> {
    let mut choice = addends_to_choose(rng, draft, counter);
    let wanted = match rng.below(10) {
        0..=4 => 1,
        5..=8 => rng.between(1, 3),
        _ => rng.between(1, 8),
    };
    choice.truncate(wanted.min(most));
    choice
}

// ---- items

fn add_items(rng: &mut Rng, draft: &mut Draft) {
    let mut left = draft.limit(Section::Items);
    for g in 0..draft.groups.len() {
        for l in 0..draft.groups[g].lines.len() {
            let items = line_items(rng, draft, g, left);
            left -= items.len();
            draft.groups[g].lines[l].items = items;
        }
    }
}

fn line_items(rng: &mut Rng, draft: &mut Draft, group: usize, left: usize) -> Vec<Item> {
    let wanted = match rng.below(20) {
        0 => 0,
        1 => rng.between(1, 30),
        _ => rng.between(1, 4),
    };
    let mut items = Vec::new();
    let mut column = 1;
    while items.len() < wanted.min(left) && column <= draft.width {
        let gap = if rng.chance(40) { rng.number(0, (draft.width - column).min(5)) } else { 0 };
        column += gap;
        let item = item(rng, draft, group, column);
        column += item.width;
        items.push(item);
    }
    items
}

fn item(rng: &mut Rng, draft: &mut Draft, group: usize, column: u16) -> Item {
    let room = draft.width - column + 1;
    let width = limited(rng, 1, room, 9);
    let choice = sources(rng, draft, group, width);
    let (source, index) = rng.pick(&choice);
    let is_number = match source {
        FIELD => draft.fields[index as usize].kind == NUMBER,
        _ => source == SUM,
    };
    let decimals =
        if is_number && width > 1 && rng.chance(40) { rng.number(0, (width - 1).min(4)) } else { 0 };
    let indicate = u16::from(draft.groups[group].kind == DE && rng.chance(30));
    let item = Item { column, width, source, index, decimals, indicate, picture: NO_PICTURE };
    let shows_text = source == LITERAL || (source == FIELD && !is_number);
    if shows_text || !draft.layout.has_pictures() || rng.chance(35) {
        return item;
    }
    with_picture(rng, draft, item, is_number)
}

/// The item with a picture that has room, one that is there already or a new one, and the width and decimals it asks for.
fn with_picture(rng: &mut Rng, draft: &mut Draft, item: Item, may_have_point: bool) -> Item {
    let room = ((draft.width - item.column + 1) as usize).min(PICTURE_BYTES);
    let suits = |&at: &usize| {
        let picture = &draft.pictures[at];
        picture::text(picture).len() <= room && (may_have_point || picture::decimals(picture) == 0)
    };
    let there = (0..draft.pictures.len()).filter(suits).collect::<Vec<_>>();
    let is_full = draft.pictures.len() == draft.limit(Section::Pictures);
    let index = match rng.maybe(&there) {
        Some(index) if is_full || rng.chance(20) => index,
        _ if is_full => return item,
        _ => {
            let shape = pictures::shape(rng, room, may_have_point);
            draft.pictures.push(padded(&shape.text()));
            draft.pictures.len() - 1
        }
    };
    let picture = &draft.pictures[index];
    Item {
        width: picture::text(picture).len() as u16,
        decimals: picture::decimals(picture) as u16,
        picture: index as u16,
        ..item
    }
}

/// Pictures that no item names, between the others.
fn add_unused_pictures(rng: &mut Rng, draft: &mut Draft) {
    let left = draft.limit(Section::Pictures) - draft.pictures.len();
    let wanted = match rng.below(10) {
        0..=4 => 0,
        5 => left,
        _ => rng.between(0, 3),
    };
    for _ in 0..wanted.min(left) {
        let shape = pictures::shape(rng, PICTURE_BYTES, true);
        let at = rng.between(0, draft.pictures.len());
        draft.insert_picture(at, padded(&shape.text()));
    }
}

/// One choice of each source the group may show; sums and fields stand twice.
fn sources(rng: &mut Rng, draft: &Draft, group: usize, width: u16) -> Vec<(u16, u16)> {
    let mut list = vec![(PAGE_COUNTER, 0), (LINE_COUNTER, 0)];
    let length = draft.literals.len() as u16;
    if width <= length {
        let last = length - width;
        list.push((LITERAL, if rng.chance(20) { last } else { rng.number(0, last) }));
    }
    let fields = if draft.groups[group].kind == DE {
        (0..draft.fields.len() as u16).collect()
    } else {
        draft.control_fields()
    };
    let own = |&c: &u16| draft.counters[c as usize].group as usize == group;
    let sums: Vec<u16> = (0..draft.counters.len() as u16).filter(own).collect();
    for _ in 0..2 {
        list.extend(rng.maybe(&fields).map(|field| (FIELD, field)));
        list.extend(rng.maybe(&sums).map(|counter| (SUM, counter)));
    }
    list
}

// ---- exact numbers of entries

/// Brings a rich draft's section to `count` entries, if it can.
fn fill(rng: &mut Rng, draft: &mut Draft, section: Section, count: usize) {
    match section {
        Section::Fields => fill_fields(rng, draft, count),
        Section::Controls => fill_controls(draft, count),
        Section::Groups => draft.groups.resize(count, Block::new(DE, 0)),
        Section::Lines => fill_lines(rng, draft, count),
        Section::Items => fill_items(draft, count),
        Section::Counters => fill_counters(rng, draft, count),
        Section::Addends => fill_addends(rng, draft, count),
        Section::Literals => draft.literals.resize_with(count, || printable(rng)),
        Section::Pictures => fill_pictures(rng, draft, count),
        Section::Trailer | Section::Limits => {}
    }
}

fn fill_fields(rng: &mut Rng, draft: &mut Draft, count: usize) {
    while draft.fields.len() < count {
        let field = text_anywhere(rng, draft.record);
        draft.fields.push(field);
    }
}

fn fill_controls(draft: &mut Draft, count: usize) {
    for field in 0..draft.fields.len() as u16 {
        if draft.controls.len() < count && !draft.controls.contains(&field) {
            draft.controls.push(field);
        }
    }
}

fn fill_pictures(rng: &mut Rng, draft: &mut Draft, count: usize) {
    while draft.layout.has_pictures() && draft.pictures.len() < count {
        draft.pictures.push(padded(&pictures::shape(rng, PICTURE_BYTES, true).text()));
    }
}

/// Lines go to random relative body groups that still have room for them.
fn fill_lines(rng: &mut Rng, draft: &mut Draft, count: usize) {
    let fits = |draft: &Draft, g: usize| {
        let group = &draft.groups[g];
        let (top, low) = draft.window(group.kind);
        let relative = group.is_body() && group.first_kind() == Some(LINE_RELATIVE);
        relative && group.lines.len() < 16 && top + group.span() < low
    };
    while draft.line_count() < count {
        let open: Vec<usize> = (0..draft.groups.len()).filter(|&g| fits(draft, g)).collect();
        let Some(g) = rng.maybe(&open) else { return };
        draft.groups[g].lines.push(Row::new(LINE_RELATIVE, 1));
    }
}

/// Items go behind the last one of each line that has columns left.
fn fill_items(draft: &mut Draft, count: usize) {
    let mut missing = count.saturating_sub(draft.item_count());
    let width = draft.width;
    for line in draft.groups.iter_mut().flat_map(|group| &mut group.lines) {
        let mut column = line.items.last().map_or(1, |item| item.column + item.width);
        while missing > 0 && column <= width {
            line.items.push(Item { column, width: 1, source: LINE_COUNTER, ..Item::default() });
            column += 1;
            missing -= 1;
        }
    }
}

fn fill_counters(rng: &mut Rng, draft: &mut Draft, count: usize) {
    let footings = draft.groups_of(CF);
    let numbers = number_fields(draft);
    while draft.counters.len() < count && !numbers.is_empty() && draft.addend_count() < 128 {
        let group = rng.pick(&footings);
        let mut counter = new_counter(rng, draft, group);
        counter.addends.push(Addend { kind: ADD_FIELD, index: rng.pick(&numbers), mask: 1 });
        draft.counters.push(counter);
    }
}

fn fill_addends(rng: &mut Rng, draft: &mut Draft, count: usize) {
    fill_counters(rng, draft, 32);
    for c in 0..draft.counters.len() {
        for addend in addends_to_choose(rng, draft, c) {
            let full = draft.addend_count() >= count || draft.counters[c].addends.len() == 8;
            let own = &mut draft.counters[c].addends;
            if !full && !own.iter().any(|other| other.kind == addend.kind && other.index == addend.index) {
                own.push(addend);
            }
        }
    }
}
