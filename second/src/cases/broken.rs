//! Descriptions with one thing wrong. Every fault here breaks its rule for certain and none below it,
//! so the answer of CHECK is known beforehand.

use super::draft::{
    Block, Change, Count, Draft, Image, ItemPlace, Row, Section, AT_FD, AT_FT, AT_H, AT_LD, AT_P, AT_R,
    AT_VERSION, AT_W, SECTIONS,
};
use super::rng::Rng;
use super::{rule_9, valid};
use crate::description::{
    Addend, Item, ADD_COUNTER, ADD_FIELD, CF, CH, DE, FIELD, FINAL, LINE_ABSOLUTE, LINE_COUNTER,
    LINE_NEXT_PAGE, LINE_RELATIVE, LITERAL, NEXT_ABSOLUTE, NEXT_NONE, NEXT_PAGE, NEXT_RELATIVE, NUMBER,
    PAGE_COUNTER, PF, PH, RF, RH, SUM, TEXT,
};

/// What a fault does. Each answers `None` where the draft gives it no place.
#[derive(Clone, Copy)]
enum Way {
    /// One number of the file becomes another.
    Number(fn(&mut Rng, &Draft) -> Option<Change>),
    /// The description itself is shaped otherwise.
    Shape(fn(&mut Rng, Draft) -> Option<Draft>),
    /// The laid-out bytes are changed.
    Bytes(fn(&mut Rng, &Draft, Image) -> Option<Vec<u8>>),
}

use Way::{Bytes, Number, Shape};

/// The faults of each rule, D1 first.
const FAULTS: [&[(&str, Way)]; 8] = [
    &[
        ("D1 version 0", Number(version_0)),
        ("D1 version 3", Number(version_3)),
        ("D1 version 65535", Number(version_65535)),
        ("D1 version 256, 257 or 258", Number(version_of_two_bytes)),
        ("D1 the other version", Number(other_version)),
        ("D1 section start", Number(section_start)),
        ("D1 picture section start", Number(picture_start)),
        ("D1 section count", Number(section_count)),
        ("D1 count that wraps", Number(wrapping_count)),
        ("D1 fewer than 48 bytes", Bytes(cut_short)),
        ("D1 version 2 in fewer than 52 bytes", Bytes(cut_short_of_52)),
        ("D1 byte too many", Bytes(byte_too_many)),
        ("D1 byte too few", Bytes(byte_too_few)),
        ("D1 limit passed", Shape(limit_passed)),
        ("D1 65 pictures", Shape(pictures_65)),
    ],
    &[
        ("D2 page limits", Number(page_limits)),
        ("D2 widths", Number(widths)),
        ("D2 bare trailer", Bytes(bare_trailer)),
    ],
    &[
        ("D3 field kind", Number(field_kind)),
        ("D3 field outside the record", Number(field_outside)),
        ("D3 field width", Number(field_width)),
        ("D3 record cut under a field", Number(record_cut)),
    ],
    &[
        ("D4 no such field", Number(no_such_field)),
        ("D4 FINAL not first", Number(final_later)),
        ("D4 field twice", Number(control_twice)),
        ("D4 control added", Shape(control_added)),
    ],
    &[
        ("D5 group type", Number(group_type)),
        ("D5 level", Number(group_level)),
        ("D5 lines not shared out", Number(lines_share)),
        ("D5 lines left over", Bytes(lines_left)),
        ("D5 groups in wrong order", Bytes(groups_swapped)),
        ("D5 next-group kind", Number(next_kind)),
        ("D5 next-group integer", Number(next_integer)),
        ("D5 group twice", Shape(group_twice)),
        ("D5 no detail", Shape(no_detail)),
        ("D5 nine details", Shape(nine_details)),
        ("D5 nothing at all", Shape(nothing_at_all)),
    ],
    &[
        ("D6 first line integer", Number(first_integer)),
        ("D6 line kind", Number(line_kind)),
        ("D6 later line", Number(later_line)),
        ("D6 items not shared out", Number(items_share)),
        ("D6 items left over", Bytes(items_left)),
        ("D6 first line outside", Number(first_outside)),
        ("D6 later lines outside", Number(later_outside)),
        ("D6 on the group above", Number(on_the_group_above)),
        ("D6 page limit moved", Number(page_limit_moved)),
        ("D6 seventeen lines", Shape(seventeen_lines)),
        ("D6 step of 100", Shape(step_of_100)),
    ],
    &[
        ("D7 column", Number(item_column)),
        ("D7 width", Number(item_width)),
        ("D7 source", Number(item_source)),
        ("D7 index", Number(item_index)),
        ("D7 field outside a detail", Number(field_item)),
        ("D7 sum of another group", Number(sum_item)),
        ("D7 decimals", Number(item_decimals)),
        ("D7 decimals as wide as the item", Number(wide_decimals)),
        ("D7 indicate", Number(item_indicate)),
        ("D7 literal byte", Bytes(literal_byte)),
        ("D7 literals cut", Shape(literals_cut)),
    ],
    &[
        ("D8 counter's group", Number(counter_group)),
        ("D8 reset level", Number(reset_level)),
        ("D8 addends not shared out", Number(addends_share)),
        ("D8 addends left over", Bytes(addends_left)),
        ("D8 addend kind", Number(addend_kind)),
        ("D8 addend's field", Number(addend_field)),
        ("D8 addend's counter", Number(addend_counter)),
        ("D8 mask", Number(addend_mask)),
        ("D8 addend twice", Number(addend_twice)),
        ("D8 nine addends", Shape(nine_addends)),
        ("D8 no addend", Shape(no_addend)),
        ("D8 counter in a detail", Shape(counter_in_detail)),
    ],
];

/// Names of all faults.
pub fn names() -> Vec<&'static str> {
    let mut names: Vec<&str> = FAULTS.iter().flat_map(|list| list.iter()).map(|(name, _)| *name).collect();
    names.extend(rule_9::names());
    names
}

/// A description whose lowest broken rule is `rule`, and the fault's name.
pub fn description(rng: &mut Rng, rule: u8) -> (Vec<u8>, &'static str) {
    if rule == 9 {
        return rule_9::description(rng);
    }
    let (name, way) = rng.pick(FAULTS[rule as usize - 1]);
    loop {
        let draft = if rng.chance(85) { valid::draft(rng) } else { valid::rich(rng) };
        if let Some(bytes) = apply(rng, &draft, way) {
            return (bytes, name);
        }
    }
}

fn apply(rng: &mut Rng, draft: &Draft, way: Way) -> Option<Vec<u8>> {
    match way {
        Number(fault) => {
            let change = fault(rng, draft)?;
            let mut image = draft.image();
            let before = image.number(change.section, change.entry, change.column);
            image.change(change);
            (before != change.value).then_some(image.bytes)
        }
        Shape(fault) => fault(rng, draft.clone()).map(|shaped| shaped.bytes()),
        Bytes(fault) => fault(rng, draft, draft.image()),
    }
}

fn change(section: Section, entry: usize, column: usize, value: u16) -> Option<Change> {
    Some(Change { section, entry, column, value })
}

fn in_trailer(column: usize, value: u16) -> Option<Change> {
    change(Section::Trailer, 0, column, value)
}

fn in_limits(column: usize, value: u16) -> Option<Change> {
    change(Section::Limits, 0, column, value)
}

/// A value one off, above or below; 65535 stands below 0.
fn one_off(rng: &mut Rng, value: u16) -> u16 {
    if rng.chance(50) {
        value.wrapping_add(1)
    } else {
        value.wrapping_sub(1)
    }
}

/// A value past a limit: the next one mostly, or far away.
fn past(rng: &mut Rng, limit: u16) -> u16 {
    if rng.chance(70) {
        limit + 1
    } else {
        rng.pick(&[65535, 65534, 32768, limit + 2])
    }
}

/// An index of a list of this length.
fn index(rng: &mut Rng, length: usize) -> Option<usize> {
    (length > 0).then(|| rng.below(length))
}

// ---- D1

fn version_0(_: &mut Rng, _: &Draft) -> Option<Change> {
    in_limits(AT_VERSION, 0)
}

fn version_3(_: &mut Rng, _: &Draft) -> Option<Change> {
    in_limits(AT_VERSION, 3)
}

fn version_65535(_: &mut Rng, _: &Draft) -> Option<Change> {
    in_limits(AT_VERSION, 65535)
}

/// Their low byte is 0 or an accepted version.
fn version_of_two_bytes(rng: &mut Rng, _: &Draft) -> Option<Change> {
    in_limits(AT_VERSION, rng.pick(&[256, 257, 258]))
}

/// Each version reads the other's sections from the wrong places, so that one of them does not begin where it should:
/// only a description without groups could pass, and none in order is so.
fn other_version(_: &mut Rng, draft: &Draft) -> Option<Change> {
    in_limits(AT_VERSION, 3 - draft.layout.version)
}

fn section_start(rng: &mut Rng, draft: &Draft) -> Option<Change> {
    let section = rng.below(draft.layout.section_count);
    wrong_start(rng, draft, section)
}

fn picture_start(rng: &mut Rng, draft: &Draft) -> Option<Change> {
    draft.layout.has_pictures().then(|| wrong_start(rng, draft, Section::Pictures as usize))?
}

/// One off, or another section's.
fn wrong_start(rng: &mut Rng, draft: &Draft, section: usize) -> Option<Change> {
    let start = draft.image().number(Section::Trailer, 0, 2 * section);
    let other = draft.image().number(Section::Trailer, 0, 2 * rng.below(draft.layout.section_count));
    let value = if rng.chance(60) || other == start { one_off(rng, start) } else { other };
    in_trailer(2 * section, value)
}

fn section_count(rng: &mut Rng, draft: &Draft) -> Option<Change> {
    let section = rng.pick(draft.sections());
    let count = draft.entry_count(section) as u16;
    let value = if rng.chance(80) { one_off(rng, count) } else { rng.pick(&[65535, 10000, count + 2]) };
    in_trailer(2 * section as usize + 1, value)
}

/// A count so large that its bytes come out right again in 16 bits.
fn wrapping_count(rng: &mut Rng, draft: &Draft) -> Option<Change> {
    let of_numbers: Vec<Section> =
        draft.sections().iter().copied().filter(|&section| section != Section::Literals).collect();
    let section = rng.pick(&of_numbers);
    let count = draft.entry_count(section) as u16;
    in_trailer(2 * section as usize + 1, count + 32768)
}

fn cut_short(rng: &mut Rng, _: &Draft, image: Image) -> Option<Vec<u8>> {
    let any = rng.below(48);
    let length = rng.pick(&[0, 1, 46, 47, any]);
    let from = if rng.chance(50) { 0 } else { image.bytes.len() - length };
    Some(image.bytes[from..from + length].to_vec())
}

/// The end of a version 2 file, or a bare trailer that lacks bytes at its front.
fn cut_short_of_52(rng: &mut Rng, draft: &Draft, image: Image) -> Option<Vec<u8>> {
    let any = rng.between(2, 51);
    let length = rng.pick(&[51, 51, 50, 48, any]);
    let mut bytes = vec![0; length];
    bytes[length - 2] = 2;
    if rng.chance(50) {
        bytes.copy_from_slice(&image.bytes[image.bytes.len() - length..]);
    }
    draft.layout.has_pictures().then_some(bytes)
}

fn byte_too_many(rng: &mut Rng, _: &Draft, mut image: Image) -> Option<Vec<u8>> {
    let trailer = image.trailer();
    let any = rng.between(0, trailer);
    let at = rng.pick(&[0, trailer, image.bytes.len(), any]);
    image.bytes.insert(at, rng.byte());
    Some(image.bytes)
}

fn byte_too_few(rng: &mut Rng, _: &Draft, mut image: Image) -> Option<Vec<u8>> {
    let trailer = image.trailer();
    let any = rng.below(trailer);
    let at = rng.pick(&[0, trailer - 1, image.bytes.len() - 1, any]);
    image.bytes.remove(at);
    Some(image.bytes)
}

/// The draft is made anew: one entry more than a section may have, else in order where that can be.
fn limit_passed(rng: &mut Rng, _: Draft) -> Option<Draft> {
    let section = rng.pick(&SECTIONS);
    Some(valid::filled(rng, section, 1))
}

fn pictures_65(rng: &mut Rng, _: Draft) -> Option<Draft> {
    Some(valid::filled(rng, Section::Pictures, 1))
}

// ---- D2

fn page_limits(rng: &mut Rng, draft: &Draft) -> Option<Change> {
    let page = &draft.page;
    let (column, value) = rng.pick(&[
        (AT_H, 0),
        (AT_H, page.fd + 1),
        (AT_FD, page.h - 1),
        (AT_FD, page.ld + 1),
        (AT_LD, page.fd - 1),
        (AT_LD, page.ft + 1),
        (AT_FT, page.ld - 1),
        (AT_FT, page.p + 1),
        (AT_P, page.ft - 1),
        (AT_P, 1000),
        (AT_P, 65535),
        (AT_H, 65535),
        (AT_FT, 0),
    ]);
    in_limits(column, value)
}

fn widths(rng: &mut Rng, _: &Draft) -> Option<Change> {
    let (column, value) =
        rng.pick(&[(AT_W, 0), (AT_W, 133), (AT_W, 65535), (AT_R, 0), (AT_R, 257), (AT_R, 65535)]);
    in_limits(column, value)
}

/// A trailer alone, all zero but the version.
fn bare_trailer(_: &mut Rng, draft: &Draft, _: Image) -> Option<Vec<u8>> {
    let mut bytes = vec![0; draft.layout.trailer_bytes()];
    let version = bytes.len() - 2;
    bytes[version] = draft.layout.version as u8;
    Some(bytes)
}

// ---- D3

fn field_kind(rng: &mut Rng, draft: &Draft) -> Option<Change> {
    let f = index(rng, draft.fields.len())?;
    let field = draft.fields[f];
    let too_wide_or_narrow = field.kind == TEXT && (field.width == 1 || field.width > 18);
    let value = if too_wide_or_narrow && rng.chance(60) { NUMBER } else { past(rng, 1) };
    change(Section::Fields, f, 0, value)
}

fn field_outside(rng: &mut Rng, draft: &Draft) -> Option<Change> {
    let f = index(rng, draft.fields.len())?;
    let width = draft.fields[f].width;
    // The last two come to 65536 or 65537, which is 0 or 1 in 16 bits.
    let offset = rng.pick(&[draft.record - width + 1, draft.record, 0u16.wrapping_sub(width), 65535]);
    change(Section::Fields, f, 1, offset)
}

fn field_width(rng: &mut Rng, draft: &Draft) -> Option<Change> {
    let f = index(rng, draft.fields.len())?;
    let field = draft.fields[f];
    let limit = if field.kind == TEXT { 65 } else { 19 };
    let low = field.kind; // 0 for text, 1 for a number
    let value = rng.pick(&[low, 0, limit, 65535, draft.record - field.offset + 1]);
    change(Section::Fields, f, 2, value)
}

fn record_cut(_: &mut Rng, draft: &Draft) -> Option<Change> {
    let end = draft.fields.iter().map(|field| field.offset + field.width).max()?;
    (end > 1).then(|| in_limits(AT_R, end - 1))?
}

// ---- D4

fn no_such_field(rng: &mut Rng, draft: &Draft) -> Option<Change> {
    let c = index(rng, draft.controls.len())?;
    let fields = draft.fields.len() as u16;
    change(Section::Controls, c, 0, rng.pick(&[fields, fields, fields + 1, 65534, 32768]))
}

fn final_later(rng: &mut Rng, draft: &Draft) -> Option<Change> {
    let c = 1 + index(rng, draft.controls.len().saturating_sub(1))?;
    change(Section::Controls, c, 0, FINAL)
}

fn control_twice(rng: &mut Rng, draft: &Draft) -> Option<Change> {
    let c = index(rng, draft.controls.len())?;
    let other = index(rng, draft.controls.len())?;
    (c != other).then(|| change(Section::Controls, c, 0, draft.controls[other]))?
}

fn control_added(rng: &mut Rng, mut draft: Draft) -> Option<Draft> {
    if draft.controls.is_empty() || draft.controls.len() == 8 {
        return None;
    }
    let again = rng.pick(&draft.controls);
    let at = rng.between(1, draft.controls.len());
    draft.controls.insert(at, if rng.chance(50) { FINAL } else { again });
    Some(draft)
}

// ---- D5

fn group_type(rng: &mut Rng, draft: &Draft) -> Option<Change> {
    let g = rng.below(draft.groups.len());
    let group = &draft.groups[g];
    let taken = |&kind: &u16| match kind {
        RH | PH | PF | RF => kind != group.kind && !draft.groups_of(kind).is_empty(),
        _ => false,
    };
    let mut values: Vec<u16> = (0..7).filter(taken).collect();
    values.extend([7, 7, 8, 65535, 256 + group.kind]);
    change(Section::Groups, g, 0, rng.pick(&values))
}

fn group_level(rng: &mut Rng, draft: &Draft) -> Option<Change> {
    let g = rng.below(draft.groups.len());
    let group = &draft.groups[g];
    let levels = draft.controls.len() as u16;
    let value = if matches!(group.kind, CH | CF) {
        let others = draft.groups.iter().filter(|other| other.kind == group.kind && *other != group);
        let mut values: Vec<u16> = others.map(|other| other.level).collect();
        values.extend([levels, levels, 65535]);
        values.retain(|&level| level != group.level);
        rng.pick(&values)
    } else {
        rng.pick(&[1, levels + 1, 65535])
    };
    change(Section::Groups, g, 1, value)
}

fn lines_share(rng: &mut Rng, draft: &Draft) -> Option<Change> {
    let g = rng.below(draft.groups.len());
    let first = draft.first_line(g) as u16;
    let count = draft.groups[g].lines.len() as u16;
    if rng.chance(50) {
        change(Section::Groups, g, 2, if rng.chance(70) { one_off(rng, first) } else { past(rng, first) })
    } else {
        change(Section::Groups, g, 3, if rng.chance(70) { one_off(rng, count) } else { past(rng, count) })
    }
}

fn lines_left(rng: &mut Rng, draft: &Draft, mut image: Image) -> Option<Vec<u8>> {
    let items = draft.item_count() as u16;
    image.append(Section::Lines, &[rng.number(0, 2), 1, items, 0]);
    (draft.line_count() < 128).then_some(image.bytes)
}

fn groups_swapped(rng: &mut Rng, draft: &Draft, mut image: Image) -> Option<Vec<u8>> {
    let g = index(rng, draft.groups.len() - 1)?;
    let lines = draft.groups[g].lines.len() + draft.groups[g + 1].lines.len();
    image.swap(Section::Groups, g);
    (lines > 0).then_some(image.bytes)
}

fn next_kind(rng: &mut Rng, draft: &Draft) -> Option<Change> {
    let g = rng.below(draft.groups.len());
    let group = &draft.groups[g];
    let value = match (group.is_body(), group.next) {
        (false, _) => rng.number(1, 4),
        // With integer 0 these two are wrong, and with another one the other two.
        (true, NEXT_NONE | NEXT_PAGE) => rng.pick(&[NEXT_ABSOLUTE, NEXT_RELATIVE, 4, 65535]),
        (true, _) => rng.pick(&[NEXT_NONE, NEXT_PAGE, 4, 256 + group.next]),
    };
    change(Section::Groups, g, 4, value)
}

fn next_integer(rng: &mut Rng, draft: &Draft) -> Option<Change> {
    let g = rng.below(draft.groups.len());
    let value = match draft.groups[g].next {
        NEXT_ABSOLUTE => rng.pick(&[draft.page.fd - 1, draft.page.ft + 1, 0, 65535]),
        NEXT_RELATIVE => rng.pick(&[0, 1000, 65535]),
        _ => rng.pick(&[1, draft.page.fd, 65535]),
    };
    change(Section::Groups, g, 5, value)
}

/// A second one of what may stand once, without lines.
fn group_twice(rng: &mut Rng, mut draft: Draft) -> Option<Draft> {
    let once: Vec<Block> = draft.groups.iter().filter(|group| group.kind != DE).cloned().collect();
    let again = rng.maybe(&once)?;
    let at = rng.between(0, draft.groups.len());
    draft.groups.insert(at, Block::new(again.kind, again.level));
    (draft.groups.len() <= 32).then_some(draft)
}

fn no_detail(_: &mut Rng, mut draft: Draft) -> Option<Draft> {
    draft.groups.retain(|group| group.kind != DE);
    Some(draft)
}

fn nine_details(rng: &mut Rng, mut draft: Draft) -> Option<Draft> {
    while draft.details() < 9 {
        let at = rng.between(0, draft.groups.len());
        draft.groups.insert(at, Block::new(DE, 0));
    }
    (draft.groups.len() <= 32).then_some(draft)
}

/// The trailer alone, in order but for the detail it wants.
fn nothing_at_all(_: &mut Rng, draft: Draft) -> Option<Draft> {
    let Draft { layout, page, width, record, .. } = draft;
    Some(Draft { layout, page, width, record, ..Draft::default() })
}

// ---- D6

/// Groups with lines.
fn lined(draft: &Draft) -> Vec<usize> {
    (0..draft.groups.len()).filter(|&g| !draft.groups[g].lines.is_empty()).collect()
}

/// A later line: its group and its place in it.
fn some_later_line(rng: &mut Rng, draft: &Draft) -> Option<(usize, usize)> {
    let long: Vec<usize> = lined(draft).into_iter().filter(|&g| draft.groups[g].lines.len() > 1).collect();
    let g = rng.maybe(&long)?;
    Some((g, rng.between(1, draft.groups[g].lines.len() - 1)))
}

fn first_integer(rng: &mut Rng, draft: &Draft) -> Option<Change> {
    let g = rng.maybe(&lined(draft))?;
    change(Section::Lines, draft.first_line(g), 1, rng.pick(&[0, 1000, 65535]))
}

fn line_kind(rng: &mut Rng, draft: &Draft) -> Option<Change> {
    let g = rng.maybe(&lined(draft))?;
    let kinds: &[u16] = match draft.groups[g].kind {
        PF => &[LINE_NEXT_PAGE, LINE_RELATIVE, 3],
        RH | PH => &[LINE_NEXT_PAGE, 3],
        _ => &[3, 256, 65535],
    };
    change(Section::Lines, draft.first_line(g), 0, rng.pick(kinds))
}

fn later_line(rng: &mut Rng, draft: &Draft) -> Option<Change> {
    let (g, l) = some_later_line(rng, draft)?;
    let (column, value) =
        rng.pick(&[(0, LINE_ABSOLUTE), (0, LINE_NEXT_PAGE), (0, 3), (1, 0), (1, 100), (1, 65535)]);
    change(Section::Lines, draft.first_line(g) + l, column, value)
}

fn items_share(rng: &mut Rng, draft: &Draft) -> Option<Change> {
    let line = index(rng, draft.line_count())?;
    let column = rng.between(2, 3);
    let value = draft.image().number(Section::Lines, line, column);
    let value = if rng.chance(70) { one_off(rng, value) } else { past(rng, value) };
    change(Section::Lines, line, column, value)
}

fn items_left(_: &mut Rng, draft: &Draft, mut image: Image) -> Option<Vec<u8>> {
    let item = Item { column: 1, width: 1, source: PAGE_COUNTER, ..Item::default() };
    image.append(Section::Items, &item.numbers()[..draft.layout.item_numbers]);
    (draft.item_count() < 512).then_some(image.bytes)
}

/// First integers just before and just behind those that let the group fit.
fn first_limits(draft: &Draft, group: &Block) -> Option<(u16, u16)> {
    let relative = group.first_kind()? == LINE_RELATIVE;
    if group.is_body() && relative {
        return None;
    }
    let (top, bottom) = match group.kind {
        RF if group.first_kind() == Some(LINE_NEXT_PAGE) => (draft.page.h, draft.page.p),
        kind => draft.window(kind),
    };
    let base = if relative { draft.base(group.kind) } else { 0 };
    let low = if relative { 0 } else { top - 1 };
    Some((low, bottom - group.span() + 1 - base))
}

fn first_outside(rng: &mut Rng, draft: &Draft) -> Option<Change> {
    let g = rng.maybe(&lined(draft))?;
    let (low, high) = first_limits(draft, &draft.groups[g])?;
    let value = if rng.chance(50) { low } else { high };
    change(Section::Lines, draft.first_line(g), 1, value)
}

/// Lines left below a group in its part of the page.
fn room_below(draft: &Draft, group: &Block) -> u16 {
    match first_limits(draft, group) {
        Some((_, high)) => high - 1 - group.lines[0].integer,
        None => {
            let (top, low) = draft.window(group.kind);
            low - top - group.span()
        }
    }
}

fn later_outside(rng: &mut Rng, draft: &Draft) -> Option<Change> {
    let (g, l) = some_later_line(rng, draft)?;
    let group = &draft.groups[g];
    let value = group.lines[l].integer + room_below(draft, group) + 1;
    (value <= 99).then(|| change(Section::Lines, draft.first_line(g) + l, 1, value))?
}

/// PH on RH's last line, or RF on PF's.
fn on_the_group_above(rng: &mut Rng, draft: &Draft) -> Option<Change> {
    let (kind, above) = rng.pick(&[(PH, RH), (RF, PF)]);
    draft.printed(above)?;
    let g = *draft.groups_of(kind).first()?;
    let absolute = draft.groups[g].first_kind() == Some(LINE_ABSOLUTE);
    absolute.then(|| change(Section::Lines, draft.first_line(g), 1, draft.base(kind)))?
}

/// A limit of the page moved by so much that one group no longer fits.
fn page_limit_moved(rng: &mut Rng, draft: &Draft) -> Option<Change> {
    let page = &draft.page;
    let g = rng.maybe(&lined(draft))?;
    let group = &draft.groups[g];
    let first = &group.lines[0];
    let absolute = first.kind == LINE_ABSOLUTE;
    match group.kind {
        CH | DE => {
            let start = if first.kind == LINE_RELATIVE { page.fd } else { first.integer };
            let last = start + group.span();
            (last > page.fd).then(|| in_limits(AT_LD, last - 1))?
        }
        RH if absolute => (first.integer < page.fd).then(|| in_limits(AT_H, first.integer + 1))?,
        PF => in_limits(AT_P, first.integer + group.span() - 1),
        RF if absolute => in_limits(AT_P, first.integer + group.span() - 1),
        _ => None,
    }
}

fn seventeen_lines(_: &mut Rng, mut draft: Draft) -> Option<Draft> {
    let page = draft.page;
    let first = draft.groups.iter_mut().find(|group| {
        let low = if group.kind == CF { page.ft } else { page.ld };
        group.is_body() && group.first_kind() == Some(LINE_RELATIVE) && low - page.fd >= 16
    })?;
    first.lines.resize_with(17, || Row::new(LINE_RELATIVE, 1));
    for line in &mut first.lines[1..] {
        line.integer = 1;
    }
    (draft.line_count() <= 128).then_some(draft)
}

/// In its part of the page, but for the step.
fn step_of_100(rng: &mut Rng, mut draft: Draft) -> Option<Draft> {
    valid::stretch(rng, &mut draft, 100).then_some(draft)
}

// ---- D7

/// An item and where it stands.
fn some_item(rng: &mut Rng, draft: &Draft) -> Option<ItemPlace> {
    rng.maybe(&draft.item_places())
}

/// An item with one of these sources.
fn some_item_of(rng: &mut Rng, draft: &Draft, sources: &[u16]) -> Option<ItemPlace> {
    let places = draft.item_places().into_iter().filter(|place| sources.contains(&place.item.source));
    rng.maybe(&places.collect::<Vec<ItemPlace>>())
}

fn in_item(place: ItemPlace, column: usize, value: u16) -> Option<Change> {
    change(Section::Items, place.entry, column, value)
}

fn item_column(rng: &mut Rng, draft: &Draft) -> Option<Change> {
    let place = some_item(rng, draft)?;
    let items = &draft.groups[place.group].lines[place.line].items;
    let mut values = vec![0, draft.width - place.item.width + 2, 65535];
    if place.nth > 0 {
        let before = items[place.nth - 1];
        values.extend([before.column + before.width - 1, before.column]);
    }
    if let Some(after) = items.get(place.nth + 1) {
        values.push(after.column - place.item.width + 1);
        values.push(after.column);
    }
    in_item(place, 0, rng.pick(&values))
}

fn item_width(rng: &mut Rng, draft: &Draft) -> Option<Change> {
    let place = some_item(rng, draft)?;
    let items = &draft.groups[place.group].lines[place.line].items;
    let mut values = vec![0, draft.width - place.item.column + 2, 65535];
    values.extend(items.get(place.nth + 1).map(|after| after.column - place.item.column + 1));
    in_item(place, 1, rng.pick(&values))
}

fn item_source(rng: &mut Rng, draft: &Draft) -> Option<Change> {
    let place = some_item(rng, draft)?;
    let mut values = vec![5, 6, 256 + place.item.source, 65535];
    if place.item.index > 0 {
        values.extend([PAGE_COUNTER, LINE_COUNTER]);
    }
    in_item(place, 2, rng.pick(&values))
}

fn item_index(rng: &mut Rng, draft: &Draft) -> Option<Change> {
    let place = some_item(rng, draft)?;
    let end = match place.item.source {
        LITERAL => draft.literals.len() as u16 - place.item.width + 1,
        FIELD => draft.fields.len() as u16,
        SUM => draft.counters.len() as u16,
        _ => 1,
    };
    in_item(place, 3, if rng.chance(70) { end } else { past(rng, end) })
}

/// Outside a detail, a field that no control names.
fn field_item(rng: &mut Rng, draft: &Draft) -> Option<Change> {
    let place = some_item_of(rng, draft, &[FIELD])?;
    let controls = draft.control_fields();
    let free: Vec<u16> = (0..draft.fields.len() as u16).filter(|field| !controls.contains(field)).collect();
    let field = rng.maybe(&free)?;
    (draft.groups[place.group].kind != DE).then(|| in_item(place, 3, field))?
}

/// A sum whose counter stands in another group.
fn sum_item(rng: &mut Rng, draft: &Draft) -> Option<Change> {
    let place = some_item(rng, draft)?;
    let elsewhere =
        |c: u16| draft.counters.get(c as usize).is_some_and(|it| it.group as usize != place.group);
    if place.item.source != SUM {
        return elsewhere(place.item.index).then(|| in_item(place, 2, SUM))?;
    }
    let others: Vec<u16> = (0..draft.counters.len() as u16).filter(|&c| elsewhere(c)).collect();
    in_item(place, 3, rng.maybe(&others)?)
}

/// A number field or a sum.
fn shows_number(draft: &Draft, item: &Item) -> bool {
    match item.source {
        FIELD => draft.fields[item.index as usize].kind == NUMBER,
        source => source == SUM,
    }
}

fn item_decimals(rng: &mut Rng, draft: &Draft) -> Option<Change> {
    let place = some_item(rng, draft)?;
    let values = if shows_number(draft, &place.item) { [5, 6, 65535] } else { [1, 4, 65535] };
    in_item(place, 4, rng.pick(&values))
}

fn wide_decimals(rng: &mut Rng, draft: &Draft) -> Option<Change> {
    let narrow = |place: &ItemPlace| place.item.width <= 4 && shows_number(draft, &place.item);
    let places: Vec<ItemPlace> = draft.item_places().into_iter().filter(narrow).collect();
    let place = rng.maybe(&places)?;
    in_item(place, 4, place.item.width)
}

fn item_indicate(rng: &mut Rng, draft: &Draft) -> Option<Change> {
    let place = some_item(rng, draft)?;
    let detail = draft.groups[place.group].kind == DE;
    in_item(place, 5, if detail { past(rng, 1) } else { rng.pick(&[1, 1, 2, 65535]) })
}

fn literal_byte(rng: &mut Rng, draft: &Draft, mut image: Image) -> Option<Vec<u8>> {
    let any = index(rng, draft.literals.len())?;
    let at = rng.pick(&[0, draft.literals.len() - 1, any]);
    let place = image.literals() + at;
    image.bytes[place] = rng.pick(&[0, 10, 31, 31, 127, 127, 128, 255]);
    Some(image.bytes)
}

/// The literals end one byte before an item's last.
fn literals_cut(_: &mut Rng, mut draft: Draft) -> Option<Draft> {
    let literal = |place: &ItemPlace| place.item.source == LITERAL;
    let ends = draft.item_places().into_iter().filter(literal);
    let last = ends.map(|place| place.item.index + place.item.width).max()?;
    draft.literals.truncate(last as usize - 1);
    Some(draft)
}

// ---- D8

/// Counters that no item shows.
fn unshown(draft: &Draft) -> Vec<usize> {
    let places = draft.item_places();
    let shown = |c: usize| places.iter().any(|p| p.item.source == SUM && p.item.index as usize == c);
    (0..draft.counters.len()).filter(|&c| !shown(c)).collect()
}

fn counter_group(rng: &mut Rng, draft: &Draft) -> Option<Change> {
    let c = rng.maybe(&unshown(draft))?;
    let groups = draft.groups.len() as u16;
    let mut values: Vec<u16> = (0..groups).filter(|&g| draft.groups[g as usize].kind != CF).collect();
    values.extend([groups, groups, 65535]);
    change(Section::Counters, c, 0, rng.pick(&values))
}

fn reset_level(rng: &mut Rng, draft: &Draft) -> Option<Change> {
    let c = index(rng, draft.counters.len())?;
    let level = draft.counter_level(c);
    change(Section::Counters, c, 1, past(rng, level))
}

fn addends_share(rng: &mut Rng, draft: &Draft) -> Option<Change> {
    let c = index(rng, draft.counters.len())?;
    let column = rng.between(2, 3);
    let value = draft.image().number(Section::Counters, c, column);
    let value = if rng.chance(70) { one_off(rng, value) } else { past(rng, value) };
    change(Section::Counters, c, column, value)
}

fn addends_left(rng: &mut Rng, draft: &Draft, mut image: Image) -> Option<Vec<u8>> {
    let field = index(rng, draft.fields.len())? as u16;
    image.append(Section::Addends, &[ADD_FIELD, field, 1]);
    (draft.addend_count() < 128).then_some(image.bytes)
}

/// An addend of this kind: its counter, its place there and itself.
fn some_addend(rng: &mut Rng, draft: &Draft, kinds: &[u16]) -> Option<(usize, usize, Addend)> {
    let mut places = Vec::new();
    for (c, counter) in draft.counters.iter().enumerate() {
        places.extend(counter.addends.iter().enumerate().map(|(a, &addend)| (c, a, addend)));
    }
    places.retain(|(_, _, addend)| kinds.contains(&addend.kind));
    rng.maybe(&places)
}

fn in_addend(draft: &Draft, counter: usize, addend: usize, column: usize, value: u16) -> Option<Change> {
    change(Section::Addends, draft.first_addend(counter) + addend, column, value)
}

/// A field's mask is not 0 and a counter's is, so the other kind is always wrong.
fn addend_kind(rng: &mut Rng, draft: &Draft) -> Option<Change> {
    let (c, a, addend) = some_addend(rng, draft, &[ADD_FIELD, ADD_COUNTER])?;
    let other = ADD_COUNTER - addend.kind;
    in_addend(draft, c, a, 0, rng.pick(&[other, 2, 256 + addend.kind, 65535]))
}

fn addend_field(rng: &mut Rng, draft: &Draft) -> Option<Change> {
    let (c, a, _) = some_addend(rng, draft, &[ADD_FIELD])?;
    let fields = draft.fields.len() as u16;
    let mut values: Vec<u16> = (0..fields).filter(|&f| draft.fields[f as usize].kind == TEXT).collect();
    values.extend([fields, fields, 65535]);
    in_addend(draft, c, a, 1, rng.pick(&values))
}

/// Itself, a later one of the same footing, one of a more senior footing, or none at all.
fn addend_counter(rng: &mut Rng, draft: &Draft) -> Option<Change> {
    let (c, a, _) = some_addend(rng, draft, &[ADD_COUNTER])?;
    let level = draft.counter_level(c);
    let wrong = |&other: &u16| {
        let other = other as usize;
        draft.counter_level(other) < level || (draft.counter_level(other) == level && other >= c)
    };
    let counters = draft.counters.len() as u16;
    let mut values: Vec<u16> = (0..counters).filter(wrong).collect();
    values.extend([counters, 65535]);
    in_addend(draft, c, a, 1, rng.pick(&values))
}

fn addend_mask(rng: &mut Rng, draft: &Draft) -> Option<Change> {
    let (c, a, addend) = some_addend(rng, draft, &[ADD_FIELD, ADD_COUNTER])?;
    let details = draft.details();
    let value = if addend.kind == ADD_COUNTER {
        rng.pick(&[1, 1, 1 << (details - 1), 32768])
    } else {
        rng.pick(&[0, 1 << details, addend.mask | 1 << details, 1 << 8, 32768, 65535])
    };
    in_addend(draft, c, a, 2, value)
}

fn addend_twice(rng: &mut Rng, draft: &Draft) -> Option<Change> {
    let (c, a, addend) = some_addend(rng, draft, &[ADD_FIELD, ADD_COUNTER])?;
    let own = draft.counters[c].addends.iter().enumerate();
    let like = own.filter(|(other, it)| *other != a && it.kind == addend.kind).map(|(_, it)| it.index);
    in_addend(draft, c, a, 1, rng.maybe(&like.collect::<Vec<u16>>())?)
}

/// The numbers fields as addends, nine of them in one counter.
fn nine_addends(rng: &mut Rng, mut draft: Draft) -> Option<Draft> {
    let c = index(rng, draft.counters.len())?;
    let numbers = (0..draft.fields.len()).filter(|&f| draft.fields[f].kind == NUMBER);
    let addends = numbers.map(|f| Addend { kind: ADD_FIELD, index: f as u16, mask: 1 });
    draft.counters[c].addends = addends.take(9).collect();
    (draft.counters[c].addends.len() == 9 && draft.addend_count() <= 128).then_some(draft)
}

fn no_addend(rng: &mut Rng, mut draft: Draft) -> Option<Draft> {
    let c = index(rng, draft.counters.len())?;
    draft.counters[c].addends.clear();
    Some(draft)
}

/// A counter of a detail, shown by an item of the same detail: D7 lets that pass.
fn counter_in_detail(rng: &mut Rng, mut draft: Draft) -> Option<Draft> {
    let g = rng.pick(&draft.groups_of(DE));
    let number = draft.fields.iter().position(|field| field.kind == NUMBER)? as u16;
    let addend = Addend { kind: ADD_FIELD, index: number, mask: 1 };
    let counter = draft.counters.len() as u16;
    draft.counters.push(Count { group: g as u16, reset: 0, addends: vec![addend] });
    let item = draft.groups[g].lines.first_mut()?.items.first_mut()?;
    *item = Item { source: SUM, index: counter, decimals: 0, ..*item };
    (draft.counters.len() <= 32 && draft.addend_count() <= 128).then_some(draft)
}
