//! The description file: CHECK, the rules D1 to D8 and rule 9. The tables that it gives are in `tables`.

pub use crate::tables::*;

use crate::layout::{Layout, PICTURE_BYTES};
use crate::picture;
use crate::starts;

/// CHECK: the tables, or the lowest broken rule, 1 to 9.
pub fn check(bytes: &[u8]) -> Result<Description, u8> {
    let description = d1(bytes).ok_or(1)?;
    let rules: [fn(&Description) -> bool; 8] = [d2, d3, d4, d5, d6, d7, d8, rule_9];
    for (rule, number) in rules.iter().zip(2..) {
        if !rule(&description) {
            return Err(number);
        }
    }
    Ok(description)
}

// D1

/// "At least 48 bytes; version 1; first start 0, each section beginning where the one before ends, literals
/// ending at the trailer", and no section with too many entries. R-4's version 2 asks the same of its own layout: at
/// least 52 bytes, and its pictures end at the trailer.
fn d1(bytes: &[u8]) -> Option<Description> {
    // The version is the file's last number: it tells how long the trailer is.
    let (_, version) = bytes.split_last_chunk()?;
    let layout = Layout::of(u16::from_le_bytes(*version))?;
    let (body, trailer) = bytes.split_at(bytes.len().checked_sub(layout.trailer_bytes())?);
    let trailer = numbers(trailer);
    let (sections, limits) = trailer.split_at(2 * layout.section_count);
    let &[p, h, fd, ld, ft, w, r, _] = limits else { return None };
    let sections = sections_of(body, sections, layout)?;
    Some(Description {
        fields: entries(sections[0], Field::from),
        controls: numbers(sections[1]),
        groups: entries(sections[2], Group::from),
        lines: entries(sections[3], Line::from),
        items: items(sections[4], layout),
        counters: entries(sections[5], Counter::from),
        addends: entries(sections[6], Addend::from),
        literals: sections[7].to_vec(),
        pictures: sections.get(8).map_or(Vec::new(), |section| pictures(section)),
        p,
        h,
        fd,
        ld,
        ft,
        w,
        r,
    })
}

/// The bytes of each section, by the trailer's starts and counts.
fn sections_of<'a>(body: &'a [u8], starts_and_counts: &[u16], layout: Layout) -> Option<Vec<&'a [u8]>> {
    let mut sections = Vec::with_capacity(layout.section_count);
    let mut place = 0;
    for (pair, (size, most)) in starts_and_counts.chunks_exact(2).zip(layout.sections()) {
        let (start, count) = (usize::from(pair[0]), usize::from(pair[1]));
        if start != place || count > most {
            return None;
        }
        place += count * size;
        sections.push(body.get(start..place)?);
    }
    (place == body.len()).then_some(sections)
}

/// "Numbers are 2 bytes, low byte first."
fn numbers(bytes: &[u8]) -> Vec<u16> {
    bytes.chunks_exact(2).map(|pair| u16::from_le_bytes([pair[0], pair[1]])).collect()
}

/// The entries of a section, of `N` numbers each.
fn entries<const N: usize, T>(section: &[u8], entry: fn([u16; N]) -> T) -> Vec<T> {
    let number = |bytes: &[u8], i: usize| u16::from_le_bytes([bytes[2 * i], bytes[2 * i + 1]]);
    section.chunks_exact(2 * N).map(|bytes| entry(std::array::from_fn(|i| number(bytes, i)))).collect()
}

/// The items, of as many numbers as the version gives them; a picture that it does not give is none.
fn items(section: &[u8], layout: Layout) -> Vec<Item> {
    let item = |entry: &[u8]| {
        let mut all = [NO_PICTURE; 7];
        all[..layout.item_numbers].copy_from_slice(&numbers(entry));
        Item::from(all)
    };
    section.chunks_exact(2 * layout.item_numbers).map(item).collect()
}

fn pictures(section: &[u8]) -> Vec<Picture> {
    section.chunks_exact(PICTURE_BYTES).map(|entry| std::array::from_fn(|i| entry[i])).collect()
}

// D2

/// "1 ≤ H ≤ FD ≤ LD ≤ FT ≤ P ≤ 999; W 1 to 132; R 1 to 256."
fn d2(d: &Description) -> bool {
    [1, d.h, d.fd, d.ld, d.ft, d.p, 999].is_sorted() && (1..=132).contains(&d.w) && (1..=256).contains(&d.r)
}

// D3

/// "Fields inside the record; text width 1 to 64, number width 2 to 18."
fn d3(d: &Description) -> bool {
    d.fields.iter().all(|field| {
        let width_is_right = match field.kind {
            TEXT => (1..=64).contains(&field.width),
            NUMBER => (2..=18).contains(&field.width),
            _ => false,
        };
        width_is_right && u32::from(field.offset) + u32::from(field.width) <= u32::from(d.r)
    })
}

// D4

/// "FINAL only first; other indexes exist, none twice."
fn d4(d: &Description) -> bool {
    d.controls.iter().enumerate().all(|(level, &control)| {
        let exists = if control == FINAL { level == 0 } else { usize::from(control) < d.fields.len() };
        exists && !d.controls[..level].contains(&control)
    })
}

// D5

fn d5(d: &Description) -> bool {
    d.groups.iter().all(|group| level_is_right(d, group) && next_group_is_right(d, group))
        && headings_and_footings_stand_once(d)
        && (1..=8).contains(&d.detail_count())
        && shared_out(d.groups.iter().map(|group| (group.first_line, group.line_count)), d.lines.len())
}

/// "Levels existing; other types have level 0."
fn level_is_right(d: &Description, group: &Group) -> bool {
    match group.kind {
        CH | CF => usize::from(group.level) < d.controls.len(),
        RH | PH | DE | PF | RF => group.level == 0,
        _ => false,
    }
}

/// "Next group only on CH, DE, CF: absolute FD to FT, relative 1 to 999, else integer 0."
fn next_group_is_right(d: &Description, group: &Group) -> bool {
    let may_have_one = matches!(group.kind, CH | DE | CF);
    match group.next_kind {
        NEXT_NONE => group.next_integer == 0,
        NEXT_ABSOLUTE => may_have_one && (d.fd..=d.ft).contains(&group.next_integer),
        NEXT_RELATIVE => may_have_one && (1..=999).contains(&group.next_integer),
        NEXT_PAGE => may_have_one && group.next_integer == 0,
        _ => false,
    }
}

/// "At most one each of RH, PH, PF, RF; at most one CH and one CF per level." (The first four have level 0.)
fn headings_and_footings_stand_once(d: &Description) -> bool {
    d.groups.iter().enumerate().all(|(g, group)| {
        group.kind == DE || !d.groups[..g].iter().any(|o| o.kind == group.kind && o.level == group.level)
    })
}

/// "Shared out in order, each used once": every owner's first is where the one before ends, and nothing is left.
fn shared_out(owners: impl Iterator<Item = (u16, u16)>, total: usize) -> bool {
    let mut place = 0;
    for (first, count) in owners {
        if usize::from(first) != place {
            return false;
        }
        place += usize::from(count);
    }
    place == total
}

// D6

fn d6(d: &Description) -> bool {
    d.groups.iter().all(|group| lines_are_right(d, group))
        && shared_out(d.lines.iter().map(|line| (line.first_item, line.item_count)), d.items.len())
        && d.groups.iter().all(|group| fits(d, group))
}

/// "At most 16 lines a group; first line integer 1 to 999, later lines relative 1 to 99."
fn lines_are_right(d: &Description, group: &Group) -> bool {
    let Some((first, later)) = d.lines_of(group).split_first() else {
        return true;
    };
    group.line_count <= 16
        && first_line_kind_is_right(group.kind, first.kind)
        && (1..=999).contains(&first.integer)
        && later.iter().all(|line| line.kind == LINE_RELATIVE && (1..=99).contains(&line.integer))
}

/// "First lines: PF absolute only; RH, PH absolute or relative; others any."
fn first_line_kind_is_right(group_kind: u16, line_kind: u16) -> bool {
    match group_kind {
        PF => line_kind == LINE_ABSOLUTE,
        RH | PH => matches!(line_kind, LINE_ABSOLUTE | LINE_RELATIVE),
        _ => matches!(line_kind, LINE_ABSOLUTE | LINE_NEXT_PAGE | LINE_RELATIVE),
    }
}

/// "With span the sum of later steps, the group must fit."
fn fits(d: &Description, group: &Group) -> bool {
    let Some(first) = d.lines_of(group).first() else {
        return true;
    };
    let [p, h, fd, ld, ft] = [d.p, d.h, d.fd, d.ld, d.ft].map(u32::from);
    // "CH, DE in FD..LD and CF in FD..FT, taking first line n, or FD where relative"
    let body_start = if first.kind == LINE_RELATIVE { fd } else { u32::from(first.integer) };
    let (start, from, to) = match group.kind {
        CH | DE => (body_start, fd, ld),
        CF => (body_start, fd, ft),
        // "RH, PH in H..FD−1"
        RH => (starts::report_heading_line(d, group), h, fd - 1),
        // "PH starts below RH's last line"
        PH => (starts::first_page_heading_line(d, group), h.max(starts::report_heading_end(d) + 1), fd - 1),
        // "PF in FT+1..P"
        PF => (u32::from(first.integer), ft + 1, p),
        // "RF in FT+1..P, or H..P where next page"; "not on a page of its own starts below PF's last line"
        _ if first.kind == LINE_NEXT_PAGE => (u32::from(first.integer), h, p),
        _ => (starts::report_footing_line(d, group), starts::page_footing_end(d) + 1, p),
    };
    from <= start && start + d.span(group) <= to
}

// D7

fn d7(d: &Description) -> bool {
    let items_are_right = |g: usize| {
        let mut lines = d.lines_of(&d.groups[g]).iter();
        lines.all(|line| {
            columns_rise(d, line) && d.items_of(line).iter().all(|item| item_is_right(d, g, item))
        })
    };
    // "Literal bytes 32 to 126"
    d.literals.iter().all(|byte| (32..=126).contains(byte)) && (0..d.groups.len()).all(items_are_right)
}

/// "Items rise in column without overlap, inside 1..W, width at least 1."
fn columns_rise(d: &Description, line: &Line) -> bool {
    let mut end = 0;
    for item in d.items_of(line) {
        if item.width < 1 || u32::from(item.column) <= end {
            return false;
        }
        end = u32::from(item.column) + u32::from(item.width) - 1;
    }
    end <= u32::from(d.w)
}

fn item_is_right(d: &Description, g: usize, item: &Item) -> bool {
    let index = usize::from(item.index);
    let in_detail = d.groups[g].kind == DE;
    let source_is_right = match item.source {
        // "Index exists, for a literal with the item's whole width"
        LITERAL => index + usize::from(item.width) <= d.literals.len(),
        // "Outside DE a field item names a control's field."
        FIELD => index < d.fields.len() && (in_detail || d.controls.contains(&item.index)),
        // "0 for kinds 2 and 3"
        PAGE_COUNTER | LINE_COUNTER => index == 0,
        // "A sum item stands in its counter's own group."
        SUM => d.counters.get(index).is_some_and(|counter| usize::from(counter.group) == g),
        _ => false,
    };
    // "Indicate only in DE."
    let indicate_is_right = item.indicate == 0 || (item.indicate == 1 && in_detail);
    source_is_right && indicate_is_right && decimals_are_right(d, item)
}

/// "Decimals 0 to 4 and below the width, 0 unless a number field or sum."
fn decimals_are_right(d: &Description, item: &Item) -> bool {
    let is_number = match item.source {
        FIELD => d.fields[usize::from(item.index)].kind == NUMBER,
        SUM => true,
        _ => false,
    };
    item.decimals == 0 || (is_number && item.decimals <= 4 && item.decimals < item.width)
}

// D8

fn d8(d: &Description) -> bool {
    d.counters.iter().all(|counter| counter_is_right(d, counter))
        && shared_out(d.counters.iter().map(|c| (c.first_addend, c.addend_count)), d.addends.len())
        && (0..d.counters.len()).all(|c| addends_are_right(d, c))
}

/// "Group is a CF; reset level no greater than its group's; 1 to 8 addends."
fn counter_is_right(d: &Description, counter: &Counter) -> bool {
    d.groups
        .get(usize::from(counter.group))
        .is_some_and(|group| group.kind == CF && counter.reset <= group.level)
        && (1..=8).contains(&counter.addend_count)
}

/// "None with the same kind and index twice."
fn addends_are_right(d: &Description, c: usize) -> bool {
    let addends = d.addends_of(&d.counters[c]);
    addends.iter().enumerate().all(|(a, addend)| {
        let named_before = addends[..a].iter().any(|o| o.kind == addend.kind && o.index == addend.index);
        !named_before
            && match addend.kind {
                ADD_FIELD => field_addend_is_right(d, addend),
                ADD_COUNTER => counter_addend_is_right(d, c, addend),
                _ => false,
            }
    })
}

/// "Field addends: number fields, mask nonzero and naming details only."
fn field_addend_is_right(d: &Description, addend: &Addend) -> bool {
    d.fields.get(usize::from(addend.index)).is_some_and(|field| field.kind == NUMBER)
        && addend.mask != 0
        && addend.mask >> d.detail_count() == 0
}

/// "Counter addends: mask 0, a counter of a more junior CF, or an earlier one of the same CF."
fn counter_addend_is_right(d: &Description, c: usize, addend: &Addend) -> bool {
    let named = usize::from(addend.index);
    let Some(counter) = d.counters.get(named) else {
        return false;
    };
    let level = |group: u16| d.groups[usize::from(group)].level;
    let own = d.counters[c].group;
    addend.mask == 0 && (level(counter.group) > level(own) || (counter.group == own && named < c))
}

// Rule 9

/// "all else asked here of a picture, used or not, and of its item and index is rule 9 of refusal 1, after D8".
fn rule_9(d: &Description) -> bool {
    d.pictures.iter().all(picture::is_right) && d.items.iter().all(|item| picture_suits(d, item))
}

/// "A last number on each item, its index there or 65535 for none, which text and literal items have"; "the item's
/// width is the picture's length"; "as many 9s as the item has decimals".
fn picture_suits(d: &Description, item: &Item) -> bool {
    if item.picture == NO_PICTURE {
        return true;
    }
    let shows_text = match item.source {
        LITERAL => true,
        FIELD => d.fields[usize::from(item.index)].kind == TEXT,
        _ => false,
    };
    let suits = |picture: &Picture| {
        usize::from(item.width) == picture::text(picture).len()
            && usize::from(item.decimals) == picture::decimals(picture)
    };
    !shows_text && d.pictures.get(usize::from(item.picture)).is_some_and(suits)
}
