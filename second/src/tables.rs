//! The tables of a description, and what they say of one another.

use crate::layout::PICTURE_BYTES;

// Field kinds.
pub const TEXT: u16 = 0;
pub const NUMBER: u16 = 1;

/// The control that never differs.
pub const FINAL: u16 = 65535;

// Group types.
pub const RH: u16 = 0;
pub const PH: u16 = 1;
pub const CH: u16 = 2;
pub const DE: u16 = 3;
pub const CF: u16 = 4;
pub const PF: u16 = 5;
pub const RF: u16 = 6;

// Next-group kinds.
pub const NEXT_NONE: u16 = 0;
pub const NEXT_ABSOLUTE: u16 = 1;
pub const NEXT_RELATIVE: u16 = 2;
pub const NEXT_PAGE: u16 = 3;

// Line kinds.
pub const LINE_ABSOLUTE: u16 = 0;
pub const LINE_NEXT_PAGE: u16 = 1;
pub const LINE_RELATIVE: u16 = 2;

// Item source kinds.
pub const LITERAL: u16 = 0;
pub const FIELD: u16 = 1;
pub const PAGE_COUNTER: u16 = 2;
pub const LINE_COUNTER: u16 = 3;
pub const SUM: u16 = 4;

/// An item's picture index where it has none.
pub const NO_PICTURE: u16 = 65535;

// Addend kinds.
pub const ADD_FIELD: u16 = 0;
pub const ADD_COUNTER: u16 = 1;

#[derive(Clone, Copy, Debug, Default, PartialEq, Eq)]
pub struct Field {
    pub kind: u16,
    pub offset: u16,
    pub width: u16,
}

impl From<[u16; 3]> for Field {
    fn from([kind, offset, width]: [u16; 3]) -> Field {
        Field { kind, offset, width }
    }
}

#[derive(Clone, Copy, Debug, Default, PartialEq, Eq)]
pub struct Group {
    /// The group's type, `RH` to `RF`.
    pub kind: u16,
    pub level: u16,
    pub first_line: u16,
    pub line_count: u16,
    pub next_kind: u16,
    pub next_integer: u16,
}

impl From<[u16; 6]> for Group {
    fn from([kind, level, first_line, line_count, next_kind, next_integer]: [u16; 6]) -> Group {
        Group { kind, level, first_line, line_count, next_kind, next_integer }
    }
}

#[derive(Clone, Copy, Debug, Default, PartialEq, Eq)]
pub struct Line {
    pub kind: u16,
    pub integer: u16,
    pub first_item: u16,
    pub item_count: u16,
}

impl From<[u16; 4]> for Line {
    fn from([kind, integer, first_item, item_count]: [u16; 4]) -> Line {
        Line { kind, integer, first_item, item_count }
    }
}

#[derive(Clone, Copy, Debug, PartialEq, Eq)]
pub struct Item {
    pub column: u16,
    pub width: u16,
    pub source: u16,
    pub index: u16,
    pub decimals: u16,
    pub indicate: u16,
    /// Index of its picture, or `NO_PICTURE`.
    pub picture: u16,
}

impl Default for Item {
    fn default() -> Item {
        Item::from([0, 0, 0, 0, 0, 0, NO_PICTURE])
    }
}

impl From<[u16; 7]> for Item {
    fn from([column, width, source, index, decimals, indicate, picture]: [u16; 7]) -> Item {
        Item { column, width, source, index, decimals, indicate, picture }
    }
}

impl Item {
    /// Its numbers in file order; version 1 has the first six.
    pub fn numbers(&self) -> [u16; 7] {
        [self.column, self.width, self.source, self.index, self.decimals, self.indicate, self.picture]
    }
}

#[derive(Clone, Copy, Debug, Default, PartialEq, Eq)]
pub struct Counter {
    pub group: u16,
    pub reset: u16,
    pub first_addend: u16,
    pub addend_count: u16,
}

impl From<[u16; 4]> for Counter {
    fn from([group, reset, first_addend, addend_count]: [u16; 4]) -> Counter {
        Counter { group, reset, first_addend, addend_count }
    }
}

#[derive(Clone, Copy, Debug, Default, PartialEq, Eq)]
pub struct Addend {
    pub kind: u16,
    pub index: u16,
    pub mask: u16,
}

impl From<[u16; 3]> for Addend {
    fn from([kind, index, mask]: [u16; 3]) -> Addend {
        Addend { kind, index, mask }
    }
}

/// A picture, padded with blanks.
pub type Picture = [u8; PICTURE_BYTES];

/// The decoded tables of a description, whatever its version.
#[derive(Clone, Debug, Default, PartialEq, Eq)]
pub struct Description {
    pub fields: Vec<Field>,
    pub controls: Vec<u16>,
    pub groups: Vec<Group>,
    pub lines: Vec<Line>,
    pub items: Vec<Item>,
    pub counters: Vec<Counter>,
    pub addends: Vec<Addend>,
    pub literals: Vec<u8>,
    pub pictures: Vec<Picture>,
    pub p: u16,
    pub h: u16,
    pub fd: u16,
    pub ld: u16,
    pub ft: u16,
    pub w: u16,
    pub r: u16,
}

// What the tables say of one another. A function here needs the rule it names to hold.

impl Description {
    /// The group's lines (D5).
    pub fn lines_of(&self, group: &Group) -> &[Line] {
        part(&self.lines, group.first_line, group.line_count)
    }

    /// The line's items (D6).
    pub fn items_of(&self, line: &Line) -> &[Item] {
        part(&self.items, line.first_item, line.item_count)
    }

    /// The counter's addends (D8).
    pub fn addends_of(&self, counter: &Counter) -> &[Addend] {
        part(&self.addends, counter.first_addend, counter.addend_count)
    }

    /// "With span the sum of later steps" (D5).
    pub fn span(&self, group: &Group) -> u32 {
        self.lines_of(group).iter().skip(1).map(|line| u32::from(line.integer)).sum()
    }

    /// "Details are numbered in group order": the group index of detail `d`.
    pub fn detail(&self, d: u32) -> Option<usize> {
        self.indexes_of(DE).nth(d as usize)
    }

    /// The detail number of the group at an index; `None` where that is no detail.
    pub fn detail_number(&self, group: usize) -> Option<usize> {
        self.indexes_of(DE).position(|detail| detail == group)
    }

    pub fn detail_count(&self) -> usize {
        self.indexes_of(DE).count()
    }

    /// The index of the one group of this type and level.
    pub fn group_at(&self, kind: u16, level: u16) -> Option<usize> {
        self.groups.iter().position(|group| group.kind == kind && group.level == level)
    }

    /// The index of the heading or footing of this type that has lines. "A heading or footing without lines
    /// counts here as absent."
    pub fn lined(&self, kind: u16) -> Option<usize> {
        self.indexes_of(kind).find(|&g| self.groups[g].line_count > 0)
    }

    fn indexes_of(&self, kind: u16) -> impl Iterator<Item = usize> + '_ {
        (0..self.groups.len()).filter(move |&g| self.groups[g].kind == kind)
    }
}

fn part<T>(table: &[T], first: u16, count: u16) -> &[T] {
    let first = usize::from(first);
    &table[first..first + usize::from(count)]
}
