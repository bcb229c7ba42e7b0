//! Makes description bytes.

use crate::description::{
    Addend, Counter, Description, Field, Group, Item, Line, Picture, ADD_COUNTER, ADD_FIELD, NUMBER, TEXT,
};
use crate::layout::{Layout, PICTURE_BYTES};

/// The tables under work. Every number is open to the caller, so that broken descriptions can be made too.
#[derive(Clone, Debug, PartialEq, Eq)]
pub struct Builder {
    pub tables: Description,
    pub version: u16,
}

impl Builder {
    /// A page of `p` lines with the limits `h`, `fd`, `ld`, `ft`; width `w`, record length `r`, version 1.
    pub fn new(p: u16, h: u16, fd: u16, ld: u16, ft: u16, w: u16, r: u16) -> Builder {
        Builder { tables: Description { p, h, fd, ld, ft, w, r, ..Description::default() }, version: 1 }
    }

    /// Adds a field and gives its index.
    pub fn field(&mut self, kind: u16, offset: u16, width: u16) -> u16 {
        self.tables.fields.push(Field { kind, offset, width });
        last(&self.tables.fields)
    }

    pub fn text(&mut self, offset: u16, width: u16) -> u16 {
        self.field(TEXT, offset, width)
    }

    pub fn number(&mut self, offset: u16, width: u16) -> u16 {
        self.field(NUMBER, offset, width)
    }

    /// Adds a control below those before it and gives its level.
    pub fn control(&mut self, field: u16) -> u16 {
        self.tables.controls.push(field);
        last(&self.tables.controls)
    }

    /// Adds a group without lines and gives its index; the next lines are its.
    pub fn group(&mut self, kind: u16, level: u16) -> u16 {
        let first_line = self.tables.lines.len() as u16;
        self.tables.groups.push(Group { kind, level, first_line, ..Group::default() });
        last(&self.tables.groups)
    }

    /// Gives the last group its next group.
    pub fn next(&mut self, kind: u16, integer: u16) {
        if let Some(group) = self.tables.groups.last_mut() {
            group.next_kind = kind;
            group.next_integer = integer;
        }
    }

    /// Adds a line without items to the last group and gives its index; the next items are its.
    pub fn line(&mut self, kind: u16, integer: u16) -> u16 {
        let first_item = self.tables.items.len() as u16;
        self.tables.lines.push(Line { kind, integer, first_item, item_count: 0 });
        if let Some(group) = self.tables.groups.last_mut() {
            group.line_count += 1;
        }
        last(&self.tables.lines)
    }

    /// Adds an item to the last line and gives its index.
    pub fn item(&mut self, item: Item) -> u16 {
        self.tables.items.push(item);
        if let Some(line) = self.tables.lines.last_mut() {
            line.item_count += 1;
        }
        last(&self.tables.items)
    }

    /// Adds a literal item, its bytes at the end of the literal section.
    pub fn literal(&mut self, column: u16, text: &str) -> u16 {
        let index = self.tables.literals.len() as u16;
        self.tables.literals.extend_from_slice(text.as_bytes());
        self.item(Item { column, width: text.len() as u16, index, ..Item::default() })
    }

    /// Adds a counter without addends and gives its index; the next addends are its.
    pub fn counter(&mut self, group: u16, reset: u16) -> u16 {
        let first_addend = self.tables.addends.len() as u16;
        self.tables.counters.push(Counter { group, reset, first_addend, addend_count: 0 });
        last(&self.tables.counters)
    }

    /// Adds an addend to the last counter and gives its index.
    pub fn addend(&mut self, kind: u16, index: u16, mask: u16) -> u16 {
        self.tables.addends.push(Addend { kind, index, mask });
        if let Some(counter) = self.tables.counters.last_mut() {
            counter.addend_count += 1;
        }
        last(&self.tables.addends)
    }

    pub fn add_field(&mut self, field: u16, mask: u16) -> u16 {
        self.addend(ADD_FIELD, field, mask)
    }

    pub fn add_counter(&mut self, counter: u16) -> u16 {
        self.addend(ADD_COUNTER, counter, 0)
    }

    /// Adds a picture of at most 24 characters, or finds the one that is there already, and gives its index. The
    /// description is one of version 2.
    pub fn picture(&mut self, text: &str) -> u16 {
        self.version = 2;
        let picture = padded(text.as_bytes());
        let pictures = &mut self.tables.pictures;
        if let Some(index) = pictures.iter().position(|other| *other == picture) {
            return index as u16;
        }
        pictures.push(picture);
        last(pictures)
    }

    /// The layout of its version; a version that is not accepted is laid out as version 1.
    fn layout(&self) -> Layout {
        Layout::of(self.version).unwrap_or_default()
    }

    /// The trailer's numbers: start and count of each section, then P, H, FD, LD, FT, W, R, version.
    pub fn trailer(&self) -> Vec<u16> {
        let t = &self.tables;
        let counts = [
            t.fields.len(),
            t.controls.len(),
            t.groups.len(),
            t.lines.len(),
            t.items.len(),
            t.counters.len(),
            t.addends.len(),
            t.literals.len(),
            t.pictures.len(),
        ];
        let mut trailer = Vec::new();
        let mut start = 0;
        for (count, (size, _)) in counts.into_iter().zip(self.layout().sections()) {
            trailer.extend([start as u16, count as u16]);
            start += count * size;
        }
        trailer.extend([t.p, t.h, t.fd, t.ld, t.ft, t.w, t.r, self.version]);
        trailer
    }

    /// The description's bytes.
    pub fn bytes(&self) -> Vec<u8> {
        self.bytes_with_trailer(&self.trailer())
    }

    /// The sections followed by any trailer.
    pub fn bytes_with_trailer(&self, trailer: &[u16]) -> Vec<u8> {
        let t = &self.tables;
        let layout = self.layout();
        let mut bytes = Vec::new();
        let mut put = |numbers: &[u16]| bytes.extend(numbers.iter().flat_map(|number| number.to_le_bytes()));
        t.fields.iter().for_each(|f| put(&[f.kind, f.offset, f.width]));
        put(&t.controls);
        for g in &t.groups {
            put(&[g.kind, g.level, g.first_line, g.line_count, g.next_kind, g.next_integer]);
        }
        t.lines.iter().for_each(|l| put(&[l.kind, l.integer, l.first_item, l.item_count]));
        t.items.iter().for_each(|i| put(&i.numbers()[..layout.item_numbers]));
        t.counters.iter().for_each(|c| put(&[c.group, c.reset, c.first_addend, c.addend_count]));
        t.addends.iter().for_each(|a| put(&[a.kind, a.index, a.mask]));
        bytes.extend_from_slice(&t.literals);
        bytes.extend(t.pictures.iter().filter(|_| layout.has_pictures()).flatten());
        bytes.extend(trailer.iter().flat_map(|number| number.to_le_bytes()));
        bytes
    }
}

/// A picture's entry: its characters, the first 24 at most, "padded with blanks".
pub fn padded(text: &[u8]) -> Picture {
    let mut picture = [b' '; PICTURE_BYTES];
    let length = text.len().min(PICTURE_BYTES);
    picture[..length].copy_from_slice(&text[..length]);
    picture
}

/// The index of a table's last entry.
fn last<T>(table: &[T]) -> u16 {
    (table.len() - 1) as u16
}
