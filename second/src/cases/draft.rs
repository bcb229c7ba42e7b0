//! A description under work: groups hold their lines, lines their items, counters their addends.
//! `image` lays the sections out; `read` takes an accepted description apart again.

use crate::description::{
    Addend, Field, Item, Picture, CF, CH, DE, FINAL, LINE_RELATIVE, NO_PICTURE, PF, PH, RF, RH,
};
use crate::layout::{Layout, LIMIT_NUMBERS, PICTURE_BYTES};

#[derive(Clone, Debug, Default, PartialEq, Eq)]
pub struct Draft {
    /// The version's.
    pub layout: Layout,
    pub fields: Vec<Field>,
    pub controls: Vec<u16>,
    pub groups: Vec<Block>,
    pub counters: Vec<Count>,
    pub literals: Vec<u8>,
    /// None in version 1.
    pub pictures: Vec<Picture>,
    pub page: Page,
    pub width: u16,
    pub record: u16,
}

/// A group with its lines.
#[derive(Clone, Debug, Default, PartialEq, Eq)]
pub struct Block {
    pub kind: u16,
    pub level: u16,
    pub next: u16,
    pub integer: u16,
    pub lines: Vec<Row>,
}

/// A line with its items.
#[derive(Clone, Debug, Default, PartialEq, Eq)]
pub struct Row {
    pub kind: u16,
    pub integer: u16,
    pub items: Vec<Item>,
}

/// A counter with its addends.
#[derive(Clone, Debug, Default, PartialEq, Eq)]
pub struct Count {
    pub group: u16,
    pub reset: u16,
    pub addends: Vec<Addend>,
}

#[derive(Clone, Copy, Debug, Default, PartialEq, Eq)]
pub struct Page {
    pub p: u16,
    pub h: u16,
    pub fd: u16,
    pub ld: u16,
    pub ft: u16,
}

/// The sections in file order; the trailer, and the trailer's last numbers, as sections of one entry. In version 1 the
/// pictures are a section of no bytes that the trailer knows nothing of.
#[derive(Clone, Copy, Debug, PartialEq, Eq)]
pub enum Section {
    Fields,
    Controls,
    Groups,
    Lines,
    Items,
    Counters,
    Addends,
    Literals,
    Pictures,
    Trailer,
    Limits,
}

/// The sections of the last version.
pub const SECTIONS: [Section; 9] = [
    Section::Fields,
    Section::Controls,
    Section::Groups,
    Section::Lines,
    Section::Items,
    Section::Counters,
    Section::Addends,
    Section::Literals,
    Section::Pictures,
];

/// Places in `Section::Limits`.
pub const AT_P: usize = 0;
pub const AT_H: usize = 1;
pub const AT_FD: usize = 2;
pub const AT_LD: usize = 3;
pub const AT_FT: usize = 4;
pub const AT_W: usize = 5;
pub const AT_R: usize = 6;
pub const AT_VERSION: usize = 7;

/// Bytes of one entry.
pub fn entry_bytes(layout: Layout, section: Section) -> usize {
    match section {
        Section::Trailer => layout.trailer_bytes(),
        Section::Limits => 2 * LIMIT_NUMBERS,
        _ => layout.sections()[section as usize].0,
    }
}

impl Row {
    pub fn new(kind: u16, integer: u16) -> Row {
        Row { kind, integer, items: Vec::new() }
    }
}

impl Block {
    /// A group without lines and without a next group.
    pub fn new(kind: u16, level: u16) -> Block {
        Block { kind, level, ..Block::default() }
    }

    /// Whether it has an indicated item.
    pub fn indicates(&self) -> bool {
        self.lines.iter().flat_map(|line| &line.items).any(|item| item.indicate == 1)
    }

    /// CH, DE or CF.
    pub fn is_body(&self) -> bool {
        matches!(self.kind, CH | DE | CF)
    }

    /// The sum of the later lines' steps.
    pub fn span(&self) -> u16 {
        self.lines.iter().skip(1).map(|line| line.integer).sum()
    }

    /// Where RH, PH, PF or RF begins when its relative form counts from `above`; it has lines.
    pub fn start(&self, above: u16) -> u16 {
        let first = &self.lines[0];
        if first.kind == LINE_RELATIVE {
            above + first.integer
        } else {
            first.integer
        }
    }

    /// Kind of the first line; `None` without lines.
    pub fn first_kind(&self) -> Option<u16> {
        self.lines.first().map(|line| line.kind)
    }
}

impl Draft {
    /// The sections that its version has.
    pub fn sections(&self) -> &'static [Section] {
        &SECTIONS[..self.layout.section_count]
    }

    /// The most entries a section may have (D1); 0 where its version has no such section.
    pub fn limit(&self, section: Section) -> usize {
        self.layout.sections().get(section as usize).map_or(0, |&(_, most)| most)
    }

    /// All items, in file order.
    pub fn items_mut(&mut self) -> impl Iterator<Item = &mut Item> {
        self.groups.iter_mut().flat_map(|group| &mut group.lines).flat_map(|line| &mut line.items)
    }

    pub fn item_mut(&mut self, place: ItemPlace) -> &mut Item {
        &mut self.groups[place.group].lines[place.line].items[place.nth]
    }

    /// The picture of an item.
    pub fn picture_of(&self, item: &Item) -> Option<&Picture> {
        self.pictures.get(item.picture as usize)
    }

    /// Puts a picture at this index; items keep theirs.
    pub fn insert_picture(&mut self, at: usize, picture: Picture) {
        self.pictures.insert(at, picture);
        let moved = |item: &&mut Item| item.picture != NO_PICTURE && item.picture as usize >= at;
        self.items_mut().filter(moved).for_each(|item| item.picture += 1);
    }

    pub fn details(&self) -> usize {
        self.groups.iter().filter(|group| group.kind == DE).count()
    }

    /// Indexes of the groups of a type, in group order.
    pub fn groups_of(&self, kind: u16) -> Vec<usize> {
        (0..self.groups.len()).filter(|&g| self.groups[g].kind == kind).collect()
    }

    /// The one group of a type, where it has lines.
    pub fn printed(&self, kind: u16) -> Option<&Block> {
        self.groups.iter().find(|group| group.kind == kind && !group.lines.is_empty())
    }

    pub fn group_at(&self, kind: u16, level: usize) -> Option<&Block> {
        self.groups.iter().find(|group| group.kind == kind && group.level as usize == level)
    }

    pub fn lines_of(&self, kind: u16) -> usize {
        self.printed(kind).map_or(0, |group| group.lines.len())
    }

    pub fn line_count(&self) -> usize {
        self.groups.iter().map(|group| group.lines.len()).sum()
    }

    pub fn item_count(&self) -> usize {
        self.groups.iter().flat_map(|group| &group.lines).map(|line| line.items.len()).sum()
    }

    pub fn addend_count(&self) -> usize {
        self.counters.iter().map(|counter| counter.addends.len()).sum()
    }

    pub fn entry_count(&self, section: Section) -> usize {
        match section {
            Section::Fields => self.fields.len(),
            Section::Controls => self.controls.len(),
            Section::Groups => self.groups.len(),
            Section::Lines => self.line_count(),
            Section::Items => self.item_count(),
            Section::Counters => self.counters.len(),
            Section::Addends => self.addend_count(),
            Section::Literals => self.literals.len(),
            Section::Pictures => self.pictures.len(),
            Section::Trailer | Section::Limits => 1,
        }
    }

    /// The control fields, FINAL left out.
    pub fn control_fields(&self) -> Vec<u16> {
        self.controls.iter().copied().filter(|&control| control != FINAL).collect()
    }

    /// Level of a counter's group.
    pub fn counter_level(&self, counter: usize) -> u16 {
        self.groups[self.counters[counter].group as usize].level
    }

    /// RH's last line, or H − 1 without one.
    pub fn rh_end(&self) -> u16 {
        let above = self.page.h - 1;
        self.printed(RH).map_or(above, |group| group.start(above) + group.span())
    }

    /// PF's last line, or FT without one.
    pub fn pf_end(&self) -> u16 {
        let above = self.page.ft;
        self.printed(PF).map_or(above, |group| group.start(above) + group.span())
    }

    /// First and last line a group may print on; RF not on a page of its own.
    pub fn window(&self, kind: u16) -> (u16, u16) {
        let page = &self.page;
        match kind {
            RH | PH => (page.h, page.fd - 1),
            CH | DE => (page.fd, page.ld),
            CF => (page.fd, page.ft),
            _ => (page.ft + 1, page.p),
        }
    }

    /// The line that a relative RH, PH or RF counts from.
    pub fn base(&self, kind: u16) -> u16 {
        match kind {
            PH => self.rh_end(),
            RF => self.pf_end(),
            _ => self.page.h - 1,
        }
    }

    /// Place of a group's first line among all lines.
    pub fn first_line(&self, group: usize) -> usize {
        self.groups[..group].iter().map(|earlier| earlier.lines.len()).sum()
    }

    /// Place of a counter's first addend among all addends.
    pub fn first_addend(&self, counter: usize) -> usize {
        self.counters[..counter].iter().map(|earlier| earlier.addends.len()).sum()
    }

    /// Places of all items: their number in the file, group and line.
    pub fn item_places(&self) -> Vec<ItemPlace> {
        let mut places = Vec::new();
        for (group, block) in self.groups.iter().enumerate() {
            for (line, row) in block.lines.iter().enumerate() {
                for (nth, &item) in row.items.iter().enumerate() {
                    places.push(ItemPlace { entry: places.len(), group, line, nth, item });
                }
            }
        }
        places
    }
}

/// Where an item stands.
#[derive(Clone, Copy, Debug)]
pub struct ItemPlace {
    pub entry: usize,
    pub group: usize,
    pub line: usize,
    pub nth: usize,
    pub item: Item,
}

/// A description's bytes, with places known: any number can be changed on its own.
#[derive(Clone, Debug)]
pub struct Image {
    pub bytes: Vec<u8>,
    layout: Layout,
    /// By section.
    starts: [usize; 11],
}

/// One number of the file to be replaced.
#[derive(Clone, Copy, Debug)]
pub struct Change {
    pub section: Section,
    pub entry: usize,
    pub column: usize,
    pub value: u16,
}

impl Image {
    /// Where a number stands in the file.
    fn place(&self, section: Section, entry: usize, column: usize) -> usize {
        self.starts[section as usize] + entry * entry_bytes(self.layout, section) + 2 * column
    }

    pub fn number(&self, section: Section, entry: usize, column: usize) -> u16 {
        let at = self.place(section, entry, column);
        u16::from_le_bytes([self.bytes[at], self.bytes[at + 1]])
    }

    pub fn change(&mut self, change: Change) {
        let at = self.place(change.section, change.entry, change.column);
        self.bytes[at..at + 2].copy_from_slice(&change.value.to_le_bytes());
    }

    fn change_trailer(&mut self, column: usize, value: u16) {
        self.change(Change { section: Section::Trailer, entry: 0, column, value });
    }

    /// Byte place of the literals' first byte.
    pub fn literals(&self) -> usize {
        self.starts[Section::Literals as usize]
    }

    /// Byte place of a picture.
    pub fn picture(&self, index: usize) -> usize {
        self.starts[Section::Pictures as usize] + index * PICTURE_BYTES
    }

    /// Byte place of the trailer.
    pub fn trailer(&self) -> usize {
        self.starts[Section::Trailer as usize]
    }

    /// Puts one more entry at a section's end, owned by nothing, and sets the trailer right.
    pub fn append(&mut self, section: Section, numbers: &[u16]) {
        let place = section as usize;
        let end = self.starts[place + 1];
        let entry: Vec<u8> = numbers.iter().flat_map(|number| number.to_le_bytes()).collect();
        self.bytes.splice(end..end, entry.iter().copied());
        self.starts[place + 1..].iter_mut().for_each(|start| *start += entry.len());
        for later in place + 1..self.layout.section_count {
            self.change_trailer(2 * later, self.starts[later] as u16);
        }
        let column = 2 * place + 1;
        self.change_trailer(column, self.number(Section::Trailer, 0, column) + 1);
    }

    /// Swaps two neighbouring entries.
    pub fn swap(&mut self, section: Section, entry: usize) {
        let size = entry_bytes(self.layout, section);
        let at = self.place(section, entry, 0);
        self.bytes[at..at + 2 * size].rotate_left(size);
    }
}

impl Draft {
    pub fn image(&self) -> Image {
        let mut bytes = Vec::new();
        let mut starts = [0; 11];
        let sections = [
            self.field_numbers(),
            self.controls.clone(),
            self.group_numbers(),
            self.line_numbers(),
            self.item_numbers(),
            self.counter_numbers(),
            self.addend_numbers(),
        ];
        for (section, numbers) in sections.iter().enumerate() {
            starts[section] = bytes.len();
            push_numbers(&mut bytes, numbers);
        }
        starts[7] = bytes.len();
        bytes.extend_from_slice(&self.literals);
        starts[8] = bytes.len();
        bytes.extend(self.pictures.iter().flatten());
        starts[9] = bytes.len();
        push_numbers(&mut bytes, &self.trailer_numbers(&starts));
        starts[10] = bytes.len() - 2 * LIMIT_NUMBERS;
        Image { bytes, layout: self.layout, starts }
    }

    pub fn bytes(&self) -> Vec<u8> {
        self.image().bytes
    }

    fn field_numbers(&self) -> Vec<u16> {
        self.fields.iter().flat_map(|f| [f.kind, f.offset, f.width]).collect()
    }

    fn group_numbers(&self) -> Vec<u16> {
        let mut numbers = Vec::new();
        let mut first = 0;
        for group in &self.groups {
            let count = group.lines.len() as u16;
            numbers.extend([group.kind, group.level, first, count, group.next, group.integer]);
            first += count;
        }
        numbers
    }

    fn line_numbers(&self) -> Vec<u16> {
        let mut numbers = Vec::new();
        let mut first = 0;
        for line in self.groups.iter().flat_map(|group| &group.lines) {
            let count = line.items.len() as u16;
            numbers.extend([line.kind, line.integer, first, count]);
            first += count;
        }
        numbers
    }

    fn item_numbers(&self) -> Vec<u16> {
        let lines = self.groups.iter().flat_map(|group| &group.lines);
        let items = lines.flat_map(|line| &line.items);
        items.flat_map(|item| item.numbers().into_iter().take(self.layout.item_numbers)).collect()
    }

    fn counter_numbers(&self) -> Vec<u16> {
        let mut numbers = Vec::new();
        let mut first = 0;
        for counter in &self.counters {
            let count = counter.addends.len() as u16;
            numbers.extend([counter.group, counter.reset, first, count]);
            first += count;
        }
        numbers
    }

    fn addend_numbers(&self) -> Vec<u16> {
        let addends = self.counters.iter().flat_map(|counter| &counter.addends);
        addends.flat_map(|a| [a.kind, a.index, a.mask]).collect()
    }

    fn trailer_numbers(&self, starts: &[usize]) -> Vec<u16> {
        let mut numbers = Vec::new();
        for &section in self.sections() {
            numbers.push(starts[section as usize] as u16);
            numbers.push(self.entry_count(section) as u16);
        }
        let page = &self.page;
        numbers.extend([page.p, page.h, page.fd, page.ld, page.ft, self.width, self.record]);
        numbers.push(self.layout.version);
        numbers
    }
}

fn push_numbers(bytes: &mut Vec<u8>, numbers: &[u16]) {
    bytes.extend(numbers.iter().flat_map(|number| number.to_le_bytes()));
}

impl Draft {
    /// Takes apart a description that CHECK has accepted.
    pub fn read(bytes: &[u8]) -> Draft {
        let numbers = |range: std::ops::Range<usize>| -> Vec<u16> {
            bytes[range].chunks_exact(2).map(|pair| u16::from_le_bytes([pair[0], pair[1]])).collect()
        };
        let version = numbers(bytes.len() - 2..bytes.len())[0];
        let layout = Layout::of(version).expect("an accepted description");
        let trailer = numbers(bytes.len() - layout.trailer_bytes()..bytes.len());
        let limits = &trailer[2 * layout.section_count..];
        let range = |section: Section| {
            let start = trailer[2 * section as usize] as usize;
            let count = trailer[2 * section as usize + 1] as usize;
            start..start + count * entry_bytes(layout, section)
        };
        let section = |section: Section| numbers(range(section));
        let pictures = if layout.has_pictures() { range(Section::Pictures) } else { 0..0 };
        let items = read_items(&section(Section::Items), layout);
        let lines = read_lines(&section(Section::Lines), &items);
        let addends = read_addends(&section(Section::Addends));
        Draft {
            layout,
            fields: read_fields(&section(Section::Fields)),
            controls: section(Section::Controls),
            groups: read_groups(&section(Section::Groups), &lines),
            counters: read_counters(&section(Section::Counters), &addends),
            literals: bytes[range(Section::Literals)].to_vec(),
            pictures: bytes[pictures].chunks_exact(PICTURE_BYTES).map(read_picture).collect(),
            page: Page {
                p: limits[AT_P],
                h: limits[AT_H],
                fd: limits[AT_FD],
                ld: limits[AT_LD],
                ft: limits[AT_FT],
            },
            width: limits[AT_W],
            record: limits[AT_R],
        }
    }
}

fn read_fields(numbers: &[u16]) -> Vec<Field> {
    numbers.chunks_exact(3).map(|n| Field { kind: n[0], offset: n[1], width: n[2] }).collect()
}

fn read_groups(numbers: &[u16], lines: &[Row]) -> Vec<Block> {
    let read = |n: &[u16]| Block {
        kind: n[0],
        level: n[1],
        next: n[4],
        integer: n[5],
        lines: part(lines, n[2], n[3]),
    };
    numbers.chunks_exact(6).map(read).collect()
}

fn read_lines(numbers: &[u16], items: &[Item]) -> Vec<Row> {
    let read = |n: &[u16]| Row { kind: n[0], integer: n[1], items: part(items, n[2], n[3]) };
    numbers.chunks_exact(4).map(read).collect()
}

fn read_items(numbers: &[u16], layout: Layout) -> Vec<Item> {
    let read = |n: &[u16]| Item {
        column: n[0],
        width: n[1],
        source: n[2],
        index: n[3],
        decimals: n[4],
        indicate: n[5],
        picture: n.get(6).copied().unwrap_or(NO_PICTURE),
    };
    numbers.chunks_exact(layout.item_numbers).map(read).collect()
}

fn read_picture(bytes: &[u8]) -> Picture {
    std::array::from_fn(|at| bytes[at])
}

fn read_counters(numbers: &[u16], addends: &[Addend]) -> Vec<Count> {
    let read = |n: &[u16]| Count { group: n[0], reset: n[1], addends: part(addends, n[2], n[3]) };
    numbers.chunks_exact(4).map(read).collect()
}

fn read_addends(numbers: &[u16]) -> Vec<Addend> {
    numbers.chunks_exact(3).map(|n| Addend { kind: n[0], index: n[1], mask: n[2] }).collect()
}

/// The part of a table that an owner holds.
fn part<T: Clone>(table: &[T], first: u16, count: u16) -> Vec<T> {
    table[first as usize..first as usize + count as usize].to_vec()
}
