//! How a description file is laid out: its sections, their sizes and limits, its trailer. What differs by version stands
//! here and nowhere else.

/// Bytes of a picture's entry: "entries of 24 bytes, padded with blanks".
pub const PICTURE_BYTES: usize = 24;

/// The trailer's last numbers: P, H, FD, LD, FT, W, R, version.
pub const LIMIT_NUMBERS: usize = 8;

/// The layout of one version.
#[derive(Clone, Copy, Debug, PartialEq, Eq)]
pub struct Layout {
    pub version: u16,
    /// Numbers of an item.
    pub item_numbers: usize,
    /// How many of the sections there are.
    pub section_count: usize,
}

/// "Version 2 gains a picture section after the literals" and "a last number on each item".
const LAYOUTS: [Layout; 2] = [
    Layout { version: 1, item_numbers: 6, section_count: 8 },
    Layout { version: 2, item_numbers: 7, section_count: 9 },
];

impl Default for Layout {
    /// Version 1's.
    fn default() -> Layout {
        LAYOUTS[0]
    }
}

impl Layout {
    /// `None` for a version that is not accepted.
    pub fn of(version: u16) -> Option<Layout> {
        LAYOUTS.into_iter().find(|layout| layout.version == version)
    }

    /// Bytes of an entry and most entries of each section, in file order: fields, controls, groups, lines, items,
    /// counters, addends, literal bytes, pictures.
    pub fn sections(&self) -> Vec<(usize, usize)> {
        let item_bytes = 2 * self.item_numbers;
        let all = [
            (6, 32),
            (2, 8),
            (12, 32),
            (8, 128),
            (item_bytes, 512),
            (8, 32),
            (6, 128),
            (1, 4096),
            (PICTURE_BYTES, 64),
        ];
        all[..self.section_count].to_vec()
    }

    /// Whether the picture section is there.
    pub fn has_pictures(&self) -> bool {
        self.section_count > 8
    }

    /// Start and entry count of each section, then the last numbers: 48 bytes, in version 2 52.
    pub fn trailer_bytes(&self) -> usize {
        2 * (2 * self.section_count + LIMIT_NUMBERS)
    }
}
