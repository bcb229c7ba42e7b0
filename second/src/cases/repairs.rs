//! R-8 by chance: printed sheets and damaged copies of them, read back and repaired, and what document 02 says of both
//! looked at byte by byte.

use std::collections::BTreeMap;

use super::damage::{damaged, Damaged, Kind};
use super::rng::Rng;
use super::sequence::pattern;
use super::sheets::{sheet, Sheet};
use crate::read::{read, Read, Refusal, Walker};
use crate::repair::{repair, Answer};

/// What should be met, and how often at least in a run of the usual amount.
const WANTED: [(&str, u64); 57] = [
    ("sheet: empty", 100),
    ("sheet: one record", 25),
    ("sheet: over 100 records", 100),
    ("sheet: W 1", 25),
    ("sheet: W 132", 100),
    ("sheet: one report", 500),
    ("sheet: several reports, records dropped", 200),
    ("sheet: a page of six digits", 50),
    ("sheet: a line of three digits", 50),
    ("damage: bytes flipped", 1_000),
    ("damage: a blot", 1_000),
    ("damage: bytes removed", 1_000),
    ("damage: bytes inserted", 1_000),
    ("damage: records swapped", 1_000),
    ("damage: a record repeated", 1_000),
    ("damage: a record renumbered", 1_000),
    ("damage: the end cut", 1_000),
    ("damage: several times", 2_000),
    ("damage: nothing dropped", 400),
    ("damage: nothing kept, records dropped", 1_000),
    ("damage: the file empty", 50),
    ("kept: the first of all", 5_000),
    ("kept: the first behind dropped ones", 200),
    ("kept: behind a dropped one", 4_000),
    ("kept: a later line on the same page", 10_000),
    ("kept: a later page, an earlier line", 10_000),
    ("kept: a later page, a later line", 2_000),
    ("kept: with a byte 32", 10_000),
    ("kept: with a byte 126", 10_000),
    ("form: the page not in digits", 10_000),
    ("form: the line not in digits", 10_000),
    ("form: page 0 alone", 100),
    ("form: line 0 alone", 100),
    ("form: a text byte 31 alone", 25),
    ("form: a text byte 127 alone", 25),
    ("form: another text byte alone", 200),
    ("form: the last byte alone", 1_000),
    ("form: out of order too", 200),
    ("form: a short tail", 2_000),
    ("form: a tail a byte short", 400),
    ("order: an earlier page", 10_000),
    ("order: an earlier line on the same page", 2_000),
    ("order: the same line on the same page", 1_000),
    ("order: the last kept one again", 1_000),
    ("read: a record, not at W + 10 bytes from the start", 1_000),
    ("read: refused between records", 10_000),
    ("read: the end", 10_000),
    ("read: the end behind a short tail", 2_000),
    ("read: past the end by one", 10_000),
    ("read: far past the end", 10_000),
    ("room: just enough", 1_000),
    ("room: bytes behind the copy and the list", 500),
    ("room: the copy a byte short", 2_000),
    ("room: the list a byte short", 2_000),
    ("room: both short", 2_000),
    ("room: none at all", 500),
    ("W outside 1 to 132", 10_000),
];

/// The most that is told of what is wrong.
const TOLD: usize = 10;

/// A sheet and damaged copies of it.
#[derive(Clone, Debug)]
pub struct RepairCase {
    /// `repair_case` makes the same case of it again.
    pub seed: u64,
    pub sheet: Sheet,
    pub copies: Vec<Damaged>,
}

/// The case of a seed for R-8: a printed sheet and 4 to 12 damaged copies of it.
pub fn repair_case(seed: u64) -> RepairCase {
    let mut rng = Rng::new(seed);
    let sheet = sheet(&mut rng);
    let count = rng.between(4, 12);
    let copies = (0..count).map(|_| damaged(&mut rng, &sheet.bytes, sheet.w)).collect();
    RepairCase { seed, sheet, copies }
}

/// A run of R-8: the counts, and what went wrong.
#[derive(Clone, Debug)]
pub struct Repairs {
    /// Sheets as they were printed, and damaged copies.
    pub sheets: u64,
    pub copies: u64,
    /// Records kept, and dropped as form and as order.
    pub kept: u64,
    pub dropped: [u64; 2],
    /// Features, by name.
    pub reached: BTreeMap<&'static str, u64>,
    /// What was wrong, by the seeds of the cases.
    pub wrong: Vec<String>,
}

impl Repairs {
    /// Reads and repairs cases until they have so many files, sheets and copies together.
    pub fn run(seed: u64, files: u64) -> Repairs {
        let mut rng = Rng::new(seed);
        let mut run = Repairs {
            sheets: 0,
            copies: 0,
            kept: 0,
            dropped: [0; 2],
            reached: WANTED.iter().map(|&(name, _)| (name, 0)).collect(),
            wrong: Vec::new(),
        };
        while run.files() < files && run.wrong.len() < TOLD {
            run.play(&repair_case(rng.draw()));
        }
        run
    }

    /// Sheets and copies together.
    pub fn files(&self) -> u64 {
        self.sheets + self.copies
    }

    /// What was not reached as often as it should be.
    pub fn missing(&self) -> Vec<String> {
        let reached = WANTED.iter().map(|&(name, often)| (name, self.reached[name], often));
        let seldom = reached.filter(|(_, times, often)| times < often);
        seldom.map(|(name, times, often)| format!("R-8, {name}: {times} times, not {often}")).collect()
    }

    /// A report to read, the features in short or one by one.
    pub fn report(&self, all: bool) -> String {
        let Repairs { sheets, copies, kept, dropped: [form, order], .. } = self;
        let mut text = format!("R-8           {} files read back and repaired", self.files());
        text += &format!(", {sheets} as printed and {copies} damaged\n");
        text += &format!("  records     kept: {kept}, dropped as form: {form}, as order: {order}\n");
        for (name, times) in self.reached.iter().filter(|_| all) {
            text += &format!("  {times:>9}  {name}\n");
        }
        text
    }

    fn play(&mut self, case: &RepairCase) {
        let mut rng = Rng::new(case.seed);
        let Sheet { bytes, w, reports } = &case.sheet;
        self.sheets += 1;
        self.note(case, printed_reads_back(bytes, *w));
        let tried = self.file(case, &mut rng, bytes);
        self.count(&of_sheet(&case.sheet, &tried));
        if *reports == 1 {
            self.note(case, kept_whole(bytes, &tried));
        }
        for Damaged { bytes, kinds } in &case.copies {
            self.copies += 1;
            let tried = self.file(case, &mut rng, bytes);
            self.count(&of_damage(bytes, kinds, &tried));
        }
    }

    /// Reads and repairs one file; gives its repair with room enough.
    fn file(&mut self, case: &RepairCase, rng: &mut Rng, bytes: &[u8]) -> Tried {
        let w = case.sheet.w;
        let tried = Tried::with_ample_room(rng, bytes, w);
        self.note(case, tried.keeps(bytes, w));
        self.note(case, kept_whole(tried.kept(), &Tried::with_ample_room(rng, tried.kept(), w)));
        self.rooms(case, rng, bytes, &tried);
        self.offsets(case, rng, bytes);
        self.pieces(&tried.pieces(bytes, w));
        tried
    }

    fn pieces(&mut self, pieces: &[Piece]) {
        for piece in pieces {
            match piece.reason {
                0 => self.kept += 1,
                reason => self.dropped[usize::from(reason.min(2)) - 1] += 1,
            }
            self.count(&of_piece(piece));
        }
    }

    /// The same repair with other rooms, and with a W that is none.
    fn rooms(&mut self, case: &RepairCase, rng: &mut Rng, bytes: &[u8], ample: &Tried) {
        for _ in 0..3 {
            let rooms = other_rooms(rng, ample);
            let tried = Tried::of(rng, bytes, case.sheet.w, rooms);
            self.note(case, tried.keeps_room(ample));
            self.count(&of_rooms(rooms, ample));
        }
        let w = rng.pick(&[0, 0, 133, 133, 200, 65536 + case.sheet.w, usize::MAX]);
        let rooms = rng.pick(&[[0, 0], [ample.copy.len(), ample.list.len()]]);
        let tried = Tried::of(rng, bytes, w, rooms);
        self.note(case, tried.is_refused_with(12));
        let offset = rng.below(bytes.len() + 2);
        self.note(case, reads(bytes, offset, w, read(bytes, offset, w)));
        self.count(&[(true, "W outside 1 to 132")]);
    }

    /// The reader at the places that the repair tool looks at, and at others.
    fn offsets(&mut self, case: &RepairCase, rng: &mut Rng, bytes: &[u8]) {
        let w = case.sheet.w;
        let mut offsets: Vec<usize> = (0..bytes.len()).step_by(w + 10).collect();
        offsets.extend((0..8).map(|_| rng.below(bytes.len() + 1)));
        offsets.extend([bytes.len(), bytes.len() + 1, bytes.len() + rng.between(2, 200)]);
        offsets.push(rng.pick(&[1 << 31, 1 << 32, usize::MAX - w - 9, usize::MAX]));
        // Behind a byte 10 a record may begin, wherever it stands.
        offsets
            .extend(bytes.iter().enumerate().filter(|(_, &byte)| byte == 10).map(|(at, _)| at + 1).take(5));
        for offset in offsets {
            let answer = read(bytes, offset, w);
            self.note(case, reads(bytes, offset, w, answer));
            self.count(&of_read(bytes, offset, w, answer));
        }
    }

    fn count(&mut self, features: &[Feature]) {
        for (_, name) in features.iter().filter(|(holds, _)| *holds) {
            *self.reached.get_mut(name).expect(name) += 1;
        }
    }

    fn note(&mut self, case: &RepairCase, kept: Result<(), String>) {
        if let Err(what) = kept {
            if self.wrong.len() < TOLD {
                self.wrong.push(format!("{what} (--repair-case {})", case.seed));
            }
        }
    }
}

fn must(holds: bool, what: &str) -> Result<(), String> {
    if holds {
        Ok(())
    } else {
        Err(what.to_string())
    }
}

// ---- reading

/// Page and line of the W + 10 bytes of a well-formed record. Written apart from the reader: the bytes are those that such
/// a page, line and text print.
fn place_of(bytes: &[u8], w: usize) -> Option<(u32, u32)> {
    let text = std::str::from_utf8(bytes).ok()?;
    let (page, line) = (text.get(..6)?.parse().ok()?, text.get(6..9)?.parse().ok()?);
    let characters: String = text.chars().skip(9).take(w).filter(|c| (' '..='~').contains(c)).collect();
    let printed = format!("{page:06}{line:03}{characters}\n");
    (page > 0 && line > 0 && characters.len() == w && printed == text).then_some((page, line))
}

/// The reader's answer is the one that the papers ask for at this offset.
fn reads(bytes: &[u8], offset: usize, w: usize, answer: Result<Read, Refusal>) -> Result<(), String> {
    let wanted = if !(1..133).contains(&w) {
        Err(Refusal { number: 12, extra: 0 })
    } else if offset == bytes.len() {
        Ok(None)
    } else {
        let end = offset.checked_add(w + 10).filter(|&end| end <= bytes.len());
        let place = end.and_then(|end| place_of(&bytes[offset..end], w));
        place.map(Some).ok_or(Refusal { number: 12, extra: offset as u64 })
    };
    let given = answer.map(|read| match read {
        Read::Record(record) => Some((record.page, record.line)),
        Read::End => None,
    });
    must(given == wanted, &format!("reading at {offset} gives {answer:?}, not {wanted:?}"))?;
    match answer {
        Ok(Read::Record(record)) => must(record.text == offset + 9, "the text starts elsewhere"),
        _ => Ok(()),
    }
}

/// "Reading what the report writer wrote returns what was written": page, line and text, printed again, are the sheet.
fn printed_reads_back(sheet: &[u8], w: usize) -> Result<(), String> {
    let mut walker = Walker::new(sheet, w);
    let mut again = Vec::new();
    loop {
        let place = walker.place();
        must(place == again.len(), "the walker stands elsewhere")?;
        match walker.step() {
            Ok(Read::Record(record)) => {
                again.extend(format!("{:06}{:03}", record.page, record.line).into_bytes());
                again.extend_from_slice(walker.text(&record));
                again.push(10);
            }
            Ok(Read::End) => break,
            Err(refusal) => return Err(format!("a printed record is refused at {place}: {refusal:?}")),
        }
    }
    must(again == sheet, "a printed sheet is read back otherwise")
}

// ---- repairing

/// A call of the repair tool: its answer, and what it left of both buffers.
#[derive(Clone, Debug)]
struct Tried {
    salt: u8,
    answer: Answer,
    copy: Vec<u8>,
    list: Vec<u8>,
}

/// A piece of a file that the repair tool looks at.
#[derive(Clone, Copy, Debug)]
struct Piece<'a> {
    bytes: &'a [u8],
    w: usize,
    offset: usize,
    /// 0 kept, else as the list says.
    reason: u8,
    /// The last one kept before it.
    last: Option<&'a [u8]>,
}

impl Tried {
    fn of(rng: &mut Rng, file: &[u8], w: usize, rooms: [usize; 2]) -> Tried {
        let salt = rng.byte();
        let [mut copy, mut list] =
            rooms.map(|room| (0..room).map(|at| pattern(at, salt)).collect::<Vec<u8>>());
        let answer = repair(file, w, &mut copy, &mut list);
        Tried { salt, answer, copy, list }
    }

    /// Room for all of the file in the copy, and for all of its pieces in the list, and some more.
    fn with_ample_room(rng: &mut Rng, file: &[u8], w: usize) -> Tried {
        let more = rng.below(4);
        Tried::of(rng, file, w, [file.len() + more, 9 * file.len().div_ceil(w + 10) + more])
    }

    /// The bytes of the copy.
    fn kept(&self) -> &[u8] {
        &self.copy[..self.answer.copied.min(self.copy.len())]
    }

    /// The list's entries, each an offset and a reason.
    fn entries(&self) -> Vec<(usize, u8)> {
        let listed = &self.list[..self.answer.listed.min(self.list.len())];
        let offset =
            |entry: &[u8]| entry[..8].iter().rev().fold(0, |offset, &byte| offset << 8 | usize::from(byte));
        listed.chunks_exact(9).map(|entry| (offset(entry), entry[8])).collect()
    }

    /// Each W + 10 bytes of the file, with what the list says of it.
    fn pieces<'a>(&self, file: &'a [u8], w: usize) -> Vec<Piece<'a>> {
        let mut entries = self.entries().into_iter().peekable();
        let mut last = None;
        let mut pieces = Vec::new();
        for (nth, bytes) in file.chunks(w + 10).enumerate() {
            let offset = nth * (w + 10);
            let reason = entries.next_if(|&(listed, _)| listed == offset).map_or(0, |(_, reason)| reason);
            pieces.push(Piece { bytes, w, offset, reason, last });
            if reason == 0 {
                last = Some(bytes);
            }
        }
        pieces
    }

    /// With room enough: every piece is kept or dropped as it deserves, the copy is the kept ones, the list names the
    /// others in order, and the bytes behind both stay.
    fn keeps(&self, file: &[u8], w: usize) -> Result<(), String> {
        must((self.answer.number, self.answer.extra) == (0, 0), "a repair with room is refused")?;
        let pieces = self.pieces(file, w);
        for piece in &pieces {
            let (offset, wanted) = (piece.offset, piece.deserves());
            let what = format!("the piece at {offset} has reason {}, not {wanted}", piece.reason);
            must(piece.reason == wanted, &what)?;
        }
        // "Kept and dropped together": an entry that names no piece, or one out of order, is not among the pieces.
        let dropped: Vec<_> = pieces.iter().filter(|piece| piece.reason != 0).collect();
        must(self.answer.listed == 9 * dropped.len(), "the list has other entries")?;
        let kept: Vec<&[u8]> =
            pieces.iter().filter(|piece| piece.reason == 0).map(|piece| piece.bytes).collect();
        must(self.answer.copied <= self.copy.len(), "the count passes the copy")?;
        must(self.kept() == kept.concat(), "the copy is not what is kept")?;
        self.is_untouched_from(self.answer.copied, self.answer.listed)
    }

    fn is_untouched_from(&self, copied: usize, listed: usize) -> Result<(), String> {
        let stays = |buffer: &[u8], from: usize| {
            buffer.iter().enumerate().skip(from).all(|(at, &byte)| byte == pattern(at, self.salt))
        };
        must(stays(&self.copy, copied), "bytes behind the copy are touched")?;
        must(stays(&self.list, listed), "bytes behind the list are touched")
    }

    /// With other rooms: the same where both are enough, else refused with 9.
    fn keeps_room(&self, ample: &Tried) -> Result<(), String> {
        let Answer { copied, listed, .. } = ample.answer;
        if self.copy.len() < copied || self.list.len() < listed {
            return self.is_refused_with(9);
        }
        must(self.answer == ample.answer, "another answer with another room")?;
        must(self.copy[..copied] == ample.copy[..copied], "another copy with another room")?;
        must(self.list[..listed] == ample.list[..listed], "another list with another room")?;
        self.is_untouched_from(copied, listed)
    }

    /// "With both buffers untouched."
    fn is_refused_with(&self, number: u8) -> Result<(), String> {
        let wanted = Answer { number, extra: 0, copied: 0, listed: 0 };
        must(self.answer == wanted, &format!("answered {:?}, not {number}", self.answer))?;
        self.is_untouched_from(0, 0)
    }
}

/// "It keeps everything and lists nothing."
fn kept_whole(file: &[u8], tried: &Tried) -> Result<(), String> {
    must(tried.kept() == file && tried.answer.listed == 0, "a sheet in order is not kept whole")
}

impl Piece<'_> {
    /// Page and line, if it is well-formed.
    fn place(&self) -> Option<(u32, u32)> {
        place_of(self.bytes, self.w)
    }

    /// Page and line of the last one kept; (0, 0) comes before every record.
    fn last_place(&self) -> (u32, u32) {
        self.last.and_then(|last| place_of(last, self.w)).unwrap_or((0, 0))
    }

    /// 0 where it is to be kept, 1 for form, 2 for order.
    fn deserves(&self) -> u8 {
        match self.place() {
            None => 1,
            Some(place) if place <= self.last_place() => 2,
            Some(_) => 0,
        }
    }
}

/// Rooms about those that a repair needs.
fn other_rooms(rng: &mut Rng, ample: &Tried) -> [usize; 2] {
    let Answer { copied, listed, .. } = ample.answer;
    let mut room = |need: usize| {
        let any = rng.below(need + 1);
        rng.pick(&[
            need,
            need,
            need,
            need + 1,
            need + 9,
            need.saturating_sub(1),
            need.saturating_sub(1),
            0,
            any,
        ])
    };
    [room(copied), room(listed)]
}

// ---- features

type Feature = (bool, &'static str);

fn of_sheet(sheet: &Sheet, tried: &Tried) -> Vec<Feature> {
    let records = sheet.bytes.len() / (sheet.w + 10);
    let has = |at: usize| sheet.bytes.chunks(sheet.w + 10).any(|record| record[at] != b'0');
    vec![
        (records == 0, "sheet: empty"),
        (records == 1, "sheet: one record"),
        (records > 100, "sheet: over 100 records"),
        (sheet.w == 1, "sheet: W 1"),
        (sheet.w == 132, "sheet: W 132"),
        (sheet.reports == 1, "sheet: one report"),
        (sheet.reports > 1 && tried.answer.listed > 0, "sheet: several reports, records dropped"),
        (has(0), "sheet: a page of six digits"),
        (has(6), "sheet: a line of three digits"),
    ]
}

fn of_damage(file: &[u8], kinds: &[Kind], tried: &Tried) -> Vec<Feature> {
    let Answer { copied, listed, .. } = tried.answer;
    let is = |kind: Kind| kinds.contains(&kind);
    vec![
        (is(Kind::Flip), "damage: bytes flipped"),
        (is(Kind::Blot), "damage: a blot"),
        (is(Kind::Remove), "damage: bytes removed"),
        (is(Kind::Insert), "damage: bytes inserted"),
        (is(Kind::Swap), "damage: records swapped"),
        (is(Kind::Repeat), "damage: a record repeated"),
        (is(Kind::Renumber), "damage: a record renumbered"),
        (is(Kind::Cut), "damage: the end cut"),
        (kinds.len() > 1, "damage: several times"),
        (copied > 0 && listed == 0, "damage: nothing dropped"),
        (copied == 0 && listed > 0, "damage: nothing kept, records dropped"),
        (file.is_empty(), "damage: the file empty"),
    ]
}

fn of_piece(piece: &Piece) -> Vec<Feature> {
    match (piece.reason, piece.place()) {
        (0, Some(place)) => of_kept(piece, place),
        (2, Some(place)) => of_order(piece, place),
        _ => of_form(piece),
    }
}

fn of_kept(piece: &Piece, (page, line): (u32, u32)) -> Vec<Feature> {
    let (last_page, last_line) = piece.last_place();
    let is_first = piece.last.is_none();
    // Pieces between it and the last kept one were dropped.
    let behind_dropped = piece.last.is_some_and(|last| {
        let distance = piece.bytes.as_ptr() as usize - last.as_ptr() as usize;
        distance > piece.w + 10
    });
    let text = &piece.bytes[9..9 + piece.w];
    vec![
        (is_first && piece.offset == 0, "kept: the first of all"),
        (is_first && piece.offset > 0, "kept: the first behind dropped ones"),
        (behind_dropped, "kept: behind a dropped one"),
        (page == last_page, "kept: a later line on the same page"),
        (!is_first && page > last_page && line < last_line, "kept: a later page, an earlier line"),
        (!is_first && page > last_page && line > last_line, "kept: a later page, a later line"),
        (text.contains(&32), "kept: with a byte 32"),
        (text.contains(&126), "kept: with a byte 126"),
    ]
}

fn of_order(piece: &Piece, (page, line): (u32, u32)) -> Vec<Feature> {
    let (last_page, last_line) = piece.last_place();
    vec![
        (page < last_page, "order: an earlier page"),
        (page == last_page && line < last_line, "order: an earlier line on the same page"),
        (page == last_page && line == last_line, "order: the same line on the same page"),
        (piece.last == Some(piece.bytes), "order: the last kept one again"),
    ]
}

fn of_form(piece: &Piece) -> Vec<Feature> {
    let (bytes, w) = (piece.bytes, piece.w);
    if bytes.len() < w + 10 {
        return vec![(true, "form: a short tail"), (bytes.len() == w + 9, "form: a tail a byte short")];
    }
    // What is wrong alone: with that part set right it is well-formed.
    let alone = |from: usize, right: &[u8]| {
        let mut bytes = bytes.to_vec();
        bytes[from..from + right.len()].copy_from_slice(right);
        place_of(&bytes, w)
    };
    let is_digits = |part: &[u8]| part.iter().all(u8::is_ascii_digit);
    let text_alone = alone(9, &vec![b' '; w]).is_some();
    let has = |byte: u8| bytes[9..9 + w].contains(&byte);
    let late = |place: Option<(u32, u32)>| place.is_some_and(|place| place <= piece.last_place());
    vec![
        (!is_digits(&bytes[..6]), "form: the page not in digits"),
        (!is_digits(&bytes[6..9]), "form: the line not in digits"),
        (bytes.starts_with(b"000000") && alone(0, b"000001").is_some(), "form: page 0 alone"),
        (bytes[6..].starts_with(b"000") && alone(6, b"001").is_some(), "form: line 0 alone"),
        (text_alone && has(31), "form: a text byte 31 alone"),
        (text_alone && has(127), "form: a text byte 127 alone"),
        (text_alone && !has(31) && !has(127), "form: another text byte alone"),
        (alone(9 + w, b"\n").is_some(), "form: the last byte alone"),
        (late(alone(9, &vec![b' '; w])) || late(alone(9 + w, b"\n")), "form: out of order too"),
    ]
}

fn of_read(file: &[u8], offset: usize, w: usize, answer: Result<Read, Refusal>) -> Vec<Feature> {
    let (is_piece, length) = (offset.is_multiple_of(w + 10), file.len());
    let is_record = matches!(answer, Ok(Read::Record(_)));
    let is_end = answer == Ok(Read::End);
    vec![
        (is_record && !is_piece, "read: a record, not at W + 10 bytes from the start"),
        (answer.is_err() && !is_piece && offset < length, "read: refused between records"),
        (is_end, "read: the end"),
        (is_end && !is_piece, "read: the end behind a short tail"),
        (offset == length + 1, "read: past the end by one"),
        (offset >= 1 << 31, "read: far past the end"),
    ]
}

fn of_rooms(rooms: [usize; 2], ample: &Tried) -> Vec<Feature> {
    let [copy, list] = rooms;
    let Answer { copied, listed, .. } = ample.answer;
    vec![
        (copied > 0 && listed > 0 && rooms == [copied, listed], "room: just enough"),
        (
            copied > 0 && listed > 0 && copy > copied && list > listed,
            "room: bytes behind the copy and the list",
        ),
        (copy + 1 == copied && list >= listed, "room: the copy a byte short"),
        (list + 1 == listed && copy >= copied, "room: the list a byte short"),
        (copy < copied && list < listed, "room: both short"),
        (copied + listed > 0 && rooms == [0, 0], "room: none at all"),
    ]
}

// ---- one case to read

/// Prints a case whole; gives the exit code.
pub fn show_case(case: &RepairCase) -> i32 {
    let Sheet { bytes, w, reports } = &case.sheet;
    println!("W {w}, {reports} reports, {} bytes", bytes.len());
    show_file(bytes, *w);
    for Damaged { bytes, kinds } in &case.copies {
        println!("\ndamaged {kinds:?}, {} bytes", bytes.len());
        show_file(bytes, *w);
    }
    let mut run = Repairs::run(0, 0);
    run.play(case);
    for what in &run.wrong {
        println!("WRONG: {what}");
    }
    i32::from(!run.wrong.is_empty())
}

fn show_file(bytes: &[u8], w: usize) {
    let tried = Tried::with_ample_room(&mut Rng::new(0), bytes, w);
    for piece in tried.pieces(bytes, w) {
        let what = ["kept ", "form ", "order"][usize::from(piece.reason.min(2))];
        println!("{:>8} {what} {}", piece.offset, piece.bytes.escape_ascii());
    }
}

#[cfg(test)]
mod tests {
    use super::*;
    use crate::read::Record;

    /// Something wrong with a repair that kept and dropped something: with its answer or with a buffer.
    type Spoil = fn(&mut Tried);

    const SPOILT: [(&str, Spoil); 14] = [
        ("refused", |tried| tried.answer.number = 9),
        ("an extra number", |tried| tried.answer.extra = 1),
        ("a byte more kept", |tried| tried.answer.copied += 1),
        ("a byte less kept", |tried| tried.answer.copied -= 1),
        ("an entry less", |tried| tried.answer.listed -= 9),
        ("a byte more listed", |tried| tried.answer.listed += 1),
        ("a byte of the copy", |tried| tried.copy[0] ^= 1),
        ("the last byte of the copy", |tried| {
            let last = tried.answer.copied - 1;
            tried.copy[last] ^= 1;
        }),
        ("another reason", |tried| tried.list[8] ^= 3),
        ("no reason", |tried| tried.list[8] = 0),
        ("an offset one further", |tried| tried.list[0] ^= 1),
        ("a high byte of an offset", |tried| tried.list[7] = 1),
        ("a byte behind the copy", |tried| {
            if let Some(byte) = tried.copy.get_mut(tried.answer.copied) {
                *byte ^= 1;
            } else {
                tried.answer.copied = 0;
            }
        }),
        ("a byte behind the list", |tried| {
            if let Some(byte) = tried.list.get_mut(tried.answer.listed) {
                *byte ^= 1;
            } else {
                tried.answer.listed = 0;
            }
        }),
    ];

    #[test]
    fn a_wrong_repair_is_seen() {
        let mut rng = Rng::new(50);
        let mut seen = 0;
        while seen < 10 * SPOILT.len() {
            let case = repair_case(rng.draw());
            let w = case.sheet.w;
            for Damaged { bytes, .. } in &case.copies {
                let right = Tried::with_ample_room(&mut rng, bytes, w);
                assert_eq!(right.keeps(bytes, w), Ok(()));
                if right.answer.copied > 0 && right.answer.listed > 0 {
                    let (name, spoil) = SPOILT[seen % SPOILT.len()];
                    let mut wrong = right.clone();
                    spoil(&mut wrong);
                    assert!(wrong.keeps(bytes, w).is_err(), "{name}");
                    seen += 1;
                }
            }
        }
    }

    #[test]
    fn a_wrong_refusal_is_seen() {
        let mut rng = Rng::new(51);
        let file = b"000001001a\n000001001a\n";
        let ample = Tried::with_ample_room(&mut rng, file, 1);
        assert_eq!((ample.answer.copied, ample.answer.listed), (11, 9));
        for rooms in [[10, 9], [11, 8], [0, 0]] {
            let right = Tried::of(&mut rng, file, 1, rooms);
            assert_eq!(right.keeps_room(&ample), Ok(()));
            let spoils: [Spoil; 4] = [
                |tried| tried.answer.number = 12,
                |tried| tried.answer.extra = 9,
                |tried| tried.copy.iter_mut().chain(&mut tried.list).for_each(|byte| *byte = 0),
                |tried| tried.answer.copied = 11,
            ];
            for (nth, spoil) in spoils.iter().enumerate().filter(|(nth, _)| *nth != 2 || rooms != [0, 0]) {
                let mut wrong = right.clone();
                spoil(&mut wrong);
                assert!(wrong.keeps_room(&ample).is_err(), "{nth}, {rooms:?}");
            }
        }
    }

    #[test]
    fn a_wrong_read_is_seen() {
        let file = b"000001002a\n000001003";
        let record = |page, line, text| Ok(Read::Record(Record { page, line, text }));
        let refused = |extra| Err(Refusal { number: 12, extra });
        for (offset, w, right) in [
            (0, 1, record(1, 2, 9)),
            (1, 1, refused(1)),
            (11, 1, refused(11)),
            (20, 1, Ok(Read::End)),
            (21, 1, refused(21)),
            (20, 0, refused(0)),
            (0, 133, refused(0)),
        ] {
            assert_eq!(reads(file, offset, w, right), Ok(()));
            let wrong = [record(1, 2, 9), record(2, 2, 9), record(1, 1, 9), record(1, 2, 0), Ok(Read::End)];
            let refusals =
                [refused(0), refused(1), refused(11), refused(21), Err(Refusal { number: 9, extra: 0 })];
            for wrong in wrong.into_iter().chain(refusals).filter(|&wrong| wrong != right) {
                assert!(reads(file, offset, w, wrong).is_err(), "{wrong:?} at {offset}, W {w}");
            }
        }
    }

    #[test]
    fn the_same_seed_gives_the_same_files() {
        let draw = |seed| (repair_case(seed).sheet, repair_case(seed).copies);
        assert_eq!(draw(52), draw(52));
        assert_ne!(draw(52), draw(53));
    }
}
