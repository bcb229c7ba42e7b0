//! Printed sheets and damaged copies of them, read back and repaired by the proved calls and by the second program: answers number
//! by number, the copy and the list byte for byte, with just the room, too little of either and more.

use std::collections::BTreeMap;

use bailcurlew::Walker;
use second::cases::damage::{damaged, Kind};
use second::cases::sheets::{one_report, sheet};
use second::cases::{pattern, Rng};
use second::read::{self, Read};
use second::repair::{self, Repaired};

// ---- the calls as C has them

extern "C" {
    fn bailcurlew_read(sheet: *const u8, length: usize, at: usize, w: usize, answer: *mut u64);
    fn bailcurlew_repair(
        sheet: *const u8,
        length: usize,
        w: usize,
        copy: *mut u8,
        copy_room: usize,
        list: *mut u8,
        list_room: usize,
        answer: *mut u64,
    );
}

/// What stands in an answer before a call, and beside it.
const UNTOLD: u64 = 0x5a5a_5a5a_5a5a_5a5a;

/// What stands around a buffer.
const GUARD: u8 = 0x5a;
const GUARDS: usize = 16;

/// The kinds of what is read.
const RECORD: u64 = 0;
const END: u64 = 1;
const REFUSED: u64 = 2;

/// The refusals.
const NO_ROOM: u64 = 9;
const BAD_SHEET: u64 = 12;

/// Number, extra number, kind, page, line, text, next.
fn read_by_library(sheet: &[u8], at: usize, w: usize) -> [u64; 7] {
    let mut answer = [UNTOLD; 9];
    unsafe { bailcurlew_read(sheet.as_ptr(), sheet.len(), at, w, answer[1..].as_mut_ptr()) };
    assert_eq!((answer[0], answer[8]), (UNTOLD, UNTOLD), "numbers beside the answer are touched");
    std::array::from_fn(|place| answer[1 + place])
}

/// The same of the second program.
fn read_by_second(sheet: &[u8], at: usize, w: usize) -> [u64; 7] {
    match read::read(sheet, at, w) {
        Ok(Read::Record(record)) => {
            let next = at + read::record_bytes(w);
            [0, 0, RECORD, record.page.into(), record.line.into(), record.text as u64, next as u64]
        }
        Ok(Read::End) => [0, 0, END, 0, 0, 0, at as u64],
        Err(refusal) => [refusal.number.into(), refusal.extra, REFUSED, 0, 0, 0, at as u64],
    }
}

/// Number, extra number, bytes of the copy, bytes of the list; and the two buffers, with guards around the library's.
#[derive(Debug, PartialEq, Eq)]
struct Left {
    answer: [u64; 4],
    copy: Vec<u8>,
    list: Vec<u8>,
}

/// A sheet to repair, with so many bytes of room in each buffer.
#[derive(Clone, Copy, Debug)]
struct Asked<'a> {
    sheet: &'a [u8],
    w: usize,
    copy: usize,
    list: usize,
    salt: u8,
}

impl Asked<'_> {
    /// The two buffers before the call, of bytes that no record and no list would show.
    fn buffers(&self) -> [Vec<u8>; 2] {
        let guards = [GUARD; GUARDS];
        [self.copy, self.list].map(|room| {
            let bytes: Vec<u8> = (0..room).map(|at| pattern(at, self.salt)).collect();
            [&guards, bytes.as_slice(), &guards].concat()
        })
    }

    fn by_library(&self) -> Left {
        let [mut copy, mut list] = self.buffers();
        let mut answer = [UNTOLD; 6];
        unsafe {
            bailcurlew_repair(
                self.sheet.as_ptr(),
                self.sheet.len(),
                self.w,
                copy[GUARDS..].as_mut_ptr(),
                self.copy,
                list[GUARDS..].as_mut_ptr(),
                self.list,
                answer[1..].as_mut_ptr(),
            );
        }
        assert_eq!((answer[0], answer[5]), (UNTOLD, UNTOLD), "numbers beside the answer are touched");
        Left { answer: std::array::from_fn(|place| answer[1 + place]), copy, list }
    }

    fn by_second(&self) -> Left {
        let [mut copy, mut list] = self.buffers();
        let lent = &mut copy[GUARDS..GUARDS + self.copy];
        let answer = repair::repair(self.sheet, self.w, lent, &mut list[GUARDS..GUARDS + self.list]);
        let numbers = [answer.number.into(), answer.extra, answer.copied as u64, answer.listed as u64];
        Left { answer: numbers, copy, list }
    }

    /// The answer of both programs, which leave alike.
    fn both(&self) -> [u64; 4] {
        let (left, wanted) = (self.by_library(), self.by_second());
        assert!(left == wanted, "{:?} answered, {:?} wanted; {self:?}", left.answer, wanted.answer);
        left.answer
    }
}

// ---- what is met

/// How often each situation came.
#[derive(Default)]
struct Tally {
    reads: u64,
    repairs: u64,
    times: BTreeMap<&'static str, u64>,
}

/// Each situation is wanted at least so often.
const OFTEN: u64 = 200;

const SITUATIONS: [&str; 32] = [
    "damage: bytes flipped",
    "damage: a blot",
    "damage: bytes removed",
    "damage: bytes inserted",
    "damage: records swapped",
    "damage: a record repeated",
    "damage: a record renumbered",
    "damage: the end cut",
    "damage: several times",
    "read: a record",
    "read: the end",
    "read: a bad record",
    "read: a bad record at 0",
    "read: past the end",
    "read: far past the end",
    "read: a record by another width",
    "read: width 0",
    "read: width 133",
    "read: width 133 at the end",
    "read: the widest width",
    "walked to the end",
    "walked to a bad record",
    "repaired: nothing dropped",
    "repaired: form dropped",
    "repaired: order dropped",
    "repaired: a short tail",
    "repaired: nothing kept",
    "repaired: the sheet empty",
    "repaired: a byte short for the copy",
    "repaired: a byte short for the list",
    "repaired: room to spare",
    "repaired: refused for the width",
];

impl Tally {
    fn note_if(&mut self, is_so: bool, name: &'static str) {
        *self.times.entry(name).or_default() += u64::from(is_so);
    }

    fn assert_all_often(&self) {
        println!("{} reads, {} repairs", self.reads, self.repairs);
        self.times.iter().for_each(|(name, times)| println!("{times:8}  {name}"));
        let is_seldom = |name: &&&str| self.times.get(**name).is_none_or(|&times| times < OFTEN);
        let seldom: Vec<&&str> = SITUATIONS.iter().filter(is_seldom).collect();
        assert_eq!(seldom, Vec::<&&str>::new(), "less than {OFTEN} times");
    }

    fn damage(&mut self, kinds: &[Kind]) {
        for (kind, name) in [
            (Kind::Flip, "damage: bytes flipped"),
            (Kind::Blot, "damage: a blot"),
            (Kind::Remove, "damage: bytes removed"),
            (Kind::Insert, "damage: bytes inserted"),
            (Kind::Swap, "damage: records swapped"),
            (Kind::Repeat, "damage: a record repeated"),
            (Kind::Renumber, "damage: a record renumbered"),
            (Kind::Cut, "damage: the end cut"),
        ] {
            self.note_if(kinds.contains(&kind), name);
        }
        self.note_if(kinds.len() > 1, "damage: several times");
    }

    /// Reads by both programs.
    fn read(&mut self, sheet: &[u8], at: usize, w: usize) -> [u64; 7] {
        let answer = read_by_library(sheet, at, w);
        assert_eq!(answer, read_by_second(sheet, at, w), "at {at}, width {w}, in {sheet:?}");
        self.reads += 1;
        let bad = answer[2] == REFUSED && (1..=132).contains(&w);
        self.note_if(answer[2] == RECORD, "read: a record");
        self.note_if(answer[2] == END, "read: the end");
        self.note_if(bad, "read: a bad record");
        self.note_if(bad && at == 0, "read: a bad record at 0");
        self.note_if(bad && at > sheet.len(), "read: past the end");
        self.note_if(bad && at > 1 << 40, "read: far past the end");
        self.note_if(w == 0, "read: width 0");
        self.note_if(w == 133, "read: width 133");
        self.note_if(w == 133 && at == sheet.len(), "read: width 133 at the end");
        self.note_if(w == usize::MAX, "read: the widest width");
        answer
    }

    /// Repairs by both programs.
    fn repair(&mut self, asked: Asked) -> [u64; 4] {
        self.repairs += 1;
        asked.both()
    }
}

// ---- one sheet, as it was printed or damaged

/// All reads and repairs of a sheet; what a repair with room gives.
fn tried(rng: &mut Rng, tally: &mut Tally, sheet: &[u8], w: usize) -> Repaired {
    let records = sheet.len() / (w + 10) + 2;
    for at in (0..records).map(|k| k * (w + 10)) {
        tally.read(sheet, at, w);
        // Where a character is lost or one too many, a record of another width may stand.
        for other in [w - 1, w + 1] {
            let answer = tally.read(sheet, at, other);
            tally.note_if(answer[2] == RECORD, "read: a record by another width");
        }
    }
    tally.read(sheet, sheet.len(), w);
    for _ in 0..6 {
        let (at, width) = (some_offset(rng, sheet.len()), some_width(rng, w));
        tally.read(sheet, at, width);
    }
    walked(tally, sheet, w);

    let whole = repair::repaired(sheet, w).expect("a width from 1 to 132");
    let (copy, list) = (whole.copy.len(), repair::ENTRY_BYTES * whole.dropped.len());
    let asked = Asked { sheet, w, copy, list, salt: rng.byte() };
    assert_eq!(tally.repair(asked), [0, 0, copy as u64, list as u64]);
    let (more, most) = (rng.between(1, 40), rng.between(1, 40));
    let answer = tally.repair(Asked { copy: copy + more, list: list + most, ..asked });
    tally.note_if(answer[0] == 0, "repaired: room to spare");
    short(rng, tally, asked);
    let width = some_width(rng, w);
    let asked = Asked { w: width, copy: sheet.len(), list: sheet.len() + repair::ENTRY_BYTES, ..asked };
    let answer = tally.repair(asked);
    // So much room always suffices.
    assert_ne!(answer[0], NO_ROOM, "{asked:?}");
    tally.note_if(answer[0] == BAD_SHEET, "repaired: refused for the width");
    kinds_of_repair(tally, sheet, w, &whole);
    whole
}

/// Less room than the sheet takes, in the copy, in the list and in both: refused, by 9 alone.
fn short(rng: &mut Rng, tally: &mut Tally, asked: Asked) {
    let Asked { copy, list, .. } = asked;
    let mut refused = |copy: usize, list: usize| {
        assert_eq!(tally.repair(Asked { copy, list, ..asked }), [NO_ROOM, 0, 0, 0]);
    };
    if copy > 0 {
        refused(copy - 1, list);
        refused(rng.below(copy), list + rng.below(20));
    }
    if list > 0 {
        refused(copy, list - 1);
        refused(copy + rng.below(20), rng.below(list));
    }
    if copy > 0 && list > 0 {
        refused(rng.below(copy), rng.below(list));
    }
    tally.note_if(copy > 0, "repaired: a byte short for the copy");
    tally.note_if(list > 0, "repaired: a byte short for the list");
}

fn kinds_of_repair(tally: &mut Tally, sheet: &[u8], w: usize, whole: &Repaired) {
    let has = |reason: u8| whole.dropped.iter().any(|dropped| dropped.reason == reason);
    tally.note_if(!sheet.is_empty() && whole.dropped.is_empty(), "repaired: nothing dropped");
    tally.note_if(has(repair::FORM), "repaired: form dropped");
    tally.note_if(has(repair::ORDER), "repaired: order dropped");
    tally.note_if(!sheet.len().is_multiple_of(w + 10), "repaired: a short tail");
    tally.note_if(!sheet.is_empty() && whole.copy.is_empty(), "repaired: nothing kept");
    tally.note_if(sheet.is_empty(), "repaired: the sheet empty");
}

/// The wrapper's walker beside the second program's, record by record.
fn walked(tally: &mut Tally, sheet: &[u8], w: usize) {
    let mut walker = Walker::new(sheet, w);
    let mut wanted = read::Walker::new(sheet, w);
    loop {
        assert_eq!(walker.place(), wanted.place());
        match (walker.next(), wanted.step()) {
            (Some(Ok(record)), Ok(Read::Record(right))) => {
                let told = (record.page, u32::from(record.line), record.text_at, record.text);
                assert_eq!(told, (right.page, right.line, right.text, wanted.text(&right)));
            }
            (None, Ok(Read::End)) => {
                tally.note_if(true, "walked to the end");
                break;
            }
            (Some(Err(refusal)), Err(right)) => {
                assert_eq!((refusal.number, refusal.extra), (right.number.into(), right.extra));
                tally.note_if(true, "walked to a bad record");
                break;
            }
            (left, right) => panic!("{left:?} read, {right:?} wanted, in {sheet:?}"),
        }
    }
    assert_eq!((walker.next(), walker.place()), (None, wanted.place()));
}

fn some_offset(rng: &mut Rng, length: usize) -> usize {
    let any = rng.below(length + 1);
    let near = (length + 1).saturating_sub(rng.below(20));
    let far = usize::MAX - rng.below(300);
    rng.pick(&[0, any, any, any, near, length, length + 1, far])
}

fn some_width(rng: &mut Rng, w: usize) -> usize {
    let any = rng.below(140);
    rng.pick(&[0, 1, w, w, w - 1, w + 1, 2 * w + 10, 132, 133, 133, any, usize::MAX])
}

// ---- the tests

/// Damaged copies that are compared, at least; of each sheet so many, of long ones fewer.
const COPIES: usize = 60_000;
const OF_EACH: usize = 25;
const LONG: usize = 20_000;

#[test]
fn damaged_sheets_are_read_and_repaired_alike() {
    let mut rng = Rng::new(88);
    let mut tally = Tally::default();
    let mut copies = 0;
    while copies < COPIES {
        let sheet = sheet(&mut rng);
        tried(&mut rng, &mut tally, &sheet.bytes, sheet.w);
        let count = if sheet.bytes.len() > LONG { 2 } else { OF_EACH };
        for _ in 0..count {
            let damaged = damaged(&mut rng, &sheet.bytes, sheet.w);
            tally.damage(&damaged.kinds);
            tried(&mut rng, &mut tally, &damaged.bytes, sheet.w);
        }
        copies += count;
    }
    println!("{copies} damaged copies");
    tally.assert_all_often();
}

/// "On the undamaged file of one report it keeps everything and lists nothing."
#[test]
fn sheets_of_one_report_are_kept() {
    let mut rng = Rng::new(89);
    let mut tally = Tally::default();
    for _ in 0..1_000 {
        let sheet = one_report(&mut rng);
        let whole = tried(&mut rng, &mut tally, &sheet.bytes, sheet.w);
        assert!(whole.copy == sheet.bytes && whole.dropped.is_empty(), "{sheet:?}");
    }
}

/// Every byte of a sheet of three records, as every byte.
#[test]
fn every_byte_changed() {
    let sheet = b"000001001ab\n000001002 ~\n000010001cd\n";
    let mut tally = Tally::default();
    for at in 0..sheet.len() {
        for byte in 0..=255 {
            let mut sheet = *sheet;
            sheet[at] = byte;
            for at in 0..=sheet.len() + 1 {
                tally.read(&sheet, at, 2);
            }
            tally.repair(Asked { sheet: &sheet, w: 2, copy: 36, list: 27, salt: byte });
        }
    }
}
