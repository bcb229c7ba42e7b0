//! A sheet read back: what is well-formed, byte by byte; the refusals and their order; the end; the walker.

mod common;

use common::{sheet_bytes, WHOLE_RUN_SHEET};
use second::cases::Rng;
use second::read::{read, Read, Record, Refusal, Walker};

const END: Result<Read, Refusal> = Ok(Read::End);

fn record(page: u32, line: u32, text: usize) -> Result<Read, Refusal> {
    Ok(Read::Record(Record { page, line, text }))
}

fn refused(extra: u64) -> Result<Read, Refusal> {
    Err(Refusal { number: 12, extra })
}

/// Page 12, line 34, a text of 2 characters.
const GOOD: &[u8; 12] = b"000012034ab\n";

/// `GOOD` with another byte at a place.
fn with(at: usize, byte: u8) -> [u8; 12] {
    let mut bytes = *GOOD;
    bytes[at] = byte;
    bytes
}

// ---- one record

#[test]
fn a_record_is_page_line_and_where_its_text_starts() {
    assert_eq!(read(GOOD, 0, 2), record(12, 34, 9));
    assert_eq!(read(b"000001001x\n", 0, 1), record(1, 1, 9));
    assert_eq!(read(b"999999999~\n", 0, 1), record(999_999, 999, 9));
    assert_eq!(read(b"100000100 \n", 0, 1), record(100_000, 100, 9));
    assert_eq!(read(b"012345067a\n", 0, 1), record(12_345, 67, 9));
}

#[test]
fn page_and_line_are_digits_in_every_place() {
    for at in 0..9 {
        for byte in b'0'..=b'9' {
            assert!(read(&with(at, byte), 0, 2).is_ok(), "byte {byte} at {at}");
        }
        // Before 0, behind 9, a sign, a blank, a letter, the end, and what else a byte can be.
        for byte in [b'/', b':', b'+', b'-', b' ', b'a', 10, 0, 31, 127, 128, 0xb1, 255] {
            assert_eq!(read(&with(at, byte), 0, 2), refused(0), "byte {byte} at {at}");
        }
    }
}

#[test]
fn page_0_and_line_0_are_not_well_formed() {
    assert_eq!(read(b"000000001a\n", 0, 1), refused(0));
    assert_eq!(read(b"000001000a\n", 0, 1), refused(0));
    assert_eq!(read(b"000000000a\n", 0, 1), refused(0));
    assert_eq!(read(b"999999000a\n", 0, 1), refused(0));
    assert_eq!(read(b"000000999a\n", 0, 1), refused(0));
}

#[test]
fn text_bytes_are_32_to_126_in_every_place() {
    for at in [9, 10] {
        for byte in 0..=255 {
            let expected = if (32..=126).contains(&byte) { record(12, 34, 9) } else { refused(0) };
            assert_eq!(read(&with(at, byte), 0, 2), expected, "byte {byte} at {at}");
        }
    }
}

#[test]
fn the_last_byte_is_10() {
    for byte in (0..=255).filter(|&byte| byte != 10) {
        assert_eq!(read(&with(11, byte), 0, 2), refused(0), "byte {byte}");
    }
    // The byte is missing: at the end of the sheet, or the next record stands there.
    assert_eq!(read(&GOOD[..11], 0, 2), refused(0));
    assert_eq!(read(b"000012034ab000012035ab\n", 0, 2), refused(0));
}

#[test]
fn a_record_of_another_width_is_not_well_formed() {
    for w in (1..=132).filter(|&w| w != 2) {
        assert_eq!(read(GOOD, 0, w), refused(0), "W {w}");
    }
}

// ---- W

#[test]
fn w_is_1_to_132() {
    for w in [1, 2, 131, 132] {
        let sheet = [&b"000001001"[..], &vec![b'x'; w], b"\n"].concat();
        assert_eq!(read(&sheet, 0, w), record(1, 1, 9));
        assert_eq!(read(&sheet, sheet.len(), w), END);
    }
    for w in [0, 133, 134, 255, 256 + 2, 65536 + 2, usize::MAX - 9, usize::MAX] {
        let sheet = [&b"000001001"[..], &vec![b'x'; w.min(200)], b"\n"].concat();
        assert_eq!(read(&sheet, 0, w), refused(0), "W {w}");
    }
}

#[test]
fn w_is_tried_first() {
    // At the end, past it, and where no record stands the extra number is 0 all the same.
    for w in [0, 133, usize::MAX] {
        for offset in [0, 1, 12, 13, usize::MAX] {
            assert_eq!(read(GOOD, offset, w), refused(0), "W {w}, offset {offset}");
        }
        assert_eq!(read(b"", 0, w), refused(0));
    }
}

// ---- offsets

#[test]
fn the_length_is_the_end_and_past_it_there_is_no_record() {
    assert_eq!(read(GOOD, 12, 2), END);
    assert_eq!(read(b"", 0, 1), END);
    for offset in [13, 14, 24, 1000, 1 << 32, usize::MAX - 11, usize::MAX] {
        assert_eq!(read(GOOD, offset, 2), refused(offset as u64));
        assert_eq!(read(b"", offset, 132), refused(offset as u64));
    }
}

#[test]
fn every_other_offset_of_a_sheet_is_refused_with_itself() {
    let sheet = sheet_bytes(WHOLE_RUN_SHEET);
    for offset in 0..=sheet.len() + 30 {
        match read(&sheet, offset, 12) {
            Ok(Read::Record(record)) => assert!(offset % 22 == 0 && record.text == offset + 9),
            Ok(Read::End) => assert_eq!(offset, 176),
            Err(refusal) => {
                assert_eq!(refusal, Refusal { number: 12, extra: offset as u64 });
                assert!(offset % 22 != 0 || offset > 176);
            }
        }
    }
}

#[test]
fn a_record_may_stand_at_any_offset() {
    let sheet = [b"wet", &GOOD[..], b"12", GOOD].concat();
    assert_eq!(read(&sheet, 3, 2), record(12, 34, 12));
    assert_eq!(read(&sheet, 17, 2), record(12, 34, 26));
    for offset in [0, 1, 2, 4, 14, 15, 16, 18, 28] {
        assert_eq!(read(&sheet, offset, 2), refused(offset as u64));
    }
    assert_eq!(read(&sheet, 29, 2), END);
}

#[test]
fn a_short_tail_is_no_record() {
    for length in 1..12 {
        let sheet = [GOOD, &GOOD[..length]].concat();
        assert_eq!(read(&sheet, 12, 2), refused(12), "{length} bytes");
        assert_eq!(read(&sheet, 12 + length, 2), END);
    }
}

#[test]
fn records_need_not_rise_to_be_read() {
    let sheet = b"000002002a\n000001001b\n000001001b\n";
    assert_eq!(read(sheet, 0, 1), record(2, 2, 9));
    assert_eq!(read(sheet, 11, 1), record(1, 1, 20));
    assert_eq!(read(sheet, 22, 1), record(1, 1, 31));
}

// ---- the walker

#[test]
fn the_whole_run_is_read_back_as_it_was_printed() {
    let sheet = sheet_bytes(WHOLE_RUN_SHEET);
    let expected = [
        (1, 1, "PAGE..1....."),
        (1, 3, "AA......5..."),
        (1, 4, "........7..."),
        (1, 5, "SUM....12..."),
        (1, 6, "BB.....-2..."),
        (2, 1, "PAGE..2....."),
        (2, 3, "BB......9..."),
        (2, 4, "SUM.....7..."),
    ];
    let mut walker = Walker::new(&sheet, 12);
    for (nth, (page, line, text)) in expected.into_iter().enumerate() {
        assert_eq!(walker.place(), 22 * nth);
        let Ok(Read::Record(record)) = walker.step() else { panic!("record {nth}") };
        assert_eq!((record.page, record.line), (page, line));
        assert_eq!(walker.text(&record), sheet_bytes(text));
    }
    // "Answers end at the end", however often it is asked.
    for _ in 0..3 {
        assert_eq!((walker.step(), walker.place()), (END, 176));
    }
}

#[test]
fn the_walker_stays_at_a_bad_record() {
    let sheet = [&GOOD[..], &with(9, 31), GOOD].concat();
    let mut walker = Walker::new(&sheet, 2);
    assert_eq!((walker.step(), walker.place()), (record(12, 34, 9), 12));
    for _ in 0..3 {
        assert_eq!((walker.step(), walker.place()), (refused(12), 12));
    }
    let mut walker = Walker::new(GOOD, 133);
    assert_eq!((walker.step(), walker.place()), (refused(0), 0));
}

#[test]
fn any_bytes_may_come_in() {
    let mut rng = Rng::new(20);
    for _ in 0..20_000 {
        let length = rng.below(30);
        let bytes: Vec<u8> = (0..length).map(|_| rng.pick(b"0019a~\n\x1f\x7f")).collect();
        let (offset, w) = (rng.below(35), rng.below(6));
        match read(&bytes, offset, w) {
            Ok(Read::Record(record)) => {
                let line = format!("{:06}{:03}", record.page, record.line);
                assert!(bytes[offset..].starts_with(line.as_bytes()) && bytes[offset + 9 + w] == 10);
            }
            Ok(Read::End) => assert_eq!(offset, length),
            Err(Refusal { number, extra }) => {
                assert_eq!((number, extra), (12, if w == 0 { 0 } else { offset as u64 }));
            }
        }
    }
}
