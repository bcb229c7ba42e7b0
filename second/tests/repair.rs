//! A damaged sheet repaired: what is kept and what is dropped, the list's bytes, the refusals, the room of both buffers.

mod common;

use common::{sheet_bytes, whole_run, Run, WHOLE_RUN_ROWS, WHOLE_RUN_SHEET};
use second::cases::damage::{damage, damaged, KINDS};
use second::cases::sheets::one_report;
use second::cases::{Repairs, Rng};
use second::read::Refusal;
use second::repair::{repair, repaired, Answer, Dropped, FORM, ORDER};

/// What no call has written.
const UNTOUCHED: u8 = 170;

/// Records of W 1, each with its page, line and character.
fn records(parts: &[&str]) -> Vec<u8> {
    parts.iter().flat_map(|part| format!("{part}\n").into_bytes()).collect()
}

/// The sheet is kept but for these offsets, each with its reason.
fn drops(sheet: &[u8], w: usize, expected: &[(u64, u8)]) {
    let repaired = repaired(sheet, w).unwrap();
    let dropped: Vec<_> = repaired.dropped.iter().map(|dropped| (dropped.offset, dropped.reason)).collect();
    assert_eq!(dropped, expected, "{}", sheet.escape_ascii());
    let is_dropped = |nth: usize| expected.iter().any(|&(offset, _)| offset == (nth * (w + 10)) as u64);
    let pieces = sheet.chunks(w + 10).enumerate().filter(|(nth, _)| !is_dropped(*nth));
    assert_eq!(repaired.copy, pieces.flat_map(|(_, piece)| piece).copied().collect::<Vec<u8>>());
}

// ---- what is kept

#[test]
fn an_undamaged_sheet_is_kept_whole() {
    drops(&sheet_bytes(WHOLE_RUN_SHEET), 12, &[]);
    drops(b"", 1, &[]);
    drops(b"", 132, &[]);
    drops(&records(&["000001001a"]), 1, &[]);
}

#[test]
fn the_sheets_of_two_reports_lose_the_second_up_to_where_it_is_later() {
    let mut run = Run::begin(&whole_run().bytes());
    run.generate(0, WHOLE_RUN_ROWS[0]).terminate();
    let first = run.sheet.clone();
    let whole = sheet_bytes(WHOLE_RUN_SHEET);
    // The first ends on page 1, line 4.
    assert_eq!(first.len(), 66);
    let dropped = [(66, ORDER), (88, ORDER), (110, ORDER)];
    drops(&[&first[..], &whole].concat(), 12, &dropped);
}

#[test]
fn a_later_page_or_a_later_line_on_the_same_page_is_kept() {
    drops(&records(&["000001001a", "000001002b", "000001999c", "000002001d", "999999999e"]), 1, &[]);
    // Pages and lines may be left out; a later page may have an earlier line.
    drops(&records(&["000007900a", "000009001b"]), 1, &[]);
    // The first is kept wherever it stands.
    drops(&records(&["999999999a"]), 1, &[]);
}

#[test]
fn pages_and_lines_are_compared_as_numbers() {
    drops(&records(&["000009001a", "000010001b", "000099001c", "000100001d"]), 1, &[]);
    drops(&records(&["000001009a", "000001010b", "000001099c", "000001100d"]), 1, &[]);
    drops(&records(&["000010001a", "000009999b"]), 1, &[(11, ORDER)]);
    drops(&records(&["000001010a", "000001009b"]), 1, &[(11, ORDER)]);
    // The page counts before the line.
    drops(&records(&["000002001a", "000001002b"]), 1, &[(11, ORDER)]);
    drops(&records(&["000001999a", "000002001b"]), 1, &[]);
}

// ---- order

#[test]
fn an_equal_line_on_the_same_page_is_dropped_as_order() {
    drops(&records(&["000001001a", "000001001b", "000001002c"]), 1, &[(11, ORDER)]);
    // Also the same record again, also several times.
    drops(&records(&["000001001a", "000001001a", "000001001a"]), 1, &[(11, ORDER), (22, ORDER)]);
}

#[test]
fn the_order_is_that_of_the_last_kept_one() {
    // Dropped ones do not count: 4 comes behind 5, and 6 behind 5 though 9 has stood there in a bad form.
    let sheet = records(&["000001005a", "000001003b", "000001004c", "00000x009d", "000001006e"]);
    drops(&sheet, 1, &[(11, ORDER), (22, ORDER), (33, FORM)]);
    // A page far ahead, once kept, puts the rest out of order.
    let sheet = records(&["000001001a", "900001002b", "000001003c", "000002001d"]);
    drops(&sheet, 1, &[(22, ORDER), (33, ORDER)]);
}

#[test]
fn swapped_records_lose_the_earlier_one() {
    drops(&records(&["000001001a", "000001003c", "000001002b", "000001004d"]), 1, &[(22, ORDER)]);
}

// ---- form

#[test]
fn what_is_not_well_formed_is_dropped_as_form() {
    for bad in [
        "000000002b",
        "000001000b",
        "00000 002b",
        "-00001002b",
        "000001+02b",
        "00000100:b",
        "000001002\x1f",
        "000001002\x7f",
    ] {
        drops(&records(&["000001001a", bad, "000001003c"]), 1, &[(11, FORM)]);
        drops(&records(&[bad]), 1, &[(0, FORM)]);
    }
    for good in ["000001002 ", "000001002~"] {
        drops(&records(&["000001001a", good, "000001003c"]), 1, &[]);
    }
    // The byte 10 is missing, something else in its place.
    drops(b"000001001a\n000001002b000001003c\n", 1, &[(11, FORM), (22, FORM)]);
    drops(b"000001001a\n000001002b\r000001003c\n", 1, &[(11, FORM)]);
}

#[test]
fn a_record_neither_well_formed_nor_in_order_is_dropped_as_form() {
    for bad in ["000001001\x1f", "000001005\x7f", "000000005b", "000001000b"] {
        drops(&records(&["000001005a", bad]), 1, &[(11, FORM)]);
    }
}

#[test]
fn each_w_10_bytes_from_the_start_are_looked_at() {
    let sheet = records(&["000001001a", "000001002b", "000001003c"]);
    // A byte lost or one too many: nothing behind it stands in its place again.
    let mut short = sheet.clone();
    short.remove(5);
    drops(&short, 1, &[(0, FORM), (11, FORM), (22, FORM)]);
    let long = [&sheet[..11], b"?", &sheet[11..]].concat();
    drops(&long, 1, &[(11, FORM), (22, FORM), (33, FORM)]);
    // As many as a record has: one is dropped.
    let long = [&sheet[..11], b"?".repeat(11).as_slice(), &sheet[11..]].concat();
    drops(&long, 1, &[(11, FORM)]);
}

#[test]
fn a_short_tail_is_dropped_as_form() {
    let sheet = records(&["000001001a", "000001002b"]);
    for length in 1..11 {
        drops(&sheet[..length], 1, &[(0, FORM)]);
        drops(&sheet[..11 + length], 1, &[(11, FORM)]);
    }
    drops(&[&sheet[..], b"\n"].concat(), 1, &[(22, FORM)]);
}

#[test]
fn a_repaired_sheet_is_kept_whole() {
    let sheet = records(&["000001005a", "000001003b", "00000x009d", "000001006e", "000"]);
    let copy = repaired(&sheet, 1).unwrap().copy;
    assert_eq!(copy, records(&["000001005a", "000001006e"]));
    drops(&copy, 1, &[]);
}

// ---- the list

#[test]
fn an_entry_is_the_offset_low_byte_first_and_the_reason() {
    let entry = Dropped { offset: 0x0807_0605_0403_0201, reason: ORDER };
    assert_eq!(entry.to_bytes(), [1, 2, 3, 4, 5, 6, 7, 8, 2]);
    assert_eq!(Dropped { offset: 0, reason: FORM }.to_bytes(), [0, 0, 0, 0, 0, 0, 0, 0, 1]);
    // 66,000 is 1 times 65,536, 1 times 256 and 208.
    let entry = Dropped { offset: 66_000, reason: FORM };
    assert_eq!(entry.to_bytes(), [208, 1, 1, 0, 0, 0, 0, 0, 1]);
}

#[test]
fn the_list_is_in_the_order_of_the_sheet() {
    // 6,001 equal records: all but the first are dropped; the last one begins at 66,000.
    let sheet = b"000001001a\n".repeat(6_001);
    let (mut copy, mut list) = ([UNTOUCHED; 11], vec![UNTOUCHED; 9 * 6_000]);
    let answer = repair(&sheet, 1, &mut copy, &mut list);
    assert_eq!(answer, Answer { number: 0, extra: 0, copied: 11, listed: 54_000 });
    assert_eq!(copy, *b"000001001a\n");
    assert_eq!(list[..18], [11, 0, 0, 0, 0, 0, 0, 0, 2, 22, 0, 0, 0, 0, 0, 0, 0, 2]);
    assert_eq!(list[9 * 5_999..], [208, 1, 1, 0, 0, 0, 0, 0, 2]);
}

// ---- W

#[test]
fn w_is_1_to_132() {
    for w in [1, 131, 132] {
        let sheet = [&b"000001001"[..], &vec![b'x'; w], b"\n"].concat();
        drops(&sheet, w, &[]);
    }
    for w in [0, 133, 65536 + 1, usize::MAX] {
        let sheet = [&b"000001001"[..], &vec![b'x'; w.min(200)], b"\n"].concat();
        assert_eq!(repaired(&sheet, w), Err(Refusal { number: 12, extra: 0 }));
        // Before 9: with no room at all, and with enough.
        for room in [0, 300] {
            let (mut copy, mut list) = (vec![UNTOUCHED; room], vec![UNTOUCHED; room]);
            let answer = repair(&sheet, w, &mut copy, &mut list);
            assert_eq!(answer, Answer { number: 12, extra: 0, copied: 0, listed: 0 });
            assert!([copy, list].concat().iter().all(|&byte| byte == UNTOUCHED));
        }
    }
}

// ---- room

/// Two kept, two dropped and a short tail: 22 bytes of copy, 27 of list.
fn small_sheet() -> (Vec<u8>, Vec<u8>, Vec<u8>) {
    let sheet = [records(&["000001005a", "000001003b", "00000x009d", "000001006e"]), vec![b'0'; 3]].concat();
    let list = [[11, 0, 0, 0, 0, 0, 0, 0, 2], [22, 0, 0, 0, 0, 0, 0, 0, 1], [44, 0, 0, 0, 0, 0, 0, 0, 1]];
    (sheet, records(&["000001005a", "000001006e"]), list.concat())
}

#[test]
fn bytes_behind_what_is_written_stay() {
    let (sheet, kept, entries) = small_sheet();
    for (more, list_more) in [(0, 0), (1, 0), (0, 1), (40, 9)] {
        let (mut copy, mut list) = (vec![UNTOUCHED; 22 + more], vec![UNTOUCHED; 27 + list_more]);
        let answer = repair(&sheet, 1, &mut copy, &mut list);
        assert_eq!(answer, Answer { number: 0, extra: 0, copied: 22, listed: 27 });
        assert_eq!(copy, [kept.clone(), vec![UNTOUCHED; more]].concat());
        assert_eq!(list, [entries.clone(), vec![UNTOUCHED; list_more]].concat());
    }
}

#[test]
fn one_byte_short_in_either_buffer_is_refused_and_both_stay() {
    let (sheet, _, _) = small_sheet();
    for (room, list_room) in [(21, 27), (22, 26), (21, 26), (0, 27), (22, 0), (0, 0), (21, 500), (500, 26)] {
        let (mut copy, mut list) = (vec![UNTOUCHED; room], vec![UNTOUCHED; list_room]);
        let answer = repair(&sheet, 1, &mut copy, &mut list);
        assert_eq!(answer, Answer { number: 9, extra: 0, copied: 0, listed: 0 }, "{room} and {list_room}");
        assert!([copy, list].concat().iter().all(|&byte| byte == UNTOUCHED), "{room} and {list_room}");
    }
}

#[test]
fn no_room_is_needed_for_nothing() {
    assert_eq!(repair(b"", 1, &mut [], &mut []).number, 0);
    // All is kept: no list. All is dropped: no copy.
    let sheet = sheet_bytes(WHOLE_RUN_SHEET);
    let (mut copy, mut list) = (vec![UNTOUCHED; 176], [UNTOUCHED; 9]);
    let answer = repair(&sheet, 12, &mut copy, &mut []);
    assert_eq!(answer, Answer { number: 0, extra: 0, copied: 176, listed: 0 });
    assert_eq!(copy, sheet);
    let answer = repair(b"damaged", 12, &mut [], &mut list);
    assert_eq!(answer, Answer { number: 0, extra: 0, copied: 0, listed: 9 });
    assert_eq!(list, [0, 0, 0, 0, 0, 0, 0, 0, 1]);
}

// ---- by chance

#[test]
fn a_random_report_is_kept_whole_whatever_it_prints() {
    let mut rng = Rng::new(22);
    for _ in 0..100 {
        let sheet = one_report(&mut rng);
        drops(&sheet.bytes, sheet.w, &[]);
    }
}

#[test]
fn a_random_damaged_sheet_is_kept_in_part() {
    let mut rng = Rng::new(23);
    let sheet = sheet_bytes(WHOLE_RUN_SHEET);
    for kind in KINDS.into_iter().cycle().take(400) {
        let mut torn = sheet.clone();
        damage(&mut rng, &mut torn, 12, kind);
        let copy = repaired(&torn, 12).unwrap().copy;
        assert!(copy.len() <= torn.len() && copy.len().is_multiple_of(22));
        drops(&copy, 12, &[]);
        let torn = damaged(&mut rng, &sheet, 12).bytes;
        drops(&repaired(&torn, 12).unwrap().copy, 12, &[]);
    }
}

#[test]
fn random_files_are_read_and_repaired_as_document_02_says() {
    let run = Repairs::run(24, 2_000);
    assert_eq!(run.wrong, Vec::<String>::new());
    assert!(run.files() >= 2_000 && run.sheets >= 150 && run.kept >= 20_000, "{run:?}");
    let never: Vec<_> = run.reached.iter().filter(|(_, &times)| times == 0).collect();
    assert!(never.is_empty(), "{never:?}");
}
