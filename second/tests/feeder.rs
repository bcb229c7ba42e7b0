//! The feeder of request R-1: its readings one by one, its refusals and their order, the cuts of a run.

mod common;

use common::{item, marked_page, sheet_bytes, whole_run, WHOLE_RUN_ROWS, WHOLE_RUN_SHEET};
use second::builder::Builder;
use second::cases::{accepted_description, Rng};
use second::description::*;
use second::feeder::{bytes, discard, feed, initiate, terminate, Answer, Feeder, FEEDER_BYTES};
use second::record::bytes_of;
use second::report::{self, generate};
use second::state::{State, IDLE, RUNNING, STARTED, SUM_LIMIT};

/// What no call has written.
const UNTOUCHED: u8 = 170;

/// What stands behind the kept bytes: it says nothing, and a call that changes nothing leaves it.
const BEHIND: u8 = 99;

const PLENTY: usize = 1 << 17;

/// A feeder in a state with some bytes kept and `BEHIND` behind them.
fn feeder_in(state: State, kept: &[u8]) -> Feeder {
    let mut feeder = Feeder { state, kept: [BEHIND; 256], ..Feeder::fresh(0) };
    feeder.kept_count = kept.len() as u16;
    feeder.kept[..kept.len()].copy_from_slice(kept);
    feeder
}

/// The feeder with some bytes kept and zeros behind them, as a feed leaves it.
fn keeping(feeder: &Feeder, kept: &[u8]) -> Feeder {
    let mut next = Feeder { kept_count: kept.len() as u16, kept: [0; 256], ..feeder.clone() };
    next.kept[..kept.len()].copy_from_slice(kept);
    next
}

/// A feeder just initiated, of detail 0.
fn begun(desc: &[u8]) -> Feeder {
    let answer = initiate(desc, &Feeder::fresh(0));
    assert_eq!((answer.number, answer.extra), (0, 0), "INITIATE refused");
    answer.feeder
}

/// The answer to a chunk and the bytes printed; the output behind them must be as it was.
fn fed(desc: &[u8], feeder: &Feeder, chunk: &[u8], room: usize) -> (Answer, Vec<u8>) {
    let mut out = vec![UNTOUCHED; room];
    let answer = feed(desc, feeder, chunk, &mut out);
    let rest = out.split_off(answer.printed);
    assert!(rest.iter().all(|&byte| byte == UNTOUCHED), "output behind the printed bytes is touched");
    (answer, out)
}

/// The rows one by one as detail 0, up to the first refused: how many are accepted, the state, what is printed.
fn by_rows(desc: &[u8], state: &State, rows: &[&[u8]]) -> (usize, State, Vec<u8>) {
    let (mut state, mut sheet) = (state.clone(), Vec::new());
    for (i, row) in rows.iter().enumerate() {
        let mut out = vec![0; PLENTY];
        let answer = generate(desc, &state, 0, row, &mut out);
        if answer.number != 0 {
            return (i, state, sheet);
        }
        sheet.extend_from_slice(&out[..answer.count]);
        state = answer.state;
    }
    (rows.len(), state, sheet)
}

/// A running state of the whole run on line 6: a row of BB turns the page.
fn running() -> State {
    let mut state = State { phase: RUNNING, page: 3, line: 6, seen: 1, ..State::fresh() };
    state.keep(b"BB+001");
    state
}

// ---- the feeder and its bytes

#[test]
fn a_fresh_feeder_has_a_fresh_state_its_detail_and_no_bytes_kept() {
    let fresh = Feeder::fresh(5);
    assert_eq!((fresh.state, fresh.detail, fresh.kept_count, fresh.kept), (State::fresh(), 5, 0, [0; 256]));
}

#[test]
fn bytes_have_their_layout() {
    let mut feeder = Feeder::fresh(0x0807_0605_0403_0201);
    feeder.state.page = 7;
    feeder.kept_count = 0x0a09;
    (feeder.kept[0], feeder.kept[255]) = (11, 12);
    let bytes = feeder.to_bytes();
    assert_eq!(bytes.len(), 796);
    assert_eq!(bytes[..530], feeder.state.to_bytes());
    assert_eq!(bytes[530..541], [1, 2, 3, 4, 5, 6, 7, 8, 9, 10, 11]);
    assert_eq!(bytes[795], 12);
    assert_eq!(Feeder::from_bytes(&bytes), feeder);
    let any: [u8; FEEDER_BYTES] = std::array::from_fn(|i| (i * 37 % 251) as u8);
    assert_eq!(Feeder::from_bytes(&any).to_bytes(), any);
}

#[test]
fn calls_on_bytes_leave_the_next_feeders_bytes() {
    let desc = whole_run().bytes();
    let mut area = bytes::fresh(0);
    let feeder = Feeder::fresh(0);
    assert_eq!(area, feeder.to_bytes());

    let answer = initiate(&desc, &feeder);
    assert_eq!(bytes::initiate(&desc, &mut area), answer);
    assert_eq!(area, answer.feeder.to_bytes());

    let (mut out, mut other) = ([UNTOUCHED; 100], [UNTOUCHED; 100]);
    let answer = feed(&desc, &answer.feeder, b"AA+005AA", &mut out);
    assert_eq!(bytes::feed(&desc, &mut area, b"AA+005AA", &mut other), answer);
    assert_eq!((area, other), (answer.feeder.to_bytes(), out));

    let feeder = discard(&answer.feeder);
    bytes::discard(&mut area);
    assert_eq!(area, feeder.to_bytes());

    let answer = terminate(&desc, &feeder, &mut out);
    assert_eq!(bytes::terminate(&desc, &mut area, &mut other), answer);
    assert_eq!((area, other), (answer.feeder.to_bytes(), out));
}

// ---- chunks without a refused row

#[test]
fn a_chunk_that_finishes_no_row_is_kept() {
    let desc = whole_run().bytes();
    let feeder = feeder_in(running(), b"B");
    let (answer, printed) = fed(&desc, &feeder, b"B+00", 0);
    let next = keeping(&feeder, b"BB+00");
    assert_eq!(answer, Answer { number: 0, extra: 0, taken: 4, printed: 0, feeder: next });
    assert!(printed.is_empty());
}

#[test]
fn a_row_finished_at_the_chunks_end_leaves_nothing_kept() {
    let desc = whole_run().bytes();
    for (kept, chunk) in [(&b""[..], &b"BB+009"[..]), (b"BB+00", b"9"), (b"B", b"B+009")] {
        let feeder = feeder_in(running(), kept);
        let (answer, printed) = fed(&desc, &feeder, chunk, 44);
        let (_, state, sheet) = by_rows(&desc, &feeder.state, &[b"BB+009"]);
        let next = keeping(&Feeder { state, ..feeder }, b"");
        assert_eq!(answer, Answer { number: 0, extra: 0, taken: chunk.len(), printed: 44, feeder: next });
        assert_eq!(printed, sheet);
    }
}

#[test]
fn the_bytes_behind_the_last_finished_row_are_kept() {
    let desc = whole_run().bytes();
    let feeder = feeder_in(running(), b"BB+");
    let (answer, printed) = fed(&desc, &feeder, b"009CC+001CC+0", PLENTY);
    let (_, state, sheet) = by_rows(&desc, &feeder.state, &[b"BB+009", b"CC+001"]);
    let next = keeping(&Feeder { state, ..feeder }, b"CC+0");
    assert_eq!(answer, Answer { number: 0, extra: 0, taken: 13, printed: sheet.len(), feeder: next });
    assert_eq!(printed, sheet);
}

#[test]
fn rows_go_into_what_is_left_of_the_output() {
    let desc = whole_run().bytes();
    let sheet = sheet_bytes(WHOLE_RUN_SHEET);
    // Two lines come of row 1, one of row 2, two of row 3, two of row 4.
    for (room, number, taken, printed) in
        [(43, 9, 0, 0), (44, 9, 6, 44), (65, 9, 6, 44), (66, 9, 12, 66), (153, 9, 18, 110), (154, 0, 24, 154)]
    {
        let (answer, bytes) = fed(&desc, &begun(&desc), &WHOLE_RUN_ROWS.concat(), room);
        assert_eq!((answer.number, answer.taken, answer.printed), (number, taken, printed), "room {room}");
        assert_eq!(bytes, sheet[..printed]);
    }
}

#[test]
fn every_row_has_the_detail_number_set_at_the_start() {
    let mut b = marked_page(2, 1);
    for text in ["D0", "D1", "D2"] {
        b.group(DE, 0);
        b.line(LINE_RELATIVE, 1);
        b.literal(1, text);
    }
    let desc = b.bytes();
    for (detail, text) in ["D0", "D1", "D2"].into_iter().enumerate() {
        let answer = initiate(&desc, &Feeder::fresh(detail as u64));
        let (answer, printed) = fed(&desc, &answer.feeder, b"xy", PLENTY);
        assert_eq!((answer.number, answer.feeder.detail), (0, detail as u64));
        assert_eq!(printed, format!("000001003{text}\n000001004{text}\n").into_bytes());
    }
}

// ---- records of 1 and of 256 bytes

/// Records of `r` bytes, of which the detail shows the first and the last.
fn records_of(r: u16) -> Vec<u8> {
    let mut b = Builder::new(999, 1, 1, 999, 999, 2, r);
    let (first, last) = (b.text(0, 1), b.text(r - 1, 1));
    b.group(DE, 0);
    b.line(LINE_RELATIVE, 1);
    b.item(item(1, 1, FIELD, first));
    b.item(item(2, 1, FIELD, last));
    b.bytes()
}

#[test]
fn of_one_byte_every_byte_is_a_row() {
    let desc = records_of(1);
    let feeder = begun(&desc);
    let chunk: Vec<u8> = (0..4096).map(|i| b'0' + (i % 10) as u8).collect();
    let (answer, printed) = fed(&desc, &feeder, &chunk, PLENTY);
    let rows: Vec<&[u8]> = chunk.chunks(1).collect();
    let (accepted, state, sheet) = by_rows(&desc, &feeder.state, &rows);
    assert_eq!((accepted, sheet.len()), (4096, 4096 * 12));
    let next = Feeder { state, ..feeder };
    assert_eq!(answer, Answer { number: 0, extra: 0, taken: 4096, printed: sheet.len(), feeder: next });
    assert_eq!(printed, sheet);
}

#[test]
fn of_one_byte_none_can_be_kept() {
    let desc = records_of(1);
    let feeder = Feeder { kept_count: 1, ..begun(&desc) };
    assert_eq!(fed(&desc, &feeder, b"x", PLENTY).0, refusal(2, 0, &feeder));
}

#[test]
fn of_256_bytes_255_can_be_kept() {
    let desc = records_of(256);
    let bytes: Vec<u8> = (0..2 * 4096).map(|i| b'A' + (i % 26) as u8).collect();
    let mut feeder = begun(&desc);
    let mut sheet = Vec::new();
    // (taken from, taken to, kept afterwards)
    for (from, to, kept) in [(0, 255, 255), (255, 256, 0), (256, 511, 255), (511, 4607, 255), (4607, 8192, 0)]
    {
        let (answer, printed) = fed(&desc, &feeder, &bytes[from..to], PLENTY);
        assert_eq!((answer.number, answer.taken), (0, to - from));
        assert_eq!(answer.feeder, keeping(&answer.feeder, &bytes[to - kept..to]));
        sheet.extend(printed);
        feeder = answer.feeder;
    }
    let rows: Vec<&[u8]> = bytes.chunks(256).collect();
    let (_, state, by_rows) = by_rows(&desc, &begun(&desc).state, &rows);
    assert_eq!((feeder.state, sheet), (state, by_rows));
}

// ---- cuts

/// Feeds the pieces, each with an output of its own; gives the feeder and all that is printed.
fn fed_in_pieces<'a>(desc: &[u8], pieces: impl IntoIterator<Item = &'a [u8]>) -> (Feeder, Vec<u8>) {
    let (mut feeder, mut sheet) = (begun(desc), Vec::new());
    for piece in pieces {
        let (answer, printed) = fed(desc, &feeder, piece, PLENTY);
        assert_eq!((answer.number, answer.taken), (0, piece.len()));
        sheet.extend(printed);
        feeder = answer.feeder;
    }
    (feeder, sheet)
}

/// The whole run in these pieces prints document 01's sheet and ends in the state of the rows one by one.
fn is_the_whole_run(pieces: &[&[u8]]) {
    let desc = whole_run().bytes();
    let (feeder, mut sheet) = fed_in_pieces(&desc, pieces.iter().copied());
    let (_, state, _) = by_rows(&desc, &begun(&desc).state, &WHOLE_RUN_ROWS);
    assert_eq!(feeder, keeping(&Feeder { state, ..Feeder::fresh(0) }, b""), "{pieces:?}");
    let mut out = vec![UNTOUCHED; PLENTY];
    let answer = terminate(&desc, &feeder, &mut out);
    sheet.extend(&out[..answer.printed]);
    assert_eq!(sheet, sheet_bytes(WHOLE_RUN_SHEET), "{pieces:?}");
}

#[test]
fn every_cut_in_two_or_three_prints_the_same() {
    let bytes = WHOLE_RUN_ROWS.concat();
    is_the_whole_run(&[&bytes]);
    for first in 1..bytes.len() {
        is_the_whole_run(&[&bytes[..first], &bytes[first..]]);
        for second in first + 1..bytes.len() {
            is_the_whole_run(&[&bytes[..first], &bytes[first..second], &bytes[second..]]);
        }
    }
}

#[test]
fn pieces_of_any_one_length_print_the_same() {
    let bytes = WHOLE_RUN_ROWS.concat();
    for length in 1..=bytes.len() {
        is_the_whole_run(&bytes.chunks(length).collect::<Vec<_>>());
    }
}

#[test]
fn a_blank_for_a_plus_prints_the_same_however_cut() {
    let bytes = b"AA 005AA+007BB-002BB 009";
    for first in 1..bytes.len() - 1 {
        for second in first + 1..bytes.len() {
            is_the_whole_run(&[&bytes[..first], &bytes[first..second], &bytes[second..]]);
        }
    }
}

#[test]
fn an_unfinished_records_blank_is_kept_as_it_came() {
    let desc = whole_run().bytes();
    // (kept, chunk, kept afterwards)
    for (kept, chunk, left) in
        [(&b"BB"[..], &b" "[..], &b"BB "[..]), (b"BB ", b"00", b"BB 00"), (b"B", b"B ", b"BB ")]
    {
        let feeder = feeder_in(running(), kept);
        let (answer, _) = fed(&desc, &feeder, chunk, 0);
        let next = keeping(&feeder, left);
        assert_eq!(answer, Answer { number: 0, extra: 0, taken: chunk.len(), printed: 0, feeder: next });
    }
    // The finished record is the report's kept one at a break, its blank too.
    let (answer, _) = fed(&desc, &feeder_in(running(), b"CC "), b"009", PLENTY);
    assert_eq!((answer.number, &answer.feeder.state.kept[..7]), (0, &b"CC 009\0"[..]));
}

#[test]
fn rows_of_equal_values_written_otherwise_make_no_break() {
    let mut b = marked_page(2, 4);
    let number = b.number(0, 4);
    b.control(number);
    b.group(DE, 0);
    b.group(CF, 0);
    b.line(LINE_RELATIVE, 1);
    b.literal(1, "CF");
    let desc = b.bytes();
    for (bytes, kept, breaks) in [
        (b"+007 007+007", b"+007", false),
        (b" 007+007 007", b" 007", false),
        (b"-000 000+000", b"-000", false),
        (b" 000-000+000", b" 000", false),
        (b"+007-007-007", b"-007", true),
        (b"-007-007 007", b" 007", true),
    ] {
        for length in 1..=bytes.len() {
            let (feeder, sheet) = fed_in_pieces(&desc, bytes.chunks(length));
            assert_eq!(feeder.state.kept[..4], *kept, "{}", bytes.escape_ascii());
            assert_eq!(!sheet.is_empty(), breaks, "{}", bytes.escape_ascii());
        }
    }
}

#[test]
fn the_day_sheet_comes_out_of_random_pieces() {
    let desc = include_bytes!("../../examples/day_sheet.desc");
    let rows = include_bytes!("../../examples/day_sheet.rows");
    let mut rng = Rng::new(11);
    for most in [1, 3, 67, 200, 4096, 4096, 4096] {
        let mut rest = &rows[..];
        let mut pieces = Vec::new();
        while !rest.is_empty() {
            let (piece, behind) = rest.split_at(rng.between(1, most).min(rest.len()));
            pieces.push(piece);
            rest = behind;
        }
        let (feeder, mut sheet) = fed_in_pieces(desc, pieces);
        let mut out = vec![UNTOUCHED; PLENTY];
        let answer = terminate(desc, &feeder, &mut out);
        sheet.extend(&out[..answer.printed]);
        assert!(sheet == include_bytes!("../../examples/day_sheet.sheet"), "pieces up to {most} bytes");
    }
}

#[test]
fn however_cut_all_before_the_first_refused_row_stands() {
    let desc = whole_run().bytes();
    let mut bytes = WHOLE_RUN_ROWS.concat();
    bytes[17] = b'x'; // the end of row 3, after 12 bytes
    let (accepted, state, sheet) = by_rows(&desc, &begun(&desc).state, &bytes.chunks(6).collect::<Vec<_>>());
    assert_eq!(accepted, 2);
    for cut in 1..bytes.len() {
        let (mut feeder, mut printed, mut taken) = (begun(&desc), Vec::new(), 0);
        for piece in [&bytes[..cut], &bytes[cut..]] {
            let (answer, more) = fed(&desc, &feeder, piece, PLENTY);
            printed.extend(more);
            taken += answer.taken;
            feeder = answer.feeder;
            if answer.number != 0 {
                assert_eq!((answer.number, answer.extra), (6, 1));
                break;
            }
        }
        // Bytes of row 3 are kept where the cut is within it: those of the first piece.
        let kept = if (12..18).contains(&cut) { cut - 12 } else { 0 };
        assert_eq!(
            feeder,
            keeping(&Feeder { state: state.clone(), ..feeder.clone() }, &bytes[12..12 + kept])
        );
        assert_eq!((taken, &printed), (12 + kept, &sheet), "cut at {cut}");
    }
}

// ---- a refused row

fn refusal(number: u8, extra: u32, feeder: &Feeder) -> Answer {
    Answer { number, extra, taken: 0, printed: 0, feeder: feeder.clone() }
}

#[test]
fn a_refused_first_row_begun_in_this_chunk_leaves_all_as_it_was() {
    let desc = whole_run().bytes();
    let feeder = feeder_in(running(), b"");
    assert_eq!(fed(&desc, &feeder, b"BB+00xBB+001", PLENTY).0, refusal(6, 1, &feeder));
}

#[test]
fn a_refused_first_row_begun_earlier_keeps_its_earlier_bytes() {
    let desc = whole_run().bytes();
    let feeder = feeder_in(running(), b"BB+");
    assert_eq!(fed(&desc, &feeder, b"00xBB+001BB", PLENTY).0, refusal(6, 1, &feeder));
    assert_eq!(fed(&desc, &feeder, b"009", 43).0, refusal(9, 0, &feeder));
}

#[test]
fn a_row_that_r_5_does_not_take_is_refused_however_cut() {
    let desc = whole_run().bytes();
    for row in [b"BB    ", b"BB  09", b"BB +09", b"BB -09", b"BB+ 09", b"BB- 09", b"BB009 ", b"BB0009"] {
        for kept in 0..6 {
            let feeder = feeder_in(running(), &row[..kept]);
            assert_eq!(fed(&desc, &feeder, &row[kept..], PLENTY).0, refusal(6, 1, &feeder));
        }
    }
}

#[test]
fn a_refused_later_row_is_not_taken_and_nothing_is_kept() {
    let desc = whole_run().bytes();
    // The row before it began in an earlier chunk or in this one; the refused row ends the chunk or does not.
    for (kept, chunk, taken) in
        [(&b"BB+0"[..], &b"09CC+00xCC"[..], 2), (b"BB+0", b"09CC+00x", 2), (b"", b"BB+009CC+00xCC+001", 6)]
    {
        let feeder = feeder_in(running(), kept);
        let (answer, printed) = fed(&desc, &feeder, chunk, PLENTY);
        let (_, state, sheet) = by_rows(&desc, &feeder.state, &[b"BB+009"]);
        let next = keeping(&Feeder { state, ..feeder }, b"");
        assert_eq!(answer, Answer { number: 6, extra: 1, taken, printed: sheet.len(), feeder: next });
        assert_eq!(printed, sheet);
    }
}

/// A change of state or chunk, the room, the refusal that they deserve and its extra number.
type RefusedRow = (fn(&mut State, &mut [u8]), usize, u8, u32);

#[test]
fn each_refusal_of_a_row_stops_a_chunk_behind_an_accepted_one() {
    let desc = whole_run().bytes();
    // BB-001 prints one line, in line 6; BB+009 turns the page.
    let refusals: [RefusedRow; 4] = [
        (|_, chunk| chunk[6] = 31, 66, 6, 0),
        (|state, _| state.sums[0] = SUM_LIMIT - 7, 66, 7, 0),
        (|state, _| state.page = 999_999, 66, 8, 0),
        (|_, _| (), 65, 9, 0),
    ];
    for (change, room, number, extra) in refusals {
        let mut chunk = *b"BB-001BB+009BB";
        let mut state = State { line: 5, ..running() };
        change(&mut state, &mut chunk);
        let (_, state_after, sheet) = by_rows(&desc, &state, &[b"BB-001"]);
        let feeder = feeder_in(state, b"");
        let (answer, printed) = fed(&desc, &feeder, &chunk, room);
        let next = keeping(&Feeder { state: state_after, ..feeder }, b"");
        assert_eq!(answer, Answer { number, extra, taken: 6, printed: 22, feeder: next });
        assert_eq!(printed, sheet);
    }
}

#[test]
fn tried_again_with_more_room_gives_what_a_first_call_gives() {
    let desc = whole_run().bytes();
    let bytes = [&WHOLE_RUN_ROWS.concat()[..], b"BB"].concat();
    for kept in 0..6 {
        let feeder = keeping(&begun(&desc), &bytes[..kept]);
        let (first, sheet) = fed(&desc, &feeder, &bytes[kept..], PLENTY);
        assert_eq!((first.number, sheet.len()), (0, 154));
        for room in 0..154 {
            let (short, mut printed) = fed(&desc, &feeder, &bytes[kept..], room);
            assert_eq!(short.number, 9, "room {room}");
            let (again, more) = fed(&desc, &short.feeder, &bytes[kept + short.taken..], PLENTY);
            printed.extend(more);
            assert_eq!((again.number, short.taken + again.taken), (0, first.taken));
            assert_eq!((again.feeder, &printed), (first.feeder.clone(), &sheet), "kept {kept}, room {room}");
        }
    }
}

// ---- dropping the kept bytes

#[test]
fn discard_drops_the_kept_bytes_and_nothing_else() {
    for state in [State::fresh(), State::started(), running()] {
        for kept in [&b""[..], b"BB+00"] {
            let feeder = Feeder { detail: 7, ..feeder_in(state.clone(), kept) };
            assert_eq!(discard(&feeder), keeping(&feeder, b""));
        }
    }
}

#[test]
fn discard_is_never_refused() {
    let mut area: [u8; FEEDER_BYTES] = std::array::from_fn(|i| (i * 37 % 251) as u8);
    let before = area;
    bytes::discard(&mut area);
    assert_eq!(area[..538], before[..538]);
    assert_eq!(area[538..], [0; 258]);
}

#[test]
fn after_discard_the_line_goes_on_with_the_next_row() {
    let desc = whole_run().bytes();
    let feeder = feeder_in(running(), b"xxxx");
    let (refused, _) = fed(&desc, &feeder, b"xxBB+009", PLENTY);
    assert_eq!(refused, refusal(6, 1, &feeder));
    let (answer, printed) = fed(&desc, &discard(&refused.feeder), b"BB+009", PLENTY);
    let (_, state, sheet) = by_rows(&desc, &running(), &[b"BB+009"]);
    assert_eq!((answer.number, answer.taken, answer.feeder.state, printed), (0, 6, state, sheet));
}

// ---- INITIATE and TERMINATE

#[test]
fn initiate_drops_the_kept_bytes_and_keeps_the_detail() {
    let desc = whole_run().bytes();
    let used = State { phase: IDLE, page: 9, line: 10, seen: 1, saved: 999, sums: [5; 32], ..State::fresh() };
    for kept in [&b""[..], b"BB+00"] {
        let feeder = Feeder { detail: 7, ..feeder_in(used.clone(), kept) };
        let next = Feeder { state: State::started(), ..Feeder::fresh(7) };
        let accepted = Answer { number: 0, extra: 0, taken: 0, printed: 0, feeder: next };
        assert_eq!(initiate(&desc, &feeder), accepted);
    }
}

#[test]
fn terminate_ends_the_report_and_leaves_the_kept_area() {
    let desc = whole_run().bytes();
    for state in [State::started(), running()] {
        let feeder = Feeder { detail: 7, ..feeder_in(state.clone(), b"") };
        let (mut out, mut other) = ([UNTOUCHED; 200], [UNTOUCHED; 200]);
        let answer = terminate(&desc, &feeder, &mut out);
        let report = report::terminate(&desc, &state, &mut other);
        let next = Feeder { state: report.state, ..feeder };
        assert_eq!(answer, Answer { number: 0, extra: 0, taken: 0, printed: report.count, feeder: next });
        assert_eq!(out, other);
    }
}

#[test]
fn terminate_with_bytes_kept_is_refused_with_their_count() {
    let desc = whole_run().bytes();
    for state in [State::started(), running()] {
        for count in 1..6 {
            let feeder = feeder_in(state.clone(), &b"BB+00"[..count]);
            let mut out = [UNTOUCHED; 200];
            assert_eq!(terminate(&desc, &feeder, &mut out), refusal(10, count as u32, &feeder));
            assert_eq!(out, [UNTOUCHED; 200]);
            // Dropping them helps.
            assert_eq!(terminate(&desc, &discard(&feeder), &mut out).number, 0);
        }
    }
}

#[test]
fn the_next_report_begins_on_the_same_feeder() {
    let desc = whole_run().bytes();
    let mut feeder = Feeder::fresh(0);
    for _ in 0..2 {
        feeder = initiate(&desc, &feeder).feeder;
        let (answer, mut sheet) = fed(&desc, &feeder, &WHOLE_RUN_ROWS.concat(), PLENTY);
        let mut out = [UNTOUCHED; 22];
        let answer = terminate(&desc, &answer.feeder, &mut out);
        sheet.extend(out);
        assert_eq!(sheet, sheet_bytes(WHOLE_RUN_SHEET));
        feeder = answer.feeder;
    }
}

// ---- refusals and their order

/// All that goes into a call.
struct Call {
    desc: Vec<u8>,
    feeder: Feeder,
    chunk: Vec<u8>,
    room: usize,
}

type Make = fn(&Call, &mut [u8; FEEDER_BYTES], &mut [u8]) -> Answer;

/// A refusal, its extra number, and a change to a call that deserves it.
type Deserve = (u8, u32, fn(&mut Call));

const FEED: Make = |call, area, out| bytes::feed(&call.desc, area, &call.chunk, out);
const INITIATE: Make = |call, area, _| bytes::initiate(&call.desc, area);
const TERMINATE: Make = |call, area, out| bytes::terminate(&call.desc, area, out);

/// The call is refused so, nothing is taken or printed, and every byte lent is as it was.
fn refused(call: &Call, make: Make, number: u8, extra: u32) {
    let (mut area, mut out) = (call.feeder.to_bytes(), vec![UNTOUCHED; call.room]);
    let answer = make(call, &mut area, &mut out);
    assert_eq!(answer, refusal(number, extra, &call.feeder));
    assert!(area == call.feeder.to_bytes(), "refusal {number} left the feeder's bytes changed");
    assert!(out.iter().all(|&byte| byte == UNTOUCHED), "refusal {number} left the output changed");
}

/// The call is accepted; each change deserves its refusal; of two refusals the earlier listed is given.
fn in_this_order(call: fn() -> Call, make: Make, deserve: &[Deserve]) {
    let accepted = call();
    let (mut area, mut out) = (accepted.feeder.to_bytes(), vec![UNTOUCHED; accepted.room]);
    assert_eq!(make(&accepted, &mut area, &mut out).number, 0);
    for (first, &(number, extra, change)) in deserve.iter().enumerate() {
        let mut alone = call();
        change(&mut alone);
        refused(&alone, make, number, extra);
        for (_, _, later) in &deserve[first + 1..] {
            let mut both = call();
            later(&mut both);
            change(&mut both);
            refused(&both, make, number, extra);
        }
    }
}

fn break_rule_7(call: &mut Call) {
    let mut b = whole_run();
    b.tables.items[0].decimals = 1;
    call.desc = b.bytes();
}

fn break_the_state(call: &mut Call) {
    call.feeder.state.saved = 1000;
}

fn no_state(call: &mut Call) {
    call.feeder.state.flags[7] = 2;
}

fn keep_a_whole_record(call: &mut Call) {
    call.feeder.kept_count = 6;
}

fn idle(call: &mut Call) {
    call.feeder.state.phase = IDLE;
}

/// Finishes one row that turns the page, 44 bytes, and begins the next.
fn a_feed() -> Call {
    Call {
        desc: whole_run().bytes(),
        feeder: feeder_in(running(), b"BB+"),
        chunk: b"009BB".to_vec(),
        room: 44,
    }
}

#[test]
fn feed_is_refused_by_18_1_2_3_4_6_7_8_9_in_this_order() {
    in_this_order(
        a_feed,
        FEED,
        &[
            (18, 0, |call| call.chunk.resize(4097, b' ')),
            (1, 7, break_rule_7),
            (2, 0, break_the_state),
            (2, 0, no_state),
            (2, 0, keep_a_whole_record),
            (3, 0, idle),
            (4, 0, |call| call.feeder.detail = 1),
            (6, 1, |call| call.chunk[2] = b' '),
            (7, 0, |call| call.feeder.state.sums[0] = SUM_LIMIT - 8),
            (8, 0, |call| call.feeder.state.page = 999_999),
            (9, 0, |call| call.room = 43),
        ],
    );
}

/// Begins a row and finishes none.
fn a_feed_without_a_row() -> Call {
    Call { chunk: b"0".to_vec(), room: 0, ..a_feed() }
}

#[test]
fn a_chunk_that_finishes_no_row_is_refused_by_18_and_1_to_4_alike() {
    in_this_order(
        a_feed_without_a_row,
        FEED,
        &[
            (18, 0, |call| call.chunk.clear()),
            (1, 7, break_rule_7),
            (2, 0, break_the_state),
            (2, 0, no_state),
            (2, 0, keep_a_whole_record),
            (3, 0, idle),
            (4, 0, |call| call.feeder.detail = 1),
        ],
    );
}

#[test]
fn initiate_is_refused_by_1_2_3_in_this_order() {
    in_this_order(
        || Call { feeder: feeder_in(State::fresh(), b"BB+"), ..a_feed() },
        INITIATE,
        &[
            (1, 7, break_rule_7),
            (2, 0, break_the_state),
            (2, 0, no_state),
            (2, 0, keep_a_whole_record),
            (3, 0, |call| call.feeder.state.phase = STARTED),
        ],
    );
}

/// Two control footings: the junior one turns the page and prints 22 bytes, its sum is added to the senior's.
fn a_terminate() -> Call {
    let mut b = marked_page(12, 6);
    let agent = b.text(0, 2);
    let amount = b.number(2, 4);
    b.control(FINAL);
    b.control(agent);
    b.group(DE, 0);
    let junior = b.group(CF, 1);
    b.line(LINE_RELATIVE, 1);
    let senior = b.group(CF, 0);
    let added = b.counter(junior, 1);
    b.add_field(amount, 1);
    b.counter(senior, 0);
    b.add_counter(added);
    let mut state = State { line: 8, ..running() };
    state.sums[0] = 1;
    Call { desc: b.bytes(), feeder: feeder_in(state, b""), chunk: Vec::new(), room: 22 }
}

#[test]
fn terminate_is_refused_by_1_2_3_10_7_8_9_in_this_order() {
    in_this_order(
        a_terminate,
        TERMINATE,
        &[
            (1, 7, break_rule_7),
            (2, 0, break_the_state),
            (2, 0, no_state),
            (2, 0, keep_a_whole_record),
            (3, 0, idle),
            (10, 5, |call| call.feeder.kept_count = 5),
            (7, 0, |call| call.feeder.state.sums[1] = SUM_LIMIT),
            (8, 0, |call| call.feeder.state.page = 999_999),
            (9, 0, |call| call.room = 21),
        ],
    );
}

#[test]
fn refusal_18_is_a_chunk_of_0_or_over_4096_bytes() {
    let desc = whole_run().bytes();
    let feeder = begun(&desc);
    let bytes = b"AA+005".repeat(12_000);
    for length in [0, 4097, 4098, 8192, 65536, 65537, 70_000] {
        assert_eq!(fed(&desc, &feeder, &bytes[..length], PLENTY).0, refusal(18, 0, &feeder));
    }
    for length in [1, 4095, 4096] {
        let (answer, _) = fed(&desc, &feeder, &bytes[..length], PLENTY);
        assert_eq!((answer.number, answer.taken), (0, length));
        assert_eq!(usize::from(answer.feeder.kept_count), length % 6);
    }
}

#[test]
fn refusal_2_is_r_or_more_bytes_kept_under_the_description_at_hand() {
    for r in [1, 2, 6, 255, 256] {
        let desc = records_of(r);
        for (count, number) in [(0, 0), (r - 1, 0), (r, 2), (r + 1, 2), (257, 2), (65535, 2)] {
            let mut feeder = feeder_in(State::started(), b"");
            feeder.kept_count = count;
            let (answer, _) = fed(&desc, &feeder, b"x", PLENTY);
            assert_eq!(answer.number, number, "R {r}, {count} bytes kept");
            feeder.state = State::fresh();
            assert_eq!(initiate(&desc, &feeder).number, number, "R {r}, {count} bytes kept");
            feeder.state = State::started();
            let number = if number == 0 && count > 0 { 10 } else { number };
            assert_eq!(terminate(&desc, &feeder, &mut []).number, number, "R {r}, {count} bytes kept");
        }
    }
}

#[test]
fn refusal_4_is_any_number_that_names_no_detail() {
    let desc = whole_run().bytes();
    for detail in [1, 2, 8, 256, 65536, 1 << 32, 1 << 63, u64::from(u32::MAX), u64::MAX] {
        let feeder = Feeder { detail, ..feeder_in(running(), b"BB") };
        assert_eq!(fed(&desc, &feeder, b"+", PLENTY).0, refusal(4, 0, &feeder));
        // TERMINATE asks for no detail.
        assert_eq!(terminate(&desc, &discard(&feeder), &mut [0; 200]).number, 0);
    }
}

#[test]
fn any_bytes_may_come_in() {
    let mut rng = Rng::new(12);
    let call = a_feed();
    for at in 0..FEEDER_BYTES {
        for _ in 0..4 {
            let mut area = call.feeder.to_bytes();
            let any = rng.byte();
            area[at] = rng.pick(&[0, 1, 2, 3, 127, 128, 255, any]);
            for make in [FEED, INITIATE, TERMINATE] {
                let (mut left, mut out) = (area, vec![UNTOUCHED; 200]);
                let answer = make(&call, &mut left, &mut out);
                assert_eq!(left, answer.feeder.to_bytes());
                if answer.number != 0 {
                    assert_eq!((answer.taken, answer.printed), (0, 0));
                    assert!(left == area && out == [UNTOUCHED; 200], "byte {at}, refusal {}", answer.number);
                }
            }
        }
    }
}

// ---- random feeds against the rows that they finish

/// What R-1 says of a feed whose chunk, description, state and detail are right, from the rows: row i is made of
/// the bytes from i·R on of the kept ones and the chunk's.
fn by_the_rows_it_finishes(desc: &[u8], feeder: &Feeder, chunk: &[u8], out: &mut [u8]) -> Answer {
    let r = usize::from(check(desc).unwrap().r);
    let kept = usize::from(feeder.kept_count);
    let line = [&feeder.kept[..kept], chunk].concat();
    let rows = line.chunks_exact(r);
    let unfinished = rows.remainder();
    let (mut state, mut printed) = (feeder.state.clone(), 0);
    for (i, row) in rows.enumerate() {
        let answer = generate(desc, &state, feeder.detail as u32, row, &mut out[printed..]);
        if answer.number != 0 {
            let next = if i == 0 {
                feeder.clone()
            } else {
                keeping(&Feeder { state: answer.state, ..feeder.clone() }, b"")
            };
            let taken = (i * r).saturating_sub(kept);
            return Answer { number: answer.number, extra: answer.extra, taken, printed, feeder: next };
        }
        printed += answer.count;
        state = answer.state;
    }
    let next = keeping(&Feeder { state, ..feeder.clone() }, unfinished);
    Answer { number: 0, extra: 0, taken: chunk.len(), printed, feeder: next }
}

/// A record, most often well formed, with few values so that rows without a break come too. Its numbers begin with '+',
/// '-' or a blank.
fn record(rng: &mut Rng, d: &Description) -> Vec<u8> {
    let mut record: Vec<u8> = (0..d.r).map(|_| rng.pick(b"AAAAAAAAB")).collect();
    for field in d.fields.iter().filter(|field| field.kind == NUMBER) {
        let bytes = &mut record[usize::from(field.offset)..][..usize::from(field.width)];
        bytes.iter_mut().for_each(|byte| *byte = rng.pick(b"00000009"));
        bytes[0] = rng.pick(b"++  -");
    }
    if rng.chance(5) {
        let at = rng.below(record.len());
        let any = rng.byte();
        // A blank, a sign or a digit in its wrong place.
        record[at] = rng.pick(&[any, b' ', b'+', b'0']);
    }
    record
}

/// A number of the record begins with a blank.
fn has_blank(d: &Description, record: &[u8]) -> bool {
    let mut numbers = d.fields.iter().filter(|field| field.kind == NUMBER);
    numbers.any(|field| record[usize::from(field.offset)] == b' ')
}

/// A control has the same digits in both records, but a blank in one and a '+' in the other.
fn is_written_otherwise(d: &Description, kept: &[u8], record: &[u8]) -> bool {
    let mut controls = d.controls.iter().filter(|&&control| control != FINAL);
    controls.any(|&control| {
        let field = &d.fields[usize::from(control)];
        let (old, new) = (bytes_of(field, kept), bytes_of(field, record));
        field.kind == NUMBER
            && matches!((old[0], new[0]), (b' ', b'+') | (b'+', b' '))
            && old[1..] == new[1..]
    })
}

#[test]
fn random_feeds_do_what_the_rows_they_finish_do() {
    let mut rng = Rng::new(13);
    // Accepted with and without a row finished, refused at the first row with and without bytes kept, refused later.
    let mut seen = [0; 5];
    // Of the last row finished: with a blank for a plus, equal to the kept one but written otherwise. Refused by 6.
    let mut signs = [0; 3];
    for _ in 0..400 {
        let desc = accepted_description(&mut rng);
        let d = check(&desc).unwrap();
        let r = usize::from(d.r);
        let mut feeder = initiate(&desc, &Feeder::fresh(rng.below(d.detail_count()) as u64)).feeder;
        for _ in 0..20 {
            let rows: Vec<u8> = (0..13).flat_map(|_| record(&mut rng, &d)).collect();
            let kept = usize::from(feeder.kept_count);
            // From where the kept bytes end, or from anywhere.
            let start = if rng.chance(80) { kept } else { rng.below(r) };
            let (any_length, any_room) = (rng.between(1, 12 * r), rng.below(10_000));
            let length = rng.pick(&[1, r - kept, 2 * r - kept, 3 * r, any_length]);
            let chunk = &rows[start..start + length.min(4096)];
            let room = rng.pick(&[PLENTY, PLENTY, 0, 2000, any_room]);
            let mut out = vec![UNTOUCHED; room];
            let wanted = by_the_rows_it_finishes(&desc, &feeder, chunk, &mut out);
            let (answer, printed) = fed(&desc, &feeder, chunk, room);
            assert_eq!(answer, wanted);
            assert_eq!(printed, out[..answer.printed]);
            seen[match (answer.number, answer.taken) {
                (0, _) => usize::from(kept + chunk.len() < r),
                (_, 0) => 2 + usize::from(kept == 0),
                _ => 4,
            }] += 1;
            let line = [&feeder.kept[..kept], chunk].concat();
            if let Some(row) = line.chunks_exact(r).last().filter(|_| answer.number == 0) {
                signs[0] += u32::from(has_blank(&d, row));
                signs[1] += u32::from(is_written_otherwise(&d, &answer.feeder.state.kept[..r], row));
            }
            signs[2] += u32::from(answer.number == 6);
            feeder =
                if answer.number != 0 && rng.chance(50) { discard(&answer.feeder) } else { answer.feeder };
        }
    }
    assert!(seen.iter().all(|&times| times >= 100), "{seen:?}");
    assert!(signs.iter().all(|&times| times >= 50), "{signs:?}");
}
