//! The example of source document 004 (13.5.8, clause RESET) for sums.
//!
//! The text of the example shows C, D, F, G and H, but the definition of E is lost. It is restored here as
//! "02 E SUM C." in the group CF-PRVNI, without a column as D is: the text adds C to E when DRUHY breaks
//! (point c), adds D and E to F when PRVNI breaks, and resets C, D and E then (point d). So E names C, and it
//! stands in the footing of PRVNI without a clause RESET.
//!
//! Also fitted to document 01: FINAL is listed among the controls, TALLY is a field of the record, PAGE 65 gives
//! H 1, FD 1, LD 65, FT 65, and the pictures become widths with two decimals.

mod common;

use common::{zprava, Run};

#[test]
fn the_sums_go_as_the_text_says() {
    let mut run = Run::begin(&zprava().bytes());
    // a) INITIATE: all sums are 0.
    assert_eq!(run.state.sums, [0; 32]);
    // (row, the sums C, D, E, F, G, H after it)
    let rows: [(&[u8], [i64; 6]); 6] = [
        // b) no break: A to C; B and TALLY to D.
        (b"XK+100+020+001", [100, 21, 0, 0, 0, 0]),
        (b"XK+200+030+001", [300, 52, 0, 0, 0, 0]),
        // c) DRUHY breaks: C to E and G, then b). C is not reset.
        (b"XL+400+040+001", [700, 93, 300, 0, 300, 0]),
        // d) PRVNI breaks: C to E and G, then D and E to F, then C, D, E are reset, then b).
        // E 300 + 700, G 300 + 700, F 93 + 1000.
        (b"YL-050+005+001", [-50, 6, 0, 1093, 1000, 0]),
        // c) and b) again.
        (b"YM+001+001+001", [-49, 8, -50, 1093, 950, 0]),
        (b"YM+002+002+001", [-47, 11, -50, 1093, 950, 0]),
    ];
    for (row, sums) in rows {
        run.generate(0, row);
        assert_eq!(run.state.sums[..6], sums, "after {}", String::from_utf8_lossy(row));
    }
    // e) TERMINATE: C to E and G, D and E to F, then F and G to H. C, D, E are reset; F, G, H keep their values.
    // E -50 - 47, G 950 - 47, F 1093 + 11 - 97, H 1007 + 903.
    run.terminate();
    assert_eq!(run.state.sums[..6], [0, 0, 0, 1007, 903, 1910]);
    assert_eq!(run.state.sums[6..], [0; 26]);
}

#[test]
fn the_sheet_shows_the_sums_before_their_reset() {
    let mut run = Run::begin(&zprava().bytes());
    for row in [b"XK+100+020+001", b"XL+400+040+001", b"YL-050+005+001"] {
        run.generate(0, row);
    }
    run.terminate();
    let blank = |line: u32| format!("000001{line:03}{}\n", ".".repeat(87));
    let narrow = |line: u32, text: &str| format!("000001{line:03}{:.<87}\n", format!("{:.<19}{text}", ""));
    let last = format!("000001018{:.<44}...5.50{:.<8}...6.18{:.<13}...11.68\n", "", "", "");
    let sheet = [
        narrow(1, "..0.20"),
        narrow(3, "..1.00"), // C at the break of DRUHY
        narrow(4, "..0.40"),
        narrow(6, "..5.00"), // C at the break of PRVNI, not reset since
        blank(8),
        narrow(9, "..0.05"),
        narrow(11, ".-0.50"), // C at TERMINATE
        blank(13),
        // G: 100 + 500 - 50 = 550. F: D 62 + E 600, then 6 - 50: 618. H: 1168.
        last,
    ];
    assert_eq!(run.dots(), sheet.concat());
}
