//! What several tests use.
#![allow(dead_code)] // each test file uses its own part

use second::builder::Builder;
use second::description::*;
use second::report::{generate, initiate, terminate, Answer};
use second::state::State;

/// The page of the marked cases: P 10, H 1, FD 3, LD 6, FT 8.
pub fn marked_page(w: u16, r: u16) -> Builder {
    Builder::new(10, 1, 3, 6, 8, w, r)
}

/// An item that shows a field, a counter or a sum.
pub fn item(column: u16, width: u16, source: u16, index: u16) -> Item {
    Item { column, width, source, index, ..Item::default() }
}

/// The description of document 01's whole run.
pub fn whole_run() -> Builder {
    let mut b = marked_page(12, 6);
    let agent = b.text(0, 2);
    let amount = b.number(2, 4);
    b.control(agent);
    b.group(PH, 0);
    b.line(LINE_ABSOLUTE, 1);
    b.literal(1, "PAGE");
    b.item(item(6, 2, PAGE_COUNTER, 0));
    b.group(DE, 0);
    b.line(LINE_RELATIVE, 1);
    b.item(Item { indicate: 1, ..item(1, 2, FIELD, agent) });
    b.item(item(4, 6, FIELD, amount));
    let cf = b.group(CF, 0);
    b.line(LINE_RELATIVE, 1);
    b.literal(1, "SUM");
    let total = b.counter(cf, 0);
    b.add_field(amount, 1);
    b.item(item(4, 6, SUM, total));
    b
}

pub const WHOLE_RUN_ROWS: [&[u8]; 4] = [b"AA+005", b"AA+007", b"BB-002", b"BB+009"];

/// Document 01's sheet, "blanks shown as dots, last byte left off". R-2: "in 01's whole run the line on page 2, line 3
/// becomes "BB......9..."".
pub const WHOLE_RUN_SHEET: &str = "\
000001001PAGE..1.....
000001003AA......5...
000001004........7...
000001005SUM....12...
000001006BB.....-2...
000002001PAGE..2.....
000002003BB......9...
000002004SUM.....7...
";

/// The bytes of a sheet whose blanks are shown as dots.
pub fn sheet_bytes(dots: &str) -> Vec<u8> {
    dots.replace('.', " ").into_bytes()
}

// The counters of the example of source document 004.
pub const C: usize = 0;
pub const D: usize = 1;
pub const E: usize = 2;
pub const F: usize = 3;
pub const G: usize = 4;
pub const H: usize = 5;

/// The example of source document 004, fitted to document 01 as `tests/czech.rs` tells.
/// RD ZPRAVA CONTROLS [FINAL] PRVNI DRUHY PAGE 65. The record: PRVNI, DRUHY, A, B, TALLY.
pub fn zprava() -> Builder {
    let mut b = Builder::new(65, 1, 1, 65, 65, 87, 14);
    let prvni = b.text(0, 1);
    let druhy = b.text(1, 1);
    let field_a = b.number(2, 4);
    let field_b = b.number(6, 4);
    let tally = b.number(10, 4);
    b.control(FINAL);
    b.control(prvni);
    b.control(druhy);
    // 01 RADEK TYPE DETAIL LINE PLUS 1. 02 COLUMN 20 PIC ZZZ.99 SOURCE B. 02 SOURCE A.
    b.group(DE, 0);
    b.line(LINE_RELATIVE, 1);
    b.item(Item { decimals: 2, ..item(20, 6, FIELD, field_b) });
    // 01 CF-DRUHY TYPE CF DRUHY LINE PLUS 2. 02 C COLUMN 20 PIC ZZZ.99 SUM A RESET PRVNI.
    let cf_druhy = b.group(CF, 2);
    b.line(LINE_RELATIVE, 2);
    b.item(Item { decimals: 2, ..item(20, 6, SUM, C as u16) });
    b.counter(cf_druhy, 1);
    b.add_field(field_a, 1);
    // 01 CF-PRVNI TYPE CF PRVNI LINE PLUS 2. 02 D PIC ***.99 SUM B TALLY UPON RADEK. [02 E SUM C.]
    let cf_prvni = b.group(CF, 1);
    b.line(LINE_RELATIVE, 2);
    b.counter(cf_prvni, 1);
    b.add_field(field_b, 1);
    b.add_field(tally, 1);
    b.counter(cf_prvni, 1);
    b.add_counter(C as u16);
    // 01 CF-FINAL TYPE CF FINAL LINE PLUS 5. 02 F COLUMN 60 PIC Z(4).99 SUM E D.
    // 02 G COLUMN 45 PIC Z(4).99 SUM C. 02 H COLUMN 80 PIC *(5).99 SUM F G.
    let cf_final = b.group(CF, 0);
    b.line(LINE_RELATIVE, 5);
    b.item(Item { decimals: 2, ..item(45, 7, SUM, G as u16) });
    b.item(Item { decimals: 2, ..item(60, 7, SUM, F as u16) });
    b.item(Item { decimals: 2, ..item(80, 8, SUM, H as u16) });
    b.counter(cf_final, 0);
    b.add_counter(E as u16);
    b.add_counter(D as u16);
    b.counter(cf_final, 0);
    b.add_counter(C as u16);
    b.counter(cf_final, 0);
    b.add_counter(F as u16);
    b.add_counter(G as u16);
    b
}

/// A report under way.
pub struct Run {
    pub desc: Vec<u8>,
    pub state: State,
    pub sheet: Vec<u8>,
}

impl Run {
    /// A report just initiated.
    pub fn begin(desc: &[u8]) -> Run {
        let answer = initiate(desc, &State::fresh());
        assert_eq!(answer.number, 0, "INITIATE refused, extra number {}", answer.extra);
        Run { desc: desc.to_vec(), state: answer.state, sheet: Vec::new() }
    }

    /// A report in any state.
    pub fn from(desc: &[u8], state: State) -> Run {
        Run { desc: desc.to_vec(), state, sheet: Vec::new() }
    }

    pub fn generate(&mut self, d: u32, record: &[u8]) -> &mut Run {
        let mut out = vec![0; 1 << 17];
        let answer = generate(&self.desc, &self.state, d, record, &mut out);
        self.accept(answer, &out)
    }

    pub fn terminate(&mut self) -> &mut Run {
        let mut out = vec![0; 1 << 17];
        let answer = terminate(&self.desc, &self.state, &mut out);
        self.accept(answer, &out)
    }

    fn accept(&mut self, answer: Answer, out: &[u8]) -> &mut Run {
        assert_eq!((answer.number, answer.extra), (0, 0), "refused");
        self.sheet.extend_from_slice(&out[..answer.count]);
        self.state = answer.state;
        self
    }

    /// The sheet as text, blanks shown as dots.
    pub fn dots(&self) -> String {
        String::from_utf8(self.sheet.clone()).unwrap().replace(' ', ".")
    }
}
