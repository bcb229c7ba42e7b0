//! Printed sheets for R-8: random rows of a random description, printed by the second program.

use super::accepted_description;
use super::draft::Draft;
use super::rng::Rng;
use super::rows;
use super::sequence::{line_bytes, most_lines};
use super::states;
use crate::report;
use crate::state::State;

/// A sheet as it was printed, without codes.
#[derive(Clone, Debug, PartialEq, Eq)]
pub struct Sheet {
    pub bytes: Vec<u8>,
    /// The characters of a line, 1 to 132.
    pub w: usize,
    /// How many reports it holds, one behind the other.
    pub reports: usize,
}

/// A sheet of one report, mostly; else of two or three of the same description, one behind the other, so that the pages
/// begin again. It may be empty.
pub fn sheet(rng: &mut Rng) -> Sheet {
    let reports = rng.pick(&[1, 1, 1, 1, 1, 1, 1, 2, 2, 3]);
    sheet_of(rng, reports)
}

/// A sheet of one report, from its INITIATE or from a later page up to the last one, to its TERMINATE or up to some row:
/// its records rise in page and line. It may be empty.
pub fn one_report(rng: &mut Rng) -> Sheet {
    sheet_of(rng, 1)
}

fn sheet_of(rng: &mut Rng, reports: usize) -> Sheet {
    let desc = accepted_description(rng);
    let draft = Draft::read(&desc);
    let printed: Vec<Vec<u8>> = (0..reports).map(|_| print_report(rng, &desc, &draft)).collect();
    Sheet { bytes: printed.concat(), w: usize::from(draft.width), reports }
}

/// What a report prints. A refused call prints nothing and leaves the state, so the next one goes on from there.
fn print_report(rng: &mut Rng, desc: &[u8], draft: &Draft) -> Vec<u8> {
    let mut row = rows::fresh(rng, draft);
    let mut state = first_state(rng, desc, draft, &row);
    let mut out = vec![0; most_lines(draft) * line_bytes(draft)];
    let mut printed = Vec::new();
    let calm = rng.pick(&[0, 40, 85]);
    for _ in 0..row_count(rng) {
        let mut record = rows::after(rng, draft, &row);
        if rng.chance(calm) {
            rows::copy_controls(draft, &row, &mut record);
        }
        let detail = rng.below(draft.details()) as u32;
        let answer = report::generate(desc, &state, detail, &record, &mut out);
        printed.extend_from_slice(&out[..answer.count]);
        (state, row) = (answer.state, record);
    }
    if rng.chance(75) {
        let answer = report::terminate(desc, &state, &mut out);
        printed.extend_from_slice(&out[..answer.count]);
    }
    printed
}

/// Just initiated, or running on a page that no few rows would reach.
fn first_state(rng: &mut Rng, desc: &[u8], draft: &Draft, row: &[u8]) -> State {
    let far = if rng.chance(30) { states::running(rng, draft, row) } else { None };
    far.unwrap_or_else(|| report::initiate(desc, &State::fresh()).state)
}

fn row_count(rng: &mut Rng) -> usize {
    match rng.below(20) {
        0 => 0,
        1 => rng.between(30, 80),
        _ => rng.between(1, 20),
    }
}

#[cfg(test)]
mod tests {
    use super::*;

    #[test]
    fn the_same_seed_gives_the_same_sheet() {
        let draw = |seed| {
            let mut rng = Rng::new(seed);
            (0..20).map(|_| sheet(&mut rng)).collect::<Vec<_>>()
        };
        assert_eq!(draw(30), draw(30));
        assert_ne!(draw(30), draw(32));
    }

    #[test]
    fn sheets_are_whole_records_of_every_width() {
        let mut rng = Rng::new(31);
        let sheets: Vec<Sheet> = (0..600).map(|_| sheet(&mut rng)).collect();
        assert!(sheets.iter().all(|sheet| sheet.bytes.len().is_multiple_of(sheet.w + 10)));
        assert!([1, 2, 20, 132].iter().all(|&w| sheets.iter().any(|sheet| sheet.w == w)));
        assert!([1, 2, 3].iter().all(|&reports| sheets.iter().any(|sheet| sheet.reports == reports)));
        let records = |sheet: &Sheet| sheet.bytes.len() / (sheet.w + 10);
        let printed = |least: usize| sheets.iter().filter(|sheet| records(sheet) >= least).count();
        assert!(printed(1) > 450 && printed(20) > 200 && printed(200) > 5);
    }
}
