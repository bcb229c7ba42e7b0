//! What any implementation must keep, whatever it prints.

use super::draft::Draft;
use super::sequence::{line_bytes, most_lines, pattern, Call, Expect, Step};
use super::shown;
use super::walk::{self, walk, Place};
use crate::description::{Item, FIELD, LITERAL, NO_PICTURE, NUMBER};
use crate::report::Answer;
use crate::state::{State, IDLE, RUNNING, STARTED};

/// Looks at one answered call. `draft` is `Err` where the description is broken, `output` what the
/// call left of `step.output()`.
pub fn call(draft: Result<&Draft, u8>, step: &Step, answer: &Answer, output: &[u8]) -> Result<(), String> {
    as_expected(step, answer)?;
    untouched(step, answer, output)?;
    match draft {
        Ok(draft) if answer.number == 0 => accepted(draft, step, answer, output),
        _ => refused(step, answer),
    }
}

fn must(holds: bool, what: &str) -> Result<(), String> {
    if holds {
        Ok(())
    } else {
        Err(what.to_string())
    }
}

fn as_expected(step: &Step, answer: &Answer) -> Result<(), String> {
    let fine = match step.expect {
        Expect::Exactly(number, extra) => (answer.number, answer.extra) == (number, extra),
        Expect::Late => matches!(answer.number, 0 | 7 | 8) && answer.extra == 0,
        Expect::LateOrShort => matches!(answer.number, 0 | 7 | 8 | 9) && answer.extra == 0,
    };
    let given = (answer.number, answer.extra);
    must(fine, &format!("{:?} expected, {given:?} answered", step.expect))
}

fn untouched(step: &Step, answer: &Answer, output: &[u8]) -> Result<(), String> {
    must(answer.count <= output.len(), "the count passes the output")?;
    let rest = output.iter().enumerate().skip(answer.count);
    let same = rest.clone().all(|(at, &byte)| byte == pattern(at, step.salt));
    must(same, "output bytes from the count on are touched")
}

fn refused(step: &Step, answer: &Answer) -> Result<(), String> {
    must((1..=9).contains(&answer.number), "a number that is no refusal")?;
    must(answer.count == 0, "a refusal with a count")?;
    must(answer.state == step.state, "a refusal with another state")
}

fn accepted(draft: &Draft, step: &Step, answer: &Answer, output: &[u8]) -> Result<(), String> {
    must(answer.extra == 0, "accepted with an extra number")?;
    let line = line_bytes(draft);
    must(answer.count.is_multiple_of(line), "the count is no multiple of W + 10")?;
    must(answer.count / line <= most_lines(draft), "more lines than a call can print")?;
    match &step.call {
        Call::Initiate => initiated(answer)?,
        Call::Generate { record, .. } => generated(draft, step, record, answer)?,
        Call::Terminate => terminated(step, answer)?,
    }
    flags(draft, step, answer)?;
    printed(draft, step, answer, &output[..answer.count])?;
    indicated(draft, step, answer, &output[..answer.count])
}

fn initiated(answer: &Answer) -> Result<(), String> {
    must(answer.count == 0, "INITIATE prints")?;
    must(answer.state == State { phase: STARTED, ..State::fresh() }, "INITIATE gives another state")
}

fn generated(draft: &Draft, step: &Step, record: &[u8], answer: &Answer) -> Result<(), String> {
    must(answer.state.phase == RUNNING, "GENERATE does not give running")?;
    must(answer.state.page >= step.state.page, "the page falls")?;
    must(answer.state.kept == kept(draft, step, record), "another record is kept than the one due")
}

/// The first row and a break keep the record; without a break the older bytes stay, also where equal values are written
/// otherwise.
fn kept(draft: &Draft, step: &Step, record: &[u8]) -> [u8; 256] {
    if !walk::begins(draft, step) {
        return step.state.kept;
    }
    let mut kept = [0; 256];
    kept[..record.len()].copy_from_slice(record);
    kept
}

fn terminated(step: &Step, answer: &Answer) -> Result<(), String> {
    must(answer.state.phase == IDLE, "TERMINATE does not give idle")?;
    must(answer.state.kept == step.state.kept, "TERMINATE keeps another record")?;
    if step.state.phase == STARTED {
        must(answer.count == 0, "TERMINATE prints without a row")?;
        must(answer.state == State::fresh(), "TERMINATE without a row does not give a fresh state")?;
    }
    Ok(())
}

/// Flags are set as they must be; a detail that has lines clears its own.
fn flags(draft: &Draft, step: &Step, answer: &Answer) -> Result<(), String> {
    let mut flags = match step.call {
        Call::Initiate => [0; 8],
        _ => walk::flags(draft, step, answer.state.page),
    };
    if let Call::Generate { d, .. } = step.call {
        flags[d as usize] &= u8::from(walk::detail(draft, step).is_some_and(|group| group.lines.is_empty()));
    }
    must(answer.state.flags == flags, &format!("flags {:?}, due {flags:?}", answer.state.flags))
}

/// Lines are well made; page and line rise from the state before to the state after; the groups due
/// are there.
fn printed(draft: &Draft, step: &Step, answer: &Answer, output: &[u8]) -> Result<(), String> {
    let places = places(draft, output)?;
    let mut last = (step.state.page, step.state.line);
    for &place in &places {
        must(place > last, "page and line do not rise")?;
        last = place;
    }
    if !matches!(step.call, Call::Initiate) {
        let walked = walk(draft, step, &places)?;
        for shown in shown::all(draft, step, answer.state.page, &walked.rows, output) {
            must(shown.is_right(), &format!("not what its picture asks for: {shown:?}"))?;
        }
        let page = walked.page;
        must(answer.state.page == page, "the state's page is not the last one printed")?;
        must(
            answer.state.line >= last.1 || page > last.0,
            "the state's line stands above the last one printed",
        )?;
    }
    Ok(())
}

/// Indicated items are blank where the flag is clear; where it is set, those that show a number without a picture are not.
/// The detail's lines are the last.
fn indicated(draft: &Draft, step: &Step, answer: &Answer, output: &[u8]) -> Result<(), String> {
    let (Call::Generate { d, .. }, Some(detail)) = (&step.call, walk::detail(draft, step)) else {
        return Ok(());
    };
    let shows = walk::flags(draft, step, answer.state.page)[*d as usize] == 1;
    let others = output.len() / line_bytes(draft) - detail.lines.len();
    for (row, line) in detail.lines.iter().zip(output.chunks_exact(line_bytes(draft)).skip(others)) {
        for item in row.items.iter().filter(|item| item.indicate == 1) {
            let part = &line[8 + item.column as usize..][..item.width as usize];
            let blank = part.iter().all(|&byte| byte == b' ');
            must(shows || blank, "an indicated item shows, its flag clear")?;
            let never_blank = shows_number(draft, item) && item.picture == NO_PICTURE;
            must(!shows || !blank || !never_blank, "an indicated item is blank, its flag set")?;
        }
    }
    Ok(())
}

fn shows_number(draft: &Draft, item: &Item) -> bool {
    match item.source {
        FIELD => draft.fields[item.index as usize].kind == NUMBER,
        _ => item.source != LITERAL,
    }
}

/// Page and line of each printed line.
pub fn places(draft: &Draft, output: &[u8]) -> Result<Vec<Place>, String> {
    output.chunks_exact(line_bytes(draft)).map(|line| place(draft, line)).collect()
}

/// Page and line of a printed line that is well made.
fn place(draft: &Draft, line: &[u8]) -> Result<Place, String> {
    let page = number(&line[..6]).ok_or("the page is not six digits")?;
    let at = number(&line[6..9]).ok_or("the line is not three digits")? as u16;
    must((draft.page.h..=draft.page.p).contains(&at), "a line outside the page")?;
    must(line[9..line.len() - 1].iter().all(|byte| (32..=126).contains(byte)), "an unprintable byte")?;
    must(line[line.len() - 1] == 10, "no byte 10 at the line's end")?;
    Ok((page, at))
}

fn number(digits: &[u8]) -> Option<u32> {
    let digit = |value: u32, byte: &u8| byte.is_ascii_digit().then(|| value * 10 + u32::from(byte - b'0'));
    digits.iter().try_fold(0, digit)
}
