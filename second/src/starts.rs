//! Lines that the description alone fixes: where headings and footings start and end. A group named here has lines.

use crate::tables::{Description, Group, LINE_RELATIVE, PF, RH};

/// The integer of the group's first line.
pub fn first_integer(d: &Description, group: &Group) -> u32 {
    u32::from(d.lines_of(group)[0].integer)
}

/// The kind of its first line.
pub fn first_kind(d: &Description, group: &Group) -> u16 {
    d.lines_of(group)[0].kind
}

/// The first line, where a relative one counts from `base`.
fn line_from(d: &Description, group: &Group, base: u32) -> u32 {
    let n = first_integer(d, group);
    if first_kind(d, group) == LINE_RELATIVE {
        base + n
    } else {
        n
    }
}

/// "Relative RH starting at H−1+n."
pub fn report_heading_line(d: &Description, rh: &Group) -> u32 {
    line_from(d, rh, u32::from(d.h) - 1)
}

/// RH's last line, or H−1 without RH.
pub fn report_heading_end(d: &Description) -> u32 {
    let rh = d.lined(RH).map(|rh| &d.groups[rh]);
    rh.map_or(u32::from(d.h) - 1, |rh| report_heading_line(d, rh) + d.span(rh))
}

/// "PH starts below RH's last line (relative: that line + n; without RH, H−1+n)."
pub fn first_page_heading_line(d: &Description, ph: &Group) -> u32 {
    line_from(d, ph, report_heading_end(d))
}

/// "On later pages a relative PH starts at H−1+n."
pub fn later_page_heading_line(d: &Description, ph: &Group) -> u32 {
    line_from(d, ph, u32::from(d.h) - 1)
}

/// PF's last line, or FT without PF.
pub fn page_footing_end(d: &Description) -> u32 {
    let pf = d.lined(PF).map(|pf| &d.groups[pf]);
    pf.map_or(u32::from(d.ft), |pf| first_integer(d, pf) + d.span(pf))
}

/// "RF not on a page of its own starts below PF's last line (relative: that line + n; without PF, FT+n)."
pub fn report_footing_line(d: &Description, rf: &Group) -> u32 {
    line_from(d, rf, page_footing_end(d))
}
