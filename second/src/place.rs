//! Where groups land: pages and line numbers, and the indicate flags, which page changes set and details clear.
//! Nothing is written here.

use crate::description::{
    Description, Group, CF, LINE_ABSOLUTE, LINE_NEXT_PAGE, LINE_RELATIVE, NEXT_ABSOLUTE, NEXT_PAGE,
    NEXT_RELATIVE, PF, PH, RF, RH,
};
use crate::starts::{
    first_integer, first_kind, first_page_heading_line, later_page_heading_line, report_footing_line,
    report_heading_line,
};
use crate::state::{set_flags, LAST_PAGE};
use crate::turns::Turn;

/// The place on the sheet, with the flags: R-2 has them follow the page.
#[derive(Clone, Copy, Debug, PartialEq, Eq)]
pub struct Place {
    pub page: u32,
    pub line: u32,
    /// "Seen means a body group has printed on this page."
    pub seen: bool,
    /// The saved integer; 0 is none.
    pub saved: u32,
    /// "Eight indicate flags, one a detail."
    pub flags: [u8; 8],
}

/// One group put at a page and a first line. `turn` is the turn it prints in.
#[derive(Clone, Copy, Debug)]
pub struct Landed<'a> {
    pub group: usize,
    pub page: u32,
    pub first_line: u32,
    /// Whether indicated items print.
    pub indicates: bool,
    pub turn: &'a Turn,
}

/// "A page change, RF's turn too, would pass page 999,999."
#[derive(Clone, Copy, Debug, PartialEq, Eq)]
pub struct PastLastPage;

/// Puts the groups due on the sheet, from `place` on: what lands where, and the place after it.
pub fn land<'a>(
    d: &Description,
    place: Place,
    turns: &'a [Turn],
) -> Result<(Vec<Landed<'a>>, Place), PastLastPage> {
    let mut sheet = Sheet { d, place, landed: Vec::new() };
    for turn in turns {
        sheet.take(turn)?;
    }
    Ok((sheet.landed, sheet.place))
}

struct Sheet<'a, 'd> {
    d: &'d Description,
    place: Place,
    landed: Vec<Landed<'a>>,
}

impl<'a> Sheet<'a, '_> {
    /// "A group without lines changes none of page, line, seen and saved; its next group is ignored."
    fn take(&mut self, turn: &'a Turn) -> Result<(), PastLastPage> {
        let d = self.d;
        let group = &d.groups[turn.group];
        if group.line_count == 0 {
            return Ok(());
        }
        match group.kind {
            RH => self.print(turn.group, report_heading_line(d, group), turn),
            PH => self.print(turn.group, first_page_heading_line(d, group), turn),
            PF => self.print(turn.group, first_integer(d, group), turn),
            RF => self.report_footing(turn)?,
            _ => self.body_group(turn)?,
        }
        Ok(())
    }

    /// "After any group prints, line is its last line x."
    fn print(&mut self, group: usize, first_line: u32, turn: &'a Turn) {
        let indicates = self.take_flag(group);
        self.landed.push(Landed { group, page: self.place.page, first_line, indicates, turn });
        self.place.line = first_line + self.d.span(&self.d.groups[group]);
    }

    /// "Printing a detail that has lines clears its flag." Gives the flag as it stood: its items are indicated now
    /// or not at all. Only details have one.
    fn take_flag(&mut self, group: usize) -> bool {
        match self.d.detail_number(group) {
            Some(number) => std::mem::take(&mut self.place.flags[number]) == 1,
            None => false,
        }
    }

    /// "RF on next page: after PF, page rises by 1, line is 0, seen clears, no heading prints."
    fn report_footing(&mut self, turn: &'a Turn) -> Result<(), PastLastPage> {
        let rf = &self.d.groups[turn.group];
        if first_kind(self.d, rf) == LINE_NEXT_PAGE {
            self.turn_page()?;
        }
        self.print(turn.group, report_footing_line(self.d, rf), turn);
        Ok(())
    }

    fn body_group(&mut self, turn: &'a Turn) -> Result<(), PastLastPage> {
        let d = self.d;
        let group = &d.groups[turn.group];
        let line = match first_kind(d, group) {
            LINE_ABSOLUTE => self.absolute(turn)?,
            LINE_RELATIVE => self.relative(turn)?,
            _ => self.next_page(turn)?,
        };
        self.print(turn.group, line, turn);
        self.place.seen = true;
        if turn.obeys_next {
            self.next_group(group);
        }
        Ok(())
    }

    /// "Absolute: line < n, print at n. Else change page; if saved is set, line becomes saved, saved 0, and
    /// test again; else print."
    fn absolute(&mut self, turn: &'a Turn) -> Result<u32, PastLastPage> {
        let n = first_integer(self.d, &self.d.groups[turn.group]);
        if self.place.line < n {
            return Ok(n);
        }
        self.change_page(turn)?;
        if self.place.saved != 0 {
            self.line_becomes_saved();
            return self.absolute(turn);
        }
        Ok(n)
    }

    /// "Relative, seen: if line + n + span ≤ low, print at line + n; else change page and test again. Not seen,
    /// saved 0: print at FD. Not seen, saved set: line becomes saved, saved 0; if line + 1 + span ≤ low, print
    /// at line + 1; else change page, print at FD."
    fn relative(&mut self, turn: &'a Turn) -> Result<u32, PastLastPage> {
        let d = self.d;
        let group = &d.groups[turn.group];
        let (n, span) = (first_integer(d, group), d.span(group));
        // "low is LD for CH and DE, FT for CF"
        let low = u32::from(if group.kind == CF { d.ft } else { d.ld });
        let fd = u32::from(d.fd);
        if self.place.seen {
            if self.place.line + n + span <= low {
                return Ok(self.place.line + n);
            }
            self.change_page(turn)?;
            return self.relative(turn);
        }
        if self.place.saved == 0 {
            return Ok(fd);
        }
        self.line_becomes_saved();
        if self.place.line + 1 + span <= low {
            return Ok(self.place.line + 1);
        }
        self.change_page(turn)?;
        Ok(fd)
    }

    /// "Next page: seen, change page and test again. Not seen, saved 0: print at n. Saved set: line becomes
    /// saved, saved 0; print at n if line < n, else change page and print at n."
    fn next_page(&mut self, turn: &'a Turn) -> Result<u32, PastLastPage> {
        let n = first_integer(self.d, &self.d.groups[turn.group]);
        if self.place.seen {
            self.change_page(turn)?;
            return self.next_page(turn);
        }
        if self.place.saved == 0 {
            return Ok(n);
        }
        self.line_becomes_saved();
        if self.place.line >= n {
            self.change_page(turn)?;
        }
        Ok(n)
    }

    /// "Line becomes saved, saved 0."
    fn line_becomes_saved(&mut self) {
        self.place.line = self.place.saved;
        self.place.saved = 0;
    }

    /// "A page change prints PF, adds 1 to page, sets line 0, clears seen, prints PH."
    fn change_page(&mut self, turn: &'a Turn) -> Result<(), PastLastPage> {
        let d = self.d;
        if let Some(pf) = d.lined(PF) {
            self.print(pf, first_integer(d, &d.groups[pf]), turn);
        }
        self.turn_page()?;
        if let Some(ph) = d.lined(PH) {
            self.print(ph, later_page_heading_line(d, &d.groups[ph]), turn);
        }
        Ok(())
    }

    /// Page rises by 1, line is 0, seen clears. R-2: "a page change, RF's turn too, sets each detail's flag, also when
    /// the detail itself causes it"; that detail prints after it, with its flag set.
    fn turn_page(&mut self) -> Result<(), PastLastPage> {
        if self.place.page >= LAST_PAGE {
            return Err(PastLastPage);
        }
        self.place.page += 1;
        self.place.line = 0;
        self.place.seen = false;
        set_flags(self.d, &mut self.place.flags);
        Ok(())
    }

    /// "Relative k gives the smaller of x + k and FT; next page gives FT; absolute k gives k if x < k, else FT
    /// with saved = k."
    fn next_group(&mut self, group: &Group) {
        let (k, ft) = (u32::from(group.next_integer), u32::from(self.d.ft));
        let x = self.place.line;
        match group.next_kind {
            NEXT_RELATIVE => self.place.line = ft.min(x + k),
            NEXT_PAGE => self.place.line = ft,
            NEXT_ABSOLUTE if x < k => self.place.line = k,
            NEXT_ABSOLUTE => {
                self.place.line = ft;
                self.place.saved = k;
            }
            _ => {}
        }
    }
}
