//! The text source of a description: one line an entry, built into a `Builder`.

use crate::builder::{padded, Builder};
use crate::description::{
    Item, CF, CH, DE, FIELD, FINAL, LINE_ABSOLUTE, LINE_COUNTER, LINE_NEXT_PAGE, LINE_RELATIVE,
    NEXT_ABSOLUTE, NEXT_PAGE, NEXT_RELATIVE, NO_PICTURE, PAGE_COUNTER, PF, PH, RF, RH, SUM, TEXT,
};
use crate::layout::PICTURE_BYTES;
use crate::picture;

/// The format, for `second build --help`.
pub const FORMAT: &str = r#"One line an entry; words stand apart by blanks; '#' begins a comment. Indent as you like.

  version 2                                       a version 2 description; one picture asks for it too,
                                                  without either it is version 1
  page P heading H first FD last LD footing FT    the page's limits
  width W                                         characters of a line
  record R                                        bytes of a record
  field NAME text|number OFFSET WIDTH             offsets count from 0
  control FIELD | control FINAL                   senior first

  group RH|PH|DE|PF|RF                            begins a group
  group CH|CF CONTROL                             CONTROL is a control's field, or FINAL
  next absolute N | next relative N | next page   the group's next group
  line absolute|next-page|relative N              begins a line of the group
  literal COLUMN "TEXT" [indicate]                an item; "" in the text is one quote
  item COLUMN WIDTH field NAME [decimals N] [picture "PICTURE"] [indicate]
  item COLUMN WIDTH sum NAME [decimals N] [picture "PICTURE"]
  item COLUMN WIDTH page [picture "PICTURE"]      the page counter
  item COLUMN WIDTH line [picture "PICTURE"]      the line counter
                                                  a picture shows a number: Z, *, 9, commas, a point, CR or -
                                                  at the end; WIDTH is its length; without decimals, those
                                                  are its 9s behind the point

  sum NAME [reset CONTROL]                        begins a counter of the group (a CF);
                                                  without reset, the group's own level
  add field NAME [upon D ...]                     an addend; upon names details by number,
                                                  without it all of them
  add sum NAME                                    an addend; the counter may stand further down
"#;

/// Builds a source. An error says the line, from 1, and what is wrong.
pub fn build(text: &str) -> Result<Builder, String> {
    let mut entries = Vec::new();
    for (number, line) in (1..).zip(text.lines()) {
        let words = words(line).map_err(|message| format!("line {number}: {message}"))?;
        entries.push((number, words));
    }
    let mut reader = Reader::new(&entries);
    for (number, words) in &entries {
        let words: Vec<&str> = words.iter().map(String::as_str).collect();
        reader.entry(&words).map_err(|message| format!("line {number}: {message}"))?;
    }
    Ok(reader.builder)
}

/// The words of a line. A quoted text is one word and keeps its first quote.
fn words(line: &str) -> Result<Vec<String>, String> {
    let mut words = Vec::new();
    let mut rest = line.trim_start();
    while !rest.is_empty() && !rest.starts_with('#') {
        let (word, after) = if rest.starts_with('"') { quoted(rest)? } else { plain(rest) };
        words.push(word);
        rest = after.trim_start();
    }
    Ok(words)
}

fn plain(text: &str) -> (String, &str) {
    let end = text.find([' ', '\t', '#']).unwrap_or(text.len());
    (text[..end].to_string(), &text[end..])
}

fn quoted(text: &str) -> Result<(String, &str), String> {
    let mut word = String::from("\"");
    let mut rest = &text[1..];
    loop {
        let end = rest.find('"').ok_or("the text has no closing quote")?;
        word.push_str(&rest[..end]);
        rest = &rest[end + 1..];
        if !rest.starts_with('"') {
            return Ok((word, rest));
        }
        word.push('"');
        rest = &rest[1..];
    }
}

struct Reader {
    builder: Builder,
    fields: Vec<String>,
    /// The counters' names, those further down too.
    counters: Vec<String>,
    detail_count: usize,
}

impl Reader {
    /// Notes first what an entry may name before it comes.
    fn new(entries: &[(usize, Vec<String>)]) -> Reader {
        let starts_with = |start: &[&str], words: &[String]| words.iter().zip(start).all(|(a, b)| a == b);
        let lines = || entries.iter().map(|(_, words)| words).filter(|words| words.len() >= 2);
        Reader {
            builder: Builder::new(0, 0, 0, 0, 0, 0, 0),
            fields: Vec::new(),
            counters: lines().filter(|w| starts_with(&["sum"], w)).map(|w| w[1].clone()).collect(),
            detail_count: lines().filter(|w| starts_with(&["group", "DE"], w)).count(),
        }
    }

    fn entry(&mut self, words: &[&str]) -> Result<(), String> {
        match words {
            [] => {}
            ["version", "2"] => self.builder.version = 2,
            ["version", version] => return Err(format!("a source asks for version 2, not {version}")),
            ["page", p, "heading", h, "first", fd, "last", ld, "footing", ft] => {
                let tables = &mut self.builder.tables;
                (tables.p, tables.h, tables.fd) = (number(p)?, number(h)?, number(fd)?);
                (tables.ld, tables.ft) = (number(ld)?, number(ft)?);
            }
            ["width", w] => self.builder.tables.w = number(w)?,
            ["record", r] => self.builder.tables.r = number(r)?,
            ["field", name, kind, offset, width] => {
                self.field(name, kind, number(offset)?, number(width)?)?
            }
            ["control", name] => {
                let field = self.control_field(name)?;
                self.builder.control(field);
            }
            ["group", kind] => {
                self.builder.group(group_kind(kind, &["RH", "PH", "DE", "PF", "RF"])?, 0);
            }
            ["group", kind, control] => {
                let level = self.level(control)?;
                self.builder.group(group_kind(kind, &["CH", "CF"])?, level);
            }
            ["next", ..] | ["sum", ..] if self.builder.tables.groups.is_empty() => return Err(no("group")),
            ["next", "page"] => self.builder.next(NEXT_PAGE, 0),
            ["next", "absolute", n] => self.builder.next(NEXT_ABSOLUTE, number(n)?),
            ["next", "relative", n] => self.builder.next(NEXT_RELATIVE, number(n)?),
            ["line", kind, n] => self.line(kind, number(n)?)?,
            ["literal", ..] | ["item", ..] if self.builder.tables.lines.is_empty() => return Err(no("line")),
            ["literal", column, text] => self.literal(number(column)?, text, 0)?,
            ["literal", column, text, "indicate"] => self.literal(number(column)?, text, 1)?,
            ["item", column, width, source @ ..] => self.item(number(column)?, number(width)?, source)?,
            ["sum", name] => {
                let level = self.builder.tables.groups.last().map_or(0, |group| group.level);
                self.counter(name, level)?;
            }
            ["sum", name, "reset", control] => {
                let level = self.level(control)?;
                self.counter(name, level)?;
            }
            ["add", ..] if self.builder.tables.counters.is_empty() => return Err(no("sum")),
            ["add", "sum", name] => {
                let counter = self.counter_index(name)?;
                self.builder.add_counter(counter);
            }
            ["add", "field", name] => {
                let field = self.field_index(name)?;
                self.builder.add_field(field, ((1u32 << self.detail_count.min(16)) - 1) as u16);
            }
            ["add", "field", name, "upon", details @ ..] => {
                let field = self.field_index(name)?;
                self.builder.add_field(field, mask(details)?);
            }
            _ => return Err(format!("not understood: {}", words.join(" "))),
        }
        Ok(())
    }

    fn field(&mut self, name: &str, kind: &str, offset: u16, width: u16) -> Result<(), String> {
        if name == "FINAL" || self.fields.iter().any(|field| field == name) {
            return Err(format!("the name {name} is taken"));
        }
        match kind {
            "text" => self.builder.text(offset, width),
            "number" => self.builder.number(offset, width),
            _ => return Err(format!("a field is text or number, not {kind}")),
        };
        self.fields.push(name.to_string());
        Ok(())
    }

    fn line(&mut self, kind: &str, n: u16) -> Result<(), String> {
        if self.builder.tables.groups.is_empty() {
            return Err(no("group"));
        }
        let kind = match kind {
            "absolute" => LINE_ABSOLUTE,
            "next-page" => LINE_NEXT_PAGE,
            "relative" => LINE_RELATIVE,
            _ => return Err(format!("a line is absolute, next-page or relative, not {kind}")),
        };
        self.builder.line(kind, n);
        Ok(())
    }

    fn literal(&mut self, column: u16, text: &str, indicate: u16) -> Result<(), String> {
        let text = text.strip_prefix('"').ok_or("a literal's text stands in quotes")?;
        let item = self.builder.literal(column, text);
        self.builder.tables.items[usize::from(item)].indicate = indicate;
        Ok(())
    }

    fn item(&mut self, column: u16, width: u16, source: &[&str]) -> Result<(), String> {
        let (source, index, rest) = match source {
            ["page", rest @ ..] => (PAGE_COUNTER, 0, rest),
            ["line", rest @ ..] => (LINE_COUNTER, 0, rest),
            ["field", name, rest @ ..] => (FIELD, self.field_index(name)?, rest),
            ["sum", name, rest @ ..] => (SUM, self.counter_index(name)?, rest),
            _ => return Err("an item shows a field, a sum, page or line".to_string()),
        };
        let (decimals, rest) = match rest {
            ["decimals", n, rest @ ..] => (Some(number(n)?), rest),
            rest => (None, rest),
        };
        let (picture, rest) = match rest {
            ["picture", text, rest @ ..] => (Some(quoted_picture(text, width)?), rest),
            rest => (None, rest),
        };
        let indicate = match rest {
            [] => 0,
            ["indicate"] => 1,
            _ => return Err(format!("not understood: {}", rest.join(" "))),
        };
        let is_text = source == FIELD && self.builder.tables.fields[usize::from(index)].kind == TEXT;
        if is_text && picture.is_some() {
            return Err("a picture is for a number, and the field is text".to_string());
        }
        let nines = picture.map_or(0, |text| picture::decimals(&padded(text.as_bytes())) as u16);
        let decimals = decimals.unwrap_or(nines);
        let picture = picture.map_or(NO_PICTURE, |text| self.builder.picture(text));
        self.builder.item(Item { column, width, source, index, decimals, indicate, picture });
        Ok(())
    }

    fn counter(&mut self, name: &str, reset: u16) -> Result<(), String> {
        if self.counters.iter().filter(|counter| *counter == name).count() > 1 {
            return Err(format!("the name {name} is taken"));
        }
        let group = self.builder.tables.groups.len() - 1;
        self.builder.counter(group as u16, reset);
        Ok(())
    }

    fn field_index(&self, name: &str) -> Result<u16, String> {
        index(&self.fields, name).ok_or(format!("no field is named {name}"))
    }

    fn counter_index(&self, name: &str) -> Result<u16, String> {
        index(&self.counters, name).ok_or(format!("no sum is named {name}"))
    }

    fn control_field(&self, name: &str) -> Result<u16, String> {
        if name == "FINAL" {
            return Ok(FINAL);
        }
        self.field_index(name)
    }

    fn level(&self, control: &str) -> Result<u16, String> {
        let field = self.control_field(control)?;
        let level = self.builder.tables.controls.iter().position(|&control| control == field);
        level.map(|level| level as u16).ok_or(format!("{control} is no control"))
    }
}

/// The characters of a picture that goes into its entry, and whose length is the item's width.
fn quoted_picture(word: &str, width: u16) -> Result<&str, String> {
    let text = word.strip_prefix('"').ok_or("a picture stands in quotes")?;
    if text.len() > PICTURE_BYTES {
        return Err(format!("a picture has up to {PICTURE_BYTES} characters, this one {}", text.len()));
    }
    let length = picture::text(&padded(text.as_bytes())).len();
    if usize::from(width) != length {
        return Err(format!("the item's width is {width}, its picture's length {length}"));
    }
    Ok(text)
}

fn index(names: &[String], name: &str) -> Option<u16> {
    names.iter().position(|other| other == name).map(|index| index as u16)
}

fn number(word: &str) -> Result<u16, String> {
    word.parse().map_err(|_| format!("{word} is not a number from 0 to 65535"))
}

fn group_kind(kind: &str, allowed: &[&str]) -> Result<u16, String> {
    if !allowed.contains(&kind) {
        return Err(format!("this form of group is {}, not {kind}", allowed.join(", ")));
    }
    Ok(match kind {
        "RH" => RH,
        "PH" => PH,
        "CH" => CH,
        "DE" => DE,
        "CF" => CF,
        "PF" => PF,
        _ => RF,
    })
}

/// "Detail mask (bit i for detail i)."
fn mask(details: &[&str]) -> Result<u16, String> {
    let mut mask = 0;
    for word in details {
        let detail = number(word)?;
        if detail > 15 {
            return Err(format!("there is no detail {detail}"));
        }
        mask |= 1 << detail;
    }
    Ok(mask)
}

fn no(what: &str) -> String {
    format!("no {what} stands before this")
}
