//! Descriptions with one clause of rule 9 broken. Those about a picture itself break it in one that an item uses
//! and in one that none uses.

use super::draft::{Draft, ItemPlace, Section};
use super::pictures::{self, Broken};
use super::rng::Rng;
use super::valid;
use crate::builder::padded;
use crate::description::{FIELD, LINE_COUNTER, LITERAL, NO_PICTURE, NUMBER, PAGE_COUNTER, SUM, TEXT};
use crate::picture;

/// A clause about a picture: its names with the picture used and unused, and a picture that breaks it.
type PictureClause = (&'static str, &'static str, fn(&mut Rng) -> Broken);

/// A clause about an item: its name, and the draft with the clause broken, where it has a place for that.
type ItemClause = (&'static str, fn(&mut Rng, Draft) -> Option<Draft>);

macro_rules! clause {
    ($name:literal, $make:ident) => {
        (concat!("rule 9 ", $name, ", used"), concat!("rule 9 ", $name, ", unused"), pictures::$make)
    };
}

const OF_PICTURES: [PictureClause; 22] = [
    clause!("unlisted character", unlisted_character),
    clause!("blank inside", blank_inside),
    clause!("other padding", other_padding),
    clause!("empty picture", empty),
    clause!("no digit place", no_digit_place),
    clause!("Z and * mixed", fills_mixed),
    clause!("Z behind a 9", z_behind_a_9),
    clause!("* behind a 9", star_behind_a_9),
    clause!("comma first", comma_first),
    clause!("comma last", comma_last),
    clause!("comma doubled", comma_doubled),
    clause!("comma next to the point", comma_next_to_point),
    clause!("comma behind the point", comma_behind_point),
    clause!("comma next to the sign", comma_next_to_sign),
    clause!("two points", two_points),
    clause!("point followed by nothing", point_then_nothing),
    clause!("point followed by five 9s", point_then_five_nines),
    clause!("point followed by Z or *", point_then_fill),
    clause!("sign not at the end", sign_not_at_the_end),
    clause!("two signs", two_signs),
    clause!("C without R", c_without_r),
    clause!("R without C", r_without_c),
];

const OF_ITEMS: [ItemClause; 11] = [
    ("rule 9 no such picture", no_such_picture),
    ("rule 9 picture on a text field", on_text),
    ("rule 9 picture on a literal", on_literal),
    ("rule 9 width one more", width_one_more),
    ("rule 9 width one less", width_one_less),
    ("rule 9 decimals one more", decimals_one_more),
    ("rule 9 decimals one less", decimals_one_less),
    ("rule 9 decimals without a point", decimals_without_point),
    ("rule 9 point without decimals", point_without_decimals),
    ("rule 9 point on a page counter", point_on_page_counter),
    ("rule 9 point on a line counter", point_on_line_counter),
];

/// Names of all clauses.
pub fn names() -> Vec<&'static str> {
    let of_pictures = OF_PICTURES.iter().flat_map(|&(used, unused, _)| [used, unused]);
    of_pictures.chain(OF_ITEMS.iter().map(|&(name, _)| name)).collect()
}

/// A description that breaks one clause, each as often as any other, and the clause's name.
pub fn description(rng: &mut Rng) -> (Vec<u8>, &'static str) {
    let which = rng.below(2 * OF_PICTURES.len() + OF_ITEMS.len());
    loop {
        let draft = valid::with_pictures(rng);
        let (name, broken) = match OF_PICTURES.get(which / 2) {
            Some(&(used, _, make)) if which.is_multiple_of(2) => (used, use_it(rng, draft, make)),
            Some(&(_, unused, make)) => (unused, leave_it_unused(rng, draft, make)),
            None => {
                let (name, fault) = OF_ITEMS[which - 2 * OF_PICTURES.len()];
                (name, fault(rng, draft))
            }
        };
        let within_limits = |draft: &Draft| draft.pictures.len() <= draft.limit(Section::Pictures);
        if let Some(draft) = broken.filter(within_limits) {
            return (draft.bytes(), name);
        }
    }
}

/// Gives a number item a broken picture, and the width and decimals that go with it.
fn use_it(rng: &mut Rng, mut draft: Draft, make: fn(&mut Rng) -> Broken) -> Option<Draft> {
    let broken = make(rng);
    let has_point = broken.picture.contains(&b'.');
    let suits = |place: &ItemPlace| {
        let may_show = if has_point { may_have_decimals(&draft, place) } else { shows_number(&draft, place) };
        may_show && room(&draft, place) >= broken.width
    };
    let place = some_item(rng, &draft, suits)?;
    let at = rng.between(0, draft.pictures.len());
    draft.insert_picture(at, broken.picture);
    let item = draft.item_mut(place);
    (item.width, item.decimals, item.picture) = (broken.width, broken.decimals, at as u16);
    Some(draft)
}

fn leave_it_unused(rng: &mut Rng, mut draft: Draft, make: fn(&mut Rng) -> Broken) -> Option<Draft> {
    let at = rng.between(0, draft.pictures.len());
    draft.insert_picture(at, make(rng).picture);
    Some(draft)
}

// ---- items

fn some_item(rng: &mut Rng, draft: &Draft, suits: impl Fn(&ItemPlace) -> bool) -> Option<ItemPlace> {
    rng.maybe(&draft.item_places().into_iter().filter(suits).collect::<Vec<_>>())
}

fn shows_text(draft: &Draft, place: &ItemPlace) -> bool {
    place.item.source == FIELD && draft.fields[place.item.index as usize].kind == TEXT
}

fn shows_number(draft: &Draft, place: &ItemPlace) -> bool {
    place.item.source != LITERAL && !shows_text(draft, place)
}

/// A number field or a sum.
fn may_have_decimals(draft: &Draft, place: &ItemPlace) -> bool {
    match place.item.source {
        FIELD => draft.fields[place.item.index as usize].kind == NUMBER,
        source => source == SUM,
    }
}

/// Columns from an item's first to the next item's, or to the line's end.
fn room(draft: &Draft, place: &ItemPlace) -> u16 {
    let next = draft.groups[place.group].lines[place.line].items.get(place.nth + 1);
    next.map_or(draft.width + 1, |next| next.column) - place.item.column
}

/// The 9s behind the point of an item's picture.
fn nines(draft: &Draft, place: &ItemPlace) -> Option<u16> {
    draft.picture_of(&place.item).map(|picture| picture::decimals(picture) as u16)
}

fn no_such_picture(rng: &mut Rng, mut draft: Draft) -> Option<Draft> {
    let place = some_item(rng, &draft, |place| shows_number(&draft, place))?;
    let count = draft.pictures.len() as u16;
    draft.item_mut(place).picture = rng.pick(&[count, count, count + 1, 256, 32768, NO_PICTURE - 1]);
    Some(draft)
}

fn on_text(rng: &mut Rng, draft: Draft) -> Option<Draft> {
    let place = some_item(rng, &draft, |place| shows_text(&draft, place) && place.item.width <= 24)?;
    Some(with_picture_of_its_width(rng, draft, place))
}

fn on_literal(rng: &mut Rng, draft: Draft) -> Option<Draft> {
    let place = some_item(rng, &draft, |place| place.item.source == LITERAL && place.item.width <= 24)?;
    Some(with_picture_of_its_width(rng, draft, place))
}

/// But for the item's source, all is right.
fn with_picture_of_its_width(rng: &mut Rng, mut draft: Draft, place: ItemPlace) -> Draft {
    let at = rng.between(0, draft.pictures.len());
    draft.insert_picture(at, pictures::of_length(rng, place.item.width as usize));
    draft.item_mut(place).picture = at as u16;
    draft
}

fn width_one_more(rng: &mut Rng, mut draft: Draft) -> Option<Draft> {
    let suits = |place: &ItemPlace| nines(&draft, place).is_some() && place.item.width < room(&draft, place);
    let place = some_item(rng, &draft, suits)?;
    draft.item_mut(place).width += 1;
    Some(draft)
}

/// Decimals stay below the width (D7).
fn width_one_less(rng: &mut Rng, mut draft: Draft) -> Option<Draft> {
    let suits =
        |place: &ItemPlace| nines(&draft, place).is_some() && place.item.decimals + 1 < place.item.width;
    let place = some_item(rng, &draft, suits)?;
    draft.item_mut(place).width -= 1;
    Some(draft)
}

/// Below the width and no more than 4 (D7).
fn decimals_one_more(rng: &mut Rng, mut draft: Draft) -> Option<Draft> {
    let suits = |place: &ItemPlace| {
        nines(&draft, place).is_some_and(|nines| (1..4).contains(&nines) && nines + 1 < place.item.width)
    };
    let place = some_item(rng, &draft, suits)?;
    draft.item_mut(place).decimals += 1;
    Some(draft)
}

/// And still not 0.
fn decimals_one_less(rng: &mut Rng, mut draft: Draft) -> Option<Draft> {
    let place = some_item(rng, &draft, |place| nines(&draft, place).is_some_and(|nines| nines > 1))?;
    draft.item_mut(place).decimals -= 1;
    Some(draft)
}

fn point_without_decimals(rng: &mut Rng, mut draft: Draft) -> Option<Draft> {
    let place = some_item(rng, &draft, |place| nines(&draft, place).is_some_and(|nines| nines > 0))?;
    draft.item_mut(place).decimals = 0;
    Some(draft)
}

fn decimals_without_point(rng: &mut Rng, mut draft: Draft) -> Option<Draft> {
    let suits = |place: &ItemPlace| {
        nines(&draft, place) == Some(0) && may_have_decimals(&draft, place) && place.item.width > 1
    };
    let place = some_item(rng, &draft, suits)?;
    draft.item_mut(place).decimals = rng.number(1, (place.item.width - 1).min(4));
    Some(draft)
}

fn point_on_page_counter(rng: &mut Rng, draft: Draft) -> Option<Draft> {
    point_on(rng, draft, PAGE_COUNTER)
}

fn point_on_line_counter(rng: &mut Rng, draft: Draft) -> Option<Draft> {
    point_on(rng, draft, LINE_COUNTER)
}

/// A picture in order with a point, on an item that has no decimals.
fn point_on(rng: &mut Rng, mut draft: Draft, source: u16) -> Option<Draft> {
    let shape = pictures::shape(rng, 8, true);
    let text = shape.text();
    let suits = |place: &ItemPlace| place.item.source == source && room(&draft, place) as usize >= text.len();
    let place = some_item(rng, &draft, suits).filter(|_| shape.decimals > 0)?;
    let at = rng.between(0, draft.pictures.len());
    draft.insert_picture(at, padded(&text));
    let item = draft.item_mut(place);
    (item.width, item.picture) = (text.len() as u16, at as u16);
    Some(draft)
}
