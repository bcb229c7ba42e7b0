//! Random pictures: in order, and with one clause of rule 9 broken.

use super::rng::Rng;
use crate::builder::padded;
use crate::description::Picture;
use crate::layout::PICTURE_BYTES;

/// A picture in order, in its parts.
#[derive(Clone, Debug)]
pub struct Shape {
    /// Digit places and commas in front of the point.
    pub whole: Vec<u8>,
    /// 9s behind the point; 0 without one.
    pub decimals: usize,
    pub sign: &'static str,
}

impl Shape {
    pub fn text(&self) -> Vec<u8> {
        let mut text = self.whole.clone();
        if self.decimals > 0 {
            text.push(b'.');
            text.resize(text.len() + self.decimals, b'9');
        }
        text.extend(self.sign.bytes());
        text
    }
}

const SIGNS: [&str; 2] = ["CR", "-"];

/// A picture of at most `longest` characters, often just as many; with a point only where it may have one.
pub fn shape(rng: &mut Rng, longest: usize, may_have_point: bool) -> Shape {
    let mut left = longest;
    let mut sign = rng.pick(&["", "CR", "-"]);
    if sign.len() >= left {
        sign = "";
    }
    left -= sign.len();
    let mut decimals = if may_have_point && rng.chance(50) { rng.between(1, 4) } else { 0 };
    if decimals + 1 > left {
        decimals = 0;
    }
    left -= if decimals > 0 { decimals + 1 } else { 0 };
    let whole = if decimals > 0 && (left == 0 || rng.chance(10)) { Vec::new() } else { whole(rng, left) };
    Shape { whole, decimals, sign }
}

/// Digit places and commas, 1 to `longest` characters, often just as many.
fn whole(rng: &mut Rng, longest: usize) -> Vec<u8> {
    let count = match rng.below(10) {
        0 => longest,
        1 => rng.between(1, longest),
        _ => rng.between(1, longest.min(6)),
    };
    let places = places(rng, count);
    let mut whole = with_commas(rng, &places);
    // The places at the front make room for the commas; no comma stays at the front.
    whole.drain(..whole.len().saturating_sub(longest));
    if whole[0] == b',' {
        whole.remove(0);
    }
    whole
}

/// So many digit places: Z or *, then 9s, either of them possibly none.
fn places(rng: &mut Rng, count: usize) -> Vec<u8> {
    let any = rng.between(0, count);
    let fills = rng.pick(&[0, count, count - 1, any]);
    let mut places = vec![rng.pick(b"Z*"); fills];
    places.resize(count, b'9');
    places
}

/// No commas, one in front of every three places, or some anywhere between two places.
fn with_commas(rng: &mut Rng, places: &[u8]) -> Vec<u8> {
    let style = rng.below(3);
    let mut whole = Vec::new();
    for (nth, &place) in places.iter().enumerate() {
        let comma = match style {
            0 => false,
            1 => (places.len() - nth).is_multiple_of(3),
            _ => rng.chance(35),
        };
        if comma && nth > 0 {
            whole.push(b',');
        }
        whole.push(place);
    }
    whole
}

/// A picture of just this length, 1 to 24, without a point.
pub fn of_length(rng: &mut Rng, length: usize) -> Picture {
    for _ in 0..20 {
        let text = shape(rng, length, false).text();
        if text.len() == length {
            return padded(&text);
        }
    }
    padded(&vec![rng.pick(b"Z*9"); length])
}

// ---- pictures with one clause broken

/// A picture that breaks one clause, with what an item of it would have, were it in order.
#[derive(Clone, Debug)]
pub struct Broken {
    pub picture: Picture,
    pub width: u16,
    pub decimals: u16,
}

fn broken(text: &[u8], decimals: usize) -> Broken {
    Broken { picture: padded(text), width: text.len() as u16, decimals: decimals as u16 }
}

/// How long a picture to break may be: mostly short, so that items find room for it, and never so long that four
/// characters more do not go in.
fn longest(rng: &mut Rng) -> usize {
    rng.pick(&[4, 6, 8, 12, PICTURE_BYTES - 4])
}

/// A picture to break.
fn some_shape(rng: &mut Rng) -> Shape {
    let longest = longest(rng);
    shape(rng, longest, true)
}

/// One without a point or a sign.
fn bare_shape(rng: &mut Rng) -> Shape {
    let longest = longest(rng);
    Shape { whole: whole(rng, longest), decimals: 0, sign: "" }
}

/// One with a whole part, a point and so many 9s behind it.
fn pointed_shape(rng: &mut Rng, decimals: usize) -> Shape {
    let longest = rng.pick(&[1, 3, 6, 12]);
    Shape { whole: whole(rng, longest), decimals, sign: rng.pick(&["", "CR", "-"]) }
}

/// `bytes` put into a shape's whole part, away from its commas, and not at the text's end.
fn with_inside(rng: &mut Rng, shape: &Shape, bytes: &[u8]) -> Broken {
    let mut text = shape.text();
    let comma = |at: usize| shape.whole.get(at) == Some(&b',');
    let free = |&at: &usize| at < text.len() && !comma(at) && (at == 0 || !comma(at - 1));
    let places: Vec<usize> = (0..=shape.whole.len()).filter(free).collect();
    let at = rng.pick(&places);
    text.splice(at..at, bytes.iter().copied());
    broken(&text, shape.decimals)
}

pub fn unlisted_character(rng: &mut Rng) -> Broken {
    let shape = some_shape(rng);
    let byte = rng.pick(b"X0158Yzcr+/:;_$BVSP)(\x00\x1f\x7f\xa0\xff");
    with_inside(rng, &shape, &[byte])
}

pub fn blank_inside(rng: &mut Rng) -> Broken {
    let shape = some_shape(rng);
    with_inside(rng, &shape, b" ")
}

/// All of the padding, its first or its last byte is no blank.
pub fn other_padding(rng: &mut Rng) -> Broken {
    let shape = some_shape(rng);
    let mut broken = broken(&shape.text(), shape.decimals);
    let pad = rng.pick(b"\x00\x00\x09\x0a\x1f\x7f\xa0\xff_");
    let start = broken.width as usize;
    let range = rng.pick(&[start..PICTURE_BYTES, start..start + 1, PICTURE_BYTES - 1..PICTURE_BYTES]);
    broken.picture[range].fill(pad);
    broken
}

/// An item needs some width, so that breaks with it.
pub fn empty(rng: &mut Rng) -> Broken {
    Broken { width: rng.number(1, 4), ..broken(b"", 0) }
}

pub fn no_digit_place(rng: &mut Rng) -> Broken {
    broken(rng.pick(&SIGNS).as_bytes(), 0)
}

/// Digit places with the commas, the point and the sign of a shape around them.
fn around(rng: &mut Rng, places: &[u8]) -> Broken {
    let decimals = rng.pick(&[0, 0, 1, 2, 4]);
    let shape = Shape { whole: with_commas(rng, places), decimals, sign: rng.pick(&["", "CR", "-"]) };
    broken(&shape.text(), decimals)
}

pub fn fills_mixed(rng: &mut Rng) -> Broken {
    let fills = rng.between(2, 5);
    let (fill, other) = rng.pick(&[(b'Z', b'*'), (b'*', b'Z')]);
    let mut places = vec![fill; fills];
    places[rng.below(fills)] = other;
    places.resize(fills + rng.below(3), b'9');
    around(rng, &places)
}

pub fn z_behind_a_9(rng: &mut Rng) -> Broken {
    fill_behind_a_9(rng, b'Z')
}

pub fn star_behind_a_9(rng: &mut Rng) -> Broken {
    fill_behind_a_9(rng, b'*')
}

fn fill_behind_a_9(rng: &mut Rng, fill: u8) -> Broken {
    let fills = rng.below(3);
    let mut places = vec![fill; fills];
    places.resize(fills + rng.between(2, 4), b'9');
    let at = rng.between(fills + 1, places.len() - 1);
    places[at] = fill;
    around(rng, &places)
}

pub fn comma_first(rng: &mut Rng) -> Broken {
    let shape = if rng.chance(50) { bare_shape(rng) } else { pointed_shape(rng, 2) };
    broken(&[b",", shape.text().as_slice()].concat(), shape.decimals)
}

pub fn comma_last(rng: &mut Rng) -> Broken {
    broken(&[bare_shape(rng).whole.as_slice(), b","].concat(), 0)
}

pub fn comma_doubled(rng: &mut Rng) -> Broken {
    let count = rng.between(2, 6);
    let mut whole = places(rng, count);
    let at = rng.between(1, count - 1);
    whole.splice(at..at, *b",,");
    let decimals = rng.pick(&[0, 0, 1, 2, 4]);
    let shape = Shape { whole, decimals, sign: rng.pick(&["", "CR", "-"]) };
    broken(&shape.text(), decimals)
}

pub fn comma_next_to_point(rng: &mut Rng) -> Broken {
    let decimals = rng.between(1, 4);
    let mut shape = pointed_shape(rng, decimals);
    shape.whole.push(b',');
    broken(&shape.text(), shape.decimals)
}

/// Between two 9s.
pub fn comma_behind_point(rng: &mut Rng) -> Broken {
    let decimals = rng.between(2, 4);
    let shape = pointed_shape(rng, decimals);
    let mut text = shape.text();
    let first = shape.whole.len() + 1;
    text.insert(first + rng.between(1, shape.decimals - 1), b',');
    broken(&text, shape.decimals)
}

pub fn comma_next_to_sign(rng: &mut Rng) -> Broken {
    let whole = bare_shape(rng).whole;
    broken(&[whole.as_slice(), b",", rng.pick(&SIGNS).as_bytes()].concat(), 0)
}

/// Side by side, or 9s between them.
pub fn two_points(rng: &mut Rng) -> Broken {
    let decimals = rng.between(1, 4);
    let shape = pointed_shape(rng, decimals);
    let mut text = shape.text();
    let point = shape.whole.len();
    text.splice(point..point, rng.pick(&[&b"."[..], b".9", b".99"]).iter().copied());
    broken(&text, shape.decimals)
}

pub fn point_then_nothing(rng: &mut Rng) -> Broken {
    let whole = bare_shape(rng).whole;
    broken(&[whole.as_slice(), b".", rng.pick(&["", "CR", "-"]).as_bytes()].concat(), 0)
}

pub fn point_then_five_nines(rng: &mut Rng) -> Broken {
    broken(&pointed_shape(rng, 5).text(), 4)
}

/// No 9 stands before them.
pub fn point_then_fill(rng: &mut Rng) -> Broken {
    let fill = rng.pick(b"Z*");
    let whole = vec![fill; rng.below(6)];
    let shape = Shape {
        whole: with_commas(rng, &whole),
        decimals: rng.between(1, 4),
        sign: rng.pick(&["", "CR", "-"]),
    };
    let mut text = shape.text();
    let first = shape.whole.len() + 1;
    let fills = rng.between(1, shape.decimals);
    text[first..first + fills].fill(fill);
    broken(&text, shape.decimals)
}

pub fn sign_not_at_the_end(rng: &mut Rng) -> Broken {
    let shape = Shape { sign: "", ..some_shape(rng) };
    let sign = rng.pick(&SIGNS);
    with_inside(rng, &shape, sign.as_bytes())
}

pub fn two_signs(rng: &mut Rng) -> Broken {
    let shape = some_shape(rng);
    let shape = Shape { sign: rng.pick(&["CRCR", "CR-", "-CR", "--"]), ..shape };
    broken(&shape.text(), shape.decimals)
}

pub fn c_without_r(rng: &mut Rng) -> Broken {
    let shape = Shape { sign: "C", ..some_shape(rng) };
    broken(&shape.text(), shape.decimals)
}

pub fn r_without_c(rng: &mut Rng) -> Broken {
    let shape = Shape { sign: "R", ..some_shape(rng) };
    broken(&shape.text(), shape.decimals)
}

#[cfg(test)]
mod tests {
    use super::*;
    use crate::picture;

    /// The clauses about a picture's characters, each looked at apart from the others: the names of those it breaks.
    fn broken_clauses(text: &[u8]) -> Vec<&'static str> {
        let place = |at: Option<usize>| at.and_then(|at| text.get(at)).is_some_and(|b| b"Z*9".contains(b));
        let count = |wanted: &[u8]| text.iter().filter(|byte| wanted.contains(byte)).count();
        let commas: Vec<usize> = (0..text.len()).filter(|&at| text[at] == b',').collect();
        let point = text.iter().position(|&byte| byte == b'.');
        let nine = text.iter().position(|&byte| byte == b'9').unwrap_or(text.len());
        let unsigned = text.strip_suffix(b"CR").or(text.strip_suffix(b"-")).unwrap_or(text);
        let signs = text.iter().rev().take_while(|byte| b"CR-".contains(byte)).count();
        let behind = point.map(|point| &text[point + 1..text.len() - signs]);
        let nines =
            |behind: &[u8]| (1..=4).contains(&behind.len()) && behind.iter().all(|&byte| byte == b'9');
        let clauses = [
            ("characters", text.iter().all(|byte| b"Z*9,.-CR".contains(byte))),
            ("digit place", count(b"Z*9") > 0),
            ("mixed", count(b"Z") == 0 || count(b"*") == 0),
            ("before the first 9", !text[nine..].iter().any(|byte| b"Z*".contains(byte))),
            ("comma", commas.iter().all(|&at| place(at.checked_sub(1)) && place(Some(at + 1)))),
            ("comma behind", commas.iter().all(|&at| point.is_none_or(|point| at < point))),
            ("points", count(b".") <= 1),
            ("9s", behind.is_none_or(nines)),
            ("sign", !unsigned.iter().any(|byte| b"CR-".contains(byte))),
        ];
        clauses.into_iter().filter(|(_, holds)| !holds).map(|(name, _)| name).collect()
    }

    #[test]
    fn shapes_are_right() {
        let mut rng = Rng::new(1);
        for longest in (1..=PICTURE_BYTES).cycle().take(5000) {
            let shape = shape(&mut rng, longest, true);
            let text = shape.text();
            assert!(text.len() <= longest && broken_clauses(&text).is_empty(), "{}", text.escape_ascii());
            assert!(picture::is_right(&padded(&text)), "{}", text.escape_ascii());
            assert_eq!(picture::text(&of_length(&mut rng, longest)).len(), longest);
        }
    }

    /// One clause alone, but for the two that cannot be: what stands behind the point instead of a 9 breaks that too.
    #[test]
    fn each_clause_is_broken_alone() {
        type Maker = fn(&mut Rng) -> Broken;
        let rows: [(Maker, &[&str]); 21] = [
            (unlisted_character, &["characters"]),
            (blank_inside, &["characters"]),
            (empty, &["digit place"]),
            (no_digit_place, &["digit place"]),
            (fills_mixed, &["mixed"]),
            (z_behind_a_9, &["before the first 9"]),
            (star_behind_a_9, &["before the first 9"]),
            (comma_first, &["comma"]),
            (comma_last, &["comma"]),
            (comma_doubled, &["comma"]),
            (comma_next_to_point, &["comma"]),
            (comma_behind_point, &["comma behind", "9s"]),
            (comma_next_to_sign, &["comma"]),
            (two_points, &["points", "9s"]),
            (point_then_nothing, &["9s"]),
            (point_then_five_nines, &["9s"]),
            (point_then_fill, &["9s"]),
            (sign_not_at_the_end, &["sign"]),
            (two_signs, &["sign"]),
            (c_without_r, &["sign"]),
            (r_without_c, &["sign"]),
        ];
        let mut rng = Rng::new(2);
        for (nth, (make, clauses)) in rows.into_iter().enumerate() {
            for _ in 0..1000 {
                let broken = make(&mut rng);
                let text = picture::text(&broken.picture);
                assert_eq!(broken_clauses(text), clauses, "row {nth}: {}", text.escape_ascii());
                assert!(!picture::is_right(&broken.picture), "{}", text.escape_ascii());
                assert!(text.is_empty() || text.len() == broken.width as usize, "{}", text.escape_ascii());
            }
        }
    }

    #[test]
    fn other_padding_stands_behind_a_right_picture() {
        let mut rng = Rng::new(3);
        for _ in 0..1000 {
            let broken = other_padding(&mut rng);
            let (text, padding) = broken.picture.split_at(broken.width as usize);
            assert!(picture::is_right(&padded(text)) && padding.iter().any(|&byte| byte != b' '));
            assert!(!picture::is_right(&broken.picture));
        }
    }
}
