//! Numbers and pages as the proved code prints them, against the standard library's own decimal form, and numbers through
//! pictures against a formatter of its own: amounts that no record can have are tried too, to the ends of 64 bits.
use compare::printed;
use second::cases::Rng;

/// Document 01: no leading zeros, one digit at least before the point, '-' in front, right-aligned; too wide, all '*'.
fn wanted(v: i64, decimals: usize, width: usize) -> Vec<u8> {
    let digits = format!("{:0least$}", v.unsigned_abs(), least = decimals + 1);
    let (whole, part) = digits.split_at(digits.len() - decimals);
    let sign = if v < 0 { "-" } else { "" };
    let point = if decimals > 0 { "." } else { "" };
    let text = format!("{sign}{whole}{point}{part}");
    if text.len() > width {
        return vec![b'*'; width];
    }
    format!("{text:>width$}").into_bytes()
}

fn tried(v: i64, decimals: usize, width: usize) {
    let mut out = vec![b'?'; width];
    printed::number(v, decimals, &mut out);
    assert_eq!(out, wanted(v, decimals, width), "{v} with {decimals} decimals in {width} bytes");
}

/// A power of ten, one less and one more, their halves, and the ends of the type: where the count of digits changes.
fn edges() -> Vec<i64> {
    let powers = (0..19).map(|k| 10_i64.pow(k));
    let near = powers.flat_map(|p| [p - 1, p, p + 1, p / 2, 5 * (p / 10)]);
    near.chain([i64::MAX, i64::MAX - 1, i64::MIN + 1]).flat_map(|v| [v, -v]).chain([i64::MIN]).collect()
}

#[test]
fn numbers_at_each_count_of_digits() {
    for v in edges() {
        for decimals in 0..=4 {
            (1..=30).for_each(|width| tried(v, decimals, width));
        }
    }
}

#[test]
fn numbers_by_chance() {
    let mut rng = Rng::new(20261116);
    for _ in 0..400_000 {
        let v = (rng.draw() >> rng.below(64)) as i64;
        let v = if rng.below(2) == 0 { v } else { v.wrapping_neg() };
        tried(v, rng.below(5), 1 + rng.below(28));
    }
}

#[test]
fn more_than_four_decimals_print_nothing() {
    let mut out = *b"as it was";
    printed::number(-1, 5, &mut out);
    assert_eq!(&out, b"as it was");
}

#[test]
fn every_line_and_pages_beyond_the_last() {
    let pages = [0, 1, 9, 10, 99_999, 100_000, 123_456, 999_999, 1_000_000, 4_294_967_295];
    for page in pages {
        for line in (0..=1000).chain([u64::MAX, 12_345_678_901]) {
            let wanted = format!("{:06}{:03}", page % 1_000_000, line % 1000);
            assert_eq!(&printed::page_line(page, line), wanted.as_bytes());
        }
    }
}

/// R-4, from its text: the digits are laid into the places from the right, then the item is read from the left for what is
/// hidden. `None` where the number does not go into the picture.
fn laid(v: i64, picture: &[u8]) -> Option<Vec<u8>> {
    let is_place = |c: &u8| b"Z*9".contains(c);
    let is_sign = |c: &u8| b"-CR".contains(c);
    let places = picture.iter().filter(|c| is_place(c)).count();
    let digits = format!("{:0places$}", v.unsigned_abs());
    let digits = if v == 0 && places == 0 { String::new() } else { digits };
    if digits.len() > places || (v < 0 && !picture.last().is_some_and(is_sign)) {
        return None;
    }
    let mut digits = digits.bytes();
    let fill = if picture.contains(&b'*') { b'*' } else { b' ' };
    let mut shown = false;
    let lay = |&c: &u8| match c {
        b'9' | b'Z' | b'*' => {
            let digit = digits.next().expect("a digit for each place");
            shown |= c == b'9' || digit != b'0';
            if shown {
                digit
            } else {
                fill
            }
        }
        b',' if !shown => fill,
        c if is_sign(&c) && v >= 0 => b' ',
        c => c,
    };
    Some(picture.iter().map(lay).collect())
}

fn edited(v: i64, picture: &[u8]) {
    let wanted = laid(v, picture).unwrap_or(vec![b'*'; picture.len()]);
    let mut out = vec![b'?'; picture.len()];
    printed::picture(v, picture, &mut out);
    assert_eq!(out, wanted, "{v} through {}", String::from_utf8_lossy(picture));
}

/// A picture as R-4 allows it: some Z or *, some 9, commas between them, a point and decimals, a sign.
fn any_picture(rng: &mut Rng) -> Vec<u8> {
    let fill = b"Z*"[rng.below(2)];
    let decimals = rng.below(5);
    let fills = rng.below(13);
    let nines = rng.below(4) + usize::from(fills == 0 && decimals == 0);
    let every = [0, 2, 3, 4][rng.below(4)];
    let places = fills + nines;
    let mut picture = Vec::new();
    for k in 0..places {
        let left = places - k;
        if every > 0 && k > 0 && left % every == 0 {
            picture.push(b',');
        }
        picture.push(if k < fills { fill } else { b'9' });
    }
    if decimals > 0 {
        picture.push(b'.');
        picture.extend(vec![b'9'; decimals]);
    }
    picture.extend_from_slice([&b""[..], b"-", b"CR"][rng.below(3)]);
    picture.truncate(24);
    picture
}

#[test]
fn pictures_at_each_count_of_digits() {
    let pictures = [
        "Z,ZZZ,ZZZ,ZZ9.99",
        "*,***,***,**9.99CR",
        "ZZZ,ZZZ,ZZ9.99",
        "9,999,999,999.99-",
        "ZZZ",
        "***",
        "9",
        ".99",
        ".9999CR",
        "*,***",
        "ZZ,ZZ,ZZ",
        "Z9",
        "ZZZ,999.9",
        "999999999999999999999999",
        "ZZZZZZZZZZZZZZZZZZZZZZ9-",
        "ZZZ,ZZZ,ZZZ,ZZZ,ZZ9.99CR",
        "***,***,***,***,***,***",
        "9,99,9.999",
        "Z,ZZ",
        "*,**9.99-",
        "9.99",
        "-",
        "CR",
        "",
    ];
    for picture in pictures {
        edges().into_iter().for_each(|v| edited(v, picture.as_bytes()));
    }
}

#[test]
fn pictures_by_chance() {
    let mut rng = Rng::new(20261117);
    for _ in 0..400_000 {
        let picture = any_picture(&mut rng);
        let v = (rng.draw() >> rng.below(64)) as i64;
        edited(if rng.below(2) == 0 { v } else { v.wrapping_neg() }, &picture);
    }
}

#[test]
fn a_picture_prints_over_the_first_bytes_alone() {
    let mut out = *b"as it was, all of it, and more";
    printed::picture(-1234, b"ZZ9.99-", &mut out);
    assert_eq!(&out, b" 12.34-as, all of it, and more");
    let before = out;
    printed::picture(1, &[b'9'; 25], &mut out);
    printed::picture(1, b"9999", &mut out[..3]);
    assert_eq!(out, before);
}
