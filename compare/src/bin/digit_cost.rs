//! `digit_cost number|page|picture TIMES [PICTURE]`: an amount, also through a picture, or a page and line, printed some times
//! over, for callgrind to count.
//!
//! The amount has as many digits as the picture has places, 12 without one, 2 of them decimals, and goes into 16 bytes.
use compare::printed;

fn usage() -> ! {
    eprintln!("usage: digit_cost number|page|picture TIMES [PICTURE]");
    std::process::exit(2)
}

fn main() {
    let args: Vec<String> = std::env::args().collect();
    let [_, what, times, pictures @ ..] = &args[..] else { usage() };
    let Ok(times) = times.parse::<u32>() else { usage() };
    let picture = pictures.first().map_or("Z,ZZZ,ZZZ,ZZ9.99", |p| p);
    let places = picture.bytes().filter(|c| b"Z*9".contains(c)).count();
    let amount = 987_654_321_012_345_678 / 10_i64.pow(18 - places.min(18) as u32);
    let mut item = [b' '; 16];
    let mut edited = vec![b' '; picture.len()];
    let mut head = [b' '; 9];
    match what.as_str() {
        "number" => (0..times).for_each(|i| printed::number(987_654_321_012 + i64::from(i), 2, &mut item)),
        "picture" => {
            (0..times).for_each(|i| printed::picture(amount - i64::from(i), picture.as_bytes(), &mut edited))
        }
        "page" => (0..times).for_each(|i| head = printed::page_line(12_345 + i, u64::from(i % 999) + 1)),
        _ => usage(),
    }
    let parts = [&item[..], &edited, &head].map(String::from_utf8_lossy);
    println!("{}", parts.concat());
}
