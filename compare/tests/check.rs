//! CHECK of the proved library against the second program's, on random, broken and damaged descriptions.

use second::cases::{accepted_description, pictured_description, sample, Rng};
use second::description;

const DESCRIPTIONS: usize = 60_000;

/// What the second program answers, in the library's terms.
fn wanted(bytes: &[u8]) -> u32 {
    match description::check(bytes) {
        Ok(_) => 0,
        Err(rule) => u32::from(rule),
    }
}

#[test]
fn both_answer_alike_and_every_rule_is_reached() {
    let mut rng = Rng::new(20_261_115);
    let mut reached = [0usize; 10];
    for i in 0..DESCRIPTIONS {
        let drawn = sample(&mut rng);
        let answer = bailcurlew::check(&drawn.bytes);
        assert_eq!(answer, wanted(&drawn.bytes), "description {i}, {}: {:?}", drawn.name, drawn.bytes);
        reached[answer as usize] += 1;
    }
    println!("accepted and broken by rule: {reached:?}");
    assert!(reached.iter().all(|&count| count > 100), "not reached often enough: {reached:?}");
}

/// Every prefix of a description, and every byte of its trailer changed; of ten descriptions of each version at least.
#[test]
fn cuts_and_trailers() {
    let mut rng = Rng::new(7);
    for i in 0..30 {
        let bytes = if i % 3 == 0 { pictured_description(&mut rng) } else { accepted_description(&mut rng) };
        for end in 0..bytes.len() {
            assert_eq!(bailcurlew::check(&bytes[..end]), wanted(&bytes[..end]));
        }
        for at in bytes.len() - 52..bytes.len() {
            for change in [1u8, 2, 127, 128, 255] {
                let mut damaged = bytes.clone();
                damaged[at] = damaged[at].wrapping_add(change);
                assert_eq!(bailcurlew::check(&damaged), wanted(&damaged), "byte {at} by {change}");
            }
        }
    }
}

/// Sizes near 65,535 and files shorter than the trailer.
#[test]
fn odd_sizes() {
    for size in (0..100).chain([65_534, 65_535, 65_536, 65_583, 65_584, 131_072]) {
        for byte in [0u8, 1, 48, 255] {
            let bytes = vec![byte; size];
            assert_eq!(bailcurlew::check(&bytes), wanted(&bytes), "{size} bytes of {byte}");
        }
    }
}
