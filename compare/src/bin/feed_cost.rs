//! `feed_cost DESCRIPTION RECORDS SIZE`: the bytes of a record file by the feeder, in chunks of SIZE bytes, for callgrind to count.
//!
//! Where a chunk prints more than the output has room for, its rest is fed again.

use bailcurlew::{Feeder, LONGEST_CHUNK};

fn read(path: &str) -> Vec<u8> {
    std::fs::read(path).unwrap_or_else(|error| fail(&format!("{path}: {error}"), 1))
}

fn fail(line: &str, code: i32) -> ! {
    eprintln!("{line}");
    std::process::exit(code)
}

fn main() {
    let args: Vec<String> = std::env::args().collect();
    let [_, description, records, size] = &args[..] else {
        fail("usage: feed_cost DESCRIPTION RECORDS SIZE", 2)
    };
    let (description, records) = (read(description), read(records));
    let size = match size.parse() {
        Ok(size @ 1..=LONGEST_CHUNK) => size,
        _ => fail(&format!("SIZE is {size}, not 1 to {LONGEST_CHUNK}"), 2),
    };
    let mut feeder = Feeder::fresh(0);
    let begun = feeder.initiate(&description);
    if !begun.accepted() {
        fail(&format!("INITIATE: {begun:?}"), 1);
    }
    let mut output = vec![0; 1 << 18];
    let mut written = 0;
    for mut chunk in records.chunks(size) {
        while !chunk.is_empty() {
            let fed = feeder.feed(&description, chunk, &mut output);
            if !fed.accepted() && fed.taken == 0 {
                fail(&format!("feed: {fed:?}"), 1);
            }
            written += fed.count;
            chunk = &chunk[fed.taken..];
        }
    }
    println!("{written}");
}
