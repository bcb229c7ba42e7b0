//! `row_cost DESCRIPTION RECORDS TIMES`: the rows of a record file, some times over, by GENERATE, for callgrind to count.
//!
//! One row in the file gives rows without a break, two that differ in a control a break at every row.

fn read(path: &str) -> Vec<u8> {
    std::fs::read(path).unwrap_or_else(|error| fail(&format!("{path}: {error}"), 1))
}

fn fail(line: &str, code: i32) -> ! {
    eprintln!("{line}");
    std::process::exit(code)
}

fn main() {
    let args: Vec<String> = std::env::args().collect();
    let [_, description, records, times] = &args[..] else {
        fail("usage: row_cost DESCRIPTION RECORDS TIMES", 2)
    };
    let (description, records) = (read(description), read(records));
    let times: usize = times.parse().unwrap_or(1);
    let tables = second::description::check(&description);
    let tables = tables.unwrap_or_else(|rule| fail(&format!("the description breaks D{rule}"), 1));
    let mut state = bailcurlew::State::fresh();
    state.initiate(&description);
    let mut output = vec![0; 1 << 18];
    let mut written = 0;
    for _ in 0..times {
        for record in records.chunks(usize::from(tables.r)) {
            written += state.generate(&description, 0, record, &mut output).count;
        }
    }
    println!("{written}");
}
