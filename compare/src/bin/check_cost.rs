//! `check_cost DESCRIPTION TIMES`: CHECK of a description file, some times over, for callgrind to count.
fn main() {
    let args: Vec<String> = std::env::args().collect();
    let [_, path, times] = &args[..] else {
        eprintln!("usage: check_cost DESCRIPTION TIMES");
        std::process::exit(2);
    };
    let bytes = std::fs::read(path).unwrap_or_else(|error| {
        eprintln!("{path}: {error}");
        std::process::exit(1);
    });
    let times: u32 = times.parse().unwrap_or(1);
    let answers: u32 = (0..times).map(|_| bailcurlew::check(&bytes)).sum();
    println!("{answers}");
}
