//! The stack that the calls for C need, on the examples and on the longest of many descriptions: docs/AUDIT.md gives the bound.

use std::fs;
use std::path::{Path, PathBuf};
use std::process::Command;

use second::cases::{sample, sequence, Call, Rng};
use second::description::check;
use second::report::{generate, initiate, terminate};
use second::state::State;

/// The calls of a report, of the feeder and of the report file, and those that read a sheet back, one line each.
const TOLD: usize = 12;

/// Bytes of stack; what is measured is less.
const BOUND: usize = 36_864;

fn at(path: &str) -> PathBuf {
    Path::new(env!("CARGO_MANIFEST_DIR")).join(path)
}

fn library() -> PathBuf {
    std::env::var_os("BAILCURLEW_STATICLIB").map_or(at("../target/staticlib"), PathBuf::from)
}

fn compiled() -> PathBuf {
    let program = Path::new(env!("CARGO_TARGET_TMPDIR")).join("c_stack");
    let mut compiler = Command::new("cc");
    compiler.args(["-std=c99", "-pedantic", "-Wall", "-Wextra", "-Werror", "-O2"]);
    compiler.arg("-I").arg(at("../include")).arg(at("c/stack.c")).arg("-L").arg(library());
    compiler.args(["-lreport_c", "-lfeeder_c", "-lreport_file_c", "-lreader_c", "-lpthread", "-o"]);
    let output = compiler.arg(&program).output().expect("cc");
    assert!(output.status.success(), "{}", String::from_utf8_lossy(&output.stderr));
    program
}

fn within_bound(program: &Path, desc: &Path, rows: &Path) {
    let output = Command::new(program).arg(desc).arg(rows).output().expect("the program");
    assert!(output.status.success(), "{desc:?}: {}", String::from_utf8_lossy(&output.stderr));
    let told = String::from_utf8_lossy(&output.stdout);
    println!("{}: {}", desc.display(), told.replace('\n', "; "));
    assert_eq!(told.lines().count(), TOLD, "{told}");
    for line in told.lines() {
        let bytes: usize = line.split(' ').next_back().and_then(|word| word.parse().ok()).expect("a count");
        assert!(bytes < BOUND, "{desc:?}: {line}");
    }
}

/// Rows that are accepted one behind the other, and TERMINATE after them.
fn accepted_rows(rng: &mut Rng, desc: &[u8]) -> Vec<u8> {
    let mut steps = sequence(rng, desc, 60);
    let mut output = vec![0; 1 << 18];
    let mut state = initiate(desc, &State::fresh()).state;
    let (mut rows, mut last) = (Vec::new(), None);
    while let Some(step) = steps.step(last.as_ref()) {
        if let Call::Generate { record, .. } = &step.call {
            let answer = generate(desc, &state, 0, record, &mut output);
            if answer.number == 0 && terminate(desc, &answer.state, &mut output).number == 0 {
                state = answer.state;
                rows.extend(record);
            }
        }
        last = Some(second::cases::play(desc, &step).0);
    }
    rows
}

#[test]
fn calls_stay_within_the_stack_that_is_told() {
    let program = compiled();
    for name in ["whole_run", "day_sheet", "pictures"] {
        let file = |kind: &str| at(&format!("../examples/{name}.{kind}"));
        within_bound(&program, &file("desc"), &file("rows"));
    }
    let mut rng = Rng::new(41);
    let mut long: Vec<Vec<u8>> =
        (0..4_000).map(|_| sample(&mut rng).bytes).filter(|bytes| check(bytes).is_ok()).collect();
    long.sort_by_key(|bytes| std::cmp::Reverse(bytes.len()));
    let folder = Path::new(env!("CARGO_TARGET_TMPDIR"));
    for (i, desc) in long.iter().take(20).enumerate() {
        let [desc_file, rows_file] = ["desc", "rows"].map(|kind| folder.join(format!("stack_{i}.{kind}")));
        fs::write(&desc_file, desc).expect("a temporary file");
        fs::write(&rows_file, accepted_rows(&mut rng, desc)).expect("a temporary file");
        println!("{} bytes", desc.len());
        within_bound(&program, &desc_file, &rows_file);
    }
}
