//! What the benchmark says of a load in a file, and that it refuses a file that is not that load. Times are not looked at.

use checker::board::load::load;
use checker::board::trace;
use checker::judge::digest::fnv_1a;
use std::path::PathBuf;
use std::process::Command;

/// A file of this test alone.
fn file(name: &str, bytes: &[u8]) -> PathBuf {
    let path = PathBuf::from(env!("CARGO_TARGET_TMPDIR")).join(name);
    std::fs::write(&path, bytes).expect("a file is written");
    path
}

/// The independent program's load of seed 1, range 1 and so many calls.
fn load_of_seed_1(calls: u32) -> Vec<u8> {
    let mut buffer = vec![0; 8 + 10 * calls as usize];
    let answer = load(1, 1, calls, &mut buffer);
    buffer.truncate(answer.value as usize);
    buffer
}

/// The status, and what is printed: of a success, or else of the error.
fn benchmark(words: &[&str]) -> (Option<i32>, String) {
    let mut program = Command::new(env!("CARGO_BIN_EXE_benchmark"));
    let output = program.args(words).output().expect("it runs");
    let said = match output.status.success() {
        true => output.stdout,
        false => output.stderr,
    };
    (output.status.code(), String::from_utf8(said).expect("text"))
}

/// The first line is this one, and each player's ends in the digest of the right answers.
fn check_said(words: &[&str], first: &str, trace: &[u8], calls: usize) {
    let (status, said) = benchmark(words);
    assert_eq!(status, Some(0), "{said}");
    let lines: Vec<&str> = said.lines().collect();
    let bytes = trace.len();
    let digest = fnv_1a(trace);
    let stated = format!("{first}, range 1, {calls} calls, {bytes} bytes, digest {digest:016X}");
    assert_eq!(lines[0], stated);
    let mut answers = vec![0; 5 * calls];
    assert_eq!(trace::play(trace, &mut answers), 256 * calls as u64);
    let end = format!(", answers {:016X}", fnv_1a(&answers));
    for (line, name) in lines[1..].iter().zip(["  archive ", "  independent "]) {
        assert!(line.starts_with(name) && line.ends_with(&end), "{line}");
    }
    assert!(lines.len() >= 3);
}

#[test]
fn a_load_is_stated_with_its_seed() {
    let trace = load_of_seed_1(300);
    let path = file("stated", &trace);
    let name = path.to_str().expect("a name");
    let first = format!("{name}: the load of seed 1");
    check_said(&["load", name, "1"], &first, &trace, 300);
    let first = format!("{name}: a trace");
    check_said(&["load", name], &first, &trace, 300);
}

/// A file cut after a call is the load of fewer calls, and that is what is said.
#[test]
fn a_load_of_fewer_calls_is_stated_as_such() {
    let trace = load_of_seed_1(299);
    let path = file("fewer", &load_of_seed_1(300)[..trace.len()]);
    let name = path.to_str().expect("a name");
    let first = format!("{name}: the load of seed 1");
    check_said(&["load", name, "1"], &first, &trace, 299);
}

/// One line that names the file and says why, and status 1.
fn check_refused(name: &str, bytes: &[u8], seed: &str, reason: &str) {
    let path = file(name, bytes);
    let path = path.to_str().expect("a name");
    let line = format!("benchmark: {path}: {reason}\n");
    assert_eq!(benchmark(&["load", path, seed]), (Some(1), line));
}

#[test]
fn what_is_not_the_load_is_refused() {
    let trace = load_of_seed_1(300);
    let other = "not the load of seed 2";
    check_refused("other", &trace, "2", other);
    let mut changed = trace.clone();
    // The offset of the first call, a read.
    changed[12] = 0x14;
    check_refused("changed", &changed, "1", "not the load of seed 1");
    let cut = "no trace: a field is cut off, or has a tag or a length that no field has";
    check_refused("cut", &trace[..trace.len() - 1], "1", cut);
    let empty = "no trace: it is too long, or does not begin with the heading of a trace";
    check_refused("empty", &[], "1", empty);
    let stray = [&trace[..8], &[0x09, 5, 0, 0, 0, 0, 0, 0]].concat();
    let reason = "no trace: a recorded answer follows no call";
    check_refused("stray", &stray, "1", reason);
    check_refused("heading", &trace[..8], "1", "no call to be timed");
}

#[test]
fn a_file_that_is_not_there_is_named() {
    let line = "benchmark: no/such/file: No such file or directory (os error 2)\n";
    let said = benchmark(&["load", "no/such/file"]);
    assert_eq!(said, (Some(1), line.to_string()));
}

#[test]
fn other_words_are_not_understood() {
    let usage = "usage: benchmark [load [FILE [SEED]] | stepping | replay | window]\n";
    let cases: [&[&str]; 6] = [
        &["laod"],
        &["load", "file", "one"],
        &["load", "file", "4294967296"],
        &["load", "file", "1", "more"],
        &["window", "more"],
        &[""],
    ];
    for words in cases {
        let said = benchmark(words);
        assert_eq!(said, (Some(2), usage.to_string()), "{words:?}");
    }
}
