//! The traces stored for `rt ci` are those that the independent player answers today, and what its programs must
//! print is what the independent program prints. Looks, clears and triggers before arming are among the traces'
//! calls, and recorded answers among their fields.

use checker::board::replay::replayed;
use checker::board::trace::{decoded, has_answers, play, printed};
use checker::board::Board;
use checker::draw::stored::stored;
use checker::judge::coverage::Coverage;
use checker::judge::history::History;
use checker::judge::moments::{arming_kinds, look_kinds, played};
use std::collections::BTreeMap;
use std::fs;

/// What is stored for a program: its input, and what it must write.
fn files_of(program: &str) -> [Vec<u8>; 2] {
    let crates = concat!(env!("CARGO_MANIFEST_DIR"), "/../crates");
    ["stdin", "stdout"]
        .map(|name| fs::read(format!("{crates}/{program}/{name}")).expect("a stored file"))
}

#[test]
fn the_stored_traces_are_the_independent_players() {
    let stored = stored();
    let [input, output] = files_of("stored_traces");
    assert!(input == stored.input, "what is read");
    assert!(output == stored.output, "what must be written");
}

#[test]
fn the_programs_print_what_is_stored() {
    check_program("pmc330_run", printed);
    check_program("pmc330_replay", replayed);
}

fn check_program(program: &str, prints: fn(&[u8]) -> String) {
    let [input, output] = files_of(program);
    let stored = String::from_utf8(output).expect("a text");
    assert_eq!(prints(&input), stored, "{program}: stored (right)");
}

#[test]
fn what_the_stored_traces_reach() {
    let mut kinds = look_kinds(2);
    kinds.extend(arming_kinds(1));
    let mut coverage = Coverage::new(kinds);
    let (mut traces, mut calls) = (0, 0);
    for mut lent in stored().traces {
        let number = play(&lent.trace, &mut lent.answers) % 256;
        if number != 0 {
            continue;
        }
        let (range, list) = decoded(&lent.trace).expect("it was played");
        let (mut board, mut history) = (Board::new(range).0, History::default());
        for call in &list {
            coverage.note(&played(&mut board, &mut history, call));
        }
        traces += 1;
        calls += list.len();
    }
    println!("{traces} stored traces are played, with {calls} calls; among them:");
    println!("{}", coverage.table());
    coverage.assert_all_met();
}

/// Recordings that are played, and those that are refused.
#[test]
fn recordings_among_the_stored_traces() {
    let mut counts = BTreeMap::new();
    for mut lent in stored().traces {
        let number = play(&lent.trace, &mut lent.answers) % 256;
        let with = match (number, has_answers(&lent.trace)) {
            (0 | 20, true) => ", with recorded answers",
            _ => "",
        };
        *counts.entry(format!("number {number}{with}")).or_insert(0) += 1;
    }
    let least = [
        ("number 0, with recorded answers", 25),
        ("number 0", 40),
        ("number 20, with recorded answers", 2),
        ("number 20", 5),
        ("number 18", 15),
        ("number 19", 40),
        ("number 26", 10),
    ];
    for (kind, least) in least {
        let count = counts.get(kind).copied().unwrap_or(0);
        println!("{count:>9}  {kind}");
        assert!(count >= least, "{kind}: {count}, fewer than {least}");
    }
}
