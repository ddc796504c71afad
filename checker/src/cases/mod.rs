//! Cases that are typed in, with the answers expected, worked by hand from the manuals and the rules of the board. They
//! are texts, one file a subject, in the folder `cases` of this package: a line `case NAME`, a line `range N`, and then
//! calls in the notation of `examples/`, each with its answer (see `script`). That a board is idle is seen by a write
//! to 0CH: a busy one refuses it with 6.
//!
//! The file `recordings` has recorded answers in the place of expected ones, and after the calls of each case the line
//! `prints TEXT`, with what the program prints of its replay.

pub mod fields;
pub mod script;

use crate::board::trace::{trace_of_fields, Field};
use crate::cases::script::{steps, Step};
use std::fs;
use std::path::{Path, PathBuf};

/// The one file of recordings.
const RECORDINGS: &str = "recordings";

/// Calls on a new board of a range, with the answers expected.
#[derive(Debug, PartialEq, Eq)]
pub struct Case {
    pub name: String,
    pub range: u8,
    pub steps: Vec<Step>,
}

/// A recording, and what the program prints of its replay.
#[derive(Debug, PartialEq, Eq)]
pub struct Replay {
    pub name: String,
    pub range: u8,
    pub fields: Vec<Field>,
    pub printed: String,
}

impl Replay {
    /// The recording in bytes.
    pub fn trace(&self) -> Vec<u8> {
        trace_of_fields(self.range, &self.fields)
    }
}

// The files.

/// The cases of a file, by its name without ending.
pub fn group(name: &str) -> Vec<Case> {
    texts(&text_of(name)).into_iter().map(case_of).collect()
}

/// The one case of a file with this name.
pub fn one(group_name: &str, name: &str) -> Case {
    let mut named = group(group_name);
    named.retain(|case| case.name == name);
    assert_eq!(named.len(), 1, "cases {name} in {group_name}");
    named.remove(0)
}

/// Every case of every file but the recordings.
pub fn all() -> Vec<Case> {
    let mut names = groups();
    names.retain(|name| name != RECORDINGS);
    names.iter().flat_map(|name| group(name)).collect()
}

/// Every recording.
pub fn recordings() -> Vec<Replay> {
    let text = text_of(RECORDINGS);
    texts(&text).into_iter().map(replay_of).collect()
}

/// The names of the files, without ending, in order.
pub fn groups() -> Vec<String> {
    let name_of = |path: PathBuf| path.file_stem().expect("a name").display().to_string();
    files_of_calls(&folder()).into_iter().map(name_of).collect()
}

/// The files of a folder that are texts of calls, in order. A folder without any is a mistake.
pub fn files_of_calls(folder: &Path) -> Vec<PathBuf> {
    let entries = fs::read_dir(folder).unwrap_or_else(|error| panic!("{folder:?}: {error}"));
    let mut paths: Vec<PathBuf> = entries
        .map(|entry| entry.expect("an entry").path())
        .collect();
    paths.retain(|path| path.extension().is_some_and(|ending| ending == "calls"));
    assert!(!paths.is_empty(), "no file .calls in {folder:?}");
    paths.sort();
    paths
}

fn folder() -> PathBuf {
    Path::new(env!("CARGO_MANIFEST_DIR")).join("cases")
}

fn text_of(name: &str) -> String {
    let path = folder().join(name).with_extension("calls");
    fs::read_to_string(&path).unwrap_or_else(|error| panic!("{path:?}: {error}"))
}

// Their texts.

/// A case as it stands in its file: the lines after `range N`.
struct Text<'a> {
    name: &'a str,
    range: u8,
    lines: &'a str,
}

/// The cases of a file: what stands before the first one is comments.
fn texts(file: &str) -> Vec<Text<'_>> {
    let (head, cases) = file.split_once("\ncase ").expect("a case in each file");
    assert!(is_without_calls(head), "before the first case: {head}");
    cases.split("\ncase ").map(text_of_case).collect()
}

fn text_of_case(case: &str) -> Text<'_> {
    let (name, rest) = case.split_once('\n').unwrap_or((case, ""));
    let (range, _) = rest.split_once('\n').unwrap_or((rest, ""));
    let lines = &rest[range.len()..];
    let range = match range.strip_prefix("range ").map(str::parse) {
        Some(Ok(range @ 0..=3)) => range,
        _ => panic!("case {name}: its second line is the range, 0 to 3"),
    };
    Text { name, range, lines }
}

fn case_of(text: Text) -> Case {
    let steps = steps(text.lines);
    assert!(!steps.is_empty(), "case {}: no call", text.name);
    Case {
        name: text.name.to_string(),
        range: text.range,
        steps,
    }
}

fn replay_of(text: Text) -> Replay {
    let name = text.name.to_string();
    let parts = text.lines.split_once("\nprints ");
    let (calls, rest) = parts.unwrap_or_else(|| panic!("case {name}: what is printed?"));
    let (printed, rest) = rest.split_once('\n').unwrap_or((rest, ""));
    assert!(is_without_calls(rest), "case {name}: after its end: {rest}");
    Replay {
        name,
        range: text.range,
        fields: script::fields(calls),
        printed: printed.to_string(),
    }
}

fn is_without_calls(text: &str) -> bool {
    script::fields(text).is_empty()
}

#[cfg(test)]
mod tests {
    use super::*;

    const TEXT: &str = "\
# What the file is about.

case the first
range 1
write 16 10H 0000H; trigger   # two calls
advance 64 = 1

# about the next one
case the second; with a semicolon
range 3
look 32 refused 22
";

    fn cases_of(file: &str) -> Vec<Case> {
        texts(file).into_iter().map(case_of).collect()
    }

    #[test]
    fn cases_are_read() {
        let expected = [
            ("the first", 1, "write 16 10H 0; trigger; advance 64 = 1"),
            ("the second; with a semicolon", 3, "look 32 refused 22"),
        ];
        let expected = expected.map(|(name, range, script)| Case {
            name: name.to_string(),
            range,
            steps: steps(script),
        });
        assert_eq!(cases_of(TEXT), expected);
    }

    #[test]
    fn recordings_are_read() {
        let file =
            "# About.\ncase of two\nrange 2\ntrigger; answered 1 0; reset\nprints differs 1 1\n";
        let replays: Vec<Replay> = texts(file).into_iter().map(replay_of).collect();
        let expected = Replay {
            name: "of two".to_string(),
            range: 2,
            fields: script::fields("trigger; answered 1 0; reset"),
            printed: "differs 1 1".to_string(),
        };
        assert_eq!(replays, [expected]);
    }

    /// At least the files and cases of today.
    #[test]
    fn every_file_is_read() {
        assert!(groups().len() >= 11 && groups().contains(&RECORDINGS.to_string()));
        assert!(all().len() >= 105 && recordings().len() >= 28);
    }

    #[test]
    #[should_panic(expected = "no file .calls in")]
    fn a_folder_without_cases_is_noticed() {
        files_of_calls(&folder().join("../tests"));
    }

    #[test]
    #[should_panic(expected = "a case in each file")]
    fn a_file_without_a_case_is_noticed() {
        texts("# About.\n");
    }

    #[test]
    #[should_panic(expected = "before the first case")]
    fn a_call_before_the_first_case_is_noticed() {
        texts("trigger\ncase of none\nrange 0\ntrigger\n");
    }

    #[test]
    #[should_panic(expected = "its second line is the range")]
    fn a_missing_range_is_noticed() {
        cases_of("#\ncase of one\ntrigger\n");
    }

    #[test]
    #[should_panic(expected = "its second line is the range")]
    fn a_range_above_3_is_noticed() {
        cases_of("#\ncase of one\nrange 4\ntrigger\n");
    }

    #[test]
    #[should_panic(expected = "no call: Case of two")]
    fn a_slip_is_noticed() {
        cases_of("#\ncase of one\nrange 1\ntrigger\nCase of two\nrange 1\ntrigger\n");
    }

    #[test]
    #[should_panic(expected = "case of one: no call")]
    fn a_case_without_calls_is_noticed() {
        cases_of("#\ncase of one\nrange 1\n\ncase of two\nrange 1\ntrigger\n");
    }

    #[test]
    #[should_panic(expected = "case of one: what is printed?")]
    fn a_recording_without_its_line_is_noticed() {
        texts("#\ncase of one\nrange 1\ntrigger\n")
            .into_iter()
            .for_each(|text| drop(replay_of(text)));
    }

    #[test]
    #[should_panic(expected = "case of one: after its end: trigger")]
    fn a_call_after_a_recordings_end_is_noticed() {
        texts("#\ncase of one\nrange 1\nprints agree 0\ntrigger\n")
            .into_iter()
            .for_each(|text| drop(replay_of(text)));
    }
}
