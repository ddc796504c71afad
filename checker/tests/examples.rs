//! The examples of the repository: what each is said to print is what the independent player prints, and what
//! each recording is said to give is what the independent replay gives.

use checker::board::replay::replayed;
use checker::board::trace::{printed, trace_of_fields, Field};
use checker::cases::files_of_calls;
use checker::cases::script::fields;
use std::fs;
use std::path::{Path, PathBuf};

/// A text of calls, as a trace and its fields.
struct Example {
    path: PathBuf,
    trace: Vec<u8>,
    fields: Vec<Field>,
}

fn examples() -> Vec<Example> {
    let folder = Path::new(env!("CARGO_MANIFEST_DIR")).join("../examples");
    files_of_calls(&folder).into_iter().map(example).collect()
}

/// Its first line that is no comment is `range N`.
fn example(path: PathBuf) -> Example {
    let text = fs::read_to_string(&path).expect("the calls");
    let is_call = |line: &&str| !line.split('#').next().unwrap_or("").trim().is_empty();
    let mut rest = text.lines().filter(is_call);
    let first = rest.next().expect("a first line");
    let range = first.split_whitespace().nth(1).expect("range N");
    let range = range.parse().expect("a range");
    let fields = fields(&rest.collect::<Vec<&str>>().join("\n"));
    Example {
        path,
        trace: trace_of_fields(range, &fields),
        fields,
    }
}

impl Example {
    /// What is stored beside it, in the file of this ending, is this text.
    fn has_stored(&self, ending: &str, text: &str) {
        let path = self.path.with_extension(ending);
        let stored =
            fs::read_to_string(&path).unwrap_or_else(|error| panic!("{}: {error}", path.display()));
        assert_eq!(text, stored, "{}", path.display());
    }

    fn is_recording(&self) -> bool {
        let is_answer = |field: &Field| matches!(field, Field::Answered(_));
        self.fields.iter().any(is_answer)
    }
}

#[test]
fn each_example_prints_what_is_stored() {
    let examples = examples();
    assert!(
        examples.len() >= 11,
        "the first trace, the five scan modes, the long jump, the front panel, the trigger before arming, a recording \
         and a load"
    );
    for example in examples {
        example.has_stored("lines", &printed(&example.trace));
    }
}

#[test]
fn each_recording_replays_as_is_stored() {
    let mut recordings = examples();
    recordings.retain(Example::is_recording);
    assert!(!recordings.is_empty(), "no recording among the examples");
    for example in recordings {
        example.has_stored("replayed", &replayed(&example.trace));
    }
}
