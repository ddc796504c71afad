//! Each constant and each macro of `include/pmc330.h` is what this program has (`src/judge/figures.rs`). The names are
//! taken from the header's text, so that one without a figure is noticed, and its values from the C compiler.

use checker::judge::figures::{figures, Figure, Named};
use std::collections::{BTreeMap, BTreeSet};
use std::fs;
use std::path::{Path, PathBuf};
use std::process::Command;

const MOST: u32 = u32::MAX;

fn header() -> PathBuf {
    Path::new(env!("CARGO_MANIFEST_DIR")).join("../include/pmc330.h")
}

/// The header without its comments, and with each directive on one line.
fn text() -> String {
    let text = fs::read_to_string(header()).expect("the header");
    let mut parts = text.split("/*");
    let mut kept = parts.next().expect("a first part").to_string();
    for part in parts {
        let (_, rest) = part.split_once("*/").expect("the end of a comment");
        kept.push_str(rest);
    }
    assert!(!kept.contains("//"), "a comment that is not taken away");
    kept.replace("\\\n", " ")
}

/// Each name that the header defines, and how many arguments it takes.
fn defined(text: &str) -> BTreeMap<String, usize> {
    let mut defined = BTreeMap::new();
    let directives = text.lines().filter_map(|it| it.trim().strip_prefix('#'));
    for rest in directives.filter_map(|it| it.trim().strip_prefix("define")) {
        let rest = rest.trim();
        let end = rest.find(|c: char| c != '_' && !c.is_ascii_alphanumeric());
        let (name, body) = rest.split_at(end.unwrap_or(rest.len()));
        let arguments = match body.strip_prefix('(') {
            Some(body) => body.split(')').next().expect("a part").split(',').count(),
            None => 0,
        };
        // What the header is known by when it is read twice has no value.
        if name != "PMC330_H" {
            assert_eq!(
                defined.insert(name.to_string(), arguments),
                None,
                "{name} twice"
            );
        }
    }
    defined
}

/// One more name, or one fewer, is noticed: each has a figure, with as many arguments, and each figure has a name.
#[test]
fn every_name_has_a_figure() {
    let of_figures: BTreeSet<(String, usize)> = figures()
        .into_iter()
        .map(|named| (named.name.to_string(), named.arguments.len()))
        .collect();
    let of_header: BTreeSet<(String, usize)> = defined(&text()).into_iter().collect();
    let without: Vec<_> = of_header.difference(&of_figures).collect();
    assert!(
        without.is_empty(),
        "in the header, with no figure: {without:?}"
    );
    let gone: Vec<_> = of_figures.difference(&of_header).collect();
    assert!(gone.is_empty(), "a figure, but not in the header: {gone:?}");
}

/// A constant that is no macro would have no figure.
#[test]
fn every_constant_is_a_macro() {
    for word in text().split(|c: char| !c.is_ascii_graphic()) {
        assert!(word != "enum" && word != "=", "{word} in the header");
    }
}

/// An argument, as it is and as expressions that go wrong where a macro does not put it in parentheses.
fn spelled(argument: u64) -> [String; 4] {
    let is_wide = argument > MOST.into();
    let suffix = if is_wide { "ULL" } else { "U" };
    let number = |n: u64| format!("{n}{suffix}");
    let (half, rest) = (number(argument / 2), number(argument - argument / 2));
    let (this, other) = (number(argument), number(argument ^ 1));
    [
        this.clone(),
        format!("{half} + {rest}"),
        format!("1 ? {this} : {other}"),
        format!("0 ? {other} : {this}"),
    ]
}

/// The expressions in C that have the figure: one for a constant; of a macro, each argument in each of its spellings.
fn expressions(named: &Named) -> Vec<String> {
    if named.arguments.is_empty() {
        return vec![named.name.to_string()];
    }
    let plain: Vec<String> = named
        .arguments
        .iter()
        .map(|it| spelled(*it)[0].clone())
        .collect();
    let mut lists = vec![plain.clone()];
    for (place, argument) in named.arguments.iter().enumerate() {
        for spelling in &spelled(*argument)[1..] {
            let mut list = plain.clone();
            list[place] = spelling.clone();
            lists.push(list);
        }
    }
    lists
        .iter()
        .map(|list| format!("{}({})", named.name, list.join(", ")))
        .collect()
}

/// A line that the program in C prints of this expression, and the line expected. Where something is divided by the
/// expression, it goes wrong if its macro is not in parentheses itself.
fn lines(expression: &str, figure: Figure) -> Vec<(String, String)> {
    let shown = |expression: &str, line: String| (format!("SHOW({expression})"), line);
    let divided = format!("({expression}) == 0 ? 0U : {MOST}U / {expression}");
    match figure {
        Figure::Unsigned(0) => vec![shown(expression, "unsigned 0".to_string())],
        Figure::Unsigned(n) => vec![
            shown(expression, format!("unsigned {n}")),
            shown(&divided, format!("unsigned {}", MOST / n)),
        ],
        Figure::Size(n) => vec![
            shown(expression, format!("size {n}")),
            shown(&divided, format!("size {}", u64::from(MOST) / n)),
        ],
        Figure::Signed(n) => vec![shown(expression, format!("signed {n}"))],
        Figure::Text(text) => {
            let line = format!("text {text}, {} bytes", text.len() + 1);
            vec![(format!("SHOW_TEXT({expression})"), line)]
        }
    }
}

/// What a program in C with these statements prints.
fn printed(statements: &[&str]) -> String {
    let source = format!(
        "#include <stdio.h>\n#include \"pmc330.h\"\n\
         #define TYPE(e) _Generic((e), unsigned: \"unsigned\", int: \"signed\", size_t: \"size\", default: \"other\")\n\
         #define SHOW(e) printf(\"%s %lld\\n\", TYPE(e), (long long)(e));\n\
         #define SHOW_TEXT(e) printf(\"text %s, %d bytes\\n\", e, (int)sizeof e);\n\
         int main(void) {{\n{}\nreturn 0;\n}}\n",
        statements.join("\n")
    );
    let folder = Path::new(env!("CARGO_TARGET_TMPDIR"));
    let [file, program] = ["header.c", "header"].map(|name| folder.join(name));
    fs::write(&file, source).expect("the source is written");
    let mut cc = Command::new("cc");
    cc.args(["-std=c11", "-w", "-I"])
        .arg(header().parent().expect("include/"));
    cc.arg(&file).arg("-o").arg(&program);
    assert!(
        cc.status().expect("cc runs").success(),
        "cc: {}",
        file.display()
    );
    let output = Command::new(&program).output().expect("the program runs");
    assert!(output.status.success());
    String::from_utf8(output.stdout).expect("a text")
}

#[test]
fn every_name_is_its_figure() {
    let mut expected = Vec::new();
    for named in figures() {
        for expression in expressions(&named) {
            expected.extend(lines(&expression, named.figure));
        }
    }
    let statements: Vec<&str> = expected
        .iter()
        .map(|(statement, _)| statement.as_str())
        .collect();
    let printed = printed(&statements);
    let printed: Vec<&str> = printed.lines().collect();
    assert_eq!(printed.len(), expected.len());
    let mut wrong = Vec::new();
    for (line, (statement, figure)) in printed.iter().zip(&expected) {
        if line != figure {
            wrong.push(format!("{statement} is {line}, expected {figure}"));
        }
    }
    assert!(
        wrong.is_empty(),
        "{} wrong, as\n{}",
        wrong.len(),
        wrong[..wrong.len().min(20)].join("\n")
    );
}

/// What the header declares, as this program calls it (`src/archive/`): a field or a function of another type would be
/// called all the same.
const DECLARATIONS: [&str; 41] = [
    "typedef struct pmc330_board { int32_t inputs[32]",
    "uint32_t lead",
    "uint32_t lag",
    "uint16_t codes[32]",
    "uint16_t control",
    "uint16_t timer",
    "uint16_t taken",
    "uint8_t gains[32]",
    "uint8_t unread[32]",
    "uint8_t range",
    "uint8_t prescaler",
    "uint8_t start",
    "uint8_t end",
    "uint8_t enable",
    "uint8_t pending",
    "uint8_t running",
    "uint8_t waiting",
    "uint8_t slot",
    "uint8_t ends",
    "uint8_t index",
    "uint8_t odd",
    "uint16_t spare",
    "} pmc330_board",
    "typedef char pmc330_board_has_284_bytes[sizeof(pmc330_board) == 284 ? 1 : -1]",
    "uint64_t pmc330_open(pmc330_board *board, uint32_t range)",
    "uint64_t pmc330_read(pmc330_board *board, uint32_t width, uint32_t offset)",
    "uint64_t pmc330_write(pmc330_board *board, uint32_t width, uint32_t offset, uint32_t value)",
    "uint64_t pmc330_input(pmc330_board *board, uint32_t channel, int32_t microvolts)",
    "uint64_t pmc330_advance(pmc330_board *board, uint32_t ticks)",
    "uint64_t pmc330_trigger(pmc330_board *board)",
    "uint64_t pmc330_reset(pmc330_board *board)",
    "uint64_t pmc330_look(const pmc330_board *board, uint32_t slot)",
    "uint64_t pmc330_clear(pmc330_board *board, uint32_t slot)",
    "uint32_t pmc330_line(const pmc330_board *board)",
    "uint32_t pmc330_next_store(const pmc330_board *board)",
    "uint64_t pmc330_corrected(uint32_t range, uint32_t gain, uint32_t high, uint32_t low, uint32_t high_sum, \
     uint32_t low_sum, uint32_t raw)",
    "uint32_t pmc330_code(uint32_t range, uint32_t gain, int32_t microvolts)",
    "uint64_t pmc330_window(uint32_t length, const uint16_t *codes, size_t codes_len, uint32_t *sums, \
     size_t sums_len)",
    "uint64_t pmc330_play(const uint8_t *trace, size_t trace_len, uint8_t *answers, size_t answers_len)",
    "uint64_t pmc330_replay(const uint8_t *trace, size_t trace_len)",
    "uint64_t pmc330_load(uint32_t seed, uint32_t range, uint32_t calls, uint8_t *trace, size_t trace_len)",
];

#[test]
fn declarations_are_those_that_are_called() {
    let text = text();
    let lines = text
        .lines()
        .filter(|it| !it.starts_with('#') && *it != "extern \"C\" {");
    let words: Vec<&str> = lines.flat_map(str::split_whitespace).collect();
    let words = words.join(" ");
    let mut found: Vec<&str> = words.split(';').map(str::trim).collect();
    assert_eq!(found.pop(), Some("}"), "the end of extern \"C\"");
    assert_eq!(found, DECLARATIONS);
}
