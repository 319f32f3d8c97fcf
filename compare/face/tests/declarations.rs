//! The declarations in `src/ffi.rs`, `src/values.rs` and `include/kospelna.h` are those of the crates: the structs of
//! `crates/kospelna/src/` and `crates/kospelna_summary/src/`, with the same fields, and the functions that `crates/kospelna_c/src/`
//! and `crates/kospelna_summary_c/src/` export, with the same parameters and results, by name, type and order; and the same
//! numbers of a receiver's misses, by name.

use std::collections::BTreeMap;
use std::path::Path;

/// Names with their types, in order.
type Named = Vec<(String, String)>;
type Structs = BTreeMap<String, Named>;
/// Parameters and result.
type Functions = BTreeMap<String, (Named, String)>;
/// Constants by their names.
type Numbers = BTreeMap<String, u8>;

fn text(folder: &str, ending: &str) -> String {
    let folder = Path::new(env!("CARGO_MANIFEST_DIR")).join(folder);
    let mut files: Vec<_> = std::fs::read_dir(&folder)
        .unwrap_or_else(|problem| panic!("{}: {problem}", folder.display()))
        .map(|entry| entry.unwrap().path())
        .filter(|path| path.extension().is_some_and(|found| found == ending))
        .collect();
    files.sort();
    let text: Vec<String> = files
        .iter()
        .map(|path| std::fs::read_to_string(path).unwrap())
        .collect();
    text.concat()
}

/// The text between two words, after each place where the first stands.
fn after<'a>(text: &'a str, first: &str, last: char) -> Vec<&'a str> {
    text.split(first)
        .skip(1)
        .filter_map(|rest| rest.split(last).next())
        .collect()
}

fn words(text: &str) -> String {
    text.split_whitespace().collect::<Vec<_>>().join(" ")
}

/// `name: type` parts, divided by commas.
fn parts(text: &str) -> Named {
    text.split(',')
        .map(words)
        .filter(|part| !part.is_empty())
        .map(|part| {
            let (name, kind) = part.split_once(':').expect("a name and a type");
            let name = name.trim().trim_start_matches("pub ").to_string();
            (name, kind.trim().to_string())
        })
        .collect()
}

/// The structs in C's layout.
fn structs(text: &str) -> Structs {
    after(text, "#[repr(C)]", '}')
        .into_iter()
        .map(|declared| {
            let (head, fields) = declared.split_once('{').expect("fields in braces");
            let name = head.rsplit(' ').find(|word| !word.trim().is_empty());
            (name.expect("a name").to_string(), parts(fields))
        })
        .collect()
}

/// The exported functions. A slice is a pointer of that name and a length.
fn functions(text: &str, before: &str) -> Functions {
    after(text, before, '{')
        .into_iter()
        .filter(|declared| declared.starts_with("kospelna_"))
        .map(|declared| {
            let (name, rest) = declared.split_once('(').expect("parameters");
            let (given, rest) = rest.split_once(')').expect("the parameters' end");
            let (_, result) = rest.split_once("->").expect("a result");
            let result = result.trim().split([';', '\n', ' ']).next();
            let given = parts(given)
                .into_iter()
                .flat_map(|(name, kind)| match kind.as_str() {
                    "&[u8]" => lent(name, "*const u8"),
                    "&mut [u8]" => lent(name, "*mut u8"),
                    _ => vec![(name, kind)],
                })
                .collect();
            (
                name.to_string(),
                (given, result.expect("a type").to_string()),
            )
        })
        .collect()
}

/// The counts stand beside a message, whose length is the `length`.
fn lent(name: String, pointer: &str) -> Named {
    let length = match name.as_str() {
        "counts" => "counts_length",
        _ => "length",
    };
    vec![
        (name, pointer.to_string()),
        (length.to_string(), "usize".to_string()),
    ]
}

/// `NoneAfterAck` is `NONE_AFTER_ACK`.
fn capitals(name: &str) -> String {
    let parted = name.chars().map(|letter| match letter {
        'A'..='Z' => format!("_{letter}"),
        _ => letter.to_uppercase().collect(),
    });
    parted.collect::<String>().trim_start_matches('_').into()
}

/// Names and numbers with this between them.
fn numbers(declared: Vec<&str>, between: &str) -> Numbers {
    let parts = declared
        .into_iter()
        .filter_map(|part| part.split_once(between));
    parts
        .map(|(name, number)| (name.to_string(), number.parse().expect("a number")))
        .collect()
}

/// The numbers of the cases of misses: each is written as its place in `pub enum Misses`, and read where a number is matched.
fn misses_of_the_crates(receiver: &str, face: &str) -> Numbers {
    let cases = words(after(receiver, "pub enum Misses {", '}')[0]);
    let cases = cases
        .split(',')
        .map(str::trim)
        .filter(|case| !case.is_empty());
    let written: Numbers = cases.map(capitals).zip(0..).collect();
    assert!(
        face.contains("x.misses as u8"),
        "a case is written as its place"
    );
    let reading = face.split("fn misses_from(").nth(1).expect("its reading");
    let reading = reading.split("\n}").next().unwrap().split(',');
    let arms: Vec<_> = reading
        .filter_map(|arm| arm.split_once(" => Misses::"))
        .collect();
    assert_eq!(arms.len(), written.len());
    for (number, case) in arms {
        let number = words(number).rsplit(' ').next().unwrap().to_string();
        let written = written[&capitals(case)].to_string();
        // What stands for no case is read as the first, which therefore needs no arm of its own.
        assert!(
            number == written || (number, written.as_str()) == ("_".to_string(), "0"),
            "{case}"
        );
    }
    written
}

/// What the crates declare.
fn declared_by_the_crates() -> (Structs, Functions, Numbers) {
    let crates = [
        "kospelna",
        "kospelna_c",
        "kospelna_summary",
        "kospelna_summary_c",
    ];
    let folders = crates.map(|name| format!("../../crates/{name}/src"));
    let text = folders.map(|folder| text(&folder, "rt")).concat();
    let functions = functions(&text, "pub extern \"C\" fn ");
    let receiver = self::text("../../crates/receiver/src", "rt");
    (
        structs(&text),
        functions,
        misses_of_the_crates(&receiver, &text),
    )
}

#[test]
fn declarations_are_those_of_the_crates() {
    let (structs_there, functions_there, misses_there) = declared_by_the_crates();
    assert_eq!((structs_there.len(), functions_there.len()), (26, 36));
    assert_eq!(misses_there.len(), 5);
    let here = text("src", "rs");
    assert_eq!(structs(&here), structs_there);
    let block = after(&here, "extern \"C\" {", '}')[0];
    // Each declaration ends in a semicolon: make it end as a function's head does.
    let heads = block.replace(';', " {");
    assert_eq!(functions(&heads, "fn "), functions_there);
    let constants = after(after(&here, "pub mod misses {", '}')[0], "pub const ", ';');
    assert_eq!(numbers(constants, ": u8 = "), misses_there);
}

fn header() -> String {
    let file = "../../include/kospelna.h";
    std::fs::read_to_string(Path::new(env!("CARGO_MANIFEST_DIR")).join(file)).unwrap()
}

/// A header without its comments and its lines for the preprocessor.
fn code(header: &str) -> String {
    let mut code = String::new();
    let mut rest = header;
    while let Some((before, comment)) = rest.split_once("/*") {
        code += before;
        rest = comment.split_once("*/").expect("a comment's end").1;
    }
    code += rest;
    code.lines()
        .filter(|line| !line.starts_with('#') && !line.starts_with("    ((uint32_t)"))
        .flat_map(|line| [line, "\n"])
        .collect()
}

/// What a type of the header is called in the crates: `kospelna_sender_made` is `FlatSenderMade`.
fn kind_of(word: &str) -> String {
    match word {
        "bool" => "bool".to_string(),
        "size_t" => "usize".to_string(),
        "uint8_t" => "u8".to_string(),
        "uint16_t" => "u16".to_string(),
        "uint32_t" => "u32".to_string(),
        other => {
            let name = other
                .strip_prefix("kospelna_")
                .unwrap_or_else(|| panic!("a type: {other}"));
            let capital = |part: &str| part[..1].to_uppercase() + &part[1..];
            name.split('_')
                .fold("Flat".to_string(), |flat, part| flat + &capital(part))
        }
    }
}

/// `type name`, `type name[8]`, `type *name` or `const type *name`.
fn declared_in_c(text: &str) -> (String, String) {
    let text = words(text);
    let (kind, name) = text.rsplit_once(' ').expect("a type and a name");
    if let Some(name) = name.strip_prefix('*') {
        let (constant, kind) = match kind.strip_prefix("const ") {
            Some(kind) => ("const", kind),
            None => ("mut", kind),
        };
        return (name.to_string(), format!("*{constant} {}", kind_of(kind)));
    }
    match name.trim_end_matches(']').split_once('[') {
        Some((name, count)) => (name.to_string(), format!("[{}; {count}]", kind_of(kind))),
        None => (name.to_string(), kind_of(kind)),
    }
}

fn structs_in_c(code: &str) -> Structs {
    code.split("typedef struct ")
        .skip(1)
        .map(|declared| {
            let (tag, rest) = declared.split_once('{').expect("fields in braces");
            let (fields, rest) = rest.split_once('}').expect("the fields' end");
            let name = rest.split(';').next().expect("a name").trim();
            assert_eq!(tag.trim(), name, "a struct and its type have one name");
            let fields = fields.split(';').filter(|field| !field.trim().is_empty());
            (kind_of(name), fields.map(declared_in_c).collect())
        })
        .collect()
}

fn functions_in_c(code: &str) -> Functions {
    code.split(';')
        .filter(|declared| declared.contains('('))
        .map(|declared| {
            let (head, rest) = declared.split_once('(').expect("parameters");
            let given = rest.split_once(')').expect("the parameters' end").0;
            let (name, result) = declared_in_c(head);
            let given = match given.trim() {
                "void" => Vec::new(),
                given => given.split(',').map(declared_in_c).collect(),
            };
            (name, (given, result))
        })
        .collect()
}

/// The names of which one side has another declaration, or none.
fn unlike<T: PartialEq>(there: BTreeMap<String, T>, here: BTreeMap<String, T>) -> Vec<String> {
    let names = there.keys().chain(here.keys());
    names
        .filter(|&name| there.get(name) != here.get(name))
        .cloned()
        .collect()
}

/// What differs between a header and the crates.
fn differences(header: &str) -> Vec<String> {
    let (structs, functions, misses) = declared_by_the_crates();
    let code = code(header);
    let constants = after(&code, "KOSPELNA_MISSES_", '\n');
    let named: Vec<&str> = constants
        .into_iter()
        .map(|constant| constant.trim_end_matches([',', ' ']))
        .collect();
    [
        unlike(structs, structs_in_c(&code)),
        unlike(functions, functions_in_c(&code)),
        unlike(misses, numbers(named, " = ")),
    ]
    .concat()
}

#[test]
fn the_header_is_that_of_the_crates() {
    assert_eq!(differences(&header()), Vec::<String>::new());
}

/// A field or parameter of another name, type or place, and one left out or added; a constant of another name or number, and
/// one left out or added.
const ALTERED: [(&str, &str); 24] = [
    ("uint8_t due;", "uint8_t next;"),
    ("    bool held; ", "    uint8_t held; "),
    (
        "kospelna_receiver_hold(kospelna_receiver receiver);",
        "kospelna_receiver_hold(kospelna_receiver_answer receiver);",
    ),
    ("uint16_t ticks;", "uint32_t ticks;"),
    ("    uint8_t p", "    uint8_t q"),
    (
        "uint16_t timeout, uint16_t window",
        "uint16_t window, uint16_t timeout",
    ),
    (
        "uint32_t length, uint32_t gap",
        "uint32_t gap, uint32_t length",
    ),
    ("uint8_t *buffer,", "const uint8_t *buffer,"),
    ("uint8_t *buffer,", "uint8_t *bytes,"),
    ("uint8_t bytes[8]; /* d0", "uint8_t bytes[7]; /* d0"),
    ("    uint8_t number;", "    uint16_t number;"),
    (
        "uint16_t count; /* how often it",
        "uint32_t count; /* how often it",
    ),
    (
        "kospelna_frame frame, uint8_t *counts,",
        "kospelna_frame frame, const uint8_t *counts,",
    ),
    (
        "uint8_t *counts, size_t counts_length);",
        "uint8_t *counts, size_t lent);",
    ),
    (
        "kospelna_summary_count(uint8_t number, const uint8_t *counts",
        "kospelna_summary_count(uint8_t number, uint8_t *counts",
    ),
    (
        "kospelna_count kospelna_summary_most(",
        "kospelna_count kospelna_summary_least(",
    ),
    ("    bool timing;", "    "),
    (
        "kospelna_group_row row;",
        "kospelna_group_row row; bool reliable;",
    ),
    (
        "kospelna_talker_answer kospelna_talker_stop(",
        "kospelna_talker kospelna_talker_stop(",
    ),
    (
        "uint32_t kospelna_charger_address(void);",
        "uint32_t kospelna_charger_addresses(void);",
    ),
    ("MISSES_NONE_AFTER_FRAME = 3", "MISSES_NONE_AFTER_FRAME = 5"),
    ("MISSES_ONE_AFTER_ACK = 1", "MISSES_ONCE_AFTER_ACK = 1"),
    ("    KOSPELNA_MISSES_TWO_AFTER_ACK = 2,", "    "),
    (
        "    KOSPELNA_MISSES_TWO_AFTER_ACK = 2,",
        "    KOSPELNA_MISSES_TWO_AFTER_ACK = 2,\n    KOSPELNA_MISSES_TWO_AFTER_FRAME = 5,",
    ),
];

#[test]
fn another_header_is_found() {
    let header = header();
    for (old, new) in ALTERED {
        assert!(header.contains(old), "{old}");
        let altered = header.replacen(old, new, 1);
        assert_ne!(differences(&altered), Vec::<String>::new(), "{new}");
    }
}
