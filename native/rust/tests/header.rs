//! What this crate declares is what the C header declares: the linker compares names alone.

use hillgauze::Refusal;
use std::collections::BTreeMap;

const HEADER: &str = include_str!("../../include/hillgauze.h");
const PAGE: &str = include_str!("../../../docs/NATIVE.md");
const RAW: &str = include_str!("../src/raw.rs");
const REPLY: &str = include_str!("../src/reply.rs");

/// A parameter or a field of the header, as Rust declares it.
fn in_rust(declaration: &str) -> String {
    let declaration = declaration.trim();
    let name = declaration.rfind([' ', '*']).expect("a type and a name") + 1;
    let (kind, name) = declaration.split_at(name);
    let kind = match kind.trim() {
        "uint32_t" => "u32",
        "uint64_t" => "u64",
        "size_t" => "usize",
        "const uint64_t *" => "*const u64",
        "uint64_t *" => "*mut u64",
        "const hillgauze_config *" => "*const RawConfig",
        "hillgauze_shared *" => "*mut Shared",
        "hillgauze_sequencer *" => "*mut Sequencer",
        "hillgauze_reader *" => "*mut Reader",
        "hillgauze_state *" => "*mut State",
        "hillgauze_collector *" => "*mut Collector",
        other => panic!("a type of the header: {other}"),
    };
    format!("{name}: {kind}")
}

/// The text from `start` up to the next `end`.
fn between<'a>(text: &'a str, start: &str, end: &str) -> &'a str {
    let (_, rest) = text.split_once(start).unwrap_or_else(|| panic!("{start}"));
    rest.split_once(end).expect(end).0
}

/// The functions that are declared after these words, with the text of their parameters.
fn functions<'a>(text: &'a str, words: &'a str) -> impl Iterator<Item = (&'a str, Vec<&'a str>)> {
    text.split(words).skip(1).map(|rest| {
        let (name, rest) = rest.split_once('(').expect("parameters");
        let parameters = rest.split_once(')').expect("their end").0.split(',');
        let parameters = parameters
            .map(str::trim)
            .filter(|parameter| !parameter.is_empty());
        (name, parameters.collect())
    })
}

#[test]
fn functions_have_the_same_parameters() {
    let header: BTreeMap<&str, Vec<String>> = functions(HEADER, "\nhillgauze_reply hillgauze_")
        .map(|(name, parameters)| (name, parameters.into_iter().map(in_rust).collect()))
        .collect();
    let declared: BTreeMap<&str, Vec<String>> = functions(RAW, "pub(crate) fn hillgauze_")
        .map(|(name, parameters)| (name, parameters.into_iter().map(str::to_string).collect()))
        .collect();
    assert!(!header.is_empty());
    assert_eq!(declared, header);
}

#[test]
fn structs_have_the_same_fields() {
    for (name, text) in [
        ("config", between(RAW, "struct RawConfig {", "}")),
        ("reply", between(REPLY, "struct Reply {", "}")),
    ] {
        let header = between(HEADER, &format!("typedef struct hillgauze_{name} {{"), "}");
        let header: Vec<String> = header
            .lines()
            .filter_map(|line| line.split_once(';'))
            .map(|(field, _)| in_rust(field))
            .collect();
        let declared: Vec<&str> = text
            .split(',')
            .map(str::trim)
            .filter(|field| !field.is_empty())
            .collect();
        assert_eq!(declared, header, "{name}");
    }
}

/// The words of a text, without what marks a line of a comment or code.
fn words(text: &str) -> Vec<String> {
    let words = text.split_whitespace().filter(|word| *word != "*");
    words
        .map(|word| word.replace('`', "").replace("HILLGAUZE_", ""))
        .collect()
}

#[test]
fn the_page_says_of_order_what_the_header_says() {
    let header = between(
        HEADER,
        " * Order between threads. ",
        " * Where all of this holds",
    );
    let page = between(
        PAGE,
        "The head of the header says this in the same words.",
        "So a value may be",
    );
    assert!(header.contains("happens"));
    assert_eq!(words(page), words(header));
}

/// The numbers of an enum of the header, by their names.
fn numbers(name: &str) -> BTreeMap<String, u32> {
    let text = between(HEADER, &format!("enum hillgauze_{name} {{"), "};");
    let lines = text
        .lines()
        .filter_map(|line| line.trim().strip_prefix("HILLGAUZE_"));
    let pairs = lines.map(|line| line.split_once(" = ").expect("a number"));
    pairs
        .map(|(name, rest)| {
            let digits: String = rest.chars().take_while(char::is_ascii_digit).collect();
            (name.to_string(), digits.parse().expect("a number"))
        })
        .collect()
}

#[test]
fn kinds_have_the_same_numbers() {
    let constants = REPLY.lines().filter_map(|line| line.strip_prefix("const "));
    let declared: BTreeMap<String, u32> = constants
        .map(|constant| {
            let (name, number) = constant.split_once(": u32 = ").expect("a number");
            (
                name.to_string(),
                number.trim_end_matches(';').parse().expect("a number"),
            )
        })
        .collect();
    assert_eq!(declared, numbers("kind"));
}

/// `TooLarge` as `TOO_LARGE`.
fn in_capitals(name: &str) -> String {
    let mut capitals = String::new();
    for letter in name.chars() {
        if letter.is_uppercase() && !capitals.is_empty() {
            capitals.push('_');
        }
        capitals.push(letter.to_ascii_uppercase());
    }
    capitals
}

/// Those of the header from 101 on say that a handle isn't what it should be, which the types rule out.
#[test]
fn refusals_have_the_same_numbers() {
    let refusals = [
        Refusal::TooLarge,
        Refusal::PolicyNeedsBuffer,
        Refusal::BadLimit,
        Refusal::NoMemory,
        Refusal::SubscribersFull,
        Refusal::EmitsFull,
        Refusal::Spent,
        Refusal::PreludeTooLong,
    ];
    let declared: BTreeMap<String, u32> = refusals
        .map(|refusal| {
            (
                in_capitals(&format!("{refusal:?}")),
                u32::from(refusal.number()),
            )
        })
        .into();
    let mut header = numbers("refusal");
    header.retain(|_, number| *number <= 100);
    assert_eq!(declared, header);
}

/// The header, the crate and what is packed have one version.
#[test]
fn the_versions_are_one() {
    let defined = |name: &str| between(HEADER, &format!("#define HILLGAUZE_VERSION{name} "), "\n");
    let version = env!("CARGO_PKG_VERSION");
    assert_eq!(defined(""), format!("\"{version}\""));
    let numbers = ["_MAJOR", "_MINOR", "_PATCH"].map(defined);
    assert_eq!(numbers.join("."), version);
}
