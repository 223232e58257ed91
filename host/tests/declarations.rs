//! What this crate and the C header declare is what the crates export: the same functions, with the same parameters by kind, name
//! and order.

/// The sources of the exports.
const SOURCES: [&str; 7] = [
    include_str!("../../crates/host_calls/src/lib.rt"),
    include_str!("../../crates/place_tables/src/lib.rt"),
    include_str!("../../crates/place_calls/src/lib.rt"),
    include_str!("../../crates/place_vacuum/src/lib.rt"),
    include_str!("../../crates/place_snapshots/src/lib.rt"),
    include_str!("../../crates/place_pins/src/lib.rt"),
    include_str!("../../crates/place_batch/src/lib.rt"),
];

/// A function's name, and of each parameter its name and kind: 'n' for a number, 's' for a short one, 'b' for bytes, 'w' for words,
/// 'm' for words that are written, 'c' for bytes that are, 'p' for versions, 'l' for a length.
type Declared = (String, Vec<(String, char)>);

/// The texts between the parentheses that follow `start`, each with the name before them.
fn functions(text: &str, start: &str) -> Vec<(String, String)> {
    let found = text.split(start).skip(1);
    found
        .map(|rest| {
            let (name, rest) = rest.split_once('(').expect("a name and its parameters");
            let (parameters, _) = rest.split_once(')').expect("parameters have an end");
            (name.trim().to_string(), parameters.to_string())
        })
        .collect()
}

fn sorted(mut all: Vec<Declared>) -> Vec<Declared> {
    all.sort();
    all
}

/// `name: type`, as Rattle and Rust write it; a slice of an export is two parameters outside.
fn of_rust(text: &str, start: &str) -> Vec<Declared> {
    let parameters = |list: String| {
        let written = list.split(',').filter(|part| !part.trim().is_empty());
        written
            .flat_map(|part| {
                let (name, kind) = part.split_once(':').expect("a parameter has a type");
                let name = name.trim().to_string();
                match kind.trim() {
                    "u64" => vec![(name, 'n')],
                    "u16" => vec![(name, 's')],
                    "&[u64]" => vec![(name.clone(), 'w'), (name + "_len", 'l')],
                    "&mut [u64]" => vec![(name.clone(), 'm'), (name + "_len", 'l')],
                    "*const u64" => vec![(name, 'w')],
                    "*mut u64" => vec![(name, 'm')],
                    "&[u8]" => vec![(name.clone(), 'b'), (name + "_len", 'l')],
                    "*const u8" => vec![(name, 'b')],
                    "&mut [u8]" => vec![(name.clone(), 'c'), (name + "_len", 'l')],
                    "*mut u8" => vec![(name, 'c')],
                    "&[[u64; 2]]" => vec![(name.clone(), 'p'), (name + "_len", 'l')],
                    "*const [u64; 2]" => vec![(name, 'p')],
                    "usize" => vec![(name, 'l')],
                    other => panic!("{name} has the type {other}"),
                }
            })
            .collect()
    };
    let all = functions(text, start).into_iter();
    sorted(all.map(|(name, list)| (name, parameters(list))).collect())
}

/// `type name`, as C writes it.
fn of_c(text: &str) -> Vec<Declared> {
    let parameter = |part: &str| {
        let part = part.trim();
        let kinds = [
            ("uint64_t *", 'm'),
            ("const uint64_t *", 'w'),
            ("uint64_t ", 'n'),
            ("uint16_t ", 's'),
            ("const uint8_t *", 'b'),
            ("uint8_t *", 'c'),
            ("const struct sockhurdle_version *", 'p'),
            ("size_t ", 'l'),
        ];
        let found = kinds.iter().find_map(|(kind, letter)| {
            let name = part.strip_prefix(kind)?;
            Some((name.to_string(), *letter))
        });
        found.unwrap_or_else(|| panic!("the parameter {part}"))
    };
    let all = ["\nuint64_t ", "\nsize_t "].map(|start| functions(text, start));
    let named = |(name, list): (String, String)| {
        let list = list.split(',').filter(|part| *part != "void");
        (name, list.map(parameter).collect())
    };
    sorted(all.into_iter().flatten().map(named).collect())
}

#[test]
fn the_declarations_are_the_exports() {
    let start = "pub extern \"C\" fn ";
    let exports = sorted(
        SOURCES
            .iter()
            .flat_map(|text| of_rust(text, start))
            .collect(),
    );
    assert!(!exports.is_empty());
    let raw = include_str!("../src/raw.rs").replace("pub safe fn ", "pub fn ");
    assert_eq!(of_rust(&raw, "pub fn "), exports);
    assert_eq!(of_c(include_str!("../sockhurdle_host.h")), exports);
}

/// What stands behind the arrow of each function, by name.
fn answers(text: &str, start: &str, end: [char; 2]) -> Vec<(String, String)> {
    let found = text.split(start).skip(1);
    let mut all: Vec<_> = found
        .map(|rest| {
            let (name, rest) = rest.split_once('(').expect("a name");
            let (_, rest) = rest.split_once("->").expect("an answer");
            let kind = rest.split(end).next().expect("its type");
            (name.to_string(), kind.trim().to_string())
        })
        .collect();
    all.sort();
    all
}

#[test]
fn the_declarations_answer_as_the_exports() {
    let exports = SOURCES.iter();
    let exports = exports.flat_map(|text| answers(text, "pub extern \"C\" fn ", ['\n', '{']));
    let mut exports: Vec<_> = exports.collect();
    exports.sort();
    let raw = include_str!("../src/raw.rs").replace("pub safe fn ", "pub fn ");
    assert_eq!(answers(&raw, "pub fn ", [';', ';']), exports);
    // the header has no arrow: a number of 64 bits, but for the count of words
    let header = include_str!("../sockhurdle_host.h");
    for (name, kind) in exports {
        let c = if kind == "usize" {
            "size_t"
        } else {
            "uint64_t"
        };
        assert!(header.contains(&format!("\n{c} {name}(")), "{name}");
    }
}
