//! What no proof covers: that the declarations of src/ffi.rs and bindings/c/ac3core.h are those of the proved source,
//! and that numbers, names and words agree. The files are read as text.
use std::collections::BTreeMap;
use std::fs;
use std::path::PathBuf;

use ac3core::Refusal;

fn repository(path: &str) -> PathBuf {
    PathBuf::from(env!("CARGO_MANIFEST_DIR")).join("../..").join(path)
}

fn text(path: &str) -> String {
    let path = repository(path);
    fs::read_to_string(&path).unwrap_or_else(|error| panic!("{}: {error}", path.display()))
}

/// Each entry's parameters, as name and type in the words of the extern block; the length after a pointer has no name.
type Entries = BTreeMap<String, Vec<(String, String)>>;

/// What stands between `opening`, a name and its parameters in parentheses, all through a text.
fn functions<'a>(text: &'a str, opening: &'a str) -> impl Iterator<Item = (String, Vec<String>)> + 'a {
    text.match_indices(opening).filter_map(move |(at, _)| {
        let (name, rest) = text[at + opening.len()..].split_once('(')?;
        let (parameters, _) = rest.split_once(')')?;
        let words = |parameter: &str| parameter.split_whitespace().collect::<Vec<_>>().join(" ");
        let parameters = parameters.split(',').map(words).filter(|parameter| !parameter.is_empty()).collect();
        name.starts_with("ac3_").then(|| (name.to_string(), parameters))
    })
}

/// A parameter `name: type`.
fn named(parameter: &str) -> (String, String) {
    let (name, kind) = parameter.split_once(": ").unwrap_or_else(|| panic!("a parameter without a type: {parameter}"));
    (name.to_string(), kind.to_string())
}

/// Lengths lose their names, which say nothing.
fn without_length_names(mut parameters: Vec<(String, String)>) -> Vec<(String, String)> {
    for i in 1..parameters.len() {
        if parameters[i - 1].1.starts_with('*') {
            parameters[i].0.clear();
        }
    }
    parameters
}

/// The proved source: a slice is handed over as its pointer and its length.
fn of_source() -> Entries {
    let mut entries = Entries::new();
    for file in fs::read_dir(repository("crates/host/src")).unwrap() {
        let source = fs::read_to_string(file.unwrap().path()).unwrap();
        for (entry, parameters) in functions(&source, "pub extern \"C\" fn ") {
            let mut handed_over = Vec::new();
            for (name, kind) in parameters.iter().map(|parameter| named(parameter)) {
                match kind.strip_suffix(']') {
                    None => handed_over.push((name, kind)),
                    Some(slice) => {
                        let pointer = slice.replace("&mut [", "*mut ").replace("&[", "*const ");
                        handed_over.extend([(name, pointer), (String::new(), "usize".to_string())]);
                    }
                }
            }
            entries.insert(entry, handed_over);
        }
    }
    entries
}

fn of_crate() -> Entries {
    functions(&text("bindings/rust/src/ffi.rs"), "pub fn ")
        .map(|(entry, parameters)| (entry, without_length_names(parameters.iter().map(|p| named(p)).collect())))
        .collect()
}

/// A parameter of the header, its type said in Rust's words.
fn of_c(parameter: &str) -> (String, String) {
    let (kind, name) = parameter.rsplit_once(' ').unwrap();
    let (pointer, element) = match kind.strip_prefix("const ") {
        Some(element) => ("*const ", element),
        None => ("*mut ", kind),
    };
    let element = match element {
        "uint8_t" => "u8",
        "uint16_t" => "u16",
        "uint32_t" => "u32",
        "float" => "f32",
        "size_t" => "usize",
        other => panic!("{other} in {parameter}"),
    };
    match name.strip_prefix('*') {
        Some(name) => (name.to_string(), format!("{pointer}{element}")),
        None => (name.to_string(), element.to_string()),
    }
}

fn of_header() -> Entries {
    functions(&text("bindings/c/ac3core.h"), "\nuint32_t ")
        .map(|(entry, parameters)| (entry, without_length_names(parameters.iter().map(|p| of_c(p)).collect())))
        .collect()
}

#[test]
fn declarations_are_those_of_the_proved_source() {
    let source = of_source();
    assert_eq!(source.len(), 20);
    assert_eq!(of_crate(), source, "src/ffi.rs and crates/host/src");
    assert_eq!(of_header(), source, "bindings/c/ac3core.h and crates/host/src");
}

/// `NoRoom` as NO_ROOM.
fn constant(refusal: Refusal) -> String {
    let mut name = String::new();
    for letter in format!("{refusal:?}").chars() {
        if letter.is_uppercase() && !name.is_empty() {
            name.push('_');
        }
        name.push(letter.to_ascii_uppercase());
    }
    name
}

#[test]
fn numbers_are_those_of_the_proved_source() {
    let source = text("crates/bits/src/refusal.rt");
    let header = text("bindings/c/ac3core.h");
    for &refusal in Refusal::ALL {
        let (name, number) = (constant(refusal), refusal.number());
        assert!(source.contains(&format!("Refusal::{refusal:?} => {number},")), "{refusal:?} in crates/bits/src/refusal.rt");
        assert!(header.contains(&format!("    AC3_{name} = {number}")), "{name} in bindings/c/ac3core.h");
    }
    assert_eq!(source.matches("Refusal::").count(), Refusal::ALL.len());
    assert!(header.contains("#define AC3_LONGEST_BODY(channels) ((size_t)3480 * (size_t)(channels))"));
}

#[test]
fn words_are_the_same_in_header_and_readme() {
    let header = text("bindings/c/ac3core.h");
    let readme = text("bindings/README.md");
    for &refusal in Refusal::ALL {
        let case = format!("case AC3_{}: return \"{}\";", constant(refusal), refusal.cause());
        assert!(header.contains(&case), "{case}");
        let row = format!("| {} | `{refusal:?}` | {} |", refusal.number(), refusal.cause());
        assert!(readme.contains(&row), "{row}");
    }
}
