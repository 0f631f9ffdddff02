//! The header, the archive and the proved sources name the same functions, with the same parameters.

use std::collections::{BTreeMap, BTreeSet};

fn exported() -> BTreeSet<String> {
    let bytes = std::fs::read(claspotter_harness::ARCHIVE).expect("the archive");
    let names = claspotter_harness::archive::symbols(&bytes).expect("the archive's list of symbols");
    names.into_iter().filter(|name| name.starts_with("claspotter_")).collect()
}

/// Leaves comments and the preprocessor's lines out.
fn code(header: &str) -> String {
    let mut text = String::new();
    let mut rest = header;
    while let Some(begin) = rest.find("/*") {
        text += &rest[..begin];
        rest = rest[begin..].find("*/").map_or("", |end| &rest[begin + end + 2..]);
    }
    text += rest;
    let lines = text.lines().map(|line| line.split("//").next().unwrap());
    lines.filter(|line| !line.starts_with('#')).map(|line| line.to_string() + "\n").collect()
}

/// The parameters of each function that is declared: a type and a name to each. A function that has a body is the header's own, and is none
/// of the archive's.
fn declared(header: &str) -> BTreeMap<String, Vec<String>> {
    let text = code(header);
    let functions = text.match_indices("claspotter_").filter_map(|(at, _)| {
        let name: String = text[at..].chars().take_while(|c| c.is_ascii_alphanumeric() || *c == '_').collect();
        let (list, behind) = text[at + name.len()..].trim_start().strip_prefix('(')?.split_once(')')?;
        let words = |one: &str| one.split_whitespace().collect::<Vec<_>>().join(" ");
        let list = list.split(',').map(words).filter(|one| one != "void").collect();
        behind.trim_start().starts_with(';').then_some((name, list))
    });
    functions.collect()
}

/// The functions that a crate exports, with the parameters as C has them: a slice is a pointer and a length.
fn proved(source: &str, width: &str) -> BTreeMap<String, Vec<String>> {
    let c_type = |name: &str| {
        let name = if name == "Sample" { format!("u{width}") } else { name.to_string() };
        match name.as_str() {
            "usize" => "size_t".to_string(),
            "bool" => "bool".to_string(),
            "f64" => "double".to_string(),
            _ if name.starts_with('i') => format!("int{}_t", &name[1..]),
            _ => format!("uint{}_t", &name[1..]),
        }
    };
    let parameter = |one: &str| {
        let (name, of) = one.trim().split_once(": ").expect("a name and a type");
        match (of.strip_prefix("&mut "), of.strip_prefix('&')) {
            (Some(lent), _) | (None, Some(lent)) => {
                let read = if of.starts_with("&mut ") { "" } else { "const " };
                match lent.strip_prefix('[').and_then(|lent| lent.strip_suffix(']')) {
                    Some(entry) => vec![format!("{read}{} *{name}", c_type(entry)), format!("size_t {name}_len")],
                    None => vec![format!("{read}{} *{name}", c_type(lent))],
                }
            }
            _ => vec![format!("{} {name}", c_type(of))],
        }
    };
    let functions = source.split("pub extern \"C\" fn ").skip(1).map(|rest| {
        let (name, rest) = rest.split_once('(').expect("parameters");
        let (list, behind) = rest.split_once(')').expect("an end of the parameters");
        assert!(behind.starts_with(" -> u32"), "{name} answers a number of 32 bits");
        (name.to_string(), list.split(',').filter(|one| !one.trim().is_empty()).flat_map(parameter).collect())
    });
    functions.collect()
}

fn header() -> String {
    std::fs::read_to_string(claspotter_harness::HEADER).expect(claspotter_harness::HEADER)
}

#[test]
fn the_header_and_the_archive_agree() {
    assert_eq!(declared(&header()).into_keys().collect::<BTreeSet<_>>(), exported());
}

#[test]
fn the_header_and_the_proved_sources_agree() {
    let mut all = BTreeMap::new();
    for end in ["8", "16", "32", "record", "version"] {
        let path = format!("{}/crates/boundary_{end}/src/lib.rt", env!("CLASPOTTER_REPOSITORY"));
        all.extend(proved(&std::fs::read_to_string(&path).expect(&path), end));
    }
    let declared = declared(&header());
    for (name, list) in &all {
        assert_eq!(declared.get(name), Some(list), "{name}");
    }
    assert_eq!(declared.len(), all.len());
}

#[test]
fn declarations_are_told_from_comments() {
    let header = "/* claspotter_a( */ uint32_t claspotter_b(int x,\n  const int *y); // claspotter_c(\nint claspotter_d (void);\n\
        #define claspotter_e(x);\nstatic int claspotter_f(int x) { return x; }";
    let expected = [("claspotter_b", vec!["int x", "const int *y"]), ("claspotter_d", vec![])];
    let expected: Vec<(String, Vec<String>)> =
        expected.into_iter().map(|(name, list)| (name.into(), list.into_iter().map(String::from).collect())).collect();
    assert_eq!(declared(header).into_iter().collect::<Vec<_>>(), expected);
}

#[test]
fn sources_are_told_in_the_words_of_c() {
    let source = "pub extern \"C\" fn f(a: usize, b: &[i32], c: &mut [Sample], d: &mut i64, e: f64, g: bool) -> u32";
    let expected =
        ["size_t a", "const int32_t *b", "size_t b_len", "uint16_t *c", "size_t c_len", "int64_t *d", "double e", "bool g"];
    assert_eq!(proved(source, "16")["f"], expected);
}

/// Only what is meant for others is exported.
#[test]
fn every_exported_name_begins_alike() {
    let bytes = std::fs::read(claspotter_harness::ARCHIVE).expect("the archive");
    let names = claspotter_harness::archive::symbols(&bytes).expect("the archive's list of symbols");
    let others: Vec<_> = names.iter().filter(|name| !name.starts_with("claspotter_")).collect();
    assert!(others.is_empty(), "{others:?}");
}
