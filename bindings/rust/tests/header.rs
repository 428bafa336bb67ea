//! The declarations of this crate are those of the header: each function, each struct, each status
//! and the order of each enumeration.

use curdmesa::{Category, Error, ItemKind, Reason, Repair};

const HEADER: &str = include_str!("../../c/curdmesa.h");
const SYS: &str = include_str!("../src/sys.rs");

/// A name, and the names and types that belong to it.
type Declaration = (String, Vec<(String, String)>);

/// A text without comments, and with one space where it has white space.
fn plain(text: &str, comment: &str, end: &str) -> String {
    let mut parts = text.split(comment);
    let mut kept = parts.next().unwrap().to_string();
    for part in parts {
        kept.push_str(part.split_once(end).map_or("", |(_, rest)| rest));
        kept.insert(kept.len(), ' ');
    }
    kept.split_whitespace().collect::<Vec<_>>().join(" ")
}

/// What stands between two words, behind each occurrence of the first.
fn between<'a>(text: &'a str, begin: &'a str, end: &'a str) -> impl Iterator<Item = &'a str> {
    text.split(begin)
        .skip(1)
        .map(move |rest| rest.split_once(end).unwrap().0)
}

/// The Rust type of a type in C.
fn rust_type(c: &str) -> String {
    let (mutability, pointee) = match (c.strip_prefix("const "), c.strip_suffix(" *")) {
        (Some(c), _) => ("*const ", c.trim_end_matches(" *")),
        (None, Some(c)) => ("*mut ", c),
        (None, None) => ("", c),
    };
    let name = match pointee {
        "uint8_t" => "u8",
        "uint32_t" => "u32",
        "uint64_t" => "u64",
        "int32_t" => "i32",
        "size_t" => "usize",
        other => other,
    };
    format!("{mutability}{name}")
}

/// A declaration in C: the name behind the type.
fn c_declaration(text: &str) -> (String, String) {
    let text = text.trim();
    let at = text.rfind([' ', '*']).unwrap() + 1;
    (text[at..].to_string(), rust_type(text[..at].trim()))
}

fn rust_declaration(text: &str) -> (String, String) {
    let (name, of_type) = text.trim().split_once(": ").unwrap();
    (
        name.trim_start_matches("pub ").to_string(),
        of_type.to_string(),
    )
}

fn declarations<'a>(
    found: impl Iterator<Item = &'a str>,
    open: char,
    separator: char,
    declaration: fn(&str) -> (String, String),
) -> Vec<Declaration> {
    let each = found.map(|text| {
        let (name, inner) = text.split_once(open).unwrap();
        let parts = inner
            .split(separator)
            .filter(|part| !part.trim().is_empty());
        (name.trim().to_string(), parts.map(declaration).collect())
    });
    each.collect()
}

#[test]
fn the_library_the_header_and_the_crate_are_of_one_version() {
    let (major, minor, patch) = curdmesa::library_version();
    let version = format!("{major}.{minor}.{patch}");
    assert_eq!(version, env!("CARGO_PKG_VERSION"));
    let number = 1_000_000 * major + 1000 * minor + patch;
    assert!(HEADER.contains(&format!("#define CURDMESA_VERSION {number}\n")));
    assert!(HEADER.contains(&format!("#define CURDMESA_VERSION_TEXT \"{version}\"\n")));
}

#[test]
fn functions_are_declared_as_in_the_header() {
    let (header, sys) = (plain(HEADER, "/*", "*/"), plain(SYS, "//", "\n"));
    // The only one without a status.
    let sys = sys.replace("pub fn curdmesa_version() -> u32;", "");
    assert!(header.contains(" uint32_t curdmesa_version(void);"));
    let mut due = declarations(
        between(&header, " int32_t curdmesa_", ");"),
        '(',
        ',',
        c_declaration,
    );
    let mut found = declarations(
        between(&sys, "pub fn curdmesa_", ") -> i32;"),
        '(',
        ',',
        rust_declaration,
    );
    due.sort();
    found.sort();
    assert_eq!(found, due);
    assert_eq!(found.len(), 44);
}

#[test]
fn structs_are_declared_as_in_the_header() {
    let (header, sys) = (plain(HEADER, "/*", "*/"), plain(SYS, "//", "\n"));
    let mut due = declarations(
        between(&header, "typedef struct ", "}"),
        '{',
        ';',
        c_declaration,
    );
    let sys = sys.replace("#[repr(C)] pub struct ", "#[repr(C)]");
    let mut found = declarations(between(&sys, "#[repr(C)]", "}"), '{', ',', rust_declaration);
    due.sort();
    found.sort();
    assert_eq!(found, due);
    assert_eq!(found.len(), 11);
}

/// The constants of the header's enumerations with a prefix, by their number.
fn constants(prefix: &str) -> Vec<(String, i32)> {
    let header = plain(HEADER, "/*", "*/");
    let enums: Vec<&str> = between(&header, "enum {", "}").collect();
    let all = enums.iter().flat_map(|text| text.split(',')).map(|text| {
        let (name, number) = text.trim().split_once(" = ").unwrap();
        (name, number.parse().unwrap())
    });
    let own = all.filter_map(|(name, number)| Some((name.strip_prefix(prefix)?, number)));
    own.map(|(name, number)| (name.replace('_', "").to_lowercase(), number))
        .collect()
}

fn names<T: std::fmt::Debug>(all: &[T]) -> Vec<(String, i32)> {
    let names = all.iter().map(|each| format!("{each:?}").to_lowercase());
    names.zip(0..).collect()
}

#[test]
fn words_are_numbered_as_in_the_header() {
    assert_eq!(names(ItemKind::ALL), constants("CURDMESA_ITEM_"));
    assert_eq!(names(Category::ALL), constants("CURDMESA_CATEGORY_"));
    assert_eq!(names(Reason::ALL), constants("CURDMESA_REASON_"));
    assert_eq!(names(Repair::ALL), constants("CURDMESA_REPAIR_"));
}

#[test]
fn statuses_are_numbered_as_in_the_header() {
    let errors = (1..99).filter_map(Error::from_status);
    let known = errors.filter(|error| !matches!(error, Error::Unknown(_)));
    let found: Vec<_> = known
        .map(|error| (format!("{error:?}").to_lowercase(), error))
        .collect();
    let statuses = constants("CURDMESA_");
    for (name, error) in &found {
        assert!(statuses.contains(&(name.clone(), error.status())), "{name}");
    }
    // The enumeration of statuses is the header's first, and ends with this one.
    let last = statuses
        .iter()
        .position(|status| status.0 == "authmissingpublickey");
    assert_eq!(found.len(), last.unwrap());
}
