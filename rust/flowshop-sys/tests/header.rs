//! Compares the declarations of this crate with the header that lies beside the library, and its version with that of
//! the library.

use flowshop_sys::*;

/// The header; none where only the library is known.
fn header() -> Option<String> {
    let folder = option_env!("FLOWSHOP_INCLUDE");
    if folder.is_none() {
        println!("no header: the comparison was passed over");
    }
    std::fs::read_to_string(format!("{}/flowshop.h", folder?)).ok()
}

/// A text with a line feed in the place of what stands between two marks.
fn without(text: &str, from: &str, to: &str) -> String {
    let mut pieces = text.split(from);
    let mut kept = pieces.next().unwrap_or("").to_string();
    for piece in pieces {
        kept.push('\n');
        kept.push_str(piece.split_once(to).map_or("", |(_, rest)| rest));
    }
    kept
}

/// The words of a text, with one space between them.
fn spaced(text: &str) -> String {
    text.split_whitespace().collect::<Vec<_>>().join(" ")
}

/// What stands in a text behind each mark, up to another one.
fn bodies<'a>(text: &'a str, from: &'a str, to: &'a str) -> impl Iterator<Item = &'a str> {
    let behind = text.split(from).skip(1);
    behind.filter_map(move |piece| piece.split_once(to).map(|(body, _)| body))
}

/// The type of Rust that is a type of C.
fn type_of(words: &str) -> String {
    let name = |word: &str| match word {
        "uint8_t" => "u8".to_string(),
        "uint16_t" => "u16".to_string(),
        "uint32_t" => "u32".to_string(),
        "uint64_t" => "u64".to_string(),
        "size_t" => "usize".to_string(),
        other => other.to_string(),
    };
    match words.split(' ').collect::<Vec<_>>()[..] {
        ["const", word, "*"] => format!("*const {}", name(word)),
        [word, "*"] => format!("*mut {}", name(word)),
        [word] => name(word),
        _ => format!("no type: {words}"),
    }
}

/// A declaration of C, as `const uint32_t *times` or `uint64_t inner[11]`, as Rust has it.
fn declared(words: &str) -> String {
    let spread = spaced(&words.replace('*', "* "));
    let (kind, name) = match spread.rsplit_once(' ') {
        Some((kind, name)) => (type_of(kind), name),
        None => return String::new(),
    };
    match name.trim_end_matches(']').split_once('[') {
        Some((name, count)) => format!("{name}: [{kind}; {count}]"),
        None => format!("{name}: {kind}"),
    }
}

/// The declarations of a list, each as Rust has it.
fn list(text: &str, mark: char) -> String {
    let items = text.split(mark).map(declared).filter(|item| !item.is_empty());
    items.collect::<Vec<_>>().join(", ")
}

/// The numbers, records and calls of the header, as Rust declares them.
fn of_header(text: &str) -> Vec<String> {
    let mut lines = Vec::new();
    for value in bodies(text, "#define FLOWSHOP_LIBRARY_VERSION ", "\n") {
        lines.push(format!("FLOWSHOP_LIBRARY_VERSION = {value}"));
    }
    let code: String =
        without(text, "/*", "*/").lines().filter(|line| !line.starts_with('#')).flat_map(|line| [line, "\n"]).collect();
    let code = spaced(&code);
    for body in bodies(&code, "enum ", "};") {
        let (_, body) = body.split_once('{').unwrap_or_default();
        lines.extend(body.split(',').map(|number| number.trim().to_string()));
    }
    for body in bodies(&code, "typedef struct ", "}") {
        let (name, fields) = body.split_once(" {").unwrap_or_default();
        lines.push(format!("{name} {{ {} }}", list(fields, ';')));
    }
    for call in code.split(';').filter_map(|part| part.strip_suffix(" FLOWSHOP_NOEXCEPT")) {
        let (head, words) = call.split_once('(').unwrap_or_default();
        let (before, name) = head.rsplit_once(' ').unwrap_or_default();
        let result = type_of(before.rsplit(' ').next().unwrap_or_default());
        let words = list(words.trim_end_matches(')'), ',');
        lines.push(format!("{name}({words}) -> {result}"));
    }
    lines
}

/// The numbers, records and calls of this crate.
fn of_crate(text: &str) -> Vec<String> {
    let code = spaced(&without(&without(text, "//", "\n"), "#[", "]"));
    let mut lines = Vec::new();
    for number in bodies(&code, "pub const FLOWSHOP_", ";") {
        lines.push(format!("FLOWSHOP_{}", number.replace(": u32", "")));
    }
    for body in bodies(&code, "statuses! {", "}") {
        let numbers = body.split(';').map(|number| number.trim().to_string());
        lines.extend(numbers.filter(|number| !number.is_empty()));
    }
    for number in &mut lines {
        let (name, value) = number.split_once(" = ").unwrap_or_default();
        *number = format!("{name} = {}", value.replace('_', ""));
    }
    for body in bodies(&code, "pub struct ", "}") {
        let fields = body.replace("pub ", "");
        lines.push(format!("{} }}", fields.trim().trim_end_matches(',')));
    }
    for body in bodies(&code, "extern \"C\" {", "}") {
        for call in bodies(body, "pub fn ", ";") {
            lines.push(call.replace("( ", "(").replace(", )", ")"));
        }
    }
    lines
}

#[test]
fn declarations_are_those_of_the_header() {
    let header = match header() {
        Some(header) => header,
        None => return,
    };
    let mut wanted = of_header(&header);
    let source = include_str!("../src/lib.rs");
    let mut found = of_crate(source);
    // Each record and each call of the header was read.
    let read = |mark: &str| wanted.iter().filter(|line| line.contains(mark)).count();
    assert_eq!(read(" {"), header.matches("typedef struct ").count());
    assert_eq!(read(") -> "), header.matches("NOEXCEPT;").count());
    assert!(read(" {") > 0 && read(") -> ") > 0 && read(" = ") > 0);
    assert_eq!(source.matches("#[repr(C)]\n").count(), source.matches("pub struct ").count());
    wanted.sort();
    found.sort();
    assert_eq!(found, wanted);
}

#[test]
fn names_are_those_of_the_header() {
    let header = match header() {
        Some(header) => header,
        None => return,
    };
    let numbers = of_header(&header);
    let mut count = 0;
    for case in bodies(&header, "case ", "\";") {
        let (status, name) = case.split_once(": return \"").unwrap_or_default();
        let number = numbers
            .iter()
            .find_map(|line| line.strip_prefix(&format!("{status} = ")))
            .and_then(|number| number.parse().ok());
        assert_eq!(number.map(flowshop_status_name), Some(name));
        count += 1;
    }
    assert_eq!(count, header.matches("case FLOWSHOP_").count());
    assert!(count > 30);
    assert_eq!(flowshop_status_name(5), "?");
}

#[test]
fn the_library_is_of_this_version() {
    // SAFETY: the call takes nothing.
    assert_eq!(unsafe { flowshop_version() }, FLOWSHOP_LIBRARY_VERSION);
    let version = env!("CARGO_PKG_VERSION").split('.');
    let number = version.fold(0, |number, part| number * 1000 + part.parse::<u32>().unwrap_or(0));
    assert_eq!(number, FLOWSHOP_LIBRARY_VERSION);
}
