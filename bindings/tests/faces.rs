//! The library's face is written three times, for Rattle, C and Rust. This holds the header and
//! this crate against Rattle's own: the calls, the answers, the limits and the numbers, and the
//! version. It calls no library.

use std::collections::BTreeMap;
use std::fs;
use std::path::Path;

fn text(name: &str) -> String {
    let path = Path::new(env!("CARGO_MANIFEST_DIR")).join("..").join(name);
    fs::read_to_string(&path).unwrap_or_else(|e| panic!("{}: {e}", path.display()))
}

/// A text without its comments (`//` to the end of the line, `/* .. */`).
fn bare(text: &str) -> String {
    let lines: Vec<&str> = text.lines().map(|l| l.split("//").next().unwrap_or("")).collect();
    let lines = lines.join("\n");
    let mut parts = lines.split("/*");
    let mut out = parts.next().unwrap_or("").to_string();
    parts.for_each(|part| out += part.split_once("*/").expect("a comment ends").1);
    out
}

/// One space between two words, none beside a sign, no comma at the end of a list.
fn tight(text: &str) -> String {
    let spaced = text.split_whitespace().collect::<Vec<_>>().join(" ");
    let of_word = |c: Option<char>| c.is_some_and(|c| c.is_alphanumeric() || c == '_');
    let mut out = String::new();
    for (at, c) in spaced.char_indices() {
        let next = spaced[at + c.len_utf8()..].chars().next();
        if c != ' ' || of_word(out.chars().last()) && of_word(next) {
            out.push(c);
        }
    }
    out.replace(",)", ")").replace(",}", "}")
}

/// What stands between a word and the next end, wherever the word is.
fn all<'a>(text: &'a str, word: &'a str, end: &'a str) -> impl Iterator<Item = &'a str> {
    text.split(word).skip(1).map(move |rest| rest.split(end).next().unwrap_or(""))
}

/// A call or an answer of Rattle: its name, its arguments or fields with their types, its result.
struct Shape {
    name: String,
    parts: Vec<(String, String)>,
    result: String,
}

fn parts(list: &str) -> Vec<(String, String)> {
    let part = |p: &str| p.split_once(':').map(|(n, t)| (n.replace("pub ", ""), t.to_string()));
    list.split(',').filter_map(part).collect()
}

/// `NAME(n:usize,widths:&[u16])->Judged ensures ..`, each up to its brace.
fn calls() -> Vec<Shape> {
    let face = tight(&bare(&text("crates/nesbrunka/src/lib.rt")));
    let shape = |head: &str| {
        let (name, rest) = head.split_once('(').expect("a call has arguments");
        let (list, rest) = rest.split_once(")->").expect("a call has a result");
        let result = rest.split(|c: char| !c.is_alphanumeric()).next().unwrap_or("");
        Shape { name: name.into(), parts: parts(list), result: outside(result).into() }
    };
    all(&face, "pub extern\"C\"fn ", "{").map(shape).collect()
}

/// An answer's name outside Rattle: judging answers what every test does, a `Fault`, and in C `Why`
/// and `OrderRead` would have the names of their calls.
fn outside(name: &str) -> &str {
    match name {
        "Fault" => "Judged",
        "Why" => "Reason",
        "OrderRead" => "Ordered",
        same => same,
    }
}

/// The structs that the calls answer.
fn answers() -> Vec<Shape> {
    let rules = tight(&bare(&text("crates/rules/src/lib.rt")));
    let shape = |head: &str| {
        let (name, list) = head.split_once('{').expect("a struct has fields");
        Shape { name: outside(name).into(), parts: parts(list), result: String::new() }
    };
    let answered = |shape: &Shape| calls().iter().any(|call| call.result == shape.name);
    all(&rules, "pub struct ", "}").map(shape).filter(answered).collect()
}

/// A type of Rattle's in C: `SheetRead` is `nesbrunka_sheet_read`.
fn in_c(name: &str) -> String {
    match name {
        "usize" => "size_t".into(),
        "u8" => "uint8_t".into(),
        "u16" => "uint16_t".into(),
        "u32" => "uint32_t".into(),
        "i32" => "int32_t".into(),
        "f64" => "double".into(),
        answer => {
            let mut out = "nesbrunka".to_string();
            for c in answer.chars() {
                if c.is_uppercase() {
                    out.push('_');
                }
                out.push(c.to_ascii_lowercase());
            }
            out
        }
    }
}

/// The type of a slice's cells, and whether it may be written.
fn slice<'a>(kind: &'a str) -> Option<(&'a str, bool)> {
    let cells = |kind: &'a str, open| kind.strip_prefix(open)?.strip_suffix(']');
    let written = cells(kind, "&mut[").map(|of| (of, true));
    written.or(cells(kind, "&[").map(|of| (of, false)))
}

fn c_call(call: &Shape) -> String {
    let argument = |(name, kind): &(String, String)| match slice(kind) {
        Some((cells, true)) => format!("{}*{name},size_t {name}_length", in_c(cells)),
        Some((cells, false)) => format!("const {}*{name},size_t {name}_length", in_c(cells)),
        None => format!("{} {name}", in_c(kind)),
    };
    let arguments: Vec<String> = call.parts.iter().map(argument).collect();
    format!("{} {}({});", in_c(&call.result), call.name, arguments.join(","))
}

fn rust_call(call: &Shape) -> String {
    let argument = |(name, kind): &(String, String)| match slice(kind) {
        Some((cells, true)) => format!("{name}:*mut {cells},{name}_length:usize"),
        Some((cells, false)) => format!("{name}:*const {cells},{name}_length:usize"),
        None => format!("{name}:{kind}"),
    };
    let arguments: Vec<String> = call.parts.iter().map(argument).collect();
    format!("pub fn {}({})->{};", call.name, arguments.join(","), call.result)
}

/// A field's name in C, which keeps some words for itself.
fn c_field(name: &str) -> String {
    match name {
        "short" => "short_".into(),
        free => free.into(),
    }
}

fn c_answer(answer: &Shape) -> String {
    let field = |(name, kind): &(String, String)| format!("{} {};", in_c(kind), c_field(name));
    let fields: String = answer.parts.iter().map(field).collect();
    format!("typedef struct{{{fields}}}{};", in_c(&answer.name))
}

fn rust_answer(answer: &Shape) -> String {
    let field = |(name, kind): &(String, String)| format!("pub {name}:{kind}");
    let fields: Vec<String> = answer.parts.iter().map(field).collect();
    format!("pub struct {}{{{}}}", answer.name, fields.join(","))
}

fn stands(face: &str, expected: &str, file: &str) {
    assert!(face.contains(expected), "{file} has not: {expected}");
}

#[test]
fn calls_agree() {
    let (header, sys) = (text("include/nesbrunka.h"), text("bindings/src/sys.rs"));
    let (header, sys) = (tight(&bare(&header)), tight(&bare(&sys)));
    for call in calls() {
        stands(&header, &c_call(&call), "include/nesbrunka.h");
        stands(&sys, &rust_call(&call), "bindings/src/sys.rs");
    }
    assert!(calls().len() >= 15, "Rattle's face was not understood");
    assert_eq!(sys.matches("pub fn ").count(), calls().len());
    assert_eq!(header.matches(");").count(), calls().len());
}

#[test]
fn answers_agree() {
    let (header, sys) = (text("include/nesbrunka.h"), text("bindings/src/sys.rs"));
    let (header, sys) = (tight(&bare(&header)), tight(&bare(&sys)));
    for answer in answers() {
        stands(&header, &c_answer(&answer), "include/nesbrunka.h");
        stands(&sys, &rust_answer(&answer), "bindings/src/sys.rs");
    }
    assert!(answers().len() >= 10, "Rattle's answers were not understood");
    assert_eq!(sys.matches("pub struct ").count(), answers().len());
    assert_eq!(header.matches("typedef struct").count(), answers().len());
}

/// `pub const NAME:kind=value;`
fn constants(file: &str) -> BTreeMap<String, String> {
    let source = tight(&bare(&text(file)));
    let one = |head: &str| {
        let (name, rest) = head.split_once(':').expect("a constant has a type");
        let value = rest.split_once('=').expect("a constant has a value").1;
        (name.to_string(), value.trim().to_string())
    };
    all(&source, "pub const ", ";").map(one).collect()
}

/// `NESBRUNKA_NAME = value`, by the name after the prefix.
fn enumerators() -> BTreeMap<String, String> {
    let header = bare(&text("include/nesbrunka.h"));
    let one = |part: &str| part.split_once(" = ").map(|(n, v)| (n.into(), v.trim().into()));
    all(&header, "NESBRUNKA_", ",").filter_map(|part| one(part.split('}').next()?)).collect()
}

/// The variants of crates/rules' `Cause`, which count from 1, by the names that they have elsewhere: `NoSides` is
/// `REFUSED_NO_SIDES`.
fn causes() -> BTreeMap<String, String> {
    let source = bare(&text("crates/rules/src/lib.rt"));
    let body = all(&source, "pub enum Cause {", "}").next().expect("an enum Cause").to_string();
    let one = |(place, variant): (usize, &str)| {
        let mut name = String::from("REFUSED");
        for letter in variant.trim().split(' ').next().expect("a name").chars() {
            if letter.is_uppercase() {
                name.push('_');
            }
            name.push(letter.to_ascii_uppercase());
        }
        (name, (place + 1).to_string())
    };
    assert!(body.trim_start().starts_with("Count = 1,"), "the first cause has the number 1");
    assert_eq!(body.matches('=').count(), 1, "the others count on");
    body.split(',').filter(|variant| !variant.trim().is_empty()).enumerate().map(one).collect()
}

#[test]
fn constants_agree() {
    let (header, own) = (enumerators(), constants("bindings/src/lib.rs"));
    assert_eq!(header, own);
    let is_number = |name: &str| name == "DONE" || name.starts_with("REFUSED_");
    let numbers = header.iter().filter(|(name, _)| is_number(name)).map(|(_, value)| value);
    let mut numbers: Vec<usize> = numbers.map(|value| value.parse().expect("a number")).collect();
    numbers.sort();
    assert_eq!(numbers, (0..=17).collect::<Vec<_>>(), "each number has one name");
    let mut rules = constants("crates/rules/src/lib.rt");
    rules.extend(causes());
    for (name, value) in &header {
        if name != "DONE" {
            assert_eq!(rules.get(name), Some(value), "{name} in crates/rules");
        }
    }
}

#[test]
fn versions_agree() {
    let version = env!("CARGO_PKG_VERSION");
    assert_eq!(text("VERSION").trim(), version);
    let header = text("include/nesbrunka.h");
    let parts: Vec<&str> = version.split('.').collect();
    let lines = [
        format!("#define NESBRUNKA_VERSION \"{version}\"\n"),
        format!("#define NESBRUNKA_VERSION_MAJOR {}\n", parts[0]),
        format!("#define NESBRUNKA_VERSION_MINOR {}\n", parts[1]),
        format!("#define NESBRUNKA_VERSION_PATCH {}\n", parts[2]),
    ];
    lines.iter().for_each(|line| stands(&header, line, "include/nesbrunka.h"));
}
