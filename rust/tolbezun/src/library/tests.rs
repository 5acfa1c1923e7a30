//! The declarations of this crate, of the C header and of the library's source are one.

use super::DECLARED;
use crate::answers::Refusal;
use crate::with_tables;
use std::fs;
use std::path::Path;

/// A declaration of this crate: names and types as text.
pub struct Declared {
    pub name: &'static str,
    pub parameters: &'static [(&'static str, &'static str)],
    pub answer: &'static str,
}

/// A function, with C's types without spaces.
#[derive(Debug, PartialEq)]
struct Function {
    name: String,
    parameters: Vec<Parameter>,
    answer: String,
}

#[derive(Debug, PartialEq)]
struct Parameter {
    name: String,
    constant: bool,
    kind: String,
}

impl Parameter {
    fn new(name: &str, constant: bool, kind: String) -> Self {
        Self {
            name: name.to_owned(),
            constant,
            kind,
        }
    }
}

/// The names that the library's source has, each with the header's.
const NAMES: &[(&str, &str)] = {
    macro_rules! names {
        ($(#$doc:tt $field:ident ($in_header:ident, $in_source:ident) $entries:tt)*) => {
            &[$((stringify!($in_source), stringify!($in_header)),)* ("bytes", "package")]
        };
    }
    with_tables!(names)
};

fn read(path: &str) -> String {
    let path = Path::new(env!("CARGO_MANIFEST_DIR"))
        .join("../..")
        .join(path);
    fs::read_to_string(&path).unwrap_or_else(|error| panic!("{}: {error}", path.display()))
}

/// C's name of an integer type.
fn in_c(integer: &str) -> String {
    match integer.split_at(1) {
        _ if integer == "usize" => "size_t".to_owned(),
        ("u", bits) => format!("uint{bits}_t"),
        ("i", bits) => format!("int{bits}_t"),
        _ => panic!("{integer} is not an integer type"),
    }
}

/// The functions of the header.
fn of_header() -> Vec<Function> {
    let mut text = read("include/tolbezun.h");
    while let Some(start) = text.find("/*") {
        let end = start + text[start..].find("*/").expect("the comment ends") + 2;
        text.replace_range(start..end, "");
    }
    let function = |declaration: &str| {
        let (head, parameters) = declaration.split_once('(')?;
        let (answer, name) = head.trim().rsplit_once(char::is_whitespace)?;
        let answer = answer.rsplit(char::is_whitespace).next()?;
        let parameter = |parameter: &str| {
            let parameter = parameter.trim();
            let (constant, parameter) = match parameter.strip_prefix("const ") {
                Some(rest) => (true, rest),
                None => (false, parameter),
            };
            let (kind, name) = parameter.split_once(' ').expect("a type and a name");
            match name.strip_prefix('*') {
                Some(name) => Parameter::new(name, constant, format!("{kind}*")),
                None => Parameter::new(name, constant, kind.to_owned()),
            }
        };
        Some(Function {
            name: name.to_owned(),
            parameters: parameters
                .trim_end()
                .strip_suffix(')')?
                .split(',')
                .map(parameter)
                .collect(),
            answer: answer.to_owned(),
        })
    };
    text.split(';').filter_map(function).collect()
}

/// The crates whose exported functions are the library, in the header's order.
const SOURCES: [&str; 5] = [
    "export_setup",
    "export_intake",
    "export_turns",
    "export_cutoff",
    "export_queries",
];

/// The exported functions of the library's sources.
fn of_source() -> Vec<Function> {
    let text = SOURCES
        .map(|name| read(&format!("crates/{name}/src/lib.rt")))
        .concat();
    let function = |declaration: &str| {
        let (name, rest) = declaration.split_once('(').expect("parameters");
        let (parameters, rest) = rest.split_once(')').expect("their end");
        let answer = rest.trim().strip_prefix("->").expect("an answer");
        let mut all = Vec::new();
        for parameter in parameters.split(',').filter(|text| !text.trim().is_empty()) {
            let (name, kind) = parameter
                .trim()
                .split_once(": ")
                .expect("a name and a type");
            let named = NAMES.iter().find(|(source, _)| *source == name);
            let name = named.map_or(name, |(_, header)| header);
            match kind.strip_prefix('&') {
                Some(slice) => {
                    let entry = slice.trim_start_matches("mut ").trim_matches(['[', ']']);
                    let constant = !slice.starts_with("mut ");
                    all.push(Parameter::new(name, constant, in_c(entry) + "*"));
                    all.push(Parameter::new(&format!("{name}_len"), false, in_c("usize")));
                }
                None => all.push(Parameter::new(name, false, in_c(kind))),
            }
        }
        Function {
            name: name.to_owned(),
            parameters: all,
            answer: in_c(answer.split_whitespace().next().expect("a type")),
        }
    };
    let exported = text.split("#[unsafe(no_mangle)]\npub extern \"C\" fn ").skip(1);
    exported.map(function).collect()
}

/// The functions that this crate declares. A parameter without a name is the length of the table
/// before it.
fn of_crate() -> Vec<Function> {
    let function = |declared: &Declared| {
        let mut parameters: Vec<Parameter> = Vec::new();
        for &(name, kind) in declared.parameters {
            let name = match (name, parameters.last()) {
                ("_", Some(table)) => format!("{}_len", table.name),
                _ => name.to_owned(),
            };
            // How a type is spaced as text is not told.
            let kind = kind.replace(' ', "");
            let (constant, kind) = match (kind.strip_prefix("*const"), kind.strip_prefix("*mut")) {
                (Some(entry), _) => (true, in_c(entry) + "*"),
                (_, Some(entry)) => (false, in_c(entry) + "*"),
                _ => (false, in_c(&kind)),
            };
            parameters.push(Parameter::new(&name, constant, kind));
        }
        Function {
            name: declared.name.to_owned(),
            parameters,
            answer: in_c(declared.answer),
        }
    };
    DECLARED.iter().map(function).collect()
}

#[test]
fn header_declares_what_the_source_exports() {
    let header = of_header();
    assert_eq!(header.len(), 13);
    assert_eq!(header, of_source());
}

/// This crate lends all tables for writing where the call writes one. That promises less.
#[test]
fn crate_declares_what_the_header_declares() {
    let (header, declared) = (of_header(), of_crate());
    assert_eq!(header.len(), declared.len());
    for (header, mut declared) in header.into_iter().zip(declared) {
        for (promised, parameter) in header.parameters.iter().zip(&mut declared.parameters) {
            parameter.constant |= promised.constant;
        }
        assert_eq!(header, declared);
    }
}

/// Names and numbers, both in checking order.
#[test]
fn header_has_the_refusals_of_this_crate() {
    let header = read("include/tolbezun.h");
    let (_, refusals) = header.split_once("enum tolbezun_refusal {").expect("it");
    let (refusals, _) = refusals.split_once("};").expect("its end");
    let refusal = |line: &str| {
        let (name, rest) = line.trim().strip_prefix("TOLBEZUN_")?.split_once(" = ")?;
        let number = rest.split(|c: char| !c.is_ascii_digit()).next()?;
        Some((name.replace('_', "").to_lowercase(), number.to_owned()))
    };
    let declared: Vec<_> = refusals.lines().filter_map(refusal).collect();
    let expected = Refusal::ALL.map(|refusal| {
        let name = format!("{refusal:?}").to_lowercase();
        (name, refusal.number().to_string())
    });
    assert_eq!(declared, expected);
}
