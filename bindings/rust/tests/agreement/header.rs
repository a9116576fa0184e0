//! What include/uviktalik.h defines and declares, read from its text.

use std::collections::BTreeMap;

use crate::declared::{Function, Functions, Numbers, Passed};

const PREFIX: &str = "UVIKTALIK_";

pub struct Header {
    /// The numbers by their names, without the prefix.
    pub numbers: Numbers,
    /// The functions by their symbols.
    pub functions: Functions,
}

impl Header {
    pub fn of(text: &str) -> Header {
        let text = without_comments(text);
        let (directives, code): (Vec<&str>, Vec<&str>) =
            text.lines().partition(|line| line.starts_with('#'));
        let definitions = directives.iter().filter_map(|line| line.strip_prefix("#define "));
        let definitions: BTreeMap<&str, &str> =
            definitions.filter_map(|definition| definition.split_once(' ')).collect();

        let mut numbers = Numbers::new();
        let constants = code.iter().flat_map(|line| line.split(','));
        let constants = constants.filter_map(|entry| entry.split_once(" = "));
        for (name, value) in constants.chain(definitions.clone()) {
            let Some(name) = name.trim().strip_prefix(PREFIX) else { continue };
            let value = value.trim().parse().unwrap_or_else(|_| panic!("{name} is {value}"));
            assert_eq!(numbers.insert(name.to_string(), value), None, "{name} twice");
        }

        let code = code.join(" ");
        let prototypes = code.split(';').filter_map(|statement| statement.split_once('('));
        let functions = prototypes.map(|(left, right)| {
            let (answer, name) = left.trim().rsplit_once(' ').expect("a type and a name");
            let symbol = definitions.get(name).copied().unwrap_or(name);
            let parameters = right.trim().trim_end_matches(')').split(',');
            let parameters = parameters.filter(|parameter| *parameter != "void");
            let parameters = parameters.map(|parameter| passed(parameter, &numbers)).collect();
            (symbol.to_string(), Function { parameters, answer: rust_name(answer).into() })
        });
        Header { functions: functions.collect(), numbers }
    }
}

fn without_comments(text: &str) -> String {
    let mut pieces = text.split("/*");
    let mut code = pieces.next().unwrap_or_default().to_string();
    for piece in pieces {
        code += piece.split_once("*/").expect("a comment ends").1;
    }
    code
}

fn rust_name(c: &str) -> &'static str {
    match c.trim() {
        "uint8_t" => "u8",
        "uint32_t" => "u32",
        "size_t" => "usize",
        other => panic!("the type {other} is not used here"),
    }
}

/// `const uint8_t *image`, `uint32_t state[UVIKTALIK_STATE_WORDS]`, `uint32_t budget`.
fn passed(parameter: &str, numbers: &Numbers) -> (String, Passed) {
    let parameter = parameter.trim();
    let (constant, rest) = match parameter.strip_prefix("const ") {
        Some(rest) => (true, rest),
        None => (false, parameter),
    };
    let (element, declarator) = rest.split_once(' ').expect("a type and a name");
    let element = rust_name(element).to_string();
    if let Some(name) = declarator.strip_prefix('*') {
        return (name.to_string(), Passed::Pointer { constant, element });
    }
    let Some((name, size)) = declarator.trim_end_matches(']').split_once('[') else {
        return (declarator.to_string(), Passed::Value(element));
    };
    let named = size.strip_prefix(PREFIX).map(|name| numbers[name]);
    let size = named.unwrap_or_else(|| size.parse().expect("a number"));
    (name.to_string(), Passed::Array { constant, element, size })
}
