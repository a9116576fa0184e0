//! What the binding declares, `capi` defines and `capi_c` exports, read from their texts.

use std::collections::BTreeMap;

/// How C passes a parameter.
#[derive(Debug, PartialEq, Eq)]
pub enum Passed {
    Value(String),
    Pointer { constant: bool, element: String },
    Array { constant: bool, element: String, size: u64 },
}

#[derive(Debug, PartialEq, Eq)]
pub struct Function {
    /// Names and how they are passed, in order.
    pub parameters: Vec<(String, Passed)>,
    /// The type of what is returned.
    pub answer: String,
}

/// Functions by their symbols.
pub type Functions = BTreeMap<String, Function>;
/// Numbers by their names.
pub type Numbers = BTreeMap<String, u64>;

/// The whole numbers that the `const` items of a file of Rattle have.
pub fn constants(text: &str) -> Numbers {
    let lines = text.lines().map(|line| line.trim_start_matches("pub "));
    let items = lines.filter_map(|line| line.strip_prefix("const "));
    let constant = |item: &str| {
        let (name, rest) = item.split_once(": ")?;
        let (_, value) = rest.trim_end_matches(';').split_once(" = ")?;
        Some((name.to_string(), value.replace('_', "").parse().ok()?))
    };
    items.filter_map(constant).collect()
}

/// The numbers of an enum's variants in a file of Rattle, by the variants' names in capitals: what
/// `Variant = 1,` or `Enum::Variant(_) => 1,` says.
pub fn variants(text: &str) -> Numbers {
    let variant = |line: &str| {
        let (left, right) = line.split_once(" => ").or_else(|| line.split_once(" = "))?;
        let number = right.trim_end_matches(',').parse().ok()?;
        let name = left.rsplit("::").next()?.split('(').next()?;
        name.chars().all(char::is_alphanumeric).then(|| (in_capitals(name), number))
    };
    text.lines().filter_map(|line| variant(line.trim())).collect()
}

/// `NoBudget` as `NO_BUDGET`.
fn in_capitals(name: &str) -> String {
    let mut capitals = String::new();
    for (place, letter) in name.char_indices() {
        if place > 0 && letter.is_uppercase() {
            capitals.push('_');
        }
        capitals.extend(letter.to_uppercase());
    }
    capitals
}

/// `START name(parameter: type, ..) -> answer`, and what stands before it since the last `;`.
struct Signature<'a> {
    before: &'a str,
    name: &'a str,
    parameters: Vec<(&'a str, &'a str)>,
    answer: &'a str,
}

fn signatures<'a>(text: &'a str, start: &str) -> Vec<Signature<'a>> {
    let pieces: Vec<&str> = text.split(start).collect();
    let signature = |pair: &[&'a str]| {
        let before = pair[0].rsplit(';').next().expect("some text");
        let (name, rest) = pair[1].split_once('(').expect("parameters");
        let (parameters, rest) = rest.split_once(')').expect("an end of the parameters");
        let parameters = parameters.split(',').filter_map(|parameter| parameter.split_once(':'));
        let parameters = parameters.map(|(name, kind)| (name.trim(), kind.trim())).collect();
        let answer = rest.trim_start().strip_prefix("-> ").expect("an answer");
        let answer = answer.split(|c: char| !c.is_alphanumeric()).next().expect("a type");
        Signature { before, name, parameters, answer }
    };
    pieces.windows(2).map(signature).collect()
}

/// What a pointer or a reference refers to: `[u32; SIZE]`, or one element.
fn referred(kind: &str, constant: bool, numbers: &Numbers) -> Passed {
    let Some(array) = kind.strip_prefix('[') else {
        return Passed::Pointer { constant, element: kind.to_string() };
    };
    let (element, size) = array.trim_end_matches(']').split_once("; ").expect("a size");
    let size = numbers.get(size).copied().unwrap_or_else(|| size.parse().expect("a number"));
    Passed::Array { constant, element: element.to_string(), size }
}

/// The declarations of src/sys.rs.
pub fn by_the_binding(text: &str, numbers: &Numbers) -> Functions {
    let passed = |kind: &str| match (kind.strip_prefix("*const "), kind.strip_prefix("*mut ")) {
        (Some(kind), _) => referred(kind, true, numbers),
        (_, Some(kind)) => referred(kind, false, numbers),
        _ => Passed::Value(kind.to_string()),
    };
    let function = |Signature { before, name, parameters, answer }| {
        let linked = before.split_once("link_name = \"").and_then(|(_, rest)| rest.split_once('"'));
        let symbol = linked.map_or(name, |(symbol, _)| symbol);
        let parameters = parameters.iter().map(|&(name, kind)| (name.to_string(), passed(kind)));
        let parameters = parameters.collect();
        (symbol.to_string(), Function { parameters, answer: answer.to_string() })
    };
    signatures(text, "pub fn ").into_iter().map(function).collect()
}

/// How C passes what Rattle has as a parameter: a slice as a pointer and a size.
fn lent(name: &str, kind: &str, numbers: &Numbers) -> Vec<(String, Passed)> {
    let (constant, kind) = match (kind.strip_prefix("&mut "), kind.strip_prefix('&')) {
        (Some(kind), _) => (false, kind),
        (_, Some(kind)) => (true, kind),
        _ => return vec![(name.to_string(), Passed::Value(kind.to_string()))],
    };
    if !kind.starts_with('[') || kind.contains(';') {
        return vec![(name.to_string(), referred(kind, constant, numbers))];
    }
    let element = kind.trim_matches(['[', ']']).to_string();
    let size = (format!("{name}_size"), Passed::Value("usize".to_string()));
    vec![(name.to_string(), Passed::Pointer { constant, element }), size]
}

/// The public functions of crates/capi/src/lib.rt.
pub fn by_capi(text: &str) -> Functions {
    by_rattle(text, "pub fn ")
}

/// The exported functions of crates/capi_c/src/lib.rt.
pub fn by_exports(text: &str) -> Functions {
    by_rattle(text, "pub extern \"C\" fn ")
}

fn by_rattle(text: &str, start: &str) -> Functions {
    let numbers = constants(text);
    let function = |Signature { name: symbol, parameters, answer, .. }| {
        let parameters = parameters.iter().flat_map(|&(name, kind)| lent(name, kind, &numbers));
        let parameters = parameters.collect();
        let function = Function { parameters, answer: str::to_string(answer) };
        (str::to_string(symbol), function)
    };
    signatures(text, start).into_iter().map(function).collect()
}
