//! The functions for C, from the signatures of those that a source exports: a slice passes as its
//! pointer, then its length.

/// How an exported function begins.
const EXPORTED: &str = "pub extern \"C\" fn ";

/// What the functions for C call to put a slice together.
const LENT: &str = include_str!("../kit/boundary.rs");

/// A module with the functions for C of a source; nothing where it exports none.
pub fn of(source: &str) -> String {
    let functions: Vec<String> = source.split(EXPORTED).skip(1).map(function).collect();
    if functions.is_empty() {
        return String::new();
    }
    format!("\nmod boundary {{\n{LENT}\n{}}}\n", functions.concat())
}

/// The function for C with this signature, which a body or a contract follows.
fn function(signature: &str) -> String {
    let (name, rest) = signature.split_once('(').unwrap_or((signature, ""));
    let (parameters, rest) = rest.split_once(')').unwrap_or((rest, ""));
    let answer = rest.split(['{', '\n']).next().unwrap_or_default().trim();
    let (mut taken, mut handed) = (Vec::new(), Vec::new());
    for parameter in parameters.split(',').filter_map(|parameter| parameter.split_once(':')) {
        let (as_c, as_rust) = passed(parameter.0.trim(), parameter.1.trim());
        taken.push(as_c);
        handed.push(as_rust);
    }
    let (taken, handed) = (taken.join(", "), handed.join(", "));
    format!(
        "#[no_mangle]\npub unsafe extern \"C\" fn {name}({taken}) {answer} {{\n    \
         super::{name}({handed})\n}}\n"
    )
}

/// A parameter as C passes it, and what is handed on.
fn passed(name: &str, kind: &str) -> (String, String) {
    let slice = |start: &str| kind.strip_prefix(start)?.strip_suffix(']').filter(is_no_array);
    if let Some(element) = slice("&[") {
        let both = format!("{name}: *const {element}, {name}_length: usize");
        return (both, format!("lent({name}, {name}_length)"));
    }
    if let Some(element) = slice("&mut [") {
        let both = format!("{name}: *mut {element}, {name}_length: usize");
        return (both, format!("lent_mut({name}, {name}_length)"));
    }
    (format!("{name}: {kind}"), name.to_string())
}

/// Whether what stands in brackets is the element of a slice: an array has its length there too.
fn is_no_array(element: &&str) -> bool {
    !element.contains(';')
}
