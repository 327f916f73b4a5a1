//! JSON on one line.

/// An object of fields whose values are JSON already.
pub fn object(fields: &[(&str, String)]) -> String {
    let fields: Vec<String> = fields
        .iter()
        .map(|(name, value)| format!("\"{name}\":{value}"))
        .collect();
    format!("{{{}}}", fields.join(","))
}

pub fn array(values: impl IntoIterator<Item = String>) -> String {
    format!("[{}]", Vec::from_iter(values).join(","))
}

pub fn numbers(values: &[u32]) -> String {
    array(values.iter().map(u32::to_string))
}

pub fn string(text: &str) -> String {
    let mut quoted = String::from("\"");
    for c in text.chars() {
        match c {
            '"' | '\\' => quoted.extend(['\\', c]),
            c if c < ' ' => quoted += &format!("\\u{:04x}", u32::from(c)),
            c => quoted.push(c),
        }
    }
    quoted + "\""
}

// no text that the command writes today has anything to escape
#[test]
fn escapes() {
    assert_eq!(string("a \"b\" \\ \n é"), r#""a \"b\" \\ \u000a é""#);
}
