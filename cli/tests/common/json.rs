//! Reads what `--json` prints, and compares it with what it ought to be.

use serde_json::{Map, Value};

pub type Object = Map<String, Value>;

/// The objects of standard output, one to a line, each line with its line feed.
pub fn objects(out: &[u8]) -> Vec<Value> {
    let text = std::str::from_utf8(out).expect("JSON in UTF-8");
    assert!(text.is_empty() || text.ends_with('\n'), "{text:?}");
    text.lines().map(object).collect()
}

fn object(line: &str) -> Value {
    let value: Value = serde_json::from_str(line).unwrap_or_else(|e| panic!("{e} in {line}"));
    assert!(value.is_object(), "no object: {line}");
    for number in floats(line) {
        let value: f64 = number.parse().expect("a number");
        // All floats of a stream have 32 bits; one that was rounded to few decimals is none of them.
        assert_eq!(f64::from(value as f32), value, "{number} is not exact");
    }
    value
}

/// The numbers of a line of JSON that are written as floats, as they stand.
fn floats(line: &str) -> Vec<String> {
    let outside = outside_strings(line);
    let words = outside.split(|c: char| !matches!(c, '0'..='9' | '+' | '-' | '.' | 'e' | 'E'));
    let float =
        |word: &&str| word.contains(|c: char| c.is_ascii_digit()) && word.contains(['.', 'e', 'E']);
    words.filter(float).map(str::to_string).collect()
}

/// A line without what stands in its strings. `true` and `false`, whose `e` is in no number, go too.
fn outside_strings(line: &str) -> String {
    let (mut outside, mut inside, mut escaped) = (String::new(), false, false);
    for c in line.chars() {
        let quote = c == '"' && !escaped;
        if !inside && !quote {
            outside.push(c);
        }
        escaped = inside && c == '\\' && !escaped;
        inside ^= quote;
    }
    outside.replace("true", "").replace("false", "")
}

/// Whether an answer is the wanted one: every member, and none besides. A wanted float is met by the number that has
/// its very value. `shapes` may come in any order, which the page leaves open.
pub fn same(wanted: &Value, got: &Value) -> bool {
    match (wanted, got) {
        (Value::Object(wanted), Value::Object(got)) => {
            let member = |(name, value): (&String, &Value)| {
                got.get(name)
                    .is_some_and(|got| same_member(name, value, got))
            };
            wanted.len() == got.len() && wanted.iter().all(member)
        }
        (Value::Array(wanted), Value::Array(got)) => {
            wanted.len() == got.len() && wanted.iter().zip(got).all(|(w, g)| same(w, g))
        }
        (Value::Number(number), Value::Number(other)) if number.is_f64() => {
            bits(wanted) == bits(got) && other.as_f64().is_some()
        }
        _ => wanted == got,
    }
}

/// The bits of a float of 32 bits that serde_json read, which may be off by the last of 64.
fn bits(number: &Value) -> u32 {
    (number.as_f64().expect("a number") as f32).to_bits()
}

fn same_member(name: &str, wanted: &Value, got: &Value) -> bool {
    match (wanted, got) {
        (Value::Array(wanted), Value::Array(got)) if name == "shapes" => {
            let met = |one: &Value| got.iter().any(|other| same(one, other));
            wanted.len() == got.len() && wanted.iter().all(met)
        }
        _ => same(wanted, got),
    }
}

/// Where two answers differ first, for a person who reads a failed test.
pub fn difference(wanted: &[Value], got: &[Value]) -> Option<String> {
    for (i, (wanted, got)) in wanted.iter().zip(got).enumerate() {
        if !same(wanted, got) {
            return Some(format!("object {i}\n wanted {wanted}\n got    {got}"));
        }
    }
    let (wanted, got) = (wanted.len(), got.len());
    (wanted != got).then(|| format!("wanted {wanted} objects, got {got}"))
}
