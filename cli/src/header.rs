//! The header of a record, element by element.

use crate::pieces::header_size;
use crate::values::{field_value, field_word};
use cotterleaf::{element_name, offset, Field, Kind, RecordAt, Refusal, Rules, COUNTER_NAMES};
use serde_json::{Map, Value};

/// A header element, or an array of them.
pub struct Element {
    pub name: &'static str,
    is_counter: bool,
    fields: Vec<Field>,
}

impl Element {
    fn value(&self) -> Value {
        match &self.fields[..] {
            [one] => field_value(*one),
            fields => fields.iter().map(|field| field_value(*field)).collect(),
        }
    }

    /// Its value or values in words.
    pub fn words(&self) -> String {
        let words: Vec<String> = self.fields.iter().map(|field| field_word(*field)).collect();
        words.join(" ")
    }
}

/// The name of an element of a record's header: `position[1]`, `counters.user_3`.
pub fn element_word(rules: Rules, kind: &Kind, at: usize) -> String {
    match counter_at(kind, at) {
        Some(counter) => format!("counters.{counter}"),
        None => element_name(kind.id(), rules.layout, at)
            .unwrap_or("?")
            .into(),
    }
}

/// Which counter of an acquisition starts at an offset.
fn counter_at(kind: &Kind, at: usize) -> Option<&'static str> {
    let Kind::Acquisition { .. } = kind else {
        return None;
    };
    let i = at.checked_sub(offset::acquisition::COUNTERS)? / 2;
    COUNTER_NAMES.get(i).copied()
}

/// Every element of a record's header, asked for one by one at the record; none of a kind without one.
pub fn elements(rules: Rules, record: &RecordAt) -> Result<Vec<Element>, Refusal> {
    let mut elements: Vec<Element> = Vec::new();
    for at in 0..header_size(&record.kind, rules.layout) {
        let Some(name) = element_name(record.kind.id(), rules.layout, at) else {
            continue;
        };
        let field = record.field(at)?;
        let counter = counter_at(&record.kind, at);
        let array = name.split('[').next().unwrap_or(name);
        match elements.last_mut() {
            Some(last) if last.name == array && counter.is_none() => last.fields.push(field),
            _ => elements.push(Element {
                name: counter.unwrap_or(array),
                is_counter: counter.is_some(),
                fields: vec![field],
            }),
        }
    }
    Ok(elements)
}

/// The flags among the elements.
pub fn flags(elements: &[Element]) -> Option<u64> {
    let flags = elements.iter().find(|element| element.name == "flags")?;
    match flags.fields[..] {
        [Field::Whole(flags)] => Some(flags),
        _ => None,
    }
}

/// The header as an object: arrays as arrays, the counters as an object of their own.
pub fn header_object(elements: &[Element]) -> Value {
    let named = |element: &Element| (element.name.to_string(), element.value());
    let (counters, others): (Vec<&Element>, Vec<&Element>) =
        elements.iter().partition(|element| element.is_counter);
    let mut header: Map<String, Value> = others.into_iter().map(named).collect();
    if !counters.is_empty() {
        let counters: Map<String, Value> = counters.into_iter().map(named).collect();
        header.insert("counters".into(), counters.into());
    }
    Value::Object(header)
}
