//! How the members of an answer are called and what they hold, thing by thing.

use super::json::Object;
use super::pages;
use second_reader::headers::Entry;
use second_reader::{Field, Kind, Mask, MessagePart, Part, Refused};
use serde_json::{json, Value};

pub fn object(value: Value) -> Object {
    match value {
        Value::Object(members) => members,
        other => panic!("{other} is no object"),
    }
}

pub fn put(object: &mut Object, name: &str, value: impl Into<Value>) {
    object.insert(name.to_string(), value.into());
}

pub fn refusal_object(refused: Refused) -> Value {
    let number = refused.number();
    let mut told = object(json!({
        "number": number,
        "what": pages::what_is_wrong(number),
        "remedy": pages::remedy(number),
    }));
    if let Refused::Stream(refusal) = refused {
        put(&mut told, "record", refusal.record);
        put(&mut told, "byte", refusal.byte);
    }
    told.into()
}

pub fn kind_name(kind: Kind) -> &'static str {
    match kind {
        Kind::ConfigurationName => "configuration-name",
        Kind::ConfigurationText => "configuration-text",
        Kind::HeaderText => "header-text",
        Kind::Close => "close",
        Kind::Text => "text",
        Kind::Acquisition => "acquisition",
        Kind::Image => "image",
        Kind::Waveform => "waveform",
    }
}

pub fn mask_words(mask: Mask) -> (&'static str, u32) {
    match mask {
        Mask::NotStated => ("not-stated", 0),
        Mask::Agrees { ones } => ("agrees", ones),
        Mask::Differs { ones } => ("differs", ones),
    }
}

/// The scan counters that a gap of this step leaves out.
pub fn missing(step: i32) -> i64 {
    i64::from(step.max(1)) - 1
}

pub fn counters_object<T: Into<Value> + Clone>(values: &[T]) -> Object {
    let values = values.iter().map(|value| value.clone().into());
    pages::counter_names().into_iter().zip(values).collect()
}

pub fn field_value(field: Field) -> Value {
    match field {
        Field::Whole(number) => number.into(),
        Field::Signed(number) => number.into(),
        Field::Float(bits) if f32::from_bits(bits).is_finite() => {
            f64::from(f32::from_bits(bits)).into()
        }
        Field::Float(bits) => format!("{bits:#010x}").into(),
    }
}

/// What `at` calls one element of a header.
pub fn element_name(entry: &Entry, i: usize) -> String {
    match entry.count {
        1 => entry.name.to_string(),
        _ if entry.name == "counters" => format!("counters.{}", pages::counter_names()[i]),
        _ => format!("{}[{i}]", entry.name),
    }
}

/// The part's name, as `--part` has it, and which channel it is.
fn part_name(part: MessagePart) -> (&'static str, Option<u64>) {
    match part {
        MessagePart::Id => ("id", None),
        MessagePart::Length => ("length", None),
        MessagePart::Header => ("header", None),
        MessagePart::Name => ("name", None),
        MessagePart::NameRest => ("name-rest", None),
        MessagePart::Text => ("text", None),
        MessagePart::Attributes => ("attributes", None),
        MessagePart::Trajectory => ("trajectory", None),
        MessagePart::Channel(channel) => ("channel", Some(channel)),
        MessagePart::Pixels => ("pixels", None),
        MessagePart::Waveform => ("waveform", None),
    }
}

pub fn part_object((part, place): &(MessagePart, Part)) -> Object {
    let (name, channel) = part_name(*part);
    let mut told = object(json!({
        "part": name,
        "start": place.start,
        "size": place.length,
    }));
    if let Some(channel) = channel {
        put(&mut told, "channel", channel);
    }
    told
}
