//! Streams that are accepted.

use crate::messages::{message, Message};
use crate::rng::Rng;
use second_reader::{Kind, Rules};

/// The bytes of messages one after another.
pub fn joined(messages: &[Message]) -> Vec<u8> {
    messages.iter().flat_map(Message::bytes).collect()
}

/// How many messages, and how large a body, a stream aims at.
struct Aim {
    messages: u64,
    body: u64,
}

fn aim(rng: &mut Rng, limit: u64) -> Aim {
    match rng.below(12) {
        0 => Aim {
            messages: 300 + rng.below(700),
            body: 8,
        },
        1 => Aim {
            messages: 2 + rng.below(4),
            body: limit,
        },
        2 | 3 => Aim {
            messages: 10 + rng.below(50),
            body: 600,
        },
        _ => Aim {
            messages: rng.below(7),
            body: 1_500,
        },
    }
}

/// The messages of an accepted stream of at most `limit` bytes (2 or more), the close last.
pub fn well_formed(rules: Rules, rng: &mut Rng, limit: usize) -> Vec<Message> {
    let aim = aim(rng, limit as u64);
    let mut kinds = Vec::new();
    texts(rng, &mut kinds);
    if !rng.one_in(3) {
        kinds.push(rng.pick(&[Kind::ConfigurationName, Kind::ConfigurationText]));
        texts(rng, &mut kinds);
    }
    let headed = !rng.one_in(8);
    if headed {
        kinds.push(Kind::HeaderText);
    }
    for _ in 0..aim.messages {
        kinds.push(if headed && !rng.one_in(4) {
            rng.pick(&[Kind::Acquisition, Kind::Image, Kind::Waveform])
        } else {
            Kind::Text
        });
    }
    messages_of(rules, rng, &kinds, aim.body, limit)
}

fn texts(rng: &mut Rng, kinds: &mut Vec<Kind>) {
    for _ in 0..rng.below(3) {
        kinds.push(Kind::Text);
    }
}

/// Messages of these kinds and a close, without those that no longer fit in `limit` bytes.
fn messages_of(
    rules: Rules,
    rng: &mut Rng,
    kinds: &[Kind],
    body: u64,
    limit: usize,
) -> Vec<Message> {
    let close = Message::empty(rules, Kind::Close.id());
    let mut messages = Vec::new();
    let mut room = limit - close.bytes().len();
    let mut headed = false;
    for &kind in kinds {
        let message = message(rules, rng, kind, body.min(room as u64));
        let size = message.bytes().len();
        // Data stays out where the header did not fit.
        if size <= room && (headed || !kind.is_data()) {
            room -= size;
            headed |= kind == Kind::HeaderText;
            messages.push(message);
        }
    }
    messages.push(close);
    messages
}

/// The beginning of an accepted stream, without a close, that holds a header text if `headed`,
/// else neither a header nor a configuration.
pub fn opening(rules: Rules, rng: &mut Rng, headed: bool) -> Vec<Message> {
    let mut kinds = Vec::new();
    texts(rng, &mut kinds);
    if headed {
        if rng.one_in(2) {
            kinds.push(rng.pick(&[Kind::ConfigurationName, Kind::ConfigurationText]));
        }
        kinds.push(Kind::HeaderText);
        for _ in 0..rng.below(4) {
            kinds.push(rng.pick(&[Kind::Text, Kind::Acquisition, Kind::Image, Kind::Waveform]));
        }
    }
    let mut messages = messages_of(rules, rng, &kinds, 200, 20_000);
    messages.pop();
    messages
}
