//! Half a character at the end of one text, and its rest where the next part begins (document 02, E9): each text is
//! judged by itself, so that the strict profile refuses it.

use crate::messages::{self, Message};
use crate::rng::Rng;
use crate::texts;
use second_reader::{Kind, Rules};

/// Puts half a character at the end of the message's text, and gives the rest of it.
fn put_half(rng: &mut Rng, message: &mut Message) -> Vec<u8> {
    let (half, rest) = texts::split_character(rng);
    let length = texts::length(rng, 100);
    let text = [texts::good(rng, length), half].concat();
    message.set_own_text(match message.kind() {
        Some(Kind::ConfigurationName) => texts::without_zeros(text),
        _ => text,
    });
    rest
}

/// A text that begins with the rest of a character.
fn text_with(rules: Rules, rng: &mut Rng, rest: Vec<u8>) -> Message {
    let mut message = Message::empty(rules, Kind::Text.id());
    let length = texts::length(rng, 60);
    message.text = [rest, texts::good(rng, length)].concat();
    message
}

/// A message of a kind that has text, which ends in half a character. The rest is where an image's pixels begin, after
/// a name's zero, or in the text that comes as a second message.
pub fn split(rules: Rules, rng: &mut Rng, kind: Kind) -> (Message, Option<Message>) {
    let mut message = messages::message(rules, rng, kind, 200);
    let rest = put_half(rng, &mut message);
    let within = !rng.one_in(3);
    match kind {
        Kind::Image if within && message.pixels.len() >= rest.len() => {
            message.pixels[..rest.len()].copy_from_slice(&rest);
            (message, None)
        }
        Kind::ConfigurationName if within => {
            message.filler[..rest.len()].copy_from_slice(&rest);
            (message, None)
        }
        _ => {
            let next = text_with(rules, rng, rest);
            (message, Some(next))
        }
    }
}

/// Whether a text ends inside a character of which `next` begins with the rest.
pub fn completes(text: &[u8], next: &[u8]) -> bool {
    let Err(error) = std::str::from_utf8(text) else {
        return false;
    };
    let half = &text[error.valid_up_to()..];
    // Without a length of its own the error is the text's end.
    error.error_len().is_none()
        && (1..=next.len().min(3)).any(|more| {
            let whole = [half, &next[..more]].concat();
            std::str::from_utf8(&whole).is_ok()
        })
}
