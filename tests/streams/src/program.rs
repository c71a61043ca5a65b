//! What the test programs share: their arguments, and how they show bytes.

/// The `i`th argument as a number.
pub fn number_argument(i: usize, otherwise: u64) -> u64 {
    match std::env::args().nth(i) {
        Some(text) => text
            .parse()
            .unwrap_or_else(|_| panic!("{text} is no number")),
        None => otherwise,
    }
}

/// Bytes in hex; of many, the first 600.
pub fn shown(bytes: &[u8]) -> String {
    let shown: Vec<String> = bytes
        .iter()
        .take(600)
        .map(|byte| format!("{byte:02X}"))
        .collect();
    let more = if bytes.len() > 600 { " .." } else { "" };
    format!("{}{more}", shown.join(" "))
}
