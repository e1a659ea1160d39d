//! The words of a stored state, by docs/STATE.md, and the step memory before opening.
use crate::records::{code_of, controls, AutomationPoint, Envelope};

/// Words of a stored state.
pub const STATE: usize = 1028;

/// All words of the step memory. A session is lent the first ones.
pub const MEMORY: u64 = 20480;

/// Before the opening the word i holds 2^64 - 1 - i.
pub fn before_opening() -> Vec<u64> {
    (0..MEMORY).map(|i| u64::MAX - i).collect()
}

/// Two halves of 32 bits.
fn halves(high: u32, low: u32) -> u64 {
    u64::from(high) << 32 | u64::from(low)
}

fn bits(x: Option<f32>) -> u32 {
    x.map_or(0, f32::to_bits)
}

fn point(p: &AutomationPoint) -> [u64; 4] {
    let (first, second) = controls(&p.curve).map_or((0, 0), |(a, b)| (a.to_bits(), b.to_bits()));
    let code = code_of(&p.curve) as u32 * 2 + p.sample_position.is_some() as u32;
    [
        p.time.to_bits(),
        p.sample_position.unwrap_or(0),
        halves(second, first),
        halves(code, p.value.to_bits()),
    ]
}

/// The state of an envelope.
pub fn packed(e: &Envelope) -> Vec<u64> {
    let flags = [
        e.rust.enabled,
        e.rust.min_value.is_some(),
        e.rust.max_value.is_some(),
        e.rust.step_size.is_some(),
        e.hard,
    ];
    let flags = (0..).zip(flags).map(|(k, set)| (set as u32) << k).sum();
    let mut words = vec![
        halves(flags, e.rust.target),
        e.rust.points.len() as u64,
        halves(bits(e.rust.max_value), bits(e.rust.min_value)),
        halves(0, bits(e.rust.step_size)),
    ];
    words.extend(e.rust.points.iter().flat_map(point));
    words.resize(STATE, 0);
    words
}

/// The words as the digits of a number of base 1,000,003, modulo the largest prime below 2^43.
pub fn sum(words: &[u64]) -> u64 {
    const PRIME: u64 = (1 << 43) - 57;
    let with = |sum: u64, word: &u64| (sum * 1_000_003 + word % PRIME) % PRIME;
    words.iter().fold(0, with)
}
