//! A merge that is asked first (request F-3): the count that the Rust's merge gives, or the refusal of that merge.
use crate::calls::call;
use crate::domain::{valid, ROOM};
use crate::records::Envelope;
use crate::rules::hold;
use crate::text::Arg::{self, *};
use std::collections::BTreeSet;

/// The answer to an ask, held against the rule.
pub fn answer(a: &[Arg], raw: bool) -> String {
    let merged = call("merge", a, raw);
    let text = match merged.envelope {
        Some(e) => format!("ok {}", e.rust.points.len()),
        None => merged.text,
    };
    hold(raw || text == by_rule(a), "an ask");
    text
}

/// Why a call is refused: the number, and what is not in order.
pub type Cause = (u32, &'static str);

/// The parts of an ask or of a ticket.
pub fn parts(a: &[Arg]) -> (&Envelope, &Envelope, f64) {
    match a {
        [E(first), E(second), D(offset)] => (first, second, *offset),
        _ => panic!("driver: the parts of a ticket"),
    }
}

/// How many times both lists have together, the same bits once.
fn times(a: &[Arg]) -> usize {
    let (first, second, offset) = parts(a);
    let moved = second.rust.points.iter().map(|p| p.time + offset);
    let all = first.rust.points.iter().map(|p| p.time).chain(moved);
    all.map(f64::to_bits).collect::<BTreeSet<u64>>().len()
}

/// All causes for which a merge is refused, each by itself, in the papers' order: 1, argument 3, result 3, 5.
pub fn causes(a: &[Arg]) -> Vec<Cause> {
    let (first, second, offset) = parts(a);
    let overflows = second.rust.points.iter().any(|p| !(p.time + offset).is_finite());
    let all = [
        ((1, "the first"), !valid(first)),
        ((1, "the second"), !valid(second)),
        ((3, "the offset"), !offset.is_finite()),
        ((3, "a time"), offset.is_finite() && overflows),
        ((5, "the count"), offset.is_finite() && times(a) > ROOM),
    ];
    all.into_iter().filter(|c| c.1).map(|c| c.0).collect()
}

/// By the papers alone, without the Rust's merge.
fn by_rule(a: &[Arg]) -> String {
    match causes(a).first() {
        Some((n, _)) => format!("refuse {n}"),
        None => format!("ok {}", times(a)),
    }
}
