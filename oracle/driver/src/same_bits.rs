//! Bit-equality of envelopes, by request F-2: every bit of the settings, of the count and of each place.
//! Written field by field; the Rust's equalities allow a distance, take -0.0 for 0.0 and leave fields out.
use crate::records::{code_of, controls, empty_place, AutomationPoint, Envelope};
use crate::rules::hold;
use crate::state::packed;

/// A field in which two envelopes differ: its name, and its place if it is a point's.
pub type Difference = (&'static str, usize);

/// No bit differs. What the states of the two say is held against it.
pub fn same_bits(a: &Envelope, b: &Envelope) -> bool {
    let same = differences(a, b).is_empty();
    hold(same == (packed(a) == packed(b)), "bit-equality");
    same
}

/// Every field that differs by a bit, in document 01's form of an envelope: the places past a count hold what
/// it says.
pub fn differences(a: &Envelope, b: &Envelope) -> Vec<Difference> {
    let mut all = vec![];
    settings(a, b, &mut all);
    let (n, m) = (a.rust.points.len(), b.rust.points.len());
    if n != m {
        all.push(("count", 0));
    }
    let empty = empty_place();
    for place in 0..n.max(m) {
        let p = a.rust.points.get(place).unwrap_or(&empty);
        let q = b.rust.points.get(place).unwrap_or(&empty);
        place_differs(p, q, place, &mut all);
    }
    all
}

/// A number's bits, or none.
fn bits(x: Option<f32>) -> Option<u32> {
    x.map(f32::to_bits)
}

fn settings(a: &Envelope, b: &Envelope, all: &mut Vec<Difference>) {
    for (name, differs) in [
        ("target", a.rust.target != b.rust.target),
        ("enabled", a.rust.enabled != b.rust.enabled),
        ("hard", a.hard != b.hard),
        ("min", bits(a.rust.min_value) != bits(b.rust.min_value)),
        ("max", bits(a.rust.max_value) != bits(b.rust.max_value)),
        ("step", bits(a.rust.step_size) != bits(b.rust.step_size)),
    ] {
        if differs {
            all.push((name, 0));
        }
    }
}

fn place_differs(p: &AutomationPoint, q: &AutomationPoint, place: usize, all: &mut Vec<Difference>) {
    let first = |p: &AutomationPoint| bits(controls(&p.curve).map(|c| c.0));
    let second = |p: &AutomationPoint| bits(controls(&p.curve).map(|c| c.1));
    for (name, differs) in [
        ("time", p.time.to_bits() != q.time.to_bits()),
        ("position", p.sample_position != q.sample_position),
        ("value", p.value.to_bits() != q.value.to_bits()),
        ("curve", code_of(&p.curve) != code_of(&q.curve)),
        ("first control", first(p) != first(q)),
        ("second control", second(p) != second(q)),
    ] {
        if differs {
            all.push((name, place));
        }
    }
}
