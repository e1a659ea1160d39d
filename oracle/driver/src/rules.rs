//! Where Rust leaves the sign of a zero open, document 01 fixes it: max and min keep the first of
//! two equal zeros. The functions here compute an answer by 01's rule, hold it against the Rust's,
//! and say beside it whether it is such a zero. With `hard` on, request F-1's rule goes on from there.
use crate::records::{Envelope, RustEnvelope};

/// A value, and whether it is a zero whose sign the Rust leaves open.
pub type Marked = (f32, bool);

/// 01's max: a NaN gives the other, equal zeros keep the first.
pub fn max(a: f32, b: f32) -> Marked {
    pick(a, b, a < b)
}

/// 01's min.
pub fn min(a: f32, b: f32) -> Marked {
    pick(a, b, b < a)
}

fn pick(a: f32, b: f32, second: bool) -> Marked {
    if a.is_nan() {
        return (b, false);
    }
    let open = a == 0.0 && b == 0.0 && a.to_bits() != b.to_bits();
    (if second { b } else { a }, open)
}

/// The Rust's answer is the one of 01's rule: any NaN for any NaN, either zero for an open one.
pub fn same(rust: f32, (v, open): Marked) -> bool {
    rust.to_bits() == v.to_bits() || (rust.is_nan() && v.is_nan()) || (open && rust == 0.0 && v == 0.0)
}

/// The limits that are set: max with the minimum, then min with the maximum.
fn limited(e: &RustEnvelope, value: f32) -> Marked {
    let (mut v, mut open) = (value, false);
    if let Some(m) = e.min_value {
        let (w, o) = max(v, m);
        v = w;
        open |= o;
    }
    if let Some(m) = e.max_value {
        let (w, o) = min(v, m);
        v = w;
        open |= o;
    }
    // a later bound may have replaced the open zero
    (v, open && v == 0.0)
}

/// 01's constraints on a raw value, written from the paper: the limits, then the step.
fn constrained(e: &RustEnvelope, raw: f32) -> Marked {
    let (mut v, open) = limited(e, raw);
    if let Some(s) = e.step_size {
        if s > 0.0 {
            v = libm::roundf(v / s) * s;
        }
    }
    (v, open && v == 0.0)
}

/// The Rust's envelope without its limits and step: its lookups give the raw values.
pub fn bare(e: &Envelope) -> RustEnvelope {
    let mut b = e.rust.clone();
    b.min_value = None;
    b.max_value = None;
    b.step_size = None;
    b
}

/// The lookup by time. `bare` is the envelope without its limits.
pub fn value_at(e: &Envelope, bare: &RustEnvelope, time: f64) -> Option<Marked> {
    agreed(e, e.rust.get_value_at(time), bare.get_value_at(time))
}

/// The lookup by sample.
pub fn value_at_sample(e: &Envelope, bare: &RustEnvelope, sample: u64) -> Option<Marked> {
    agreed(
        e,
        e.rust.get_value_at_sample(sample),
        bare.get_value_at_sample(sample),
    )
}

/// The value by 01's rule, held against the Rust's. With `hard` on the limits are applied to it again; no
/// Rust has part in that, so the rule decides the sign of a zero and none is open.
fn agreed(e: &Envelope, rust: Option<f32>, raw: Option<f32>) -> Option<Marked> {
    hold(
        rust.is_some() == raw.is_some(),
        "limits that make a lookup silent",
    );
    let v = constrained(&e.rust, raw?);
    hold(same(rust?, v), "the constraints");
    Some(if e.hard {
        (limited(&e.rust, v.0).0, false)
    } else {
        v
    })
}

/// Ends the run where the Rust and 01's rule, as it stands here, give different answers: no list
/// is to be made of them.
pub fn hold(agree: bool, what: &str) {
    if !agree {
        eprintln!("oracle_driver: the Rust and 01's rule differ: {what}");
        std::process::exit(3);
    }
}
