//! Edits of a session that are nearly idle, and count: they change one thing of an envelope, mostly by a bit;
//! or they lead to the envelope before the last edit, or to one that stands ahead.
use crate::idle::{given, point_there, Edit};
use crate::random::Random;
use crate::records::{controls, empty_place, AutomationPoint, CurveType, Envelope};
use crate::same_bits::{differences, same_bits};
use crate::text::Arg::{self, *};

/// Which one thing differs, if it is but one.
pub fn one_thing(a: &Envelope, b: &Envelope) -> Option<&'static str> {
    let mut all = differences(a, b);
    if !all.is_empty() && all.iter().all(|d| d.0 == "time") {
        return near_times(a, b);
    }
    if all.iter().any(|d| d.0 == "curve") {
        // controls come and go with a curve
        all.retain(|d| !d.0.ends_with("control"));
    }
    let [(field, place)] = all[..] else {
        return None;
    };
    let last = a.rust.points.len().max(1) - 1;
    let value = |e: &Envelope| e.rust.points[place].value;
    match field {
        "enabled" | "hard" | "count" => Some(field),
        "min" | "max" | "step" => near_limits(limit(a, field), limit(b, field)),
        _ if place == 255 => Some("256th place"),
        "value" if value(a) == value(b) => Some("value, sign of 0"),
        "value" if place == 0 => Some("first value"),
        "value" if place == last => Some("last value"),
        "first control" | "second control" => Some("control"),
        _ => Some(field),
    }
}

/// Times that differ in a zero's sign alone, or by what the Rust's equalities allow.
fn near_times(a: &Envelope, b: &Envelope) -> Option<&'static str> {
    let all = |near: fn(f64, f64) -> bool| {
        let mut pairs = a.rust.points.iter().zip(&b.rust.points);
        pairs.all(|(p, q)| near(p.time, q.time))
    };
    if all(|s, t| s == t) {
        return Some("time, sign of 0");
    }
    all(|s, t| (s - t).abs() < f64::EPSILON).then_some("times within 2^-52")
}

/// Limits that are zeros, or none and a zero, or neighbours.
fn near_limits(a: Option<f32>, b: Option<f32>) -> Option<&'static str> {
    match (a, b) {
        (Some(x), Some(y)) if x == y => Some("limit, sign of 0"),
        (Some(x), Some(y)) if x.to_bits() ^ y.to_bits() == 1 => Some("limit by a bit"),
        (None, Some(x)) | (Some(x), None) if x == 0.0 => Some("limit, none or 0"),
        _ => None,
    }
}

pub fn limit(e: &Envelope, field: &str) -> Option<f32> {
    match field {
        "min" => e.rust.min_value,
        "max" => e.rust.max_value,
        _ => e.rust.step_size,
    }
}

// ---- edits that change one thing

type Way = fn(&mut Random, &Envelope) -> Edit;

const WAYS: [Way; 9] = [
    switch,
    other_limit,
    other_point,
    other_point,
    other_point,
    other_times,
    one_more,
    one_less,
    combined,
];

impl Random {
    /// An edit that changes one thing, if some draws come to one.
    pub fn nearly_idle(&mut self, e: &Envelope) -> Option<Edit> {
        let way = if has_minus_zero(e) && self.once_in(3) {
            other_times
        } else {
            self.one_of(&WAYS)
        };
        let near = |edit: &Edit| given(e, edit).is_some_and(|f| one_thing(e, &f).is_some());
        (0..4).map(|_| way(self, e)).find(near)
    }
}

fn switch(r: &mut Random, e: &Envelope) -> Edit {
    r.one_of(&[
        ("set_enabled", vec![B(!e.rust.enabled)]),
        ("set_hard", vec![B(!e.hard)]),
    ])
}

/// Another sign of a zero, else another last bit.
pub fn by_a_bit(x: f32) -> f32 {
    let bits = if x == 0.0 { 1 << 31 } else { 1 };
    f32::from_bits(x.to_bits() ^ bits)
}

/// A limit that comes or goes as a zero, or changes by a bit; often one that is a zero.
fn other_limit(r: &mut Random, e: &Envelope) -> Edit {
    let all = [("set_min", "min"), ("set_max", "max"), ("set_step", "step")];
    let zeros = all.iter().filter(|l| limit(e, l.1) == Some(0.0));
    let zeros: Vec<_> = zeros.copied().collect();
    let (op, field) = if zeros.is_empty() || r.once_in(3) {
        r.one_of(&all)
    } else {
        r.one_of(&zeros)
    };
    let other = match limit(e, field) {
        None => Some(r.one_of(&[0.0, -0.0])),
        Some(0.0) if r.once_in(3) => None,
        Some(x) => Some(by_a_bit(x)),
    };
    (op, vec![O(other)])
}

/// A point of the envelope, often the first, the last or one with controls.
fn chosen(r: &mut Random, e: &Envelope) -> AutomationPoint {
    let points = &e.rust.points;
    let bezier = points.iter().find(|p| controls(&p.curve).is_some());
    let chosen = match r.below(4) {
        _ if points.len() == 256 => points.last(),
        0 => points.first(),
        1 => points.last(),
        2 => bezier,
        _ => None,
    };
    chosen.cloned().unwrap_or_else(|| point_there(r, e))
}

/// A point of the envelope with one field changed: added, or merged.
fn other_point(r: &mut Random, e: &Envelope) -> Edit {
    let mut p = chosen(r, e);
    match (r.below(4), controls(&p.curve)) {
        (0, _) => p.sample_position = other_position(r, p.sample_position),
        (1, _) => p.value = by_a_bit(p.value),
        (_, Some((a, b))) if !r.once_in(4) => {
            let (first, second) = (
                CurveType::Bezier(by_a_bit(a), b),
                CurveType::Bezier(a, by_a_bit(b)),
            );
            p.curve = r.one_of(&[first, second]);
        }
        (2, _) => p.curve = CurveType::Bezier(r.one_of(&[0.0, -0.0, 0.25]), 1.0),
        _ => p.curve = r.curve(),
    }
    if r.once_in(3) {
        let mut other = r.envelope_of(|_| 0);
        other.rust.points.push(p);
        return ("merge", vec![E(other), D(-0.0)]);
    }
    ("add_point", vec![P(p)])
}

pub fn other_position(r: &mut Random, position: Option<u64>) -> Option<u64> {
    match position {
        None => Some(r.one_of(&[0, 0, 1, u64::MAX])),
        Some(_) if r.once_in(2) => None,
        Some(k) => Some(k ^ r.one_of(&[1, 1 << 32, 1 << 63])),
    }
}

fn has_minus_zero(e: &Envelope) -> bool {
    let minus = (-0.0f64).to_bits();
    e.rust.points.iter().any(|p| p.time.to_bits() == minus)
}

/// Times moved by a unit in the last place, or from -0.0 to 0.0.
fn other_times(r: &mut Random, e: &Envelope) -> Edit {
    let t = point_there(r, e).time.abs();
    let unit = f64::from_bits(t.to_bits() + 1) - t;
    match r.below(4) {
        0 | 1 if has_minus_zero(e) => ("shift", vec![D(0.0)]),
        0 | 1 => ("shift", vec![D(r.one_of(&[unit, -unit, unit / 2.0]))]),
        2 => (
            "scale_time",
            vec![D(r.one_of(&[1.0 + f64::EPSILON, 1.0 - f64::EPSILON]))],
        ),
        _ => ("quantize_time", vec![D(r.one_of(&[0.1, 0.2, 0.3, 1e-3]))]),
    }
}

/// A point that is as a place past the count. At the end, where all times are before 0.0, it changes the
/// count alone.
fn one_more(_: &mut Random, _: &Envelope) -> Edit {
    ("add_point", vec![P(empty_place())])
}

fn one_less(r: &mut Random, _: &Envelope) -> Edit {
    let trim = ("trim", vec![D(-f64::MAX), D(-f64::from_bits(1))]);
    r.one_of(&[("remove_point_at", vec![D(0.0)]), trim])
}

/// The lesser or the greater of the envelope and one that differs from it in one value.
fn combined(r: &mut Random, e: &Envelope) -> Edit {
    let mut other = e.clone();
    let n = e.rust.points.len() as u64;
    if n > 0 {
        let place = r.below(n) as usize;
        let value = &mut other.rust.points[place].value;
        *value = by_a_bit(*value);
    }
    (r.one_of(&["min", "max"]), vec![E(other)])
}

// ---- edits that lead somewhere

/// An edit that leads from an envelope to another, where one does it.
pub fn towards(e: &Envelope, f: &Envelope) -> Option<Edit> {
    let leads = |edit: &Edit| given(e, edit).is_some_and(|g| same_bits(&g, f));
    tried(e, f).into_iter().find(leads)
}

fn tried(e: &Envelope, f: &Envelope) -> Vec<Edit> {
    let single = |a: Arg| vec![a];
    let mut all = vec![
        ("set_enabled", single(B(f.rust.enabled))),
        ("set_hard", single(B(f.hard))),
        ("set_min", single(O(f.rust.min_value))),
        ("set_max", single(O(f.rust.max_value))),
        ("set_step", single(O(f.rust.step_size))),
        ("reverse", vec![]),
    ];
    let place = differences(e, f)
        .iter()
        .find(|d| d.0 != "count")
        .map_or(0, |d| d.1);
    if let Some(p) = f.rust.points.get(place) {
        all.push(("add_point", single(P(p.clone()))));
    }
    if let Some(p) = e.rust.points.get(place) {
        all.push(("remove_point_at", single(D(p.time))));
    }
    if let (Some(p), Some(q)) = (e.rust.points.first(), f.rust.points.first()) {
        all.push(("shift", single(D(q.time - p.time))));
        all.push(("scale", single(F(q.value / p.value))));
        all.push(("offset", single(F(q.value - p.value))));
    }
    all
}
