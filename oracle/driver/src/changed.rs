//! Envelopes that differ from another in one thing, mostly by a bit, and are valid: the first of a ticket that is
//! stale by no more than that.
use crate::domain::valid;
use crate::nearly::{by_a_bit, limit, other_position};
use crate::random::Random;
use crate::records::{controls, empty_place, AutomationPoint, CurveType, Envelope};
use crate::same_bits::same_bits;

/// A thing, and how an envelope is made to differ in it. Not every envelope can be.
type Way = (&'static str, fn(&mut Random, &mut Envelope));

pub const WAYS: &[Way] = &[
    ("target", |r, e| e.rust.target ^= 1 << r.below(32)),
    ("enabled", |_, e| e.rust.enabled = !e.rust.enabled),
    ("hard", |_, e| e.hard = !e.hard),
    ("min", |r, e| e.rust.min_value = other_limit(r, limit(e, "min"))),
    ("max", |r, e| e.rust.max_value = other_limit(r, limit(e, "max"))),
    ("step", |r, e| e.rust.step_size = other_limit(r, limit(e, "step"))),
    ("time", |r, e| of_point(r, e, other_time)),
    ("time, sign of 0", |r, e| {
        of_point(r, e, |_, p| p.time = turned(p.time))
    }),
    ("position", |r, e| {
        of_point(r, e, |r, p| {
            p.sample_position = other_position(r, p.sample_position)
        })
    }),
    ("value", |r, e| of_point(r, e, other_value)),
    ("value, sign of 0", |r, e| {
        of_point(r, e, |_, p| p.value = turned(p.value.into()) as f32)
    }),
    ("curve", |r, e| of_point(r, e, |r, p| p.curve = other_curve(r, p))),
    ("control", other_control),
    ("control", other_control),
    ("count", other_count),
];

/// The envelope made to differ in a thing, if some draws come to it.
pub fn in_thing(r: &mut Random, e: &Envelope, (_, way): &Way, draws: u64) -> Option<Envelope> {
    let mut draw = || {
        let mut f = e.clone();
        way(r, &mut f);
        f
    };
    (0..draws).map(|_| draw()).find(|f| valid(f) && !same_bits(e, f))
}

/// The envelope made to differ in any one thing.
pub fn changed(r: &mut Random, e: &Envelope) -> Envelope {
    loop {
        // the target can always be another
        let way = r.one_of(WAYS);
        if let Some(f) = in_thing(r, e, &way, 6) {
            return f;
        }
    }
}

// ---- one thing each

fn of_point(r: &mut Random, e: &mut Envelope, change: fn(&mut Random, &mut AutomationPoint)) {
    let n = e.rust.points.len();
    if n > 0 {
        let any = r.below(n as u64) as usize;
        let place = r.one_of(&[0, n - 1, any]);
        change(r, &mut e.rust.points[place]);
    }
}

/// A zero of the other sign.
fn turned(x: f64) -> f64 {
    if x == 0.0 {
        -x
    } else {
        x
    }
}

/// A zero that comes or goes, or any bit but those of the exponent.
fn other_limit(r: &mut Random, x: Option<f32>) -> Option<f32> {
    match x {
        None => Some(r.one_of(&[0.0, -0.0])),
        Some(0.0) if r.once_in(2) => None,
        Some(x) if r.once_in(2) => Some(by_a_bit(x)),
        Some(x) => Some(f32::from_bits(x.to_bits() ^ 1 << r.one_of(&[0, 22, 31]))),
    }
}

fn other_time(r: &mut Random, p: &mut AutomationPoint) {
    p.time = f64::from_bits(p.time.to_bits() ^ 1 << r.one_of(&[0, 0, 0, 1, 31, 32, 51]));
}

fn other_value(r: &mut Random, p: &mut AutomationPoint) {
    p.value = f32::from_bits(p.value.to_bits() ^ 1 << r.one_of(&[0, 0, 0, 1, 16, 22, 31]));
}

/// A curve of another code; a Bezier one gets controls of 0.0.
fn other_curve(r: &mut Random, p: &AutomationPoint) -> CurveType {
    match controls(&p.curve) {
        Some(_) => CurveType::Linear,
        None => r.one_of(&[CurveType::Bezier(0.0, 0.0), CurveType::Linear, CurveType::SCurve]),
    }
}

/// A control of the first point that has them.
fn other_control(r: &mut Random, e: &mut Envelope) {
    let mut points = e.rust.points.iter_mut();
    if let Some((p, (a, b))) = points.find_map(|p| controls(&p.curve).map(|c| (p, c))) {
        let first = CurveType::Bezier(by_a_bit(a), b);
        p.curve = r.one_of(&[first, CurveType::Bezier(a, by_a_bit(b))]);
    }
}

/// A point more that is as a place past the count, or such a point less, so that all places are as they were; or the
/// last point less.
fn other_count(r: &mut Random, e: &mut Envelope) {
    if r.once_in(3) || e.rust.points.last().is_some_and(|p| p.time.to_bits() == 0) {
        e.rust.points.pop();
    } else {
        e.rust.points.push(empty_place());
    }
}
