//! Arguments of the edits and combinations, with their edge cases: full, empty and one-point
//! envelopes, times that fall together or overflow, grids, factors and durations at 0 and below
//! it, merges that replace points, results past 256 points, and numbers that are not finite.
use crate::edges::{near, near_double, sign};
use crate::envelopes::{sort, NOT_FINITE};
use crate::forms::signature;
use crate::random::Random;
use crate::records::{of_points, AutomationPoint, Envelope};
use crate::text::Arg;

pub fn arguments(r: &mut Random, op: &str) -> Vec<Arg> {
    let (kinds, _) = signature(op).unwrap();
    let first = r.envelope_of(points_of_first);
    let mut a = vec![Arg::E(first.clone())];
    for kind in kinds.chars().skip(1) {
        let x = match kind {
            'E' => Arg::E(other(r, op, &first)),
            'L' => Arg::L(list(r, op, &first)),
            'D' => Arg::D(double(r, op, &a)),
            'F' => Arg::F(single(r, op, &a)),
            'O' => Arg::O(limit(r)),
            'B' => Arg::B(r.once_in(2)),
            'C' => Arg::C(r.curve()),
            _ => {
                let near = point_of(r, &first).map(|i| first.rust.points[i].clone());
                Arg::P(r.point(near.as_ref(), None))
            }
        };
        a.push(x);
    }
    for x in &mut a {
        if let Arg::E(e) = x {
            if r.once_in(40) {
                *e = r.spoiled(e.clone());
            }
        }
    }
    a
}

// ---- envelopes

fn points_of_first(r: &mut Random) -> u64 {
    match r.below(100) {
        0..=2 => 256,
        3 => 255,
        4 => 120 + r.below(60),
        5..=11 => 0,
        12..=23 => 1,
        24..=38 => 2,
        _ => 2 + r.below(7),
    }
}

/// One of the points, where there are some; more often than not.
fn point_of(r: &mut Random, e: &Envelope) -> Option<usize> {
    let n = e.rust.points.len() as u64;
    if n == 0 || r.once_in(3) {
        return None;
    }
    Some(r.below(n) as usize)
}

/// The second envelope. Beside one of many points it often has many too.
fn other(r: &mut Random, op: &str, first: &Envelope) -> Envelope {
    if first.rust.points.len() > 100 && r.once_in(2) {
        return other_of_many(r, first);
    }
    if !first.rust.points.is_empty() && r.once_in(4) {
        let mut e = r.envelope_of(points_of_first);
        for p in &mut e.rust.points {
            let same = r.one_of(&first.rust.points).time;
            p.time = if r.once_in(6) { -same } else { same };
        }
        sort(&mut e);
        return e;
    }
    r.second(op, first)
}

/// A second envelope and an offset, for the merge into a first one.
pub fn to_merge(r: &mut Random, first: &Envelope) -> (Envelope, f64) {
    let second = other(r, "merge", first);
    let before = [first, &second].map(|e| Arg::E(e.clone()));
    let offset = double(r, "merge", &before);
    (second, offset)
}

/// The same times with other values; none of them, up to 512 together or just 256 or 257; or any.
fn other_of_many(r: &mut Random, first: &Envelope) -> Envelope {
    let mut e = first.clone();
    let left = 256 - first.rust.points.len();
    match r.below(4) {
        0 => {
            for p in &mut e.rust.points {
                p.value = r.single();
            }
        }
        1 | 2 => {
            for p in &mut e.rust.points {
                p.time += 1000.0;
            }
            let most = r.one_of(&[left, left + 1, 256]);
            e.rust.points.truncate(most);
            sort(&mut e);
        }
        _ => return r.envelope_of(|r| r.one_of(&[256, 256, 255, 130])),
    }
    e
}

/// A lent list of points: those of a second envelope; or one that is not valid, by a point or by
/// its length, 256 among them.
fn list(r: &mut Random, op: &str, first: &Envelope) -> Vec<AutomationPoint> {
    let e = other(r, op, first);
    match r.below(24) {
        0 => (0..256 + r.one_of(&[0, 1, 2, 44]))
            .map(|k| AutomationPoint::new(k as f64, r.single()))
            .collect(),
        1..=3 => r.spoiled(e).rust.points,
        _ => e.rust.points,
    }
}

// ---- numbers

fn limit(r: &mut Random) -> Option<f32> {
    match r.below(12) {
        0 => Some(r.one_of(&NOT_FINITE) as f32),
        1..=3 => None,
        4 => Some(r.one_of(&[0.0, -0.0])),
        _ => Some(r.single()),
    }
}

fn first(a: &[Arg]) -> &Envelope {
    match &a[0] {
        Arg::E(e) => e,
        _ => panic!("driver: an edit without an envelope"),
    }
}

fn double(r: &mut Random, op: &str, a: &[Arg]) -> f64 {
    if r.once_in(30) {
        return r.one_of(&NOT_FINITE);
    }
    let e = first(a);
    let at = point_of(r, e).map(|i| e.rust.points[i].time);
    let x = match (op, a) {
        ("remove_point_at", _) => beside(r, at),
        ("shift", _) => offset(r, at),
        ("scale_time", _) => factor(r),
        ("trim", _) => bound(r, at),
        ("quantize_time", _) => grid(r, at),
        ("merge", [_, Arg::E(o)]) => offset_of(r, at, o),
        ("merge_points", [_, Arg::L(l)]) => offset_of(r, at, &of_points(l)),
        ("pulse", [_, .., Arg::D(before)]) if r.once_in(4) => -before,
        _ => duration(r, e),
    };
    if x.is_finite() {
        x
    } else {
        1.0
    }
}

/// About 0.001 from a time.
pub fn beside(r: &mut Random, at: Option<f64>) -> f64 {
    let Some(t) = at else {
        return r.double();
    };
    let apart = match r.below(4) {
        0 => 0.0,
        1 => 0.001,
        2 => near_double(r, 0.001, 3),
        _ => r.unit() * 0.002,
    };
    t + apart * sign(r)
}

/// Nothing, to 0, so far that times fall together or overflow, or any other.
fn offset(r: &mut Random, at: Option<f64>) -> f64 {
    match (r.below(10), at) {
        (0, _) => 0.0,
        (1, _) => -0.0,
        (2, _) => sign(r) * f64::MAX * (1.0 - r.unit() / 2.0),
        (3, _) => sign(r) * r.one_of(&[1e9, 1e15, 1e16, 1e17, 1e300]),
        (4, _) => sign(r) * r.one_of(&[f64::from_bits(1), 1e-300, 1e-17]),
        (5 | 6, Some(t)) => -t,
        _ => r.double(),
    }
}

/// From a point of the other to one of the first, or any offset.
fn offset_of(r: &mut Random, at: Option<f64>, other: &Envelope) -> f64 {
    let from = point_of(r, other).map(|i| other.rust.points[i].time);
    match (at, from) {
        (Some(t), Some(f)) if r.once_in(2) => t - f,
        _ => offset(r, at),
    }
}

fn factor(r: &mut Random) -> f64 {
    match r.below(8) {
        0 => r.one_of(&[0.0, -0.0, -1.0, -0.5, -f64::MAX]),
        1 => r.one_of(&[f64::from_bits(1), 1e-320, 1e-300, 1e-160]),
        2 => r.one_of(&[f64::MAX, 1e300, 1e160]),
        3 => r.one_of(&[1.0, 2.0, 0.5, 0.1, 3.0]),
        4 => near_double(r, 1.0, 2),
        5 => r.unit(),
        _ => r.double(),
    }
}

fn bound(r: &mut Random, at: Option<f64>) -> f64 {
    match (r.below(6), at) {
        (0..=2, Some(t)) => t,
        (3, Some(t)) => near_double(r, t, 1),
        (4, Some(t)) => -t,
        (5, _) => r.one_of(&[0.0, -0.0, f64::MAX, -f64::MAX]),
        _ => r.double(),
    }
}

/// At most 0, such that a time lies halfway, so small that a quotient overflows, or so large that
/// the times fall together.
fn grid(r: &mut Random, at: Option<f64>) -> f64 {
    match (r.below(9), at) {
        (0, _) => r.one_of(&[0.0, -0.0, -1.0, -f64::MAX, -f64::from_bits(1)]),
        (1, _) => r.one_of(&[f64::from_bits(1), 1e-308, 1e-300]),
        (2, _) => r.one_of(&[f64::MAX, 1e300, 100.0]),
        (3, Some(t)) => (t / (r.below(8) as f64 + 0.5)).abs(),
        (4, Some(t)) => {
            let x = (t / (r.below(8) as f64 + 0.5)).abs();
            near_double(r, x, 1)
        }
        (5, _) => r.unit() * 4.0,
        _ => r.one_of(&[1.0, 0.5, 0.25, 0.1, 3.0, 10.0]),
    }
}

/// At most 0, the span of the points or of some, or any other.
fn duration(r: &mut Random, e: &Envelope) -> f64 {
    let ends = match (e.rust.points.first(), e.rust.points.last()) {
        (Some(p), Some(q)) => Some((p.time, q.time)),
        _ => None,
    };
    match (r.below(10), ends) {
        (0, _) => r.one_of(&[0.0, -0.0, -1.0, -0.25, -f64::MAX]),
        (1, _) => r.one_of(&[f64::from_bits(1), 1e-300, 1e-3]),
        (2, _) => r.one_of(&[f64::MAX, 1e308, 1e300]),
        (3, Some((s, t))) => t - s,
        (4, Some((s, t))) => near_double(r, t - s, 1),
        (5..=7, Some((s, t))) => (t - s) * r.unit() * 1.5,
        _ => r.double(),
    }
}

fn single(r: &mut Random, op: &str, a: &[Arg]) -> f32 {
    if r.once_in(30) {
        return r.one_of(&NOT_FINITE) as f32;
    }
    let e = first(a);
    let value = point_of(r, e).map(|i| e.rust.points[i].value);
    let x = match (op, a) {
        ("simplify", _) => tolerance(r, e),
        ("scale", _) | ("apply_compression", [_, Arg::F(_)]) => ratio(r),
        ("offset", _) => match (r.below(4), value) {
            (0, Some(v)) => -v,
            (1, _) => sign(r) as f32 * f32::MAX * (1.0 - r.unit() as f32 / 2.0),
            _ => r.single(),
        },
        ("blend", _) => match r.below(4) {
            0 => r.one_of(&[0.0, -0.0, 1.0, 0.5]),
            1 => near(r, 1.0, 1),
            2 => r.single(),
            _ => r.unit() as f32,
        },
        ("clamp_values", [_, Arg::F(low)]) if !r.once_in(5) => level(r, value).max(*low),
        _ => level(r, value),
    };
    if x.is_finite() {
        x
    } else {
        1.0
    }
}

/// A value of a point, one beside it, a zero, a large number, or any other.
fn level(r: &mut Random, value: Option<f32>) -> f32 {
    match (r.below(8), value) {
        (0..=2, Some(v)) => v,
        (3, Some(v)) => near(r, v, 1),
        (4, _) => r.one_of(&[0.0, -0.0]),
        (5, _) => sign(r) as f32 * f32::MAX * (1.0 - r.unit() as f32 / 2.0),
        _ => r.single(),
    }
}

pub fn ratio(r: &mut Random) -> f32 {
    match r.below(6) {
        0 => r.one_of(&[0.0, -0.0, -1.0, -4.0]),
        1 => r.one_of(&[f32::from_bits(1), 1e-40, 1e-30]),
        2 => r.one_of(&[f32::MAX, 3e38, 1e20]),
        3 => r.one_of(&[1.0, 2.0, 0.5, 4.0, 3.0]),
        _ => r.single(),
    }
}

/// How far a point lies from the curve between its neighbours, or about that far.
pub fn tolerance(r: &mut Random, e: &Envelope) -> f32 {
    let n = e.rust.points.len() as u64;
    if n > 2 && !r.once_in(3) {
        let i = 1 + r.below(n - 2) as usize;
        let [p, q, s] = &e.rust.points[i - 1..=i + 1] else {
            panic!("driver: three points");
        };
        let t = ((q.time - p.time) / (s.time - p.time)) as f32;
        let apart = (q.value - p.curve.interpolate(p.value, s.value, t)).abs();
        return if r.once_in(3) { near(r, apart, 1) } else { apart };
    }
    match r.below(4) {
        0 => r.one_of(&[0.0, -0.0, -1.0, f32::MAX]),
        1 => r.unit() as f32 * 4.0,
        _ => r.single(),
    }
}
