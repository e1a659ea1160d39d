//! Document 01's domain and its refusals, in its order.
use crate::forms::signature;
use crate::records::{controls, of_points, AutomationPoint, CurveType, Envelope};
use crate::text::{sheet, Arg};

/// The most samples of a run.
pub const MOST: u64 = u32::MAX as u64;

fn finite_curve(c: &CurveType) -> bool {
    controls(c).is_none_or(|(a, b)| a.is_finite() && b.is_finite())
}

fn finite_point(p: &AutomationPoint) -> bool {
    p.time.is_finite() && p.value.is_finite() && finite_curve(&p.curve)
}

fn finite(e: &Envelope) -> bool {
    let settings = [e.rust.min_value, e.rust.max_value, e.rust.step_size];
    settings.iter().flatten().all(|x| x.is_finite()) && e.rust.points.iter().all(finite_point)
}

fn rises(e: &Envelope) -> bool {
    e.rust
        .points
        .windows(2)
        .all(|w| w[0].time.total_cmp(&w[1].time).is_lt())
}

pub fn valid(e: &Envelope) -> bool {
    e.rust.points.len() <= ROOM && finite(e) && rises(e)
}

/// A point's key in the lookup by sample.
pub fn key(p: &AutomationPoint) -> u64 {
    p.sample_position.unwrap_or((p.time * 48000.0) as u64)
}

fn keys_rise(e: &Envelope) -> bool {
    e.rust.points.len() < 2 || !e.rust.enabled || e.rust.points.windows(2).all(|w| key(&w[0]) < key(&w[1]))
}

/// The step of get_range_samples.
pub fn stride(first: u64, last: u64) -> u64 {
    ((last - first) / 100).max(1)
}

fn finite_argument(kind: char, a: &Arg) -> bool {
    match a {
        Arg::D(v) => kind == 'T' || v.is_finite(),
        Arg::F(v) => v.is_finite(),
        Arg::O(v) => v.is_none_or(f32::is_finite),
        Arg::C(c) => finite_curve(c),
        Arg::P(p) => finite_point(p),
        _ => true,
    }
}

/// The refusal that comes before the call.
pub fn refused_before(op: &str, a: &[Arg]) -> Option<u32> {
    use Arg::*;
    let (kinds, group) = signature(op)?;
    if group == 'n' || op == "valid" {
        return None;
    }
    let not_valid = |x: &Arg| match x {
        E(e) => !valid(e),
        L(l) => !valid(&of_points(l)),
        _ => false,
    };
    if a.iter().any(not_valid) {
        return Some(1);
    }
    if !kinds.chars().zip(a).all(|(k, x)| finite_argument(k, x)) {
        return Some(3);
    }
    refused_by_size(op, a).or_else(|| match (op, a) {
        ("value_at_sample" | "range_samples", [E(e), ..]) if !keys_rise(e) => Some(7),
        _ => None,
    })
}

/// 4, 13 and 8.
fn refused_by_size(op: &str, a: &[Arg]) -> Option<u32> {
    use Arg::*;
    match (op, a) {
        ("clamp_values", [_, F(x), F(y)]) if x > y => Some(4),
        ("range_samples", [_, U(s), U(t)]) if s > t => Some(4),
        ("range_samples", [_, U(s), U(t)]) => {
            // the place after the last one looked at must fit
            let step = stride(*s, *t) as u128;
            let next = *s as u128 + ((t - s) as u128 / step + 1) * step;
            (next > u64::MAX as u128).then_some(13)
        }
        ("render", [_, _, N(first), N(count), N(place), N(len)]) => {
            over(*first as u128 + *count as u128).or(lacks(*count, *place, *len))
        }
        ("to_buffer", [_, D(rate), D(duration), N(place), N(len)]) => {
            let n = (duration * rate) as u64;
            over(n as u128).or(lacks(n, *place, *len))
        }
        ("walk", [_, D(rate), D(duration), _]) => over((duration * rate) as u64 as u128),
        ("peaks", [E(e), N(x), N(y)]) => lacks(e.rust.find_peaks().len() as u64, 0, *x.min(y)),
        ("valleys", [E(e), N(x), N(y)]) => lacks(e.rust.find_valleys().len() as u64, 0, *x.min(y)),
        ("sheet", [E(e), N(len)]) => lacks(sheet(e).len() as u64, 0, *len),
        _ => None,
    }
}

fn over(samples: u128) -> Option<u32> {
    (samples > MOST as u128).then_some(13)
}

/// A lent part of `len` places has none past its end.
fn lacks(count: u64, place: u64, len: u64) -> Option<u32> {
    (count > len.saturating_sub(place)).then_some(8)
}

/// How many points an envelope may have.
pub const ROOM: usize = 256;

/// The refusal of an edit's result.
pub fn refused_after(e: &Envelope) -> Option<u32> {
    if !finite(e) {
        Some(3)
    } else if !rises(e) {
        Some(6)
    } else if e.rust.points.len() > ROOM {
        Some(5)
    } else {
        None
    }
}
