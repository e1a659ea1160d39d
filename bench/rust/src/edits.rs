//! 000's edits on the envelope by value, each with the refusals' tests in document 01's order.
use crate::fixed::{finite_curve, finite_limit, Edited, Envelope, Point, PLACES, UNUSED};
use source::curve::CurveType;
use std::collections::BTreeSet;

fn refused(envelope: Envelope, refusal: u32) -> Edited {
    Edited { refusal, envelope }
}

fn accepted(envelope: Envelope) -> Edited {
    Edited { refusal: 0, envelope }
}

/// 1 and argument 3, then the edit on a copy, then result 3 and 6.
#[inline(always)]
fn edit(e: Envelope, ok: bool, change: impl FnOnce(&mut Envelope)) -> Edited {
    if !e.is_valid() {
        return refused(e, 1);
    }
    if !ok {
        return refused(e, 3);
    }
    let mut new = e;
    change(&mut new);
    if !new.all_finite() {
        return refused(e, 3);
    }
    if !new.times_rise() {
        return refused(e, 6);
    }
    accepted(new)
}

/// The points that a test keeps, in their order; the places after them are unused again.
fn retain(e: &mut Envelope, mut keep: impl FnMut(&Point) -> bool) {
    let mut n = 0;
    for i in 0..e.count {
        if keep(&e.places[i]) {
            e.places[n] = e.places[i];
            n += 1;
        }
    }
    e.places[n..e.count].fill(UNUSED);
    e.count = n;
}

/// Whether there was room.
fn insert(e: &mut Envelope, p: Point) -> bool {
    match e.points().binary_search_by(|q| q.time.total_cmp(&p.time)) {
        Ok(i) => e.places[i] = p,
        Err(_) if e.count == PLACES => return false,
        Err(i) => {
            e.places.copy_within(i..e.count, i + 1);
            e.places[i] = p;
            e.count += 1;
        }
    }
    true
}

#[inline(never)]
pub fn add_point(e: Envelope, p: Point) -> Edited {
    if !e.is_valid() {
        return refused(e, 1);
    }
    if !p.is_finite() {
        return refused(e, 3);
    }
    let mut new = e;
    if !insert(&mut new, p) {
        return refused(e, 5);
    }
    accepted(new)
}

#[inline(never)]
pub fn remove_point_at(e: Envelope, time: f64) -> Edited {
    edit(e, time.is_finite(), |e| {
        if let Some(i) = e.points().iter().position(|p| (p.time - time).abs() < 0.001) {
            e.places.copy_within(i + 1..e.count, i);
            e.count -= 1;
            e.places[e.count] = UNUSED;
        }
    })
}

#[inline(never)]
pub fn shift_points(e: Envelope, offset: f64) -> Edited {
    edit(e, offset.is_finite(), |e| {
        for p in e.points_mut() {
            p.time += offset;
        }
    })
}

#[inline(never)]
pub fn scale_time(e: Envelope, factor: f64) -> Edited {
    edit(e, factor.is_finite(), |e| {
        if factor > 0.0 {
            for p in e.points_mut() {
                p.time *= factor;
            }
        }
    })
}

#[inline(never)]
pub fn trim(e: Envelope, start: f64, end: f64) -> Edited {
    edit(e, start.is_finite() && end.is_finite(), |e| {
        retain(e, |p| p.time >= start && p.time <= end)
    })
}

#[inline(never)]
pub fn reverse(e: Envelope) -> Edited {
    edit(e, true, |e| {
        if let Some(last) = e.points().last() {
            let max_time = last.time;
            for p in e.points_mut() {
                p.time = max_time - p.time;
            }
            e.points_mut().reverse();
        }
    })
}

#[inline(never)]
pub fn invert_values(e: Envelope, min: f32, max: f32) -> Edited {
    edit(e, min.is_finite() && max.is_finite(), |e| {
        for p in e.points_mut() {
            p.value = max - (p.value - min);
        }
    })
}

#[inline(never)]
pub fn quantize_time(e: Envelope, grid: f64) -> Edited {
    edit(e, grid.is_finite(), |e| {
        if grid > 0.0 {
            for p in e.points_mut() {
                p.time = libm::round(p.time / grid) * grid;
            }
            let mut seen = BTreeSet::new();
            retain(e, |p| seen.insert(p.time.to_bits()));
        }
    })
}

#[inline(never)]
pub fn simplify(e: Envelope, tolerance: f32) -> Edited {
    edit(e, tolerance.is_finite(), |e| {
        let old = *e;
        let points = old.points();
        if points.len() > 2 {
            let mut n = 1;
            for w in points.windows(3) {
                let t = ((w[1].time - w[0].time) / (w[2].time - w[0].time)) as f32;
                let between = w[0].curve.interpolate(w[0].value, w[2].value, t);
                if (w[1].value - between).abs() > tolerance {
                    e.places[n] = w[1];
                    n += 1;
                }
            }
            e.places[n] = points[points.len() - 1];
            n += 1;
            e.places[n..old.count].fill(UNUSED);
            e.count = n;
        }
    })
}

#[inline(never)]
pub fn normalize(e: Envelope, new_min: f32, new_max: f32) -> Edited {
    edit(e, new_min.is_finite() && new_max.is_finite(), |e| {
        let (low, high) = e
            .points()
            .iter()
            .fold((f32::INFINITY, f32::NEG_INFINITY), |(low, high), p| {
                (low.min(p.value), high.max(p.value))
            });
        let range = high - low;
        if range > 0.0 {
            let new_range = new_max - new_min;
            for p in e.points_mut() {
                p.value = new_min + (p.value - low) / range * new_range;
            }
        }
    })
}

#[inline(never)]
pub fn scale(e: Envelope, factor: f32) -> Edited {
    edit(e, factor.is_finite(), |e| {
        for p in e.points_mut() {
            p.value *= factor;
        }
    })
}

#[inline(never)]
pub fn offset(e: Envelope, amount: f32) -> Edited {
    edit(e, amount.is_finite(), |e| {
        for p in e.points_mut() {
            p.value += amount;
        }
    })
}

#[inline(never)]
pub fn clamp_values(e: Envelope, min: f32, max: f32) -> Edited {
    let ok = min.is_finite() && max.is_finite();
    if ok && min > max && e.is_valid() {
        return refused(e, 4);
    }
    edit(e, ok, |e| {
        for p in e.points_mut() {
            p.value = p.value.clamp(min, max);
        }
    })
}

fn fade_in_points(e: &mut Envelope, duration: f64, curve: CurveType) {
    if duration <= 0.0 {
        return;
    }
    if let Some(start_time) = e.points().first().map(|p| p.time) {
        let end_time = start_time + duration;
        for p in e.points_mut() {
            if p.time <= end_time {
                let t = ((p.time - start_time) / duration).clamp(0.0, 1.0) as f32;
                p.value *= curve.interpolate(0.0, 1.0, t);
            }
        }
    }
}

fn fade_out_points(e: &mut Envelope, duration: f64, curve: CurveType) {
    if duration <= 0.0 {
        return;
    }
    if let Some(end_time) = e.points().last().map(|p| p.time) {
        let start_time = end_time - duration;
        for p in e.points_mut() {
            if p.time >= start_time {
                let t = ((p.time - start_time) / duration).clamp(0.0, 1.0) as f32;
                p.value *= curve.interpolate(1.0, 0.0, t);
            }
        }
    }
}

#[inline(never)]
pub fn apply_fade_in(e: Envelope, duration: f64, curve: CurveType) -> Edited {
    edit(e, duration.is_finite() && finite_curve(curve), |e| {
        fade_in_points(e, duration, curve)
    })
}

#[inline(never)]
pub fn apply_fade_out(e: Envelope, duration: f64, curve: CurveType) -> Edited {
    edit(e, duration.is_finite() && finite_curve(curve), |e| {
        fade_out_points(e, duration, curve)
    })
}

#[inline(never)]
pub fn apply_fades(e: Envelope, rise: f64, fall: f64, curve: CurveType) -> Edited {
    edit(e, rise.is_finite() && fall.is_finite() && finite_curve(curve), |e| {
        fade_in_points(e, rise, curve);
        fade_out_points(e, fall, curve);
    })
}

#[inline(never)]
pub fn apply_gate(e: Envelope, threshold: f32) -> Edited {
    edit(e, threshold.is_finite(), |e| {
        for p in e.points_mut() {
            p.value = if p.value < threshold { 0.0 } else { p.value };
        }
    })
}

#[inline(never)]
pub fn apply_compression(e: Envelope, threshold: f32, ratio: f32) -> Edited {
    edit(e, threshold.is_finite() && ratio.is_finite(), |e| {
        for p in e.points_mut() {
            if p.value > threshold {
                p.value = threshold + (p.value - threshold) / ratio;
            }
        }
    })
}

#[inline(never)]
pub fn merge(e: Envelope, other: Envelope, offset: f64) -> Edited {
    if !e.is_valid() || !other.is_valid() {
        return refused(e, 1);
    }
    if !offset.is_finite() {
        return refused(e, 3);
    }
    if !other.points().iter().all(|p| (p.time + offset).is_finite()) {
        return refused(e, 3);
    }
    let mut new = e;
    for &p in other.points() {
        let moved = Point {
            time: p.time + offset,
            ..p
        };
        if !insert(&mut new, moved) {
            return refused(e, 5);
        }
    }
    accepted(new)
}

/// 000's constructors: each point in turn into a new envelope with the same target.
#[inline(always)]
fn replace<const N: usize>(e: Envelope, ok: bool, points: [(f64, f32, CurveType); N]) -> Edited {
    if !e.is_valid() {
        return refused(e, 1);
    }
    if !ok || !points.iter().all(|p| p.0.is_finite()) {
        return refused(e, 3);
    }
    let mut new = Envelope::new(e.target);
    for (time, value, curve) in points {
        let sample_position = None;
        insert(&mut new, Point { time, sample_position, value, curve });
    }
    accepted(new)
}

#[inline(never)]
pub fn ramp(e: Envelope, duration: f64, start: f32, end: f32, curve: CurveType) -> Edited {
    let ok = duration.is_finite() && start.is_finite() && end.is_finite() && finite_curve(curve);
    replace(e, ok, [(0.0, start, CurveType::Linear), (duration, end, curve)])
}

pub fn fade_in(e: Envelope, duration: f64, curve: CurveType) -> Edited {
    ramp(e, duration, 0.0, 1.0, curve)
}

pub fn fade_out(e: Envelope, duration: f64, curve: CurveType) -> Edited {
    ramp(e, duration, 1.0, 0.0, curve)
}

#[inline(never)]
pub fn pulse(e: Envelope, rise: f64, sustain: f64, fall: f64, curve: CurveType) -> Edited {
    let ok = rise.is_finite() && sustain.is_finite() && fall.is_finite() && finite_curve(curve);
    let points = [
        (0.0, 0.0, CurveType::Linear),
        (rise, 1.0, curve),
        (rise + sustain, 1.0, CurveType::Linear),
        (rise + sustain + fall, 0.0, curve),
    ];
    replace(e, ok, points)
}

#[inline(always)]
fn set(e: Envelope, ok: bool, change: impl FnOnce(&mut Envelope)) -> Edited {
    if !e.is_valid() {
        return refused(e, 1);
    }
    if !ok {
        return refused(e, 3);
    }
    let mut new = e;
    change(&mut new);
    accepted(new)
}

#[inline(never)]
pub fn set_enabled(e: Envelope, enabled: bool) -> Edited {
    set(e, true, |e| e.enabled = enabled)
}

#[inline(never)]
pub fn set_min(e: Envelope, min: Option<f32>) -> Edited {
    set(e, finite_limit(min), |e| e.min_value = min)
}

#[inline(never)]
pub fn set_max(e: Envelope, max: Option<f32>) -> Edited {
    set(e, finite_limit(max), |e| e.max_value = max)
}

#[inline(never)]
pub fn set_step(e: Envelope, step: Option<f32>) -> Edited {
    set(e, finite_limit(step), |e| e.step_size = step)
}

#[inline(never)]
pub fn set_hard(e: Envelope, hard: bool) -> Edited {
    set(e, true, |e| e.hard = hard)
}

/// 000's combine: the times of both in a set, a lookup in each, and a new point.
#[inline(always)]
fn combine(e: Envelope, other: Envelope, ok: bool, op: impl Fn(f32, f32) -> f32) -> Edited {
    if !e.is_valid() || !other.is_valid() {
        return refused(e, 1);
    }
    if !ok {
        return refused(e, 3);
    }
    let times: BTreeSet<u64> = e.points().iter().chain(other.points()).map(|p| p.time.to_bits()).collect();
    let mut new = Envelope::new(e.target);
    let mut fits = true;
    for time in times.into_iter().map(f64::from_bits) {
        let a = e.get_value_at(time).unwrap_or(0.0);
        let b = other.get_value_at(time).unwrap_or(0.0);
        let value = op(a, b);
        if !value.is_finite() {
            return refused(e, 3);
        }
        fits = insert(&mut new, Point { time, value, ..UNUSED }) && fits;
    }
    if !fits {
        return refused(e, 5);
    }
    accepted(new)
}

#[inline(never)]
pub fn blend(e: Envelope, other: Envelope, factor: f32) -> Edited {
    let ok = factor.is_finite();
    let factor = factor.clamp(0.0, 1.0);
    combine(e, other, ok, |a, b| a * (1.0 - factor) + b * factor)
}

#[inline(never)]
pub fn add(e: Envelope, other: Envelope) -> Edited {
    combine(e, other, true, |a, b| a + b)
}

#[inline(never)]
pub fn multiply(e: Envelope, other: Envelope) -> Edited {
    combine(e, other, true, |a, b| a * b)
}

#[inline(never)]
pub fn min(e: Envelope, other: Envelope) -> Edited {
    combine(e, other, true, f32::min)
}

#[inline(never)]
pub fn max(e: Envelope, other: Envelope) -> Edited {
    combine(e, other, true, f32::max)
}

#[inline(never)]
pub fn subtract(e: Envelope, other: Envelope) -> Edited {
    combine(e, other, true, |a, b| a - b)
}
