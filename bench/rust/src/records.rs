//! The counterparts of the exports on envelopes: the same work on the same lists, `turns` times.
use crate::edits;
use crate::fixed::{Edited, Envelope, Point, PLACES};
use crate::session::{self, Session, Ticket};
use source::curve::CurveType;
use source::envelope::{AutomationEnvelope, AutomationPoint};
use std::hint::black_box;
use std::slice::{from_raw_parts, from_raw_parts_mut};

fn curve_of(code: u32) -> CurveType {
    match code {
        2 => CurveType::Logarithmic,
        5 => CurveType::Bezier(0.5, 1.0),
        9 => CurveType::Circular,
        15 => CurveType::CubicInOut,
        _ => CurveType::Linear,
    }
}

/// A point for each time, with its value and the curve.
fn made(times: &[f64], values: &[f32], curve: u32) -> Envelope {
    let mut e = Envelope::new(7);
    for (&time, &value) in times.iter().zip(values).take(PLACES) {
        e.places[e.count] = Point {
            time,
            sample_position: None,
            value,
            curve: curve_of(curve),
        };
        e.count += 1;
    }
    e
}

fn linear(time: f64, value: f32) -> Point {
    Point {
        time,
        sample_position: None,
        value,
        curve: CurveType::Linear,
    }
}

/// The same with both limits and a step.
fn limited(e: Envelope, min: f32, max: f32, step: f32, hard: bool) -> Envelope {
    Envelope {
        min_value: Some(min),
        max_value: Some(max),
        step_size: Some(step),
        hard,
        ..e
    }
}

/// 000's own envelope of the same points.
fn source_made(times: &[f64], values: &[f32], curve: u32) -> AutomationEnvelope<u32> {
    let mut e = AutomationEnvelope::new(7);
    for (&time, &value) in times.iter().zip(values) {
        e.add_point(AutomationPoint::with_curve(time, value, curve_of(curve)));
    }
    e
}

// ---- the Player

/// 0 for silent, 1 for refused: no value that is measured has these bits.
fn bits(answer: Result<Option<f32>, u32>) -> u64 {
    match answer {
        Ok(None) => 0,
        Ok(Some(v)) => v.to_bits() as u64,
        Err(_) => 1,
    }
}

#[inline(never)]
fn get_value_at(e: Envelope, time: f64) -> Result<Option<f32>, u32> {
    if !e.is_valid() {
        return Err(1);
    }
    Ok(e.get_value_at(time))
}

#[inline(never)]
fn get_value_at_sample(e: Envelope, sample: u64) -> Result<Option<f32>, u32> {
    if !e.is_valid() {
        return Err(1);
    }
    if !e.keys_rise() {
        return Err(7);
    }
    Ok(e.get_value_at_sample(sample))
}

/// The samples from `first` on, into the lent buffer.
#[inline(always)]
fn run_into(e: &Envelope, rate: f64, first: u64, count: u64, out: &mut [f32], place: usize) -> Result<(), u32> {
    const MOST: u64 = u32::MAX as u64;
    if first > MOST || count > MOST - first {
        return Err(13);
    }
    if count > 0 && (place > out.len() || count as usize > out.len() - place) {
        return Err(8);
    }
    if count > 0 {
        for (i, sample) in out[place..place + count as usize].iter_mut().enumerate() {
            *sample = e.get_value_at((first + i as u64) as f64 / rate).unwrap_or(0.0);
        }
    }
    Ok(())
}

#[inline(never)]
fn render(e: Envelope, rate: f64, first: u64, count: u64, out: &mut [f32], place: usize) -> Result<(), u32> {
    if !e.is_valid() {
        return Err(1);
    }
    if !rate.is_finite() {
        return Err(3);
    }
    run_into(&e, rate, first, count, out, place)
}

#[inline(never)]
fn to_buffer(e: Envelope, rate: f64, duration: f64, out: &mut [f32], place: usize) -> Result<(), u32> {
    if !e.is_valid() {
        return Err(1);
    }
    if !(rate.is_finite() && duration.is_finite()) {
        return Err(3);
    }
    run_into(&e, rate, 0, (duration * rate) as u64, out, place)
}

/// # Safety
/// Each pointer leads to as many places as the number after it says.
#[no_mangle]
#[inline(never)]
pub unsafe extern "C" fn rust_get_value_at(
    times: *const f64,
    times_len: usize,
    values: *const f32,
    values_len: usize,
    curve: u32,
    at: *const f64,
    at_len: usize,
) -> u64 {
    let e = made(from_raw_parts(times, times_len), from_raw_parts(values, values_len), curve);
    from_raw_parts(at, at_len).iter().fold(0u64, |sum, &time| {
        sum.wrapping_add(bits(get_value_at(*black_box(&e), time)))
    })
}

/// # Safety
/// As above.
#[no_mangle]
#[inline(never)]
pub unsafe extern "C" fn rust_get_value_at_sample(
    times: *const f64,
    times_len: usize,
    values: *const f32,
    values_len: usize,
    curve: u32,
    at: *const u64,
    at_len: usize,
) -> u64 {
    let e = made(from_raw_parts(times, times_len), from_raw_parts(values, values_len), curve);
    from_raw_parts(at, at_len).iter().fold(0u64, |sum, &sample| {
        sum.wrapping_add(bits(get_value_at_sample(*black_box(&e), sample)))
    })
}

/// 000's `to_buffer`.
/// # Safety
/// As above.
#[no_mangle]
#[inline(never)]
pub unsafe extern "C" fn rust_to_buffer(
    times: *const f64,
    times_len: usize,
    values: *const f32,
    values_len: usize,
    curve: u32,
    rate: f64,
    duration: f64,
    turns: u32,
    out: *mut f32,
    out_len: usize,
) -> u64 {
    let e = source_made(from_raw_parts(times, times_len), from_raw_parts(values, values_len), curve);
    let mut last = Vec::new();
    for _ in 0..turns {
        last = black_box(black_box(&e).to_buffer(rate, duration));
    }
    from_raw_parts_mut(out, out_len)[..last.len()].copy_from_slice(&last);
    turns as u64
}

/// With both limits and a step, `hard` among them, which 000's own envelope doesn't have.
/// # Safety
/// As above.
#[no_mangle]
#[inline(never)]
pub unsafe extern "C" fn rust_to_buffer_limits(
    times: *const f64,
    times_len: usize,
    values: *const f32,
    values_len: usize,
    curve: u32,
    min: f32,
    max: f32,
    step: f32,
    hard: bool,
    rate: f64,
    duration: f64,
    turns: u32,
    out: *mut f32,
    out_len: usize,
) -> u64 {
    let e = made(from_raw_parts(times, times_len), from_raw_parts(values, values_len), curve);
    let e = limited(e, min, max, step, hard);
    let out = from_raw_parts_mut(out, out_len);
    let mut good = 0;
    for _ in 0..turns {
        if to_buffer(*black_box(&e), rate, duration, black_box(out), 0).is_ok() {
            good += 1;
        }
    }
    good
}

/// # Safety
/// As above.
#[no_mangle]
#[inline(never)]
pub unsafe extern "C" fn rust_render(
    times: *const f64,
    times_len: usize,
    values: *const f32,
    values_len: usize,
    curve: u32,
    rate: f64,
    first: u64,
    turns: u32,
    out: *mut f32,
    out_len: usize,
) -> u64 {
    let e = made(from_raw_parts(times, times_len), from_raw_parts(values, values_len), curve);
    let out = from_raw_parts_mut(out, out_len);
    let mut good = 0;
    for _ in 0..turns {
        if render(*black_box(&e), rate, first, out.len() as u64, black_box(out), 0).is_ok() {
            good += 1;
        }
    }
    good
}

// ---- the edits

/// # Safety
/// As above.
#[no_mangle]
#[inline(never)]
pub unsafe extern "C" fn rust_edit(
    times: *const f64,
    times_len: usize,
    values: *const f32,
    values_len: usize,
    curve: u32,
    which: u32,
    x: f64,
    y: f64,
    turns: u32,
    out_times: *mut f64,
    out_times_len: usize,
    out_values: *mut f32,
    out_values_len: usize,
) -> u64 {
    let e = made(from_raw_parts(times, times_len), from_raw_parts(values, values_len), curve);
    let c = curve_of(curve);
    let (xf, yf) = (x as f32, y as f32);
    let p = linear(x, yf);
    let other = edits::shift_points(e, x).envelope;
    let mut last = Edited { refusal: 0, envelope: e };
    for _ in 0..turns {
        let e = *black_box(&e);
        last = match which {
            0 => edits::add_point(e, p),
            1 => edits::remove_point_at(e, x),
            2 => edits::shift_points(e, x),
            3 => edits::scale_time(e, x),
            4 => edits::trim(e, x, y),
            5 => edits::reverse(e),
            6 => edits::invert_values(e, xf, yf),
            7 => edits::quantize_time(e, x),
            8 => edits::simplify(e, xf),
            9 => edits::normalize(e, xf, yf),
            10 => edits::scale(e, xf),
            11 => edits::offset(e, xf),
            12 => edits::clamp_values(e, xf, yf),
            13 => edits::apply_fade_in(e, x, c),
            14 => edits::apply_fade_out(e, x, c),
            15 => edits::apply_fades(e, x, y, c),
            16 => edits::apply_gate(e, xf),
            17 => edits::apply_compression(e, xf, yf),
            18 => edits::fade_in(e, x, c),
            19 => edits::fade_out(e, x, c),
            20 => edits::pulse(e, x, y, x, c),
            21 => edits::ramp(e, x, xf, yf, c),
            22 => edits::set_enabled(e, true),
            23 => edits::set_min(e, Some(xf)),
            24 => edits::set_max(e, Some(xf)),
            25 => edits::set_step(e, Some(xf)),
            26 => edits::set_hard(e, true),
            27 => edits::merge(e, e, x),
            28 => edits::blend(e, *black_box(&other), yf),
            29 => edits::add(e, *black_box(&other)),
            30 => edits::multiply(e, *black_box(&other)),
            31 => edits::min(e, *black_box(&other)),
            32 => edits::max(e, *black_box(&other)),
            _ => edits::subtract(e, *black_box(&other)),
        };
        black_box(&last);
    }
    let out_times = from_raw_parts_mut(out_times, out_times_len);
    let out_values = from_raw_parts_mut(out_values, out_values_len);
    for (i, p) in last.envelope.places.iter().enumerate() {
        out_times[i] = p.time;
        out_values[i] = p.value;
    }
    last.envelope.count as u64 * 16 + last.refusal as u64
}

// ---- the analyses

fn range_bits(answer: Result<Option<(f32, f32)>, u32>) -> u64 {
    match answer {
        Ok(None) => 0,
        Ok(Some((low, high))) => ((low.to_bits() as u64) << 32) + high.to_bits() as u64,
        Err(_) => 1,
    }
}

fn as_range(min: f32, max: f32) -> Option<(f32, f32)> {
    min.is_finite().then_some((min, max))
}

#[inline(never)]
fn get_range(e: Envelope, start_time: f64, end_time: f64) -> Result<Option<(f32, f32)>, u32> {
    if !e.is_valid() {
        return Err(1);
    }
    if !(start_time.is_finite() && end_time.is_finite()) {
        return Err(3);
    }
    let mut min = f32::INFINITY;
    let mut max = f32::NEG_INFINITY;
    let step = (end_time - start_time) / 100.0;
    for i in 0..=100 {
        if let Some(value) = e.get_value_at(start_time + step * i as f64) {
            min = min.min(value);
            max = max.max(value);
        }
    }
    for point in e.points() {
        if point.time >= start_time && point.time <= end_time {
            min = min.min(point.value);
            max = max.max(point.value);
        }
    }
    Ok(as_range(min, max))
}

#[inline(never)]
fn get_range_samples(e: Envelope, start: u64, end: u64) -> Result<Option<(f32, f32)>, u32> {
    if !e.is_valid() {
        return Err(1);
    }
    if start > end {
        return Err(4);
    }
    let step = ((end - start) / 100).max(1);
    if (start + (end - start) / step * step).checked_add(step).is_none() {
        return Err(13);
    }
    if !e.keys_rise() {
        return Err(7);
    }
    let mut min = f32::INFINITY;
    let mut max = f32::NEG_INFINITY;
    let mut current = start;
    while current <= end {
        if let Some(value) = e.get_value_at_sample(current) {
            min = min.min(value);
            max = max.max(value);
        }
        current += step;
    }
    Ok(as_range(min, max))
}

#[inline(never)]
fn get_slope_at(e: Envelope, time: f64) -> Result<Option<f32>, u32> {
    if !e.is_valid() {
        return Err(1);
    }
    if e.count < 2 {
        return Ok(Some(0.0));
    }
    let delta = 0.001;
    let (Some(before), Some(after)) = (e.get_value_at(time - delta), e.get_value_at(time + delta)) else {
        return Ok(None);
    };
    Ok(Some((after - before) / (2.0 * delta) as f32))
}

#[inline(never)]
fn find_peaks(e: Envelope, times: &mut [f64], values: &mut [f32]) -> Result<usize, u32> {
    if !e.is_valid() {
        return Err(1);
    }
    let peak = |w: &&[Point]| w[1].value > w[0].value && w[1].value > w[2].value;
    let n = e.points().windows(3).filter(peak).count();
    if n > times.len() || n > values.len() {
        return Err(8);
    }
    for (i, w) in e.points().windows(3).filter(peak).enumerate() {
        times[i] = w[1].time;
        values[i] = w[1].value;
    }
    Ok(n)
}

/// # Safety
/// As above.
#[no_mangle]
#[inline(never)]
pub unsafe extern "C" fn rust_get_range(
    times: *const f64,
    times_len: usize,
    values: *const f32,
    values_len: usize,
    curve: u32,
    start: f64,
    end: f64,
    turns: u32,
) -> u64 {
    let e = made(from_raw_parts(times, times_len), from_raw_parts(values, values_len), curve);
    (0..turns).fold(0u64, |sum, i| {
        sum.wrapping_add(range_bits(get_range(*black_box(&e), start + i as f64, end)))
    })
}

/// # Safety
/// As above.
#[no_mangle]
#[inline(never)]
pub unsafe extern "C" fn rust_get_range_samples(
    times: *const f64,
    times_len: usize,
    values: *const f32,
    values_len: usize,
    curve: u32,
    start: u64,
    end: u64,
    turns: u32,
) -> u64 {
    let e = made(from_raw_parts(times, times_len), from_raw_parts(values, values_len), curve);
    (0..turns).fold(0u64, |sum, i| {
        sum.wrapping_add(range_bits(get_range_samples(*black_box(&e), start + i as u64, end)))
    })
}

/// # Safety
/// As above.
#[no_mangle]
#[inline(never)]
pub unsafe extern "C" fn rust_get_slope_at(
    times: *const f64,
    times_len: usize,
    values: *const f32,
    values_len: usize,
    curve: u32,
    at: *const f64,
    at_len: usize,
) -> u64 {
    let e = made(from_raw_parts(times, times_len), from_raw_parts(values, values_len), curve);
    from_raw_parts(at, at_len).iter().fold(0u64, |sum, &time| {
        sum.wrapping_add(bits(get_slope_at(*black_box(&e), time)))
    })
}

/// # Safety
/// As above.
#[no_mangle]
#[inline(never)]
pub unsafe extern "C" fn rust_find_peaks(
    times: *const f64,
    times_len: usize,
    values: *const f32,
    values_len: usize,
    curve: u32,
    turns: u32,
    out_times: *mut f64,
    out_times_len: usize,
    out_values: *mut f32,
    out_values_len: usize,
) -> u64 {
    let e = made(from_raw_parts(times, times_len), from_raw_parts(values, values_len), curve);
    let out_times = from_raw_parts_mut(out_times, out_times_len);
    let out_values = from_raw_parts_mut(out_values, out_values_len);
    (0..turns).fold(0u64, |sum, _| {
        let found = find_peaks(*black_box(&e), black_box(out_times), black_box(out_values));
        sum.wrapping_add(found.map_or(1000, |n| n as u64))
    })
}

// ---- the session

fn started(envelope: Envelope, length: usize) -> Session {
    Session {
        envelope,
        length,
        at: 0,
        kept: 0,
        ahead: 0,
    }
}

/// # Safety
/// As above.
#[no_mangle]
#[inline(never)]
pub unsafe extern "C" fn rust_session_edit(
    times: *const f64,
    times_len: usize,
    values: *const f32,
    values_len: usize,
    curve: u32,
    which: u32,
    time: f64,
    turns: u32,
    memory: *mut u64,
    memory_len: usize,
) -> u64 {
    let e = made(from_raw_parts(times, times_len), from_raw_parts(values, values_len), curve);
    let mut s = started(e, memory_len);
    let memory = from_raw_parts_mut(memory, memory_len);
    for i in 0..turns {
        let (offset, value) = if i % 2 == 0 { (0.25, 0.25) } else { (-0.25, 0.5) };
        let before = *black_box(&s);
        let after = match which {
            0 => session::shift_points(before, offset, black_box(memory)),
            1 => session::shift_points(before, 0.0, black_box(memory)),
            _ => session::add_point(before, linear(time, value), black_box(memory)),
        };
        s = after.accepted();
    }
    s.kept as u64
}

/// # Safety
/// As above.
#[no_mangle]
#[inline(never)]
pub unsafe extern "C" fn rust_session_step(
    times: *const f64,
    times_len: usize,
    values: *const f32,
    values_len: usize,
    curve: u32,
    turns: u32,
    memory: *mut u64,
    memory_len: usize,
) -> u64 {
    let e = made(from_raw_parts(times, times_len), from_raw_parts(values, values_len), curve);
    let memory = from_raw_parts_mut(memory, memory_len);
    let mut s = session::shift_points(started(e, memory_len), 0.25, memory).accepted();
    for _ in 0..turns {
        s = session::back(*black_box(&s), black_box(memory)).accepted();
        s = session::forward(*black_box(&s), black_box(memory)).accepted();
    }
    s.kept as u64
}

// ---- a merge that was asked first

/// The offset, or its negative in every other turn.
fn turned(offset: f64, i: u32) -> f64 {
    if i % 2 == 0 {
        offset
    } else {
        -offset
    }
}

/// # Safety
/// As above.
#[no_mangle]
#[inline(never)]
pub unsafe extern "C" fn rust_ask(
    times: *const f64,
    times_len: usize,
    values: *const f32,
    values_len: usize,
    curve: u32,
    offset: f64,
    turns: u32,
) -> u64 {
    let e = made(from_raw_parts(times, times_len), from_raw_parts(values, values_len), curve);
    let mut ticket = Ticket {
        first: e,
        second: e,
        offset,
    };
    let mut sum = 0u64;
    for i in 0..turns {
        let e = *black_box(&e);
        let (answer, given) = session::ask(e, e, turned(offset, i));
        ticket = given;
        black_box(&ticket);
        sum = sum.wrapping_add(answer.map_or(1000, |n| n as u64));
    }
    sum.wrapping_add(ticket.second.count as u64)
}

/// # Safety
/// As above.
#[no_mangle]
#[inline(never)]
pub unsafe extern "C" fn rust_session_merge(
    times: *const f64,
    times_len: usize,
    values: *const f32,
    values_len: usize,
    curve: u32,
    which: u32,
    offset: f64,
    turns: u32,
    memory: *mut u64,
    memory_len: usize,
) -> u64 {
    let e = made(from_raw_parts(times, times_len), from_raw_parts(values, values_len), curve);
    let s = started(e, memory_len);
    let memory = from_raw_parts_mut(memory, memory_len);
    let mut ticket = Ticket {
        first: e,
        second: e,
        offset,
    };
    let mut last = s;
    for i in 0..turns {
        ticket.offset = turned(offset, i);
        let before = *black_box(&s);
        let ticket = black_box(&ticket);
        let after = match which {
            0 => session::merge(before, ticket.second, ticket.offset, black_box(memory)),
            _ => session::commit(before, *ticket, black_box(memory)),
        };
        last = after.accepted();
        black_box(&last);
    }
    (last.kept as u64).wrapping_add(last.envelope.count as u64)
}
