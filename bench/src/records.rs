//! The figures on envelopes. Both sides get the same lists of times and values, make their envelope
//! of them, do the work so many times in one call, and must leave the same bits.
use crate::figure::{Figure, Side, Sizes};
use crate::inputs;
use std::cell::RefCell;
use std::hint::black_box;

/// The two C functions of a figure. Both take the lists of times and values and a curve's code, then
/// what is written here.
macro_rules! pair {
    ($rattle:ident, $rust:ident, ($($arg:ident: $type:ty),*)) => {
        extern "C" {
            fn $rattle(times: *const f64, times_len: usize, values: *const f32, values_len: usize, curve: u32, $($arg: $type),*) -> u64;
            fn $rust(times: *const f64, times_len: usize, values: *const f32, values_len: usize, curve: u32, $($arg: $type),*) -> u64;
        }
    };
}

pair!(rattle_get_value_at, rust_get_value_at, (at: *const f64, at_len: usize));
pair!(rattle_get_value_at_sample, rust_get_value_at_sample, (at: *const u64, at_len: usize));
pair!(rattle_to_buffer, rust_to_buffer, (rate: f64, duration: f64, turns: u32, out: *mut f32, out_len: usize));
pair!(rattle_to_buffer_limits, rust_to_buffer_limits, (min: f32, max: f32, step: f32, hard: bool, rate: f64, duration: f64, turns: u32, out: *mut f32, out_len: usize));
pair!(rattle_render, rust_render, (rate: f64, first: u64, turns: u32, out: *mut f32, out_len: usize));
pair!(rattle_edit, rust_edit, (which: u32, x: f64, y: f64, turns: u32, times: *mut f64, times_len: usize, values: *mut f32, values_len: usize));
pair!(rattle_get_range, rust_get_range, (start: f64, end: f64, turns: u32));
pair!(rattle_get_range_samples, rust_get_range_samples, (start: u64, end: u64, turns: u32));
pair!(rattle_get_slope_at, rust_get_slope_at, (at: *const f64, at_len: usize));
pair!(rattle_find_peaks, rust_find_peaks, (turns: u32, times: *mut f64, times_len: usize, values: *mut f32, values_len: usize));

pair!(rattle_session_edit, rust_session_edit, (which: u32, time: f64, turns: u32, memory: *mut u64, memory_len: usize));
pair!(rattle_session_step, rust_session_step, (turns: u32, memory: *mut u64, memory_len: usize));
pair!(rattle_ask, rust_ask, (offset: f64, turns: u32));
pair!(rattle_session_merge, rust_session_merge, (which: u32, offset: f64, turns: u32, memory: *mut u64, memory_len: usize));

/// What a call is given: times that rise from 0 to 1, and values from 0 up to 1.
struct Input {
    times: Vec<f64>,
    values: Vec<f32>,
    curve: u32,
    /// times to look up, and samples
    at: Vec<f64>,
    samples: Vec<u64>,
}

const LOOKUPS: usize = 200;

fn input(points: usize, curve: u32) -> &'static Input {
    let at: Vec<f64> = inputs::fractions().into_iter().take(LOOKUPS).collect();
    Box::leak(Box::new(Input {
        times: inputs::rising(points),
        values: inputs::singles(inputs::fractions())
            .into_iter()
            .take(points)
            .collect(),
        curve,
        samples: at.iter().map(|t| (t * RATE) as u64).collect(),
        at,
    }))
}

/// The same points, their times so many times as far apart.
fn slower(points: usize, factor: f64) -> &'static Input {
    let Input {
        times,
        values,
        curve,
        at,
        samples,
    } = input(points, LINEAR);
    Box::leak(Box::new(Input {
        times: times.iter().map(|t| t * factor).collect(),
        values: values.clone(),
        curve: *curve,
        at: at.clone(),
        samples: samples.clone(),
    }))
}

/// The lists that a call may fill.
pub struct Room {
    pub times: Vec<f64>,
    pub values: Vec<f32>,
    memory: Vec<u64>,
    pub bytes: Vec<u8>,
}

impl Room {
    fn new(places: usize) -> Self {
        Room {
            times: vec![0.0; places],
            values: vec![0.0; places],
            memory: vec![0; places],
            bytes: vec![0; places],
        }
    }

    fn bits(self) -> (Vec<u64>, Vec<u32>, Vec<u64>, Vec<u8>) {
        let times = self.times.into_iter().map(f64::to_bits).collect();
        let values = self.values.into_iter().map(f32::to_bits).collect();
        (times, values, self.memory, self.bytes)
    }
}

/// A figure of one of the pairs. Both sides must say and leave the same bits.
pub fn figure(
    name: impl ToString,
    turns: usize,
    units: usize,
    most: Option<f64>,
    symbols: (&'static str, &'static str),
    room: usize,
    call: impl Fn(bool, &mut Room, usize) -> u64 + Copy + 'static,
) -> Figure {
    let once = move |rattle: bool| {
        let mut left = Room::new(room);
        (call(rattle, &mut left, turns), left.bits())
    };
    // what a pass fills is there before it is timed
    let side = |symbol, rattle: bool| {
        let left = RefCell::new(Room::new(room));
        Side::new(symbol, move |turns| {
            black_box(call(rattle, &mut left.borrow_mut(), turns));
        })
    };
    Figure {
        name: name.to_string(),
        turns,
        units,
        most,
        agree: Box::new(move || once(true) == once(false)),
        rattle: side(symbols.0, true),
        rust: side(symbols.1, false),
    }
}

/// A figure whose call has an input's lists and more arguments, which may use the lists to fill.
macro_rules! record {
    ($name:expr, $turns:expr, $units:expr, $most:expr, $input:expr, $rattle:ident, $rust:ident, $room:expr, |$left:ident, $n:ident| ($($arg:expr),*)) => {{
        let i: &'static Input = $input;
        figure($name, $turns, $units, $most, (stringify!($rattle), stringify!($rust)), $room, move |rattle, $left, $n| {
            let call = if rattle { $rattle } else { $rust };
            unsafe { call(i.times.as_ptr(), i.times.len(), i.values.as_ptr(), i.values.len(), i.curve, $($arg),*) }
        })
    }};
}

const LINEAR: u32 = 0;
/// A curve, its code, and the most that rendering at 2, 16 and 256 points may take of the Rust's time.
const CURVES: [(&str, u32, [f64; 3]); 5] = [
    ("Linear", LINEAR, [1.0, 0.65, 0.45]),
    ("CubicInOut", 15, [1.0, 0.65, 0.45]),
    ("Bezier", 5, [1.0, 0.65, 0.45]),
    ("Logarithmic", 2, [2.2, 1.3, 0.85]),
    ("Circular", 9, [2.2, 1.3, 0.85]),
];
/// Those that are also rendered with both limits and a step.
const LIMITED: [(&str, u32); 3] = [("Linear", LINEAR), ("CubicInOut", 15), ("Bezier", 5)];
/// A minimum, a maximum and a step. At each number of points there are values below, between and above them;
/// the step divides neither, and takes the one to 0.585 and the other to 0.72, where `hard` takes them back.
const LIMITS: (f32, f32, f32) = (0.6, 0.7, 0.045);
const RATE: f64 = 48_000.0;
const SAMPLES: usize = 48_000;

fn rendering() -> Vec<Figure> {
    const TURNS: usize = 4;
    let mut all = Vec::new();
    for (curve, code, most) in CURVES {
        for (points, most) in [2, 16, 256].into_iter().zip(most) {
            let name = format!("to_buffer, {curve}, {points}");
            all.push(record!(
                name,
                TURNS,
                SAMPLES,
                Some(most),
                input(points, code),
                rattle_to_buffer,
                rust_to_buffer,
                SAMPLES,
                |left, turns| (RATE, 1.0, turns as u32, left.values.as_mut_ptr(), SAMPLES)
            ));
        }
    }
    for (curve, code) in LIMITED {
        for (words, hard) in [("limits and step", false), ("limits and step, hard", true)] {
            for (points, most) in [(2, 1.0), (16, 0.8), (256, 0.65)] {
                let name = format!("to_buffer, {curve}, {words}, {points}");
                let (min, max, step) = LIMITS;
                all.push(record!(
                    name,
                    TURNS,
                    SAMPLES,
                    Some(most),
                    input(points, code),
                    rattle_to_buffer_limits,
                    rust_to_buffer_limits,
                    SAMPLES,
                    |left, turns| (
                        min,
                        max,
                        step,
                        hard,
                        RATE,
                        1.0,
                        turns as u32,
                        left.values.as_mut_ptr(),
                        SAMPLES
                    )
                ));
            }
        }
    }
    const BLOCKS: usize = 100;
    for (curve, code, _) in CURVES {
        let name = format!("64 samples, {curve}, 256");
        all.push(record!(
            name,
            BLOCKS,
            1,
            Some(1.5),
            input(256, code),
            rattle_render,
            rust_render,
            64,
            |left, turns| (RATE, 24_000, turns as u32, left.values.as_mut_ptr(), 64)
        ));
    }
    all
}

fn lookups() -> Vec<Figure> {
    let mut all = Vec::new();
    for points in [2, 256] {
        let most = (points == 256).then_some(3.0);
        let i = input(points, LINEAR);
        all.push(record!(
            format!("get_value_at, {points}"),
            LOOKUPS,
            1,
            most,
            i,
            rattle_get_value_at,
            rust_get_value_at,
            0,
            |_left, turns| (i.at.as_ptr(), turns)
        ));
        all.push(record!(
            format!("get_value_at_sample, {points}"),
            LOOKUPS,
            1,
            most,
            i,
            rattle_get_value_at_sample,
            rust_get_value_at_sample,
            0,
            |_left, turns| (i.samples.as_ptr(), turns)
        ));
    }
    all
}

/// The edits by their numbers in the two functions, with their arguments.
const EDITS: [(&str, u32, f64, f64); 29] = [
    ("add_point, a new first", 0, -1.0, 0.5),
    ("add_point, a new last", 0, 2.0, 0.5),
    ("remove_point_at, the first", 1, 0.0, 0.0),
    ("remove_point_at, none", 1, 2.0, 0.0),
    ("shift_points", 2, 0.25, 0.0),
    ("scale_time", 3, 1.5, 0.0),
    ("trim, all stay", 4, -1.0, 2.0),
    ("reverse", 5, 0.0, 0.0),
    ("invert_values", 6, 0.0, 1.0),
    ("quantize_time", 7, 0.0001, 0.0),
    ("simplify, all stay", 8, 0.0, 0.0),
    ("normalize", 9, 0.0, 2.0),
    ("scale", 10, 1.5, 0.0),
    ("offset", 11, 0.5, 0.0),
    ("clamp_values", 12, 0.25, 0.75),
    ("apply_fade_in", 13, 0.5, 0.0),
    ("apply_fade_out", 14, 0.5, 0.0),
    ("apply_fades", 15, 0.25, 0.25),
    ("apply_gate", 16, 0.5, 0.0),
    ("apply_compression", 17, 0.5, 2.0),
    ("fade_in", 18, 1.0, 0.0),
    ("fade_out", 19, 1.0, 0.0),
    ("pulse", 20, 1.0, 2.0),
    ("ramp", 21, 1.0, 0.5),
    ("set_enabled", 22, 0.0, 0.0),
    ("set_min", 23, 0.5, 0.0),
    ("set_max", 24, 0.5, 0.0),
    ("set_step", 25, 0.5, 0.0),
    ("set_hard", 26, 0.0, 0.0),
];
/// Those that take a second envelope: itself, later by x. Of two of 128 points they make 256.
const JOINS: [(&str, u32, f64, f64, f64); 7] = [
    ("merge", 27, 0.001, 0.0, 4.0),
    ("blend", 28, 0.001, 0.25, 2.0),
    ("add", 29, 0.001, 0.0, 2.0),
    ("multiply", 30, 0.001, 0.0, 2.0),
    ("min", 31, 0.001, 0.0, 2.0),
    ("max", 32, 0.001, 0.0, 2.0),
    ("subtract", 33, 0.001, 0.0, 2.0),
];
const PLACES: usize = 256;

/// An edit by its number, on an envelope of so many points.
fn edit(name: String, points: usize, (which, x, y): (u32, f64, f64), most: Option<f64>) -> Figure {
    const TURNS: usize = 200;
    record!(
        name,
        TURNS,
        1,
        most,
        input(points, LINEAR),
        rattle_edit,
        rust_edit,
        PLACES,
        |left, turns| (
            which,
            x,
            y,
            turns as u32,
            left.times.as_mut_ptr(),
            PLACES,
            left.values.as_mut_ptr(),
            PLACES
        )
    )
}

/// The edits of one envelope, at 2, 16 and 255 points. The limit is of the last.
pub fn edits() -> Vec<Sizes> {
    let at = |points: usize, (name, which, x, y): (&str, u32, f64, f64)| {
        let most = (points == 255).then_some(4.0);
        edit(format!("{name}, {points}"), points, (which, x, y), most)
    };
    let sizes = |e: (&'static str, u32, f64, f64)| Sizes {
        name: e.0,
        figures: [2, 16, 255].map(|points| at(points, e)),
    };
    EDITS.into_iter().map(sizes).collect()
}

/// The edits of two envelopes, of 2, 16 and 128 points each. The limit is of the last.
pub fn joins() -> Vec<Sizes> {
    let at = |points: usize, (name, which, x, y, most): (&str, u32, f64, f64, f64)| {
        let most = (points == 128).then_some(most);
        edit(
            format!("{name}, {points} and {points}"),
            points,
            (which, x, y),
            most,
        )
    };
    let sizes = |e: (&'static str, u32, f64, f64, f64)| Sizes {
        name: e.0,
        figures: [2, 16, 128].map(|points| at(points, e)),
    };
    JOINS.into_iter().map(sizes).collect()
}

const ANALYSES: usize = 100;

/// The ranges from `start` to `end`, from `start + 1` to `end`, and so on.
fn ranges(name: &str, i: &'static Input, (start, end): (f64, f64), turns: usize) -> Figure {
    record!(
        name,
        turns,
        1,
        Some(2.0),
        i,
        rattle_get_range,
        rust_get_range,
        0,
        |_left, turns| (start, end, turns as u32)
    )
}

fn analyses() -> Vec<Figure> {
    let i = input(256, LINEAR);
    vec![
        // from 0 to 1,000 seconds, so that every range starts and ends inside
        ranges("get_range, 256", slower(256, 1000.0), (100.0, 900.0), ANALYSES),
        ranges("get_range back from past the last point, 256", i, (1.1, 0.9), 20),
        record!(
            "get_range_samples, 256",
            ANALYSES,
            1,
            None,
            i,
            rattle_get_range_samples,
            rust_get_range_samples,
            0,
            |_left, turns| (4_800, 43_200, turns as u32)
        ),
        record!(
            "get_slope_at, 256",
            LOOKUPS,
            1,
            None,
            i,
            rattle_get_slope_at,
            rust_get_slope_at,
            0,
            |_left, turns| (i.at.as_ptr(), turns)
        ),
        record!(
            "find_peaks, 256",
            ANALYSES,
            1,
            None,
            i,
            rattle_find_peaks,
            rust_find_peaks,
            PLACES,
            |left, turns| (
                turns as u32,
                left.times.as_mut_ptr(),
                PLACES,
                left.values.as_mut_ptr(),
                PLACES
            )
        ),
    ]
}

/// At step memories of one state, of 16 and of 256: what a call costs doesn't grow with them.
fn sessions() -> Vec<Figure> {
    const TURNS: usize = 200;
    let i = input(256, LINEAR);
    let last = i.times[255];
    let edits = [
        "session edit",
        "session edit that alters nothing",
        "session edit of the last point",
    ];
    let mut all = Vec::new();
    for depth in [1, 16, 256] {
        let words = depth * 1028;
        for (which, name) in edits.into_iter().enumerate() {
            all.push(record!(
                format!("{name}, D = {depth}"),
                TURNS,
                1,
                Some(3.0),
                i,
                rattle_session_edit,
                rust_session_edit,
                words,
                |left, turns| (which as u32, last, turns as u32, left.memory.as_mut_ptr(), words)
            ));
        }
        all.push(record!(
            format!("session step, D = {depth}"),
            TURNS,
            2,
            Some(3.0),
            i,
            rattle_session_step,
            rust_session_step,
            words,
            |left, turns| (turns as u32, left.memory.as_mut_ptr(), words)
        ));
    }
    all
}

/// The offset of a merge of an envelope into itself, as `merge` among the edits has it.
const MERGED: f64 = 0.001;

/// How many points a merge will give, each envelope of so many.
fn asks() -> Vec<Figure> {
    const TURNS: usize = 200;
    [2, 16, 128]
        .into_iter()
        .map(|points| {
            record!(
                format!("ask, {points} and {points}"),
                TURNS,
                1,
                (points == 128).then_some(3.0),
                input(points, LINEAR),
                rattle_ask,
                rust_ask,
                0,
                |_left, turns| (MERGED, turns as u32)
            )
        })
        .collect()
}

/// A session's merge and the commit of the same ticket, beside the Rust's; then the port's commit beside the port's merge.
fn merges() -> Vec<Figure> {
    const TURNS: usize = 200;
    const MERGE: u32 = 0;
    const COMMIT: u32 = 1;
    let mut all = Vec::new();
    for points in [2, 16, 128] {
        let i = input(points, LINEAR);
        for (name, which) in [("session merge", MERGE), ("session commit", COMMIT)] {
            all.push(record!(
                format!("{name}, {points} and {points}"),
                TURNS,
                1,
                (points == 128).then_some(3.0),
                i,
                rattle_session_merge,
                rust_session_merge,
                16 * 1028,
                |left, turns| (which, MERGED, turns as u32, left.memory.as_mut_ptr(), 16 * 1028)
            ));
        }
        all.push(figure(
            format!("session commit, beside Rattle's own session merge, {points} and {points}"),
            TURNS,
            1,
            (points == 128).then_some(1.25),
            ("rattle_session_merge", "rattle_session_merge"),
            16 * 1028,
            move |commit, left, turns| unsafe {
                let which = if commit { COMMIT } else { MERGE };
                let memory = left.memory.as_mut_ptr();
                let (times, values) = (&i.times, &i.values);
                rattle_session_merge(
                    times.as_ptr(),
                    times.len(),
                    values.as_ptr(),
                    values.len(),
                    LINEAR,
                    which,
                    MERGED,
                    turns as u32,
                    memory,
                    16 * 1028,
                )
            },
        ));
    }
    all
}

pub fn figures() -> Vec<Figure> {
    let mut all = rendering();
    all.extend(lookups());
    all.extend(analyses());
    all.extend(sessions());
    all.extend(asks());
    all.extend(merges());
    all
}
