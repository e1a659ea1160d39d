//! The Rust's answer to a call, as text.
use crate::ask;
use crate::domain::{refused_after, refused_before, stride, valid};
use crate::forms::signature;
use crate::reader::read_sheet;
use crate::records::{of_points, Envelope, RustEnvelope};
use crate::rules::{self, bare, hold, same, Marked};
use crate::text::{self, double, marked, single, word, Arg};
use std::panic::{catch_unwind, AssertUnwindSafe};

/// What a call gives: the answer's text, and the envelope where one comes back.
pub struct Answer {
    pub text: String,
    pub envelope: Option<Envelope>,
}

impl Answer {
    fn text(text: String) -> Self {
        Answer { text, envelope: None }
    }
}

/// The answer to a call: with document 01's refusals around the Rust, or the Rust alone. A sheet is read
/// by 01's rule alone.
pub fn call(op: &str, a: &[Arg], raw: bool) -> Answer {
    if let [Arg::S(bytes)] = a {
        return sheet_read(bytes);
    }
    if op == "ask" {
        return Answer::text(ask::answer(a, raw));
    }
    let refusal = if raw { None } else { refused_before(op, a) };
    if let Some(n) = refusal {
        return Answer::text(format!("refuse {n}"));
    }
    match catch_unwind(AssertUnwindSafe(|| answer(op, a, raw))) {
        Ok(answer) => answer,
        Err(e) => {
            let text = e.downcast_ref::<String>().cloned();
            let text = text.or(e.downcast_ref::<&str>().map(|s| s.to_string()));
            Answer::text(format!("panic {}", text.unwrap_or_default().replace('\n', " ")))
        }
    }
}

fn sheet_read(bytes: &[u8]) -> Answer {
    match read_sheet(bytes) {
        Err((n, line)) => Answer::text(format!("refuse {n} {line}")),
        Ok(e) => Answer {
            text: format!("ok {}", text::envelope(&e, &[])),
            envelope: Some(e),
        },
    }
}

fn answer(op: &str, a: &[Arg], raw: bool) -> Answer {
    if !matches!(signature(op), Some((_, 'e' | 'c' | 'm'))) {
        return Answer::text(format!("ok {}", lookup(op, a)));
    }
    let (e, open) = settled(op, a, edit(op, a));
    let refusal = if raw { None } else { refused_after(&e) };
    if let Some(n) = refusal {
        return Answer::text(format!("refuse {n}"));
    }
    let text = format!("ok {}", text::envelope(&e, &open));
    Answer {
        text,
        envelope: Some(e),
    }
}

/// An edit or a combination. A replacement and a combination have `hard` off, every other edit keeps it. A
/// combination's values are here those without `hard`.
fn edit(op: &str, a: &[Arg]) -> Envelope {
    use Arg::*;
    let [E(e), rest @ ..] = a else {
        panic!("driver: {op}")
    };
    if let Some(made) = made(op, &e.rust, rest) {
        return Envelope::soft(made);
    }
    let mut hard = e.hard;
    let mut r = e.rust.clone();
    match (op, rest) {
        ("set_enabled", [B(b)]) => r.enabled = *b,
        ("set_min", [O(x)]) => r.min_value = *x,
        ("set_max", [O(x)]) => r.max_value = *x,
        ("set_step", [O(x)]) => r.step_size = *x,
        ("set_hard", [B(b)]) => hard = *b,
        ("remove_point_at", [D(t)]) => drop(r.remove_point_at(*t)),
        _ => {
            let _ = match (op, rest) {
                ("add_point", [P(p)]) => r.add_point(p.clone()),
                ("shift", [D(t)]) => r.shift_points(*t),
                ("scale_time", [D(t)]) => r.scale_time(*t),
                ("trim", [D(s), D(t)]) => r.trim(*s, *t),
                ("reverse", []) => r.reverse(),
                ("invert_values", [F(x), F(y)]) => r.invert_values(*x, *y),
                ("quantize_time", [D(t)]) => r.quantize_time(*t),
                ("simplify", [F(x)]) => r.simplify(*x),
                ("normalize", [F(x), F(y)]) => r.normalize(*x, *y),
                ("scale", [F(x)]) => r.scale(*x),
                ("offset", [F(x)]) => r.offset(*x),
                ("clamp_values", [F(x), F(y)]) => r.clamp_values(*x, *y),
                ("apply_fade_in", [D(t), C(c)]) => r.apply_fade_in(*t, *c),
                ("apply_fade_out", [D(t), C(c)]) => r.apply_fade_out(*t, *c),
                ("apply_fades", [D(s), D(t), C(c)]) => r.apply_fades(*s, *t, *c),
                ("apply_gate", [F(x)]) => r.apply_gate(*x),
                ("apply_compression", [F(x), F(y)]) => r.apply_compression(*x, *y),
                ("merge", [E(o), D(t)]) => r.merge(&o.rust, *t),
                ("merge_points", [L(l), D(t)]) => r.merge(&of_points(l).rust, *t),
                _ => panic!("driver: {op}"),
            };
        }
    }
    Envelope { rust: r, hard }
}

/// What a replacement or a combination makes.
fn made(op: &str, e: &RustEnvelope, rest: &[Arg]) -> Option<RustEnvelope> {
    use Arg::*;
    Some(match (op, rest) {
        ("fade_in", [D(t), C(c)]) => RustEnvelope::fade_in(e.target, *t, *c),
        ("fade_out", [D(t), C(c)]) => RustEnvelope::fade_out(e.target, *t, *c),
        ("pulse", [D(s), D(t), D(u), C(c)]) => RustEnvelope::pulse(e.target, *s, *t, *u, *c),
        ("ramp", [D(t), F(x), F(y), C(c)]) => RustEnvelope::ramp(e.target, *t, *x, *y, *c),
        ("blend", [E(o), F(x)]) => e.blend(&o.rust, *x),
        ("add", [E(o)]) => e.add(&o.rust),
        ("multiply", [E(o)]) => e.multiply(&o.rust),
        ("min", [E(o)]) => e.min(&o.rust),
        ("max", [E(o)]) => e.max(&o.rust),
        ("subtract", [E(o)]) => e.subtract(&o.rust),
        _ => return None,
    })
}

/// The result with 01's signs at the zeros that the Rust leaves open, and which those are. A combination of
/// which either side is `hard` has its values by the rule alone.
fn settled(op: &str, a: &[Arg], got: Envelope) -> (Envelope, Vec<bool>) {
    use Arg::*;
    let values = match (op, a) {
        ("normalize", [E(e), F(lo), F(hi)]) => normalized(e, *lo, *hi),
        ("blend", [E(e), E(o), F(f)]) => Some(combined(e, o, op, *f)),
        (_, [E(e), E(o)]) => Some(combined(e, o, op, 0.0)),
        _ => None,
    };
    let Some(values) = values else {
        return (got.clone(), vec![]);
    };
    let hard = |x: &Arg| matches!(x, E(e) if e.hard);
    let by_rule = op != "normalize" && a.iter().any(hard);
    hold(values.len() == got.rust.points.len(), "the number of points");
    let mut r = got;
    for (p, v) in r.rust.points.iter_mut().zip(&values) {
        hold(by_rule || same(p.value, *v), op);
        p.value = v.0;
    }
    (r, values.iter().map(|v| v.1).collect())
}

/// What a combination gives at each time of either envelope, each looked up with its own `hard`.
fn combined(e: &Envelope, o: &Envelope, op: &str, f: f32) -> Vec<Marked> {
    let (bare_e, bare_o, f) = (bare(e), bare(o), f.clamp(0.0, 1.0));
    let mut times: Vec<f64> = e
        .rust
        .points
        .iter()
        .chain(&o.rust.points)
        .map(|p| p.time)
        .collect();
    times.sort_by(f64::total_cmp);
    times.dedup_by_key(|t| t.to_bits());
    let value = |t: f64| {
        let (x, open_x) = rules::value_at(e, &bare_e, t).unwrap_or((0.0, false));
        let (y, open_y) = rules::value_at(o, &bare_o, t).unwrap_or((0.0, false));
        let (v, open) = match op {
            "blend" => (x * (1.0 - f) + y * f, false),
            "add" => (x + y, false),
            "multiply" => (x * y, false),
            "subtract" => (x - y, false),
            "min" => rules::min(x, y),
            _ => rules::max(x, y),
        };
        (v, (open_x || open_y || open) && v == 0.0)
    };
    times.into_iter().map(value).collect()
}

/// What normalize gives, where it changes something.
fn normalized(e: &Envelope, lo: f32, hi: f32) -> Option<Vec<Marked>> {
    let (mut least, mut most, mut open) = (f32::INFINITY, f32::NEG_INFINITY, false);
    for p in &e.rust.points {
        let (low, open_low) = rules::min(least, p.value);
        let (high, open_high) = rules::max(most, p.value);
        (least, most) = (low, high);
        open |= open_low || open_high;
    }
    let range = most - least;
    let value = |v: f32| lo + (v - least) / range * (hi - lo);
    (range > 0.0).then(|| {
        let values = e.rust.points.iter().map(|p| value(p.value));
        values.map(|v| (v, open && v == 0.0)).collect()
    })
}

/// The least and the most of values met one after the other.
struct Range {
    least: Marked,
    most: Marked,
}

impl Range {
    fn new() -> Self {
        Range {
            least: (f32::INFINITY, false),
            most: (f32::NEG_INFINITY, false),
        }
    }

    fn meet(&mut self, v: Marked) {
        self.least = met(rules::min, self.least, v);
        self.most = met(rules::max, self.most, v);
    }

    /// By the rule alone: none if the least isn't finite.
    fn found(&self) -> Option<(f32, f32)> {
        self.least.0.is_finite().then_some((self.least.0, self.most.0))
    }

    fn text(&self, got: Option<(f32, f32)>) -> String {
        let Some((a, b)) = got else {
            hold(!self.least.0.is_finite(), "a range that is none");
            return "none".into();
        };
        hold(a == self.least.0 && b == self.most.0, "a range");
        let end = |v: Marked, rust: f32| marked(v.0, v.1 || rust.to_bits() != v.0.to_bits());
        format!("pair {} {}", end(self.least, a), end(self.most, b))
    }
}

fn met(pick: fn(f32, f32) -> Marked, so_far: Marked, v: Marked) -> Marked {
    let (w, both) = pick(so_far.0, v.0);
    let replaced = w.to_bits() != so_far.0.to_bits();
    let again = so_far.0.to_bits() == v.0.to_bits() && v.1;
    (
        w,
        if both {
            true
        } else if replaced || again {
            v.1
        } else {
            so_far.1
        },
    )
}

fn range(e: &Envelope, from: f64, to: f64) -> String {
    let (bare, step, mut r) = (bare(e), (to - from) / 100.0, Range::new());
    for i in 0..=100 {
        if let Some(v) = rules::value_at(e, &bare, from + step * i as f64) {
            r.meet(v);
        }
    }
    for p in e.rust.points.iter().filter(|p| p.time >= from && p.time <= to) {
        r.meet((p.value, false));
    }
    r.text(if e.hard {
        r.found()
    } else {
        e.rust.get_range(from, to)
    })
}

fn range_samples(e: &Envelope, from: u64, to: u64) -> String {
    let (bare, mut r) = (bare(e), Range::new());
    if !e.rust.points.is_empty() {
        for k in (from..=to).step_by(stride(from, to) as usize) {
            if let Some(v) = rules::value_at_sample(e, &bare, k) {
                r.meet(v);
            }
        }
    }
    r.text(if e.hard {
        r.found()
    } else {
        e.rust.get_range_samples(from, to)
    })
}

/// 0 under two points, else from 0.001 before the time to 0.001 after it; held against the Rust's where the
/// envelope isn't hard.
fn slope(e: &Envelope, time: f64) -> Option<Marked> {
    let (bare, delta) = (bare(e), 0.001);
    let at = |t: f64| rules::value_at(e, &bare, t);
    let rise = |((v, open), (w, other)): (Marked, Marked)| ((w - v) / (2.0 * delta) as f32, open || other);
    let by_rule = if e.rust.points.len() < 2 {
        Some((0.0, false))
    } else {
        at(time - delta).zip(at(time + delta)).map(rise)
    };
    if e.hard {
        return by_rule;
    }
    let rust = e.rust.get_slope_at(time);
    hold(rust.is_some() == by_rule.is_some(), "a slope that is none");
    let (v, open) = by_rule?;
    hold(same(rust?, (v, open)), "a slope");
    Some((rust?, open))
}

/// A buffer of `len` places that held 4B000000 + i, with samples written from a place on.
fn buffer(len: u64, place: u64, samples: impl Iterator<Item = Marked>) -> String {
    let before = (0..len).map(|i| format!("{:08X}", 0x4B00_0000 + i as u32));
    let mut places: Vec<String> = before.collect();
    for ((v, open), k) in samples.zip(place as usize..) {
        if k >= places.len() {
            places.resize(k + 1, "outside".into());
        }
        places[k] = marked(v, open);
    }
    places.iter().fold(format!("buffer {len}"), |s, v| s + " " + v)
}

fn walk(e: &Envelope, rate: f64, duration: f64, calls: u64) -> String {
    let mut samples = e.rust.iter_samples(rate, duration);
    let (count, bare) = (samples.len(), bare(e));
    let mut s = format!("walk {count}");
    for _ in 0..calls {
        let place = count - samples.len();
        let some = samples
            .next()
            .map(|_| rules::value_at(e, &bare, place as f64 / rate).unwrap());
        let value = some.map_or("-".into(), |(v, open)| marked(v, open));
        s += &format!(" {value}/{}", count - samples.len());
    }
    s
}

/// Lookups, analyses, rendering and numbers.
fn lookup(op: &str, a: &[Arg]) -> String {
    use Arg::*;
    let some = |x: Option<Marked>| x.map_or("none".into(), |(v, o)| format!("some {}", marked(v, o)));
    let truth = |b: bool| (b as u8).to_string();
    let list = |l: Vec<(f64, f32)>| {
        let entries = l.iter().map(|(t, v)| format!(" {} {}", double(*t), single(*v)));
        format!("list {}{}", l.len(), entries.collect::<String>())
    };
    match (op, a) {
        ("value_at", [E(e), D(t)]) => some(rules::value_at(e, &bare(e), *t)),
        ("value_at_sample", [E(e), U(s)]) => some(rules::value_at_sample(e, &bare(e), *s)),
        ("slope_at", [E(e), D(t)]) => some(slope(e, *t)),
        ("range", [E(e), D(s), D(t)]) => range(e, *s, *t),
        ("range_samples", [E(e), U(s), U(t)]) => range_samples(e, *s, *t),
        ("peaks", [E(e), ..]) => list(e.rust.find_peaks()),
        ("valleys", [E(e), ..]) => list(e.rust.find_valleys()),
        ("render", [E(e), D(rate), N(first), N(count), N(place), N(len)]) => {
            let time = |i: u64| (first + i) as f64 / rate;
            let value = |i| rules::value_at(e, &bare(e), time(i)).unwrap_or((0.0, false));
            buffer(*len, *place, (0..*count).map(value))
        }
        ("to_buffer", [E(e), D(rate), D(duration), N(place), N(len)]) => {
            let value = |(i, rust): (usize, &f32)| {
                let v = rules::value_at(e, &bare(e), i as f64 / rate).unwrap_or((0.0, false));
                hold(e.hard || same(*rust, v), op);
                v
            };
            let samples = e.rust.to_buffer(*rate, *duration);
            buffer(*len, *place, samples.iter().enumerate().map(value))
        }
        ("walk", [E(e), D(rate), D(duration), N(calls)]) => walk(e, *rate, *duration, *calls),
        ("eq", [E(e), E(f)]) => truth(e.rust == f.rust && e.hard == f.hard),
        ("eq_exact", [E(e), E(f)]) => truth(e.rust.eq_exact(&f.rust) && e.hard == f.hard),
        ("point_eq", [P(p), P(q)]) => truth(p == q),
        ("point_eq_exact", [P(p), P(q)]) => truth(p.eq_exact(q)),
        ("valid", [E(e)]) => truth(valid(e)),
        ("sheet", [E(e), _]) => {
            let s = text::sheet(e);
            format!("bytes {} {}", s.len(), s.replace('\n', "|"))
        }
        ("interpolate", [C(c), F(x), F(y), F(t)]) => single(c.interpolate(*x, *y, *t)),
        ("roundf", [F(x)]) => single(libm::roundf(*x)),
        ("round", [D(x)]) => double(libm::round(*x)),
        ("sqrtf", [F(x)]) => single(libm::sqrtf(*x)),
        ("square", [F(x)]) => single(libm::powf(*x, 2.0)),
        ("narrow", [D(x)]) => single(*x as f32),
        ("u64_to_f32", [U(x)]) => single(*x as f32),
        ("f64_to_u64", [D(x)]) => word(*x as u64),
        ("total_cmp", [D(x), D(y)]) => (x.total_cmp(y) as i8).to_string(),
        ("fmax", [F(x), F(y)]) => either(op, x.max(*y), rules::max(*x, *y)),
        ("fmin", [F(x), F(y)]) => either(op, x.min(*y), rules::min(*x, *y)),
        _ => panic!("driver: {op}"),
    }
}

fn either(op: &str, rust: f32, v: Marked) -> String {
    hold(same(rust, v), op);
    marked(v.0, v.1)
}
