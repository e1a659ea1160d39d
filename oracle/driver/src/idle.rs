//! Idle edits of a session (request F-2): each operation with arguments that change no bit of an envelope.
use crate::calls::call;
use crate::edits::{beside, ratio, tolerance};
use crate::envelopes::NOT_FINITE;
use crate::forms::session_edits;
use crate::random::Random;
use crate::records::{empty_place, AutomationPoint, CurveType, Envelope};
use crate::same_bits::same_bits;
use crate::text::Arg::{self, *};

/// An edit of a session: its operation, and the arguments after the first envelope.
pub type Edit = (&'static str, Vec<Arg>);

/// What an edit makes of an envelope, if it is accepted.
pub fn given(e: &Envelope, (op, a): &Edit) -> Option<Envelope> {
    let a = [&[E(e.clone())], &a[..]].concat();
    call(op, &a, false).envelope
}

pub fn is_idle(e: &Envelope, edit: &Edit) -> bool {
    given(e, edit).is_some_and(|f| same_bits(e, &f))
}

/// An operation, and arguments with which it is idle on some envelopes.
type Way = (&'static str, fn(&mut Random, &Envelope) -> Vec<Arg>);

/// Every edit of a session has a row.
const WAYS: &[Way] = &[
    ("add_point", |r, e| vec![P(point_there(r, e))]),
    ("remove_point_at", |r, e| {
        let t = point_there(r, e).time;
        vec![D(beside(r, Some(t)))]
    }),
    ("shift", |r, e| vec![D(lost(r, times(e)))]),
    ("scale_time", |r, _| {
        let (early, any) = (at_most_zero(r), r.double());
        vec![D(r.one_of(&[1.0, early, any]))]
    }),
    ("trim", |r, e| vec![D(before(r, e)), D(-before(r, &turned(e)))]),
    ("reverse", |_, _| vec![]),
    ("invert_values", |r, e| {
        let v = point_there(r, e).value;
        vec![F(v), F(v)]
    }),
    ("quantize_time", |r, e| vec![D(grid(r, e))]),
    ("simplify", |r, e| {
        let about = tolerance(r, e);
        vec![F(r.one_of(&[-1.0, -0.0, 0.0, about]))]
    }),
    ("normalize", |_, e| {
        let (least, most) = range(e);
        vec![F(least), F(most)]
    }),
    ("scale", |r, _| {
        let any = ratio(r);
        vec![F(r.one_of(&[1.0, any]))]
    }),
    ("offset", |r, e| vec![F(lost(r, values(e)) as f32)]),
    ("clamp_values", |r, e| {
        let (least, most) = range(e);
        vec![F(at_most(r, least)), F(-at_most(r, -most))]
    }),
    ("apply_fade_in", |r, e| vec![D(short(r, e)), C(r.curve())]),
    ("apply_fade_out", |r, e| vec![D(short(r, e)), C(r.curve())]),
    ("apply_fades", |r, e| {
        vec![D(short(r, e)), D(short(r, e)), C(r.curve())]
    }),
    ("apply_gate", |r, e| {
        let (least, most) = range(e);
        let low = at_most(r, least);
        vec![F(r.one_of(&[low, most]))]
    }),
    ("apply_compression", |r, e| {
        let (least, most) = range(e);
        let (high, any) = (-at_most(r, -most), ratio(r));
        match r.below(3) {
            0 => vec![F(least), F(1.0)],
            _ => vec![F(high), F(any)],
        }
    }),
    ("merge", |r, e| {
        let (other, offset) = part_of(r, e);
        vec![E(other), D(offset)]
    }),
    ("set_enabled", |_, e| vec![B(e.rust.enabled)]),
    ("set_hard", |_, e| vec![B(e.hard)]),
    ("set_min", |_, e| vec![O(e.rust.min_value)]),
    ("set_max", |_, e| vec![O(e.rust.max_value)]),
    ("set_step", |_, e| vec![O(e.rust.step_size)]),
    ("fade_in", |_, e| made(e).0),
    ("fade_out", |_, e| made(e).0),
    ("ramp", |_, e| made(e).1),
    ("pulse", |_, e| pulse(e)),
    ("blend", |r, e| {
        let other = beside_it(r, e, 0.0);
        vec![E(other), F(r.one_of(&[0.0, -0.0, -1.0, 0.5, 1.0]))]
    }),
    ("add", |r, e| vec![E(beside_it(r, e, 0.0))]),
    ("subtract", |r, e| vec![E(beside_it(r, e, 0.0))]),
    ("multiply", |r, e| vec![E(beside_it(r, e, 1.0))]),
    ("min", |r, e| vec![E(beside_it(r, e, f32::MAX))]),
    ("max", |r, e| vec![E(beside_it(r, e, -f32::MAX))]),
];

impl Random {
    /// An idle edit of an operation, if some draws come to one.
    pub fn idle_by(&mut self, op: &'static str, e: &Envelope, draws: u64) -> Option<Edit> {
        let way = WAYS.iter().find(|w| w.0 == op);
        let (_, arguments) = way.unwrap_or_else(|| panic!("driver: no way for {op} to be idle"));
        (0..draws)
            .map(|_| (op, arguments(self, e)))
            .find(|edit| is_idle(e, edit))
    }

    /// An idle edit: of any operation that can be idle.
    pub fn idle_edit(&mut self, e: &Envelope) -> Edit {
        loop {
            // the settings can always be
            let op = self.one_of(&session_edits());
            if let Some(edit) = self.idle_by(op, e, 3) {
                return edit;
            }
        }
    }

    /// An edit that changes nothing and is mostly refused all the same: a number of it isn't finite, an
    /// envelope not valid, bounds crossed.
    pub fn refused_idle(&mut self, e: &Envelope) -> Edit {
        let (op, mut a) = self.idle_edit(e);
        let (number, last) = (self.one_of(&NOT_FINITE), self.once_in(2));
        match &mut a[..] {
            [F(_), F(high)] if op == "clamp_values" => *high = -f32::MAX,
            [D(x), ..] => *x = number,
            [E(_), D(x)] if last => *x = number,
            [F(x), ..] => *x = number as f32,
            [O(x)] => *x = Some(number as f32),
            [P(p)] => p.value = number as f32,
            [E(other), ..] => *other = self.spoiled(other.clone()),
            _ => {}
        }
        (op, a)
    }
}

// ---- what the arguments are made of

/// One of the points; without any, what an empty place holds.
pub fn point_there(r: &mut Random, e: &Envelope) -> AutomationPoint {
    match &e.rust.points[..] {
        [] => empty_place(),
        points => r.one_of(points),
    }
}

fn times(e: &Envelope) -> Vec<f64> {
    e.rust.points.iter().map(|p| p.time).collect()
}

fn values(e: &Envelope) -> Vec<f64> {
    e.rust.points.iter().map(|p| p.value.into()).collect()
}

/// The least value and the most.
fn range(e: &Envelope) -> (f32, f32) {
    let values = || e.rust.points.iter().map(|p| p.value);
    let least = values().min_by(f32::total_cmp);
    (
        least.unwrap_or(0.0),
        values().max_by(f32::total_cmp).unwrap_or(1.0),
    )
}

/// The envelope with its times turned about 0.
fn turned(e: &Envelope) -> Envelope {
    let mut t = e.clone();
    t.rust.points.reverse();
    t.rust.points.iter_mut().for_each(|p| p.time = -p.time);
    t
}

/// A grid, factor or duration for which 000 returns early.
fn at_most_zero(r: &mut Random) -> f64 {
    r.one_of(&[0.0, -0.0, -1.0, -0.25, -f64::MAX, -f64::from_bits(1)])
}

/// A number at most x.
fn at_most(r: &mut Random, x: f32) -> f32 {
    let below = x - 1.0;
    r.one_of(&[x, x, below, -f32::MAX])
}

/// A time at or before the first.
fn before(r: &mut Random, e: &Envelope) -> f64 {
    let first = e.rust.points.first().map_or(0.0, |p| p.time);
    r.one_of(&[first, first, first - 1.0, -f64::MAX])
}

/// A number that is lost where it is added to each of these: a zero, or less than the last place of the
/// least of them.
fn lost(r: &mut Random, numbers: Vec<f64>) -> f64 {
    let least = numbers.iter().fold(1.0, |least: f64, x| least.min(x.abs()));
    r.one_of(&[0.0, -0.0, least / 1e17, -least / 1e17, f64::from_bits(1)])
}

/// A grid that some or all times are on, or none.
fn grid(r: &mut Random, e: &Envelope) -> f64 {
    match r.below(5) {
        0 => at_most_zero(r),
        1 => point_there(r, e).time.abs(),
        2 => 2f64.powi(-(r.below(60) as i32)),
        3 => r.one_of(&[0.1, 0.125, 0.25, 0.5, 1.0]),
        _ => (point_there(r, e).time - point_there(r, e).time).abs(),
    }
}

/// A duration that no point but the first or the last lies within.
fn short(r: &mut Random, e: &Envelope) -> f64 {
    let early = at_most_zero(r);
    match e.rust.points[..] {
        [ref p, ref q, ..] if r.once_in(2) => (q.time - p.time) / 4.0,
        [_] if r.once_in(2) => 0.5,
        _ => early,
    }
}

/// A point as it is before it is moved. A zero of either sign leaves the time as it is.
pub fn moved_back(p: &AutomationPoint, offset: f64) -> AutomationPoint {
    let mut moved = p.clone();
    if offset != 0.0 {
        moved.time -= offset;
    }
    moved
}

/// An envelope of other settings, with none of the points, some or all; and how far they are to be moved.
pub fn part_of(r: &mut Random, e: &Envelope) -> (Envelope, f64) {
    let mut other = r.envelope_of(|_| 0);
    let none = r.once_in(4);
    if none {
        return (other, r.double());
    }
    let all = r.once_in(2);
    let offset = r.one_of(&[0.0, -0.0, -0.0, 0.5, -2.0]);
    for p in &e.rust.points {
        if all || r.once_in(2) {
            other.rust.points.push(moved_back(p, offset));
        }
    }
    (other, offset)
}

/// The point that isn't at 0, or the last: what a replacement was made with.
fn reach(e: &Envelope) -> AutomationPoint {
    let away = e.rust.points.iter().find(|p| p.time != 0.0);
    let point = away.or(e.rust.points.last()).cloned();
    point.unwrap_or(AutomationPoint::new(1.0, 1.0))
}

/// The arguments of fade_in and fade_out, and of ramp, that give an envelope of this form.
fn made(e: &Envelope) -> (Vec<Arg>, Vec<Arg>) {
    let far = reach(e);
    let start = e.rust.points.iter().find(|p| p.time == 0.0);
    let start = start.map_or(0.0, |p| p.value);
    (
        vec![D(far.time), C(far.curve)],
        vec![D(far.time), F(start), F(far.value), C(far.curve)],
    )
}

/// The arguments of pulse that give an envelope of this form.
fn pulse(e: &Envelope) -> Vec<Arg> {
    match &e.rust.points[..] {
        [_, p, q, s] => vec![D(p.time), D(q.time - p.time), D(s.time - q.time), C(p.curve)],
        _ => [0.0, 0.0, 0.0]
            .map(D)
            .into_iter()
            .chain([C(reach(e).curve)])
            .collect(),
    }
}

/// An envelope that a combination may leave no trace of: itself, one that is silent, or one with times of it
/// and the same value everywhere.
fn beside_it(r: &mut Random, e: &Envelope, value: f32) -> Envelope {
    let mut other = r.envelope_of(|_| 0);
    match r.below(4) {
        0 => return e.clone(),
        1 => return other,
        2 => other.rust.enabled = false,
        _ => (other.rust.min_value, other.rust.max_value, other.rust.step_size) = (None, None, None),
    }
    let mut points = e.rust.points.clone();
    points.retain(|_| r.once_in(2));
    for p in &mut points {
        (p.value, p.curve) = (value, CurveType::Linear);
    }
    other.rust.points = points;
    other
}
